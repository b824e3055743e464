// Starts the language server of jt for the templates of a workspace.
"use strict";
const { workspace } = require("vscode");
const { LanguageClient, TransportKind } = require("vscode-languageclient/node");

let client;

/** Returns the settings that the server takes at its beginning. */
function settings() {
  const given = workspace.getConfiguration("jt");
  const chosen = { options: given.get("options") || {} };
  for (const name of ["folder", "context"]) {
    if (given.get(name)) chosen[name] = given.get(name);
  }
  return chosen;
}

/** Starts the server. A change of a setting is sent to it. */
async function activate(context) {
  const python = workspace.getConfiguration("jt").get("python") || "python3";
  const server = { command: python, args: ["-m", "jt", "lsp"], transport: TransportKind.stdio };
  client = new LanguageClient("jt", "jt", server, {
    documentSelector: [{ scheme: "file", language: "jinja" }],
    initializationOptions: settings(),
    synchronize: { fileEvents: workspace.createFileSystemWatcher("**/templates/**") },
  });
  context.subscriptions.push(
    workspace.onDidChangeConfiguration((change) => {
      if (change.affectsConfiguration("jt")) {
        client.sendNotification("workspace/didChangeConfiguration", { settings: { jt: settings() } });
      }
    }),
  );
  await client.start();
}

/** Ends the server. */
function deactivate() {
  return client && client.stop();
}

module.exports = { activate, deactivate };
