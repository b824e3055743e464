"""The messages of the language server: JSON-RPC over two streams, and the order of its work.

A change is answered at once by what is found in the changed template. What it means for other
templates, and runs for the context, come when no message waits.
"""
import json
import os
import queue
import threading
import time
from dataclasses import replace
from typing import IO, Any, Callable, Dict, List, Optional
from urllib.parse import unquote, urlsplit

from .._library import LIBRARY_VERSION
from .._templates import Options
from . import _answers, _context
from ._folder import Folder
from ._positions import Json, Lines
from ._verdicts import ERROR, Finding, check, nulls, to_json

# The errors of the protocol.
_NO_METHOD, _INTERNAL = -32601, -32603
# A message has at most this many bytes.
_MOST_BYTES = 67_108_864
# The seconds in which further findings are looked for: of a change at once, and afterwards.
_AT_ONCE, _LATER = 0.02, 0.5
# The seconds after a change in which nothing else is begun.
_PAUSE = 0.2
_CAPABILITIES: Json = {
    "textDocumentSync": {"openClose": True, "change": 2, "save": {"includeText": False}},
    "completionProvider": {"triggerCharacters": ["|", ".", "%", '"', "'"]},
    "hoverProvider": True,
    "definitionProvider": True,
    "referencesProvider": True,
    "documentSymbolProvider": True,
    "workspaceSymbolProvider": True,
    "foldingRangeProvider": True,
    "codeActionProvider": {"codeActionKinds": ["quickfix"]},
    "codeLensProvider": {"resolveProvider": False},
}


class Stream:
    """Messages over two streams of bytes, each with its length in front."""

    def __init__(self, source: IO[bytes], target: IO[bytes]) -> None:
        self.source, self.target = source, target

    def read(self) -> Optional[Json]:
        """Returns the next message, or `None` at the end of the stream.

        # Errors
        `ValueError` for bytes that are no message.
        """
        length = None
        while True:
            line = self.source.readline(4096)
            if not line:
                return None
            if not line.strip():
                break
            name, _, value = line.decode("ascii", "replace").partition(":")
            if name.strip().lower() == "content-length":
                length = int(value)
        if length is None or not 0 <= length <= _MOST_BYTES:
            raise ValueError("a message without a length")
        message = json.loads(self.source.read(length).decode())
        if not isinstance(message, dict):
            raise ValueError("a message that is no object")
        return message

    def write(self, message: Json) -> None:
        """Writes a message."""
        data = json.dumps({"jsonrpc": "2.0", **message}, ensure_ascii=False).encode(
            "utf-8", "replace"
        )
        self.target.write(b"Content-Length: %d\r\n\r\n" % len(data) + data)
        self.target.flush()


def _moved(finding: Finding, start: int, end: int, length: int) -> Optional[Finding]:
    """Returns a finding after a change of its source, or `None` if the change is in it."""
    first, last = finding.span
    if last <= start:
        return finding
    if first < end:
        return None
    step = length - (end - start)
    return replace(finding, span=(first + step, last + step), fixes=[])


class Server:
    """A language server for one client."""

    def __init__(self, stream: Stream) -> None:
        self.stream = stream
        self.root: Optional[str] = None
        self.settings: Json = {}
        self.folder: Optional[Folder] = None
        self.context: Optional[_context.Names] = None
        self.findings: Dict[str, List[Finding]] = {}
        # What the client shows of each template.
        self.shown: Dict[str, List[Dict[str, object]]] = {}
        self.lenses: Dict[str, str] = {}
        # The templates that are checked when no message waits, and those that are also run.
        self.waiting: List[str] = []
        self.changed_at = 0.0
        self.is_ending = False
        self.status: Optional[int] = None
        self.methods: Dict[str, Callable[[Json], Any]] = {
            "initialize": self.initialize,
            "shutdown": self.shutdown,
            "textDocument/completion": self.completion,
            "textDocument/hover": self.hover,
            "textDocument/definition": self.definition,
            "textDocument/references": self.references,
            "textDocument/documentSymbol": self.document_symbols,
            "textDocument/foldingRange": self.folding,
            "textDocument/codeAction": self.code_actions,
            "textDocument/codeLens": self.code_lenses,
            "workspace/symbol": self.workspace_symbols,
        }
        self.notices: Dict[str, Callable[[Json], None]] = {
            "exit": self.exit,
            "textDocument/didOpen": self.opened,
            "textDocument/didChange": self.changed,
            "textDocument/didClose": self.closed,
            "textDocument/didSave": self.saved,
            "workspace/didChangeConfiguration": self.configured,
            "workspace/didChangeWatchedFiles": self.files_changed,
        }

    # ---- the loop

    def serve(self) -> int:
        """Answers messages until the client ends, and returns the status of the process."""
        messages: "queue.Queue[Optional[Json]]" = queue.Queue()
        threading.Thread(target=self._read_all, args=(messages,), daemon=True).start()
        while self.status is None:
            try:
                message = messages.get(timeout=self.pause() if self.waiting else None)
            except queue.Empty:
                self.check_next()
                continue
            if message is None:
                return 0 if self.is_ending else 1
            self.take(message)
        return self.status

    def pause(self) -> float:
        """Returns the seconds for which no template is checked that waits: one may go on typing."""
        return max(0.0, self.changed_at + _PAUSE - time.monotonic())

    def _read_all(self, messages: "queue.Queue[Optional[Json]]") -> None:
        """Reads all messages, in a thread of its own."""
        try:
            while True:
                message = self.stream.read()
                messages.put(message)
                if message is None:
                    return
        except (ValueError, OSError):
            messages.put(None)

    def take(self, message: Json) -> None:
        """Answers a request, or takes a notice."""
        method, params = message.get("method"), message.get("params")
        if not isinstance(method, str):
            return
        params = params if isinstance(params, dict) else {}
        if "id" not in message:
            notice = self.notices.get(method)
            if notice is not None:
                self._guarded(notice, params)
            return
        answer: Json = {"id": message["id"]}
        if method not in self.methods:
            answer["error"] = {"code": _NO_METHOD, "message": f"no method {method}"}
        elif self.folder is None and self.root is None and method != "initialize":
            answer["result"] = None
        else:
            try:
                answer["result"] = self.methods[method](params)
            except Exception as error:
                answer["error"] = {"code": _INTERNAL, "message": f"{type(error).__name__}: {error}"}
        self.stream.write(answer)

    def _guarded(self, notice: Callable[[Json], None], params: Json) -> None:
        """Takes a notice. One that cannot be taken is told to the client, and changes nothing."""
        try:
            notice(params)
        except Exception as error:
            self.tell(1, f"jt: {type(error).__name__}: {error}")

    def tell(self, kind: int, text: str) -> None:
        """Shows a message to the user: an error is 1, a warning 2, an information 3."""
        self.stream.write(
            {"method": "window/showMessage", "params": {"type": kind, "message": text}}
        )

    # ---- the beginning and the end

    def initialize(self, params: Json) -> Json:
        folders = params.get("workspaceFolders") or []
        uri = folders[0]["uri"] if folders else params.get("rootUri")
        if uri:
            self.root = unquote(urlsplit(uri).path)
        self.settings = params.get("initializationOptions") or {}
        self.open_folder()
        return {
            "capabilities": _CAPABILITIES,
            "serverInfo": {"name": "jt", "version": LIBRARY_VERSION},
        }

    def shutdown(self, params: Json) -> None:
        self.is_ending = True
        self.waiting = []

    def exit(self, params: Json) -> None:
        self.status = 0 if self.is_ending else 1

    def configured(self, params: Json) -> None:
        # (A client without settings of its own may send none: those of the beginning stay.)
        given = (params.get("settings") or {}).get("jt")
        if isinstance(given, dict) and given != self.settings:
            self.settings = given
            self.open_folder()

    def open_folder(self) -> None:
        """Opens the folder of the templates, as the settings say."""
        if self.root is None:
            return
        given = self.settings.get("folder")
        if given is None:
            has_templates = os.path.isdir(os.path.join(self.root, "templates"))
            given = "templates" if has_templates else "."
        opened = self.folder.open if self.folder is not None else {}
        chosen = self.settings.get("options") or {}
        options = Options(**{key: bool(value) for key, value in chosen.items()})
        before = self.folder.path if self.folder is not None else None
        self.folder = Folder(os.path.join(self.root, given), options)
        if self.folder.path == before:
            for name, source in opened.items():
                self.folder.put(name, source)
        if not self.folder.is_whole:
            self.tell(2, f"jt: {self.folder.path} has too many files: set jt.folder")
        path = self.settings.get("context")
        self.context = _context.Names(os.path.join(self.root, path)) if path else None
        if self.context is not None and self.context.error is not None:
            self.tell(2, f"jt: {path}: {self.context.error}")
        self.waiting = list(self.folder.sources)

    # ---- documents

    def opened(self, params: Json) -> None:
        document = params["textDocument"]
        if self.root is None:
            self.root = os.path.dirname(unquote(urlsplit(document["uri"]).path))
            self.settings = {**self.settings, "folder": "."}
            self.open_folder()
        self.put(document["uri"], document["text"], _LATER)

    def changed(self, params: Json) -> None:
        name = self.name(params)
        if name is None:
            return
        assert self.folder is not None
        self.changed_at = time.monotonic()
        source = self.folder.sources.get(name, "")
        for change in params["contentChanges"]:
            start, end, text = 0, len(source), change["text"]
            if change.get("range") is not None:
                lines = Lines(source)
                start = lines.offset(change["range"]["start"])
                end = lines.offset(change["range"]["end"])
            source = source[:start] + text + source[end:]
            moved = [_moved(it, start, end, len(text)) for it in self.findings.get(name, [])]
            self.findings[name] = [it for it in moved if it is not None]
        self.put(params["textDocument"]["uri"], source)

    def closed(self, params: Json) -> None:
        self.put(params["textDocument"]["uri"], None)

    def saved(self, params: Json) -> None:
        if self.folder is not None:
            self.folder.read()
            self.later(list(self.folder.open))

    def files_changed(self, params: Json) -> None:
        if self.folder is not None:
            self.folder.read()
            self.later(list(self.folder.sources))

    def put(self, uri: str, source: Optional[str], seconds: float = _AT_ONCE) -> None:
        """Puts a source in the place of a template, and shows what is found in it."""
        name = self.folder.name_of(uri) if self.folder is not None else None
        if name is None:
            return
        assert self.folder is not None
        self.folder.put(name, source)
        if name in self.folder.sources:
            self.show(name, seconds, is_run=seconds == _LATER)
        else:
            self.forget(name)
        itself = [name] if seconds == _AT_ONCE else []
        self.later([*itself, *self.folder.dependents(name)])

    def later(self, names: List[str]) -> None:
        """Has templates checked when no message waits, before those that already wait."""
        self.waiting = [*names, *(it for it in self.waiting if it not in names)]

    def forget(self, name: str) -> None:
        """Takes back what was shown of a template."""
        if self.findings.pop(name, None) and self.folder is not None:
            self.publish(name, [])

    def check_next(self) -> None:
        """Checks the first template that waits."""
        name = self.waiting.pop(0)
        if self.folder is None:
            return
        if name in self.folder.sources:
            self.show(name, _LATER, is_run=name in self.folder.open, is_asked=False)
        else:
            self.forget(name)

    def show(self, name: str, seconds: float, is_run: bool, is_asked: bool = True) -> None:
        """Shows what is found in a template. It is run only if a context is configured."""
        assert self.folder is not None
        findings = check(self.folder, name, seconds).findings
        if seconds == _AT_ONCE:
            # (The warnings before the change are looked for again when no message waits.)
            findings += [it for it in self.findings.get(name, []) if it.severity > ERROR]
        else:
            findings += nulls(name, self.folder.sources[name], self.folder.outline(name))
            if self.context is not None:
                findings += self.run(name, self.context, is_run and not findings)
        findings.sort(key=lambda it: it.span)
        self.findings[name] = findings
        found = [to_json(self.folder, it) for it in findings]
        # (A client may wait for what a change comes to, even if it is what was there before.)
        if is_asked or self.shown.get(name) != found:
            self.publish(name, found)

    def run(self, name: str, context: _context.Names, is_run: bool) -> List[Finding]:
        """Returns what the context lacks for a template, and how a run of it ends."""
        assert self.folder is not None
        context.read()
        findings = list(_context.missing(self.folder, name, context))
        ran = _context.run(self.folder, name, context) if is_run else None
        self.lenses[name] = ran.said if ran is not None else ""
        if ran is not None and ran.finding is not None:
            findings.append(ran.finding)
        return findings

    def publish(self, name: str, diagnostics: List[Dict[str, object]]) -> None:
        """Sends what is found in a template to the client."""
        assert self.folder is not None
        self.shown[name] = diagnostics
        params = {"uri": self.folder.uri_of(name), "diagnostics": diagnostics}
        self.stream.write({"method": "textDocument/publishDiagnostics", "params": params})

    # ---- requests

    def name(self, params: Json) -> Optional[str]:
        """Returns the template of a request, or `None` if it is not in the folder."""
        if self.folder is None:
            return None
        name = self.folder.name_of(params["textDocument"]["uri"])
        return name if name in self.folder.sources else None

    def _asked(self, params: Json, answer: Callable[..., Any], *more: Any) -> Any:
        """Returns the answer about a position of a template."""
        name = self.name(params)
        if name is None or self.folder is None:
            return None
        at = self.folder.lines(name).offset(params["position"])
        return answer(self.folder, name, at, *more)

    def completion(self, params: Json) -> Any:
        return self._asked(params, _answers.completion, self.context)

    def hover(self, params: Json) -> Any:
        return self._asked(params, _answers.hover, self.context)

    def definition(self, params: Json) -> Any:
        return self._asked(params, _answers.definition)

    def references(self, params: Json) -> Any:
        return self._asked(params, _answers.references)

    def document_symbols(self, params: Json) -> Any:
        name = self.name(params)
        return _answers.symbols(self.folder, name) if name and self.folder else []

    def folding(self, params: Json) -> Any:
        name = self.name(params)
        return _answers.folding(self.folder, name) if name and self.folder else []

    def workspace_symbols(self, params: Json) -> Any:
        if self.folder is None:
            return []
        return _answers.workspace_symbols(self.folder, params.get("query", ""))

    def code_lenses(self, params: Json) -> Any:
        name = self.name(params)
        if not name or self.folder is None or not self.lenses.get(name):
            return []
        command = {"title": f"jt: {self.lenses[name]}", "command": ""}
        return [{"range": self.folder.lines(name).range(0, 0), "command": command}]

    def code_actions(self, params: Json) -> Any:
        """Returns the fixes of what is found in a range."""
        name = self.name(params)
        if not name or self.folder is None:
            return []
        lines, uri = self.folder.lines(name), params["textDocument"]["uri"]
        start = lines.offset(params["range"]["start"])
        end = lines.offset(params["range"]["end"])
        actions = []
        for finding in self.findings.get(name, []):
            if finding.span[0] > end or finding.span[1] < start:
                continue
            for fix in finding.fixes:
                edits = [
                    {"range": lines.range(first, last), "newText": text}
                    for first, last, text in fix.changes
                ]
                actions.append(
                    {
                        "title": fix.title,
                        "kind": "quickfix",
                        "diagnostics": [to_json(self.folder, finding)],
                        "edit": {"changes": {uri: edits}},
                    }
                )
        return actions
