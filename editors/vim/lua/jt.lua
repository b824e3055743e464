-- The language server of jt in Neovim 0.7 and later: require("jt").setup{context = "context.json"}
local M = {}

-- The settings, each of which `setup` may replace.
M.settings = {
  -- The program of the server. Another Python is {"/path/to/python", "-m", "jt", "lsp"}.
  cmd = { "python3", "-m", "jt", "lsp" },
  filetypes = { "jinja" },
  -- What marks the root of a project, beside a folder called templates.
  markers = { ".git", "pyproject.toml", "templates" },
  -- The folder of the templates below the root: `templates` by default, or else the root.
  folder = nil,
  -- A file with the context in JSON, below the root. Without one no template runs.
  context = nil,
  -- How templates are read: trim_blocks, lstrip_blocks, keep_trailing_newline, autoescape.
  options = nil,
  on_attach = nil,
}

local clients = {}

-- Returns the root of the project of a file.
local function root_of(file)
  local folder = vim.fn.fnamemodify(file, ":p:h")
  local first = folder
  while true do
    for _, marker in ipairs(M.settings.markers) do
      if vim.loop.fs_stat(folder .. "/" .. marker) then
        return folder
      end
    end
    local above = vim.fn.fnamemodify(folder, ":h")
    if above == folder then
      return first
    end
    folder = above
  end
end

-- Starts the server of a project, or takes the one that runs, for a buffer.
function M.attach(buffer)
  local file = vim.api.nvim_buf_get_name(buffer)
  if file == "" then
    return
  end
  local root = root_of(file)
  if not clients[root] then
    local settings = {
      folder = M.settings.folder,
      context = M.settings.context,
      options = M.settings.options,
    }
    clients[root] = vim.lsp.start_client({
      name = "jt",
      cmd = M.settings.cmd,
      root_dir = root,
      workspace_folders = { { uri = vim.uri_from_fname(root), name = root } },
      init_options = next(settings) and settings or vim.empty_dict(),
      on_attach = M.settings.on_attach,
      on_exit = function()
        clients[root] = nil
      end,
    })
  end
  if clients[root] then
    vim.lsp.buf_attach_client(buffer, clients[root])
  end
end

-- Starts the server for each buffer of a template.
function M.setup(settings)
  M.settings = vim.tbl_extend("force", M.settings, settings or {})
  local group = vim.api.nvim_create_augroup("jt", { clear = true })
  vim.api.nvim_create_autocmd("FileType", {
    group = group,
    pattern = M.settings.filetypes,
    callback = function(found)
      M.attach(found.buf)
    end,
  })
  for _, buffer in ipairs(vim.api.nvim_list_bufs()) do
    local is_template = vim.tbl_contains(M.settings.filetypes, vim.bo[buffer].filetype)
    if vim.api.nvim_buf_is_loaded(buffer) and is_template then
      M.attach(buffer)
    end
  end
  vim.api.nvim_create_autocmd({ "BufEnter", "CursorHold", "InsertLeave" }, {
    group = group,
    callback = function()
      if vim.tbl_contains(M.settings.filetypes, vim.bo.filetype) then
        pcall(vim.lsp.codelens.refresh)
      end
    end,
  })
end

return M
