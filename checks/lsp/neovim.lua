-- What neovim's own client shows of a source, as JSON: its diagnostics, and the answers at a place.
-- The environment names the program, the source, the place (a line and a column, counted from 0) and the file that is written.
local program, source, target = vim.env.MMIXVIEW, vim.env.SOURCE, vim.env.TARGET
local line, column = tonumber(vim.env.LINE), tonumber(vim.env.COLUMN)

vim.cmd("edit " .. vim.fn.fnameescape(source))
local client = vim.lsp.start_client({ name = "mmixview", cmd = { program, "lsp" }, root_dir = vim.fn.getcwd() })
vim.lsp.buf_attach_client(0, client)
vim.wait(10000, function()
  local it = vim.lsp.get_client_by_id(client)
  return it and it.initialized
end)
vim.api.nvim_win_set_cursor(0, { line + 1, column })

local function ask(method, more)
  local params = vim.lsp.util.make_position_params(0, "utf-16")
  for name, value in pairs(more or {}) do
    params[name] = value
  end
  local answers = vim.lsp.buf_request_sync(0, "textDocument/" .. method, params, 10000) or {}
  for _, answer in pairs(answers) do
    return answer.result or answer.err or answer.error or vim.NIL
  end
  return vim.NIL
end

local told = {
  hover = ask("hover"),
  definition = ask("definition"),
  references = ask("references", { context = { includeDeclaration = true } }),
  rename = ask("rename", { newName = vim.env.NEW_NAME }),
}
told.diagnostics = {}
for _, it in ipairs(vim.diagnostic.get(0)) do
  table.insert(told.diagnostics, { line = it.lnum, from = it.col, to = it.end_col, code = it.code, severity = it.severity })
end
local out = io.open(target, "w")
out:write(vim.fn.json_encode(told))
out:close()
vim.cmd("qa!")
