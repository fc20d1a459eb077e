-- Faults, meaning and names of MMIXAL in neovim, by `mmixview lsp`: put `dofile("/path/to/mmixview.lua")` into init.lua.
-- `K` shows what is under the cursor, `gd` goes to the label, `gr` lists the uses of a name, `F2` changes it, `F3` sets the columns.
local function start(buffer)
  local client = vim.lsp.start_client({
    name = "mmixview",
    cmd = { "mmixview", "lsp" },
    root_dir = vim.fn.fnamemodify(vim.api.nvim_buf_get_name(buffer), ":p:h"),
  })
  if client == nil then
    return
  end
  vim.lsp.buf_attach_client(buffer, client)
  local function key(keys, call)
    vim.keymap.set("n", keys, call, { buffer = buffer })
  end
  key("K", vim.lsp.buf.hover)
  key("gd", vim.lsp.buf.definition)
  key("gr", vim.lsp.buf.references)
  key("<F2>", vim.lsp.buf.rename)
  key("<F3>", vim.lsp.buf.format or vim.lsp.buf.formatting)
  vim.bo[buffer].omnifunc = "v:lua.vim.lsp.omnifunc"
end

vim.api.nvim_create_autocmd("FileType", {
  pattern = "mmixal",
  callback = function(event)
    start(event and event.buf or vim.api.nvim_get_current_buf())
  end,
})
