-- MMIXAL debugged in neovim forward and back, by nvim-dap and `mmixview dap`: put `dofile("/path/to/mmixal-dap.lua")` into init.lua.
-- `:lua require("dap").step_back()` and `reverse_continue()` go back. This was not tried: Debian has no nvim-dap.
local dap = require("dap")

dap.adapters.mmixal = { type = "executable", command = "mmixview", args = { "dap" } }
dap.configurations.mmixal = {
  { type = "mmixal", request = "launch", name = "this program", program = "${file}", stopOnEntry = true },
  {
    type = "mmixal",
    request = "launch",
    name = "this program with arguments",
    program = "${file}",
    args = function()
      return vim.split(vim.fn.input("arguments: "), " ", { trimempty = true })
    end,
    stopOnEntry = true,
  },
}
