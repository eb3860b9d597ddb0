-- Settings of nvim-dap for balsadbg: `require("dap_balsa")`, once nvim-dap is there.
local dap = require("dap")

dap.adapters.balsa = { type = "executable", command = "balsadbg", args = { "dap" } }
dap.configurations.balsa = {
  { type = "balsa", request = "launch", name = "Balsa: this file", program = "${file}", stopOnEntry = true },
}

vim.api.nvim_create_user_command("BalsaStepBack", function() dap.step_back() end, {})
vim.api.nvim_create_user_command("BalsaReverseContinue", function() dap.reverse_continue() end, {})
