-- Where nvim-dap is loaded later, `require("dap_balsa")` behind it does the same.
if pcall(require, "dap") then
  require("dap_balsa")
end
