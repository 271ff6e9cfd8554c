-- Starts candesk's language server for a DBC file, in neovim from 0.7 on.
if vim.fn.executable("candesk-lsp") == 0 then
  return
end
local server = { name = "candesk", cmd = { "candesk-lsp" }, root_dir = vim.fn.getcwd(), init_options = vim.g.candesk_options }
if vim.lsp.start then
  vim.lsp.start(server)
  return
end
-- (0.7: one server for all files; a file that is read again isn't attached twice)
if not vim.g.candesk_client or not vim.lsp.get_client_by_id(vim.g.candesk_client) then
  vim.g.candesk_client = vim.lsp.start_client(server)
end
vim.lsp.buf_attach_client(0, vim.g.candesk_client)
