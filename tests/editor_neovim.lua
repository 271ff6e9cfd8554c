-- Drives neovim's own client over the language server, and writes what it gets as lines of JSON to the file of TRIED_RESULTS.
local results = assert(io.open(os.getenv("TRIED_RESULTS"), "w"))
local patience = 15000

local function report(name, value)
  results:write(vim.fn.json_encode({ name, value }) .. "\n")
end

local function lines()
  return table.concat(vim.api.nvim_buf_get_lines(0, 0, -1, false), "\n") .. "\n"
end

local function diagnostics()
  local found = {}
  for _, it in ipairs(vim.diagnostic.get(0)) do
    table.insert(found, { it.lnum, it.col, it.end_col, it.severity, it.user_data.lsp.code })
  end
  table.sort(found, function(a, b) return a[1] < b[1] or a[1] == b[1] and a[2] < b[2] end)
  return found
end

-- The result of a request at a line and a column in bytes, both from 0.
local function ask(method, line, column, more)
  vim.api.nvim_win_set_cursor(0, { line + 1, column })
  local params = vim.tbl_extend("force", vim.lsp.util.make_position_params(0, "utf-16"), more or {})
  for _, answer in pairs(vim.lsp.buf_request_sync(0, method, params, patience) or {}) do
    return answer.result or vim.NIL
  end
  return vim.NIL
end

local function try()
  report("file type", vim.bo.filetype)
  report("syntax", { vim.fn.synIDattr(vim.fn.synID(4, 1, 1), "name"), vim.fn.synIDattr(vim.fn.synID(3, 21, 1), "name") })
  vim.wait(patience, function() return #vim.diagnostic.get(0) > 0 end, 5)
  report("diagnostics", diagnostics())
  -- a character of two units before the diagnostic, and one more line
  vim.api.nvim_buf_set_text(0, 17, 5, 17, 5, { "😀" })
  vim.api.nvim_buf_set_lines(0, -1, -1, false, { 'VAL_ 12 X 0 "😀ä"; VAL_ 13 X 0 "b" ;' })
  vim.wait(patience, function() return #diagnostics() == 3 end, 5)
  report("diagnostics after an edit", diagnostics())
  report("completion", vim.tbl_map(function(it) return it.label end, ask("textDocument/completion", 14, 10)))
  report("hover", ask("textDocument/hover", 14, 10).contents.value)
  report("outline", vim.tbl_map(function(it) return it.name end, ask("textDocument/documentSymbol", 0, 0)))
  vim.api.nvim_win_set_cursor(0, { 17, 24 })
  vim.lsp.buf.definition()
  vim.wait(patience, function() return vim.api.nvim_win_get_cursor(0)[1] == 5 end, 5)
  report("definition", vim.api.nvim_win_get_cursor(0))
  vim.lsp.util.apply_workspace_edit(ask("textDocument/rename", 14, 10, { newName = "Pace" }), "utf-16")
  report("renamed", lines())
  vim.cmd("edit! " .. os.getenv("TRIED_LOOSE"))
  vim.wait(patience, function() return #vim.lsp.buf_get_clients(0) > 0 end, 5)
  local format = vim.lsp.buf.format or vim.lsp.buf.formatting_sync
  vim.wait(500)
  if vim.lsp.buf.format then format({ timeout_ms = patience }) else format(nil, patience) end
  report("formatted", lines())
  vim.cmd("edit!")
  report("clients after reading again", #vim.lsp.buf_get_clients(0))
end

local is_done, fault = pcall(try)
if not is_done then
  report("fault", fault)
end
results:close()
vim.cmd("qa!")
