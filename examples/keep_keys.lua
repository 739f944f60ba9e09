-- Tells cordkit-lsp each change of a file in neovim at once, gathering none (docs/EDITORS.md): require('keep_keys').start({ '*.txt' }), the words of
-- cordkit-lsp. A change is told by whole lines, which are looked up as they stand; cordkit-lsp finds what changed in them.
local M = { told = {} }

local function send(method, params, id)
  local body = vim.json.encode({ jsonrpc = '2.0', id = id, method = method, params = params })
  pcall(vim.fn.chansend, M.job, 'Content-Length: ' .. #body .. '\r\n\r\n' .. body)
end

-- Lines of a buffer, each with its end. A buffer without a line shows one, which its file has not.
local function lines_of(buffer, first, last)
  local function bytes() return vim.fn.wordcount().bytes end
  local lines = vim.api.nvim_buf_get_lines(buffer, first, last, true)
  if #lines == 0 or (#lines == 1 and lines[1] == '' and vim.api.nvim_buf_call(buffer, bytes) == 0) then return '' end
  return table.concat(lines, '\n') .. '\n'
end

local function tell(buffer, method, more)
  send('textDocument/' .. method, vim.tbl_extend('error', { textDocument = { uri = vim.uri_from_bufnr(buffer), version = 0, languageId = '', text = more.text } }, more))
end

-- The lines beside are told too: where something is put into the middle of a line, neovim 0.7 leaves out that this line is another.
local function change(_, buffer, _, first, last, new_last)
  local before, behind = math.min(first, 1), new_last < vim.api.nvim_buf_line_count(buffer) and 1 or 0
  local range = { start = { line = first - before, character = 0 }, ['end'] = { line = last + behind, character = 0 } }
  tell(buffer, 'didChange', { contentChanges = { { range = range, text = lines_of(buffer, first - before, new_last + behind) } } })
end

-- Where a tab takes the place of blanks, neovim 0.7 does not tell it: the line of the cursor is told once more.
local function line_again(it)
  local line = vim.api.nvim_win_get_cursor(0)[1]
  if M.told[it.buf] then change(nil, it.buf, nil, line - 1, line, line) end
end

local function open(buffer)
  tell(buffer, 'didOpen', { text = lines_of(buffer, 0, -1) })
  M.told[buffer] = true
  vim.api.nvim_buf_attach(buffer, false, {
    on_lines = change,
    on_reload = function() tell(buffer, 'didChange', { contentChanges = { { text = lines_of(buffer, 0, -1) } } }) end,
    on_detach = function() M.told[buffer] = nil tell(buffer, 'didClose', {}) end,
  })
end

function M.start(words)
  local seen = function(_, lines) local told = table.concat(lines, ' '):match('"message": "(.-)"}') if told then vim.notify(told) end end
  M.job = vim.fn.jobstart(vim.list_extend({ M.program or 'cordkit-lsp' }, words), { on_stdout = seen })
  send('initialize', { clientInfo = { name = 'Neovim' }, capabilities = { general = { positionEncodings = { 'utf-8' } } } }, 0)
  vim.api.nvim_create_autocmd({ 'BufReadPost', 'BufNewFile' }, { callback = function(it) if vim.bo[it.buf].buftype == '' then open(it.buf) end end })
  vim.api.nvim_create_autocmd({ 'TextChangedI', 'InsertLeave' }, { callback = line_again })
  vim.api.nvim_create_autocmd('BufWritePost', { callback = function(it) tell(it.buf, 'didSave', { text = lines_of(it.buf, 0, -1) }) end })
end

return M
