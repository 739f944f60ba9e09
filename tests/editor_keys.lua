-- Edits by chance in neovim, told to cordkit-lsp; behind each the session's text is compared with the buffer's, in the form that the file has. Run by
-- tests/editor_keys.py, which gives FILE, SEED, COUNT, CLIENT (lsp, whole or own), PROGRAM and LISTING, where each operation that left another text is told.
local env = vim.env
local count, buffer = tonumber(env.COUNT), nil
math.randomseed(tonumber(env.SEED))
vim.cmd('set noswapfile shada= shiftwidth=4 hidden fileencodings=ucs-bom,utf-8,latin1')
local listing = io.open(env.LISTING, 'w')
local function tell(line) listing:write(line, '\n') listing:flush() end
local messages, client = {}, nil

local function request(method, params)
  local uri = vim.uri_from_bufnr(buffer)
  local arguments = { command = 'cordkit.kept', arguments = { uri } }
  local answers = vim.lsp.buf_request_sync(buffer, 'workspace/executeCommand', arguments, 60000)
  local answer = answers and answers[client]
  return answer and answer.result and answer.result.bytes or vim.inspect(answer)
end

local own = { waiting = {}, data = '' }
local function own_request()
  local keys = require('keep_keys')
  own.answer = nil
  local body = vim.json.encode({ jsonrpc = '2.0', id = 7, method = 'workspace/executeCommand', params = { command = 'cordkit.kept', arguments = { vim.uri_from_bufnr(buffer) } } })
  vim.fn.chansend(keys.job, 'Content-Length: ' .. #body .. '\r\n\r\n' .. body)
  vim.wait(60000, function() return own.answer ~= nil end, 2)
  return own.answer or 'none'
end

local function begin_lsp()
  local words = { env.PROGRAM, '*.txt' }
  if env.CLIENT == 'whole' then table.insert(words, '--whole') end
  vim.cmd('edit ' .. vim.fn.fnameescape(env.FILE))
  buffer = vim.api.nvim_get_current_buf()
  client = vim.lsp.start_client({ cmd = words, root_dir = vim.fn.getcwd(), handlers = { ['window/showMessage'] = function(_, it) tell('message ' .. it.message) end } })
  vim.lsp.buf_attach_client(buffer, client)
  vim.wait(20000, function() local it = vim.lsp.get_client_by_id(client) return it and it.initialized end, 5)
end

local function begin_own()
  package.path = env.EXAMPLES .. '/?.lua;' .. package.path
  local keys = require('keep_keys')
  keys.program = env.PROGRAM
  local start = vim.fn.jobstart
  vim.fn.jobstart = function(words, how)
    how.on_stdout = function(_, lines)
      own.data = own.data .. table.concat(lines, '\n')
      own.answer = own.data:match('"bytes": "(%x*)"}}') or own.answer
      if own.answer then own.data = '' end
    end
    return start(words, how)
  end
  keys.start({ '*.txt' })
  vim.cmd('edit ' .. vim.fn.fnameescape(env.FILE))
  buffer = vim.api.nvim_get_current_buf()
end

-- The bytes of a file with the buffer's text; `one_line` says of a buffer with an empty line whether the file has it, or else neovim does. `ended` says
-- whether the file's last line has an end.
local ended
local function wanted(one_line)
  local ending = ({ unix = '\n', dos = '\r\n', mac = '\r' })[vim.bo.fileformat]
  local lines = vim.api.nvim_buf_get_lines(buffer, 0, -1, true)
  local text = table.concat(lines, ending) .. (ended and ending or '')
  if #lines == 1 and lines[1] == '' and not one_line and (one_line == false or vim.fn.wordcount().bytes == 0) then text = '' end
  if vim.bo.fileencoding == 'latin1' then text = vim.fn.iconv(text, 'utf-8', 'latin1') end
  if vim.bo.bomb then text = '\239\187\191' .. text end
  return text
end
local function hex(text) return (text:gsub('.', function(byte) return ('%02x'):format(byte:byte()) end)) end

-- neovim does not tell where a buffer without a line gets an empty one, or loses it: its file is another then, as the next save shows.
local function is_wanted(got, what)
  if got == hex(wanted()) then return true end
  return not what:find('save') and (got == hex(wanted(true)) or got == hex(wanted(false)))
end

local bad, compared = 0, 0
local function compare(what)
  local got, want = (env.CLIENT == 'own' and own_request or request)(), hex(wanted())
  compared = compared + 1
  if not is_wanted(got, what) then
    bad = bad + 1
    tell(('differs %s: session %s, buffer %s'):format(what, got:sub(1, 200), want:sub(1, 200)))
  end
end

local escape, block, more = '\27', '\22', '\24'
local words = { 'a', 'the fox', '\t', 'x"\\y', '  ', 'ab\rcd', 'z\r', 'z', 'é', 'naïve', 'ü\r' }
if env.WIDE then vim.list_extend(words, { '日本語', '𐐀x', '🦊🦊', 'e\204\129' }) end
local function any(list) return list[math.random(#list)] end
local function go_anywhere()
  local line = math.random(vim.api.nvim_buf_line_count(buffer))
  local text = vim.api.nvim_buf_get_lines(buffer, line - 1, line, true)[1]
  pcall(vim.api.nvim_win_set_cursor, 0, { line, vim.str_byteindex(text, math.random(0, vim.str_utfindex(text))) })
end
local keys = {
  function() return any({ 'i', 'a', 'A', 'I', 'o', 'O' }) .. any(words) .. any(words) .. escape end,
  function() return any({ 'i', 'a' }) .. any(words) .. escape end,
  function() return any({ 'x', '3x', 'X', 'dw', 'db', 'D', 'dd', '2dd', 'J', '3J', 'gJ', '~', 'cwnew' .. escape, 'S' .. any(words) .. escape, 'rz', 's' .. any(words) .. escape }) end,
  function() return any({ 'yyp', 'yyP', 'yy3p', 'ywP', 'ddp', 'p', 'P', 'y2jP', 'gUU', 'guu', '>>', '<<', 'ylvp' }) end,
  function() return any({ 'u', 'uu', 'u\18', '\18', '5u', '3\18' }) end,
  function() return 'qaA' .. any(words) .. escape .. 'j0q' .. '2@a' end,
  function() return block .. any({ 'jj', 'j', 'jjl', 'G' }) .. any({ 'I' .. any(words) .. escape, 'd', 'cQ' .. escape, 'A,' .. escape, 'r-', 'y$P' }) end,
  function() return any({ 'vjd', 'Vjd', 'vjcX' .. escape, 'VjJ', 'vjp', 'Vj>', 'v3jy' }) end,
}
local lines = {
  function() return any({ 's/a/bb/g', '%s/o/00/g', '%s/0/o/', 's/$/!/', '%s/^/é/', '%s/é//g', '%s/ *$//' }) end,
  function() return any({ 'm0', 'm$', 't.', 't$', 'sort', 'sort!', 'g/zz/d', 'v/./d', 'earlier 3', 'later 2', 'normal! ggJ', 'undo', '1,2d', '$d', "put ='put text'", 'move +1' }) end,
  function() return any({ 'retab', 'left 2', 'right 40', 'center 30', 'g/^/m0', '2,3j', 'copy 0', '%s/\\n\\n/\\r/' }) end,
}

local function one()
  go_anywhere()
  if vim.api.nvim_buf_line_count(buffer) > 300 then vim.cmd('silent! 30,$d') return '30,$d' end
  local chosen
  if math.random(10) <= 7 then
    chosen = any(keys)()
  elseif math.random(30) == 1 then
    chosen = any({ 'ggdG', 'ggcGall new' .. escape, 'gg0dG' })
  else
    chosen = any(lines)()
    pcall(vim.cmd, 'silent! keeppatterns ' .. chosen)
    return chosen
  end
  pcall(vim.cmd, 'silent! normal! ' .. chosen)
  return chosen
end

if env.CLIENT == 'own' then begin_own() else begin_lsp() end
ended = vim.bo.endofline
compare('at the opening')
for number = 1, count do
  local what = one()
  if number % 50 == 0 then
    vim.cmd('silent write!')
    ended = ended or vim.bo.fixendofline
    what = 'a save'
  end
  compare(number .. ' ' .. vim.inspect(what))
end
vim.cmd('silent write!')
ended = true
local file = io.open(env.FILE, 'rb')
local disk = file:read('*a')
file:close()
if disk ~= wanted() then bad = bad + 1 tell('the file is not the buffer: ' .. hex(disk):sub(1, 300) .. ' and ' .. hex(wanted()):sub(1, 300)) end
compare('the last save')
tell(('compared %d differ %d'):format(compared, bad))
listing:close()
vim.cmd('qa!')
