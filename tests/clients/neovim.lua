-- What tests/clients/neovim.sh has Neovim do: the steps of the file STEPS, with the file that editors/neovim gives. It ends with
-- status 0 where every answer is as expected. SESSION_FILE is what tests/sessions/proxy writes down.
local here, room, program = os.getenv('HERE'), os.getenv('ROOM'), os.getenv('RECORDED')
local recording = os.getenv('SESSION_FILE')
local patience = 40000

local function fail(text)
  io.stderr:write('tests/clients/neovim.lua: ' .. text .. '\n')
  vim.cmd('cquit 1')
end

local function expect(what, got, want)
  if not vim.deep_equal(got, want) then
    fail(what .. ': got ' .. vim.inspect(got) .. ', and not ' .. vim.inspect(want))
  end
end

local function read(path)
  return vim.fn.json_decode(table.concat(vim.fn.readfile(path), '\n'))
end

local said = {} -- what the user was told
vim.notify = function(text) table.insert(said, text) end

local questions = read(here .. '/' .. os.getenv('STEPS'))

local function write(name, text)
  local path = room .. '/' .. name
  vim.fn.mkdir(vim.fn.fnamemodify(path, ':h'), 'p')
  vim.fn.writefile(text, path)
end

for name, text in pairs(questions.texts) do
  write(name, text)
end

-- What is recorded for rows is what `serve` answers. Else the file starts what it has, which neovim.sh put on the PATH.
if program ~= '' then vim.g.scheme_ls_cmd = { program, 'serve' } end
vim.g.scheme_ls_roots = vim.tbl_map(function(it) return room .. '/' .. it end, questions.roots or {})
vim.cmd('luafile ' .. here .. '/../../editors/neovim/scheme_ls.lua')
vim.cmd('luafile ' .. here .. '/../../editors/neovim/scheme_ls_renames.lua')

local client
local published = {} -- the versions of the lists that came last, by file

-- ---- places, in characters

local function inside_room(path)
  return path:sub(1, #room + 1) == room .. '/' and path:sub(#room + 2) or path
end

local function name_of(uri)
  return inside_room(vim.uri_to_fname(uri))
end

local function buffer_of(file)
  return vim.fn.bufnr(room .. '/' .. file)
end

local function characters(buffer, row, byte)
  local line = vim.api.nvim_buf_get_lines(buffer, row, row + 1, true)[1]
  return (vim.str_utfindex(line, byte))
end

local function byte_at(buffer, row, character)
  local line = vim.api.nvim_buf_get_lines(buffer, row, row + 1, true)[1]
  return vim.str_byteindex(line, character)
end

local function go(place)
  vim.cmd('buffer ' .. buffer_of(place[1]))
  vim.api.nvim_win_set_cursor(0, { place[2] + 1, byte_at(0, place[2], place[3]) })
end

local function cursor()
  local at = vim.api.nvim_win_get_cursor(0)
  return { inside_room(vim.fn.expand('%:p')), at[1] - 1, characters(0, at[1] - 1, at[2]) }
end

local function before(a, b)
  for i = 1, #a do
    if a[i] ~= b[i] then return a[i] < b[i] end
  end
  return false
end

-- The places of locations, as Neovim's own list of them has them, with their ends.
local function places(locations)
  local found = {}
  for i, item in ipairs(vim.lsp.util.locations_to_items(locations, client.offset_encoding)) do
    local file, row = inside_room(item.filename), item.lnum - 1
    vim.fn.bufload(buffer_of(file)) -- to count characters; it may not have been shown
    local stop = vim.lsp.util._get_line_byte_from_position(buffer_of(file), locations[i].range['end'], client.offset_encoding)
    table.insert(found, { file, row, characters(buffer_of(file), row, item.col - 1), characters(buffer_of(file), row, stop) })
  end
  return found
end

local function ask(method, more)
  local params = vim.tbl_extend('error', vim.lsp.util.make_position_params(0, client.offset_encoding), more or {})
  local answer = client.request_sync(method, params, patience, vim.api.nvim_get_current_buf())
  if not answer or answer.err then
    fail(method .. ': ' .. vim.inspect(answer))
  end
  return answer.result
end

-- What is marked in a namespace, by what its highlight stands for.
local function lit(namespace, groups)
  local found, buffer = {}, vim.api.nvim_get_current_buf()
  for _, mark in ipairs(vim.api.nvim_buf_get_extmarks(buffer, namespace, 0, -1, { details = true })) do
    local what = groups[mark[4].hl_group]
    if what then
      table.insert(found, { mark[2], characters(buffer, mark[2], mark[3]), characters(buffer, mark[2], mark[4].end_col), what })
    end
  end
  table.sort(found, before)
  return found
end

local function same_soon(get, want)
  vim.wait(patience, function() return vim.deep_equal(get(), want) end, 20)
  return get()
end

-- ---- what was sent

local read_until, opened, counts = 0, {}, {}

-- Reads on in the recording: which documents the server has open, and how many messages of each method it got.
local function read_on()
  local file = assert(io.open(recording))
  file:seek('set', read_until)
  for line in file:lines('*L') do
    if line:sub(-1) ~= '\n' then break end
    read_until = read_until + #line
    local body = line:sub(1, 1) == '<' and vim.fn.json_decode(line:sub(3)) or {}
    local method, uri = body.method, body.params and body.params.textDocument and body.params.textDocument.uri
    if method then counts[method] = (counts[method] or 0) + 1 end
    if method == 'initialize' then opened = {} end
    if method == 'textDocument/didOpen' then opened[uri] = true end
    if method == 'textDocument/didClose' then opened[uri] = nil end
  end
  file:close()
end

-- ---- steps

local steps = {}

-- Waits for a client that is another than the last.
local function new_client()
  local last = client
  local function found()
    client = vim.lsp.get_active_clients()[1]
    return client and client ~= last and client.initialized
  end
  if not vim.wait(patience, found, 10) then fail('the server did not answer initialize') end
  -- Positions count in the first encoding that Neovim offers, or in utf-16 where it offers none.
  local general = vim.lsp.protocol.make_client_capabilities().general or {}
  local offered = general.positionEncodings or { 'utf-16' }
  expect('the agreed encoding', client.server_capabilities.positionEncoding, offered[1])
end

function steps.open(step)
  vim.cmd('edit ' .. room .. '/' .. step.open)
  if not client then new_client() end
  expect('the type of ' .. step.open, vim.bo.filetype, 'scheme')
end

-- Writes a file behind Neovim's back, which looks when it has the focus again.
function steps.write(step)
  write(step.write, step.lines)
  vim.cmd('doautocmd FocusGained')
end

-- Writes a file of so many bytes, the last line of them a comment.
function steps.fill(step)
  local head = table.concat(step.lines, '\n') .. '\n;'
  write(step.fill, vim.split(head .. string.rep('x', step.bytes - #head - 1), '\n'))
end

-- Puts a last line of so many bytes into a buffer, and takes it away again.
function steps.grow(step)
  vim.cmd('buffer ' .. buffer_of(step.grow))
  vim.api.nvim_buf_set_lines(0, -1, -1, true, { ';' .. string.rep('x', step.bytes - 2) })
end

function steps.shrink(step)
  vim.cmd('buffer ' .. buffer_of(step.shrink))
  vim.api.nvim_buf_set_lines(0, -2, -1, true, {})
end

-- Opens so many files, 1.scm and on.
function steps.many(step)
  for number = 1, step.many do
    write(number .. '.scm', step.lines)
    steps.open({ open = number .. '.scm' })
  end
end

function steps.save_as(step)
  vim.cmd('buffer ' .. buffer_of(step.save_as))
  vim.cmd('silent saveas ' .. room .. '/' .. step.to)
  vim.cmd('bwipeout ' .. buffer_of(step.save_as)) -- Neovim keeps the old name in a list of its own
end

-- Gives a file another name, and its buffer too.
function steps.rename(step)
  vim.cmd('buffer ' .. buffer_of(step.rename))
  vim.cmd('silent write')
  vim.fn.rename(room .. '/' .. step.rename, room .. '/' .. step.to)
  vim.cmd('silent file ' .. room .. '/' .. step.to)
  vim.cmd('silent write!')
  vim.cmd('bwipeout ' .. buffer_of(step.rename)) -- Neovim keeps the old name in a list of its own
end

function steps.kill()
  vim.loop.kill(client.rpc.pid, 'sigkill')
  new_client()
end

-- What the server would log, to the handler that the client has for it.
function steps.logged(step)
  local handler = client.handlers['window/logMessage']
  handler(nil, { type = step.level, message = step.logged }, { method = 'window/logMessage', client_id = client.id })
end

-- The documents that the server has open.
function steps.served(step)
  local function names()
    read_on()
    local found = vim.tbl_map(name_of, vim.tbl_keys(opened))
    table.sort(found)
    return found
  end
  local first, last = unpack(step.numbered or { 1, 0 })
  for number = first, last do
    table.insert(step.served, number .. '.scm')
  end
  table.sort(step.served)
  expect('the documents that are open', same_soon(names, step.served), step.served)
end

-- How often something was told.
function steps.said(step)
  local function times()
    return #vim.tbl_filter(function(text) return text:find(step.said, 1, true) end, said)
  end
  expect('how often was said: ' .. step.said .. '; of ' .. vim.inspect(said), same_soon(times, step.times), step.times)
end

function steps.close(step)
  local buffer = buffer_of(step.close)
  local uri = vim.uri_from_bufnr(buffer)
  read_on()
  local was_open, closed = opened[uri], counts['textDocument/didClose'] or 0
  vim.cmd('bwipeout! ' .. buffer)
  local function is_told()
    read_on()
    return not was_open or (counts['textDocument/didClose'] or 0) > closed
  end
  expect('whether ' .. step.close .. ' is closed', same_soon(is_told, true), true)
end

function steps.change(step)
  local buffer, range = buffer_of(step.change), step.range
  vim.cmd('buffer ' .. buffer)
  vim.api.nvim_buf_set_text(buffer, range[1], byte_at(buffer, range[1], range[2]), range[3], byte_at(buffer, range[3], range[4]), vim.split(step.text, '\n'))
  vim.cmd('doautocmd TextChanged')
end

-- Keys, as a person types them, behind a place; the text before them is kept for `undo`.
local before_keys

function steps.type(step)
  go({ step.type, unpack(step.at) })
  before_keys = vim.api.nvim_buf_get_lines(0, 0, -1, true)
  local past = step.at[2] >= (vim.str_utfindex(vim.api.nvim_get_current_line()))
  vim.api.nvim_feedkeys((past and 'A' or 'i') .. step.keys .. '\27', 'tx', true)
  vim.cmd('doautocmd TextChanged')
end

function steps.undo(step)
  vim.cmd('buffer ' .. buffer_of(step.undo))
  vim.cmd('silent undo')
  expect('the text after undo', vim.api.nvim_buf_get_lines(0, 0, -1, true), before_keys)
end

function steps.diagnostics(step)
  local buffer = buffer_of(step.diagnostics)
  local function list()
    if published[step.diagnostics] ~= vim.lsp.util.buf_versions[buffer] then return 'none of this version' end
    local found = {}
    for _, it in ipairs(vim.diagnostic.get(buffer)) do
      local told = it.user_data.lsp
      table.insert(found, { it.lnum, characters(buffer, it.lnum, it.col), characters(buffer, it.end_lnum, it.end_col), it.severity, told.code, it.message })
    end
    table.sort(found, before)
    return found
  end
  return same_soon(list, step.are)
end

function steps.definition(step)
  go(step.definition)
  local found = places(ask('textDocument/definition'))
  if #found == 1 then
    vim.lsp.buf.definition()
    local there = { unpack(found[1], 1, 3) }
    expect('where the cursor goes', same_soon(cursor, there), there)
  end
  return found
end

function steps.references(step)
  go(step.references)
  return places(ask('textDocument/references', { context = { includeDeclaration = true } }))
end

-- Renames what stands at a place, as a user does.
function steps.rename_name(step)
  go(step.rename_name)
  local answered
  local handler = vim.lsp.handlers['textDocument/rename']
  vim.lsp.handlers['textDocument/rename'] = function(...)
    handler(...)
    answered = true
  end
  local told = #said
  vim.lsp.buf.rename(step.to)
  vim.wait(patience, function() return answered or #said > told end, 10)
  vim.lsp.handlers['textDocument/rename'] = handler
  vim.cmd('doautocmd TextChanged')
  local text = said[told + 1] or ''
  if step.says and not text:find(step.says, 1, true) or not step.says and text ~= '' then fail('what is said of a rename: ' .. text) end
end

-- The text of a document, which may stand in a buffer that nobody has seen.
function steps.holds(step)
  local buffer = buffer_of(step.holds)
  return vim.api.nvim_buf_get_lines(buffer, 0, -1, true)
end

-- Where the list of places leads that a refusal left.
function steps.listed(step)
  vim.cmd('cc ' .. step.listed)
  return cursor()
end

-- The errors with which these requests were answered, by their numbers, and 0 for an answer.
local function errors_of(numbers)
  local found = {}
  for line in io.lines(recording) do
    local body = line:sub(1, 1) == '>' and vim.fn.json_decode(line:sub(3)) or {}
    if numbers[body.id] then found[body.id] = body.error and body.error.code or 0 end
  end
  return found
end

-- Changes a document so many times, each change sent by itself, which is work for a while.
local function change_often(times)
  for number = 1, times do
    local added = number % 2 == 1
    vim.api.nvim_buf_set_text(0, 0, 0, 0, added and 0 or 1, { added and ' ' or '' })
    client.notify('$/setTrace', { value = 'off' }) -- Neovim sends the change before it
  end
end

-- How many of these messages were sent since there were so many of them.
local function sent_since(method, count)
  read_on()
  return (counts[method] or 0) - count
end

-- Asks behind changes for a definition again and again, and cancels it at once. The server looks at what comes together, and may have to
-- part some request from its cancellation.
function steps.cancelled(step)
  go(step.cancelled)
  change_often(step.changes)
  local numbers, params = {}, vim.lsp.util.make_position_params(0, client.offset_encoding)
  for _ = 1, step.times do
    local sent, number = client.request('textDocument/definition', params, function() end, vim.api.nvim_get_current_buf())
    expect('whether a request was sent', sent, true)
    client.cancel_request(number)
    numbers[number] = true
  end
  local errors = {}
  vim.wait(patience, function()
    errors = errors_of(numbers)
    return vim.tbl_count(errors) == step.times
  end, 100)
  local cancelled = vim.tbl_filter(function(code) return code == -32800 end, errors)
  if vim.tbl_count(errors) ~= step.times or #cancelled == 0 then fail('cancelled requests are answered with ' .. vim.inspect(errors)) end
end

-- Whether the arrows that are asked for behind changes are cancelled by one more change, while the server is still at work.
function steps.overtaken(step)
  go(step.overtaken)
  local asked, cancelled = sent_since('scheme/arrows', 0), sent_since('$/cancelRequest', 0)
  change_often(step.changes)
  vim.cmd('doautocmd TextChanged')
  if not vim.wait(patience, function() return sent_since('scheme/arrows', asked) > 0 end, 10) then fail('no arrows are asked for') end
  change_often(2)
  vim.cmd('doautocmd TextChanged')
  expect('how many requests are cancelled', same_soon(function() return sent_since('$/cancelRequest', cancelled) end, 1), 1)
end

function steps.highlights(step)
  go(step.highlights)
  local namespace = vim.api.nvim_create_namespace('vim_lsp_references')
  vim.lsp.buf.clear_references()
  vim.lsp.buf.document_highlight()
  local groups = { LspReferenceText = 1, LspReferenceRead = 2, LspReferenceWrite = 3 }
  return same_soon(function() return lit(namespace, groups) end, step.are)
end

function steps.arrows(step)
  go(step.arrows)
  vim.cmd('doautocmd CursorMoved')
  local namespace = vim.api.nvim_create_namespace('scheme_ls_arrows')
  local groups = { SchemeBinder = 'binder', SchemeUse = 'use' }
  local function beside()
    local found = {}
    for _, mark in ipairs(vim.api.nvim_buf_get_extmarks(0, namespace, 0, -1, { details = true })) do
      if mark[4].virt_text then
        table.insert(found, { mark[2], (mark[4].virt_text[1][1]:gsub('─', '')) })
      end
    end
    return found
  end
  expect('what is lit', same_soon(function() return lit(namespace, groups) end, step.lit), step.lit)
  step.are = step.beside
  return beside()
end

-- ---- all of them

local publish = vim.lsp.handlers['textDocument/publishDiagnostics']
vim.lsp.handlers['textDocument/publishDiagnostics'] = function(err, result, context, config)
  local file = name_of(result.uri)
  publish(err, result, context, config)
  published[file] = result.version
end

for number, step in ipairs(questions.steps) do
  for kind, run in pairs(steps) do
    if step[kind] ~= nil then
      local ok, found = pcall(run, step)
      local what = 'step ' .. number .. ', ' .. kind .. ' ' .. vim.fn.json_encode(step[kind])
      if not ok then fail(what .. ': ' .. found) end
      if step.are then expect(what, found, step.are) end
    end
  end
end

local ended
local on_exit = client.config.on_exit
client.config.on_exit = function(code, ...)
  ended = code
  on_exit(code, ...)
end
vim.lsp.stop_client(client.id)
if not vim.wait(patience, function() return ended ~= nil end, 10) then
  fail('the server did not end')
end
expect('the status after shutdown and exit', ended, 0)
vim.wait(200, function() return false end)
expect('another server', vim.lsp.get_client_by_id(client.id + 1), nil)
print('tests/clients/neovim.lua: ' .. #questions.steps .. ' steps passed\n')
vim.cmd('quitall!')
