-- Scheme in Neovim by scheme_ls: starts the server for Scheme files, opens what they import and include, and draws the arrows of the
-- name at the cursor.
--
-- Copy this file to ~/.config/nvim/plugin/scheme_ls.lua. Of a user's own it reads, where they are set before it is loaded:
--   vim.g.scheme_ls_cmd = { 'scheme_ls', 'serve', '--ahead' }   the command that is the server
--   vim.g.scheme_ls_arrows = true                               whether arrows are drawn; `:SchemeArrows` turns them on and off
-- and at any time:
--   vim.g.scheme_ls_roots = {}                                  further folders in which the files of libraries are looked for

local cmd = vim.g.scheme_ls_cmd or { 'scheme_ls', 'serve', '--ahead' }
local shown = vim.g.scheme_ls_arrows ~= false
local marks = vim.api.nvim_create_namespace('scheme_ls_arrows')
local widest = 100 -- columns; the line beside the text stands no farther right
local longest = 1000 -- lines; farther ends are marked, but no line joins them

local most = 64 -- documents; the server refuses further ones
local largest = 1048576 -- bytes; the server refuses longer texts
local tries, span = 5, 180000 -- so often at most the server is started within so many milliseconds

local pause = 100 -- milliseconds without a change before arrows are asked for
local waiting = vim.loop.new_timer()
local quiet = 300 -- milliseconds without a change before a buffer is looked at for imports; Neovim has sent the change by then
local looking = vim.loop.new_timer()

local server -- the number of the client that is running
local turn = 0 -- grows with each change of what is open: what was answered before it is old
local answers = {} -- by buffer: the arrows of its document, and the turn that they are of
local asking = {} -- by number: the turn of a request for arrows that isn't answered

vim.api.nvim_set_hl(0, 'SchemeBinder', { default = true, link = 'DiffAdd' })
vim.api.nvim_set_hl(0, 'SchemeUse', { default = true, link = 'Search' })
vim.api.nvim_set_hl(0, 'SchemeArrow', { default = true, link = 'Special' })

-- ---- positions of the protocol

local function count(line, byte, encoding)
  if encoding == 'utf-8' then return byte end
  local chars, units = vim.str_utfindex(line, math.min(byte, #line))
  return encoding == 'utf-32' and chars or units
end

local function byte_of(line, character, encoding)
  if encoding == 'utf-8' then return math.min(character, #line) end
  local ok, byte = pcall(vim.str_byteindex, line, character, encoding ~= 'utf-32')
  return ok and byte or #line
end

local function encoding_of(client)
  return client.server_capabilities.positionEncoding or 'utf-16'
end

-- The position of the cursor.
local function here(client)
  local row, byte = unpack(vim.api.nvim_win_get_cursor(0))
  return { line = row - 1, character = count(vim.api.nvim_get_current_line(), byte, encoding_of(client)) }
end

local function begins(place, uri, at)
  local from = place.range.start
  return place.uri == uri and from.line == at.line and from.character == at.character
end

local function touches(place, uri, at)
  local from, to = place.range.start, place.range['end']
  return place.uri == uri and from.line == at.line and from.character <= at.character and at.character <= to.character
end

local function key(place)
  return table.concat({ place.uri, place.range.start.line, place.range.start.character }, ' ')
end

-- ---- which arrows belong to a name

-- The binders of the name that begins at a position, or else of one that it is inside of or at the end of.
local function binders_at(arrows, uri, at)
  for _, is_there in ipairs({ begins, touches }) do
    local found, any = {}, false
    for _, arrow in ipairs(arrows) do
      if is_there(arrow.from, uri, at) or is_there(arrow.to, uri, at) then
        found[arrow.key], any = true, true
      end
    end
    if any then return found end
  end
  return {}
end

-- The ends of the arrows from these binders, each once.
local function ends_of(arrows, binders)
  local ends, seen = {}, {}
  local function put(place, is_binder)
    local id = key(place) .. (is_binder and ' binder' or '')
    if not seen[id] then
      seen[id] = true
      table.insert(ends, { place = place, is_binder = is_binder })
    end
  end
  for _, arrow in ipairs(arrows) do
    if binders[arrow.key] then
      put(arrow.from, true)
      put(arrow.to, false)
    end
  end
  return ends
end

-- ---- drawing

-- What ends on each line of the buffer, and what lies in other documents.
local function sorted_out(ends, uri)
  local lines, others, first, last = {}, {}, nil, nil
  for _, it in ipairs(ends) do
    local row = it.place.range.start.line
    if it.place.uri == uri then
      lines[row] = lines[row] or {}
      lines[row][it.is_binder and 'binder' or 'use'] = true
      first, last = math.min(first or row, row), math.max(last or row, row)
    else
      local name = it.place.uri:match('[^/]*$') .. ':' .. (row + 1)
      table.insert(others, (it.is_binder and ' ● ' or ' ◀ ') .. name)
    end
  end
  local behind = table.concat(others, '', 1, math.min(#others, 3))
  if #others > 3 then behind = behind .. ' ' .. (#others - 3) .. ' more' end
  return lines, behind, first, last
end

local function corner(row, first, last, ends)
  if first == last then return '' end
  if row == first then return '╮' end
  if row == last then return '╯' end
  return ends and '┤' or '│'
end

-- Draws the line that joins the lines from `first` to `last` beside the text: ● is where a name is bound, ◀ where it is used. A line
-- may have a text of its own behind that.
local function draw_line(buffer, lines, first, last)
  if last - first > longest then
    for row in pairs(lines) do draw_line(buffer, lines, row, row) end
    return
  end
  local texts = vim.api.nvim_buf_get_lines(buffer, first, last + 1, false)
  local column = 0
  for i, text in ipairs(texts) do
    texts[i] = vim.fn.strdisplaywidth(text)
    column = math.max(column, math.min(texts[i], widest) + 3)
  end
  for row = first, last do
    local width, ends = texts[row - first + 1], lines[row]
    local mark = ends and ((ends.binder and '●' or '') .. (ends.use and '◀' or '')) or ''
    local fill = (first == last or not ends) and '' or string.rep('─', column - width - 1 - vim.fn.strdisplaywidth(mark))
    if ends or width < column then
      local text = mark .. fill .. corner(row, first, last, ends) .. (ends and ends.behind or '')
      vim.api.nvim_buf_set_extmark(buffer, marks, row, 0, {
        virt_text = { { text, 'SchemeArrow' } },
        virt_text_win_col = not ends and column or nil,
        hl_mode = 'combine',
        priority = 1, -- what others show behind the line, as diagnostics, comes behind it
      })
    end
  end
end

local function draw(buffer, client, arrows)
  vim.api.nvim_buf_clear_namespace(buffer, marks, 0, -1)
  local uri = vim.uri_from_bufnr(buffer)
  local at, encoding = here(client), encoding_of(client)
  local ends = ends_of(arrows, binders_at(arrows, uri, at))
  for _, it in ipairs(ends) do
    local range = it.place.range
    local line = it.place.uri == uri and vim.api.nvim_buf_get_lines(buffer, range.start.line, range.start.line + 1, false)[1]
    if line then
      vim.api.nvim_buf_set_extmark(buffer, marks, range.start.line, byte_of(line, range.start.character, encoding), {
        end_col = byte_of(line, range['end'].character, encoding),
        hl_group = it.is_binder and 'SchemeBinder' or 'SchemeUse',
      })
    end
  end
  local lines, behind, first, last = sorted_out(ends, uri)
  if first and last < vim.api.nvim_buf_line_count(buffer) then
    if lines[at.line] then lines[at.line].behind = behind end
    draw_line(buffer, lines, first, last)
  end
end

-- The client of a buffer whose arrows are to be drawn.
local function client_of(buffer)
  local client = server and vim.lsp.get_client_by_id(server)
  local ready = shown and client and client.initialized and vim.lsp.buf_is_attached(buffer, server)
  return ready and vim.bo[buffer].filetype == 'scheme' and client or nil
end

local function ask()
  local buffer, asked, sent, number = vim.api.nvim_get_current_buf(), turn, nil, nil
  local client = client_of(buffer)
  if not client or (answers[buffer] or {}).turn == turn then return end
  answers[buffer] = { turn = turn }
  sent, number = client.request('scheme/arrows', { textDocument = { uri = vim.uri_from_bufnr(buffer) } }, function(_, arrows)
    asking[number] = nil
    if turn ~= asked then return end
    for _, arrow in ipairs(arrows or {}) do
      arrow.key = key(arrow.from)
    end
    answers[buffer] = { turn = turn, arrows = arrows or {} }
    if buffer == vim.api.nvim_get_current_buf() and client_of(buffer) then draw(buffer, client, arrows or {}) end
  end, buffer)
  if sent then asking[number] = asked end
end

-- Cancels the requests for arrows whose answers would be old.
local function cancel_old(client)
  for number, asked in pairs(asking) do
    if asked ~= turn then
      asking[number] = nil
      client.cancel_request(number)
    end
  end
end

-- Draws the arrows of the name at the cursor. Where what is known of them is old they are asked for, when nothing has changed for a
-- while.
local function redraw()
  local buffer = vim.api.nvim_get_current_buf()
  local client, known = client_of(buffer), answers[buffer]
  if client and known and known.turn == turn then
    if known.arrows then draw(buffer, client, known.arrows) end
  elseif client then
    cancel_old(client)
    waiting:stop()
    waiting:start(pause, 0, vim.schedule_wrap(ask))
  end
end

local function clear()
  vim.api.nvim_buf_clear_namespace(0, marks, 0, -1)
end

-- ---- what the server has open

local docs = {} -- by uri: a buffer, whose changes Neovim's client sends, or the file of a library
local behind = {} -- the uris of these files, in the order in which they were found
local refused = {} -- by buffer: why it isn't given to the server, once that was said
local wire -- sends a notification to the server

local function tell(text, level)
  vim.notify('scheme_ls: ' .. text, level or vim.log.levels.WARN)
end

-- Whether a buffer is one for the server: a file of Scheme.
local function fits(buffer)
  if not vim.api.nvim_buf_is_loaded(buffer) or vim.bo[buffer].filetype ~= 'scheme' or vim.bo[buffer].buftype ~= '' then return false end
  local name = vim.api.nvim_buf_get_name(buffer)
  return (name:match('%.scm$') or name:match('%.sld$')) and not name:match('^%a[%w+.-]+://')
end

local function is_open(buffer)
  return (docs[vim.uri_from_bufnr(buffer)] or {}).buffer == buffer
end

local function text_of(buffer)
  local ending = ({ dos = '\r\n', mac = '\r' })[vim.bo[buffer].fileformat] or '\n'
  local text = table.concat(vim.api.nvim_buf_get_lines(buffer, 0, -1, true), ending)
  return vim.bo[buffer].eol and text .. ending or text
end

-- Whether the text of a buffer is longer than the server takes.
local function is_long(buffer)
  local lines = vim.api.nvim_buf_line_count(buffer)
  local size = vim.api.nvim_buf_get_offset(buffer, lines) -- each line with one byte that ends it
  if vim.bo[buffer].fileformat == 'dos' then size = size + lines end
  return size > largest + 2 or size > largest and #text_of(buffer) > largest
end

local function close(uri)
  if docs[uri] then
    docs[uri] = nil
    wire('textDocument/didClose', { textDocument = { uri = uri } })
  end
end

-- Whether a buffer can't be opened at the server. If so this is said, once.
local function refuse(buffer)
  local buffers = 0
  for _, doc in pairs(docs) do
    if doc.buffer and doc.buffer ~= buffer then buffers = buffers + 1 end
  end
  local why = is_long(buffer) and 'it is longer than 1 MiB' or buffers >= most and most .. ' files are open' or nil
  if why and not refused[buffer] then tell(vim.fn.bufname(buffer) .. " isn't given to the server: " .. why) end
  refused[buffer] = why
  return why
end

-- Opens a buffer at the server, with what Neovim's client would send where that is known. The files of libraries make room.
local function open_buffer(buffer, params)
  local uri = vim.uri_from_bufnr(buffer)
  close(uri)
  if refuse(buffer) then return end
  while vim.tbl_count(docs) >= most and behind[1] do
    close(table.remove(behind))
  end
  local tick = vim.api.nvim_buf_get_changedtick(buffer)
  docs[uri] = { buffer = buffer, tick = tick, whole = not params }
  turn = turn + 1
  wire('textDocument/didOpen', params or { textDocument = { uri = uri, languageId = 'scheme', version = tick, text = text_of(buffer) } })
end

-- Sends the whole text of a buffer.
local function send_whole(buffer, params)
  local uri, tick = vim.uri_from_bufnr(buffer), vim.api.nvim_buf_get_changedtick(buffer)
  params = params or { textDocument = { uri = uri, version = tick } }
  params.contentChanges = { { text = text_of(buffer) } }
  docs[uri].tick, docs[uri].whole = tick, false
  wire('textDocument/didChange', params)
end

local settle_soon, attach -- below

-- Takes the notifications that Neovim's client would send, and sends what the server can take: it would refuse too long a text or a 65th,
-- and a message of more than 8 MiB would end it.
local gates = {}

gates['textDocument/didOpen'] = function(params)
  open_buffer(vim.uri_to_bufnr(params.textDocument.uri), params)
  settle_soon()
end

gates['textDocument/didChange'] = function(params)
  local uri = params.textDocument.uri
  local doc = docs[uri] or {}
  if not doc.buffer then return end
  if is_long(doc.buffer) then
    close(uri)
    return settle_soon()
  end
  local size = 0
  for _, change in ipairs(params.contentChanges) do
    size = size + #change.text
  end
  if doc.whole or size > largest then return send_whole(doc.buffer, params) end
  doc.tick = vim.api.nvim_buf_get_changedtick(doc.buffer)
  wire('textDocument/didChange', params)
end

gates['textDocument/didClose'] = function(params)
  close(params.textDocument.uri)
  settle_soon()
end

local function set_gates(client)
  local notify, stop = client.rpc.notify, client.stop
  wire = notify
  client.stop = function(...) -- it was asked to end, so it isn't started again
    if client.id == server then server = nil end
    return stop(...)
  end
  client.rpc.notify = function(method, params)
    if client.id ~= server or not gates[method] then return notify(method, params) end
    gates[method](params)
    return true
  end
end

-- ---- which libraries and texts a text names

-- What is behind the comment between `#|` and `|#` that begins at a place. Such comments nest.
local function behind_block(text, i)
  local depth = 0
  repeat
    local at, _, mark = text:find('([#|][#|])', i)
    if not at then return #text + 1 end
    depth = depth + (mark == '#|' and 1 or mark == '|#' and -1 or 0)
    i = (mark == '#|' or mark == '|#') and at + 2 or at + 1
  until depth == 0
  return i
end

-- What is behind the string or name between two of the same marks that begins at a place.
local function behind_quoted(text, i)
  local mark = text:sub(i, i)
  repeat
    i = text:find('[\\' .. mark .. ']', i + 1) or #text + 1
    local escaped = text:sub(i, i) == '\\'
    if escaped then i = i + 1 end
  until not escaped
  return i + 1
end

-- The place behind white space and comments.
local function behind_space(text, i)
  while true do
    i = text:find('%S', i) or #text + 1
    if text:sub(i, i) == ';' then
      i = text:find('[\r\n]', i) or #text + 1
    elseif text:sub(i, i + 1) == '#|' then
      i = behind_block(text, i)
    else
      return i
    end
  end
end

-- The token at a place, and the place behind it: `(` of lists and vectors, a string without its last mark, the name of names, else what
-- is written.
local function token(text, i)
  local first = text:sub(i, i)
  if text:match('^#%w*%(', i) then return '(', text:find('(', i, true) + 1 end
  if first == '"' then
    local stop = behind_quoted(text, i)
    return text:sub(i, stop - 2), stop
  end
  if first == '|' then
    local stop = behind_quoted(text, i)
    return text:sub(i + 1, stop - 2), stop
  end
  if text:match("^[()'`,]", i) or text:sub(i, i + 1) == '#;' then
    local stop = text:sub(i, i + 1) == '#;' and i + 2 or i + 1
    return text:sub(i, stop - 1), stop
  end
  local stop = text:find('[%s()";|]', text:sub(i, i + 1) == '#\\' and i + 3 or i + 1) or #text + 1
  return text:sub(i, stop - 1), stop
end

-- The datum that begins at a place, a list as a table, and the place behind it. What `#;` drops isn't there.
local function read(text, i)
  local above, word = {}, nil
  while true do
    i = behind_space(text, i)
    if i > #text then return nil, i end
    word, i = token(text, i)
    local datum
    if word == '(' then
      table.insert(above, {})
    elseif word == '#;' then
      table.insert(above, word)
    elseif word == ')' then
      datum = table.remove(above)
      if type(datum) ~= 'table' then return nil, i end
    elseif not word:match("^['`,]$") then
      datum = word
    end
    if datum and above[#above] == '#;' then
      table.remove(above)
    elseif datum and #above == 0 then
      return datum, i
    elseif datum then
      table.insert(above[#above], datum)
    end
  end
end

local modifiers = { only = true, except = true, prefix = true, rename = true }

-- `a/b/c` for the name (a b c), also inside of an import set. None where no file has that name, and none for (scheme ...).
local function library(set)
  while type(set) == 'table' and modifiers[set[1]] and type(set[2]) == 'table' do
    set = set[2]
  end
  if type(set) ~= 'table' or #set == 0 or set[1] == 'scheme' then return nil end
  for _, part in ipairs(set) do
    if type(part) ~= 'string' or part:match('[/\\"%z]') or part:match('^%.*$') then return nil end
  end
  return table.concat(set, '/')
end

local including = { include = true, ['include-library-declarations'] = true }

-- The libraries that a text imports, in their order, those that it defines, and the strings that it includes; nothing where one of these
-- lists has no end. Every list that is headed by `import`, `define-library`, `include` or `include-library-declarations` counts, wherever
-- it stands, but those in comments, in strings and behind `#;` don't.
local function scan(text)
  local imports, defines, includes, i = {}, {}, {}, 1
  while true do
    i = text:find('[(";|#]', i)
    if not i then return imports, defines, includes end
    local first, two = text:sub(i, i), text:sub(i, i + 1)
    local inside = first == '(' and behind_space(text, i + 1)
    local word = inside and text:match('^[^%s()";|]+', inside)
    if first == ';' or two == '#|' then
      i = behind_space(text, i)
    elseif first == '"' or first == '|' or two == '#\\' then
      _, i = token(text, i)
    elseif two == '#;' then
      _, i = read(text, i + 2)
    elseif word == 'import' then
      local list
      list, i = read(text, i)
      if not list then return nil end
      for n = 2, #list do
        table.insert(imports, library(list[n]))
      end
    elseif including[word] then
      local list
      list, i = read(text, i)
      if not list then return nil end
      for n = 2, #list do
        if type(list[n]) == 'string' and list[n]:sub(1, 1) == '"' then table.insert(includes, list[n]:sub(2)) end
      end
    elseif word == 'define-library' then
      local name
      name, i = read(text, inside + #word)
      table.insert(defines, library(name))
    else
      i = inside or i + 1
    end
  end
end

-- ---- the files of libraries and of texts that are included

local known = {} -- by buffer: what its text imports, defines and includes
local files = {} -- by path: when a file was read, what it imports and includes, and its text until it is sent

-- The file of a library: looked for upwards from a folder, and then in the roots.
local function find(library_path, folder, roots)
  local function at(place)
    local path = place:gsub('/$', '') .. '/' .. library_path .. '.sld'
    local stat = vim.loop.fs_stat(path)
    if stat and stat.type == 'file' then return path, stat end
  end
  local last
  while folder ~= last do
    local path, stat = at(folder)
    if path then return path, stat end
    last, folder = folder, vim.fn.fnamemodify(folder, ':h')
  end
  for _, root in ipairs(roots) do
    local path, stat = at(root)
    if path then return path, stat end
  end
end

-- The file that a string means in a text of a folder, as the server joins it to the text's uri.
local function included(name, folder)
  if name:match('[\\?#%z]') or name:match('^//') then return nil end
  local uri = name
  if name:match('^/') then
    uri = 'file://' .. name
  elseif not name:match('^%a[%w+.-]*:') then
    uri = vim.uri_from_fname(folder .. '/') .. name
  end
  if not uri:match('^file:///') then return nil end
  local path = vim.fn.simplify(vim.uri_to_fname(uri))
  local stat = vim.loop.fs_stat(path)
  if stat and stat.type == 'file' then return path, stat end
end

-- The text of a file, if it is one that the server takes.
local function text_in(path)
  local file = io.open(path, 'rb')
  local text = file and file:read('*a')
  if file then file:close() end
  text = text and text:gsub('^\239\187\191', '')
  return text and #text <= largest and pcall(vim.fn.json_encode, text) and text or nil
end

-- What is known of a file, read anew where it has changed.
local function look_into(path, stat)
  local stamp = table.concat({ stat.mtime.sec, stat.mtime.nsec, stat.size }, ' ')
  if not files[path] or files[path].stamp ~= stamp then
    local text = stat.size <= largest + 3 and text_in(path) or nil
    if not text then tell(path .. " isn't opened: it is longer than 1 MiB, or isn't UTF-8") end
    local imports, _, includes = scan(text or '')
    files[path] = { stamp = stamp, text = text, taken = text ~= nil, imports = imports or {}, includes = includes or {} }
  end
  return files[path]
end

-- Looks at a buffer for what it imports, defines and includes, where it has changed. Answers whether that is other than it was.
local function look_at(buffer)
  local tick, old = vim.api.nvim_buf_get_changedtick(buffer), known[buffer] or { imports = {}, defines = {}, includes = {} }
  if tick == old.tick then return false end
  local imports, defines, includes = scan(text_of(buffer))
  local new = imports and { imports = imports, defines = defines, includes = includes } or old
  known[buffer] = vim.tbl_extend('force', new, { tick = tick })
  return not vim.deep_equal(vim.tbl_extend('force', new, { tick = 0 }), vim.tbl_extend('force', old, { tick = 0 }))
end

-- The buffers that are open, as where to begin with looking for libraries.
local function beginnings()
  local queue, found, seen = {}, {}, {}
  for _, buffer in ipairs(vim.tbl_filter(is_open, vim.api.nvim_list_bufs())) do
    look_at(buffer)
    local name = vim.api.nvim_buf_get_name(buffer)
    seen[vim.loop.fs_realpath(name) or name] = true
    for _, defined in ipairs(known[buffer].defines) do
      found[defined] = true
    end
    table.insert(queue, { folder = vim.fn.fnamemodify(name, ':h'), imports = known[buffer].imports, includes = known[buffer].includes })
  end
  return queue, found, seen
end

-- The files that have to be open: those of the libraries that the buffers import, those that they include, and what these import and
-- include, as many as there is room for. Of each library it is one file, and none where a buffer has the library.
local function wanted()
  local list, full = {}, false
  local queue, found, seen = beginnings()
  local room, roots = most - #queue, { vim.fn.getcwd(), unpack(vim.tbl_map(vim.fn.expand, vim.g.scheme_ls_roots or {})) }
  local function take(path, stat)
    local real = vim.loop.fs_realpath(path)
    local file = not seen[real] and look_into(path, stat)
    seen[real] = true
    if not file or not file.taken then return end
    if #list >= room then
      full = true
      return
    end
    table.insert(list, path)
    table.insert(queue, { folder = vim.fn.fnamemodify(path, ':h'), imports = file.imports, includes = file.includes })
  end
  local at = 1
  while queue[at] do
    for _, name in ipairs(queue[at].includes) do
      local path, stat = included(name, queue[at].folder)
      if path then take(path, stat) end
    end
    for _, name in ipairs(queue[at].imports) do
      local path, stat
      if not found[name] then path, stat = find(name, queue[at].folder, roots) end
      if path then
        found[name] = true
        take(path, stat)
      end
    end
    at = at + 1
  end
  return list, full
end

-- Opens such a file, or sends its text anew where it has changed.
local function open_file(path)
  local uri, file = vim.uri_from_fname(path), files[path]
  local doc = docs[uri]
  if doc and doc.stamp == file.stamp then return false end
  local text = file.text or text_in(path)
  file.text = nil
  if not text then return false end
  local version = doc and doc.version + 1 or 0
  docs[uri] = { stamp = file.stamp, version = version }
  if doc then
    wire('textDocument/didChange', { textDocument = { uri = uri, version = version }, contentChanges = { { text = text } } })
  else
    wire('textDocument/didOpen', { textDocument = { uri = uri, languageId = 'scheme', version = version, text = text } })
  end
  return true
end

local said_full

-- Opens and closes files, so that those that are wanted are open.
local function follow()
  local list, full = wanted()
  local uris = vim.tbl_map(vim.uri_from_fname, list)
  local changed = false
  for uri, doc in pairs(docs) do
    if not doc.buffer and not vim.tbl_contains(uris, uri) then
      close(uri)
      changed = true
    end
  end
  for _, path in ipairs(list) do
    changed = open_file(path) or changed
  end
  behind = uris
  if full and not said_full then tell('not all that is imported and included is open: the server takes ' .. most .. ' files') end
  said_full = full
  if changed then turn = turn + 1 end
end

-- ---- the server

local function running()
  local client = server and vim.lsp.get_client_by_id(server)
  return client and client.initialized and not client.is_stopped() and client or nil
end

-- Brings what is open at the server in line with Neovim's buffers, by the names that they have now, and with what they import.
local function settle()
  if not running() then return end
  local names = {}
  for _, buffer in ipairs(vim.api.nvim_list_bufs()) do
    if fits(buffer) and vim.lsp.buf_is_attached(buffer, server) then names[vim.uri_from_bufnr(buffer)] = buffer end
  end
  for uri, doc in pairs(docs) do
    if doc.buffer and doc.buffer ~= names[uri] then close(uri) end
  end
  for _, buffer in pairs(names) do
    if not is_open(buffer) then open_buffer(buffer) end
  end
  for buffer in pairs(refused) do -- it may fit by now
    attach(buffer)
  end
  follow()
end

local settling
settle_soon = function()
  if settling then return end
  settling = true
  vim.schedule(function()
    settling = false
    settle()
    redraw()
  end)
end

-- What the server logs as an error is shown.
local function logged(err, message, ...)
  if not message or message.type ~= vim.lsp.protocol.MessageType.Error then
    return vim.lsp.handlers['window/logMessage'](err, message, ...)
  end
  tell(message.message, vim.log.levels.ERROR)
end

local ended -- below
local starts = {} -- when the server was started
local said_tired

-- Starts the server and gives it the buffers, if it wasn't started too often of late.
local function start()
  local now = vim.loop.now()
  starts = vim.tbl_filter(function(time) return now - time < span end, starts)
  local tired = #starts >= tries
  if tired and not said_tired then tell(('the server was started %d times in %d minutes, and has ended'):format(tries, span / 60000)) end
  said_tired = tired
  if tired then return end
  table.insert(starts, now)
  docs, behind, asking = {}, {}, {}
  server = vim.lsp.start_client({
    name = 'scheme_ls',
    cmd = cmd,
    root_dir = vim.fn.getcwd(),
    handlers = { ['window/logMessage'] = logged },
    on_attach = function() vim.schedule(redraw) end,
    on_exit = ended,
  })
  if not server then return end
  set_gates(vim.lsp.get_client_by_id(server))
  for _, buffer in ipairs(vim.api.nvim_list_bufs()) do
    attach(buffer)
  end
end

-- A server that ends without being asked to is started again.
ended = function(_, _, id)
  vim.schedule(function()
    if id ~= server then return end
    server, turn = nil, turn + 1
    local namespace = vim.lsp.diagnostic.get_namespace(id)
    for _, buffer in ipairs(vim.api.nvim_list_bufs()) do
      if #vim.diagnostic.get(buffer, { namespace = namespace }) > 0 then vim.diagnostic.reset(namespace, buffer) end
    end
    if vim.v.exiting == vim.NIL then start() end
  end)
end

-- ---- when

local changes = {} -- by buffer: the tick of its last change that was seen
local changed = {} -- the buffers that have changed since they were looked at

-- Looks at the buffers that have changed, once they are left alone.
local function look()
  local buffers, others = changed, false
  changed = {}
  for buffer in pairs(buffers) do
    if fits(buffer) and running() then
      local doc = docs[vim.uri_from_bufnr(buffer)]
      if not is_open(buffer) then
        attach(buffer)
        settle_soon()
      else
        if doc.tick < changes[buffer] then send_whole(buffer) end -- changed while there was no server, Neovim's client misses changes
        others = look_at(buffer) or others
      end
    end
  end
  if others then
    follow()
    redraw()
  end
end

local function note_change(_, buffer, tick)
  turn = turn + 1
  changes[buffer] = tick or vim.api.nvim_buf_get_changedtick(buffer)
  changed[buffer] = true
  looking:stop()
  looking:start(quiet, 0, vim.schedule_wrap(look))
end

local function watch(buffer)
  if changes[buffer] then return end
  changes[buffer] = 0
  vim.api.nvim_buf_attach(buffer, false, {
    on_lines = note_change,
    on_reload = note_change,
    on_detach = function()
      changes[buffer], known[buffer], answers[buffer], refused[buffer] = nil, nil, nil, nil
      settle_soon()
    end,
  })
end

-- Gives a buffer to the server. It knows the documents that are open, wherever they lie: one serves all buffers.
attach = function(buffer)
  if not fits(buffer) then return end
  watch(buffer)
  if not server then return start() end
  if vim.lsp.buf_is_attached(buffer, server) or refuse(buffer) then return end
  vim.lsp.buf_attach_client(buffer, server)
  vim.keymap.set('n', 'gd', vim.lsp.buf.definition, { buffer = buffer, desc = 'Where the name is bound' })
  vim.keymap.set('n', 'gr', vim.lsp.buf.references, { buffer = buffer, desc = 'Where the name is used' })
end

local group = vim.api.nvim_create_augroup('scheme_ls', {})
local function on(events, pattern, callback)
  vim.api.nvim_create_autocmd(events, { group = group, pattern = pattern, callback = callback })
end

on({ 'BufNewFile', 'BufRead' }, { '*.scm', '*.sld' }, function()
  if vim.bo.filetype ~= 'scheme' then vim.bo.filetype = 'scheme' end
end)
on('FileType', 'scheme', function(event) attach(event.buf) end)
-- A buffer may have another name, and files may have changed.
on({ 'BufFilePost', 'BufWritePost', 'FocusGained' }, '*', function(event)
  if not server then return end
  attach(event.buf)
  settle_soon()
end)
on({ 'CursorMoved', 'CursorMovedI', 'BufEnter', 'TextChanged', 'TextChangedI' }, '*', redraw)
on('BufLeave', '*', clear)

vim.api.nvim_create_user_command('SchemeArrows', function()
  shown = not shown
  clear()
  redraw()
end, { desc = 'Turns the arrows of the name at the cursor on and off' })
