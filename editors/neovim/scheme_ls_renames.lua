-- Renames in Neovim by scheme_ls: where the server refuses one, says what would change, and puts the places into the quickfix list, of
-- which the first is where the cursor can go with `:cc`.
--
-- Copy this file to ~/.config/nvim/plugin/ beside scheme_ls.lua.

-- `URI:LINE:CHARACTER`, as a place of the quickfix list.
local function place_in(text)
  local uri, line, character = text:match('^(%S+):(%d+):(%d+)$')
  if not uri then return nil end
  local name = uri:match('^%a[%w+.-]*://') and vim.uri_to_fname(uri) or uri
  return { filename = name, lnum = tonumber(line) + 1, col = tonumber(character) + 1 }
end

local function shown(place)
  return ('%s:%d:%d'):format(vim.fn.fnamemodify(place.filename, ':~:.'), place.lnum, place.col)
end

-- One side of a difference: a place where a name is bound, or words.
local function side(text)
  local place = place_in(text)
  if place then return 'the one bound at ' .. shown(place), place end
  return text:gsub('^standard ', 'the standard '):gsub('^unbound ', 'an unbound '), nil
end

local changes = {
  captured = 'the renamed name at %s would mean %s, and no more %s',
  shadowed = 'the name at %s would mean %s, and no more %s',
  quoted = 'the quoted symbol at %s would be %s, and no more %s',
  template = 'the macro at %s would have %s in its rules, and no more %s',
  export = 'the export at %s would give %s, and no more %s',
  structure = 'the program would have another shape at %s',
  broken = 'the program would have an error at %s',
}

-- What a refusal says in words, and its places.
local function words(message)
  local kind, at, from, to = message:match('^refused 9 (%a+) (%S+) from (.+) to (.+)$')
  local place = at and place_in(at)
  if place and changes[kind] then
    local before, binder = side(from)
    local after, other = side(to)
    return changes[kind]:format(shown(place), after, before), { place, other or binder }
  end
  local number, rest = message:match('^refused (%d) ?(.*)$')
  if number == '1' then return 'no name that is bound stands here', {} end
  if number == '2' then return rest:match(' (.*)$') .. ' is a standard name', {} end
  if number == '3' then return 'the new name is not one identifier', {} end
  if number == '4' then return 'this does not read: ' .. rest:match(' (.*)$'), {} end
  if number == '5' then return 'the new name has to begin with ' .. rest:match('^prefix lost (.*)$') .. ', and to go on', {} end
  if number == '6' then
    place = place_in(rest:match('^prefix clash (.*)$'))
    return 'the name at ' .. shown(place) .. ' would have two names', { place }
  end
  if number == '7' then
    place = place_in(rest:match('^broken (%S+) %d+$'))
    return 'there is an error at ' .. shown(place), { place }
  end
  if number == '8' then return 'this would be longer than 1 MiB: ' .. rest:match('^text too long (.*)$'), {} end
  return message, {}
end

local rename = vim.lsp.handlers['textDocument/rename']

vim.lsp.handlers['textDocument/rename'] = function(err, result, context, config)
  local client = vim.lsp.get_client_by_id(context.client_id)
  if not err or not client or client.name ~= 'scheme_ls' then return rename(err, result, context, config) end
  local text, places = words(err.message)
  if #places > 0 then
    for _, place in ipairs(places) do
      place.text = text
    end
    vim.fn.setqflist({}, ' ', { title = 'scheme_ls', items = places })
  end
  vim.notify('scheme_ls: not renamed: ' .. text, vim.log.levels.WARN)
end
