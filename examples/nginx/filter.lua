-- Checks the `$filter` of a request before it is passed on; nginx.conf says where. A query with a filter that is
-- accepted goes on by the filter's canonical text, one without a filter as it came, and any other is answered by 400
-- and the standard's error body. What goes on is the text that was checked, not what nginx made of it: `target`.
local odfilter = require("odfilter")

local NAMES = { ['"'] = '\\"', ["\\"] = "\\\\", ["\n"] = "\\n" }

-- a text in UTF-8 as JSON
local function quoted(text)
  return '"' .. text:gsub('[%c"\\]', function(byte)
    return NAMES[byte] or ("\\u%04x"):format(byte:byte())
  end) .. '"'
end

-- how many characters some UTF-8 has
local function width(text)
  return select(2, text:gsub("[^\128-\191]", ""))
end

-- the text of a filter, and below it a caret under each character of the fault, one at least
local function pointer(fault)
  local before, within = fault.text:sub(1, fault.start), fault.text:sub(fault.start + 1, fault.stop)
  local carets = (" "):rep(width(before)) .. ("^"):rep(math.max(width(within), 1))
  return fault.text:gsub("%c", "\239\191\189") .. "\n" .. carets
end

local function inner_error(fault)
  if fault.text then
    return (',"innererror":{"span":[%d,%d],"pointer":%s}'):format(fault.start, fault.stop, quoted(pointer(fault)))
  end
  local name = fault.byte and "byte" or fault.option and "option"
  return name and (',"innererror":{"%s":%d}'):format(name, fault[name]) or ""
end

local function refuse(fault)
  local body = ('{"error":{"code":%s,"message":%s,"target":"$filter"%s}}'):format(
    quoted(fault.code), quoted(fault.message), inner_error(fault))
  ngx.status = ngx.HTTP_BAD_REQUEST
  ngx.header.content_type = "application/json"
  ngx.header.content_length = #body
  ngx.print(body)
  return ngx.exit(ngx.HTTP_BAD_REQUEST)
end

-- what a path is refused for that holds a filter, as `/Products/$filter(Active)`, or may hold one: it is still escaped
-- when it has been decoded twice
local IN_PATH = { code = "BadPath", message = "A filter in a path is not checked here: write it as the option $filter." }

local function may_hold_filter(path)
  for _ = 1, 2 do
    path = path:gsub("%%(%x%x)", function(digits)
      return string.char(tonumber(digits, 16))
    end)
  end
  return path:lower():find("$filter", 1, true) or path:find("%%%x%x")
end

local filter = {}

-- the type of a schema's file, by the library of that path
function filter.read(library, schema, name)
  local file = assert(io.open(schema, "rb"))
  local document = file:read("*a")
  file:close()
  return odfilter.load(library).type(document, name)
end

-- sets `target`, for proxy_pass, of a request for entities of a type, or answers it
function filter.check(of_type)
  local path, query = ngx.var.request_uri:match("^(/[^?#]*)%??([^#]*)$")
  if not path then
    return ngx.exit(ngx.HTTP_BAD_REQUEST)
  end
  if may_hold_filter(path) then
    return refuse(IN_PATH)
  end
  local found, fault = of_type:check_url(query)
  if fault then
    return refuse(fault)
  elseif found then
    local value = ngx.escape_uri(found.canonical)
    query = query:sub(1, found.value_start) .. value .. query:sub(found.value_stop + 1)
  end
  ngx.var.target = query == "" and path or path .. "?" .. query
end

return filter
