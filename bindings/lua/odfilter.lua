-- OData `$filter`, checked: the C library odfilter, over LuaJIT's FFI. For nginx with its Lua module, and OpenResty.
--
--     local odfilter = require("odfilter").load("/opt/odfilter/lib/libodfilter.so")
--     local product = odfilter.type(document, "Shop.Product")
--     local filter, fault = product:check_url("$top=5&$filter=Rating%20ge%203")
--
-- `filter` has `text`, `canonical`, and where its value stands in the query: `query:sub(value_start + 1, value_stop)`.
-- `fault` has `code`, `message`, and of a refused filter `text`, `start`, `stop`, in bytes from 0; of a refused query
-- `byte` or `option`. Both are nil where the query has no filter. What is the caller's mistake, and an allocation that
-- fails, is a Lua error. A type may be used by any code of its process that does not run at the same time.
local ffi = require "ffi"

ffi.cdef [[
typedef struct odfilter_handle odfilter_handle;
typedef struct odfilter_bytes { const char *at; size_t length; } odfilter_bytes;
typedef struct odfilter_buffer { char *at; size_t length; } odfilter_buffer;
typedef struct odfilter_answer {
  uint32_t fault, verdict; size_t start, stop; uint64_t number; size_t length, first; uint64_t rows, kept;
  size_t piece_start, piece_stop, value_start, value_stop;
} odfilter_answer;
uint32_t odfilter_read_schema(odfilter_bytes, odfilter_buffer, odfilter_handle **, odfilter_answer *);
uint32_t odfilter_find_type(const odfilter_handle *, odfilter_bytes, odfilter_handle **);
uint32_t odfilter_check_url(const odfilter_handle *, odfilter_bytes, odfilter_buffer, odfilter_handle **,
                            odfilter_answer *);
uint32_t odfilter_canonical(const odfilter_handle *, odfilter_buffer, odfilter_answer *);
uint32_t odfilter_fault_name(uint32_t, uint32_t, odfilter_buffer, odfilter_answer *);
uint32_t odfilter_fault_text(const odfilter_handle *, uint32_t, odfilter_bytes, odfilter_buffer,
                             const odfilter_answer *, odfilter_answer *);
uint32_t odfilter_free(odfilter_handle **);
uint32_t odfilter_fits(uint64_t);
]]

local OK, TOO_SMALL, NO_FILTER, TEXT_FAULT, TYPE_FAULT, QUERY_FAULT = 0, 4, 7, 17, 19, 20
local BAD_ESCAPE = 1
-- one answer and one buffer for all calls: none of them is under way when the next begins
local answer, written = ffi.new "odfilter_answer", ffi.new "odfilter_answer"
local buffer, size = ffi.new("char[?]", 4096), 4096
local library

local function bytes(text)
  return ffi.new("odfilter_bytes", text, #text)
end

-- the buffer, grown to so many bytes
local function room(least)
  if least > size then
    buffer, size = ffi.new("char[?]", least), least
  end
  return ffi.new("odfilter_buffer", buffer, size)
end

-- the text that a call writes into the buffer that it is given
local function text_by(call)
  repeat
    local status = call(room(tonumber(written.length)))
  until status ~= TOO_SMALL
  return ffi.string(buffer, written.length)
end

local function expect_ok(name, status)
  if status ~= OK then
    error(("odfilter_%s: status %d, fault %d"):format(name, status, answer.fault), 3)
  end
end

-- the handle that a call made, freed when it is collected
local function owned(place)
  return ffi.gc(place[0], function(handle)
    library.odfilter_free(ffi.new("odfilter_handle *[1]", handle))
  end)
end

local Type = {}
Type.__index = Type

local function fault_of(self, status, query, text)
  local fault = {}
  fault.code = text_by(function(into)
    return library.odfilter_fault_name(status, answer.fault, into, written)
  end)
  fault.message = text_by(function(into)
    return library.odfilter_fault_text(self.handle, status, bytes(text or query), into, answer, written)
  end)
  if text then
    fault.text, fault.start, fault.stop = text, tonumber(answer.start), tonumber(answer.stop)
  else
    fault[answer.fault == BAD_ESCAPE and "byte" or "option"] = tonumber(answer.number)
  end
  return fault
end

function Type:check_url(query)
  local place = self.place
  local status = library.odfilter_check_url(self.handle, bytes(query), room(#query), place, answer)
  if status == NO_FILTER then
    return nil, nil
  elseif status == QUERY_FAULT then
    return nil, fault_of(self, status, query)
  elseif status >= TEXT_FAULT and status <= TYPE_FAULT then
    return nil, fault_of(self, status, query, ffi.string(buffer, answer.length))
  end
  expect_ok("check_url", status)
  local filter = { text = ffi.string(buffer, answer.length) }
  filter.canonical = text_by(function(into)
    return library.odfilter_canonical(place[0], into, written)
  end)
  library.odfilter_free(place)
  filter.value_start, filter.value_stop = tonumber(answer.value_start), tonumber(answer.value_stop)
  return filter, nil
end

local odfilter = {}

-- the entity type of that name, of a CSDL JSON document
function odfilter.type(document, name)
  local schema, place = ffi.new "odfilter_handle *[1]", ffi.new "odfilter_handle *[1]"
  expect_ok("read_schema", library.odfilter_read_schema(bytes(document), room(0), schema, answer))
  local status = library.odfilter_find_type(schema[0], bytes(name), place)
  library.odfilter_free(schema)
  expect_ok("find_type", status)
  return setmetatable({ handle = owned(place), place = ffi.new "odfilter_handle *[1]" }, Type)
end

return {
  -- loads the shared library of that path
  load = function(path)
    library = ffi.load(path)
    if library.odfilter_fits(ffi.sizeof "odfilter_answer") ~= OK then
      error("odfilter: the library is newer than this module: its answers are longer", 2)
    end
    return odfilter
  end,
}
