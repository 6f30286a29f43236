-- Calls of libbaggage.so.2 by LuaJIT's FFI, as OpenResty has it, and how a context travels in texts. Other calls are declared in the same way.
--
-- Contexts are strings of bytes. On a carrier of text a context is DATA.CHECK: base64url without padding of its bytes, a dot, and six letters, which
-- are base64url of the CRC-32 of the bytes. What was cut or damaged on the way is read as lost.
local bit = require('bit')
local ffi = require('ffi')

ffi.cdef [[
typedef struct { uint32_t status, code; size_t context, offset, size; } baggage_answer;
typedef struct { const char *bytes; size_t length; } baggage_span;
baggage_answer baggage_check(const char *context, size_t context_len);
baggage_answer baggage_join(uint32_t form, const baggage_span *inputs, size_t inputs_len, uint64_t budget, char *room, size_t room_len);
baggage_answer baggage_update(uint32_t form, const char *table, size_t table_len, const baggage_span *inputs, size_t inputs_len,
                              const char *writes, size_t writes_len, uint64_t budget, char *room, size_t room_len);
baggage_answer baggage_read_field(const char *table, size_t table_len, const char *context, size_t context_len, const char *name,
                                  size_t name_len, char *room, size_t room_len);
]]

local OK, ROOM, FORM_ONE, FORM_TWO, EXACT = 0, 2, 1, 2, 1
local NO_BUDGET = 0xffffffffffffffffULL

local M = {
    HEADER = 'terncommode', FOR_HEADER = 'terncommode-for', GRPC_KEY = 'terncommode-bin',
    -- How many bytes a context may have in a request's header, in a reply's, and in gRPC's metadata.
    REQUEST_BUDGET = 3000, REPLY_BUDGET = 2000, GRPC_BUDGET = 4000,
    -- How many bytes the text of a field may have: a stranger's context of a few thousand may have one of many millions.
    TEXT_LIMIT = 1048576,
    -- The context that was promised and can't be read.
    LOST = '\0',
}

-- What a call writes into a room that grows until it is long enough, and its code; or nothing, and the status, which is ROOM where that takes more
-- bytes than `most`.
local function made(length, call, most)
    while true do
        local room = ffi.new('char[?]', length)
        local answer = call(room, length)
        if answer.status == OK and answer.size <= (most or answer.size) then return ffi.string(room, answer.size), answer.code end
        if answer.status ~= ROOM and answer.status ~= OK then return nil, answer.status end
        length = tonumber(answer.size)
        if most and length > most then return nil, ROOM end
    end
end

-- A string, or an error that names the argument; a number isn't taken for one.
local function text(name, value)
    if type(value) ~= 'string' then error(name .. ' is a string, not ' .. type(value), 3) end
    return value
end

-- A budget: a whole number from 0 to 2^53, a uint64_t, or nil, which is none. Any other number would be read as another one.
local function budget_of(value)
    if value == nil then return NO_BUDGET end
    local is_whole = type(value) == 'number' and value >= 0 and value <= 2 ^ 53 and value % 1 == 0
    if not is_whole and not ffi.istype('uint64_t', value) then error('budget is a whole number, not ' .. tostring(value), 3) end
    return value
end

-- A copy of a list of strings, in which nothing is left out: whatever else a table holds would go without a word.
local function strings_of(name, list)
    local count, strings = 0, {}
    for _ in pairs(list) do count = count + 1 end
    if count ~= #list then error(name .. 's is a list without holes', 3) end
    for k = 1, count do
        if type(list[k]) ~= 'string' then error(name .. ' ' .. k .. ' is a string, not ' .. type(list[k]), 3) end
        strings[k] = list[k]
    end
    return strings
end

-- The bytes alone, so that they can stand in a list; or nothing, and the status. What is handed in beside them is in use until then, and so isn't collected.
local function alone(_, bytes, code)
    if bytes then return bytes end
    return nil, code
end

-- What a call makes of the spans of strings and of their length. Spans are bare pointers, which the collector doesn't see: `strings` holds what
-- they point to, and has to be in use until the call is done.
local function over_spans(strings, call)
    local spans, total = ffi.new('baggage_span[?]', #strings + 1), 0
    for k, string in ipairs(strings) do
        spans[k - 1].bytes, spans[k - 1].length = string, #string
        total = total + #string
    end
    local bytes, code = call(spans, #strings, total)
    return alone(strings, bytes, code)
end

local function joined(library, form, contexts)
    return over_spans(contexts, function(spans, count, total)
        return made(total + 12, function(room, length) return library.baggage_join(form, spans, count, NO_BUDGET, room, length) end)
    end)
end

-- ---- texts

local LETTERS = 'ABCDEFGHIJKLMNOPQRSTUVWXYZabcdefghijklmnopqrstuvwxyz0123456789-_'
local CHECK_LETTERS = 6
local letter_of, value_of, crc_of = {}, {}, {}
for k = 0, 63 do
    letter_of[k] = LETTERS:sub(k + 1, k + 1)
    value_of[LETTERS:byte(k + 1)] = k
end
for byte = 0, 255 do
    local crc = byte
    for _ = 1, 8 do crc = bit.bxor(bit.rshift(crc, 1), bit.band(crc, 1) * 0xedb88320) end
    crc_of[byte] = crc
end

local function letters_of(bytes)
    local letters = {}
    for k = 1, #bytes, 3 do
        local first, second, third = bytes:byte(k, k + 2)
        local group = first * 65536 + (second or 0) * 256 + (third or 0)
        for place = 0, third and 3 or second and 2 or 1 do
            letters[#letters + 1] = letter_of[bit.band(bit.rshift(group, 18 - 6 * place), 63)]
        end
    end
    return table.concat(letters)
end

-- The bytes that letters stand for, or nothing: what isn't spelled as letters_of spells it is none.
local function bytes_of(letters)
    local bytes = {}
    for k = 1, #letters, 4 do
        local count, group = math.min(4, #letters - k + 1), 0
        for place = 0, count - 1 do
            local value = value_of[letters:byte(k + place)]
            if not value then return nil end
            group = group + bit.lshift(value, 18 - 6 * place)
        end
        for place = 0, count - 2 do bytes[#bytes + 1] = string.char(bit.band(bit.rshift(group, 16 - 8 * place), 255)) end
    end
    local all = table.concat(bytes)
    return letters_of(all) == letters and all or nil
end

local function check_of(bytes)
    local crc = bit.bnot(0)
    for k = 1, #bytes do crc = bit.bxor(bit.rshift(crc, 8), crc_of[bit.band(bit.bxor(crc, bytes:byte(k)), 255)]) end
    crc = bit.bnot(crc)
    return letters_of(string.char(bit.band(bit.rshift(crc, 24), 255), bit.band(bit.rshift(crc, 16), 255), bit.band(bit.rshift(crc, 8), 255), bit.band(crc, 255)))
end

-- The value of a header that carries the context.
function M.to_header(context)
    text('context', context)
    return letters_of(context) .. '.' .. check_of(context)
end

local function escaped(mark)
    local first, second, third = mark:byte(1, 3)
    if not second then return ('\\x%02x'):format(first) end
    return ('\\u%04x'):format(third and 0x2000 + bit.band(second, 63) * 64 + bit.band(third, 63) or second)
end

-- A text as it may be shown to people: what a terminal or a log could obey has an escape in its place, which are control characters, separators of lines and
-- of paragraphs, and marks that turn the direction of writing. Letters are UTF-8.
function M.visible(shown)
    local marked = text('text', shown):gsub('[%z\1-\31\127]', escaped):gsub('\194[\128-\159]', escaped)
    return (marked:gsub('\226\128[\168-\174]', escaped):gsub('\226\129[\166-\169]', escaped))
end

-- A value's parts: what stands between its commas, without the blanks at both ends.
local function each_part(value)
    local from = 1
    return function()
        if not from then return nil end
        local comma = value:find(',', from, true)
        local first, last = from, comma and comma - 1 or #value
        from = comma and comma + 1
        while first <= last and value:find('^[ \t]', first) do first = first + 1 end
        while first <= last and value:find('^[ \t]', last) do last = last - 1 end
        return value:sub(first, last)
    end
end

-- The bytes that a part carries, or nothing; whether they are a context's isn't looked at.
local function bytes_of_part(part)
    local dot = #part - CHECK_LETTERS
    if dot < 1 or part:sub(dot, dot) ~= '.' then return nil end
    local bytes = bytes_of(part:sub(1, dot - 1))
    return bytes and check_of(bytes) == part:sub(dot + 1) and bytes or nil
end

-- What a reply says in `terncommode-for`: the check of the first part of the header's value that came; nothing where none came.
function M.check_of(value)
    local check = value and each_part(text('value', value))():match('%.([%w_-]*)$')
    return check and #check == CHECK_LETTERS and check or nil
end

-- The value of a reply's Cache-Control with the directive that keeps shared caches from answering with this context: where there was none, it alone.
function M.no_cache(value)
    local directive = 'no-cache="' .. M.HEADER .. '"'
    if value == nil or text('value', value):match('^%s*$') then return directive end
    return value:lower():find(directive, 1, true) and value or value .. ', ' .. directive
end

-- ---- bags

local Bag = {}
Bag.__index = Bag

-- A bag over the library, with what `baggage table FILE BAG` prints of a definition; `baggage table 1\n` knows no field.
local function bag(library, table)
    return setmetatable({ library = type(library) == 'string' and ffi.load(library) or library, table = text('table', table) }, Bag)
end

-- One step of a service: the merge of contexts, which are strings, and of what is written, cut to a budget. Lua can't see a nil at the end
-- of a list: where a context may be missing, write `context or '\0'`, which is the lost one.
function Bag:update(contexts, writes, budget)
    local limit = budget_of(budget)
    text('writes', writes)
    return over_spans(strings_of('context', contexts), function(spans, count, total)
        return made(total + 2 * #writes + 12, function(room, length)
            return self.library.baggage_update(FORM_ONE, self.table, #self.table, spans, count, writes, #writes, limit, room, length)
        end)
    end)
end

-- The merge of contexts; or nothing, and the status. It knows no field, and doesn't mind ill-typed ones.
function Bag:join(contexts) return joined(self.library, FORM_ONE, strings_of('context', contexts)) end

-- The text of a field, and whether that is all that was said of it; or nothing, and the status, which is 2 where the text has more bytes than the limit.
function Bag:field(context, path, limit)
    text('context', context)
    text('path', path)
    local read, code = made(64, function(room, length)
        return self.library.baggage_read_field(self.table, #self.table, context, #context, path, #path, room, length)
    end, limit or M.TEXT_LIMIT)
    if read then return read, code == EXACT end
    return nil, code
end

-- The context that all values of a header carry, each a string, merged; and whether any of it was lost, which is whatever can't be read. `absent` stands
-- for no value: '' at an edge, where a request begins, and '\0' inside, where a context was promised. Equal parts are read once.
function Bag:extract(values, absent)
    local parts, contexts, is_lost, seen = strings_of('value', values), {}, false, {}
    if #parts == 0 then return text('absent', absent), absent == M.LOST end
    for _, value in ipairs(parts) do
        for part in each_part(value) do
            local bytes = not seen[part] and bytes_of_part(part)
            local is_context = bytes and self.library.baggage_check(bytes, #bytes).status == OK
            if is_context then contexts[#contexts + 1] = bytes end
            is_lost = is_lost or not seen[part] and not is_context
            seen[part] = true
        end
    end
    if is_lost then contexts[#contexts + 1] = M.LOST end
    return joined(self.library, FORM_ONE, contexts) or M.LOST, is_lost
end

-- The context that one value of a header carries.
function Bag:from_header(value) return (self:extract({ text('value', value) }, M.LOST)) end

-- The context of a reply, and whether any of it was lost: the merge of what its headers' values carry, where `answers`, its `terncommode-for`, is the check of the value that was sent;
-- else, also where one of both is missing, the lost one.
function Bag:extract_reply(values, answers, sent)
    local check = M.check_of(sent)
    if not check or answers ~= check then return M.LOST, true end
    return self:extract(values, M.LOST)
end

-- What a carrier takes that keeps bytes and their length: form two, which says how long it is.
function Bag:to_binary(context) return joined(self.library, FORM_TWO, { text('context', context) }) end

-- The context that came over such a carrier, in form two, or in form one from older senders; lost where the value is blank or can't be read.
function Bag:from_binary(bytes) return text('bytes', bytes) ~= '' and joined(self.library, FORM_ONE, { bytes }) or M.LOST end

return setmetatable(M, { __call = function(_, library, table) return bag(library, table) end })
