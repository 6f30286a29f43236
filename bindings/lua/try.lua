-- luajit try.lua LIBRARY: it says nothing where all is well.
package.path = arg[0]:gsub('[^/]*$', '?.lua;') .. package.path
local bag = require('baggage')
local ffi = require('ffi')

local function hex(text) return (text:gsub('.', function(byte) return ('%02x'):format(byte:byte()) end)) end

local known = bag(arg[1], 'baggage table 1\n0 0 id scalar fixed32\n0 1 tags set string\n0 2 hops counter\n')
local first = known:update({}, 'id 7\ntags "a"\n')
local second = known:update({}, 'id 9\nhops "cart":3\n')
local both = known:update({ first, second }, '')
assert(hex(both) == '02f80005000000000702f80102006102f80205f163617274020003', hex(both))
local text, exact = known:field(both, 'tags')
assert(text == '{"a"}' and exact == true)
local cut = known:update({ both }, '', 14)
assert(#cut <= 14)
text, exact = known:field(cut, 'hops')
assert(text == '0{}' and exact == false)
assert(#known:field(known:update({ '' }, 'tags "' .. ('x'):rep(500) .. '"\n'), 'tags') == 504)
-- A text has a limit, which a caller may say.
text, exact = known:field(both, 'tags', 4)
assert(text == nil and exact == 2)
assert(known:field(both, 'tags', 5) == '{"a"}')
local long = {}
for letter in ('abcdefghijklmnopqrst'):gmatch('.') do long[#long + 1] = 'tags "' .. letter:rep(60000) .. '"\n' end
long = known:update({}, table.concat(long))
text, exact = known:field(long, 'tags')
assert(text == nil and exact == 2)
assert(#known:field(long, 'tags', 2 ^ 40) > 2 ^ 20)
-- What a terminal or a log could obey is escaped.
assert(bag.visible('a\0\27\127\194\155\226\128\168\226\128\174\226\129\166\194\160\226\128\175\195\169"\255') ==
    'a\\x00\\x1b\\x7f\\u009b\\u2028\\u202e\\u2066\194\160\226\128\175\195\169"\255')

text, exact = known:update({ first:sub(1, 2) }, '')
assert(text == nil and exact == 1)
text, exact = known:field('', 'nothing')
assert(text == nil and exact == 7)
assert(hex(bag(arg[1], 'baggage table 1\n'):update({ second, first }, '')) == '02f800050000000007050000000009' .. '02f80102006102f80205f163617274020003')

-- Whatever is no string is an error, and isn't taken for the empty context; a budget isn't read as another one.
local function refuses(what, ...)
    local is_done, message = pcall(...)
    assert(not is_done and message:find(what, 1, true), tostring(message))
end
for _, wrong in ipairs({ 7, true, {}, print, ffi.new('char[4]') }) do
    refuses('context 1 is a string', known.update, known, { wrong }, '')
    refuses('context 2 is a string', known.update, known, { first, wrong, second }, '')
    refuses('writes is a string', known.update, known, { first }, wrong)
    refuses('context is a string', known.field, known, wrong, 'id')
    refuses('path is a string', known.field, known, first, wrong)
    refuses('table is a string', bag, arg[1], wrong)
end
for _, wrong in ipairs({ { first, nil, second }, { [2] = first }, { here = first } }) do
    refuses('contexts is a list without holes', known.update, known, wrong, '')
end
refuses('writes is a string, not nil', known.update, known, { first })
refuses('context is a string, not nil', known.field, known, nil, 'id')
for _, wrong in ipairs({ -1, 14.5, 2 ^ 53 + 2, 2 ^ 64 + 2 ^ 20, 1 / 0, 0 / 0, '14', false, {}, -1LL, 14LL }) do
    refuses('budget is a whole number', known.update, known, { both }, '', wrong)
end
assert(known:update({ both }, '', 14ULL) == cut and known:update({ both }, '', 2 ^ 53) == both)
text, exact = known:update({ both }, '', 0)
assert(text == nil and exact == 5)

-- What stands in the list is held until the call is done, also where the collector runs at each step and nobody else holds it.
-- A whole collection comes first, else the collector waits for as much memory as the pause before it had set; and all runs in the interpreter.
local sets = bag(arg[1], 'baggage table 1\n0 0 tags set string\n')
local function long(k) return '\2\248\0\233\7\0' .. ('x'):rep(992) .. ('%08d'):format(k) end
jit.off()
jit.flush()
collectgarbage('setpause', 0)
collectgarbage()
collectgarbage('setstepmul', 1e8)
for k = 1, 400 do assert(sets:update({ long(k) }, '') == long(k), 'a context was collected while it was in use') end
for k = 1, 400 do assert(sets:join({ long(k), '' }) == long(k)) end
collectgarbage('setpause', 200)
collectgarbage('setstepmul', 200)
jit.on()

-- Headers.
local seven = '\2\248\0\5\0\0\0\0\7'
for context, value in pairs({ [''] = '.AAAAAA', [bag.LOST] = 'AA.0gLvjQ', [seven] = 'AvgABQAAAAAH.Ktg3xw' }) do
    assert(bag.to_header(context) == value and known:from_header(value) == context)
    assert(known:from_header(' \t' .. value .. ' ,' .. value) == context)
    for last = 0, #value - 1 do
        assert(known:from_header(value:sub(1, last)) == bag.LOST)
    end
end
for _, wrong in ipairs({ 'AvgABQAAAAAI.Ktg3xw', 'AvgABQAAAAAH.Ktg3xx', 'AvgABQAAAAAH=.Ktg3xw', '.AAAAAB', 'AA.0gLvjR', 'gAA.vW6_2A', 'AvgABQAAAAAH\n.Ktg3xw' }) do
    assert(known:from_header(wrong) == bag.LOST, wrong)
end
assert(known:from_header('AvgABQAAAAAH.Ktg3xw,') == '\0' .. seven)
local merged, is_lost = known:extract({ '.AAAAAA', 'x' }, '')
assert(merged == bag.LOST and is_lost and select(2, known:extract({ '.AAAAAA' }, '')) == false)
assert(known:extract({}, '') == '' and known:extract({}, bag.LOST) == bag.LOST and known:extract({ '' }, '') == bag.LOST)
assert(known:extract({ bag.to_header(first), bag.to_header(second) }, bag.LOST) == known:join({ second, first }))
refuses('absent is a string', known.extract, known, {})
refuses('value 1 is a string', known.extract, known, { 7 }, '')

-- A reply says which request it answers.
local sent = bag.to_header(first)
assert(bag.check_of(sent) == sent:sub(-6) and bag.check_of(' ' .. sent .. ',x') == sent:sub(-6) and bag.check_of(nil) == nil and bag.check_of('x') == nil)
assert(known:extract_reply({ bag.to_header(second) }, sent:sub(-6), sent) == second)
for _, answers in ipairs({ 'AAAAAA', '', sent:sub(-6) .. ' ' }) do assert(known:extract_reply({ bag.to_header(second) }, answers, sent) == bag.LOST) end
assert(known:extract_reply({ bag.to_header(second) }, nil, sent) == bag.LOST and known:extract_reply({ bag.to_header(second) }, nil, nil) == bag.LOST)
assert(known:extract_reply({}, sent:sub(-6), sent) == bag.LOST)
assert(bag.no_cache(nil) == 'no-cache="terncommode"' and bag.no_cache('max-age=60') == 'max-age=60, no-cache="terncommode"')
assert(bag.no_cache('no-cache="terncommode"') == 'no-cache="terncommode"')

-- Carriers of bytes.
local wide = known:to_binary(first)
assert(wide:sub(1, 4) == '\255\255\255\2' and known:from_binary(wide) == first and known:from_binary(first) == first)
assert(known:from_binary('') == bag.LOST)
for last = 1, #wide - 1 do assert(known:from_binary(wide:sub(1, last)) == bag.LOST) end
