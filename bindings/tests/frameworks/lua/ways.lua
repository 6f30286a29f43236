-- luajit ways.lua LIBRARY: contexts that the collector may take, coroutines, and replies. luajit ways.lua LIBRARY answers: reads questions about headers and
-- carriers of bytes, as bindings/tests/README.md has them, and writes the answers.
package.path = arg[0]:gsub('tests/frameworks/lua/[^/]*$', 'lua/?.lua;') .. package.path
local bag = require('baggage')

local known = bag(arg[1], 'baggage table 1\n0 0 id scalar fixed32\n0 1 tags set string\n0 2 hops counter\n')

local function bytes_of(digits)
    return digits == '-' and '' or (digits:gsub('%x%x', function(pair) return string.char(tonumber(pair, 16)) end))
end

local function digits_of(bytes)
    return bytes == '' and '-' or (bytes:gsub('.', function(byte) return ('%02x'):format(byte:byte()) end))
end

local calls = {
    from_header = function(value) return digits_of(known:from_header(bytes_of(value))) end,
    from_binary = function(bytes) return digits_of(known:from_binary(bytes_of(bytes))) end,
    extract = function(absent, ...)
        local values = {}
        for k, value in ipairs({ ... }) do values[k] = bytes_of(value) end
        return digits_of((known:extract(values, absent == 'lost' and bag.LOST or '')))
    end,
}

local function answers()
    for line in io.lines() do
        local words = {}
        for word in line:gmatch('[^ ]+') do words[#words + 1] = word end
        print(calls[words[1]] and calls[words[1]](unpack(words, 2)) or '! Unknown')
    end
end

-- Coroutines that update beside one another, with a collector that runs at each step: each has its own.
local function coroutines()
    collectgarbage('setpause', 0)
    collectgarbage('setstepmul', 1e8)
    local tasks, done = {}, {}
    for task = 1, 8 do
        tasks[task] = coroutine.wrap(function()
            local context = ''
            for turn = 1, 20 do
                context = known:update({ context, known:update({}, ('tags "%d.%02d%s"\n'):format(task, turn, ('x'):rep(300))) }, '')
                coroutine.yield()
            end
            done[task] = context
        end)
    end
    for _ = 1, 21 do for task = 1, 8 do tasks[task]() end end
    for task = 1, 8 do
        local text, exact = known:field(done[task], 'tags')
        local _, count = text:gsub('"' .. task .. '%.%d%dx+"', '')
        assert(exact and count == 20, text)
    end
    local all = known:join(done)
    local _, count = known:field(all, 'tags'):gsub('x+', '')
    assert(count == 160)
end

-- Ten replies: each says which request it answers; those of another one, or of none, are lost and never exact.
local function replies()
    local sent = bag.to_header(known:update({}, 'id 7\n'))
    local contexts, truth = {}, {}
    for reply = 1, 10 do
        local value = bag.to_header(known:update({ known:from_header(sent) }, ('hops 0x%016x:2\n'):format(reply)))
        truth[reply] = 2
        contexts[reply] = known:extract_reply({ value }, bag.check_of(sent), sent)
    end
    local text, exact = known:field(known:join(contexts), 'hops')
    assert(exact and text:match('^%d+') == tostring(#truth * 2), text)
    contexts[11] = known:extract_reply({ bag.to_header(contexts[1]) }, 'AAAAAA', sent)
    _, exact = known:field(known:join(contexts), 'hops')
    assert(not exact)
end

if arg[2] == 'answers' then
    answers()
else
    coroutines()
    replies()
    print('coroutines, replies')
end
