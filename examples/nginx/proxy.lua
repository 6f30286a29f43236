-- Asks services beside one another, each by the name of a location, and answers with the merge of their contexts. The request's own header goes
-- to each of them as it came.
local baggage = require('baggage')
local knows_nothing = baggage(os.getenv('TERNCOMMODE_LIBRARY') or 'libbaggage.so.2', 'baggage table 1\n')

-- All values of a header, in whatever case its name is.
local function values_of(headers, name)
    local found = {}
    for other, values in pairs(headers) do
        if other:lower() == name then
            for _, value in ipairs(type(values) == 'table' and values or { values }) do found[#found + 1] = value end
        end
    end
    return found
end

-- Whether a byte of a reply came: nginx says 502 and 504 itself, and the location says how much it had received by then, of each try.
local function has_come(reply)
    local received = values_of(reply.header, 'upstream-bytes-received')[1]
    if reply.status ~= 502 and reply.status ~= 504 or not received then return true end
    return received:find('[1-9]') ~= nil
end

-- The context of a reply. It is lost where the reply isn't the one answer to what was sent, or has none.
local function context_of(reply, sent)
    local answers = values_of(reply.header, baggage.FOR_HEADER)
    return (knows_nothing:extract_reply(values_of(reply.header, baggage.HEADER), #answers == 1 and answers[1], sent))
end

return function(...)
    local asked, contexts = {}, {}
    local sent = values_of(ngx.req.get_headers(0), baggage.HEADER)[1]
    for k, location in ipairs({ ... }) do asked[k] = { location } end
    for _, reply in ipairs({ ngx.location.capture_multi(asked) }) do
        if has_come(reply) then contexts[#contexts + 1] = context_of(reply, sent) end
    end
    local came = #contexts > 0
    ngx.status = came and 200 or 502
    if came then
        ngx.header[baggage.HEADER] = baggage.to_header(knows_nothing:update(contexts, '', baggage.REPLY_BUDGET))
        ngx.header[baggage.FOR_HEADER] = baggage.check_of(sent)
        ngx.header['Cache-Control'] = baggage.no_cache()
    end
    ngx.say(came and 'ok' or 'no service answers')
end
