-- luajit fake.lua FOLDER: runs FOLDER/proxy.lua over as much of `ngx` as it calls, where nginx has no Lua module. FOLDER/said.lua gives the request's headers
-- and what nginx makes of each reply. It prints the status, and the headers of the answer.
local folder = arg[1]
local said = dofile(folder .. '/said.lua')
ngx = {
    header = {}, say = function() end,
    req = { get_headers = function() return said.request end },
    location = { capture_multi = function(asked) return unpack(said.replies, 1, #asked) end },
}
package.path = folder .. '/?.lua;' .. package.path
require('proxy')('/cart', '/pricing')
print(ngx.status)
for name, value in pairs(ngx.header) do print(name:lower() .. ': ' .. value) end
