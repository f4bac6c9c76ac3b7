-- Talks by Tarantool's net.box with a server, and checks what it is answered.
--
--     tarantool netbox.lua PORT
--
-- The server has a new database and listens on this port of the machine. The status is 0 only where all
-- checks pass, and 77 where this net.box asks for the space of collations, which isn't served.

local json = require('json')
local net_box = require('net.box')

local failed = false

-- Compares what was seen, as JSON, with what is expected.
local function expect(what, expected, ...)
    local seen = json.encode(... == nil and json.NULL or ...)
    if seen ~= expected then
        failed = true
        print(('FAILED  %s: expected %s, saw %s'):format(what, expected, seen))
    end
end

-- The number of the refusal that a call meets, or nil where it is done.
local function refusal(call, ...)
    local done, fault = pcall(call, ...)
    return not done and fault.code or nil
end

-- The names of a list's members, in order.
local function names(list)
    local found = {}
    for name in pairs(list) do
        if type(name) == 'string' then
            table.insert(found, name)
        end
    end
    table.sort(found)
    return found
end

local server = net_box.connect('127.0.0.1', tonumber(arg[1]), {connect_timeout = 5})
if not server:is_connected() then
    if tostring(server.error):find('Space 277 does not exist', 1, true) then
        os.exit(77)
    end
    print('FAILED  connect: ' .. tostring(server.error))
    os.exit(1)
end
expect('ping', 'true', server:ping())
expect('spaces', '["_cluster","_index","_schema","_space","_vindex","_vspace","test"]', names(server.space))

local test = server.space.test
expect('number of the space', '512', test.id)
expect('indexes', '["primary"]', names(test.index))
expect('parts of the index', '1', test.index.primary.parts[1].fieldno)
expect('type of a part', '"unsigned"', test.index.primary.parts[1].type)

expect('insert', '[1,"a",5]', test:insert({1, 'a', 5}))
expect('insert of a key that is there', '3', refusal(test.insert, test, {1}))
expect('insert of a wrong key', '23', refusal(test.insert, test, {'a'}))
expect('replace', '[2,"b"]', test:replace({2, 'b'}))
expect('get', '[1,"a",5]', test:get({1}))
expect('get of a key that is not there', 'null', test:get(3))
expect('select', '[[1,"a",5],[2,"b"]]', test:select({}))
expect('select from a key on', '[[2,"b"]]', test:select({1}, {iterator = 'GT', limit = 10}))
expect('select downwards', '[[1,"a",5]]', test:select({}, {iterator = 'REQ', offset = 1}))
expect('update, whose fields count from 1', '[1,"c",7]', test:update(1, {{'+', 3, 2}, {'=', 2, 'c'}}))
expect('update of a key that is not there', 'null', test:update(3, {{'=', 2, 1}}))
expect('upsert of a key that is there', 'null', test:upsert({1, 'x', 0}, {{'-', 3, 1}}))
expect('upsert of a new key', 'null', test:upsert({3, 'd', 0}, {{'-', 3, 1}}))
expect('select after the upserts', '[[1,"c",6],[2,"b"],[3,"d",0]]', test:select())
expect('delete', '[2,"b"]', test:delete(2))
expect('delete of a key that is not there', 'null', test:delete({2}))

-- A second index, which the client sees once it has read the schema again.
server.space._index:insert({512, 1, 'name', 'tree', {unique = true}, {{1, 'string'}}})
server:reload_schema()
test = server.space.test
expect('indexes after one was made', '["name","primary"]', names(test.index))
expect('get by the second index', '[3,"d",0]', test.index.name:get('d'))
expect('update by the second index', '[3,"d",1]', test.index.name:update('d', {{'+', 3, 1}}))
expect('delete by the second index', '[3,"d",1]', test.index.name:delete('d'))
expect('insert of a text that is there', '3', refusal(test.insert, test, {4, 'c'}))
server:close()

os.exit(failed and 1 or 0)
