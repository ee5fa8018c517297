-- What HAProxy does by Lua: it wakes queues, holds messages back, and puts the list of all domains together.
local shards = tonumber(os.getenv("PDPD_SHARDS"))
local connections = os.getenv("PDPD_MAXCONN")
local inner = "unix@" .. os.getenv("PDPD_RUN") .. "/inner.sock"
local file_of_map = os.getenv("PDPD_MAP")
local map = Map.new(file_of_map, Map._str)
-- of several groups of machines the name of this one, the map of where each domain is, and what was told since
local group = os.getenv("PDPD_GROUP")
local groups = group and Map.new(os.getenv("PDPD_GROUPS"), Map._str)
local moved = group and Map.new(os.getenv("PDPD_MOVED"), Map._str)

local function seconds()
    local now = core.now()
    return now.sec + now.usec / 1000000
end

-- ---- held back
--
-- HELD in the map is SECONDS/NAME: something is held for so long from the moment on at which this HAProxy first
-- sees that name. So no other clock counts, and none that is set. SHARD0 stands there for a shard that is
-- restarted, and `moving` is the place of a domain that moves. None of these is a domain's name. The tool renews
-- HELD, by another name, for as long as it runs, and ends its shards' programs meanwhile: so a message that has
-- waited for ten seconds is answered with 503, as one that gets no turn in a queue, and never goes on.

local seen, ends = nil, 0

local function is_anything_held()
    local lease = map:lookup("HELD")
    if lease ~= seen then
        local length = lease and tonumber(lease:match("^(%d+)/"))
        seen, ends = lease, seconds() + (length or 0)
    end
    return lease ~= nil and seconds() < ends
end

local function place_of(name, converters)
    local place = groups and (moved:lookup(name) or groups:lookup(name))
    if place then
        local its, shard = place:match("^(.+)%.(%d+)$")
        return its == group and shard or "elsewhere"
    end
    return map:lookup(name) or tostring(converters:crc32(name) % shards)
end

local function is_held(domain, converters)
    if not is_anything_held() then return false end
    if not domain then return true end  -- the list is of all shards
    local place = place_of(domain, converters)
    return place == "moving" or map:lookup("SHARD" .. place) ~= nil
end

-- whether it is held no more, at the latest after ten seconds
local function is_let_go(domain, converters)
    local ends = seconds() + 10
    while is_held(domain, converters) do
        if seconds() > ends then return false end
        core.msleep(10)
    end
    return true
end

core.register_action("pdpd_wait", { "http-req" }, function(txn)
    if not is_let_go(txn:get_var("txn.domain"), txn.c) then txn:set_var("txn.held", true) end
end)

-- ---- away
--
-- A connection to a Unix socket that isn't there fails at once, and HAProxy tries it again without a pause. So while a
-- socket is away AWAY is in the map, and a message waits here for its shard's, before it is looked up where it goes,
-- for three seconds, as HAProxy tries a port. One that came before, or was in the queue, is led once more (`again`).

local sockets = os.getenv("PDPD_SOCKETS")
local was_away = false

-- To rename a file to itself does nothing; of none the system says 2 (ENOENT). (The shards' user may put a pipe there,
-- which must not be opened.)
local function is_there(shard)
    local place = sockets .. "/" .. shard .. "/socket"
    local _, _, number = os.rename(place, place)
    return number ~= 2
end

-- since when each shard's is away, and whether for over a second: then another machine is asked in its place (GONE)
local since, is_gone = {}, {}

-- whether a shard's is away
local function look_for_socket(shard)
    local is_away = not is_there(shard)
    since[shard] = is_away and (since[shard] or seconds()) or nil
    local was_gone = is_gone[shard]
    is_gone[shard] = is_away and seconds() > since[shard] + 1
    if is_gone[shard] and not was_gone then core.set_map(file_of_map, "GONE" .. shard, "1") end
    if was_gone and not is_gone[shard] then core.del_map(file_of_map, "GONE" .. shard) end
    return is_away
end

local function look_for_sockets()
    local is_away = false
    for shard = 0, sockets and shards - 1 or -1 do
        is_away = look_for_socket(shard) or is_away
    end
    if is_away == was_away then return end
    was_away = is_away
    if is_away then
        core.set_map(file_of_map, "AWAY", "1")
    else
        core.del_map(file_of_map, "AWAY")
    end
end

local function wait_for_socket(txn)
    local ends = seconds() + 3
    while seconds() < ends do
        local domain = txn:get_var("txn.domain")
        local shard = txn:get_var("txn.shard") or (domain and place_of(domain, txn.c)) or "0"
        -- (what a tool holds waits for that next)
        if shard == "moving" or shard == "elsewhere" or is_there(shard) or is_held(domain, txn.c) then return end
        core.msleep(10)
    end
    txn:set_var("txn.held", true)
end

core.register_action("pdpd_there", { "http-req" }, wait_for_socket)

core.register_action("pdpd_again", { "http-req" }, function(txn)
    -- (a program that was killed leaves its socket there for a moment)
    core.msleep(100)
    wait_for_socket(txn)
end)

-- ---- queues
--
-- Where a client goes while its message is tried again at a shard that is away, HAProxy 2.6 leaves the
-- shard's queue alone, though nothing is under way, for as long as messages come. To set the number of
-- connections to what it is has it look. (That a lease is seen soon is wanted, too.)

core.register_task(function()
    while true do
        core.msleep(100)
        is_anything_held()
        look_for_sockets()
        for shard = 0, shards - 1 do
            core.backends["shard" .. shard].servers["pdpd"]:set_maxconn(connections)
        end
    end
end)

-- ---- the list
--
-- GET /operator/domains over all shards: each is asked in its queue, through the frontend `inner`, and the
-- names are merged in the order of their bytes. Where a shard doesn't answer 200, no list is given in part.
-- Of a move that was cut both shards may have the domain, and it is listed once.

local function answer(applet, status, body, name, value)
    applet:set_status(status)
    applet:add_header("content-type", "application/json")
    applet:add_header("content-length", tostring(#body))
    if name then applet:add_header(name, value) end
    applet:start_response()
    applet:send(body)
end

-- the fields of a message to a shard: the token that was shown, and which shard it is
local function fields(applet, shard)
    -- the URL has an address, since a name would be looked up
    local found = { host = { "pdpd" }, ["x-shard"] = { tostring(shard) }, ["x-turn"] = { "1" } }
    local shown = applet.headers["authorization"]
    if shown then
        found["authorization"] = {}
        for i = 0, #shown do
            if shown[i] then table.insert(found["authorization"], shown[i]) end
        end
    end
    return found
end

-- the names that a shard lists; else nothing and its status
local function listed(applet, shard)
    -- one socket for all shards: connections to sockets of different names would be taken for each other
    local reply = core.httpclient():get{
        url = "http://127.0.0.1/operator/domains", headers = fields(applet, shard),
        dst = inner, timeout = 12000,
    }
    if not reply or reply.status ~= 200 then return nil, reply and reply.status end
    return reply.body:match('^{"Domain":%[(.*)%]}$'), 200
end

-- the names of all shards to whose domains messages are led; else nothing and a status
local function gathered(applet)
    local names, is_there = {}, {}
    for shard = 0, shards - 1 do
        local list, status = listed(applet, shard)
        if not list then return nil, status end
        for name in list:gmatch('"([a-z0-9-]+)"') do
            local place = place_of(name, applet.c)
            if not is_there[name] and (place == tostring(shard) or place == "moving") then
                is_there[name] = true
                table.insert(names, name)
            end
        end
    end
    return names, 200
end

-- those names as they are at one moment: while something is held a domain may go from shard to shard
local function settled(applet)
    for _ = 1, 10 do
        -- LAST is another one once something is held, and it is set after HELD
        local last = map:lookup("LAST")
        if not is_let_go(nil, applet.c) then return nil, 503 end
        local names, status = gathered(applet)
        if map:lookup("LAST") == last then return names, status end
    end
    return nil, 503
end

core.register_service("pdpd_domains", "http", function(applet)
    local names, status = settled(applet)
    if status == 401 then
        return answer(applet, 401, '{"Error":"Unauthorized"}', "www-authenticate", "Bearer")
    end
    if not names then return answer(applet, 503, '{"Error":"Unavailable"}') end
    table.sort(names)
    for i, name in ipairs(names) do names[i] = '"' .. name .. '"' end
    answer(applet, 200, '{"Domain":[' .. table.concat(names, ",") .. "]}")
end)

-- ---- health
--
-- Whether each shard answers a request for a decision that shows no token (401), and, for /ready, a change that shows
-- none, where a daemon takes changes. An answer holds for a second, so whoever asks often asks the shards no oftener.

local function is_answered(shard, method, path, more)
    local held = { host = { "pdpd" }, ["x-shard"] = { tostring(shard) }, ["content-type"] = { "application/json" } }
    -- (a body would be sent as a chunked one, which pdpd doesn't take)
    if more then held[more] = { "1" } end
    local client = core.httpclient()
    local reply = client[method](client, {
        url = "http://127.0.0.1" .. path, headers = held, dst = inner, timeout = 5000,
    })
    return reply ~= nil and reply.status == 401
end

local function are_decisions_answered()
    for shard = 0, shards - 1 do
        if not is_answered(shard, "post", "/domains/health/pdp") then return false end
    end
    return true
end

local function are_changes_taken()
    if is_anything_held() or map:lookup("NEW") then return false end
    if os.getenv("PDPD_AUDIT") ~= "1" then return true end
    for shard = 0, shards - 1 do
        if not is_answered(shard, "put", "/domains/health/pip", "x-changes") then return false end
    end
    return true
end

local looked = { ["/health"] = { 0, false }, ["/ready"] = { 0, false } }

core.register_service("pdpd_health", "http", function(applet)
    local last = looked[applet.path]
    if seconds() > last[1] + 1 then
        last[1] = seconds()
        last[2] = are_decisions_answered() and (applet.path == "/health" or are_changes_taken())
    end
    if last[2] then return answer(applet, 200, "{}") end
    answer(applet, 503, '{"Error":"Unavailable"}')
end)
