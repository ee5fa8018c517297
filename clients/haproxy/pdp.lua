-- An enforcement point for HAProxy: Lua asks Dalvezour before a request goes on to the server that is protected.
-- Deny-biased: a request goes on only if the decision is Permit and all its obligations were carried out, which
-- `pdp_guard` says by the variable txn.pdp_status: 200. `pdp-haproxy write` makes map.lua of the mapping file, and the
-- configuration that calls `pdp_guard`.
local folder = debug.getinfo(1, "S").source:match("^@(.*)/")
local map = dofile(folder .. "/map.lua")
local json = dofile(folder .. "/json.lua")

local URN = "urn:oasis:names:tc:xacml:1.0:"
local STRING = "http://www.w3.org/2001/XMLSchema#string"
-- milliseconds without a byte of the reply: more than pdp-server's, which answers 504 by itself, and so that nothing is
-- sent again after a silence
local PATIENCE = 15000

local token_file = assert(io.open(folder .. "/token"))
local token = token_file:read("l")
token_file:close()

-- A refusal, with the status that says so.
local function refuse(status, why)
    error({status = status, why = why}, 0)
end

-- Whether each character of a decoded path has one reading: see `Letters` and `Plain` of the mapping file's reader.
local function is_plain(path)
    for _, code in utf8.codes(path) do
        local is_known = code < 128 and utf8.char(code):find(map.Plain) ~= nil
        for _, range in ipairs(code < 128 and {} or map.Letters) do
            is_known = is_known or range[1] <= code and code <= range[2]
        end
        if not is_known then
            return false
        end
    end
    return true
end

-- The path as every server reads it; 400 if two could read it differently: empty parts, dots, parameters, a backslash,
-- a character of ASCII that is encoded (but for a space), what isn't UTF-8, or a character that a normalization changes.
local function path_of(raw)
    if raw:sub(1, 1) ~= "/" or raw:find("//", 1, true) or (raw .. "/"):find("/%.%.?/") then
        refuse(400, "an empty part or dots in the path")
    end
    local path = raw:gsub("%%20", " "):gsub("%%([89A-Fa-f]%x)", function(digits)
        return string.char(tonumber(digits, 16))
    end)
    if raw:find("[^!-~]") or path:find("%", 1, true) or not utf8.len(path) or not is_plain(path) then
        refuse(400, "a character in the path that isn't plain")
    end
    return path
end

-- A text, in which each percent and two digits stand for a byte, also as ASP.NET decodes it.
local function unescaped(text)
    return (text:gsub("%%[uU]00(%x%x)", "%%%1"):gsub("%%(%x%x)", function(digits)
        return string.char(tonumber(digits, 16))
    end))
end

-- Whether a name of a method follows one of these patterns, as `_method`, `a[_method]` or `X-HTTP-Method-Override`.
local function names(text, ...)
    for _, before in ipairs({...}) do
        for _, name in ipairs({"[_. +]method", "x[%-_. +]method", "x[%-_. +]http[%-_. +]method"}) do
            if text:find(before .. "[%s+]*" .. name) then
                return true
            end
        end
    end
    return false
end

-- Whether a query names another method, in some encoding.
local function names_method(query)
    return names("&" .. unescaped(query):lower(), "[&;?%[]")
end

-- Whether a form names another method, or may do so for some reader: among fields that are written as a query, or in
-- the head of a part.
local function form_names_method(kind, form)
    if (kind .. ";"):gsub('charset%s*=%s*"?utf%-8"?%s*;', ""):find("charset", 1, true) then
        return true
    end
    if not kind:find("multipart", 1, true) then
        for field in form:gmatch("[^&;?]+") do
            if names(unescaped(field:match("^[^=]*")):lower(), "^", "%[") then
                return true
            end
        end
        return false
    end
    form = form:lower():gsub("\r?\n[ \t]", " "):gsub("\r[ \t]", " ")
    for head in form:gmatch("content%-disposition([^\r\n]*)") do
        head = head:gsub("\\", "")
        if head:find("[^a-z]name%s*%*") or head:find("=?", 1, true) then
            return true
        end
        for name in head:gmatch("[^a-z]name%s*=%s*[\"']?([^\"';]*)") do
            if names(unescaped(name):lower(), "^", "%[") then
                return true
            end
        end
    end
    return false
end

-- The values of the fields that some server reads as this one, each time that one stands in the head.
local function fields(head, name)
    local found, wanted = {}, name:lower():gsub("[^%w]", "-")
    for field, values in pairs(head) do
        if field:lower():gsub("[^%w]", "-") == wanted then
            for _, value in pairs(values) do
                found[#found + 1] = value
            end
        end
    end
    return found
end

local function has(list, value)
    for _, each in ipairs(list) do
        if each == value then
            return true
        end
    end
    return false
end

-- The subject of the certificate that was verified; nothing, if there is none.
local function verified(txn)
    local fetch = txn.f
    local is_tls, has_one = fetch:ssl_fc() == 1, fetch:ssl_c_used() == 1
    if is_tls and has_one and fetch:ssl_c_verify() == 0 and fetch:ssl_c_ca_err() == 0 then
        local name = fetch:ssl_c_s_dn("", 0, "rfc2253")
        return name ~= nil and name ~= "" and utf8.len(name) and name or nil
    end
    return nil
end

-- Who asks: by the field of a proxy that the mapping file names, else by the certificate that was verified.
local function subject_of(txn, head)
    local from, certificate = map.Subject, verified(txn)
    if has(from.FromAddress, txn.f:src()) or certificate and has(from.FromCertificate, certificate) then
        local held = fields(head, from.Header)
        if #held == 0 then
            refuse(403, "no subject from the proxy")
        elseif #held > 1 or not held[1]:find("^[ -~]+$") or held[1]:find("^ ") or held[1]:find(" $") then
            refuse(400, "not one subject from the proxy")
        end
        return held[1]
    end
    if from.Certificate and certificate then
        return certificate
    end
    refuse(403, "nobody who is known")
end

local function category(id, value, more)
    local all = {{URN .. id, value}}
    for _, each in ipairs(more) do
        all[#all + 1] = each
    end
    for place, each in ipairs(all) do
        all[place] = '{"AttributeId":' .. json.text(each[1]) .. ',"DataType":"' .. STRING .. '","Value":'
            .. json.text(each[2]) .. "}"
    end
    return '{"Attribute":[' .. table.concat(all, ",") .. "]}"
end

-- Refuses a field whose name a server may read as another one, as SCRIPT_NAME or X_User.
local function refuse_odd_names(head)
    for name in pairs(head) do
        if not name:find("^[A-Za-z0-9-]+$") then
            refuse(400, "a field whose name has other characters than letters, digits and dashes")
        end
    end
end

-- Refuses what names another method, path or protocol than those that are asked about.
local function refuse_others(head, query)
    for _, name in ipairs(map.Refused) do
        if #fields(head, name) > 0 then
            refuse(400, "another method, path or protocol in a field")
        end
    end
    for _, value in ipairs(fields(head, "connection")) do
        for option in value:lower():gmatch("[^%s,]+") do
            if option ~= "close" and option ~= "keep-alive" then
                refuse(400, "a field of the connection that a server beyond might drop")
            end
        end
    end
    if names_method(query) then
        refuse(400, "another method in the query")
    end
end

-- Refuses a form that names another method, and one that isn't whole in HAProxy's buffer.
local function refuse_form(fetch, head)
    local kind = table.concat(fields(head, "content-type"), ";"):lower()
    local is_form = kind:find("^%s*$") or kind:find("^%s*;") or kind:find("form", 1, true)
        or kind:find("url", 1, true) or kind:find("multipart", 1, true)
    if not map.Forms or not is_form then
        return
    end
    local form, told = fetch:req_body() or "", fields(head, "content-length")[1] or "0"
    if tonumber(told) ~= #form then
        refuse(413, "a form that isn't whole in the buffer")
    elseif #form > 0 and #fields(head, "content-encoding") > 0 or form_names_method(kind, form) then
        refuse(400, "another method in a form")
    end
end

-- The path and the query of a request. HTTP/2 has scheme and authority apart, and HAProxy makes an address of them.
-- (What a request line says of its version is the client's word.)
local function target_of(fetch)
    local target = fetch:url()
    return fetch:fc_http_major() ~= 1 and target:match("^https?://[%w.:%[%]_-]*(/.*)$") or target
end

-- The request for the decision.
local function question(txn, subject, head)
    local fetch = txn.f
    local raw, query = target_of(fetch):match("^([^?]*)%??(.*)$")
    refuse_others(head, query)
    local action = map.Action[fetch:method()]
    if not action then
        refuse(403, "a method that the mapping file doesn't name")
    end
    return '{"Request":{"AccessSubject":' .. category("subject:subject-id", subject, {}) .. ',"Resource":'
        .. category("resource:resource-id", path_of(raw), map.Resource) .. ',"Action":'
        .. category("action:action-id", action, {}) .. "}}"
end

-- The whole body of the server's reply. The connection that closes is the one within HAProxy: if it were kept, HAProxy
-- would repeat by itself what was asked again already.
local function answer(body)
    local reply = core.httpclient():post{url = map.Url, dst = map.Through, timeout = PATIENCE, body = body, headers = {
        ["content-type"] = {"application/json"}, ["content-length"] = {tostring(#body)},
        ["authorization"] = {"Bearer " .. token}, ["connection"] = {"close"}}}
    if not reply or reply.status ~= 200 then
        refuse(503, "the server answers with " .. tostring(reply and reply.status))
    end
    local length = reply.headers and reply.headers["content-length"]
    if not length or tonumber(length[0]) ~= #(reply.body or "") then
        refuse(503, "a response that isn't whole")
    end
    return reply.body
end

-- The obligations of a Permit; a refusal for all else.
local function permitted(body)
    local is_json, held = pcall(json.read, body)
    local results = is_json and json.member(held, "Response")
    if not json.is_array(results) or #results ~= 1 or not json.is_object(results[1]) then
        refuse(503, "not one result")
    end
    local decision = json.member(results[1], "Decision")
    if decision ~= "Permit" then
        refuse(403, "the decision is " .. tostring(decision):sub(1, 20))
    end
    local obligations = json.member(results[1], "Obligations")
    if obligations ~= nil and not json.is_array(obligations) then
        refuse(503, "obligations that are none")
    end
    return obligations or {}
end

-- What an obligation assigns.
local function assigned(obligation)
    local held = json.member(obligation, "AttributeAssignment")
    if held ~= nil and not json.is_array(held) then
        refuse(503, "an obligation that isn't one")
    end
    return held or {}
end

-- The values that an obligation gives an attribute, or all that it gives.
local function values(obligation, attribute)
    local found = {}
    for _, each in ipairs(assigned(obligation)) do
        if not attribute or json.member(each, "AttributeId") == attribute then
            found[#found + 1] = tostring(json.member(each, "Value"))
        end
    end
    return found
end

-- What an obligation gives, as JSON.
local function given(obligation)
    local found = {}
    for place, each in ipairs(assigned(obligation)) do
        found[place] = '{"AttributeId":' .. json.text(tostring(json.member(each, "AttributeId"))) .. ',"Value":'
            .. json.text(tostring(json.member(each, "Value"))) .. "}"
    end
    return "[" .. table.concat(found, ",") .. "]"
end

-- Appends a line to a file.
local function append(path, line)
    local file = io.open(path, "a")
    local is_written = file and file:setvbuf("full") and file:write(line, "\n") and file:flush()
    if file then
        file:close()
    end
    if not is_written then
        refuse(503, "a log that can't be written")
    end
end

-- Carries an obligation out: a line in a file, or a field of the reply, which a variable brings there.
local function carry_out(txn, obligation, subject)
    local id = json.member(obligation, "Id")
    local how = map.Obligations[id]
    if how.Log then
        append(how.Log, '{"Obligation":' .. json.text(id) .. ',"Subject":' .. json.text(subject) .. ',"Method":'
            .. json.text(txn.f:method()) .. ',"Path":' .. json.text(txn.f:path()) .. ',"At":"'
            .. os.date("!%Y-%m-%dT%H:%M:%SZ") .. '","Given":' .. given(obligation) .. "}")
        return
    end
    local value = table.concat(values(obligation, how.Value), ", ")
    if #value > 1000 or not value:find("^[ -~]+$") then
        refuse(503, "an obligation without a value for its field")
    end
    txn:set_var("txn." .. how.Variable, value)
end

-- Asks, and carries the obligations out; an error, if the request mustn't go on.
local function ask(txn)
    local head = txn.http:req_get_headers()
    refuse_odd_names(head)
    local subject = subject_of(txn, head)
    local body = question(txn, subject, head)
    refuse_form(txn.f, head)
    local obligations = permitted(answer(body))
    for _, each in ipairs(obligations) do
        if not map.Obligations[json.member(each, "Id") or ""] then
            refuse(403, "an obligation that isn't understood")
        end
    end
    for _, each in ipairs(obligations) do
        carry_out(txn, each, subject)
    end
    txn:set_var("txn.pdp_subject", subject)
end

core.register_action("pdp_guard", {"http-req"}, function(txn)
    local is_permitted, fault = pcall(ask, txn)
    local status = is_permitted and 200 or type(fault) == "table" and fault.status or 503
    if not is_permitted then
        txn:log(core.warning, "pdp: refused: " .. (type(fault) == "table" and fault.why or tostring(fault)))
    end
    txn:set_var("txn.pdp_status", tostring(status))
end)
