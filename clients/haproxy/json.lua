-- JSON for pdp.lua: a text is written, and a response read. An array is a table with `is_array`; null is `json.null`.
local json = {null = setmetatable({}, {__tostring = function() return "null" end})}
local ARRAY = {}
local MOST_DEEP = 32
local ESCAPES = {b = "\b", f = "\f", n = "\n", r = "\r", t = "\t", ['"'] = '"', ["\\"] = "\\", ["/"] = "/"}

-- A text as JSON has it.
function json.text(text)
    return '"' .. text:gsub('[%c"\\]', function(each) return string.format("\\u%04x", each:byte()) end) .. '"'
end

function json.is_array(held)
    return type(held) == "table" and getmetatable(held) == ARRAY
end

function json.is_object(held)
    return type(held) == "table" and getmetatable(held) == nil
end

-- A member of an object; nothing, if it isn't there or this is no object.
function json.member(held, name)
    if json.is_object(held) then
        return held[name]
    end
    return nil
end

local value_at -- (text, place, depth): the value there, and the place behind it

local function after_space(text, place)
    return text:match("^[ \t\r\n]*()", place)
end

-- The character that four hexadecimal digits name, or eight of a pair of surrogates.
local function character_at(text, place)
    local code = tonumber(text:match("^%x%x%x%x", place) or error("no digits"), 16)
    if code >= 0xD800 and code < 0xDC00 then
        local low = tonumber(text:match("^\\u(%x%x%x%x)", place + 4) or error("half a pair"), 16)
        assert(low >= 0xDC00 and low < 0xE000, "half a pair")
        return utf8.char(0x10000 + (code - 0xD800) * 1024 + low - 0xDC00), place + 10
    end
    assert(code < 0xDC00 or code > 0xDFFF, "half a pair")
    return utf8.char(code), place + 4
end

local function text_at(text, place)
    local parts = {}
    while true do
        local plain, behind = text:match('^([^\0-\31"\\]*)()', place)
        parts[#parts + 1] = plain
        local mark = text:sub(behind, behind)
        if mark == '"' then
            return table.concat(parts), behind + 1
        end
        assert(mark == "\\", "no end of a text")
        local escape = text:sub(behind + 1, behind + 1)
        if escape == "u" then
            parts[#parts + 1], place = character_at(text, behind + 2)
        else
            parts[#parts + 1], place = assert(ESCAPES[escape], "no escape"), behind + 2
        end
    end
end

local function array_at(text, place, depth)
    local held = setmetatable({}, ARRAY)
    place = after_space(text, place)
    if text:sub(place, place) == "]" then
        return held, place + 1
    end
    while true do
        held[#held + 1], place = value_at(text, place, depth)
        place = after_space(text, place)
        local mark = text:sub(place, place)
        if mark == "]" then
            return held, place + 1
        end
        assert(mark == ",", "no end of an array")
        place = place + 1
    end
end

local function object_at(text, place, depth)
    local held = {}
    place = after_space(text, place)
    if text:sub(place, place) == "}" then
        return held, place + 1
    end
    while true do
        place = after_space(text, place)
        assert(text:sub(place, place) == '"', "no name of a member")
        local name
        name, place = text_at(text, place + 1)
        place = after_space(text, place)
        assert(text:sub(place, place) == ":" and held[name] == nil, "a member without a value, or twice")
        held[name], place = value_at(text, place + 1, depth)
        place = after_space(text, place)
        local mark = text:sub(place, place)
        if mark == "}" then
            return held, place + 1
        end
        assert(mark == ",", "no end of an object")
        place = place + 1
    end
end

value_at = function(text, place, depth)
    assert(depth < MOST_DEEP, "nested too deep")
    place = after_space(text, place)
    local mark = text:sub(place, place)
    if mark == '"' then
        return text_at(text, place + 1)
    elseif mark == "[" then
        return array_at(text, place + 1, depth + 1)
    elseif mark == "{" then
        return object_at(text, place + 1, depth + 1)
    end
    local number, behind = text:match("^(%-?%d+%.?%d*[eE]?[+-]?%d*)()", place)
    if number then
        return assert(tonumber(number), "no number"), behind
    end
    for word, held in pairs({["true"] = true, ["false"] = false, ["null"] = json.null}) do
        if text:sub(place, place + #word - 1) == word then
            return held, place + #word
        end
    end
    error("no value")
end

-- The value of a whole text of JSON in UTF-8; an error, if it isn't one.
function json.read(text)
    assert(utf8.len(text), "no UTF-8")
    local held, place = value_at(text, 1, 0)
    assert(after_space(text, place) == #text + 1, "more behind the value")
    return held
end

return json
