-- The programs of bench/lisp in Lua: `lua5.4 lisp.lua NAME`. A pair is a table of two fields.
local programs = {}

local function cons(a, d) return { a, d } end

function programs.tak()
    local function tak(x, y, z)
        if not (y < x) then return z end
        return tak(tak(x - 1, y, z), tak(y - 1, z, x), tak(z - 1, x, y))
    end
    return tak(18, 12, 6)
end

function programs.cpstak()
    local function tak(x, y, z, k)
        if not (y < x) then return k(z) end
        return tak(x - 1, y, z, function(a)
            return tak(y - 1, z, x, function(b)
                return tak(z - 1, x, y, function(c) return tak(a, b, c, k) end)
            end)
        end)
    end
    return tak(18, 12, 6, function(a) return a end)
end

-- The empty list is a value of its own.
local empty = {}

local function show(x)
    if type(x) ~= "table" then return tostring(x) end
    local parts = {}
    while x ~= empty do
        parts[#parts + 1] = show(x[1])
        x = x[2]
    end
    return "(" .. table.concat(parts, " ") .. ")"
end

local function list(...)
    local made = empty
    for i = select("#", ...), 1, -1 do made = cons((select(i, ...)), made) end
    return made
end

function programs.deriv()
    local function map(f, l)
        if l == empty then return empty end
        local value = f(l[1])
        return cons(value, map(f, l[2]))
    end
    local function deriv(a)
        if type(a) ~= "table" then return a == "x" and 1 or 0 end
        local head = a[1]
        if head == "+" or head == "-" then return cons(head, map(deriv, a[2])) end
        if head == "*" then
            return list("*", a, cons("+", map(function(b) return list("/", deriv(b), b) end, a[2])))
        end
        local first, second = a[2][1], a[2][2][1]
        return list("-", list("/", deriv(first), second),
            list("/", first, list("*", second, second, deriv(second))))
    end
    local form = list("+", list("*", 3, "x", "x"), list("*", "a", "x", "x"), list("*", "b", "x"), 5)
    local made
    for _ = 1, 1000 do made = deriv(form) end
    return made
end

function programs.destruct()
    local function length(l)
        local n = 0
        while l ~= empty do
            n = n + 1
            l = l[2]
        end
        return n
    end
    local function empties(n)
        local made = empty
        for _ = 1, n do made = cons(empty, made) end
        return made
    end
    local function append_to_tail(x, y)
        if x == empty then return y end
        local a = x
        while a[2] ~= empty do a = a[2] end
        a[2] = y
        return x
    end
    local l = empties(10)
    for i = 600, 1, -1 do
        if l[1] == empty then
            local rest = l
            while rest ~= empty do
                if rest[1] == empty then rest[1] = cons(empty, empty) end
                append_to_tail(rest[1], empties(50))
                rest = rest[2]
            end
        else
            local before, after = l, l[2]
            while after ~= empty do
                local a = after[1]
                for _ = 1, length(after[1]) // 2 do
                    a[1] = i
                    a = a[2]
                end
                local n = length(before[1]) // 2
                if n == 0 then
                    before[1] = empty
                    a[2] = empty
                else
                    local b = before[1]
                    for _ = n, 2, -1 do
                        b[1] = i
                        b = b[2]
                    end
                    local x = b[2]
                    b[2] = empty
                    a[2] = x
                end
                before, after = after, after[2]
            end
        end
    end
    return l
end

function programs.empty()
    return empty
end

print(show(programs[arg[1]]()))
