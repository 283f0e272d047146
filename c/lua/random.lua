-- random.lua SEED STEPS MODE PACE: a random program over finalizers. What it prints is compared between two builds of Lua.
-- MODE is the collector's at first: incremental or generational. PACE: automatic, where collections also come by themselves and the memory in use is printed;
-- or explicit, where only whole and young ones come, and only when they are called for, so that two builds needn't keep the same time.
local seed, steps, mode, automatic = tonumber(arg[1]), tonumber(arg[2]), arg[3], arg[4] == "automatic"
local state = seed * 0x9E3779B97F4A7C15 + 1
local function random(n) -- 1 to n
  state = state * 6364136223846793005 + 1442695040888963407
  return (state >> 33) % n + 1
end
local function one_in(n) return random(n) == 1 end

io.stdout:setvbuf("full")
warn("@on")
local function say(...) io.stdout:write(table.concat({...}, " "), "\n") end

---- objects: nodes, weak tables, functions, coroutines and files, each with a number

local ROOTS = 12
local roots, made = {}, 0
local numbers = setmetatable({}, {__mode = "k"}) -- of what isn't a table
local letters = {table = "n", ["function"] = "f", thread = "t", userdata = "u"}

local function name(it)
  local letter = letters[type(it)]
  if not letter then return tostring(it) end
  local number = letter == "n" and rawget(it, "number") or numbers[it]
  return (letter == "n" and rawget(it, "mode") or letter) .. tostring(number)
end

local function number_of(it)
  made = made + 1
  numbers[it] = made
  return it
end

local FIELDS = {"left", "right", "third"}
local function field(it, which) return type(it) == "table" and rawget(it, which) or nil end

-- An object that the program reaches, or nil.
local function some()
  local it = roots[random(ROOTS)]
  while it ~= nil and one_in(2) do it = field(it, FIELDS[random(3)]) or it end
  return it
end

local function some_table()
  local it = some()
  return type(it) == "table" and it or nil
end

local make, put, plans -- below
local function root(it) roots[random(ROOTS)] = it end

-- The rows of a weak table, in an order that doesn't depend on addresses.
local function rows(weak)
  local found = {}
  for key, value in next, weak do
    if type(key) ~= "string" then
      local row = name(key) .. "=" .. name(value)
      local inner = field(value, "left")
      found[#found + 1] = inner ~= nil and row .. ">" .. name(inner) or row
    end
  end
  table.sort(found)
  return table.concat(found, ",")
end

-- The finalizer of all: it says what it finds, and does what the object's plan is.
local function finalize(it)
  local plan = field(it, "plan") or random(#plans)
  say("finalize", name(it), plan, name(field(it, "left")), name(field(it, "right")))
  if field(it, "mode") then say("  rows", rows(it)) end
  for i = 1, ROOTS do -- weak tables in which it is still to be found
    local weak = roots[i]
    if field(weak, "mode") then
      if rawget(weak, it) ~= nil then say("  key in", name(weak), name(rawget(weak, it))) end
      if rawget(weak, 1) == it then say("  value in", name(weak)) end
    end
  end
  plans[plan](it)
end

local FINAL, LATE = {__gc = finalize}, {} -- LATE gets its finalizer later than its objects, and loses it again
local WEAK = {}
for _, how in ipairs {"k", "v", "kv"} do
  WEAK[#WEAK + 1] = {__mode = how}
  WEAK[#WEAK + 1] = {__mode = how, __gc = finalize}
end
local FILE, OF_FILES = {__gc = finalize}, getmetatable(io.stdout)

local function again(it) -- registers it again
  if type(it) == "userdata" then debug.setmetatable(it, OF_FILES) else setmetatable(it, getmetatable(it)) end
end

plans = {
  function() end,
  function() end,
  root,
  function(it) root(it) again(it) end,
  function(it) again(it) if type(it) == "table" then it.plan = random(2) end end,
  function(it) error("no end of " .. name(it)) end,
  function() error({}) end,
  function() error() end,
  function() root(make()) end,
  function() root(nil) end,
  function(it) root(field(it, "left")) end,
  function(it) put(some_table(), it, make()) end,
  function(it) put(some_table(), make(), it) end,
  function() say("  collect", tostring(collectgarbage()), tostring(collectgarbage("step")), tostring(collectgarbage("generational"))) end,
  function() local other = some_table() if other and not other.mode then setmetatable(other, FINAL) end end,
  function() for _ = 1, random(5) do setmetatable({number = 0, plan = random(2)}, FINAL) end end,
  function(it) local other = some() if type(other) == "thread" then coroutine.resume(other, it) elseif type(other) == "function" then other(it) end end,
}

local function node(left, right, has_finalizer)
  made = made + 1
  local it = {number = made, plan = random(#plans), left = left, right = right}
  return has_finalizer and setmetatable(it, FINAL) or it
end

local function weak_table()
  local meta = WEAK[random(#WEAK)]
  made = made + 1
  local it = setmetatable({number = made, plan = random(#plans), mode = meta.__mode}, meta)
  for _ = 1, random(5) - 1 do put(it, make(), make()) end
  return it
end

local makers = {
  function() return node(some(), one_in(3) and some() or nil, not one_in(4)) end,
  function() return node(some(), nil, true) end,
  weak_table,
  function()
    local held = some()
    return number_of(function(other) local old = held if other ~= nil then held = other end return old end)
  end,
  function()
    local held = some()
    local it = number_of(coroutine.create(function(other) while true do held, other = other, coroutine.yield(held) end end))
    coroutine.resume(it)
    return it
  end,
  function() -- a file
    if not one_in(4) then return node(nil, nil, true) end
    local it = number_of(io.open("/dev/null"))
    debug.setmetatable(it, FILE)
    return it
  end,
}
function make() return makers[random(#makers)]() end

-- Sets a field of a table, or a row of a weak one, whose value may be its key, lead to it, or be a function over it.
function put(into, key, value)
  if not into or key == nil then return end
  if not into.mode then into[FIELDS[random(3)]] = value return end
  local how = random(8)
  if how == 1 then value = key
  elseif how == 2 then value = {number = 0, left = key}
  elseif how == 3 then value = {number = 0, left = key, right = into}
  elseif how == 4 then value = number_of(function() return key end)
  elseif how == 5 then key = random(4) end
  rawset(into, key, value)
end

---- shapes of several objects

local function chain(length) -- each leads to the next
  local it
  for _ = 1, length do it = node(it, nil, not one_in(3)) end
  return it
end

local function ring(length)
  local last = node(nil, nil, true)
  local it = last
  for _ = 2, length do it = node(it, nil, one_in(2)) end
  last.left = it
  return it
end

local function family(children) -- a parent that all lead to and that leads to all
  local parent = node(nil, nil, true)
  for i = 1, children do parent[i] = node(parent, parent[i - 1], not one_in(3)) end
  return one_in(2) and parent or parent[children]
end

local function ladder(length) -- rows of weak keys: the value of each leads to the key of the next, in some order and in one of two tables
  local tables = {setmetatable({number = 0, mode = "k"}, WEAK[1]), setmetatable({number = 0, mode = "k"}, WEAK[1])}
  local keys, order = {}, {}
  for i = 1, length do keys[i], order[i] = node(nil, nil, one_in(3)), i end
  for i = length, 2, -1 do local j = random(i) order[i], order[j] = order[j], order[i] end
  for _, i in ipairs(order) do
    local next_key = keys[i + 1]
    tables[random(2)][keys[i]] = one_in(2) and next_key or {number = 0, left = next_key}
  end
  root(tables[1])
  root(tables[2])
  return keys[1]
end

---- steps of the program

local function memory() return automatic and tostring(collectgarbage("count")) or "" end

local function describe(it)
  local text = name(it)
  for _, which in ipairs(FIELDS) do
    local other = field(it, which)
    if other ~= nil then text = text .. " " .. which .. " " .. name(other) end
  end
  if field(it, "mode") then text = text .. " {" .. rows(it) .. "}" end
  if type(it) == "function" then text = text .. " over " .. name(it()) end
  return text
end

local function show(why)
  say("-- " .. why, memory())
  for i = 1, ROOTS do if roots[i] ~= nil then say(i, describe(roots[i])) end end
end

local generational = false
local function switch()
  generational = not generational
  say(collectgarbage(generational and "generational" or "incremental"))
  show(generational and "generational" or "incremental")
end

local function young(times)
  if not generational then return end
  for _ = 1, times do collectgarbage("step", 0) end
  show("young")
end

local function work() -- garbage, of which some has finalizers and some lives for a while
  for i = 1, random(300) do
    local it = {i, {i}}
    if i % 40 == 0 then root(node(it, some(), true)) elseif i % 25 == 0 then node(it, some(), true) end
  end
  show("work")
end

local choices = {
  {10, function() root(make()) end},
  {6, function() root(nil) end},
  {4, function() local it = some_table() if it and not it.mode then it[FIELDS[random(3)]] = some() end end},
  {5, function() put(some_table(), make(), some() or make()) end},
  {3, function() local it = some_table() if it and not it.mode then setmetatable(it, one_in(3) and LATE or FINAL) end end},
  {2, function() local it = some_table() if it and it.mode then local meta = WEAK[random(#WEAK)] it.mode = meta.__mode setmetatable(it, meta) end end},
  {1, function() LATE.__gc = one_in(2) and finalize or nil end},
  {2, function() root(chain(one_in(5) and 20 + random(150) or random(8))) end},
  {2, function() root(ring(random(8) + 1)) end},
  {1, function() root(family(random(10))) end},
  {2, function() root(ladder(one_in(4) and 20 + random(60) or random(8))) end},
  {3, function() collectgarbage() show("collect") end},
  {2, switch},
  {5, function() young(random(3)) end},
  {2, function() local it = some() if type(it) == "function" then it(some()) elseif type(it) == "thread" then coroutine.resume(it, some()) end end},
  {automatic and 3 or 1, work},
  {automatic and 3 or 0, function() say(tostring(collectgarbage("step", (random(3) - 1) * random(40)))) show("step") end},
  {automatic and 1 or 0, function() collectgarbage(generational and "generational" or "incremental", one_in(2) and 20 or 200, one_in(2) and 100 or 400) end},
}
local step_of = {}
for _, choice in ipairs(choices) do for _ = 1, choice[1] do step_of[#step_of + 1] = choice[2] end end

if not automatic then collectgarbage("stop") end
if mode == "generational" then switch() end
for _ = 1, steps do step_of[random(#step_of)]() end
show("end")
local how = random(6)
if how == 1 then os.exit(random(5), true) elseif how == 2 then error("left by an error") elseif how == 3 then coroutine.wrap(function() os.exit(true, true) end)() end
