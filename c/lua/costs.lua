-- costs.lua WHAT N: the processor time of one thing in nanoseconds for each of N objects, the least of a few times.
local what, count = arg[1], tonumber(arg[2])
collectgarbage("stop")
local meta = {__gc = function() end}
local live = {}

local function least(times, before, it)
  local best = math.huge
  for _ = 1, times do
    if before then before() end
    local from = os.clock()
    it()
    best = math.min(best, os.clock() - from)
  end
  return best / count * 1e9
end

local function fill(with) for i = 1, count do live[i] = setmetatable({}, with) end end
local function empty() live = {} collectgarbage() end
local function full() collectgarbage() end
local function young() collectgarbage("step", 0) end

local rows = {
  ["setmetatable of the newest object"] = function()
    return least(5, function() empty() fill() end, function() for i = count, 1, -1 do setmetatable(live[i], meta) end end)
  end,
  ["setmetatable of the oldest object"] = function()
    for i = 1, count do live[i] = {} end
    local some, from = 100, 0
    local best = least(5, nil, function() for i = 1, some do setmetatable(live[from + i], meta) end from = from + some end)
    return best * count / some
  end,
  ["collect: none has a finalizer"] = function() fill({}) full() return least(5, nil, full) end,
  ["collect: all live"] = function() fill(meta) full() return least(5, nil, full) end,
  ["collect: all die, and empty finalizers are called"] = function()
    return least(3, function() empty() fill(meta) full() live = {} end, full)
  end,
  ["young collection: all are old and live"] = function()
    collectgarbage("generational")
    fill(meta)
    full()
    young()
    young()
    return least(5, nil, young)
  end,
  ["young collection: all are new and die"] = function()
    collectgarbage("generational")
    return least(3, function() empty() live = {} fill(meta) live = {} end, young) -- what an old table has had would stay
  end,
  ["bytes of a live registration"] = function() -- what becomes resident
    local function resident()
      for line in io.lines("/proc/self/status") do
        local number = line:match("^VmRSS:%s+(%d+)")
        if number then return tonumber(number) * 1024 end
      end
    end
    for i = 1, count do live[i] = {} end
    local had = resident()
    for i = count, 1, -1 do setmetatable(live[i], meta) end
    return (resident() - had) / count
  end,
}

print(string.format("%.1f", rows[what]()))
