-- refused.lua: registrations that may be refused for lack of memory. Such a one raises an error and changes nothing; all others are called, each once.
collectgarbage("stop")
local called, registered, refused, wrong = 0, 0, 0, 0
local meta = {__gc = function(it) called = called + 1 if it.called then wrong = wrong + 1 end it.called = true end}
local before = {__name = "before"}
local live, tried, collected = {}, 0, 0
local witness = setmetatable({}, {__mode = "v"})

local function try(it)
  tried = tried + 1
  witness[1] = {}
  local done, why = pcall(setmetatable, it, meta)
  if not witness[1] then collected = collected + 1 end -- for memory
  if done then registered = registered + 1 return end
  refused = refused + 1
  if why ~= "not enough memory" or getmetatable(it) ~= before then wrong = wrong + 1 end
end

for round = 1, 4 do
  for i = 1, 200 do
    local it = setmetatable({}, before)
    try(it)
    if i % 3 == 0 then live[#live + 1] = it end
    if getmetatable(it) == before then try(it) end -- it may be registered later
  end
  if round == 2 then live = {} end
  collectgarbage()
  collectgarbage()
end
live = nil
collectgarbage()
if called ~= registered then wrong = wrong + 1 end
print(tried == registered + refused and "all are counted" or "lost", wrong, refused > 0 and "some are refused" or "none is refused", called > 700)
print("collected", collected)
