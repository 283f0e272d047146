-- luacheck.lua FOLDER MODE: Debian's luacheck reads what Debian's packages below the folder have of Lua, and prints its warnings. No file is closed but by its
-- finalizer. A finalizer that registers its object again counts the collections.
local inside, mode = arg[1], arg[2]
local paths = {}
for _, version in ipairs {"5.4", "5.3", "5.1"} do
  paths[#paths + 1] = inside .. "/share/lua/" .. version .. "/?.lua"
  paths[#paths + 1] = inside .. "/share/lua/" .. version .. "/?/init.lua"
end
package.path = table.concat(paths, ";")
package.preload.lfs = function() -- a library in C, which isn't there for 5.4
  return {attributes = function() end, currentdir = function() return "/" end, dir = function() return function() end end}
end
collectgarbage(mode)

local collections, again = 0, {}
again.__gc = function(it) collections = collections + 1 setmetatable(it, again) end
setmetatable({}, again)

local luacheck = require "luacheck"
local reports = setmetatable({}, {__mode = "k"})
local files = 0
for path in io.popen("find '" .. inside .. "/share/lua' -name '*.lua' | LC_ALL=C sort"):lines() do
  files = files + 1
  local report = luacheck.check_strings({io.open(path):read("a")}, {std = "max"})
  reports[report] = {report, path}
  for _, warning in ipairs(report[1]) do
    print(path:sub(#inside), warning.line, warning.column, warning.code, luacheck.get_message(warning))
  end
end
for report, row in pairs(reports) do assert(row[1] == report) end
assert(files > 50 and collections > 10, collections)
print(files .. " files")
