-- A function sets a name in an environment that is a constant.
print("before")
local function set()
  local _ENV <const> = 11
  name = "value"
end
print(pcall(set))
print("after")
