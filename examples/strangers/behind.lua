-- A function that is compiled where 150 local variables are in sight, and sets a name in an environment that is a constant.
local names = {}
for i = 1, 150 do names[i] = "v" .. i end
local set = load("local " .. table.concat(names, ", ") .. " return function() local _ENV <const> = 11; name = 1 end")()
-- Threads, each with a string of the letter E in the memory behind its stack.
local threads, strings = {}, {}
for i = 1, 12 do
  threads[i] = coroutine.create(set)
  strings[i] = string.rep("E", 4000)
end
for i = 1, #threads do print(i, (coroutine.resume(threads[i]))) end
print("all done")
