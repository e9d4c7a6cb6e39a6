-- What an interpreter does: numbers of both kinds, strings and their patterns, tables, closures, coroutines, errors.

-- In how many ways n queens stand on a board of n rows, so that none threatens another.
local function queens(n)
  local columns, rising, falling = {}, {}, {}
  local function place(row)
    if row > n then return 1 end
    local ways = 0
    for column = 1, n do
      if not (columns[column] or rising[row + column] or falling[row - column]) then
        columns[column], rising[row + column], falling[row - column] = true, true, true
        ways = ways + place(row + 1)
        columns[column], rising[row + column], falling[row - column] = nil, nil, nil
      end
    end
    return ways
  end
  return place(1)
end

local function primes(limit)
  return coroutine.wrap(function()
    for n = 2, limit do
      local is_prime = true
      for d = 2, math.floor(math.sqrt(n)) do is_prime = is_prime and n % d ~= 0 end
      if is_prime then coroutine.yield(n) end
    end
  end)
end

print("queens", queens(6))
local found = {}
for p in primes(50) do found[#found + 1] = p end
print("primes", table.concat(found, " "))
print("numbers", 7 // 2, -7 // 2, 7 % -3, 7 / 2, 2 ^ 10, 1 << 62, math.maxinteger + 1 == math.mininteger)
print(string.format("pi %.10f e %.6e hex %x", math.pi, math.exp(1), 3735928559))
local words = {}
for word in ("the quick brown fox jumps over the lazy dog"):gmatch("%a+") do words[#words + 1] = word end
table.sort(words, function(a, b) return #a > #b or #a == #b and a < b end)
print(table.concat(words, ","))
print(("2026-11-28"):gsub("(%d+)-(%d+)-(%d+)", "%3.%2.%1"))
print(pcall(function() return nil + 1 end))
print(select("#", utf8.codepoint("h\u{e9}\u{20ac}", 1, -1)), #"h\u{e9}\u{20ac}")
