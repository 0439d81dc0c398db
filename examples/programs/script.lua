-- Counts the words of a text, and sorts them; a coroutine and a few numbers beside.
local text = [[the quick brown fox jumps over the lazy dog and the dog sleeps]]
local count = {}
for word in text:gmatch("%a+") do count[word] = (count[word] or 0) + 1 end
local words = {}
for word in pairs(count) do words[#words + 1] = word end
table.sort(words, function(a, b) return count[a] > count[b] or count[a] == count[b] and a < b end)
for i = 1, 3 do print(words[i], count[words[i]]) end
local squares = coroutine.wrap(function() for i = 1, math.huge do coroutine.yield(i * i) end end)
local sum = 0
for _ = 1, 100 do sum = sum + squares() end
print(sum, 2 ^ 0.5, string.format("%.3f", math.pi), 7 // 2, 1 << 40)
print(pcall(error, "caught"))
