-- Numbers have 64 bits here: only the generator has to be cut to 32 in each turn.
local sum, i, x = 0, 0, 0
while i < 10000000 do
  x = (x * 1664525 + 1013904223) & 0xffffffff
  if x < 2147483648 then sum = sum + x else sum = sum - i end
  i = i + 1
end
print(sum & 0xffffffff)
