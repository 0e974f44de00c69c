local sum, i = 0, 0
while i < 2000000 do
  local a = {i}
  local b = {a}
  local c = {b}
  local d = {c}
  local e = {d}
  local f = {e}
  local g = {f}
  local h = {g}
  h = nil
  sum = sum + i
  i = i + 1
end
print(sum & 0xffffffff)
