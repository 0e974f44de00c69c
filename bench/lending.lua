local function bump(box)
  local x = box[1]
  x = x + 1
  box[1] = x
  return 0
end

local box, i, none = {0}, 0, 0
while i < 10000000 do
  none = bump(box)
  i = i + 1
end
print(box[1])
