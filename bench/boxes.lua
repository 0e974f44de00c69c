local sum, i, x, box = 0, 0, 0, nil
while i < 5000000 do
  box = {i}
  x = i + 7
  box[1] = x
  x = box[1]
  sum = sum + x
  x = box[1]
  box = nil
  sum = sum + x
  box = {i}
  box = nil
  i = i + 1
end
print(sum & 0xffffffff)
