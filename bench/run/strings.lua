local text = ""
for i = 0, 4999 do text = text .. "item" .. (i % 10) .. "," end
local count = 0
for part in string.gmatch(text, "[^,]+") do
    if string.sub(part, 1, 4) == "item" and string.sub(part, -1) == "7" then count = count + #part end
end
print(count)
local found = 0
for i = 0, 4999 do
    local word = "w" .. i
    if string.find(word, "99", 1, true) then found = found + #word end
    if string.upper(word) == "W1234" then found = found + 1 end
end
print(found)
