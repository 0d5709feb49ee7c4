def main():
    text = ""
    for i in range(5000):
        text += f"item{i % 10},"
    count = 0
    for part in text.split(","):
        if part.startswith("item") and part.endswith("7"):
            count += len(part)
    print(count)
    found = 0
    for i in range(5000):
        word = "w" + str(i)
        if "99" in word:
            found += len(word)
        if word.upper() == "W1234":
            found += 1
    print(found)


main()
