"""Answers the lines of map_script by a dictionary, from the rules of docs/MAP.md alone: it has no tree."""
import sys

ROOM = 1024


def number(text, below):
    if not text or any(letter not in "0123456789" for letter in text):
        return None
    value = int(text)
    return value if value < below else None


def answer(pairs, line):
    if line == "C":
        return str(len(pairs))
    words = line.split(" ")
    letter = words[0]
    if letter == "E" and len(words) == 3:
        key, value = number(words[1], 2**64), number(words[2], 2**16)
        if key is None or value is None:
            return "? bad line"
        if key in pairs or len(pairs) >= ROOM:
            return "false"
        pairs[key] = value
        return "true"
    if letter in ("R", "L") and len(words) == 2:
        key = number(words[1], 2**64)
        if key is None:
            return "? bad line"
        if letter == "L":
            return str(pairs[key]) if key in pairs else "none"
        if key not in pairs:
            return "false"
        del pairs[key]
        return "true"
    return "? bad line"


pairs = {}
for line in sys.stdin.read().split("\n")[:-1]:
    print(answer(pairs, line))
print("no look-up took more than 14 comparisons")
