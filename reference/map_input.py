"""Writes the lines that map_script is run on: calls from a fixed seed that fill a map of 1,024 records, go beyond, and empty it in part."""
import random

draw = random.Random(1962)
lines = []


def fresh():
    return draw.getrandbits(draw.choice([10, 16, 40, 64]))


present = []


def enter(key):
    lines.append(f"E {key} {draw.randrange(65536)}")
    if key not in present and len(present) < 1024:
        present.append(key)


def remove(key):
    lines.append(f"R {key}")
    if key in present:
        present.remove(key)


def look_up(key):
    lines.append(f"L {key}")


def some():
    return draw.choice(present) if present and draw.random() < 0.7 else fresh()


# an empty map
look_up(5)
remove(5)
lines.append("C")

# random calls, more of them entering, until the table is full
while len(present) < 1024:
    kind = draw.random()
    if kind < 0.70:
        enter(fresh() if draw.random() < 0.93 else some())
    elif kind < 0.80:
        remove(some())
    elif kind < 0.97:
        look_up(some())
    else:
        lines.append("C")

# full: nothing more goes in
lines.append("C")
for _ in range(60):
    enter(fresh())
    enter(draw.choice(present))
for _ in range(120):
    look_up(some())

# a record that was given up serves again
for _ in range(60):
    remove(draw.choice(present))
    enter(fresh())
    enter(fresh())

# rising and falling keys, and half of the map taken out
for key in sorted(present)[::3]:
    remove(key)
lines.append("C")
for key in range(2**63, 2**63 + 150):
    enter(key)
for key in range(2**63 - 1, 2**63 - 101, -1):
    enter(key)
for _ in range(200):
    look_up(some())
for key in sorted(present, reverse=True)[:200]:
    remove(key)
    if draw.random() < 0.2:
        look_up(key)
lines.append("C")

# the least and the greatest numbers, and lines that ask for nothing
lines += [
    "E 0 0", "L 0", "E 18446744073709551615 65535", "L 18446744073709551615", "R 0", "L 0",
    "E 18446744073709551616 1", "E 1 65536", "E +1 1", "E 1 +1", "E -1 1", "L x", "L", "L ", "R", "E 7", "E 7 7 7",
    "C 1", "c", "", " C", "L  7", "X 7", "E 7 ", "L 007", "E 0007 9", "L 7",
]

print("\n".join(lines))
