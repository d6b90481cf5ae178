#!/usr/bin/env python3
"""Writes the stored standard input of the program choices: always the same lines."""

import random

TEXTS = ["", "a", "b", "c", "d", "e", "f", "fo", "foo", "foob", "fooba", "foobar"]
TEXTS += ["\0", "a\0", "foobar\0", "chongo was here!\n", "hi", "hello", "127.0.0.1", "FNV"]
ABSENT = "0,0,0,0,0,-"


def row(offered, r, a, m, s, rank) -> str:
    return f"{int(offered)},{r},{a},{m},{s},{'-' if rank is None else rank}"


def padded(rows: dict) -> str:
    return " ".join(rows.get(guest, ABSENT) for guest in range(8))


def key_lines(rng: random.Random) -> list:
    pages = [text.encode() for text in TEXTS]
    pages += [bytes(64), bytes([0x4A, 0x4B]) + bytes(62), bytes(range(256)), bytes([255]) * 256, bytes(4096)]
    pages += [rng.randbytes(length) for length in (1, 2, 3, 7, 8, 9, 63, 64, 65, 255, 256, 1024)]
    return [f"K {page.hex()}" if page else "K" for page in pages] + ["K 4A4b4C"]


def worked_lines() -> list:
    tables = [
        (75, {0: (100, 10, 10), 1: (100, 10, 0)}),
        (0, {0: (100, 10, 10), 1: (100, 10, 0)}),
        (75, {0: (200, 8, 4), 1: (100, 4, 2)}),
        (50, {2: (300, 6, 3), 5: (100, 2, 2)}),
        (99, {0: (1, 1, 1), 1: (100_000, 256, 0)}),
        (99, {0: (3, 3, 3), 1: (1, 1, 1), 2: (2, 2, 2)}),
    ]
    lines = [f"M {t} " + padded({g: row(True, r, a, 0, s, g) for g, (s, r, a) in rows.items()}) for t, rows in tables]
    ranks = [
        {0: (True, 1), 1: (True, 0)},
        {0: (True, 2), 1: (False, 0), 3: (True, 1)},
        {2: (True, 4), 6: (True, 4)},
        {0: (False, 0), 1: (False, None)},
    ]
    return lines + ["L " + padded({g: row(o, 1, 0, 0, 1, k) for g, (o, k) in rows.items()}) for rows in ranks]


def limit_lines() -> list:
    """Rows and taxes on both sides of each limit, in the middle of seven absent rows."""
    edges = [
        (1, 256, 256, 0, 100_000, 0), (1, 256, 0, 65_535, 100_000, 65_535), (1, 257, 0, 0, 1, 0), (1, 1, 2, 0, 1, 0),
        (1, 1, 1, 0, 100_001, 0), (1, 0, 0, 0, 1, 0), (1, 1, 0, 0, 0, 0), (1, 1, 0, 0, 1, None), (0, 0, 0, 0, 0, None),
        (0, 0, 1, 0, 0, None), (0, 257, 0, 0, 0, None), (0, 0, 0, 0, 100_001, None), (0, 256, 256, 0, 100_000, None),
        (1, 65_535, 65_535, 0, 4_294_967_295, 0), (1, 1, 1, 0, 1, 0),
    ]
    lines = [f"{kind} " + padded({guest: row(*edge)}) for edge in edges for kind, guest in (("M 0", 7), ("M 99", 0), ("L", 3))]
    good, bad = padded({4: row(1, 3, 1, 0, 5, 0)}), padded({4: row(1, 1, 2, 0, 5, 0)})
    return lines + [f"M {tax} {rows}" for tax in (98, 99, 100, 101, 4_294_967_295) for rows in (good, bad)]


def random_row(rng: random.Random, out_of_limits: bool) -> str:
    if rng.random() < 0.2:
        return ABSENT
    r = rng.choice([1, 2, 3, 4, 6, 8, 256])
    a = rng.choice([0, r, r // 2, rng.randint(0, r)])
    s = rng.choice([1, 2, 3, 4, 6, 8, 100, 200, 400, 100_000])
    rank = rng.choice([0, 0, 1, 2, 3, 4, 5, 6, 7])
    if out_of_limits and rng.random() < 0.15:
        r, a, s, rank = rng.choice([(r, r + 1, s, rank), (257, a, s, rank), (r, a, 100_001, rank), (0, 0, s, None), (r, a, 0, rank), (r, a, s, None)])
    return row(rng.random() < 0.75, r, a, rng.randint(0, 256), s, rank)


def random_lines(rng: random.Random, count: int) -> list:
    lines = []
    for turn in range(count):
        kind = rng.choice(["M 0", "M 50", "M 75", "M 99", "L", f"M {rng.randint(0, 99)}"])
        rows = [random_row(rng, turn % 6 == 0) for _ in range(8)]
        if turn % 4 == 1:
            rows = [rng.choice(rows[:2]) for _ in range(8)]
        lines.append(f"{kind} " + " ".join(rows))
    return lines


def bad_lines() -> list:
    good = padded({4: row(1, 3, 1, 0, 5, 0)})
    return [
        "", " ", "?", "K ", "K 1", "K 123", "K 0g", "K 61 62", "k 61", "KK", "K -1", "M", "L", "M 5", "m 5 " + good, "M " + good, "M x " + good,
        "M -1 " + good, "M +1 " + good, "M 4294967296 " + good, "L 5 " + good, "L " + good + " " + ABSENT, "L " + good[:-12], "L  " + good,
        "L " + good + " ", "L " + good.replace("1,3,1", "2,3,1"), "L " + good.replace("1,3,1", "1,65536,1"), "L " + good.replace(",5,0", ",4294967296,0"),
        "L " + good.replace(",5,0", ",5"), "L " + good.replace(",5,0", ",5,0,0"), "L " + good.replace(",5,0", ",5,65536"), "L " + good.replace(",5,0", ",,0"),
        "L " + good.replace(",5,0", ",-,0"), "L " + good.replace(",5,0", ",5,+0"), "L " + good.replace("1,3,1", "1,003,01"), "L " + good,
    ]


def main() -> None:
    rng = random.Random(2002)
    lines = key_lines(rng) + worked_lines() + limit_lines() + random_lines(rng, 300) + bad_lines()
    print("\n".join(lines))


if __name__ == "__main__":
    main()
