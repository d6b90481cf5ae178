#!/usr/bin/env python3
"""Answers the lines of docs/CHOICES.md, by docs/RULES.md and docs/POLICIES.md. Reads standard input, writes standard output."""

import re
import sys
from fractions import Fraction
from typing import NamedTuple, Optional

BAD_LINE = "? bad line"


class Row(NamedTuple):
    offered: bool
    r: int
    a: int
    m: int
    s: int
    rank: Optional[int]


def key(data: bytes) -> int:
    value = 14695981039346656037
    for byte in data:
        value = ((value ^ byte) * 1099511628211) % 2**64
    return value


def within_limits(row: Row) -> bool:
    if row.a > row.r or row.r > 256 or row.s > 100_000:
        return False
    if row.offered and (row.r == 0 or row.s == 0 or row.rank is None):
        return False
    return True


def lowest(rows, measure) -> str:
    """The number of the offered row of lowest measure, the lower number of equals."""
    candidates = [(measure(row), number) for number, row in enumerate(rows) if row.offered]
    return str(min(candidates)[1]) if candidates else "nobody"


def ratio(tax: int, row: Row) -> Fraction:
    cost = (100 - tax) * row.a + 100 * (row.r - row.a)
    return Fraction(row.s, cost)


def number(text: str, most: int) -> int:
    if not re.fullmatch("[0-9]+", text) or int(text) > most:
        raise ValueError(text)
    return int(text)


def read_row(text: str) -> Row:
    offered, r, a, m, s, rank = text.split(",")
    if offered not in ("0", "1"):
        raise ValueError(offered)
    return Row(
        offered == "1",
        number(r, 65_535),
        number(a, 65_535),
        number(m, 65_535),
        number(s, 4_294_967_295),
        None if rank == "-" else number(rank, 65_535),
    )


def read_rows(words) -> list:
    rows = [read_row(word) for word in words]
    if len(rows) != 8:
        raise ValueError(words)
    return rows


def answer(line: str) -> str:
    if line == "K":
        return f"{key(b''):016x}"
    kind, *words = line.split(" ")
    if kind == "K" and len(words) == 1 and re.fullmatch("([0-9a-fA-F]{2})+", words[0]):
        return f"{key(bytes.fromhex(words[0])):016x}"
    if kind == "M" and words:
        tax = number(words[0], 4_294_967_295)
        rows = read_rows(words[1:])
        if tax > 99:
            return "refused by 8"
        if not all(map(within_limits, rows)):
            return "rows refused"
        return lowest(rows, lambda row: ratio(tax, row))
    if kind == "L":
        rows = read_rows(words)
        if not all(map(within_limits, rows)):
            return "rows refused"
        return lowest(rows, lambda row: row.rank)
    raise ValueError(line)


def main() -> None:
    for line in sys.stdin:
        try:
            print(answer(line.rstrip("\n")))
        except ValueError:
            print(BAD_LINE)


if __name__ == "__main__":
    main()
