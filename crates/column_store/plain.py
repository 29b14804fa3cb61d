#!/usr/bin/env python3
"""What column_store answers, worked out with a plain list of rows. It uses nothing of the crates.

usage: plain.py [--where CONDITION ..] (--count | --list | --rows | --image | --layout) < TABLE
In this folder `./plain.py $(cat args) < stdin` gives `stdout`.
"""

import csv
import operator
import re
import sys

TESTS = {"<": operator.lt, "=": operator.eq, ">": operator.gt}


def kind(numbers):
    """The sign and the width of the narrowest field: the digits of each number, and one for the sign."""
    if any(n < 0 for n in numbers):
        return "i", 1 + max((n if n >= 0 else -n - 1).bit_length() for n in numbers)
    return "u", max([1] + [n.bit_length() for n in numbers])


def meets(row, names, condition):
    name, test, value = re.fullmatch(r"([^<=>]*)([<=>])(-?[0-9]+)", condition).groups()
    return TESTS[test](row[names.index(name)], int(value))


def image(rows, kinds):
    """The rows' bits end to end, a number's lowest first, cut by eight, each byte's lowest first."""
    bits, place = 0, 0
    for row in rows:
        for number, (_, width) in zip(row, kinds):
            bits |= (number % 2**width) << place
            place += width
    return bits.to_bytes((place + 7) // 8, "little").hex()


def answer(text, words):
    names, *rows = csv.reader(text.splitlines())
    rows = [[int(cell) for cell in row] for row in rows]
    conditions = [words[k + 1] for k, word in enumerate(words) if word == "--where"]
    asked = words[-1]
    kinds = [kind([row[j] for row in rows]) for j in range(len(names))]
    places = [k for k, row in enumerate(rows) if all(meets(row, names, c) for c in conditions)]
    if asked == "--count":
        return str(len(places))
    if asked == "--list":
        return " ".join(map(str, places)) or "none"
    if asked == "--rows":
        return "\n".join([",".join(names)] + [",".join(map(str, rows[k])) for k in places])
    if asked == "--layout":
        return "low " + " ".join(f"{name}:{sign}{width}" for name, (sign, width) in zip(names, kinds))
    return f"{len(rows)} {image(rows, kinds)}" if rows else "0"


if __name__ == "__main__":
    print(answer(sys.stdin.read(), sys.argv[1:]))
