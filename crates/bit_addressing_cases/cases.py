#!/usr/bin/env python3
"""Writes the cases of this program, `stdin` and `stdout`: first worked rows with the answers that were worked out by hand,
then sweeps whose answers come from a plain list of bits and from nothing else.

usage: ./cases.py, in this folder. A case is: word order memory(hex) call words.
"""

import itertools
import random
import sys

sys.path.append("../bit_addressing_sample_orders")
from plain_bits import WORDS, Memory



def texts_row(line, *forms):
    """A row of a domain's four texts, the same of its writable one."""
    return line, (" ".join(forms) + " ") * 2


# Worked rows: none of these answers is computed here.
ROWS = [
    # 16 bits from place 4 on: moved down, up by a word, up by one bit, with reads and writes at most
    ("u8 lsb0 123456 move 4 0 16 6 2", "416356 yes"),
    ("u8 lsb0 123456 move 4 8 16 6 2", "124163 yes"),
    ("u8 lsb0 123456 move 4 5 16 9 3", "32684c yes"),
    ("u8 msb0 482c6a move 4 0 16 6 2", "82c66a yes"),
    ("u8 msb0 482c6a move 4 8 16 6 2", "4882c6 yes"),
    ("u8 msb0 482c6a move 4 5 16 9 3", "4c1632 yes"),
    ("u8 fifth 123456 move 4 8 16 99 2", "126341 yes"),
    ("u8 fifth 123456 move 4 0 16 99 2", "634156 yes"),
    # the same copied
    ("u8 lsb0 123456 copy 4 0 16", "416356 113456"),
    ("u8 lsb0 123456 copy 4 5 16", "32684c 123446"),
    ("u8 lsb0 123456 copy 4 8 16", "124163 123466"),
    ("u8 msb0 123456 copy 4 0 16", "234556 223456"),
    # bits read, written and replaced, by their place and by a pointer
    ("u8 lsb0 123456 entry 1 0", "1110345601034560123456"),
    # bytes from the highest digit on into a word from the lowest digit on
    ("u64 lsb0 0000000000000000 between between u8-msb0 1234 0 4 16", "000000000002c480 1234"),
    ("u64 lsb0 000000000002c480 between swap u8-msb0 ff 0 8 8", "000000000002ff80 23"),
    # bits exchanged
    ("u8 lsb0 c4 exchange 0 4 4", "4c"),
    ("u8 lsb0 70 swap 0 4", "61 70"),
    # pointers go on and back, and wrap round at the ends of `isize`
    ("u8 lsb0 - pointer 3 5 0", "3.5 3.5 3.5 3.5 "),
    ("u8 lsb0 - pointer 3 5 3", "4.0 4.0 4.0 4.0 "),
    ("u8 lsb0 - pointer 3 5 -6", "2.7 2.7 2.7 2.7 "),
    ("u8 lsb0 - pointer 3 5 -30", "-1.7 -1.7 -1.7 -1.7 "),
    ("u8 lsb0 - pointer 3 5 100", "16.1 16.1 16.1 16.1 "),
    ("u8 msb0 - pointer 9223372036854775807 7 1", "none none -9223372036854775808.0 -9223372036854775808.0 "),
    ("u64 fifth - pointer -9223372036854775808 0 -1", "none none 9223372036854775807.63 9223372036854775807.63 "),
    ("u64 fifth - pointer 9223372036854775807 63 66", "none none -9223372036854775807.1 -9223372036854775807.1 "),
    # bits 2 to before 6 of one byte stored and flipped, and from the highest digit on
    ("u8 lsb0 f0 act store 2 4 ff", "1,01 2-6 30, fc"),
    ("u8 lsb0 fc act invert 2 4 00", "1,01 2-6 3c, c0"),
    ("u8 msb0 0f act store 2 4 ff", "1,01 2-6 0c, 3f"),
    # the same as parts of a word, which then is written whole
    ("u8 lsb0 f0 part store 2 6 ff", "2,6,2,6 3c,30,30 fc 2,4 ff"),
    ("u8 lsb0 f0 part invert 2 6 ff", "2,6,2,6 3c,30,30 cc 2,4 ff"),
    ("u8 msb0 f0 part clear 2 6 ff", "2,6,2,6 3c,30,30 c0 2,4 ff"),
    ("u8 msb0 f0 part set 2 6 ff", "2,6,2,6 3c,30,30 fc 2,4 ff"),
    # bits 4 to before 20 of three bytes: their parts, and their words from the front, the back and by turns; an enclave; no bits
    (
        "u8 lsb0 123456 span 4 16",
        "3,4,0,4,16 00111111 10,4 ,8 ,4 ,8 f0=12,4,4 [34] 06,0 ,4 ,0 ,4 0f=56,0,4 10,34,06, 10,34,06, 06,34,10, 3:10,2:06,1:34,0:-,-,-,",
    ),
    ("u8 lsb0 f0 span 2 4", "1,6,0,2,4 11111111 in 30,2 ,6 ,2 ,6 3c=f0,2,4 30, 30, 30, 1:30,0:-,-,-,"),
    ("u8 msb0 f0 span 2 4", "1,6,0,2,4 11111111 in 30,2 ,6 ,2 ,6 3c=f0,2,4 30, 30, 30, 1:30,0:-,-,-,"),
    ("u8 msb0 123456 span 3 0", "0,3,0,3,0 11111111 - [] -    0:-,-,-,"),
    # number texts, in binary, octal, small and capital hexadecimal, of a domain and of its writable one: from the middle of one
    # byte up to that of another; the same from the highest digit on
    texts_row("u8 lsb0 1fabcd5e texts 4 24", "[10000, 10101011, 11001101, 1110]", "[20, 253, 315, 16]", "[10, ab, cd, e]", "[10, AB, CD, E]"),
    texts_row("u8 msb0 1fabcd5e texts 4 24", "[1111, 10101011, 11001101, 1010000]", "[17, 253, 315, 120]", "[f, ab, cd, 50]", "[F, AB, CD, 50]"),
    # words with leading zeros, whole words, a tail alone, an enclave, no bits
    texts_row("u8 lsb0 123456 texts 4 16", "[10000, 110100, 110]", "[20, 64, 6]", "[10, 34, 6]", "[10, 34, 6]"),
    texts_row("u8 lsb0 1fabcd5e texts 8 16", "[10101011, 11001101]", "[253, 315]", "[ab, cd]", "[AB, CD]"),
    texts_row("u8 lsb0 1fabcd5e texts 16 3", "[101]", "[5]", "[5]", "[5]"),
    texts_row("u16 lsb0 ffff0bad texts 19 8", "[1110101000]", "[1650]", "[3a8]", "[3A8]"),
    texts_row("u16 msb0 ffff0bad texts 23 0", "[]", "[]", "[]", "[]"),
    texts_row("u8 lsb0 - texts none", "[]", "[]", "[]", "[]"),
    # zeros, ones, and the upper half of a word of 128 bits
    texts_row("u64 lsb0 00000000000000000000000000000000 texts 60 68", "[0, 0]", "[0, 0]", "[0, 0]", "[0, 0]"),
    texts_row(
        "u64 lsb0 fffffffffffffffffedcba9876543210 texts 0 72",
        "[1111111111111111111111111111111111111111111111111111111111111111, 10000]",
        "[1777777777777777777777, 20]", "[ffffffffffffffff, 10]", "[FFFFFFFFFFFFFFFF, 10]",
    ),  # fmt: skip
    texts_row(
        "u128 lsb0 ffffffffffffffffffffffffffffffff0000000000000000fedcba9876543210 texts 64 72",
        "[11111111111111111111111111111111111111111111111111111111111111110000000000000000000000000000000000000000000000000000000000000000, 10000]",
        "[3777777777777777777776000000000000000000000, 20]", "[ffffffffffffffff0000000000000000, 10]", "[FFFFFFFFFFFFFFFF0000000000000000, 10]",
    ),  # fmt: skip
]

ORDERS = ("lsb0", "msb0", "fifth")
OTHERS = {"u8-msb0": ("u8", "msb0"), "u16-fifth": ("u16", "fifth"), "u64-lsb0": ("u64", "lsb0")}


def memory(rng, word, order, count):
    full = (1 << WORDS[word]) - 1
    return Memory(word, order, [rng.choice((full, *[rng.getrandbits(WORDS[word])] * 4)) for _ in range(count)])


# ---- entries, copies, exchanges, moves


def entry(own, place, bit):
    was, new = own.list()[place], own.put(place, [bit])
    return f"entry {place} {bit}", f"{was}{was}{new.hex()}{bit}{new.hex()}{bit}{own.hex()}"


def swap(own, first, second):
    bits = own.list()
    return f"swap {first} {second}", f"{own.put(first, [bits[second]]).put(second, [bits[first]]).hex()} {own.hex()}"


def copy(own, source, target, length):
    new = own.put(target, own.piece(source, length))
    back = new.put(source, new.piece(target, length))
    return f"copy {source} {target} {length}", f"{new.hex()} {back.hex()}"


def exchange(own, first, second, length):
    new = own.put(first, own.piece(second, length)).put(second, own.piece(first, length))
    return f"exchange {first} {second} {length}", new.hex()


def move(own, source, target, length):
    words = own.touched(target, length)
    # a word is read up to three times where positions go straight; of other orders no bound is promised
    reads = 3 * words if own.order != "fifth" else 1000000
    new = own.put(target, own.piece(source, length))
    return f"move {source} {target} {length} {reads} {words}", f"{new.hex()} yes"


def inside(rng):
    """Entries; copies and exchanges of a stretch from each place to each, of some length; some two bits swapped: at the start
    of four bytes, and of some places across two wide words."""
    for (word, count, first), order in itertools.product((("u8", 4, 0), ("u64", 2, 48), ("u128", 2, 112)), ORDERS):
        for source in range(0, 25, 1 if word == "u8" else 4):
            own = memory(rng, word, order, count)
            yield own, entry(own, first + source, source % 2)
            for target in range(0, 25, 1 if word == "u8" else 2):
                own = memory(rng, word, order, count)
                if (source + target) % 5 == 0:
                    yield own, swap(own, first + source, first + target)
                length = rng.randrange(33 - max(source, target))
                yield own, copy(own, first + source, first + target, length)
                if source < target:
                    length = rng.randint(0, min(target - source, 32 - target))
                    yield own, exchange(own, first + source, first + target, length)


def moves(rng):
    """Moves over nine bytes from each place to each, of some length; moves at edges of four words of each width."""
    for order in ORDERS:
        for source, target in itertools.product(range(25), range(25)):
            own = memory(rng, "u8", order, 9)
            for length in rng.sample(range(41), 1):
                yield own, move(own, source, target, length)
    for word, b in WORDS.items():
        rows = [
            (3, b, b), (2 * b, b, b), (b + 5, 0, 2 * b), (5, b, 2 * b), (1, 0, 3 * b), (0, b, 3 * b), (b - 1, b, 3 * b),
            (0, 0, 4 * b), (2 * b + 3, b + 1, b - 2), (1, 2 * b + 2, 3), (3 * b + 7, 7, 1), (7, b + 5, b - 5),
            (b + 1, 0, b + 1), (3, b - 1, 2), (3 * b - 2, b - 1, 2), (b, 3, 2 * b), (3, b, 2 * b + 1), (5, 3, 3 * b),
            (3, 5, 3 * b), (b + 3, 3, 2 * b + 2), (3, b + 3, 2 * b + 2), (17, 49, 0),
        ]  # fmt: skip
        for order, (source, target, length) in itertools.product(ORDERS, rows):
            if max(source, target) + length <= 4 * b:
                own = memory(rng, word, order, 4)
                yield own, move(own, source, target, length)


def between(rng):
    """Each call between two memories, from each third place of the others on."""
    for word, order, kind in itertools.product(("u8", "u64"), ORDERS, OTHERS):
        for source, call in itertools.product(range(0, 25, 3), ("between", "to", "to_apart", "from", "from_apart", "swap", "swap_bit")):
            own = memory(rng, word, order, 4 if word == "u8" else 2)
            others = memory(rng, *OTHERS[kind], 64 // WORDS[OTHERS[kind][0]])
            target = rng.randrange(25) + (48 if word == "u64" else 0)
            length = 1 if call == "swap_bit" else rng.randrange(25)
            length = min(length, len(own.list()) - target)
            new, left = own.put(target, others.piece(source, length)), others
            if call.startswith("swap"):
                left = others.put(source, own.piece(target, length))
            line = f"between {call} {kind} {others.hex()} {source} {target} {length}"
            yield own, (line, f"{new.hex()} {left.hex()}")


# ---- pointers

LEAST, MOST = -(1 << 63), (1 << 63) - 1


def pointer(bits, word, index, by):
    there, bit = divmod(word * bits + index + by, bits)
    wrapped = (there - LEAST) % (1 << 64) + LEAST
    moved = f"{there}.{bit} " if LEAST <= there <= MOST else "none "
    return moved * 2 + f"{wrapped}.{bit} " * 2


def pointers(rng):
    """From each bit of bytes, and each ninth of wide words, about word 0 and at both ends, up to 70 bits on and back."""
    for word, bits in (("u8", 8), ("u64", 64)):
        for order in ORDERS:
            for number in (-3, -1, 0, 2, LEAST, LEAST + 1, MOST - 1, MOST):
                for index in range(0, bits, 1 if bits == 8 else 9):
                    for by in rng.sample(range(-70, 71), 2):
                        yield f"{word} {order} - pointer {number} {index} {by}", pointer(bits, number, index, by)


# ---- spans, their domains, and parts of words


def masked(own, k, start, end):
    """Word k with zeros outside the places from start up to before end."""
    bits = own.list()
    kept = [bits[p] if start <= p < end else 0 for p in range(k * own.bits, (k + 1) * own.bits)]
    return own.text(own.of(kept).words[0])


def mask(own, first, end):
    return own.text(own.of([int(first <= i < end) for i in range(own.bits)]).words[0])


def part_text(own, start, end):
    """A part of one word."""
    k, first, last = start // own.bits, start % own.bits, end - start // own.bits * own.bits
    bounds = f",{first} ,{last} " * 2
    return f" {masked(own, k, start, end)}{bounds}{mask(own, first, last)}={own.text(own.words[k])},{first},{end - start} "


def cut_text(own, start, end):
    first, b = start % own.bits, own.bits
    if start == end:
        return " - [] - "
    if first > 0 and first + end - start < b:
        return " in" + part_text(own, start, end)
    head, tail = (start + b - 1) // b * b, end // b * b
    body = "".join(own.text(w) for w in own.words[head // b : tail // b])
    return (
        (part_text(own, start, head) if first else " - ")
        + f"[{body}]"
        + (part_text(own, tail, end) if tail < end else " - ")
    )


def held(own, start, end):
    return [masked(own, k, start, end) for k in range(start // own.bits, (end - 1) // own.bits + 1)] if start < end else []


def span(own, start, length):
    end, b, count = start + length, own.bits, own.touched(start, length)
    tail = (end - 1) % b + 1 if length else start % b
    text = f"{count},{tail},{start // b},{start % b},{length} "
    text += "".join(str(int(start // b + count <= n)) for n in range(1, 9))
    if start // b + count <= len(own.words):
        words = held(own, start, end)
        text += cut_text(own, start, end) + ("".join(f"{w}," for w in words) + " ") * 2
        text += "".join(f"{w}," for w in words[::-1]) + " "
        left = words[:]
        for k in range(len(words)):
            text += f"{len(left)}:{left.pop(0 if k % 2 == 0 else -1)},"
        text += "0:-,-,-,"
    return f"span {start} {length}", text


ACTS = ("load", "store", "invert", "clear", "set")


def acted(name, old, new):
    return {"load": old, "store": new, "invert": 1 - old, "clear": 0, "set": 1}[name]


def act(own, name, start, length, values):
    end, b = start + length, own.bits
    words = held(own, start, end)
    inside = start % b > 0 and start % b + length < b and length > 0
    text = f"{len(words)},{int(not words)}{int(inside)} "
    for k in range(start // b, start // b + len(words)):
        text += f"{max(start - k * b, 0)}-{min(end - k * b, b)} "
    text += "".join(f"{w}," for w in words)
    bits, new = own.list(), values.list()
    for p in range(start, end):
        bits[p] = acted(name, bits[p], new[p - start // b * b])
    return f"act {name} {start} {length} {values.hex()}", f"{text} {own.of(bits).hex()}"


def part(own, name, first, end, value):
    kept = masked(own, 0, first, end)
    bits, new = own.list(), value.list()
    for i in range(first, end):
        bits[i] = acted(name, bits[i], new[i])
    text = f"{first},{end},{first},{end} {mask(own, first, end)},{kept},{kept} {own.of(bits).hex()} "
    return f"part {name} {first} {end} {value.hex()}", text + f"{first},{end - first} {value.hex()}"


def spans(rng):
    """Bytes at every start and length, wide words at edges."""
    for order in ORDERS:
        for start, length in itertools.product(range(25), range(25)):
            own = memory(rng, "u8", order, 4)
            yield own, span(own, start, length)
            if own.touched(start, length) + start // 8 <= 4:
                yield own, act(own, ACTS[(start + length) % 5], start, length, memory(rng, "u8", order, 4))
        starts, lengths = (0, 1, 31, 63, 64, 65, 100, 128, 191, 192, 200), (0, 1, 2, 27, 33, 63, 64, 65, 127, 128, 129, 156)
        for word, start, length in itertools.product(("u64", "u16", "u128"), starts, lengths):
            own = memory(rng, word, order, 256 // WORDS[word])
            yield own, span(own, start, length)
            if start + length <= 256:
                yield own, act(own, rng.choice(ACTS), start, length, memory(rng, word, order, 256 // WORDS[word]))


def texts(rng):
    """The number texts of domains, from each third place of bytes on, of some length; of wider words at edges."""
    for word, order in itertools.product(WORDS, ORDERS):
        b = WORDS[word]
        starts = range(0, 25, 3) if b == 8 else (0, 1, b - 1, b, b + 7)
        for start in starts:
            own = memory(rng, word, order, 4)
            length = rng.randrange(4 * b - start + 1)
            words = [int(w, 16) for w in held(own, start, start + length)]
            forms = ["[" + ", ".join(format(w, form) for w in words) + "]" for form in "boxX"]
            yield own, (f"texts {start} {length}", (" ".join(forms) + " ") * 2)


def parts(rng):
    """Each part of a byte, some of wider words."""
    for order in ORDERS:
        for first in range(8):
            for end, name in itertools.product(range(first, 9), ACTS[1:]):
                own = memory(rng, "u8", order, 1)
                yield own, part(own, name, first, end, memory(rng, "u8", order, 1))
        for word, first, length in itertools.product(("u64", "u32", "u128"), (0, 1, 24, 31), (0, 1, 7, 24, 33, 63, 64, 97)):
            if first + length <= WORDS[word]:
                own = memory(rng, word, order, 1)
                yield own, part(own, rng.choice(ACTS[1:]), first, first + length, memory(rng, word, order, 1))


def main():
    rng = random.Random(13)
    cases = list(ROWS)
    for sweep in (inside, moves, between, spans, parts):
        cases += [(f"{own.head()} {line}", answer) for own, (line, answer) in sweep(rng)]
    cases += pointers(rng)
    cases += [(f"{own.head()} {line}", answer) for own, (line, answer) in texts(rng)]
    with open("stdin", "w") as file:
        file.write("".join(f"{line}\n" for line, _ in cases))
    with open("stdout", "w") as file:
        file.write("".join(f"{answer}\n" for _, answer in cases))


if __name__ == "__main__":
    main()
