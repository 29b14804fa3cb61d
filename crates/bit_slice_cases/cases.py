#!/usr/bin/env python3
"""Writes the cases of this program, `stdin` and `stdout`: first worked rows with the answers that were worked out by hand,
then sweeps whose answers come from a plain list of bits and from nothing else.

usage: ./cases.py, in this folder. A case is: word order memory(hex) from len call words.
"""

import random
import sys

sys.path.append("../bit_addressing_sample_orders")
from plain_bits import ORDERS, WORDS, Memory

# Worked rows: none of these answers is computed here.
ROWS = [
    # the bits 0, 1, 0, 0, 1 with ones beside them, rotated by 2 and back, shifted by 2 and by 5
    ("u8 lsb0 cb 2 5 rotate_left 2", "d3"),
    ("u8 lsb0 d3 2 5 rotate_right 2", "cb"),
    ("u8 lsb0 cb 2 5 shift_left 2", "93"),
    ("u8 lsb0 cb 2 5 shift_right 2", "a3"),
    ("u8 lsb0 cb 2 5 shift_right 5", "83"),
    ("u8 msb0 d3 2 5 rotate_left 2", "cb"),
    ("u8 msb0 cb 2 5 rotate_right 2", "d3"),
    ("u8 msb0 d3 2 5 shift_left 2", "c9"),
    ("u8 msb0 d3 2 5 shift_right 2", "c5"),
    ("u8 msb0 d3 2 5 shift_right 5", "c1"),
    # four ones combined with the list 1, 0, which is shorter
    ("u8 lsb0 78 3 4 and 10", "08"),
    ("u8 lsb0 78 3 4 or 10", "78"),
    ("u8 lsb0 78 3 4 xor 10", "70"),
    # sixteen bits moved in the window of bits 2 to before 22
    ("u8 lsb0 123456 2 20 move 2 0 16 3", "few 068d55"),
    ("u8 lsb0 123456 4 16 move_words 2 3", "few 068d55"),
    # bits 0, 3 and the last and a part written by index and range
    ("u8 lsb0 000000 0 24 first_mut 1", "010000"),
    ("u8 lsb0 010000 0 24 get_mut 3 1", "090000"),
    ("u8 lsb0 090000 0 24 get_range_mut 8 12", "090f00"),
    ("u8 lsb0 090f00 0 24 copy_within 8 12 16", "090f0f"),
    ("u8 lsb0 090f0f 0 24 last_mut 1", "090f8f"),
    # each third bit set, and of the first eight each turned
    ("u8 lsb0 000000 0 24 fill_with", "499224"),
    ("u8 lsb0 499224 0 24 for_each", "b69224"),
    # windows of two orders exchanged: the one of the first has index 0, that of the other index 7
    ("u8 lsb0 01 0 8 swap_with 00000001", "10000000 80"),
    # what other names of copies and exchanges do: 0x0f and 0x35, 0x0f from its highest digit on
    ("u8 lsb0 0f 0 8 swap_with_slice 10101100", "11110000 35"),
    ("u8 lsb0 35 0 8 clone_slice 00001111", "f0"),
    ("u8 lsb0 f0 0 8 copy_from_slice 0f 0", "true 0 0f 0f"),
    # 1, 0, 1, 1, 0, 1 written out, also in groups of three and of four, and no bits
    ("u8 lsb0 5a 1 6 texts", "[1, 0, 1, 1, 0, 1] [1, 0, 1, 1, 0, 1] [1, 0, 1, 1, 0, 1] [5, 5] [b, 1] [B, 1]"),
    ("u8 lsb0 2d 0 6 texts_mut", "[1, 0, 1, 1, 0, 1] [1, 0, 1, 1, 0, 1] [1, 0, 1, 1, 0, 1] [5, 5] [b, 1] [B, 1]"),
    ("u8 lsb0 2d 0 0 texts", "[] [] [] [] [] []"),
    # bytes and words of 16 bits with the same list, halves as prefixes, suffixes and parts
    ("u8 lsb0 06ff 0 16 eq 0110000011111111", "true"),
    ("u8 lsb0 06ff 0 16 cmp 0110000011111111", "Equal"),
    ("u8 lsb0 06ff 0 16 starts 01100000", "true"),
    ("u8 lsb0 06ff 0 16 starts 11111111", "false"),
    ("u8 lsb0 06ff 0 16 ends 11111111", "true"),
    ("u8 lsb0 06ff 0 16 contains 11111111", "true"),
    ("u8 lsb0 06ff 0 16 contains -", "true"),
    ("u8 lsb0 06ff 0 8 cmp 0110000011111111", "Less"),
    ("u8 lsb0 06ff 0 16 split_at 8", "01100000|11111111"),
    ("u8 lsb0 06ff 0 16 strip_prefix 01100000", "|11111111"),
    ("u8 lsb0 06ff 0 16 strip_suffix 01100000", "none"),
    # each scan of 0, 1, 1, five zeros and eight ones, and some of no bits
    ("u8 lsb0 06ff 0 16 count", "10 6"),
    ("u8 lsb0 06ff 0 16 ones", "Some(1) Some(15)"),
    ("u8 lsb0 06ff 0 16 zeros", "Some(0) Some(7)"),
    ("u8 lsb0 06ff 0 16 leading", "0 1"),
    ("u8 lsb0 06ff 0 16 trailing", "8 0"),
    ("u8 lsb0 06ff 0 16 any", "true false true"),
    ("u8 lsb0 06ff 0 16 not_any", "false true"),
    ("u8 lsb0 06ff 0 0 any", "false true false"),
    ("u8 lsb0 06ff 0 0 not_any", "true false"),
    # the first and the last bit of bits 4 to before 20
    ("u8 lsb0 123456 4 16 first", "1"),
    ("u8 lsb0 123456 4 16 last", "0"),
    ("u8 lsb0 123456 4 16 split_first", "1000001011000110"),
    ("u8 lsb0 123456 4 16 split_last", "0100000101100011"),
    # a window of sixteen bits read in parts
    ("u8 lsb0 960f 0 16 get 16", "none"),
    ("u8 lsb0 960f 0 16 get 1", "1"),
    ("u8 lsb0 960f 0 16 get_range 4 17", "none"),
    ("u8 lsb0 960f 0 16 get_range 1 3", "|11"),
    ("u8 lsb0 960f 0 16 part 8 4", "1111"),
    ("u8 lsb0 960f 0 16 split_at 8", "01101001|11110000"),
    ("u8 lsb0 960f 0 16 split_first", "0110100111110000"),
    ("u8 lsb0 960f 0 16 split_last", "0011010011111000"),
    ("u8 lsb0 960f 0 16 strip_prefix 01101001", "|11110000"),
    ("u8 lsb0 960f 0 16 strip_suffix 11110000", "|01101001"),
    # 0, 1, 0, 0, 1 in twos from the back
    ("u8 lsb0 12 0 5 rchunks 2 front", "|01|10|0|"),
    # the ten bits 1011001110 in pieces of each kind, and what is left over
    ("u8 lsb0 6fee 3 10 chunks 1 front", "|1|0|1|1|0|0|1|1|1|0|"),
    ("u8 lsb0 6fee 3 10 chunks_exact 1 front", "|1|0|1|1|0|0|1|1|1|0|"),
    ("u8 lsb0 6fee 3 10 rchunks 1 front", "|0|1|1|1|0|0|1|1|0|1|"),
    ("u8 lsb0 6fee 3 10 rchunks_exact 1 front", "|0|1|1|1|0|0|1|1|0|1|"),
    ("u8 lsb0 6fee 3 10 windows 1 front", "|1|0|1|1|0|0|1|1|1|0|"),
    ("u8 lsb0 6fee 3 10 chunks 2 front", "|10|11|00|11|10|"),
    ("u8 lsb0 6fee 3 10 chunks_exact 2 back", "|10|11|00|11|10|"),
    ("u8 lsb0 6fee 3 10 rchunks 2 front", "|10|11|00|11|10|"),
    ("u8 lsb0 6fee 3 10 rchunks_exact 2 turns", "|10|10|11|11|00|"),
    ("u8 lsb0 6fee 3 10 windows 2 front", "|10|01|11|10|00|01|11|11|10|"),
    ("u8 lsb0 6fee 3 10 chunks 3 front", "|101|100|111|0|"),
    ("u8 lsb0 6fee 3 10 chunks 3 back", "|0|111|100|101|"),
    ("u8 lsb0 6fee 3 10 chunks 3 turns", "|0|101|111|100|"),
    ("u8 lsb0 6fee 3 10 chunks_exact 3 front", "|101|100|111|"),
    ("u8 lsb0 6fee 3 10 rchunks 3 front", "|110|001|011|1|"),
    ("u8 lsb0 6fee 3 10 rchunks_exact 3 front", "|110|001|011|"),
    ("u8 lsb0 6fee 3 10 windows 3 front", "|101|011|110|100|001|011|111|110|"),
    ("u8 lsb0 6fee 3 10 chunks 10 front", "|1011001110|"),
    ("u8 lsb0 6fee 3 10 rchunks_exact 10 front", "|1011001110|"),
    ("u8 lsb0 6fee 3 10 windows 10 back", "|1011001110|"),
    ("u8 lsb0 6fee 3 10 chunks 11 front", "|1011001110|"),
    ("u8 lsb0 6fee 3 10 rchunks 11 front", "|1011001110|"),
    ("u8 lsb0 6fee 3 10 chunks_exact 11 front", "|"),
    ("u8 lsb0 6fee 3 10 rchunks_exact 11 front", "|"),
    ("u8 lsb0 6fee 3 10 windows 11 front", "|"),
    ("u8 lsb0 6fee 3 0 chunks 3 front", "|"),
    ("u8 lsb0 6fee 3 10 chunks_exact_rest 2", ""),
    ("u8 lsb0 6fee 3 10 chunks_exact_rest 3", "0"),
    ("u8 lsb0 6fee 3 10 chunks_exact_rest 11", "1011001110"),
    ("u8 lsb0 6fee 3 10 rchunks_exact_rest 3", "1"),
    ("u8 lsb0 6fee 3 10 rchunks_exact_rest 10", ""),
    # the same lent and flipped, and the bits in no piece
    ("u8 lsb0 6fee 3 10 chunks_mut 1111111111 2 0", "5 97f1"),
    ("u8 lsb0 6fee 3 10 chunks_exact_mut 1111111111 2 0", "5 97f1"),
    ("u8 lsb0 6fee 3 10 chunks_mut 1111111111 3 0", "4 97f1"),
    ("u8 lsb0 6fee 3 10 chunks_exact_mut 1111111111 3 0", "3 97e1"),
    ("u8 lsb0 6fee 3 10 chunks_mut 1111111111 10 0", "1 97f1"),
    ("u8 lsb0 6fee 3 10 chunks_mut 1111111111 11 0", "1 97f1"),
    ("u8 lsb0 6fee 3 10 chunks_exact_mut 1111111111 11 0", "0 6fee"),
    ("u8 lsb0 6fee 3 10 rchunks_mut 1111111111 3 0", "4 97f1"),
    ("u8 lsb0 6fee 3 10 rchunks_exact_mut 1111111111 3 0", "3 9ff1"),
    ("u8 lsb0 6fee 3 10 rchunks_mut 1111111111 10 0", "1 97f1"),
    ("u8 lsb0 6fee 3 10 rchunks_mut 1111111111 11 0", "1 97f1"),
    ("u8 lsb0 6fee 3 10 rchunks_exact_mut 1111111111 11 0", "0 6fee"),
    ("u8 lsb0 6fee 3 10 chunks_take_rest - 3", "0 6ffe"),
    ("u8 lsb0 6fee 3 10 chunks_into_rest - 3", "0 6ffe"),
    ("u8 lsb0 6fee 3 10 chunks_take_rest - 2", "0 6fee"),
    ("u8 lsb0 6fee 3 10 chunks_into_rest - 11", "0 97f1"),
    ("u8 lsb0 6fee 3 10 rchunks_take_rest - 3", "0 67ee"),
    ("u8 lsb0 6fee 3 10 rchunks_into_rest - 3", "0 67ee"),
    ("u8 lsb0 6fee 3 10 rchunks_into_rest - 11", "0 97f1"),
    # the first of each five bits set
    ("u8 lsb0 000000 0 24 chunks_mut 1 5 0", "5 218410"),
    # the indices of their ones and zeros
    ("u8 lsb0 6fee 3 10 iter_ones front", "0,2,3,6,7,8,."),
    ("u8 lsb0 6fee 3 10 iter_ones back", "8,7,6,3,2,0,."),
    ("u8 lsb0 6fee 3 10 iter_zeros turns", "9,1,5,4,."),
    # 0, 1, 0, 0, 1, 0 split at ones, behind them, from the back, so many at most; no bits
    ("u8 lsb0 d2 0 6 split", "|0|00|0|"),
    ("u8 lsb0 d2 0 6 split back", "|0|00|0|"),
    ("u8 lsb0 d2 0 6 splitn 2", "|0|0010|"),
    ("u8 lsb0 d2 0 6 rsplit", "|0|00|0|"),
    ("u8 lsb0 d2 0 6 rsplitn 2", "|0|0100|"),
    ("u8 lsb0 d2 0 6 splitn 1", "|010010|"),
    ("u8 lsb0 d2 0 6 rsplitn 1", "|010010|"),
    ("u8 lsb0 d2 0 6 splitn 9", "|0|00|0|"),
    ("u8 lsb0 d2 0 6 split_inclusive", "|01|001|0|"),
    ("u8 lsb0 d2 0 6 split_inclusive back", "|0|001|01|"),
    ("u8 lsb0 d2 0 5 split_inclusive", "|01|001|"),
    ("u8 lsb0 d2 0 0 split", "||"),
    ("u8 lsb0 d2 0 0 split_inclusive", "|"),
    ("u8 lsb0 d2 0 0 splitn 0", "|"),
    # bits 4 to before 20 as numbers of sixteen bits
    ("u8 lsb0 123456 4 16 load_le u16", f"{0x6341} 123456"),
    ("u8 lsb0 123456 4 16 load_be u16", f"{0x1346} 123456"),
    ("u8 msb0 123456 4 16 load_le u16", f"{0x5342} 123456"),
    ("u8 msb0 123456 4 16 load_be u16", f"{0x2345} 123456"),
    # three ones with a sign and without
    ("u8 lsb0 0e 1 3 load_le i8", "-1 0e"),
    ("u8 lsb0 0e 1 3 load_le u8", "7 0e"),
    # 0, 4, .. 28 stored in windows of five bits, each over ones, and loaded
    ("u8 msb0 f910c8531c 0 5 store_be u8 0", "0 0110c8531c"),
    ("u8 msb0 07d0c8531c 5 5 store_be u8 4", "4 0110c8531c"),
    ("u8 msb0 013ec8531c 10 5 store_be u8 8", "8 0110c8531c"),
    ("u8 msb0 0111f8531c 15 5 store_be u8 12", "12 0110c8531c"),
    ("u8 msb0 0110cfd31c 20 5 store_be u8 16", "16 0110c8531c"),
    ("u8 msb0 0110c87f1c 25 5 store_be u8 20", "20 0110c8531c"),
    ("u8 msb0 0110c853fc 30 5 store_be u8 24", "24 0110c8531c"),
    ("u8 msb0 0110c8531f 35 5 store_be u8 28", "28 0110c8531c"),
    # numbers that come back with fewer digits: -5 in four bits and in three, 5 in three, 2048 in twelve, 1 in one
    ("u8 lsb0 000000 3 4 store_le i16 -5", "-5 580000"),
    ("u8 lsb0 000000 6 3 store_le i16 -5", "3 c00000"),
    ("u8 lsb0 000000 6 3 store_be i16 5", "-3 800100"),
    ("u8 msb0 000000 5 12 store_be i16 -2048", "-2048 040000"),
    ("u8 msb0 000000 5 12 store_be i16 2048", "-2048 040000"),
    ("u8 lsb0 000000 3 16 store_le i16 -32768", "-32768 000004"),
    ("u64 msb0 0000000000000000 7 1 store_le i16 1", "-1 0100000000000000"),
]

TYPES = {"u8": 8, "u16": 16, "u32": 32, "u64": 64, "u128": 128, "usize": 64}
TYPES |= {"i8": 8, "i16": 16, "i32": 32, "i64": 64, "i128": 128, "isize": 64}


def text(bits):
    return "".join(map(str, bits))


def truths(*all):
    return " ".join("true" if it else "false" for it in all)


def places(bits, bit):
    found = [i for i, b in enumerate(bits) if b == bit]
    return f"Some({found[0]}) Some({found[-1]})" if found else "None None"


def run(bits, bit):
    return next((i for i, b in enumerate(bits) if b != bit), len(bits))


def holds(bits, other):
    return any(bits[i : i + len(other)] == other for i in range(len(bits) - len(other) + 1))


def compared(bits, other):
    return "Less" if bits < other else "Greater" if bits > other else "Equal"


def found(bits):
    return "|" + text(bits)


# ---- calls that read: each comes with its words and its answer


def looks(bits, other, rng):
    n, ones = len(bits), sum(bits)
    i = rng.randint(0, n + 2)
    yield "len", "", f"{n} {truths(n == 0)}"
    if i < n:
        yield "bit", f"{i}", truths(bits[i])
    yield "count", "", f"{ones} {n - ones}"
    yield "ones", "", places(bits, 1)
    yield "zeros", "", places(bits, 0)
    yield "leading", "", f"{run(bits, 1)} {run(bits, 0)}"
    yield "trailing", "", f"{run(bits[::-1], 1)} {run(bits[::-1], 0)}"
    yield "any", "", truths(ones > 0, ones == n, 0 < ones < n)
    yield "not_any", "", truths(ones == 0, ones < n)
    yield "eq", text(other), truths(bits == other)
    yield "cmp", text(other), compared(bits, other)
    yield "contains", text(other), truths(holds(bits, other))
    yield "starts", text(other), truths(bits[: len(other)] == other)
    yield "ends", text(other), truths(len(other) <= n and bits[n - len(other) :] == other)
    yield "texts", "", texts(bits)
    yield "texts_mut", "", texts(bits)


def texts(bits):
    def groups(size, form):
        return ", ".join(form.format(int(text(bits[i : i + size]), 2)) for i in range(0, len(bits), size))

    one, many = groups(1, "{}"), [groups(3, "{:o}"), groups(4, "{:x}"), groups(4, "{:X}")]
    return " ".join(f"[{it}]" for it in [one, one, one, *many])


def shares(bits, other, rng):
    n = len(bits)
    i, j = rng.randint(0, n), rng.randint(0, n + 2)
    yield "first", "", str(bits[0]) if bits else "none"
    yield "last", "", str(bits[-1]) if bits else "none"
    yield "part", f"{i} {n - i}", text(bits[i:])
    yield "part", f"{i // 2} {i - i // 2}", text(bits[i // 2 : i])
    yield "split_at", f"{i}", text(bits[:i]) + found(bits[i:])
    yield "get", f"{j}", str(bits[j]) if j < n else "none"
    yield "get_range", f"{i} {j}", found(bits[i:j]) if i <= j <= n else "none"
    yield "strip_prefix", text(other), found(bits[len(other) :]) if bits[: len(other)] == other else "none"
    ends = len(other) <= n and bits[n - len(other) :] == other
    yield "strip_suffix", text(other), found(bits[: n - len(other)]) if ends else "none"
    yield "split_first", "", text(bits)
    yield "split_last", "", text(bits[-1:] + bits[:-1])


KINDS = ("chunks", "chunks_exact", "rchunks", "rchunks_exact")


def stretches(n, kind, size):
    """Where the pieces of a kind lie, from its front on."""
    return {
        "chunks": [(i, min(i + size, n)) for i in range(0, n, size)],
        "chunks_exact": [(i, i + size) for i in range(0, n - size + 1, size)],
        "rchunks": [(max(i - size, 0), i) for i in range(n, 0, -size)],
        "rchunks_exact": [(i - size, i) for i in range(n, size - 1, -size)],
        "windows": [(i, i + size) for i in range(n - size + 1)],
        "iter": [(i, i + 1) for i in range(n)],
    }[kind]


def in_turn(all, way):
    """What comes from the front, from the back, or from the back and the front by turns."""
    if way == "turns":
        left = list(all)
        return [left.pop(-1 if k % 2 == 0 else 0) for k in range(len(all))]
    return list(all)[::-1] if way == "back" else list(all)


def cuts(bits, size):
    n = len(bits)
    for way in ("front", "back", "turns"):
        for kind in (*KINDS, "windows"):
            pieces = [text(bits[a:b]) for a, b in stretches(n, kind, size)]
            yield kind, f"{size} {way}", "|" + "".join(f"{it}|" for it in in_turn(pieces, way))
            if way != "turns":
                call, by = ("nth", "nth_back")[way == "back"], size % 4
                found = in_turn(pieces, way)[by :: by + 1]
                yield kind, f"{size} {call} {by}", "|" + "".join(f"{it}|" for it in found)
        for call, bit in (("iter_ones", 1), ("iter_zeros", 0)):
            indices = [i for i, b in enumerate(bits) if b == bit]
            yield call, way, "".join(f"{i}," for i in in_turn(indices, way)) + "."
    yield "chunks_exact_rest", f"{size}", text(bits[n - n % size :])
    yield "rchunks_exact_rest", f"{size}", text(bits[: n % size])


def parts(bits):
    """The parts between ones."""
    return text(bits).split("1")


def behind(bits):
    """The parts that end with a one, or at the end."""
    parts = [part + "1" for part in text(bits).split("1")]
    parts[-1] = parts[-1][:-1]
    return parts if parts[-1] else parts[:-1]


def splits(bits, count):
    def listed(parts):
        return "".join(f"|{part}" for part in parts) + "|"

    yield "split", "", listed(parts(bits))
    yield "split", "back", listed(parts(bits)[::-1])
    yield "rsplit", "", listed(parts(bits)[::-1])
    yield "rsplit", "back", listed(parts(bits))
    yield "split_inclusive", "", listed(behind(bits))
    yield "split_inclusive", "back", listed(behind(bits)[::-1])
    yield "splitn", f"{count}", listed(text(bits).split("1", count - 1) if count else [])
    yield "rsplitn", f"{count}", listed(text(bits).rsplit("1", count - 1)[::-1] if count else [])


# ---- calls that write: each comes with its words, the new bits, and what it tells before the memory


def combined(bits, other, how):
    """The bits combined with another list's, which count as zeros behind its end."""
    return [how(a, b) for a, b in zip(bits, other + [0] * len(bits))]


def shifted(bits, by):
    """The bits moved so many places towards the last one."""
    by = min(by, len(bits))
    return [0] * by + bits[: len(bits) - by]


def unshifted(bits, by):
    return shifted(bits[::-1], by)[::-1]


def changes(bits, other, by):
    """What changes all bits."""
    n, k = len(bits), min(by, len(bits))
    for call, args, new in (
        ("fill", "0", [0] * n),
        ("fill", "1", [1] * n),
        ("invert", "", [1 - b for b in bits]),
        ("reverse", "", bits[::-1]),
        ("rotate_left", f"{k}", bits[k:] + bits[:k]),
        ("rotate_right", f"{k}", bits[n - k :] + bits[: n - k]),
        ("shift_left", f"{by}", unshifted(bits, by)),
        ("shift_right", f"{by}", shifted(bits, by)),
        ("shift_start", f"{by + n}", unshifted(bits, by + n)),
        ("shift_end", f"{by + n}", shifted(bits, by + n)),
        ("shift_start", f"{by}", unshifted(bits, by)),
        ("shift_end", f"{by}", shifted(bits, by)),
        ("and", text(other) or "-", combined(bits, other, lambda x, y: x & y)),
        ("or", text(other) or "-", combined(bits, other, lambda x, y: x | y)),
        ("xor", text(other) or "-", combined(bits, other, lambda x, y: x ^ y)),
        ("fill_with", "", [int(i % 3 == 0) for i in range(n)]),
        ("for_each", "", [b ^ (i < 8) for i, b in enumerate(bits)]),
    ):
        yield call, args, new, ""
    yield "rotate_left", f"{n + 1}", bits, "refused "
    yield "rotate_right", f"{n + 1}", bits, "refused "


def copies(bits, same):
    """What copies or exchanges as many other bits."""
    yield "clone", text(same), same, ""
    yield "clone_slice", text(same), same, ""
    yield "swap_with", text(same), same, text(bits) + " "
    yield "swap_with_slice", text(same), same, text(bits) + " "
    yield "clone", text(same) + "1", bits, "refused "
    yield "swap_with", text(same) + "1", bits, "refused "


def put(bits, at, new):
    return bits[:at] + new + bits[at + len(new) :]


def edits(bits, other, count, touched, rng):
    """What changes single bits, and parts."""
    n = len(bits)
    i, j, bit = rng.randint(0, n), rng.randint(0, n), rng.randint(0, 1)
    if i < n:
        yield "set", f"{i} {bit}", put(bits, i, [bit]), ""
        yield "replace", f"{i} {bit}", put(bits, i, [bit]), f"{bits[i]} "
    if i < n and j < n:
        yield "swap", f"{i} {j}", put(put(bits, i, [bits[j]]), j, [bits[i]]), ""
    yield "set", f"{n} 1", bits, "refused "
    yield "first_mut", f"{bit}", put(bits, 0, [bit]) if n else bits, ""
    yield "last_mut", f"{bit}", put(bits, n - 1, [bit]) if n else bits, ""
    yield "get_mut", f"{i} {bit}", put(bits, i, [bit]) if i < n else bits, ""
    yield "get_range_mut", f"{i} {j}", put(bits, i, [1] * (j - i)) if i < j else bits, ""
    if i <= j:
        yield "range_mut", f"{i} {j}", put(bits, i, [1 - b for b in bits[i:j]]), ""
    for call, mid in (("split_at_mut", i), ("split_first_mut", min(n, 1)), ("split_last_mut", max(n - 1, 0))):
        args = f"{mid}" if call == "split_at_mut" else ""
        yield call, args, [1 - b for b in bits[:mid]] + bits[mid:][::-1], ""
    k = min(count, n)
    at, to = rng.randint(0, n - k), rng.randint(0, n - k)
    yield "move", f"{at} {to} {k} {touched(to, k)}", put(bits, to, bits[at : at + k]), "few "
    yield "copy_within", f"{at} {at + k} {to}", put(bits, to, bits[at : at + k]), ""
    yield "copy_within", f"{n} {n + 1} 0", bits, "refused "
    part = other[:n] or [1] * min(n, 1)
    at = rng.randint(0, n - len(part))
    yield "write_part", f"{text(part) or '-'} {at}", put(bits, at, part), ""
    yield from part_edits(bits, min(count, n // 2), rng)


def part_edits(bits, k, rng):
    n = len(bits)
    first = rng.randint(0, n - 2 * k)
    second = rng.randint(first + k, n - k)
    new = put(put(bits, first, bits[second : second + k]), second, bits[first : first + k])
    yield "swap_parts", f"{first} {second} {k}", new, ""
    at, by = rng.randint(0, n - k), rng.randint(0, k)
    part = bits[at : at + k]
    yield "rotate_part", f"{at} {by} {k}", put(bits, at, part[by:] + part[:by]), ""


def lent(bits, other, size, step):
    """Up to five pieces lent from the front and the back by turns, each flipped where the other list has ones and shifted
    further than the one before it; and the bits in no piece flipped."""
    n = len(bits)
    for kind in (*KINDS, "iter"):
        left, new, by = stretches(n, kind, size), bits[:], 0
        count = min(len(left), 5)
        for k in range(count):
            a, b = left.pop(0 if k % 2 == 0 else -1)
            new[a:b] = shifted(combined(new[a:b], other, lambda x, y: x ^ y), by)
            by += step
        yield f"{kind}_mut", f"{text(other) or '-'} {size} {step}", new, f"{count} "
    for kind, at in (("chunks", n - n % size), ("rchunks", 0)):
        flipped = put(bits, at, [1 - b for b in bits[at : at + n % size]])
        yield f"{kind}_take_rest", f"- {size}", flipped, "0 "
        yield f"{kind}_into_rest", f"- {size}", flipped, "0 "


# ---- numbers


def digits(memory, place, length, le):
    """The places of a number's digits, the highest first: the words go from the last to the first under le, and the bits of
    each from the last to the first where the first is its lowest digit."""
    found = []
    for word in range(len(memory.words))[:: -1 if le else 1]:
        for i in range(memory.bits)[:: -1 if memory.order == "lsb0" else 1]:
            at = word * memory.bits + i
            if place <= at < place + length:
                found.append(at)
    return found


def signed(number, length, kind):
    return number - (1 << length) if kind[0] == "i" and number >> (length - 1) & 1 else number


def loaded(memory, place, length, call, kind):
    bits = memory.list()
    number = int(text(bits[at] for at in digits(memory, place, length, not call.endswith("be"))), 2)
    return signed(number, length, kind)


def numbers(memory, place, length, kind, value, is_part):
    """A number loaded, and one stored, in a window of at most as many bits as its type has."""
    head = memory.head(place, length)
    behind = f" {value} part" if is_part else ""
    for call in ("load", "load_le", "load_be"):
        yield f"{head} {call} {kind}{behind}", f"{loaded(memory, place, length, call, kind)} {memory.hex()}"
    for call in ("store", "store_le", "store_be"):
        bits = memory.list()
        kept = value % (1 << length)
        for k, at in enumerate(digits(memory, place, length, not call.endswith("be"))):
            bits[at] = kept >> (length - 1 - k) & 1
        answer = f"{signed(kept, length, kind)} {memory.of(bits).hex()}"
        yield f"{head} {call} {kind} {value}{' part' if is_part else ''}", answer


# ---- sweeps


def filled(bits, count, rng):
    full = (1 << bits) - 1
    return [rng.choice((0, full, rng.getrandbits(bits), rng.getrandbits(bits))) for _ in range(count)]


def memories(rng):
    """Windows in one word, across two and across more, empty ones too."""
    for word, bits in WORDS.items():
        for order in ORDERS:
            for place in (0, 1, 3, 7, bits - 1, bits, 19):
                for length in (0, 1, 4, 8, 13, 24, 40, 64, 100, 140):
                    count = (place + length + bits - 1) // bits + 1
                    yield Memory(word, order, filled(bits, count, rng)), place, length


def calls_of(memory, place, length, rng):
    """Each call of a window once or more: its name, its line and its answer."""
    bits = memory.list()[place : place + length]
    random = [rng.getrandbits(1) for _ in range(rng.randint(1, 20))]
    other = rng.choice(([], bits[:], bits[: length // 2], bits[length // 2 :], random))
    same = [rng.getrandbits(1) for _ in range(length)]
    by, count, size = rng.randint(0, 20), rng.randint(0, 40), rng.choice((1, 3, 8, 13, 30, 200))
    head = memory.head(place, length)
    for call, args, answer in (
        *looks(bits, other, rng),
        *shares(bits, other, rng),
        *cuts(bits, size),
        *splits(bits, rng.randint(0, 4)),
        ("made", "", f"{place % memory.bits} {text(bits)} {text(bits)} {text(bits)}"),
    ):
        yield call, f"{head} {call} {args}".rstrip(), answer
    for call, args, new, told in (
        *changes(bits, other, by),
        *copies(bits, same),
        *edits(bits, other, count, lambda to, k: memory.touched(place + to, k), rng),
        *lent(bits, random, size, rng.randint(0, 2)),
    ):
        yield call, f"{head} {call} {args}".rstrip(), told + memory.put(place, new).hex()


def sweep():
    """Of each window two calls, and four under orders of a user's own: those that came least often under its order."""
    rng = random.Random(7)
    came = {}
    for memory, place, length in memories(rng):
        calls = list(calls_of(memory, place, length, rng))
        rng.shuffle(calls)
        calls.sort(key=lambda it: came.get((it[0], memory.order), 0))
        for call, line, answer in calls[: 4 if memory.order in ("fifth", "hilo") else 2]:
            came[call, memory.order] = came.get((call, memory.order), 0) + 1
            yield line, answer


def part_sweep():
    """Ten bits written from each place on, parts of up to five bits exchanged, parts of 7 and 14 bits turned."""
    memory = Memory("u8", "lsb0", [0x5A, 0xC3, 0x96])
    wide = [int(b) for b in f"{0xA6D1:016b}"][3:13]
    bits = memory.list()[2:22]
    for at in range(10):
        yield f"{memory.head(2, 20)} write_part {text(wide)} {at}", memory.put(2, put(bits, at, wide)).hex()
    bits = memory.list()[3:22]
    for k in range(6):
        for second in range(1 + k, 5 + k):
            new = put(put(bits, 1, bits[second : second + k]), second, bits[1 : 1 + k])
            yield f"{memory.head(3, 19)} swap_parts 1 {second} {k}", memory.put(3, new).hex()
    bits = memory.list()[5:23]
    for at in range(4):
        for k, by in ((7, 0), (7, 3), (7, 7), (14, 1), (14, 5), (14, 7)):
            part = bits[at : at + k]
            new = put(bits, at, part[by:] + part[:by])
            yield f"{memory.head(5, 18)} rotate_part {at} {by} {k}", memory.put(5, new).hex()


def piece_sweep():
    """The ten bits 1011001110 by each kind of pieces at some sizes, from each end and by turns, and lent."""
    memory = Memory("u8", "lsb0", [0x6F, 0xEE])
    bits = memory.list()[3:13]
    head = memory.head(3, 10)
    for size in (1, 2, 3, 10, 11):
        for call, args, answer in cuts(bits, size):
            if not call.startswith("iter"):
                yield f"{head} {call} {args}", answer
        for call, args, new, told in lent(bits, [1] * 10, size, 1):
            yield f"{head} {call} {args}", told + memory.put(3, new).hex()


def single_sweep():
    """The only bit of a kind, at some indices of windows of each order."""
    rng = random.Random(3)
    for order in ORDERS:
        for length in (1, 2, 4, 7, 8, 13, 16, 24, 31, 33, 40, 63, 64, 65, 100, 120, 140):
            for bit in (0, 1):
                word = rng.choice(("u8", "u16", "u32", "u64"))
                place, i = rng.choice((0, 3, 7)), rng.randrange(length)
                count = (place + length) // WORDS[word] + 1
                memory = Memory(word, order, [0 if bit else (1 << WORDS[word]) - 1] * count)
                memory = memory.put(place + i, [bit])
                yield f"{memory.head(place, length)} {'ones' if bit else 'zeros'}", f"Some({i}) Some({i})"


def compare_sweep():
    """Lists of 60 to 140 bits beside one that differs at one place, or is longer or shorter by a bit, or is the same."""
    rng = random.Random(13)
    for word in ("u8", "u32", "u64", "u128"):
        for order in ORDERS:
            for length in (60, 63, 64, 65, 88, 89, 128, 140):
                memory = Memory(word, order, filled(WORDS[word], 160 // WORDS[word] + 1, rng))
                place = rng.choice((0, 3, 7, 13))
                bits = memory.piece(place, length)
                others = [bits, bits[:-1], bits + [rng.getrandbits(1)]]
                for k in rng.sample((0, 1, 23, 24, 25, 58, length - 2), 3) + rng.sample((62, 63, 64, 65, length - 1), 2):
                    if k < length:
                        others.append(put(bits, k, [1 - bits[k]]))
                for other in others:
                    call, args, answer = rng.choice([it for it in looks(bits, other, rng) if it[0] in ("eq", "cmp", "starts")])
                    yield f"{memory.head(place, length)} {call} {args}", answer


def path_sweep():
    """Word paths of two memories: of another memory, of the same one, and of one that differs in one bit."""
    rng = random.Random(5)
    for word in ("u8", "u16", "u64"):
        for order in ("lsb0", "msb0", "hilo"):
            for length in (0, 1, 4, 8, 13, 40, 64, 140):
                for kind in ("another", "same", "near"):
                    place = rng.choice((0, 3, 7))
                    from_ = place if kind != "another" else 2
                    count = (place + length + 7) // WORDS[word] + 1
                    memory = Memory(word, order, filled(WORDS[word], count, rng))
                    others = memory if kind != "another" else Memory(word, order, filled(WORDS[word], count, rng))
                    if kind == "near" and length:
                        middle = place + length // 2
                        others = others.put(middle, [1 - others.list()[middle]])
                    lines = list(path_calls(memory, place, others, from_, length))
                    for call, answer in rng.sample(lines[1:], 2) + lines[:1]:
                        yield f"{memory.head(place, length)} {call} {others.hex()} {from_}", answer


def path_heads():
    """Each path at each head of a word of 8 bits and each length to 200, a line all lengths; and at some heads of wider words."""
    rng = random.Random(47)
    for order in ("lsb0", "msb0", "hilo"):
        for head in range(8):
            memory, others = (Memory("u8", order, filled(8, 30, rng)) for _ in range(2))
            from_ = rng.randrange(17)
            for name in ("path_copy", "path_over", "path_and", "path_or", "path_xor", "path_swap"):
                yield path_lengths(memory, head, others, from_, name)
            alike = others.put(from_, memory.piece(head, 200))
            yield path_lengths(memory, head, alike, from_, "path_equal")
            for k in (0, 1, 7, 8, 31, 32, 62, 63, 64, 65, 127, 128, 199):
                other = alike.put(from_ + k, [1 - memory.list()[head + k]])
                yield path_lengths(memory, head, other, from_, "path_equal")
    for word in ("u64", "u128"):
        for order in ("lsb0", "msb0"):
            for head in (0, 13, 63, 64, 100):
                for length in (0, 1, 63, 64, 65, 128, 140, 300):
                    for call in range(7):
                        yield path_at(word, order, head, rng.choice((0, 13, 63, 64, 100)), length, call, rng)


def own_sweep():
    """Each path of a straight order of a user's own, whose positions are those of `msb0`, at all lengths to 200."""
    rng = random.Random(83)
    for word in ("u8", "u16", "u32", "u64", "u128"):
        memory, others = (Memory(word, "msb0", filled(WORDS[word], 240 // WORDS[word] + 2, rng)) for _ in range(2))
        place, from_ = rng.choice((0, 3, 7, 13)), rng.choice((0, 5, 13))
        alike = others.put(from_, memory.piece(place, 200))
        other = alike.put(from_ + 100, [1 - memory.list()[place + 100]])
        for name in ("copy", "over", "and", "or", "xor", "swap"):
            yield own(path_lengths(memory, place, others, from_, f"path_{name}"))
        for near in (alike, other):
            yield own(path_lengths(memory, place, near, from_, "path_equal"))


def own(case):
    """A case under `msb0` as one under the order of a user's own."""
    line, answer = case
    return line.replace(" msb0 ", " own ", 1), answer


def path_lengths(memory, place, others, from_, name):
    """A path at all lengths to 200: a digest of the answers."""
    digest = 0xCBF29CE484222325
    for length in range(201):
        told = next(answer for call, answer in path_calls(memory, place, others, from_, length) if call == name)
        for byte in told.encode():
            digest = (digest ^ byte) * 0x100000001B3 % 2**64
    return f"{memory.head(place, 200)} {name} {others.hex()} {from_} lengths", f"{digest:016x}"


def path_steps():
    """Steps: one for each transfer, of up to 64 bits or of one."""
    rng = random.Random(64)
    for word in ("u8", "u32", "u64", "u128"):
        for order in ("lsb0", "msb0", "hilo"):
            for length in (0, 1, 63, 64, 65, 128, 1000):
                for call in range(7):
                    yield path_at(word, order, rng.choice((0, 5, 13)), rng.choice((0, 3, 100)), length, call, rng)


def path_at(word, order, place, from_, length, call, rng):
    """A path of two memories; those of `path_equal` differ in the last bit, or not at all."""
    count = (max(place, from_) + length) // WORDS[word] + 1
    memory, others = (Memory(word, order, filled(WORDS[word], count, rng)) for _ in range(2))
    lines = list(path_calls(memory, place, others, from_, length))[:7]
    name = lines[call % 7][0]
    if name == "path_equal":
        others = others.put(from_, memory.piece(place, length))
        if length and rng.getrandbits(1):
            others = others.put(from_ + length - 1, [1 - memory.list()[place + length - 1]])
        lines = list(path_calls(memory, place, others, from_, length))
    return f"{memory.head(place, length)} {name} {others.hex()} {from_}", dict(lines)[name]


def steps_of(memory, length, few):
    """How many steps a path takes over so many bits: under `hilo` the first few go bit by bit, all others by 64."""
    singly = 0 if memory.order in ("lsb0", "msb0") else min(few, length)
    return singly - (singly - length) // 64


def path_calls(memory, place, others, from_, length):
    bits, its = memory.list()[place : place + length], others.list()[from_ : from_ + length]
    first = next((k for k in range(length) if bits[k] != its[k]), None)
    # how many bits under `hilo` are compared bit by bit, and how many are combined so where there are no more
    compared, combines = (80, 40) if memory.bits == 32 else (64, 24)
    equal_steps = steps_of(memory, length if first is None else first + 1, compared)
    steps = steps_of(memory, length, length if length <= combines else 0)
    yield "path_equal", f"{truths(first is None)} {equal_steps} {memory.hex()} {others.hex()}"
    for call, new in (
        ("path_copy", its),
        ("path_over", memory.list()[from_ : from_ + length]),
        ("path_and", combined(bits, its, lambda x, y: x & y)),
        ("path_or", combined(bits, its, lambda x, y: x | y)),
        ("path_xor", combined(bits, its, lambda x, y: x ^ y)),
    ):
        taken = steps_of(memory, length, length) if call == "path_over" else steps
        yield call, f"true {taken} {memory.put(place, new).hex()} {others.hex()}"
    yield "path_swap", f"true {steps_of(memory, length, length)} {memory.put(place, its).hex()} {others.put(from_, bits).hex()}"
    for call in ("copy_from", "copy_from_slice"):
        yield call, f"true 0 {memory.put(place, its).hex()} {others.hex()}"


def move_sweep():
    """Bits of a memory moved to each place, in no more writes than words that the target touches."""
    rng = random.Random(11)
    for word, lengths in (("u8", (0, 1, 5, 8, 13, 24)), ("u16", (7, 16, 30))):
        for order in ORDERS:
            for source in range(0, 25, 3):
                for target in range(25):
                    length = rng.choice(lengths)
                    memory = Memory(word, order, filled(WORDS[word], 64 // WORDS[word], rng))
                    new = memory.put(target, memory.piece(source, length)).hex()
                    line = f"{memory.head(source, length)} move_words {target} {memory.touched(target, length)}"
                    yield line, f"few {new}"


def number_sweep():
    """Fields of 1 to 16 bits at heads 0 to 15, with and without sign, stored in a part too; each type whole."""
    rng = random.Random(9)
    for word in ("u8", "u32"):
        for order in ("lsb0", "msb0"):
            memory = Memory(word, order, [rng.getrandbits(WORDS[word]) for _ in range(32 // WORDS[word] + 1)])
            for place in range(16):
                for width in range(1, 17):
                    kind = rng.choice(("u16", "i16"))
                    value = rng.choice((0, 0x7FFF, 0x32E5)) - (1 if kind == "i16" and rng.getrandbits(1) else 0)
                    yield rng.choice(list(numbers(memory, place, width, kind, value, rng.getrandbits(1))))
    for word, order in (("u8", "lsb0"), ("u8", "msb0"), ("u16", "lsb0"), ("u64", "msb0")):
        memory = Memory(word, order, [rng.getrandbits(WORDS[word]) for _ in range(160 // WORDS[word] + 1)])
        for kind, bits in TYPES.items():
            value = signed(rng.getrandbits(bits), bits, kind)
            yield from rng.sample(list(numbers(memory, rng.choice((0, 3, 8, 13)), bits, kind, value, False)), 2)
    memory = Memory("u8", "lsb0", [0x12, 0x34])
    yield f"{memory.head(3, 0)} load_le u8", f"refused {memory.hex()}"
    yield f"{memory.head(3, 9)} store_be u8 1", f"refused {memory.hex()}"


def main():
    cases = [*ROWS, *sweep(), *part_sweep(), *piece_sweep(), *single_sweep(), *path_sweep(), *move_sweep(), *number_sweep()]
    cases += [*path_heads(), *path_steps(), *compare_sweep(), *own_sweep()]
    with open("stdin", "w") as file:
        file.write("".join(line + "\n" for line, _ in cases))
    with open("stdout", "w") as file:
        file.write("".join(answer + "\n" for _, answer in cases))


if __name__ == "__main__":
    main()
