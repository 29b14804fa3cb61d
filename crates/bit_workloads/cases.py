#!/usr/bin/env python3
"""What the small jobs come to, worked out with plain lists. It uses nothing of the crates.

usage: crates/bit_workloads/cases.py writes `stdout` beside it. A list of bits is a list of 0 and 1; the plain table of
bit_table_cases answers the scripts. Each job adds the numbers that the digest takes in to `told`.
"""

import pathlib
import sys

HERE = pathlib.Path(__file__).resolve().parent
sys.path.append(str(HERE.parent / "bit_table_cases"))
from plain import answers, digits, number_of

MOST = 2**64 - 1

LAYOUTS = {
    "orders": "id:u32 kind:u4 level:i12 price:u17",
    "samples": "a:u3 b:i4 c:u17",
    "stamps": "flag:u1 stamp:i64 code:u35",
}

# The fields of a header: where each begins, and how many bits it has.
FIELDS = [(0, 4), (4, 4), (8, 6), (14, 2), (16, 16), (32, 16), (48, 3), (51, 13), (64, 8), (72, 8), (80, 16)]
FIELDS += [(96, 32), (128, 32)]

# How many bits words have, and which digit each index is.
LONGS, BYTES, SHORTS = (64, lambda i: i), (8, lambda i: 7 - i), (16, lambda i: i ^ 4)


class Random:
    """The upper halves of a linear congruential sequence, by Knuth's multiplier."""

    def __init__(self, seed):
        self.state = seed
        self.half()
        self.half()

    def half(self):
        self.state = (self.state * 6364136223846793005 + 1442695040888963407) & MOST
        return self.state >> 32

    def whole(self):
        upper = self.half()
        return upper << 32 | self.half()

    def below(self, bound):
        return self.half() % bound

    def letter(self):
        return "abcdefghijklmnopqrst"[self.below(20)]


def digest(numbers):
    """FNV-1a of 64 bits, by whole numbers."""
    value = 0xCBF29CE484222325
    for number in numbers:
        value = (value ^ number) * 0x100000001B3 & MOST
    return f"{value:016x}"


def field_words(rows, half, small, test):
    return {
        "orders": (f"kind{test} {small % 16}", f"level{test} -{small % 2000}", f"price{test} {half % 131072}"),
        "samples": (f"a{test} {small % 8}", f"b{test} -{small % 8}", f"c{test} {half % 131072}"),
        "stamps": (f"flag{test} {small % 2}", f"stamp{test} -{half}", f"code{test} {half}"),
    }[rows][half % 3]


def test_words(rows, random):
    half = random.half()
    return field_words(rows, half, half, " " + "=<<>>"[half // 3 % 5])


def row_words(rows, random):
    half, small = random.half(), random.below(2000)
    return {
        "orders": f"{half} {small % 16} -{small} {half % 131072}",
        "samples": f"{small % 16 % 8} -{small % 8} {half % 131072}",
        "stamps": f"{small % 2} -{half} {half}",
    }[rows]


def begun(rule, rows, count, random):
    return [f"{rule} {LAYOUTS[rows]}"] + [f"insert {row} {row_words(rows, random)}" for row in range(count)]


def short_line(random, rows, count):
    kind, row, other = random.below(100), random.below(count), random.below(count)
    x, y = random.letter(), random.letter()
    lines = [
        (40, lambda: f"get {row}"),
        (68, lambda: f"set {row} " + field_words(rows, random.half(), random.below(2000), "")),
        (76, lambda: f"insert {row} {row_words(rows, random)}"),
        (84, lambda: f"delete {row} {row + 1}"),
        (85, lambda: f"copy {row} {row + 3} {other}"),
        (86, lambda: f"swap {row} {other}"),
        (87, lambda: f"rotate {row} {row + 3} 1"),
        (92, lambda: f"count {x}"),
        (94, lambda: f"mark {x} {test_words(rows, random)}"),
        (95, lambda: f"and {x} {y}"),
        (96, lambda: f"list {x}"),
        (97, lambda: f"set {row} absent 1"),
        (98, lambda: f"get {row} {other}"),
        (99, lambda: "get 99999999999999999999"),
        (100, lambda: "what is this"),
    ]
    return next(line for end, line in lines if kind < end)()


def column_lines(random, rows, count):
    x, y, z = random.letter(), random.letter(), random.letter()
    lines = [f"mark {letter} {test_words(rows, random)}" for letter in (x, y, z)]
    lines += [f"and {x} {y}", f"or {x} {z}", f"xor {y} {z}", f"not {z}"]
    lines += [f"count {x}", f"count {y}", f"list {x}", "keep"]
    start = random.below(count // 2)
    upto = start + count // 4
    lines += [f"rotate 0 {upto} {start % 16}", f"delete {start} {upto}"]
    return lines + [f"drop {y}", f"count {x}", "image", "back"]


def answer(lines):
    return "".join(f"{line}\n" for line in answers("\n".join(lines).encode())).encode()


def session(rounds, size, random, told):
    lines = begun("low", "orders", size, random)
    told += answer(lines + [short_line(random, "orders", size) for _ in range(rounds)])


def columns(rounds, size, random, told):
    lines = begun("low", "samples", 0, random)
    for _ in range(rounds):
        lines.append(f"load {size} " + "".join(f"{random.below(256):02x}" for _ in range(size * 3)))
        lines += column_lines(random, "samples", size) + column_lines(random, "samples", size)
    told += answer(lines)


def odd(rounds, size, random, told):
    for rule in ("low", "high"):
        lines = begun(rule, "stamps", size, random)
        for number in range(rounds):
            lines.append(short_line(random, "stamps", size))
            lines += column_lines(random, "stamps", size) if number % 20 == 0 else []
        told += answer(lines)


def bits_of(words, kind):
    width, digit = kind
    return [word >> digit(i) & 1 for word in words for i in range(width)]


def words_of(bits, kind):
    width, digit = kind
    return [sum(bits[k + i] << digit(i) for i in range(width)) for k in range(0, len(bits), width)]


def ends(bits):
    """The indices of the first and the last one, or what stands for none."""
    ones = [i for i, bit in enumerate(bits) if bit] or [MOST]
    return ones[0], ones[-1]


def sets(rounds, size, random, told):
    for _ in range(rounds):
        few = [0] * size
        for _ in range(size // 100):
            few[random.below(size)] = 1
        half = bits_of([random.whole() for _ in range(-(-size // 64))], LONGS)[:size]
        join(few, half, told)
        for bits in (few, half):
            told += [number for number in range(size) if bits[number]]
            told.append(sum(number for number in range(size) if not bits[number]) & MOST)
        edit(half, size, random, told)
        gather(few, half, size, random, told)


def join(few, half, told):
    both = [a & b for a, b in zip(few, half)]
    either = [a | b for a, b in zip(half, few)]
    one = [a ^ b for a, b in zip(either, both)]
    neither = [1 - bit for bit in either]
    told += [sum(both), both == few, sum(either), either == half, few < half, sum(one)]
    told += [sum(neither), *ends(neither)]


def edit(half, size, random, told):
    bits = list(half)
    for _ in range(20):
        number, other = random.below(size), random.below(size)
        bits.insert(number, 1)
        told.append(bits.pop(other))
    kept = [bit for number, bit in enumerate(bits) if bit or number % 3 != 0]
    told += [len(kept), sum(kept)]


def gather(few, half, size, random, told):
    cut = random.below(size)
    upper = (few + half)[cut:] + few[:cut]
    gone = upper[len(upper) // 4 : len(upper) // 2]
    told += [sum(upper), ends(upper)[0], *gone, len(upper) - len(gone)]
    turned = [1 - bit for bit in half]
    told += [sum(turned), turned == half]


def packets(rounds, size, random, told):
    packet = [0] * (1500 * 8)
    message = [random.whole() for _ in range(200)]
    for _ in range(rounds):
        changed = random.below(200)
        message[changed] = random.whole()
        for at, width in FIELDS:
            packet[at : at + width] = digits(random.half(), width, True)
        start, gap, length = random.below(640), random.below(8), random.below(min(size, 11000))
        source = bits_of(message, LONGS)[start : start + length]
        told.append(packet[160 + gap : 160 + gap + length] == source)
        packet[160 + gap : 160 + gap + length] = source
        # Now they are equal, neither is less, one begins with the other, and there is no one in what differs.
        told += [True, True, True, True]
        told += [number_of(packet[at : at + width], True, False) for at, width in FIELDS]
        packet[64:72] = digits(number_of(packet[64:72], True, False) - 1, 8, True)
        sevens = [source[k : k + 7] for k in range(0, length - 6, 7)]
        told += [number_of(seven, True, False) for seven in sevens[:200]]
        told += [sum(source), ends(source)[1]]


def windows(rounds, size, random, told):
    pairs = [(random.whole(), random.whole()) for _ in range(size // 64 + 2)]
    longs, others = [list(words) for words in zip(*pairs)]
    octets = [random.below(256) for _ in range(size // 8 + 4)]
    shorts = [random.below(65536) for _ in range(size // 16 + 2)]
    for _ in range(rounds):
        for words, kind in ((longs, LONGS), (octets, BYTES), (shorts, SHORTS)):
            turn(words, kind, others, size, random, told)
    told += longs + others + octets + shorts


def turn(words, kind, others, size, random, told):
    by, shift, start = random.below(size), random.below(20), random.below(size // 4)
    memory, other_memory = bits_of(words, kind), bits_of(others, LONGS)
    window, other = memory[13 : 13 + size], other_memory[7 : 7 + size]
    window.reverse()
    window = window[by:] + window[:by]
    window = [0] * shift + window[: size - shift]
    window = window[shift // 2 :] + [0] * (shift // 2)
    window[size // 4 : size // 4 + size // 2] = window[start : start + size // 2]
    window = [bit ^ (i % 5 == 0) for i, bit in enumerate(window)]
    window, other = other, window
    memory[13 : 13 + size], other_memory[7 : 7 + size] = window, other
    sought = other_memory[start : start + 20]
    parts = [window[k : k + 20] for k in range(size - 19)]
    told += [window < other, sum(window), ends(window)[1], sought in parts, sought == parts[-1]]
    words[:], others[:] = words_of(memory, kind), words_of(other_memory, LONGS)
    others[0] = random.whole()


def main():
    # The jobs, each with the rounds and the size of a small one.
    jobs = [(session, 200, 40), (columns, 2, 100), (odd, 25, 30), (sets, 2, 300), (packets, 2, 200), (windows, 2, 300)]
    lines = []
    for job, rounds, size in jobs:
        told = []
        job(rounds, size, Random(1), told)
        lines.append(f"{job.__name__} {digest(told)}\n")
    (HERE / "stdout").write_text("".join(lines))


if __name__ == "__main__":
    main()
