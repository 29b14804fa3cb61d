#!/usr/bin/env python3
"""Writes `stdout`: what a plain computation tells of three devices, one bit at a time. Nothing here knows the program.

usage: ./cases.py, in this folder.
"""

import pathlib

# The data sheet: how many bits come before a device's own, and how many these are.
DEVICES = {"timer": (0, 20), "port": (20, 8), "counter": (28, 12)}
NAMES = list(DEVICES)
WORDS = 2

# A bit of the map stands in the upper half of its word if it is one of the first 16 there, else in the lower.
def spot(bit):
    word, index = divmod(bit, 32)
    return (word, index + 16) if index < 16 else (word, index - 16)


class Memory:
    """Each bit of the words by its own: the word and the position."""

    def __init__(self, words):
        self.bits = {(k, p): words[k] // 2**p % 2 for k in range(WORDS) for p in range(32)}

    def words(self):
        return [sum(self.bits[k, p] * 2**p for p in range(32)) for k in range(WORDS)]

    def own(self, name):
        """The device's bits, the first one first."""
        place, width = DEVICES[name]
        return [self.bits[spot(place + i)] for i in range(width)]

    def write(self, name, i, bit):
        self.bits[spot(DEVICES[name][0] + i)] = bit

    def shown(self):
        states = ["".join(str(bit) for bit in reversed(self.own(name))) for name in NAMES]
        return "  ".join(states) + "  " + " ".join(f"{word:08x}" for word in self.words())


SESSION = [
    ("timer", "store", 74565),
    ("counter", "store", 4095),
    ("port", "set", 0),
    ("port", "set", 7),
    ("counter", "invert", 11),
    ("timer", "clear", 16),
    ("port", "store", 165),
    ("port", "clear", 0),
    ("port", "set", 8),
    ("counter", "store", 4096),
    ("none", "set", 0),
]


def call(memory, name, verb, number):
    """What a call answers, its bits written."""
    if name == "none":
        return "refused: there is no device 3"
    width = DEVICES[name][1]
    if verb == "store":
        if len(f"{number:b}") > width:
            return f"refused: {number} takes more than {width} bits"
        for i, digit in enumerate(reversed(f"{number:0{width}b}")):
            memory.write(name, i, int(digit))
        return memory.shown()
    if number >= width:
        return f"refused: there is no flag {number} in {width} bits"
    was = memory.own(name)[number]
    memory.write(name, number, {"set": 1, "clear": 0, "invert": 1 - was}[verb])
    return f"{memory.shown()}  was {was}"


def owners(word):
    whose = {spot(place + i): name[0] for name, (place, width) in DEVICES.items() for i in range(width)}
    letters = "".join(whose.get((word, p), ".") for p in range(31, -1, -1))
    return " ".join(letters[k : k + 8] for k in range(0, 32, 8))


def refused(devices):
    """Why the last of some devices does not fit with those before it."""
    *others, (name, place, width) = devices
    bits = set(range(place, place + width))
    if max(bits) >= 32 * WORDS:
        return f"{name} from bit {place}: refused, {name} does not fit in {WORDS} words"
    for other, start, count in others:
        if bits & set(range(start, start + count)):
            return f"{name} from bit {place}: refused, {name} overlaps {other}"
    return f"{name} from bit {place}: taken"


def seven():
    """Commands at words of a device, as the layer has them: a word's bits outside the device are left, and told as 0."""
    memory = Memory([0, 0])

    def at(name, k):
        """The device's bits in its word k, by their positions there."""
        place, width = DEVICES[name]
        spots = [(i, spot(place + i)) for i in range(width)]
        return {p: i for i, (word, p) in spots if word == place // 32 + k}

    def over(device, k, now):
        name = NAMES[device]
        was = memory.own(name)
        for p, i in at(name, k).items():
            memory.write(name, i, now(p, was[i]))
        word = sum(was[i] * 2**p for p, i in at(name, k).items())
        return f"  device {device}: word {word:08x}"

    yield over(0, 0, lambda p, was: 0x12345678 // 2**p % 2)
    yield over(1, 0, lambda p, was: 1)
    was = memory.own("port")[3]
    memory.write("port", 3, 0)
    yield f"  device 1: bit {str(was == 1).lower()}"
    yield over(2, 1, lambda p, was: 1 - was)
    yield "  device 2: refused"
    timer = memory.own("timer")
    for i in range(8):
        memory.write("timer", 4 + i, timer[i])
    yield "  device 0: done"
    yield over(0, 0, lambda p, was: was)
    yield "  memory " + " ".join(f"{word:08x}" for word in memory.words())


def lines():
    yield f"Devices in {WORDS} words of 32 bits, the upper half of a word first"
    for name, (place, width) in DEVICES.items():
        yield f"  {name:<8} {width:>2} bits from bit {place}"
    yield ""
    yield "Whose bit is at each position, 31 to 0"
    for word in range(WORDS):
        yield f"  word {word}   {owners(word)}"
    yield ""
    yield f"{'':25}{'timer':22}{'port':10}{'counter':14}words"
    memory = Memory([0, 0xFF00FFFF])
    yield f"  {'at first':23}{memory.shown()}"
    for name, verb, number in SESSION:
        yield f"  {name:<8} {verb:<6} {number:<6}  {call(memory, name, verb, number)}"
    yield ""
    yield refused([("timer", 0, 20), ("port", 19, 8)])
    yield refused([("timer", 0, 20), ("counter", 53, 12)])
    yield ""
    yield "Seven commands by words, from zeros"
    yield from seven()
    yield ""
    positions = [spot(index)[1] for index in range(32)]
    half = sum(2 ** positions[index] for index in range(16))
    some = " ".join(str(positions[index]) for index in (0, 15, 16, 31))
    yield (
        f"Order: lawful {str(sorted(positions) == list(range(32))).lower()}, first half {half:08x}, "
        f"indices 0 15 16 31 at {some}"
    )


if __name__ == "__main__":
    text = "".join(line + "\n" for line in lines())
    (pathlib.Path(__file__).parent / "stdout").write_text(text)
