#!/usr/bin/env python3
"""Writes `stdin` and `stdout`: headers, and what a plain computation over a text of zeros and ones tells of them.

usage: ./cases.py, in this folder. Nothing here knows the program.
"""

import ipaddress

# A title and a line of bytes. These rows are worked by hand, with the checksum b861 of the first from outside.
KNOWN = "4500 0073 0000 4000 4011 b861 c0a8 0001 c0a8 00c7"
CASES = [
    ("a datagram of 95 bytes", KNOWN),
    ("one with an option: the router alert", "4600 0020 0000 0000 0102 3ac1 0a00 0001 e000 0016 9404 0000"),
    ("as many options as there can be", "4f00 003c 1234 0000 ff01 8d80 7f00 0001 7f00 0001" + " 0101 0100" * 10),
    ("the first a hop further, its checksum forgotten", "4500 0073 0000 4000 3f11 b861 c0a8 0001 c0a8 00c7"),
    ("a fragment from the middle, and its data", "4500 05dc abcd 20b9 3706 0000 c000 0201 cb00 7109 dead beef"),
    ("all three flags, the last offset", "45ff ffff ffff ffff ffff 0000 ffff ffff ffff ffff"),
    ("a sum of all ones wants the checksum 0", "4500 0014 0000 0000 0000 0000 baeb 0000 0000 0000"),
    ("of the two zeros of ones' complement it is the other", "4500 0014 0000 0000 0000 ffff baeb 0000 0000 0000"),
    ("a byte too few", "4500 0073 0000 4000 4011 b861 c0a8 0001 c0a8 00"),
    ("version 6", "6500 0073 0000 4000 4011 b861 c0a8 0001 c0a8 00c7"),
    ("a header length of four words", "4400 0073 0000 4000 4011 b861 c0a8 0001 c0a8 00c7"),
    ("a header length of six words, of which five are there", "4600 0073 0000 4000 4011 b861 c0a8 0001 c0a8 00c7"),
    ("a total length that lies about the header", "4500 0013 0000 4000 4011 b861 c0a8 0001 c0a8 00c7"),
    ("half a byte", "4500 0"),
    ("no digits", "45g0"),
]

NAMES = {1: "ICMP", 2: "IGMP", 6: "TCP", 17: "UDP"}


def number(bits, at, width):
    return int(bits[at : at + width], 2)


def spaced(bits, at, width):
    """The bits, with a space in front of each that begins a byte."""
    return "".join((" " if k > at and k % 8 == 0 else "") + bits[k] for k in range(at, at + width))


def checksum(header):
    """RFC 1071: the words are summed as they are, and what goes beyond 16 bits is added until nothing does."""
    words = [header[i] * 256 + header[i + 1] for i in range(0, len(header), 2) if i != 10]
    total = sum(words)
    while total > 0xFFFF:
        total = total % 0x10000 + total // 0x10000
    return 0xFFFF - total


def refusal(data):
    if len(data) < 20:
        return f"{len(data)} bytes are fewer than the 20 of the shortest header"
    version, words = data[0] // 16, data[0] % 16
    if version != 4:
        return f"version {version} is not 4"
    if words < 5:
        return f"a header length of {words} words is below 5"
    if len(data) < 4 * words:
        return f"a header length of {words} words goes beyond the {len(data)} bytes"
    total = data[2] * 256 + data[3]
    if total < 4 * words:
        return f"a total length of {total} bytes does not cover a header of {words} words"
    return None


def flags(value):
    names = [name for bit, name in ((4, "reserved"), (2, "DF"), (1, "MF")) if value & bit]
    return ", ".join(names) or "none"


def rows(data):
    bits = "".join(f"{byte:08b}" for byte in data)
    words = number(bits, 4, 4)
    total, offset, protocol = number(bits, 16, 16), number(bits, 51, 13), number(bits, 72, 8)
    found, wanted = number(bits, 80, 16), checksum(data[: 4 * words])
    judged = "right" if found == wanted else f"wrong: {wanted:04x} is right"
    fields = [
        ("version", 4, "4"),
        ("header length", 4, f"{words} words"),
        ("type of service", 8, f"{number(bits, 8, 8)}"),
        ("total length", 16, f"{total} bytes, {total - 4 * words} of data"),
        ("identification", 16, f"{number(bits, 32, 16)}"),
        ("flags", 3, flags(number(bits, 48, 3))),
        ("fragment offset", 13, f"{offset} (byte {8 * offset})"),
        ("time to live", 8, f"{number(bits, 64, 8)}"),
        ("protocol", 8, f"{protocol} ({NAMES[protocol]})" if protocol in NAMES else f"{protocol}"),
        ("header checksum", 16, f"{found:04x}, {judged}"),
        ("source", 32, str(ipaddress.IPv4Address(number(bits, 96, 32)))),
        ("destination", 32, str(ipaddress.IPv4Address(number(bits, 128, 32)))),
    ]
    fields += [("options", 32, data[20 + 4 * k : 24 + 4 * k].hex()) for k in range(words - 5)]
    at = 0
    for name, width, value in fields:
        yield f"  {name:<16} {value:<30} {spaced(bits, at, width)}"
        at += width
    if found != wanted:
        mended = data[:10] + wanted.to_bytes(2, "big") + data[12 : 4 * words]
        yield f"  {'mended':<16} {mended.hex()}"


def answers(text):
    digits = text.replace(" ", "")
    bad = [k for k, digit in enumerate(digits) if digit not in "0123456789abcdef"]
    if len(digits) % 2:
        return ["  refused: no hexadecimal bytes: Odd number of digits"]
    if bad:
        return [f"  refused: no hexadecimal bytes: Invalid character '{digits[bad[0]]}' at position {bad[0]}"]
    data = bytes.fromhex(digits)
    cause = refusal(data)
    return [f"  refused: {cause}"] if cause else list(rows(data))


def main():
    with open("stdin", "w") as questions, open("stdout", "w") as told:
        for title, text in CASES:
            questions.write(f"# {title}\n{text}\n\n")
            told.write("\n".join([f"# {title}", *answers(text), "", ""]))


main()
