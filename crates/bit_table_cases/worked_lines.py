"""Worked lines, image bytes and memories with their answers, by hand."""

# Fields of 64 bits, sixteen of which are as many bits as a row may have.
SIXTEEN = "a:u64 b:u64 c:i64 d:i64 e:u64 f:u64 g:i64 h:i64 i:u64 j:u64 k:i64 l:i64 m:u64 n:u64 o:i64 p:i64"
FIFTEEN = SIXTEEN.removesuffix(" p:i64")


def ones(count):
    """Fields of one bit each."""
    return " ".join(f"f{place}:u1" for place in range(count))


# Layout lines, told by their rule, the bits of a row and the fields.
LAYOUTS = [
    (b" low\ta:u3  b_2:i64\r", "low 67 a:u3 b_2:i64"),
    (b"high a:u1", "high 1 a:u1"),
    (b"low a:u64 b:i64 c:u64 d:i64", "low 256 a:u64 b:i64 c:u64 d:i64"),
    *((f"low {ones(bits)}".encode(), f"low {bits} {ones(bits)}") for bits in (256, 257, 1023, 1024)),
    (b"low a:u64 b:u64 c:u64 d:u64 e:u1", "low 257 a:u64 b:u64 c:u64 d:u64 e:u1"),
    (f"high {FIFTEEN} p:i63".encode(), f"high 1023 {FIFTEEN} p:i63"),
    (f"low {SIXTEEN}".encode(), f"low 1024 {SIXTEEN}"),
    (f"high {SIXTEEN}".encode(), f"high 1024 {SIXTEEN}"),
]

# Lines that are no layout lines.
NO_LAYOUTS = [
    b"", b"low", b"a:u3", b"high", b"High a:u1", b"high low a:u1", b"highs a:u1", b"Low a:u1", b"low low a:u1",
    b"insert 0 1", b"low a", b"low a:", b"low a:u", b"low a:3", b"low a:x1", b"low a:U1", b"low a:u0", b"low a:u01",
    b"low a:u65", b"low a:u100000000000000000000000000000000000000000", b"low a:u-1", b"low a:u1:", b"low a::u1",
    b"low :u1", b"low 1a:u1", b"low _a:u1", b"low A:u1", b"low a-b:u1", b"low a\xfe:u1", b"low \xfe",
    b"low a2345678901234567:u1", b"low a:u1 a:u1", b"low a:u1 b:u2 a:i3", f"low {SIXTEEN} q:u1".encode(),
    b"low a:u1\n", b"low a:u1\nb:u1", b"low\na:u1",
    f"low {ones(1024)} g:u1".encode(), f"high {FIFTEEN} p:i63 q:u2".encode(), f"low {ones(1023)} f0:u1".encode(),
    f"low {ones(1023)} f1022:u1".encode(), f"low f700:u1 {ones(1023)}".encode(),
]  # fmt: skip

# What stands for numbers that are cut off, and for a letter.
MOST = "18446744073709551615"
FAR = "18446744073709551616"


def letter(byte):
    return "Letter { index: %d }" % (ord(byte) - ord("a"))


# Lines that spell commands over `low a:u3 b:i4`.
COMMANDS = [
    (b"insert 0 5 -1", "Insert { place: 0, values: [5, -1] }"),
    (b"\tinsert\t0001 \r5\t -0\r", "Insert { place: 1, values: [5, 0] }"),
    (
        b"insert 18446744073709551615 18446744073709551616 -18446744073709551616",
        f"Insert {{ place: {MOST}, values: [{FAR}, -{FAR}] }}",
    ),
    (
        b"insert 18446744073709551616 18446744073709551617 -18446744073709551617",
        f"Insert {{ place: {MOST}, values: [{FAR}, -{FAR}] }}",
    ),
    (
        b"insert " + b"9" * 10001 + b" " + b"9" * 10001 + b" -" + b"9" * 10001,
        f"Insert {{ place: {MOST}, values: [{FAR}, -{FAR}] }}",
    ),
    (
        b"insert " + b"0" * 10000 + b"1 " + b"0" * 10000 + b"1 -" + b"0" * 10000 + b"1",
        "Insert { place: 1, values: [1, -1] }",
    ),
    (b"delete 1 3", "Delete { start: 1, upto: 3 }"),
    (b"get 0001", "Get { row: 1 }"),
    (b"get\t0\r", "Get { row: 0 }"),
    (b"copy 0 2 1", "Copy { start: 0, upto: 2, place: 1 }"),
    (b"swap 2 18446744073709551616", f"Swap {{ row: 2, other: {MOST} }}"),
    (b"rotate 0 3 1", "Rotate { start: 0, upto: 3, amount: 1 }"),
    (b"dup 0 1", "Dup { start: 0, upto: 1 }"),
    (b" image", "Image"),
    (b"keep\r", "Keep"),
    (b"\tback", "Back"),
    (b"set 1 a 7", "Set { row: 1, field: Some(0), value: 7 }"),
    (b"set 9 b -99", "Set { row: 9, field: Some(1), value: -99 }"),
    (b"set 0 c 1", "Set { row: 0, field: None, value: 1 }"),
    (b"set 0 ab 0", "Set { row: 0, field: None, value: 0 }"),
    (b"set 0 a_z0123456789abc 1", "Set { row: 0, field: None, value: 1 }"),
    (
        b"set 18446744073709551616 b -18446744073709551617",
        f"Set {{ row: {MOST}, field: Some(1), value: -{FAR} }}",
    ),
    (b"mark x b < 0", f"Mark {{ letter: {letter('x')}, field: Some(1), test: Below, value: 0 }}"),
    (b"\tmark a  a = -007\r", f"Mark {{ letter: {letter('a')}, field: Some(0), test: Equal, value: -7 }}"),
    (b"mark z c > 9", f"Mark {{ letter: {letter('z')}, field: None, test: Above, value: 9 }}"),
    (
        b"mark m a > 18446744073709551617",
        f"Mark {{ letter: {letter('m')}, field: Some(0), test: Above, value: {FAR} }}",
    ),
    (
        b"mark m b < -18446744073709551617",
        f"Mark {{ letter: {letter('m')}, field: Some(1), test: Below, value: -{FAR} }}",
    ),
    (b"and a z", f"Combine {{ op: And, letter: {letter('a')}, other: {letter('z')} }}"),
    (b"or z a", f"Combine {{ op: Or, letter: {letter('z')}, other: {letter('a')} }}"),
    (b"xor x x", f"Combine {{ op: Xor, letter: {letter('x')}, other: {letter('x')} }}"),
    (b"not a", f"Not({letter('a')})"),
    (b" count z", f"Count({letter('z')})"),
    (b"list\tx", f"List({letter('x')})"),
    (b"drop x\r", f"Drop({letter('x')})"),
    (b"load 2 7d0d", "Load { rows: 2, bytes: [125, 13] }"),
    (b"load 02 BE8c", "Load { rows: 2, bytes: [190, 140] }"),
    (
        b"load 7 0123456789abcdefABCDEF",
        "Load { rows: 7, bytes: [1, 35, 69, 103, 137, 171, 205, 239, 171, 205, 239] }",
    ),
    (b"load 0", "Load { rows: 0, bytes: [] }"),
    (b"\tload  3\r", "Load { rows: 3, bytes: [] }"),
    (b"load 0 00", "Load { rows: 0, bytes: [0] }"),
    (b"load 18446744073709551616 ff", f"Load {{ rows: {MOST}, bytes: [255] }}"),
]

# Lines that spell none.
NO_COMMANDS = [
    b"", b" \t\r", b"low a:u1", b"\xfe", b"Insert 0 5 -1", b"inserts 0 5 -1", b"insert", b"insert 0 5",
    b"insert 0 5 -1 1", b"insert -0 5 -1", b"insert 0 +5 -1", b"insert 0 5 -", b"insert 0 5 --1", b"insert 0 5 1-",
    b"insert 0x0 5 -1", b"insert 0 5 -1\n", b"insert 0 5 \xfe", b"delete", b"delete 1", b"delete 1 2 3",
    b"delete 1 -2", b"set 0 a", b"set 0 a 1 1", b"set 0 a +1", b"set 0 A 1", b"set 0 1a 1",
    b"set 0 abcdefghijklmnopq 1", b"set -0 a 1", b"get", b"get -0", b"get 1 2", b"get\n0", b"copy 0 1",
    b"copy 0 1 2 3", b"swap 0", b"swap 0 1 2", b"rotate 0 1", b"rotate 0 1 -1", b"dup 0", b"dup 0 1 2", b"image 1",
    b"images", b"keep 1", b"Keep", b"back 0", b"backs",
    b"mark", b"mark x", b"mark x b", b"mark x b <", b"mark x b < 0 0", b"mark x b <= 0", b"mark x b != 0",
    b"mark x b ! 0", b"mark x b<0", b"mark xy b < 0", b"mark X b < 0", b"mark 0 b < 0", b"mark x B < 0",
    b"mark x b < +1", b"mark x b < -", b"marks x b < 0", b"and", b"and x", b"and x y z", b"and x Y", b"or xy",
    b"or x {", b"xor ` x", b"xor x", b"not", b"not x y", b"not nx", b"count", b"count 1", b"count x x", b"list",
    b"list x y", b"drop", b"drop x\n", b"drop 0 1", b"load", b"load x", b"load -0", b"load 2 7d0", b"load 2 7d 0d",
    b"load 2 7d0g", b"load 2 0x7d", b"load 2 7d:0", b"load 2 7d@0", b"load 2 7dG0", b"load 2 /d`0",
    b"mark x a << 0", b"list \xfe", b"load 1 0g",
]  # fmt: skip

HIGH, LOW, ONE_BIT = b"high a:u3 b:i4", b"low a:u3 b:i4", b"low f:u1"
MOST_BITS = 2305843009213693951

# How many rows there are, whether rows are kept, the layout, and lines with what refuses them.
CAUSES = [
    (
        2, "free", HIGH,
        [(line, "row") for line in (
            b"delete 1 0", b"delete 0 3", b"rotate 0 1 2", b"rotate 1 0 0", b"rotate 0 3 0", b"copy 0 2 1",
            b"copy 1 0 0", b"copy 2 2 3", b"insert 3 0 0", b"get 2", b"set 2 a 0", b"swap 0 2", b"swap 2 0",
            b"dup 1 0", b"dup 0 3", b"get 18446744073709551616", b"delete 0 18446744073709551616",
        )],
    ),
    (
        2, "free", HIGH,
        [(line, "none") for line in (
            b"delete 1 1", b"delete 2 2", b"delete 0 2", b"rotate 0 2 2", b"rotate 2 2 0", b"copy 0 1 1",
            b"copy 2 2 2", b"insert 2 7 -8", b"get 1", b"set 1 b 7", b"swap 1 1", b"dup 0 2", b"image",
            b"load 2 be8c", b"load 0", b"mark x a > 7", b"mark x b = -8", b"and x y", b"not x", b"count x",
            b"list x", b"drop x",
        )],
    ),
    (
        2, "free", HIGH,
        [
            (b"set 9 c 99", "field"), (b"set 9 a 99", "row"), (b"set 1 a 8", "value"), (b"set 1 b -9", "value"),
            (b"insert 3 8 0", "row"), (b"insert 0 8 0", "value"), (b"insert 0 18446744073709551616 0", "value"),
            (b"mark x c < 99", "field"), (b"mark x a < 8", "value"), (b"mark x a > -1", "value"),
            (b"mark x b < 8", "value"), (b"mark x b = -9", "value"), (b"mark x b < 18446744073709551616", "value"),
            (b"load 329406144173384851 00", "full"), (b"load 18446744073709551616", "full"),
            (b"load 329406144173384850 00", "image"),
        ],
    ),
    # two rows of seven bits fill two bytes but for two bits, which have to be zero
    *[
        (
            2, "free", layout,
            [(line, "none" if (of_high, of_low)[rule] else "image") for line, of_high, of_low in (
                (b"load 2 be8c", True, False), (b"load 2 7d0d", False, True), (b"load 2 BE8C", True, False),
                (b"load 2 be8d", False, False), (b"load 2 fffc", True, False), (b"load 2 ff3f", False, True),
                (b"load 2 0000", True, True), (b"load 3 be8c", False, False), (b"load 1 be8c", False, False),
                (b"load 1 be", True, False), (b"load 2", False, False), (b"load 0 00", False, False),
                (b"load 0", True, True),
            )],
        )
        for rule, layout in enumerate((HIGH, LOW))
    ],
    (2, "free", HIGH, [(b"back", "kept"), (b"keep", "none"), (b"image", "none")]),
    (2, "kept", HIGH, [(b"back", "none"), (b"keep", "none"), (b"image", "none")]),
    # the most rows of one bit, and of seven
    (
        MOST_BITS, "free", ONE_BIT,
        [
            (b"insert 0 0", "full"), (b"dup 3 4", "full"), (b"dup 3 3", "none"), (b"delete 0 9", "none"),
            (b"image", "none"), (b"load 2305843009213693951 00", "image"), (b"load 0 00", "image"),
            (b"load 1 01", "none"), (b"load 0", "none"), (b"drop x", "none"),
        ],
    ),
    (MOST_BITS - 1, "free", ONE_BIT, [(b"insert 0 1", "none"), (b"dup 3 4", "none"), (b"dup 3 5", "full")]),
    (0, "free", ONE_BIT, [(b"load 2305843009213693952 00", "full")]),
    (329406144173384850, "free", HIGH, [(b"insert 0 0 0", "full"), (b"insert 0 8 0", "value")]),
    (329406144173384849, "free", HIGH, [(b"insert 0 0 0", "none")]),
    # the numbers at the edges of fields, and those past them
    (
        1, "free", b"low a:i4 b:u3 c:i64 d:u64 e:i1 f:u1",
        [
            (b"set 0 %s %d" % (field, number), cause)
            for field, edges in (
                (b"a", (-9, -8, 7, 8)),
                (b"b", (-1, 0, 7, 8)),
                (b"c", (-9223372036854775809, -9223372036854775808, 9223372036854775807, 9223372036854775808)),
                (b"d", (-1, 0, 18446744073709551615, 18446744073709551616)),
                (b"e", (-2, -1, 0, 1)),
                (b"f", (-1, 0, 1, 2)),
            )
            for number, cause in zip(edges, ("value", "none", "none", "value"))
        ],
    ),
]  # fmt: skip

# A layout line, a count of rows, their image bytes, and their bits, or what refuses them.
IMAGES = [
    ("high a:u3 b:i4", 2, "be8c", "10111110100011"),
    ("low a:u3 b:i4", 2, "7d0d", "10111110101100"),
    # a one in the two bits behind them
    ("high a:u3 b:i4", 2, "be8d", None),
    ("high a:u3 b:i4", 2, "be8e", None),
    ("low a:u3 b:i4", 2, "7d4d", None),
    ("low a:u3 b:i4", 2, "7d8d", None),
    # too few bytes, and too many
    ("high a:u3 b:i4", 3, "be8c", None),
    ("high a:u3 b:i4", 2, "", None),
    ("high a:u3 b:i4", 2, "be8c00", None),
    ("high a:u3 b:i4", 0, "00", None),
    ("high a:u3 b:i4", 0, "", ""),
    # a whole byte, which has no bit behind it
    ("low a:u3 b:u5", 1, "8d", "10110001"),
    ("high a:u3 b:u5", 1, "b1", "10110001"),
    # as many bits as a table may have, and one row more
    ("low f:u1", 2305843009213693951, "00", None),
    ("low f:u1", 2305843009213693952, "00", "full"),
    ("high a:u3 b:i4", 329406144173384850, "00", None),
    ("high a:u3 b:i4", 329406144173384851, "00", "full"),
]

# Cases of a memory, whole.
MEMORIES = [
    # 1 0 1 1: 13 from the lowest digit on, 11 from the highest, and with a sign
    # that is a step for the word by the rule of the order, and by the other one, of so few, a step a digit
    ("digits u8 lsb0 0d 0 4 13", "13 11 -3 -5 10 0d 0b 5"),
    ("digits u8 msb0 d0 0 4 13", "11 13 -5 -3 10 b0 d0 5"),
    # behind a field of three digits one of 64 touches nine words of 8 bits, and two of 64; by the other rule it is one step
    ("digits u8 lsb0 080000000000000000 3 64 1", f"1 {1 << 63} 1 {-1 << 63} 20 080000000000000000 000000000000000004 10"),
    (
        "digits u64 lsb0 00000000000000080000000000000000 3 64 1",
        f"1 {1 << 63} 1 {-1 << 63} 6 00000000000000080000000000000000 00000000000000000000000000000004 3",
    ),
    # the two rows by both rules in three orders: 1 0 1, 1 1 1 1, 0 1 0, and then 1 1 0 0 or 0 0 1 1
    ("row u8 lsb0 0000 0 0 low a:u3 b:i4 c:u3 d:i4;5 -1 2 3", "[5, -1, 2, 3] 7d0d"),
    ("row u8 msb0 0000 0 0 low a:u3 b:i4 c:u3 d:i4;5 -1 2 3", "[5, -1, 2, 3] beb0"),
    ("row u8 hilo 0000 0 0 low a:u3 b:i4 c:u3 d:i4;5 -1 2 3", "[5, -1, 2, 3] d7d0"),
    ("row u8 lsb0 0000 0 0 high a:u3 b:i4 c:u3 d:i4;5 -1 2 3", "[5, -1, 2, 3] 7d31"),
    ("row u8 msb0 0000 0 0 high a:u3 b:i4 c:u3 d:i4;5 -1 2 3", "[5, -1, 2, 3] be8c"),
    ("row u8 hilo 0000 0 0 high a:u3 b:i4 c:u3 d:i4;5 -1 2 3", "[5, -1, 2, 3] d713"),
    # the same over ones, which stay behind them
    ("row u8 msb0 ffff 0 0 high a:u3 b:i4 c:u3 d:i4;5 -1 2 3", "[5, -1, 2, 3] be8f"),
    ("row u8 lsb0 ffff 0 0 high a:u3 b:i4 c:u3 d:i4;5 -1 2 3", "[5, -1, 2, 3] 7df1"),
    ("row u8 hilo ffff 0 0 high a:u3 b:i4 c:u3 d:i4;5 -1 2 3", "[5, -1, 2, 3] d71f"),
    ("row u8 lsb0 ffff 0 0 low a:u3 b:i4 c:u3 d:i4;5 -1 2 3", "[5, -1, 2, 3] 7dcd"),
    # its fields one by one: loaded by both rules, as they are and with a sign, stored by both, a step a digit
    ("digits u8 hilo d7d0 0 3 5", "5 5 -3 -3 12 d7d0 d7d0 6"),
    ("digits u8 hilo d7d0 3 4 -1", "15 15 -1 -1 16 d7d0 d7d0 8"),
    ("digits u8 hilo d7d0 7 3 2", "2 2 2 2 12 d7d0 d7d0 6"),
    ("digits u8 hilo d7d0 10 4 3", "3 12 3 -4 16 d7d0 d713 8"),
    # the second of them alone, behind seven ones
    ("row u8 msb0 ffff 0 7 high a:u3 b:i4;2 3", "[2, 3] fe8f"),
    # a row of three bits from bit 3 on moves up by one row
    ("move u8 lsb0 ff0000 3 1 2 2 3 1 3", "ff0600 yes"),
    ("move u8 hilo 123456 0 1 0 5 4 2 32", "234556 yes"),
    # from bit 3 on 010, 000, 010, 110: the first and the third go
    ("keep u8 lsb0 123456 3 4 3 5 2", "c23456 2 yes"),
]
