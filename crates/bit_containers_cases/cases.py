#!/usr/bin/env python3
"""Writes the cases of this program, `stdin` and `stdout`.

usage: ./cases.py, in this folder. First come rows that were worked by hand, each with its answer; then cases whose answers
come from a plain list of bits and a head. A case is: kind word order memory(hex) from len, and calls with `;` between them;
without a kind it is one of a vector. A case of an operator has a second window, and no calls.

Dead bits are shown by the calls raw, given and words, and by the operators. The rows have them as they give them. The other
cases ask for them only where a contract says what they are: the plain list has them as `None` elsewhere.
"""

import random

WORDS = {"u8": 8, "u16": 16, "u32": 32, "u64": 64, "u128": 128}
ORDERS = {
    "lsb0": lambda bits, i: i,
    "msb0": lambda bits, i: bits - 1 - i,
    "fifth": lambda bits, i: (5 * i + 3) % bits,
}
# Those that the sweeps go by: the order of a user's own twice.
SWEPT = (*ORDERS, "fifth")

UNEQUAL = "bit-slice with length {0} cannot be viewed as bit-array with length 8: TryFromBitSliceError::UnequalLen({0} != 8)"
MISALIGNED = (
    "a bit-slice must begin at the front edge of a storage element in order to be viewed as a bit-array: "
    "TryFromBitSliceError::Misaligned"
)

# 140 bits.
LONG = "0110100" * 20

ROWS = [
    # the bits 0, 1, four zeros and the first four of 15: two bytes; the zeros one by one, at once, and by an iterator
    ("u8 msb0 - 0 0 push 0 ; push 1 ; push 0 ; push 0 ; push 0 ; push 0 ; extend 1111 ; raw", "43c0 [0100001111] 0 2"),
    ("u8 msb0 - 0 0 push 0 ; push 1 ; resize 6 0 ; extend 1111 ; ones ; given", "5,1,9,6,43c0 [] 0 0"),
    ("u8 msb0 - 0 0 push 0 ; push 1 ; extend_items 0000 ; extend 1111 ; raw", "43c0 [0100001111] 0 2"),
    ("u8 msb0 - 0 0 collect 0110", "[0110] 0 1"),
    # more bits than a number has digits, and some behind them
    (f"u16 lsb0 - 0 0 collect {LONG}", f"[{LONG}] 0 9"),
    (f"u8 msb0 - 0 0 push 1 ; extend_items {LONG}", f"[1{LONG}] 0 18"),
    (f"u64 lsb0 - 0 0 extend_items {LONG[:64]} ; push 1", f"[{LONG[:64]}1] 0 2"),
    # the bits 2 to before 6 of 1011 0101 keep their head; so does a copy, and `!` flips all eight bits
    ("u8 msb0 b5 2 4 raw", "34 [1101] 2 1"),
    ("u8 msb0 b5 2 4 clone ; raw", "34 [1101] 2 1"),
    ("u8 msb0 b5 2 4 not ; raw", "cb [0010] 2 1"),
    # once they are cleared they stay as dead bits, also when a bit is pushed
    ("u8 msb0 b5 2 4 clear ; given", "34 [] 0 0"),
    ("u8 msb0 b5 2 4 clear ; push 0 ; raw", "14 [0] 2 1"),
    # a range of the list comes behind it: of 0, 0, 1, 1, 0, 0 and of 0, 1, 0, 0, 1
    ("u8 msb0 30 0 6 within 2 4", "[00110011] 0 1"),
    ("u8 msb0 48 0 5 within 2 5", "[01001001] 0 1"),
    # of 0, 1, 0, 0, 1: a bit is taken out or put in, and taken off the end; nothing comes of an empty list
    ("u8 msb0 48 0 5 swap_remove 2", "0[0110] 0 1"),
    ("u8 msb0 48 0 5 insert 5 1", "[010011] 0 1"),
    ("u8 msb0 48 0 5 remove 1 ; pop", "11[000] 0 1"),
    ("u8 lsb0 - 0 0 pop", "-[] 0 0"),
    # words that are taken over: the byte 0x2d, two words in each way; one bit eleven times
    ("u8 lsb0 - 0 0 from_element 2d ; ones", "4,0,5,2,[10110100] 0 1"),
    ("u16 msb0 - 0 0 from_slice 12345678 ; given", "12345678 [] 0 0"),
    ("u16 lsb0 - 0 0 from_vec 12345678 ; ones ; given", "13,2,30,4,12345678 [] 0 0"),
    ("u16 msb0 - 0 0 try_from_slice 12345678 ; given", "12345678 [] 0 0"),
    ("u16 lsb0 - 0 0 try_from_vec 12345678 ; given", "12345678 [] 0 0"),
    ("u8 lsb0 - 0 0 repeat 11 1 ; raw", "ffff [11111111111] 0 2"),
    ("u8 lsb0 - 0 0 repeat 11 0 ; raw", "0000 [00000000000] 0 2"),
    # of the words b5 and ff the bits 2 to before 6: one of them is visible
    ("u8 msb0 - 0 0 from_place b5ff 2 4 ; raw ; each", "b5 1101[1101] 2 1"),
    # 1, 0, 0 are taken out of 0, 1, 0, 0, 1; and 0, 1, 1, 0 put in the place of three ones
    ("u8 msb0 48 0 5 drain 1 4", "[100]100--[01] 0 1"),
    ("u8 msb0 70 0 5 splice 0110 1 4", "11[001100] 0 1"),
    # the same with each kind of range; and of five bits the second and the last but one are passed to
    ("u8 msb0 48 0 5 drain_from 3", "[01]01--[010] 0 1"),
    ("u8 msb0 48 0 5 drain_to 2", "[01]01--[001] 0 1"),
    ("u8 msb0 48 0 5 drain_with 1 3", "[100]100--[01] 0 1"),
    ("u8 msb0 48 0 5 drain_upto 1", "[01]01--[001] 0 1"),
    ("u8 msb0 48 0 5 drain_all", "[01001]01100--[] 0 0"),
    ("u8 msb0 48 0 5 drain_nth 1 1", "10[0][] 0 0"),
    ("u8 msb0 70 0 5 splice_with 0110 1 3", "11[001100] 0 1"),
    ("u8 msb0 70 0 5 splice_from 0110 4", "0-[01110110] 0 1"),
    ("u8 msb0 70 0 5 splice_all 01", "00[01] 0 1"),
    ("u8 msb0 70 0 5 splice_nth 01 1 0", "10[] 0 0"),
    ("u8 msb0 48 0 5 within_with 1 2 ; within_to 1", "[01001100] 0 1"),
    # three zeros in the place of the first bit of the words 1, 2, 3, 4
    ("u8 lsb0 01020304 0 32 splice 000 0 1 ; dead 0 ; raw", "1-00080c1000 [0000000000010000001100000000100000] 0 5"),
    # 0, 1 by turns twelve times, as windows answer: ones, zeros, the last of pieces of five
    ("u8 lsb0 aa0a 0 12 ones ; zeros ; last_chunk 5", "6,1,11,3,6,0,10,10,[01][010101010101] 0 2"),
    ("u32 msb0 55500000 0 12 ones ; zeros ; last_chunk 5", "6,1,11,3,6,0,10,10,[01][010101010101] 0 1"),
    # the digits 0xaaa, the first bit lowest: rotated 0x555, reversed 0xaaa, the first bit set and four moved 0xabb
    ("u8 lsb0 aa0a 0 12 rotate 1", "[101010101010] 0 2"),
    ("u8 lsb0 aa0a 0 12 rotate 1 ; reverse ; raw", "aa0a [010101010101] 0 2"),
    ("u8 lsb0 aa0a 0 12 set 0 1 ; move 0 4 4 ; raw", "bb0a [110111010101] 0 2"),
    ("u8 lsb0 aa0a 0 12 fill 1 ; set_lent 3 0 ; zeros", "1,3,3,3,[111011111111] 0 2"),
    # with four ones and four zeros: 0x00a, 0x00f, 0x000
    ("u8 lsb0 aa0a 0 12 and 11110000 ; raw ; or 11110000 ; raw ; xor 11110000", "0a00 0f00 [000000000000] 0 2"),
    # of 0, 1, 0, 0, 1 what stands at even indices is kept, and of that the ones; the bits at even indices are 0, 0, 1
    ("u16 msb0 4800 0 5 keep 00011", "[001] 0 1"),
    ("u16 msb0 4800 0 5 keep 00011 ; keep 111", "[1] 0 1"),
    # the bits 2 to before 6 of 1011 0101 and a zero: the ones behind the first
    ("u8 msb0 b5 2 4 push 0 ; keep 01111", "[11] 2 1"),
    # their copies have their head; twice they are 1101 1101
    ("u8 msb0 b5 2 4 copies 2", "[1101]2,34 [1101]2,[11011101]0,[1101]2,34 [1101]2,[11011101]0,[1101] 2 1"),
    # the bits 12 to before 20 of two words
    ("u16 lsb0 12345678 12 8 copies 0 ; raw", "[10000001]12,10000008 [10000001]12,[]0,[10000001]12,10000008 [10000001]12,[]0,10000008 [10000001] 12 2"),
    # vectors of arrays
    ("u16 lsb0 - 0 0 from_array 12345678 ; given", "12345678 [] 0 0"),
    ("u16 msb0 - 0 0 from_array 12345678 ; ones", "13,3,28,6,[00010010001101000101011001111000] 0 2"),
    ("u8 msb0 - 0 0 from_element b5 ; zeros", "3,1,6,6,[10110101] 0 1"),
    ("u8 msb0 - 0 0 from_array b5 ; zeros", "3,1,6,6,[10110101] 0 1"),
    # the bits 14 to before 20 of ffff, 00ff: the last word turned; of two bits the first one, and the other is held
    ("u16 lsb0 ffff00ff 14 6 raw ; put 1 fff0 ; raw ; ones", "c000000f c000fff0 2,0,1,1,[110000] 14 2"),
    ("u16 lsb0 ffff00ff 14 6 put 1 fff0 ; truncate 2 ; put 0 3fff ; raw ; held", "3fff 3ffffff0 [] 0 0"),
    # 00[01 1011 10]00 0000 flipped through a window, and its words exchanged
    ("u8 msb0 5b9a 2 8 lent invert ; raw ; ones", "2440 3,0,7,3,[10010001] 2 2"),
    ("u8 msb0 5b9a 2 8 lent invert ; put 0 40 ; put 1 24 ; raw", "4024 [00000000] 2 2"),
    # bitvec's first page: 0, 1, a bit at the end, and one put in before the second
    (
        "u8 msb0 - 0 0 collect 01 ; push 1 ; insert 1 0 ; text ; each ; get 1 ; get 4 ; given",
        "[0, 0, 1, 1][0, 0, 1, 1][0, 0, 1, 1][1, 1][3][3]00110-30 [] 0 0",
    ),
    # boxes of arrays and of words in a box
    ("box u8 msb0 - 0 0 from_array 8140 ; ones ; at 7 ; at 9 ; words", "3,0,9,7,118140 [] 0 0"),
    ("box u16 lsb0 - 0 0 from_element 8001 ; ones", "2,0,15,15,[1000000000000001] 0 1"),
    ("box u8 lsb0 - 0 0 from_element 06 ; ones", "2,1,2,2,[01100000] 0 1"),
    ("box u16 msb0 - 0 0 from_boxed_slice 01808001 ; ones ; words", "4,7,31,8,01808001 [] 0 0"),
    ("box u16 lsb0 - 0 0 try_from_boxed_slice 01808001 ; at 7 ; at 8 ; at 16 ; at 31 ; raw ; words", "111101808001 01808001 [] 0 0"),
    ("box u64 lsb0 - 0 0 from_boxed_slice - ; words", " [] 0 0"),
    # every third of eleven bits
    ("box u8 msb0 9240 0 11 collect ; words", "9240 [] 0 0"),
    # nine bits of a vector with room for a hundred more become a box of their words, and come one by one
    ("u8 msb0 b50f 3 9 reserve 100 ; boxed ; ones ; held", "3,0,4,2,1500 [] 0 0"),
    ("box u8 msb0 b50f 3 9 vec ; words", "1500 [] 0 0"),
    ("u8 msb0 b50f 3 9 iter", "100100100--[] 0 0"),
    # the bits 2 to before 6 of 1011 0101, with zeros and with ones beside them
    ("box u8 msb0 b5 2 4 dead 0 ; words", "34 [] 0 0"),
    ("box u8 msb0 b5 2 4 dead 1 ; words", "f7 [] 0 0"),
    # the bits 14 to before 20 of ffff, 00ff: the last word turned, then aligned, with one visible word of two
    ("box u16 lsb0 ffff00ff 14 6 raw ; put 1 fff0 ; raw ; ones ; align ; at 0 ; at 1", "c000000f c000fff0 2,0,1,1,11[110000] 0 1"),
    ("box u16 lsb0 ffff00ff 14 6 put 1 fff0 ; align ; size", "2,[] 0 0"),
    # 01[00 1101 11]10 0010, with ones beside it: flipped through a window, the first bit turned, the words exchanged
    ("box u8 msb0 4de2 2 8 dead 1 ; lent invert ; raw ; set 0 0 ; raw", "f23f d23f [01001000] 2 2"),
    ("box u8 msb0 4de2 2 8 put 0 3f ; put 1 d2 ; raw ; lent fill 1", "3fd2 [11111111] 2 2"),
    # arrays of words: from either end, and back
    ("array2 u8 lsb0 0180 0 16 ones ; inner ; raw", "2,0,15,15,0180 [1000000000000001] 2"),
    ("array2 u8 msb0 0180 0 16 ones", "2,7,8,8,[0000000110000000] 2"),
    ("word u32 msb0 80000001 0 32 ones", "2,0,31,31,[10000000000000000000000000000001] 1"),
    # arrays without a bit set, and of no words
    ("array3 u16 lsb0 123456789abc 0 48 zero ; ones ; raw", "0,-,-,-,000000000000 [" + "0" * 48 + "] 3"),
    ("word u64 msb0 0123456789abcdef 0 64 default ; ones ; raw", "0,-,-,-,0000000000000000 [" + "0" * 64 + "] 1"),
    ("array0 u32 msb0 - 0 0 raw ; ones", " 0,-,-,-,[] 0"),
    # windows that are arrays, and others
    ("array2 u8 lsb0 123456 0 16 raw", "1234 [0100100000101100] 2"),
    ("array2 u8 msb0 123456 8 16 raw", "3456 [0011010001010110] 2"),
    ("array1 u8 lsb0 ff00 0 16", UNEQUAL.format(16)),
    ("array1 u8 lsb0 ff00 1 8", MISALIGNED),
    ("array1 u8 lsb0 ff00 1 3", UNEQUAL.format(3)),
    # bits of b5, 01 by index, and the four from the third on
    ("array2 u8 msb0 b501 0 16 at 0 ; at 1 ; at 15 ; get 3 ; get 16 ; part 2 6 ; ends", "1011-[1101]11[1011010100000001] 2"),
    # sixteen bits set, replaced, exchanged, rotated, shifted and filled
    ("array2 u8 lsb0 0000 0 16 set 3 1 ; set 8 1 ; raw ; replace 3 0 ; raw ; swap 8 15 ; raw", "0801 10001 0080 [0000000000000001] 2"),
    ("array2 u8 lsb0 0080 0 16 rotate 12 ; raw ; shift_right 2 ; raw ; fill 1 ; raw", "0800 2000 ffff [1111111111111111] 2"),
    # four ones reversed, moved, one set through what is lent of it, combined with twelve ones
    (
        "array2 u8 lsb0 0f00 0 16 reverse ; raw ; move 8 3 8 ; raw ; set_lent 0 1 ; raw ; and 1111111111110000 ; raw",
        "00f0 80f7 81f7 8107 [1000000111100000] 2",
    ),
    # words and windows that arrays lend
    ("array2 u16 msb0 12345678 0 32 raw ; put 1 8000 ; raw ; at 16 ; lent set 0 1 ; raw", "12345678 12348000 192348000 [10010010001101001000000000000000] 2"),
    # 0xa001 from its lowest digit on, in a loop that takes it
    ("array2 u8 lsb0 01a0 0 16 by_value", "1000000000000101[1000000000000101] 2"),
    ("array2 u16 msb0 12345678 0 32 lent fill 1 ; raw", "ffffffff [" + "1" * 32 + "] 2"),
    # cc, ff: each bit turned; with aa, 0f, with 01, 80 and with the first of these again
    ("array2 u8 lsb0 ccff 0 16 not ; raw", "3300 [1100110000000000] 2"),
    ("array2 u8 lsb0 ccff 0 16 and 0101010111110000 ; or 1000000000000001 ; xor 0101010111110000 ; raw", "2380 [1100010000000001] 2"),
    # 1011 0010 from both ends, two from the front for each from the back; by nth; what is left when the ends are gone
    ("word u8 msb0 b2 0 8 iter ; turns", "10011100--10011100--[10110010] 1"),
    ("word u8 msb0 b2 0 8 nth 1 1 ; left", "0110[011001]100011--100011--[10110010] 1"),
    ("array2 u8 lsb0 0580 0 16 each", "1010000000000001[1010000000000001] 2"),
    # the six texts: bit by bit, by threes, by fours
    ("word u8 msb0 b2 0 8 text", "[1, 0, 1, 1, 0, 0, 1, 0]" * 3 + "[5, 4, 2][b, 2][B, 2][10110010] 1"),
    ("word u8 lsb0 b2 0 8 text", "[0, 1, 0, 0, 1, 1, 0, 1]" * 3 + "[2, 3, 1][4, d][4, D][01001101] 1"),
    # cc, ff with aa, 0f: 88, 0f and ee, ff and 66, f0
    ("and u8 lsb0 ccffaa0f 0 16 16 16", "880f 880f [L]880f 880f [L]880f 880f [L][L][L]".replace("L", "0001000111110000")),
    ("or u8 lsb0 ccffaa0f 0 16 16 16", "eeff eeff [L]eeff eeff [L]eeff eeff [L][L][L]".replace("L", "0111011111111111")),
    ("xor u8 lsb0 ccffaa0f 0 16 16 16", "66f0 66f0 [L]66f0 66f0 [L]66f0 66f0 [L][L][L]".replace("L", "0110011000001111")),
    # a shorter list on the right has zeros behind it: 1100 with ff, ff and with 00, 80
    ("and u8 lsb0 ffff0f 0 16 18 4", "0300 0300 [L]0300 0300 [L]0300 0300 [L][L]".replace("L", "1100000000000000")),
    ("xor u8 lsb0 ffff0f 0 16 18 4", "fcff fcff [L]fcff fcff [L]fcff fcff [L][L]".replace("L", "0011111111111111")),
    ("or u8 lsb0 00800f 0 16 18 4", "0380 0380 [L]0380 0380 [L]0380 0380 [L][L]".replace("L", "1100000000000001")),
    # and so has a byte beside two
    ("and u8 lsb0 ffff81 0 16 16 8", "8100 8100 [L]8100 8100 [L]8100 8100 8100 [L][L][L]".replace("L", "1000000100000000")),
    ("or u8 lsb0 008081 0 16 16 8", "8180 8180 [L]8180 8180 [L]8180 8180 8180 [L][L][L]".replace("L", "1000000100000001")),
    # a longer one is used as far as the left one goes: aa, ff, ff with f0
    ("and u8 msb0 f0aaffff 0 8 8 24", "a0 a0 [L]a0 a0 [L]a0 a0 [L][L]".replace("L", "10100000")),
    ("or u8 msb0 f0aaffff 0 8 8 24", "fa fa [L]fa fa [L]fa fa [L][L]".replace("L", "11111010")),
    ("xor u8 msb0 f0aaffff 0 8 8 24", "5a 5a [L]5a 5a [L]5a 5a [L][L]".replace("L", "01011010")),
    # a window of eight bits from the fifth on, with ones beside it, and 55 on its right: 5f, f5; then 02 and 55: 2f, f0
    ("and u8 lsb0 ffff55 4 8 16 8", "5ff5 5005 [10101010]5ff5 5005 [10101010]5ff5 5005 5ff5 "),
    ("or u8 lsb0 5ff502 4 8 16 8", "7ff5 7005 [11101010]7ff5 7005 [11101010]7ff5 7005 7ff5 "),
    ("xor u8 lsb0 7ff555 4 8 16 8", "2ff0 2000 [01000000]2ff0 2000 [01000000]2ff0 2000 2ff0 "),
    # 66 with the vector 35 on its right: six ones, then four, then none
    ("or u8 lsb0 6635 0 8 8 8", "77 77 [L]77 77 [L]77 77 77 [L]".replace("L", "11101110")),
    ("and u8 lsb0 7735 0 8 8 8", "35 35 [L]35 35 [L]35 35 35 [L]".replace("L", "10101100")),
    ("xor u8 lsb0 3535 0 8 8 8", "00 00 [L]00 00 [L]00 00 00 [L]".replace("L", "00000000")),
]


def text(bits):
    return "".join(map(str, bits))


def shown(bits):
    return f"[{text(bits)}]"


def bit(bits, i):
    return str(bits[i]) if 0 <= i < len(bits) else "-"


def number(found):
    return "-," if found is None else f"{found},"


def places(bits, wanted):
    return [i for i, b in enumerate(bits) if b == wanted]


def turns(bits):
    """All bits, two from the front for each from the back, and what comes at the end."""
    left, given = list(bits), ""
    while left:
        given += str(left.pop(-1 if len(given) % 3 == 2 else 0))
    return given + "--"


def groups(bits, size, upper=False):
    values = [int(text(bits[i : i + size]), 2) for i in range(0, len(bits), size)]
    return "[" + ", ".join(f"{v:X}" if upper else f"{v:x}" for v in values) + "]"


def texts(bits):
    return groups(bits, 1) * 3 + groups(bits, 3) + groups(bits, 4) + groups(bits, 4, True)


def combined(bits, others, how):
    """The bits with the first of them combined with another list's; the other counts as zeros behind its end."""
    longer = others + [0] * len(bits)
    return [{"and": a & b, "or": a | b, "xor": a ^ b}[how] for a, b in zip(bits, longer)]


class Plain:
    """A list at a head in words, whose bits are `None` where nothing says what a dead bit is."""

    def __init__(self, word, order, head, bits):
        self.size, self.at = WORDS[word], ORDERS[order]
        self.head, self.n = head, len(bits)
        self.words = [0] * self.whole(head + self.n)
        self.words[head : head + self.n] = bits

    def whole(self, bits):
        return (bits + self.size - 1) // self.size * self.size

    @property
    def bits(self):
        return self.words[self.head : self.head + self.n]

    def hex(self, words):
        """Words in hexadecimal, of their bits."""
        parts = [words[k : k + self.size] for k in range(0, len(words), self.size)]
        values = [sum(b << self.at(self.size, i) for i, b in enumerate(part)) for part in parts]
        return "".join(f"{v:0{self.size // 4}x}" for v in values)

    def raw(self):
        return self.hex(self.words) + " "

    def known(self):
        return None not in self.words

    def become(self, bits, is_told=True):
        """Another list from the same head on: words that come to sight are zero; without `is_told` no dead bit is known."""
        self.n, end = len(bits), self.head + len(bits)
        self.words = (self.words + [0] * self.whole(end))[: self.whole(end)]
        if not is_told:
            self.words = [None] * len(self.words)
        self.words[self.head : end] = bits

    def start(self, words, head=0, n=None):
        """A list in words whose bits are given."""
        self.head, self.n = head, len(words) - head if n is None else n
        self.words = words[: self.whole(self.head + self.n)]

    def dead(self, bit):
        bits = self.bits
        self.words = [bit] * len(self.words)
        self.words[self.head : self.head + self.n] = bits


def some(rng, *sizes):
    return [rng.getrandbits(1) for _ in range(rng.choice(sizes or (0, 1, 3, 9, 30)))]


LOOKS = "ends ones zeros get part nth turns compare last_chunk text each at".split()


def look(plain, name, rng):
    """A call that reads: its words and its answer."""
    bits, n = plain.bits, plain.n
    a, b = rng.randint(0, n + 1), rng.randint(0, n + 1)
    if name == "ends":
        return name, bit(bits, 0) + bit(bits, n - 1)
    if name in ("ones", "zeros"):
        found = places(bits, int(name == "ones"))
        last = (found[1] if len(found) > 1 else None) if name == "ones" else (found[-1] if found else None)
        ends = (found[0], found[-1]) if found else (None, None)
        return name, "".join(map(number, (len(found), *ends, last)))
    if name == "get":
        return f"get {a}", bit(bits, a)
    if name == "at":
        return f"at {a}", bit(bits, a) if a < n else "refused "
    if name == "part":
        return f"part {a} {b}", shown(bits[a:b]) if a <= b <= n else "-"
    if name == "nth":
        rest = bits[a + 1 :]
        return f"nth {a} {b}", bit(bits, a) + bit(rest[::-1], b)
    if name == "turns":
        return name, turns(bits)
    if name == "compare":
        other = bits[:] if len(bits) <= 200 and rng.getrandbits(1) else some(rng)
        if other and rng.getrandbits(1):
            other[rng.randrange(len(other))] ^= 1
        return f"compare {text(other) or '-'}", "<" if bits < other else ">" if bits > other else "="
    if name == "last_chunk":
        size = rng.randint(1, 9)
        return f"last_chunk {size}", shown(bits[(n - 1) // size * size :]) if n else "-"
    return name, texts(bits) if name == "text" else text(bits)


WRITES = (
    "fill fill_odd invert reverse rotate rotate_right shift_left shift_right set set_lent replace swap move and or xor take put with swept"
).split()

# those that boxes and arrays have too; calls that write words, which no window that is lent has; calls of a container alone
# that read it
IN_PLACE = [name for name in WRITES if name != "swept"]
WORDS_WRITTEN = "put with swept".split()
OWN_LOOKS = "text each at".split()


def write(plain, name, rng):
    """A call that writes the list in place, where the dead bits stay: its words and its answer."""
    bits, n = plain.bits, plain.n
    a, b, one = rng.randint(0, n), rng.randint(0, n), rng.getrandbits(1)
    if name == "take" and n > 200:
        # a case holds no more bits of another list
        name = "invert"
    new, call, answer = bits[:], name, ""
    if name in ("put", "with", "swept"):
        k, word = rng.randint(0, len(plain.words) // plain.size), [rng.getrandbits(1) for _ in range(plain.size)]
        if k * plain.size < len(plain.words):
            plain.words[k * plain.size : (k + 1) * plain.size] = word
        is_there = k * plain.size < len(plain.words)
        return f"{name} {k} {plain.hex(word)}", "refused " if name == "swept" and not is_there else ""
    if name == "fill":
        call, new = f"fill {one}", [one] * n
    elif name == "fill_odd":
        new = [i % 2 for i in range(n)]
    elif name == "invert":
        new = [1 - b for b in bits]
    elif name == "reverse":
        new = bits[::-1]
    elif name == "rotate":
        call, new = f"rotate {a}", bits[a:] + bits[:a]
    elif name == "rotate_right":
        call, new = f"rotate_right {a}", bits[n - a :] + bits[: n - a]
    elif name in ("shift_left", "shift_right"):
        by = rng.choice((a, n + 2))
        kept = bits[by:] if name == "shift_left" else bits[: max(n - by, 0)]
        zeros = [0] * (n - len(kept))
        call, new = f"{name} {by}", kept + zeros if name == "shift_left" else zeros + kept
    elif name in ("set", "set_lent", "replace"):
        call, answer = f"{name} {a} {one}", "refused " if a == n else str(bits[a]) if name == "replace" else ""
        new = bits if a == n else bits[:a] + [one] + bits[a + 1 :]
    elif name == "swap":
        a, b = min(a, n - 1), min(b, n - 1)
        call, answer = f"swap {max(a, 0)} {max(b, 0)}", "" if n else "refused "
        if n:
            new[a], new[b] = new[b], new[a]
    elif name == "move":
        count = n - max(a, b)
        call = f"move {a} {b} {count}"
        new[b : b + count] = bits[a : a + count]
    elif name in ("and", "or", "xor"):
        other = some(rng, 0, 5, 9, 30)
        call, new = f"{name} {text(other) or '-'}", combined(bits, other, name)
    elif name == "take":
        new = [rng.getrandbits(1) for _ in bits]
        call = f"take {text(new) or '-'}"
    plain.become(new)
    return call, answer


def whole_words(plain, name, rng):
    """A call of `make`: all bits of some words, or one bit; its words."""
    count = {"from_element": 1, "from_array": rng.randint(1, 2)}.get(name, rng.randint(0, 4))
    words = [rng.getrandbits(1) for _ in range(count * plain.size)]
    plain.start(words)
    return f"{name} {plain.hex(words) or '-'}"


KINDS = " from to with upto all".split(" ")


def kinds(name):
    """A call that takes a range, by the six kinds: `a..b`, `a..`, `..b`, `a..=b`, `..=b` and `..`."""
    return [name + (kind and "_" + kind) for kind in KINDS]


def range_words(name, n, rng):
    """The words of such a call's range in a list of n, and the bits that it has; `None` where it has no such kind."""
    a, b = sorted((rng.randint(0, n), rng.randint(0, n)))
    return {
        "": (f" {a} {b}", a, b),
        "from": (f" {a}", a, n),
        "to": (f" {b}", 0, b),
        "with": (f" {a} {b}", a, b + 1) if b < n else None,
        "upto": (f" {b}", 0, b + 1) if b < n else None,
        "all": ("", 0, n),
    }[name.partition("_")[2]]


ENDS = "push pop insert remove swap_remove truncate clear resize resize_thirds".split() + kinds("within")
MEMORY = "reserve reserve_exact shrink align dead set_len elements".split()
GROWS = "extend extend_slice extend_items append collect extend_raw extend_elements".split()
TAKES = "split_off leave keep copies drain_nth splice_nth".split() + kinds("drain") + kinds("splice")
MAKES = (
    "new with_capacity repeat from_vec try_from_vec from_slice try_from_slice from_element from_array collect_elements from_place"
).split()
REMAKES = "not clone boxed iter given".split()
EDITS = ENDS + MEMORY + GROWS + TAKES + MAKES + REMAKES

# after these there is no list left to speak of
EMPTIES = "clear new with_capacity iter left own_nth given words size".split()

# and after these it begins elsewhere
MOVES = MAKES + "align collect from_boxed_slice try_from_boxed_slice".split()


def end(plain, name, rng):
    bits, n = plain.bits, plain.n
    a, b, one = rng.randint(0, n), rng.randint(0, n), rng.getrandbits(1)
    if name == "push":
        plain.become(bits + [one])
        return f"push {one}", ""
    if name == "pop":
        plain.become(bits[:-1])
        return name, bit(bits, n - 1)
    if name == "insert":
        plain.become(bits[:a] + [one] + bits[a:], False)
        return f"insert {a} {one}", ""
    if name in ("remove", "swap_remove"):
        if a == n:
            return f"{name} {a}", "refused "
        last = [] if a == n - 1 else bits[-1:]
        plain.become(bits[:a] + (bits[a + 1 :] if name == "remove" else last + bits[a + 1 : -1]), False)
        return f"{name} {a}", str(bits[a])
    if name in ("truncate", "clear"):
        kept = rng.choice((a, n + b)) if name == "truncate" else 0
        plain.become(bits[:kept])
        return f"truncate {kept}" if name == "truncate" else name, ""
    if name.startswith("within"):
        found = range_words(name, n, rng)
        if found is None:
            return f"{name} {n} {n}", "refused "
        words, a, b = found
        plain.become(bits + bits[a:b])
        return name + words, ""
    size = rng.choice((a, n + rng.randint(0, 40)))
    new = [one] * (size - n) if name == "resize" else [int(i % 3 == 0) for i in range(n, size)]
    plain.become(bits[:size] + new, name == "resize")
    return f"{name} {size} {one}", ""


def memory(plain, name, rng):
    one, ends = rng.getrandbits(1), plain.head + plain.n
    if name == "align":
        bits, plain.head = plain.bits, 0
        plain.become(bits, False)
        return name, ""
    if name == "dead":
        plain.dead(one)
        return f"dead {one}", ""
    if name == "set_len":
        most = (len(plain.words) if plain.known() else ends) - plain.head
        size = rng.randint(0, most)
        plain.start(plain.words, plain.head, size)
        return f"set_len {size}", ""
    if name == "elements":
        word = [rng.getrandbits(1) for _ in range(plain.size)]
        plain.words = word * (len(plain.words) // plain.size)
        return f"elements {plain.hex(word)}", ""
    return f"{name} {rng.randint(0, 90)}" if name != "shrink" else name, ""


def grow(plain, name, rng):
    bits, others = plain.bits, some(rng)
    if name in ("extend_raw", "extend_elements"):
        others = [rng.getrandbits(1) for _ in range(rng.randint(0, 3) * plain.size)]
        plain.become(bits + others)
        return f"{name} {plain.hex(others) or '-'}", ""
    if name == "collect":
        plain.head = 0
        plain.become(others, False)
    else:
        plain.become(bits + others)
    return f"{name} {text(others) or '-'}", "[]" if name == "append" else ""


def take(plain, name, rng):
    bits, n, others = plain.bits, plain.n, some(rng)
    a, b = sorted((rng.randint(0, n), rng.randint(0, n)))
    if name == "split_off":
        rest = alone(plain, bits[a:], (plain.head + a) % plain.size)
        plain.become(bits[:a])
        return f"split_off {a}", rest
    if name in ("drain_nth", "splice_nth"):
        return take_nth(plain, name, rng, others)
    if name == "leave":
        plain.become(bits[:a] + bits[b:], False)
        return f"leave {a} {b}", ends_of(bits[a:b])
    if name.startswith(("drain", "splice")):
        found = range_words(name, n, rng)
        first = f" {text(others) or '-'}" if name.startswith("splice") else ""
        if found is None:
            return f"{name}{first} {n} {n}", "refused "
        words, a, b = found
        plain.become(bits[:a] + (others if first else []) + bits[b:], False)
        return name + first + words, ends_of(bits[a:b]) if first else shown(bits[a:b]) + turns(bits[a:b])
    if name == "keep":
        return keep(plain, rng)
    times = rng.randint(0, 3)
    once = alone(plain, bits, plain.head) + f"{shown(bits)}{plain.head},{shown(bits * times)}0,"
    return f"copies {times}", once * 2 if n <= 100 else ""


def ends_of(bits):
    """What an iterator gives from its front and then from its back."""
    return bit(bits, 0) + bit(bits[1:], len(bits) - 2)


def take_nth(plain, name, rng, others):
    """All bits taken out, some of them passed over from either end; where others were to come, these do not."""
    bits, a, b = plain.bits, rng.randint(0, plain.n + 1), rng.randint(0, plain.n + 1)
    rest = bits[a + 1 :]
    plain.become([], False)
    if name == "drain_nth":
        return f"drain_nth {a} {b}", bit(bits, a) + bit(rest[::-1], b) + shown(rest[: max(len(rest) - b - 1, 0)])
    return f"splice_nth {text(others) or '-'} {a} {b}", bit(bits, a) + (bit(rest[::-1], b) if a < len(bits) else "")


def alone(plain, bits, head):
    """What a copy shows: a list, its head, and its words with zeros beside it."""
    ends = head + len(bits)
    return f"{shown(bits)}{head}," + plain.hex([0] * head + bits + [0] * (plain.whole(ends) - ends)) + " "


def keep(plain, rng):
    """`retain` by a choice: its words name the bit at each index that is kept, and the other one where none is."""
    bits, ones = plain.bits, 0
    chosen = rng.choice(
        (
            lambda i, b: i % 2 == 0,
            lambda i, b: b,
            lambda i, b: not b,
            lambda i, b: True,
            lambda i, b: False,
            lambda i, b: b and i > 5,
            lambda i, b: b and sum(bits[:i]) % 3 == 0,
        )
    )
    kept = [chosen(i, b) and i < 200 for i, b in enumerate(bits)]
    mask = [b if is_kept else 1 - b for b, is_kept in zip(bits, kept)][:200]
    left = [b for b, is_kept in zip(bits, kept) if is_kept]
    # where no chosen bit comes, a bit of the old list stays as a dead bit
    plain.become(left + bits[len(left) :])
    plain.become(left)
    return f"keep {text(mask) or '-'}", ""


def make(plain, name, rng):
    one = rng.getrandbits(1)
    if name in ("new", "with_capacity"):
        plain.start([])
        return "new" if name == "new" else f"with_capacity {rng.randint(0, 90)}", ""
    if name == "repeat":
        size = rng.randint(0, 40)
        plain.start([one] * plain.whole(size), 0, size)
        return f"repeat {size} {one}", ""
    if name == "from_place":
        words = [rng.getrandbits(1) for _ in range(rng.randint(1, 3) * plain.size)]
        head = rng.randrange(plain.size)
        size = rng.randint(0, len(words) - head)
        plain.start(words, head, size)
        return f"from_place {plain.hex(words)} {head} {size}", ""
    return whole_words(plain, name, rng), ""


def remake(plain, name, rng):
    bits, answer = plain.bits, ""
    if name == "not":
        plain.words = [None if b is None else 1 - b for b in plain.words]
    elif name == "clone":
        plain.dead(0)
    elif name == "iter":
        answer = turns(bits)
        plain.start([])
    elif name == "given":
        if not plain.known():
            return "clone", (plain.dead(0), "")[1]
        answer = plain.raw()
        plain.start([])
    return name, answer


GROUPS = ((LOOKS, look), (WRITES, write), (ENDS, end), (MEMORY, memory), (GROWS, grow), (TAKES, take), (MAKES, make), (REMAKES, remake))


def vector_call(plain, name, rng):
    return next(carry_out(plain, name, rng) for names, carry_out in GROUPS if name in names)


BOXES = "dead align from_element from_array from_boxed_slice try_from_boxed_slice not clone vector vec collect iter left own_nth words size".split()


def box_call(plain, name, rng):
    """A call of a box, which has `held` words."""
    bits = plain.bits
    if name in LOOKS:
        return look(plain, name, rng)
    if name in WRITES:
        return write(plain, name, rng)
    if name in ("dead", "align"):
        return memory(plain, name, rng)
    answer = ""
    if name == "words" and not (plain.known() and plain.held == len(plain.words)):
        name = "size"
    if name == "own_nth":
        a, b = rng.randint(0, plain.n + 1), rng.randint(0, plain.n + 1)
        rest = bits[a + 1 :]
        name, answer = f"own_nth {a} {b}", bit(bits, a) + bit(rest[::-1], b) + shown(rest[: max(len(rest) - b - 1, 0)])
        plain.start([])
    elif name in ("iter", "left", "words", "size"):
        inner = bits[1:-1]
        flipped = turns([1 - b for b in inner])
        ends = bit(bits, 0) + bit(bits[1:], len(bits) - 2)
        answer = {
            "iter": turns(bits),
            "left": ends + shown(inner) + flipped * 2,
            "words": plain.raw() if name == "words" else "",
            "size": f"{plain.held // plain.size},",
        }[name]
        plain.start([])
    elif name == "collect":
        plain.head = 0
        plain.become(bits, False)
    elif name.startswith(("from", "try")):
        name = whole_words(plain, name, rng)
    elif name in ("not", "clone"):
        name, answer = remake(plain, name, rng)
    if name != "not":
        plain.held = len(plain.words)
    return name, answer


ARRAYS = "not zero default inner iter left by_value".split()


def array_call(plain, name, rng):
    if name in ("zero", "default"):
        plain.start([0] * plain.n)
        return name, ""
    if name in ("iter", "left"):
        inner = plain.bits[1:-1]
        ends = bit(plain.bits, 0) + bit(plain.bits[1:], plain.n - 2)
        return name, turns(plain.bits) if name == "iter" else ends + shown(inner) + turns([1 - b for b in inner]) * 2
    if name == "inner":
        return name, ""
    if name == "by_value":
        return name, text(plain.bits)
    return vector_call(plain, name, rng)


def groups_of(rng, names, size):
    """The names in groups, in any order; what moves the head, and then what leaves no list, comes last in its group."""
    names = rng.sample(names, len(names))
    for k in range(0, len(names), size):
        yield sorted(names[k : k + size], key=lambda name: 2 * (name in EMPTIES) + (name in MOVES))


def run(plain, names, call_of, rng, calls, answers):
    """Makes calls, some on a window that is lent, and shows the words behind most of those that write."""
    for name in names:
        can_be_lent = name in WRITES and name not in WORDS_WRITTEN or name in LOOKS and name not in OWN_LOOKS
        lent = rng.choice(("lent ", "window ", "", "", "", "")) if can_be_lent else ""
        call, answer = call_of(plain, name, rng)
        calls.append(lent + call)
        answers.append(answer)
        if not plain.known() and rng.randrange(3) == 0:
            one = rng.getrandbits(1)
            plain.dead(one)
            calls.append(f"dead {one}")
        if plain.known() and name not in LOOKS and rng.randrange(3) > 0:
            calls.append("raw")
            answers.append(plain.raw())


def window(rng, word, order, head, n):
    """A memory, and a list in it from a head on."""
    size, at = WORDS[word], ORDERS[order]
    words = [rng.getrandbits(size) for _ in range((head + n + size - 1) // size + rng.randint(0, 1))]
    whole = [w >> at(size, i) & 1 for w in words for i in range(size)]
    return "".join(f"{w:0{size // 4}x}" for w in words) or "-", whole[head : head + n]


def past(plain, rng, calls, answers):
    """A vector as it was made, or with dead bits set, or one that was longer for a while and holds words behind."""
    how, bits = rng.randrange(4), plain.bits
    if how == 1:
        plain.dead(1)
        calls.append("dead 1")
    if how > 1:
        longer = plain.n + rng.randint(1, 40)
        plain.become(bits + [1] * (longer - plain.n))
        held = plain.raw()
        plain.become(bits)
        calls += [f"resize {longer} 1", f"truncate {plain.n}"]
        if how == 3 and rng.randrange(8) == 0:
            calls.append("held")
            answers.append(held)
            plain.start([])


def vectors(rng):
    for word in WORDS:
        heads = range(8) if word == "u8" else (0, WORDS[word] - 1)
        for order in SWEPT:
            for head in heads:
                for _ in range(2 if word == "u8" else 1):
                    for names in groups_of(rng, LOOKS + WRITES + EDITS, 6):
                        memory, bits = window(rng, word, order, head, rng.choice((0, 1, 2, 5, 8, 9, 13, 20, 40)))
                        plain, calls, answers = Plain(word, order, head, bits), [], []
                        given = f"{word} {order} {memory} {head} {len(bits)}"
                        past(plain, rng, calls, answers)
                        run(plain, names, vector_call, rng, calls, answers)
                        yield f"{given} {' ; '.join(calls)}", f"{''.join(answers)}{shown(plain.bits)} {plain.head} {len(plain.words) // plain.size}"


def boxes(rng):
    for word in WORDS:
        heads = range(8) if word == "u8" else (0, WORDS[word] - 1)
        for order in SWEPT:
            for head in heads:
                for names in groups_of(rng, LOOKS + IN_PLACE + BOXES, 5):
                    memory, bits = window(rng, word, order, head, rng.choice((0, 1, 2, 5, 8, 9, 13, 20)))
                    plain, calls, answers = Plain(word, order, head, bits), [], []
                    plain.held = len(plain.words)
                    run(plain, names, box_call, rng, calls, answers)
                    yield (
                        f"box {word} {order} {memory} {head} {len(bits)} {' ; '.join(calls)}",
                        f"{''.join(answers)}{shown(plain.bits)} {plain.head} {len(plain.words) // plain.size}",
                    )


def arrays(rng):
    for kind, count in (("word", 1), ("array1", 1), ("array2", 2), ("array3", 3)):
        for word in WORDS:
            for order in SWEPT:
                for names in groups_of(rng, LOOKS + IN_PLACE + ARRAYS, 7):
                    n = count * WORDS[word]
                    memory, bits = window(rng, word, order, 0, n)
                    plain, calls, answers = Plain(word, order, 0, bits), [], []
                    run(plain, names, array_call, rng, calls, answers)
                    yield f"{kind} {word} {order} {memory} 0 {n} {' ; '.join(calls)}", f"{''.join(answers)}{shown(plain.bits)} {count}"


def results(word, order, how, left, left_head, right, right_head):
    """What an operator makes of vectors, boxes, windows and arrays, with ones and with zeros beside the list."""
    size = WORDS[word]
    new = combined(left, right, how)
    ones, zeros = Plain(word, order, left_head, new), Plain(word, order, left_head, new)
    ones.dead(1)
    both = ones.raw() + zeros.raw()
    is_word = len(right) == size and right_head == 0
    answer = (both + shown(new)) * 2 + both + (ones.raw() if is_word else "")
    for lefts, rights in ((2, 2), (2, 1), (1, 3)):
        if len(left) == lefts * size and left_head == 0:
            answer += shown(new) * (2 if len(right) == rights * size and right_head == 0 else 1)
    return answer


def operators(rng):
    for word, size in WORDS.items():
        for order in ("lsb0", "msb0"):
            for head in range(8) if word == "u8" else (0, 5, size - 1):
                for how in ("and", "or", "xor", "copy"):
                    for _ in range(4):
                        memory, whole = window(rng, word, order, 0, 6 * size)
                        n = rng.choice((0, 1, 5, 8, 9, 13, size, 2 * size))
                        place = rng.randint(0, len(whole) // 2)
                        m = rng.choice((n, n, size, 2 * size, 3 * size, 0, 4, 6, 9))
                        if m % size == 0 and rng.getrandbits(1):
                            place -= place % size
                        left, right = whole[head : head + n], whole[place : place + m]
                        if how == "copy":
                            ones = Plain(word, order, head, right)
                            ones.dead(1)
                            answer = ones.raw() + Plain(word, order, head, right).raw() if n == m else "refused"
                        else:
                            answer = results(word, order, how, left, head, right, place % size)
                        yield f"{how} {word} {order} {memory} {head} {n} {place} {m}", answer


def main():
    rng = random.Random(5)
    cases = ROWS + [case for kind in (vectors, boxes, arrays, operators) for case in kind(rng)]
    with open("stdin", "w") as file:
        file.write("".join(f"{given}\n" for given, _ in cases))
    with open("stdout", "w") as file:
        file.write("".join(f"{wanted}\n" for _, wanted in cases))


if __name__ == "__main__":
    main()
