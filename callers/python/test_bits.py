"""Each call beside the same on a plain list of bools, and what bad arguments raise."""

import array
import os
import random
import unittest
from unittest import mock

from bits import Bits, run_script

HERE = os.path.dirname(os.path.abspath(__file__))
EXAMPLES = os.path.join(HERE, "..", "..", "examples")
STORAGES = [(code, order) for code in "BQ" for order in ("lsb0", "msb0")]
LENGTHS = [*range(0, 20), 31, 32, 33, 63, 64, 65, 66, 127, 128, 130]


def words_for(code, bits, chance):
    width = {"B": 8, "Q": 64}[code]
    way = chance.randrange(3)
    word = lambda: chance.getrandbits(width)
    few = lambda: word() & word() & word() & word()
    many = lambda: word() | word() | word() | word()
    return array.array(code, [(word, few, many)[way]() for _ in range(bits // width + 2)])


def list_of(words, order):
    width = words.itemsize * 8
    digits = range(width) if order == "lsb0" else range(width - 1, -1, -1)
    return [word >> digit & 1 == 1 for word in words for digit in digits]


def number_of(bits, order):
    digits = bits if order == "lsb0" else bits[::-1]
    return sum(1 << place for place, digit in enumerate(digits) if digit)


def signed_of(bits, order):
    number = number_of(bits, order)
    return number - (1 << len(bits)) if number >> len(bits) - 1 else number


def digits_of(number, length, order):
    digits = [number >> place & 1 == 1 for place in range(length)]
    return digits if order == "lsb0" else digits[::-1]


def text_of(name):
    with open(name) as file:
        return file.read()


def index_of(bits, bit, last=False):
    places = [place for place, it in enumerate(bits) if it == bit]
    return places[-last] if places else None


class Calls(unittest.TestCase):
    def windows(self):
        """Windows at each head, beside other ones: words, head, length, other words and head, order."""
        chance = random.Random(1)
        for code, order in STORAGES:
            heads = range(8) if code == "B" else (0, 1, 13, 31, 63)
            for head in heads:
                for length in LENGTHS:
                    other_head = chance.choice(heads)
                    words = words_for(code, head + length, chance)
                    other = words_for(code, other_head + length, chance)
                    with self.subTest(code=code, order=order, head=head, length=length):
                        yield words, head, length, other, other_head, order, chance

    def test_what_reads(self):
        for words, head, length, _, _, order, _ in self.windows():
            window, bits = Bits(words, order)[head : head + length], list_of(words, order)[head : head + length]
            self.assertEqual(len(window), length)
            self.assertEqual(list(window), bits)
            self.assertEqual(str(window), "".join("01"[bit] for bit in bits))
            self.assertEqual(window.count_ones(), sum(bits))
            self.assertEqual(window.first_one(), index_of(bits, True))
            self.assertEqual(window.last_one(), index_of(bits, True, last=True))
            self.assertEqual(window.first_zero(), index_of(bits, False))
            self.assertEqual(window.last_zero(), index_of(bits, False, last=True))
            self.assertIs(window.any(), any(bits))
            self.assertIs(window.all(), all(bits))
            if 1 <= length <= 64:
                self.assertEqual(window.load(), number_of(bits, order))
                self.assertEqual(window.load_signed(), signed_of(bits, order))
            else:
                self.assertRaises(ValueError, window.load)
                self.assertRaises(ValueError, window.load_signed)

    def test_what_compares(self):
        for words, head, length, other, other_head, order, chance in self.windows():
            lengths = chance.choice([(length, length), (length, length // 2)])
            one, bits = Bits(words, order)[head : head + lengths[0]], list_of(words, order)[head : head + lengths[0]]
            end = other_head + lengths[1]
            if chance.randrange(2):
                other, other_head, end = words[:], head, head + lengths[1]
            two, others = Bits(other, order)[other_head:end], list_of(other, order)[other_head:end]
            self.assertIs(one == two, bits == others)
            self.assertIs(one != two, bits != others)
            self.assertIs(one < two, bits < others)
            self.assertIs(one <= two, bits <= others)
            self.assertIs(one > two, bits > others)
            self.assertIs(one >= two, bits >= others)

    def changed(self, words, head, length, order, change, wanted):
        """Makes a change to a window and to the list, and compares the whole list."""
        words, bits = words[:], list_of(words, order)
        change(Bits(words, order)[head : head + length])
        bits[head : head + length] = wanted(bits[head : head + length])
        self.assertEqual(list_of(words, order), bits)

    def test_what_changes(self):
        for words, head, length, _, _, order, chance in self.windows():
            bit, by = chance.choice([False, True]), chance.randrange(length + 1)
            here = words, head, length, order
            self.changed(*here, lambda it: it.fill(bit), lambda bits: [bit] * length)
            self.changed(*here, lambda it: it.invert(), lambda bits: [not it for it in bits])
            self.changed(*here, lambda it: it.reverse(), lambda bits: bits[::-1])
            self.changed(*here, lambda it: it.rotate_left(by), lambda bits: bits[by:] + bits[:by])
            self.changed(*here, lambda it: it.rotate_right(by), lambda bits: bits[length - by :] + bits[: length - by])
            source, target = chance.randrange(length + 1), chance.randrange(length + 1)
            some = chance.randrange(length - max(source, target) + 1)
            part = slice(source, source + some)
            moved = lambda bits: bits[:target] + bits[part] + bits[target + some :]
            self.changed(*here, lambda it: it.move(source, target, some), moved)
            self.changed(*here, lambda it: it.__setitem__(slice(target, target + some), it[part]), moved)
            if length > 0:
                index = chance.randrange(-length, length)
                put = lambda bits: [bit if place == index % length else it for place, it in enumerate(bits)]
                self.changed(*here, lambda it: it.__setitem__(index, bit), put)

    def test_what_stores(self):
        for words, head, length, _, _, order, chance in self.windows():
            if not 1 <= length <= 64:
                window = Bits(words, order)[head : head + length]
                self.assertRaises(ValueError, window.store, 0)
                self.assertRaises(ValueError, window.store_signed, 0)
                continue
            value = chance.getrandbits(length)
            signed = value - (1 << length - 1)
            here = words, head, length, order
            self.changed(*here, lambda it: it.store(value), lambda bits: digits_of(value, length, order))
            self.changed(*here, lambda it: it.store_signed(signed), lambda bits: digits_of(signed, length, order))
            window = Bits(words, order)[head : head + length]
            for call, wrong in [(window.store, -1), (window.store, 1 << length)]:
                self.assertRaises(OverflowError, call, wrong)
            for wrong in (1 << length - 1, -(1 << length - 1) - 1):
                self.assertRaises(OverflowError, window.store_signed, wrong)

    def test_what_combines(self):
        for words, head, length, other, other_head, order, _ in self.windows():
            two = Bits(other, order)[other_head : other_head + length]
            others = list_of(other, order)[other_head : other_head + length]
            ways = {
                "copy": lambda bit, with_: with_,
                "__iand__": lambda bit, with_: bit and with_,
                "__ior__": lambda bit, with_: bit or with_,
                "__ixor__": lambda bit, with_: bit != with_,
            }
            for name, way in ways.items():
                wanted = lambda bits: [way(bit, with_) for bit, with_ in zip(bits, others)]
                self.changed(words, head, length, order, lambda it: getattr(it, name)(two), wanted)
            self.assertEqual(list_of(other, order)[other_head : other_head + length], others)

    def test_windows_that_overlap_are_combined_as_they_were(self):
        for code, order in STORAGES:
            words = words_for(code, 300, random.Random(2))
            bits, views = list_of(words, order), memoryview(words)
            for name, way in {"copy": lambda a, b: b, "__ixor__": lambda a, b: a != b}.items():
                for window in (Bits(words, order)[7:107], Bits(views[0:], order)[7:107], Bits(views[:-1], order)[7:107]):
                    changed = words[:]
                    getattr(window, name)(Bits(words, order)[30:130])
                    wanted = bits[:7] + [way(a, b) for a, b in zip(bits[7:107], bits[30:130])] + bits[107:]
                    self.assertEqual(list_of(words, order), wanted)
                    words[:] = changed


class Arguments(unittest.TestCase):
    def test_words(self):
        arrays = array.array("B", bytes(8)), array.array("Q", [0]), array.array("L", [0])
        for words in (bytearray(8), memoryview(bytearray(8)), *arrays):
            bits = Bits(words)
            bits[1] = True
            self.assertEqual((len(bits), bits.first_one()), (64, 1))
        for words in (b"", bytearray(), array.array("Q"), array.array("B")):
            self.assertEqual((len(Bits(words)), Bits(words).all(), Bits(words).any()), (0, True, False))
        others = [array.array(code, [0]) for code in "bIqd"]
        for words in (None, 7, "text", [0, 1], *others, memoryview(bytes(8)), memoryview(bytearray(8))[::2]):
            self.assertRaises(TypeError, Bits, words)
        self.assertRaises(ValueError, Bits, memoryview(bytearray(17))[1:9].cast("Q"))
        self.assertRaises(ValueError, Bits, bytearray(1), "hilo")
        self.assertRaises(TypeError, Bits, bytearray(1), 0)

    def test_bytes_are_only_read(self):
        bits = Bits(b"\x06\xff")
        self.assertEqual((bits.count_ones(), bits.last_zero()), (10, 7))
        for change in (bits.invert, bits.reverse, lambda: bits.fill(True), lambda: bits.store(0)):
            self.assertRaises(TypeError, change)
        self.assertRaises(TypeError, bits.copy, bits)
        with self.assertRaises(TypeError):
            bits[0] = True
        self.assertEqual(bits.count_ones(), 10)

    def test_words_keep_their_length_while_bits_are_there(self):
        words = bytearray(2)
        bits = Bits(words)
        self.assertRaises(BufferError, words.append, 0)
        del bits
        words.append(0)

    def test_indices_and_slices(self):
        words = bytearray([0x5A, 0x0F])
        bits, plain = Bits(words), list_of(array.array("B", words), "lsb0")
        for start in (None, *range(-20, 21)):
            self.assertEqual(list(bits[start:]), plain[start:])
            for end in (None, *range(-20, 21)):
                self.assertEqual(list(bits[start:end]), plain[start:end])
        for index in (16, -17, 1 << 70):
            self.assertRaises(IndexError, lambda: bits[index])
            self.assertRaises(IndexError, bits.__setitem__, index, True)
        for index in ("0", 1.0, None):
            self.assertRaises(TypeError, lambda: bits[index])
        self.assertRaises(ValueError, lambda: bits[::2])
        self.assertRaises(ValueError, bits.__setitem__, 0, 2)
        self.assertRaises(TypeError, bits.__setitem__, 0, "1")
        self.assertRaises(ValueError, bits.fill, -1)
        self.assertEqual(list(bits), plain)

    def test_distances_and_other_bits(self):
        words = bytearray([0x5A, 0x0F])
        bits = Bits(words)
        for by in (-1, 17, 1 << 70):
            self.assertRaises(ValueError, bits.rotate_left, by)
            self.assertRaises(ValueError, bits.rotate_right, by)
        beyond = [(0, 0, 17), (10, 0, 7), (0, 10, 7), (17, 0, 0), (0, 1 << 70, 0)]
        for places in [*beyond, (-1, 0, 1), (0, -1, 1), (0, 0, -1)]:
            self.assertRaises(IndexError, bits.move, *places)
        for other in (Bits(words, "msb0"), Bits(array.array("Q", [0]))[:16], [True] * 16, None):
            self.assertRaises(TypeError, bits.copy, other)
            self.assertRaises(TypeError, bits.__ior__, other)
            self.assertFalse(bits == other)
            self.assertTrue(bits != other)
        self.assertRaises(TypeError, lambda: bits < Bits(words, "msb0"))
        self.assertRaises(ValueError, bits.copy, bits[1:])
        self.assertRaises(ValueError, bits.__setitem__, slice(0, 4), bits[0:5])
        self.assertRaises(TypeError, hash, bits)
        self.assertRaises(TypeError, bits.store, "1")
        self.assertEqual(words, bytearray([0x5A, 0x0F]))


class Scripts(unittest.TestCase):
    def test_examples(self):
        names = sorted(name for name in os.listdir(EXAMPLES) if name.endswith(".script"))
        self.assertGreaterEqual(len(names), 10)
        for name in names:
            script, answer = (text_of(os.path.join(EXAMPLES, name[:-6] + kind)) for kind in ("script", "answer"))
            for word_bits in (8, 16, 32, 64, 128):
                for order in ("lsb0", "msb0", "hilo"):
                    self.assertEqual(run_script(script, word_bits, order), answer)
            self.assertEqual(run_script(script.encode()), answer.encode())

    def test_an_answer_longer_than_the_first_room(self):
        most = "18446744073709551615"
        script = f"low a:u64 b:u64 c:u64\ninsert 0 {most} {most} 1\n" + "get 0\n" * 2000
        self.assertTrue(run_script(script) == "ok\nok\n" + f"{most} {most} 1\n" * 2000)

    def test_refused_memory(self):
        with mock.patch("bits._library") as library:
            library.bit_table_run.return_value = 5
            self.assertRaises(MemoryError, run_script, "")

    def test_arguments(self):
        self.assertEqual(run_script(""), "")
        self.assertEqual(run_script(bytearray(b"")), b"")
        for word_bits in (0, 1, 24, 256, -8, 1 << 70):
            self.assertRaises(ValueError, run_script, "", word_bits)
        self.assertRaises(ValueError, run_script, "", 8, "up")
        for wrong in ((None,), (7,), ("", "8"), ("", 8.0), ("", 8, 0)):
            self.assertRaises(TypeError, run_script, *wrong)


if __name__ == "__main__":
    unittest.main()
