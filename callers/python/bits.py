"""Lists of bits that lie in words of memory, read and written by windows: the library libbits by ctypes.

>>> words = bytearray([0x12, 0x34, 0x56])
>>> bits = Bits(words, "msb0")
>>> hex(bits[4:20].load())
'0x2345'
>>> bits[4:8].fill(True)
>>> words.hex()
'1f3456'
>>> run_script("low a:u3 b:u5\\ninsert 0 5 17\\nimage\\n")
'ok\\nok\\n1 8d\\n'

The library is the file that the environment variable BITS_LIB names, else libbits.so beside this module, else that in
out/ of the repository, where ./bits-lib makes it. Its code is proved right; this module over it is only tested.
"""

import array
import ctypes
import operator
import os

__all__ = ["Bits", "run_script"]

_OK, _NONE, _NO_ROOM, _NO_MEMORY = 0, 2, 4, 5
_SIZE, _U8, _U32, _U64, _I32, _I64 = (
    ctypes.c_size_t, ctypes.c_uint8, ctypes.c_uint32, ctypes.c_uint64, ctypes.c_int32, ctypes.c_int64
)
_WINDOW = [_SIZE, _SIZE]
# Each call: what it takes between its words and its answer, and the type of what it answers. "other" is a memory.
_CALLS = {
    "get": ([_SIZE], _U8),
    "set": ([_SIZE, ctypes.c_bool], None),
    **{name: (_WINDOW, _SIZE) for name in ("count_ones", "first_one", "last_one", "first_zero", "last_zero")},
    **{name: (_WINDOW, _U8) for name in ("any", "all")},
    "equal": ([*_WINDOW, "other", *_WINDOW], _U8),
    "compare": ([*_WINDOW, "other", *_WINDOW], _I32),
    "load": (_WINDOW, _U64),
    "load_signed": (_WINDOW, _I64),
    "store": ([*_WINDOW, _U64], None),
    "store_signed": ([*_WINDOW, _I64], None),
    "fill": ([*_WINDOW, ctypes.c_bool], None),
    **{name: (_WINDOW, None) for name in ("not", "reverse")},
    **{name: ([*_WINDOW, _SIZE], None) for name in ("rotate_left", "rotate_right")},
    "move": ([_SIZE, _SIZE, _SIZE], None),
    **{name: ([*_WINDOW, "other", _SIZE], None) for name in ("copy", "and", "or", "xor")},
}
_ORDERS = {"lsb0": 0, "msb0": 1, "hilo": 2}
_WORDS = {"B": ("u8", _U8), "Q": ("u64", _U64), "L": ("u64", _U64)}


def _open():
    here = os.path.dirname(os.path.abspath(__file__))
    places = [os.path.join(here, "libbits.so"), os.path.join(here, "..", "..", "out", "libbits.so")]
    named = os.environ.get("BITS_LIB")
    for place in [named] if named else places:
        if os.path.isfile(place):
            return ctypes.CDLL(os.path.abspath(place))
    where = named or " or ".join(map(os.path.normpath, places))
    raise ImportError(f"libbits.so is not there ({where}): run ./bits-lib, or let BITS_LIB name the file")


_library = _open()
_library.bit_table_run.restype = _U32
_library.bit_table_run.argtypes = [_U32, _U32, ctypes.c_char_p, _SIZE, ctypes.c_void_p, _SIZE, ctypes.POINTER(_SIZE)]


def _calls_of(word, order):
    """The 25 calls of one storage, with the types of their arguments."""
    calls = {}
    for name, (given, answer) in _CALLS.items():
        call = getattr(_library, f"bits_{word}_{order}_{name}")
        taken = [ctypes.c_void_p, _SIZE]
        for kind in given:
            taken += [ctypes.c_void_p, _SIZE] if kind == "other" else [kind]
        call.argtypes = taken + ([ctypes.POINTER(answer)] if answer else [])
        call.restype = _U32
        calls[name] = call
    return calls


_STORAGES = {(word, order): _calls_of(word, order) for word in ("u8", "u64") for order in ("lsb0", "msb0")}


class _Memory:
    """Words of one type in one order: where they lie, and the calls on them. It keeps what they lie in alive."""

    def __init__(self, words, order):
        if not isinstance(order, str):
            raise TypeError(f"an order is a text, not {type(order).__name__}")
        if order not in ("lsb0", "msb0"):
            raise ValueError(f"an order is 'lsb0' or 'msb0', not {order!r}")
        with memoryview(words) as view:
            if view.format not in _WORDS or view.itemsize not in (1, 8) or view.ndim != 1 or not view.c_contiguous:
                raise TypeError(f"words are those of bytes, a bytearray or an array of 'B' or 'Q', not {view.format!r}")
            if view.readonly and not isinstance(words, bytes):
                raise TypeError(f"of what is only to be read, bytes are taken, not {type(words).__name__}")
            self.word, kind = _WORDS[view.format]
            self.count, self.bits, self.is_read_only = len(view), view.nbytes * 8, view.readonly
        self.order, self.calls = order, _STORAGES[self.word, order]
        if self.count == 0:
            self.kept = kind()
            self.at = ctypes.addressof(self.kept)
        elif self.is_read_only:
            self.kept = ctypes.c_char_p(words)
            self.at = ctypes.cast(self.kept, ctypes.c_void_p).value
        else:
            # An array over the words themselves, which cannot change their length while it is there.
            self.kept = (kind * self.count).from_buffer(words)
            self.at = ctypes.addressof(self.kept)
        if self.at % ctypes.sizeof(kind) != 0:
            raise ValueError("words of 64 bits lie at an address that 8 does not divide")
        self.end = self.at + self.bits // 8

    def is_like(self, other):
        return (self.word, self.order) == (other.word, other.order)

    def is_same(self, other):
        return (self.at, self.count) == (other.at, other.count)

    def overlaps(self, other):
        return self.at < other.end and other.at < self.end

    def copy(self):
        """The same bits in words of their own."""
        words = array.array({"u8": "B", "u64": "Q"}[self.word], ctypes.string_at(self.at, self.bits // 8))
        return _Memory(words, self.order)


def _done(status, name):
    if status != _OK:
        raise RuntimeError(f"{name} ended with status {status}")


class Bits:
    """The bits of words, or a window of them: `Bits(words, order="lsb0")`.

    `words` is a bytearray, an array of "B" or "Q", or another writable buffer of such words; or bytes, to be read alone.
    While a window is there, they keep their length. In a word bit 0 is the lowest digit under "lsb0", and the highest
    under "msb0". A slice is a window over the same words, and so is a slice of a slice:

    >>> words = bytearray(2)
    >>> bits = Bits(words)
    >>> bits[3] = True
    >>> bits[6:12].fill(True)
    >>> str(bits), words.hex()
    ('0001001111110000', 'c80f')
    >>> bits[6:12][1:3].invert()
    >>> str(bits), bits.count_ones(), bits.first_one(), bits.last_one()
    ('0001001001110000', 5, 3, 11)
    >>> bits[-16], bits[16:].all(), bits[16:].any(), bits[:3].first_one()
    (False, True, False, None)

    Windows of words of one type in one order are compared as lists of bits, copied, and combined by &=, |= and ^=:

    >>> bits[0:4] == bits[6:10], bits[0:4] < bits[4:8], bits[0:2] < bits[0:3]
    (False, True, True)
    >>> bits[0:4] = bits[6:10]
    >>> bits[0:4] ^= bits[8:12]
    >>> str(bits)
    '1110001001110000'
    """

    __slots__ = ("_memory", "_start", "_len")
    __hash__ = None

    def __init__(self, words, order="lsb0"):
        self._memory = _Memory(words, order)
        self._start, self._len = 0, self._memory.bits

    def _window(self, start, length):
        window = object.__new__(Bits)
        window._memory, window._start, window._len = self._memory, self._start + start, length
        return window

    def _ask(self, name, *given):
        """What a call answers, or None where there is no such bit."""
        memory, kind = self._memory, _CALLS[name][1]
        answer = kind()
        status = memory.calls[name](memory.at, memory.count, *given, ctypes.byref(answer))
        if status == _NONE:
            return None
        _done(status, name)
        return answer.value

    def _change(self, name, *given):
        memory = self._memory
        if memory.is_read_only:
            raise TypeError("these words are only to be read")
        _done(memory.calls[name](memory.at, memory.count, *given), name)

    def _other(self, other):
        """The other window, where it is one over such words."""
        if not isinstance(other, Bits):
            raise TypeError(f"bits are wanted, not {type(other).__name__}")
        if not self._memory.is_like(other._memory):
            raise TypeError(f"bits of {self._memory.word} words, {self._memory.order}, are wanted")
        return other

    @property
    def order(self):
        """"lsb0" or "msb0"."""
        return self._memory.order

    def __len__(self):
        return self._len

    def __str__(self):
        return "".join("01"[bit] for bit in self)

    def __repr__(self):
        return f"<{self._len} bits of {self._memory.word} words, {self._memory.order}, from bit {self._start} on>"

    def _index(self, index):
        index = operator.index(index)
        if not -self._len <= index < self._len:
            raise IndexError(f"there is no bit {index}")
        return self._start + index % self._len

    def __getitem__(self, key):
        """A bit as a bool, or a window by a slice without a step."""
        if not isinstance(key, slice):
            return bool(self._ask("get", self._index(key)))
        start, end, step = key.indices(self._len)
        if step != 1:
            raise ValueError("a window has no step")
        return self._window(start, max(end - start, 0))

    def __setitem__(self, key, value):
        """Writes a bit, or copies a window over the one that a slice is."""
        if isinstance(key, slice):
            self[key].copy(value)
        else:
            self._change("set", self._index(key), _bit(value))

    def __iter__(self):
        return (self[index] for index in range(self._len))

    def count_ones(self):
        """How many bits are 1."""
        return self._ask("count_ones", self._start, self._len)

    def first_one(self):
        """The index of the first 1, or None."""
        return self._ask("first_one", self._start, self._len)

    def last_one(self):
        """The index of the last 1, or None."""
        return self._ask("last_one", self._start, self._len)

    def first_zero(self):
        """The index of the first 0, or None."""
        return self._ask("first_zero", self._start, self._len)

    def last_zero(self):
        """The index of the last 0, or None."""
        return self._ask("last_zero", self._start, self._len)

    def any(self):
        """Whether a bit is 1; of no bits, False."""
        return bool(self._ask("any", self._start, self._len))

    def all(self):
        """Whether each bit is 1; of no bits, True."""
        return bool(self._ask("all", self._start, self._len))

    def _with(self, name, other):
        with_ = other._memory
        return self._ask(name, self._start, self._len, with_.at, with_.count, other._start, other._len)

    def _order_by(self, other, is_so):
        if not isinstance(other, Bits) or not self._memory.is_like(other._memory):
            return NotImplemented
        return is_so(self._with("compare", other), 0)

    def __eq__(self, other):
        if not isinstance(other, Bits) or not self._memory.is_like(other._memory):
            return NotImplemented
        return bool(self._with("equal", other))

    def __lt__(self, other):
        return self._order_by(other, operator.lt)

    def __le__(self, other):
        return self._order_by(other, operator.le)

    def __gt__(self, other):
        return self._order_by(other, operator.gt)

    def __ge__(self, other):
        return self._order_by(other, operator.ge)

    def _number_bits(self):
        if not 1 <= self._len <= 64:
            raise ValueError(f"a number of {self._len} bits: it may have 1 to 64")
        return self._len

    def load(self):
        """The window as a whole number without sign: its first bit is the lowest digit under "lsb0", else the highest.

        ValueError where it has no bits, or more than 64.
        """
        return self._ask("load", self._start, self._number_bits())

    def load_signed(self):
        """The window as a whole number in two's complement, its bits in the order of `load`.

        ValueError where it has no bits, or more than 64.
        """
        return self._ask("load_signed", self._start, self._number_bits())

    def store(self, value):
        """Writes a whole number from 0 on over the window, in the order of `load`.

        ValueError where it has no bits, or more than 64; OverflowError where the number has more digits.
        """
        self._store("store", value, 0, 1 << self._number_bits())

    def store_signed(self, value):
        """Writes a whole number in two's complement over the window, in the order of `load`.

        ValueError where it has no bits, or more than 64; OverflowError where the number has more digits.
        """
        half = 1 << self._number_bits() - 1
        self._store("store_signed", value, -half, half)

    def _store(self, name, value, least, end):
        value = operator.index(value)
        if not least <= value < end:
            raise OverflowError(f"{value} has more than {self._len} digits")
        self._change(name, self._start, self._len, value)

    def fill(self, bit):
        """Makes each bit `bit`."""
        self._change("fill", self._start, self._len, _bit(bit))

    def invert(self):
        """Turns each bit: 0 becomes 1, 1 becomes 0."""
        self._change("not", self._start, self._len)

    def reverse(self):
        """Puts the bits in reverse."""
        self._change("reverse", self._start, self._len)

    def rotate_left(self, by):
        """Turns the window: the first `by` bits become the last. ValueError where it has fewer."""
        self._change("rotate_left", self._start, self._len, self._distance(by))

    def rotate_right(self, by):
        """Turns the window: the last `by` bits become the first. ValueError where it has fewer."""
        self._change("rotate_right", self._start, self._len, self._distance(by))

    def _distance(self, by):
        by = operator.index(by)
        if not 0 <= by <= self._len:
            raise ValueError(f"a turn by {by} of {self._len} bits")
        return by

    def move(self, source, target, length):
        """Writes `length` bits from index `source` on, as they were, over those from `target` on; they may overlap.

        IndexError where they do not lie in the window.
        """
        source, target, length = map(operator.index, (source, target, length))
        if length < 0 or not all(0 <= place <= self._len - length for place in (source, target)):
            raise IndexError(f"{length} bits from {source} and from {target} on do not lie in {self._len}")
        self._change("move", self._start + source, self._start + target, length)

    def copy(self, other):
        """Writes the bits of another window over those of this one, as they were. ValueError where the lengths differ."""
        self._combine("copy", other)

    def __iand__(self, other):
        return self._combine("and", other)

    def __ior__(self, other):
        return self._combine("or", other)

    def __ixor__(self, other):
        return self._combine("xor", other)

    def _combine(self, name, other):
        other = self._other(other)
        if len(other) != self._len:
            raise ValueError(f"{len(other)} bits do not go with {self._len}")
        memory, with_ = self._memory, other._memory
        if name == "copy" and memory.is_same(with_):
            self._change("move", other._start, self._start, self._len)
            return self
        if memory.overlaps(with_):
            # The library wants memories apart.
            with_ = with_.copy()
        self._change(name, self._start, self._len, with_.at, with_.count, other._start)
        return self


def _bit(value):
    value = operator.index(value)
    if value not in (0, 1):
        raise ValueError(f"a bit is 0 or 1, not {value}")
    return bool(value)


def run_script(script, word_bits=64, order="lsb0"):
    """The answer to a script of the table of packed rows, run over an empty table: text for a text, bytes for bytes.

    The table lies in words of 8, 16, 32, 64 or 128 bits, in the order "lsb0", "msb0" or "hilo"; these change no answer.
    ValueError for another word or order, MemoryError where memory was refused.
    """
    if isinstance(script, str):
        return run_script(script.encode(), word_bits, order).decode()
    if not isinstance(script, (bytes, bytearray)):
        raise TypeError(f"a script is text or bytes, not {type(script).__name__}")
    if not isinstance(order, str):
        raise TypeError(f"an order is a text, not {type(order).__name__}")
    if operator.index(word_bits) not in (8, 16, 32, 64, 128) or order not in _ORDERS:
        raise ValueError(f"no table lies in words of {word_bits} bits in the order {order!r}")
    script, room = bytes(script), max(4096, 2 * len(script))
    while True:
        answer, written = ctypes.create_string_buffer(room), _SIZE()
        status = _library.bit_table_run(
            word_bits, _ORDERS[order], script, len(script), answer, room, ctypes.byref(written)
        )
        if status == _NO_MEMORY:
            raise MemoryError(f"memory was refused after {written.value} bytes of the answer")
        if status != _NO_ROOM:
            _done(status, "bit_table_run")
            return answer.raw[: written.value]
        room *= 2
