"""A plain table, for the answers of the cases: a list of rows, each its numbers and its letters, edited line by line. It
uses nothing of the crates."""

import re
import sys

sys.set_int_max_str_digits(0)

MOST_BITS = 2305843009213693951
MOST_ROW_BITS = 1024
LETTERS = "abcdefghijklmnopqrstuvwxyz"


class Refused(Exception):
    """A line is refused, for the cause that is the argument."""


def want(holds, cause):
    if not holds:
        raise Refused(cause)


# ---- words


def words(line):
    return [word for word in re.split(rb"[ \t\r]", line) if word]


def is_digits(word):
    return re.fullmatch(rb"[0-9]+", word) is not None


def count(word):
    want(is_digits(word), "form")
    return int(word)


def value(word):
    want(is_digits(word[1:] if word[:1] == b"-" else word), "form")
    return int(word)


def name(word):
    want(re.fullmatch(rb"[a-z][a-z0-9_]{0,15}", word), "form")
    return word.decode()


def letter(word):
    want(re.fullmatch(rb"[a-z]", word), "form")
    return word.decode()


def image_bytes(word):
    want(re.fullmatch(rb"(?:[0-9a-fA-F]{2})*", word), "form")
    return bytes.fromhex(word.decode())


# ---- layouts


class Field:
    def __init__(self, name, width, signed):
        self.name, self.width, self.signed = name, width, signed

    def least(self):
        return -(2 ** (self.width - 1)) if self.signed else 0

    def greatest(self):
        return self.least() + 2**self.width - 1

    def takes(self, number):
        return self.least() <= number <= self.greatest()


class Layout:
    """The rule and the fields of a layout line; any other line is refused."""

    def __init__(self, line):
        rule, *fields = words(line) or [b""]
        want(rule in (b"low", b"high") and fields, "layout")
        self.high = rule == b"high"
        self.fields = []
        for word in fields:
            found = re.fullmatch(rb"([a-z][a-z0-9_]{0,15}):([ui])([1-9][0-9]*)", word)
            want(found and len(found[3]) <= 2 and int(found[3]) <= 64, "layout")
            self.fields.append(Field(found[1].decode(), int(found[3]), found[2] == b"i"))
        self.width = sum(field.width for field in self.fields)
        want(self.width <= MOST_ROW_BITS, "layout")
        want(len({field.name for field in self.fields}) == len(self.fields), "layout")

    def field(self, name):
        for index, field in enumerate(self.fields):
            if field.name == name:
                return index
        raise Refused("field")


# ---- digits


def digits(number, width, high):
    """The lowest digits of a number as a list, the lowest of them first or the highest."""
    lowest_first = [number >> k & 1 for k in range(width)]
    return lowest_first[::-1] if high else lowest_first


def number_of(bits, high, signed):
    """The number of a list of digits."""
    highest_first = bits if high else bits[::-1]
    number = int("".join(map(str, highest_first)), 2)
    return number - 2 ** len(bits) if signed and highest_first[0] else number


def packed(bits, high):
    """The bytes of a list that is cut by eight."""
    bits = bits + [0] * (-len(bits) % 8)
    return bytes(number_of(bits[k : k + 8], high, False) for k in range(0, len(bits), 8))


def touched(bits, place, length):
    """How many words of so many bits have one of the bits from a place on."""
    return len({k // bits for k in range(place, place + length)})


# ---- tables


class Row:
    def __init__(self, numbers, letters=()):
        self.numbers, self.letters = list(numbers), set(letters)

    def copied(self):
        return Row(self.numbers, self.letters)


def copied(rows):
    return [row.copied() for row in rows]


class Table:
    """Rows of a layout; `bits` is the width of its words, which only `moved` tells, `few` up to how many bits go bit by
    bit, one a step."""

    def __init__(self, layout, bits=64, few=0):
        self.layout, self.bits, self.few = layout, bits, few
        self.rows, self.kept, self.moved = [], None, [0] * 27

    def answer(self, line):
        """The answer to a line with a word: `ok`, what is asked for, or the cause."""
        command, *args = words(line)
        carry_out = COMMANDS.get(command)
        try:
            want(carry_out, "form")
            return carry_out(self, args) or "ok"
        except Refused as refused:
            return f"refused {refused}"

    def list_bits(self):
        return [bit for row in self.rows for bit in self.row_bits(row)]

    def row_bits(self, row):
        fields = zip(self.layout.fields, row.numbers)
        return [bit for field, number in fields for bit in digits(number, field.width, self.layout.high)]

    def range(self, first, last):
        p, q = count(first), count(last)
        return p, q, p <= q <= len(self.rows)

    def takes(self, field, number):
        want(self.layout.fields[field].takes(number), "value")

    def hold(self, rows):
        want(rows * self.layout.width <= MOST_BITS, "full")

    def move(self, place, rows, apart=None):
        """Some rows move to a place: each word that they touch there is written once, in each list but one."""
        self.moved = [touched(self.bits, place * self.layout.width, rows * self.layout.width)]
        self.moved += [0 if letter == apart else touched(self.bits, place, rows) for letter in LETTERS]

    def insert(self, args):
        want(len(args) == len(self.layout.fields) + 1, "form")
        p, numbers = count(args[0]), [value(word) for word in args[1:]]
        want(p <= len(self.rows), "row")
        for field, number in enumerate(numbers):
            self.takes(field, number)
        self.hold(len(self.rows) + 1)
        self.move(p + 1, len(self.rows) - p)
        self.rows.insert(p, Row(numbers))

    def delete(self, args):
        want(len(args) == 2, "form")
        p, q, is_range = self.range(*args)
        want(is_range, "row")
        self.move(p, len(self.rows) - q)
        del self.rows[p:q]

    def set(self, args):
        want(len(args) == 3, "form")
        p, field, number = count(args[0]), name(args[1]), value(args[2])
        field = self.layout.field(field)
        want(p < len(self.rows), "row")
        self.takes(field, number)
        self.rows[p].numbers[field] = number

    def get(self, args):
        want(len(args) == 1, "form")
        p = count(args[0])
        want(p < len(self.rows), "row")
        return " ".join(map(str, self.rows[p].numbers))

    def copy(self, args):
        want(len(args) == 3, "form")
        p, q, is_range = self.range(*args[:2])
        r = count(args[2])
        want(is_range and r + (q - p) <= len(self.rows), "row")
        self.rows[r : r + (q - p)] = copied(self.rows[p:q])

    def swap(self, args):
        want(len(args) == 2, "form")
        p, q = count(args[0]), count(args[1])
        want(max(p, q) < len(self.rows), "row")
        self.rows[p], self.rows[q] = self.rows[q], self.rows[p]

    def rotate(self, args):
        want(len(args) == 3, "form")
        p, q, is_range = self.range(*args[:2])
        k = count(args[2])
        want(is_range and k <= q - p, "row")
        self.rows[p:q] = self.rows[p + k : q] + self.rows[p : p + k]

    def dup(self, args):
        want(len(args) == 2, "form")
        p, q, is_range = self.range(*args)
        want(is_range, "row")
        self.hold(len(self.rows) + (q - p))
        self.rows += copied(self.rows[p:q])

    def image(self, args):
        want(not args, "form")
        bits = self.list_bits()
        return f"{len(self.rows)} {packed(bits, self.layout.high).hex()}".rstrip()

    def load(self, args):
        want(len(args) in (1, 2), "form")
        rows, given = count(args[0]), image_bytes(b"".join(args[1:]))
        self.hold(rows)
        width, high = self.layout.width, self.layout.high
        bits = [bit for byte in given for bit in digits(byte, 8, high)]
        want(len(given) == -(-rows * width // 8) and 1 not in bits[rows * width :], "image")
        self.rows = []
        for _ in range(rows):
            numbers = []
            for field in self.layout.fields:
                numbers.append(number_of(bits[: field.width], high, field.signed))
                bits = bits[field.width :]
            self.rows.append(Row(numbers))

    def keep(self, args):
        want(not args, "form")
        self.kept = copied(self.rows)

    def back(self, args):
        want(not args, "form")
        want(self.kept is not None, "kept")
        self.rows, self.kept = self.kept, None

    def mark(self, args):
        want(len(args) == 4, "form")
        x, field, number = letter(args[0]), name(args[1]), value(args[3])
        want(args[2] in (b"<", b"=", b">"), "form")
        field = self.layout.field(field)
        self.takes(field, number)
        for row in self.rows:
            its = row.numbers[field]
            passes = {b"<": its < number, b"=": its == number, b">": its > number}[args[2]]
            self.put(row, x, passes)

    def put(self, row, x, bears):
        (row.letters.add if bears else row.letters.discard)(x)

    def combine(self, args, how):
        want(len(args) == 2, "form")
        x, y = letter(args[0]), letter(args[1])
        for row in self.rows:
            self.put(row, x, how(x in row.letters, y in row.letters))

    def invert(self, args):
        want(len(args) == 1, "form")
        x = letter(args[0])
        for row in self.rows:
            self.put(row, x, x not in row.letters)

    def bearers(self, args):
        want(len(args) == 1, "form")
        x = letter(args[0])
        return [str(p) for p, row in enumerate(self.rows) if x in row.letters]

    def count(self, args):
        return str(len(self.bearers(args)))

    def list(self, args):
        return " ".join(self.bearers(args)) or "none"

    def drop(self, args):
        gone = self.bearers(args)
        self.rows = [row for p, row in enumerate(self.rows) if str(p) not in gone]
        self.move(0, len(self.rows), apart=args[0].decode())

    def own(self, line):
        """The answer to a line of the program's own."""
        command, _, rest = line.partition(" ")
        if command == "bits":
            return shown_bits(self.list_bits())
        if command == "letters":
            borne = [x for x in LETTERS if any(x in row.letters for row in self.rows)]
            lists = [x + shown_bits([int(x in row.letters) for row in self.rows]) for x in borne]
            return " ".join(["letters"] + lists)
        if command == "moved":
            return " ".join(["moved"] + [str(words) for words in self.moved])
        if command == "relay":
            self.moved = [0] * 27
            return shown_bits(self.list_bits())
        # none for a letter and itself
        self.answer(line.encode())
        x, y = rest.split()
        rows = len(self.rows)
        return str(0 if x == y else rows if rows <= self.few else -(-rows // 64))


COMMANDS = {
    b"insert": Table.insert,
    b"delete": Table.delete,
    b"set": Table.set,
    b"get": Table.get,
    b"copy": Table.copy,
    b"swap": Table.swap,
    b"rotate": Table.rotate,
    b"dup": Table.dup,
    b"image": Table.image,
    b"load": Table.load,
    b"keep": Table.keep,
    b"back": Table.back,
    b"mark": Table.mark,
    b"and": lambda table, args: table.combine(args, lambda one, other: one and other),
    b"or": lambda table, args: table.combine(args, lambda one, other: one or other),
    b"xor": lambda table, args: table.combine(args, lambda one, other: one != other),
    b"not": Table.invert,
    b"count": Table.count,
    b"list": Table.list,
    b"drop": Table.drop,
}


def shown_bits(bits):
    return "[" + "".join(map(str, bits)) + "]"


def answers(script):
    """The answer lines to a script."""
    table, told = None, []
    for line in script.split(b"\n"):
        if not words(line):
            continue
        if table:
            told.append(table.answer(line))
            continue
        try:
            table = Table(Layout(line))
            told.append("ok")
        except Refused as refused:
            told.append(f"refused {refused}")
    return told
