#!/usr/bin/env python3
"""Writes the cases of this program, `stdin` and `stdout`. Worked cases have answers by hand; each other answer comes from
a plain list, and from nothing else.

usage: ./cases.py, in this folder.
"""

import itertools
import math
import pathlib
import random
import re

import plain
import thrown
import worked
import worked_lines
from plain import Layout, Table

WORDS = {"u8": 8, "u16": 16, "u32": 32, "u64": 64, "u128": 128, "usize": 64}
ORDERS = {
    "lsb0": lambda bits, i: i,
    "msb0": lambda bits, i: bits - 1 - i,
    "hilo": lambda bits, i: i ^ 4,
    "fifth": lambda bits, i: (5 * i + 3) % bits,
}
STORAGES = [(word, order) for word in WORDS if word != "usize" for order in ORDERS]
MEMORIES = [(word, order) for word in WORDS for order in ORDERS]
PIECES = (0, 1, 3, 13, 64, 4096)

given, wanted = [], []


def case(line, answer):
    given.append(line)
    wanted.append(answer)


def spelled(script):
    """A script in the letters of a case."""
    escapes = {0x0A: ";", 0x09: r"\t", 0x0D: r"\r", 0xFE: r"\x"}
    script = re.sub(rb"(.)\1{9999}", lambda run: b"\0k" + run[1], script)
    return "".join(escapes.get(byte, chr(byte)) for byte in script).replace("\0", "\\")


def told(answer):
    """Answer lines in one line."""
    return " ".join(f"{line} /" for line in answer.split("\n")[:-1])


def lines(script):
    return "".join(f"{line}\n" for line in plain.answers(script))


# ---- scripts

turn = itertools.count()


def run(script, answer, storages):
    """A script over storages, in pieces of some length; the plain table answers it so too."""
    assert lines(script) == answer, script
    for word, order in storages:
        case(f"run {word} {order} {PIECES[next(turn) % len(PIECES)]} {spelled(script)}".rstrip(" "), told(answer))


def some_storages(count):
    return [STORAGES[next(turn) * 3 % len(STORAGES)] for _ in range(count)]


def scripts():
    for script, answer in worked.SCRIPTS:
        run(script, answer, STORAGES)
    for script, answer in worked.MORE_SCRIPTS:
        run(script, answer, some_storages(4))
    for path in sorted(pathlib.Path("../../examples").glob("*.script")):
        run(path.read_bytes(), path.with_suffix(".answer").read_text(), some_storages(4))
    five, with_letters = worked.FIVE_ROWS, worked.FIVE_ROWS + worked.LETTERS
    for edit in worked.UNDONE:
        run(five + edit + worked.NUMBERS[0], "ok\n" * (6 + edit.count(b"\n")) + worked.NUMBERS[1], some_storages(3))
    for line, numbers in worked.CHANGED:
        run(five + line + b"get 0\nget 1\nget 2\nget 3\nget 4", "ok\n" * 7 + numbers, some_storages(3))
    for edit in worked.LETTERS_LEFT:
        run(with_letters + edit + worked.BEARERS[0], "ok\n" * (9 + edit.count(b"\n")) + worked.BEARERS[1], some_storages(3))
    for letter, bearers, others in worked.COUNTS:
        script = with_letters + b"count %s\nnot %s\ncount %s" % (letter, letter, letter)
        run(script, "ok\n" * 9 + f"{bearers}\nok\n{others}\n", some_storages(3))
    for table, image in worked.OWN_IMAGES:
        script = table + b"image\ndelete 0 1\nload " + image + b"\nlist x\nimage"
        answer = "ok\n" * table.count(b"\n") + f"{image.decode()}\nok\nok\nnone\n{image.decode()}\n"
        run(script, answer, some_storages(3))


def thrown_scripts():
    rng = random.Random(3)
    for number in range(320):
        script = thrown.script(rng, thrown.WIDTHS[number % 9], rng.choice((10, 16, 24)), rng.choice((0, 0, 3, 9)))
        run(script, lines(script), [STORAGES[number % len(STORAGES)]])
    for number, width in enumerate((1, 8, 63)):
        script = thrown.script(rng, width, 300)
        run(script, lines(script), [STORAGES[number * 5]])
    # tables of many rows
    for number in range(32):
        width, rows = (1, 7, 8, 9)[number % 4], (300, 128, 255)[number % 3]
        script = thrown.script(rng, width, 60, rows)
        run(script, lines(script), [STORAGES[number // 2]])
    for number, width in enumerate((63, 64, 65, 255, 256)):
        script = thrown.script(rng, width, 16, 40)
        run(script, lines(script), [STORAGES[number * 3]])


def long_rows():
    """Rows of more than 256 bits."""
    for script, answer in worked.LONG_ROWS:
        run(script, answer, STORAGES)
    rng = random.Random(15)
    for number in range(20):
        script = thrown.script(rng, thrown.WIDE[number % 4], 16, rng.choice((0, 3)))
        run(script, lines(script), [STORAGES[number]])
    for number, width in enumerate(thrown.WIDE):
        word, order = STORAGES[number * 5]
        thrower = thrown.Thrower(rng, width, WORDS[word], "amz")
        thrower.load(5)
        for letter in thrower.letters:
            thrower.throw("mark", letter, *[str(it) for it in marks(rng, thrower)])
        for _ in range(6):
            own_line(rng, thrower)
        script = b"\n".join(thrower.lines)
        table(script, table_answer(script, word, order), [(word, order)])


# ---- tables


def bit_by_bit(word, order):
    """Up to how many bits a word path combines bit by bit: of more, each step carries up to 64."""
    if order == "hilo":
        return 40 if word == "u32" else 24
    return math.inf if order == "fifth" else 0


def table_answer(script, word, order):
    """What a table answers to lines of which some are this program's own."""
    first, *rest = script.split(b"\n")
    table, answer = Table(Layout(first), WORDS[word], bit_by_bit(word, order)), ["ok"]
    for line in rest:
        answer.append(table.own(line[1:].decode()) if line[:1] == b"!" else table.answer(line))
    return "".join(f"{line}\n" for line in answer)


def table(script, answer, storages):
    for word, order in storages:
        assert table_answer(script, word, order) == answer, (script, answer, table_answer(script, word, order))
        case(f"table {word} {order} {spelled(script)}", told(answer))


def tables():
    for script, answer in worked.TABLES:
        table(script, answer, STORAGES)
    for rows, script, answer in worked.COMBINED:
        for word, order in [("u8", "lsb0"), *some_storages(4)]:
            steps = rows if order == "fifth" else worked.STEPS[rows]
            table(script, answer.replace("%d", str(steps)), [(word, order)])
    for script, answer in worked.RELAYED:
        for storage in worked.RELAYS:
            table(script % storage, answer, some_storages(4))
    for word, script, answer in worked.MOVES:
        table(script, answer, [(word, order) for order in ORDERS])


def edits(rows):
    """Each edit of so many rows, at all places."""
    every = range(rows + 1)
    ranges = [(p, q) for p in every for q in every if p <= q]
    yield from (f"insert {p} %s" for p in every)
    yield from (f"delete {p} {q}" for p, q in ranges)
    yield from (f"dup {p} {q}" for p, q in ranges)
    yield from (f"copy {p} {q} {r}" for p, q in ranges for r in every if r + q - p <= rows)
    yield from (f"swap {p} {q}" for p in range(rows) for q in range(rows))
    yield from (f"rotate {p} {q} {k}" for p, q in ranges for k in range(q - p + 1))


def edited_tables():
    """Rows of some widths, which bear letters, kept and edited in each way, and put back."""
    rng = random.Random(9)
    storages = itertools.cycle(MEMORIES[:16])
    for width, rows, _ in itertools.product((1, 3, 7, 8, 9), range(5), range(2)):
        word, order = next(storages)
        thrower = thrown.Thrower(rng, 1)
        thrower.lines = [b"%s f:u%d" % (rng.choice((b"low", b"high")), width)]
        thrower.table = Table(Layout(thrower.lines[0]), WORDS[word])
        for place in range(rows):
            thrower.throw("insert", place, rng.randrange(2**width))
        for letter in "amz":
            thrower.throw("mark", letter, "f", rng.choice("<>"), rng.randrange(2**width))
        for edit in edits(rows):
            thrower.throw("keep")
            thrower.throw(edit % rng.randrange(2**width) if "%s" in edit else edit)
            thrower.throw("!bits")
            thrower.throw("!letters")
            thrower.throw("back")
        script = b"\n".join(thrower.lines)
        table(script, table_answer(script, word, order), [(word, order)])


def thrown_tables():
    """Tables thrown together, with steps, moves and other storages."""
    rng = random.Random(4)
    for number in range(96):
        word, order = STORAGES[number % len(STORAGES)]
        thrower = thrown.Thrower(rng, thrown.WIDTHS[number % 4], WORDS[word], "abdmnz")
        thrower.load(rng.choice((1, 7, 8, 9, 15, 16, 17, 63, 64, 65, 70)))
        for letter in thrower.letters:
            thrower.throw("mark", letter, *[str(it) for it in marks(rng, thrower)])
        for _ in range(6):
            own_line(rng, thrower)
        script = b"\n".join(thrower.lines)
        table(script, table_answer(script, word, order), [(word, order)])


def marks(rng, thrower):
    field = rng.choice(thrower.table.layout.fields)
    return field.name, rng.choice("<=>"), rng.randint(field.least(), field.greatest())


def own_line(rng, thrower):
    rows = len(thrower.table.rows)
    kind = rng.choice(("combine", "relay", "insert", "delete", "drop"))
    if kind == "combine":
        thrower.throw("!" + rng.choice(("and", "or", "xor")), thrower.letter(), thrower.letter())
    elif kind == "relay":
        thrower.throw("!relay", rng.choice(worked.RELAYS))
    elif kind == "insert":
        thrower.throw("insert", rng.randint(0, rows), *[field.least() for field in thrower.table.layout.fields])
        thrower.throw("!moved")
    elif kind == "delete":
        p = rng.randint(0, rows)
        thrower.throw("delete", p, min(p + rng.randint(1, 3), rows))
        thrower.throw("!moved")
    else:
        thrower.throw("drop", thrower.letter())
        thrower.throw("!moved")
    thrower.throw("!letters")


# ---- lines


def in_a_line(line):
    """A line that may have a line end in it."""
    return r"\n".join(map(spelled, line.split(b"\n")))


def line_cases():
    for line, answer in worked_lines.LAYOUTS:
        case(f"commands {spelled(line)}", answer)
    for line in worked_lines.NO_LAYOUTS:
        case(f"commands {in_a_line(line)}".rstrip(" "), "no layout line")
    head = "commands low a:u3 b:i4;"
    for line, command in worked_lines.COMMANDS:
        case(head + spelled(line), f"low 7 a:u3 b:i4 / {command}")
    for k in range(0, len(worked_lines.NO_COMMANDS), 8):
        eight = worked_lines.NO_COMMANDS[k : k + 8]
        case(head + ";".join(map(in_a_line, eight)), "low 7 a:u3 b:i4" + " / refused form" * len(eight))
    for rows, kept, layout, causes in worked_lines.CAUSES:
        script = ";".join(spelled(line) for line in [layout] + [line for line, _ in causes])
        case(f"causes {rows} {kept} {script}", " / ".join(cause for _, cause in causes))


# ---- memories


class Memory:
    """Words as one list of bits, in an order."""

    def __init__(self, word, order, words):
        self.bits, self.at, self.words = WORDS[word], ORDERS[order], words

    def list(self):
        return [word >> self.at(self.bits, i) & 1 for word in self.words for i in range(self.bits)]

    def hex(self):
        return "".join(f"{word:0{self.bits // 4}x}" for word in self.words)

    def with_list(self, bits):
        words = []
        for k in range(len(self.words)):
            part = bits[k * self.bits : (k + 1) * self.bits]
            words.append(sum(bit << self.at(self.bits, i) for i, bit in enumerate(part)))
        return "".join(f"{word:0{self.bits // 4}x}" for word in words)


def memory(rng, word, order, bits):
    """A memory of any digits that has so many bits, and perhaps some more."""
    count = -(-bits // WORDS[word])
    return Memory(word, order, [rng.getrandbits(WORDS[word]) for _ in range(count)])


def images():
    memories = itertools.cycle(MEMORIES)
    for layout, rows, image, answer in worked_lines.IMAGES:
        refused = answer in (None, "full")
        answer = f"refused {answer or 'image'}" if refused else f"{image}[{answer}]"
        for word, order in itertools.islice(memories, 11):
            case(f"image {word} {order} {rows} {image} {layout}", answer)
    rng = random.Random(8)
    for rows, rule in itertools.product(range(20), ("low", "high")):
        bits = [rng.getrandbits(1) for _ in range(rows * 5)]
        whole = plain.packed(bits, rule == "high").hex()
        dead = [plain.packed(bits + [0] * k + [1], rule == "high").hex() for k in range(-len(bits) % 8)]
        images = [(whole, whole + plain.shown_bits(bits))]
        images += [(image, "refused image") for image in dead + [whole + "00"] + ([whole[:-2]] if whole else [])]
        for image, answer in images:
            word, order = next(memories)
            case(f"image {word} {order} {rows} {image} {rule} a:u2 b:i3", answer)


def field_steps(word, order, place, width, high, store):
    """A step for each word that a field touches where its digits lie as the positions go, else one, but that a few bits go
    bit by bit, and all under `fifth`."""
    if order == ("msb0" if high else "lsb0"):
        return (place + width - 1) // WORDS[word] + 1 - place // WORDS[word]
    straight = 5 if store or word == "u8" else 0
    few = {"hilo": 16, "fifth": 64}.get(order, straight)
    return width if width <= few else 1


def digits():
    """Fields of each width up to 16 at each head up to 15, and some wider."""
    rng = random.Random(6)
    memories = itertools.cycle(MEMORIES + MEMORIES[3:7])
    fields = list(itertools.product(range(16), (*range(1, 17), 31, 33, 63, 64)))
    for place, width in fields + fields:
        word, order = next(memories)
        held = memory(rng, word, order, place + width)
        bits = held.list()
        window = bits[place : place + width]
        number = rng.choice((0xB2E5, -0x1D3A, -1, 0x9E3779B97F4A7C15, 5 - (1 << 127), rng.getrandbits(70)))
        answer = [plain.number_of(window, high, signed) for signed in (False, True) for high in (False, True)]
        loads, stores = (
            sum(field_steps(word, order, place, width, high, store) for high in (False, True)) for store in (False, True)
        )
        answer.append(2 * loads)
        for high in (False, True):
            stored = plain.digits(number, width, high)
            answer.append(held.with_list(bits[:place] + stored + bits[place + width :]))
        answer.append(stores)
        case(f"digits {word} {order} {held.hex()} {place} {width} {number}", " ".join(map(str, answer)))


def stored_rows():
    """Rows stored in a window, whatever numbers they are given."""
    rng = random.Random(12)
    for number, (word, order) in enumerate(MEMORIES * 3):
        line = thrown.layout_line(rng, (1, 7, 9, 63, 64)[number % 5]).decode()
        layout = Layout(line.encode())
        place, at = rng.randint(0, 40), rng.randint(0, 80)
        held = memory(rng, word, order, place + at + layout.width)
        numbers = [rng.randint(-(2**70), 2**70) for _ in layout.fields]
        row, loaded = [], []
        for field, number in zip(layout.fields, numbers):
            row += plain.digits(number, field.width, layout.high)
            loaded.append(plain.number_of(row[-field.width :], layout.high, field.signed))
        bits = held.list()
        begin = place + at
        after = held.with_list(bits[:begin] + row + bits[begin + len(row) :])
        values = " ".join(map(str, numbers))
        case(f"row {word} {order} {held.hex()} {place} {at} {line};{values}", f"{loaded} {after}")


def moved_rows():
    rng = random.Random(13)
    memories = itertools.cycle(MEMORIES)
    moves = [
        (head, w, n, p, q)
        for head, w in itertools.product((0, 3, 7), (0, 1, 3, 8, 9))
        for n in range(6)
        for p in range(n + 1)
        for q in range(6)
    ]
    for head, w, n, p, q in rng.sample(moves, 150):
        word, order = next(memories)
        held = memory(rng, word, order, head + 12 * 9)
        bits = held.list()
        source, target, length = head + p * w, head + q * w, (n - p) * w
        after = bits[:target] + bits[source : source + length] + bits[target + length :]
        writes = plain.touched(held.bits, target, length)
        reads = 3 * writes if order in ("lsb0", "msb0") else 9999
        line = f"move {word} {order} {held.hex()} {head} {p} {q} {n} {w} {writes} {reads}"
        case(line, f"{held.with_list(after)} yes")


def kept_rows():
    rng = random.Random(14)
    memories = itertools.cycle(MEMORIES)
    keeps = list(itertools.product((0, 3, 7), (0, 1, 3, 8, 9), range(6), range(32)))
    for head, w, n, off in rng.sample(keeps, 150):
        word, order = next(memories)
        held = memory(rng, word, order, head + 6 * 9)
        bits = held.list()
        rows = [bits[head + k * w : head + (k + 1) * w] for k in range(n) if not off >> k & 1]
        kept = [bit for row in rows for bit in row]
        after = held.with_list(bits[:head] + kept + bits[head + len(kept) :])
        writes = plain.touched(held.bits, head, len(kept))
        case(f"keep {word} {order} {held.hex()} {head} {n} {w} {off} {writes}", f"{after} {len(rows)} yes")


def marked_rows():
    """Rows of a byte each, their numbers, and one behind the other marked by them: 64, fewer and more."""
    for rows in (63, 64, 65, 130):
        script, answer = b"low f:i8\nload %d %s" % (rows, bytes(range(rows)).hex().encode()), "ok\nok\n"
        numbers = [(row + 128) % 256 - 128 for row in range(rows)]
        for test, value in (("<", 60), (">", 62), ("=", 64), ("<", 0), (">", -128)):
            script += b"\nmark x f %s %d\nlist x" % (test.encode(), value)
            passing = [row for row, n in enumerate(numbers) if (n < value, n == value, n > value)["<=>".index(test)]]
            answer += f"ok\n{' '.join(map(str, passing)) or 'none'}\n"
        run(script, answer, some_storages(5))


def rows_of_each_width():
    """Rows of each width in each storage: whatever moves rows, and the image behind it."""
    rng = random.Random(17)
    for width, storage in itertools.product((*thrown.WIDTHS, 1023, 1024), STORAGES):
        thrower = thrown.Thrower(rng, width)
        fields = thrower.table.layout.fields

        def insert(place):
            thrower.throw("insert", place, *[rng.randint(field.least(), field.greatest()) for field in fields])

        for rows in range(6):
            insert(rng.randint(0, rows))
        for edit in ("insert", "rotate 1 5 3", "copy 0 3 2", "delete 2 4", "rotate 0 5 1", "copy 2 5 0", "delete 0 1"):
            insert(rng.randint(1, 5)) if edit == "insert" else thrower.throw(edit)
            # wide rows are shown at the end alone
            if width <= 256 or edit == "delete 0 1":
                thrower.throw("image")
        script = b"\n".join(thrower.lines)
        assert b"refused" not in lines(script).encode(), script
        run(script, lines(script), [storage])


def pieces_of_one_byte():
    """A worked script and a thrown one over each storage: read byte by byte, and answered to a writer that fails."""
    worked_script, worked_answer = b"high a:u3 b:i4\ninsert 0 5 -1\ninsert 1 2 3\nimage", "ok\nok\nok\n2 be8c\n"
    script = thrown.script(random.Random(21), 9, 24, 3)
    for word, order in STORAGES:
        case(f"run {word} {order} 1 {spelled(worked_script)}", told(worked_answer))
        case(f"run {word} {order} 1 {spelled(script)}", told(lines(script)))
        for room in range(len(worked_answer) + 1):
            taken = worked_answer[:room].replace("\n", " /\n").split("\n")
            taken = " ".join(part for part in taken if part)
            fault = " write fault" if room < len(worked_answer) else ""
            case(f"stopped {word} {order} {room} {spelled(worked_script)}", taken + fault)


def main():
    scripts()
    thrown_scripts()
    tables()
    edited_tables()
    thrown_tables()
    line_cases()
    for line, answer in worked_lines.MEMORIES:
        case(line, answer)
    images()
    digits()
    stored_rows()
    moved_rows()
    kept_rows()
    long_rows()
    marked_rows()
    rows_of_each_width()
    pieces_of_one_byte()
    pathlib.Path("stdin").write_text("".join(f"{line}\n" for line in given))
    pathlib.Path("stdout").write_text("".join(f"{line}\n" for line in wanted))


if __name__ == "__main__":
    main()
