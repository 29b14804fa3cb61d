#!/usr/bin/env python3
"""The calls of this program with what has to be told of each, worked out on plain lists. Run in this folder, it writes
`stdin` and `stdout`; `faults/calls.py` takes `CASES` from here. Tables are those of the plain table of `bit_table_cases`.

usage: ./cases.py, in this folder.
"""

import copy
import pathlib
import sys

sys.path.append(str(pathlib.Path(__file__).resolve().parent.parent / "bit_table_cases"))
import plain
import worked_lines

BITS = {"u8": 8, "u16": 16, "u64": 64}
HIGHEST_FIRST = {"u8": False, "u16": True, "u64": True}

# 304 bits
MORE = "a3b51c7e00ff9631d2485ab7e9c60f8d14722e5590fb3ac867d11b3e84a90d76f25c48e1b30a"


# Calls that are never refused: they ask for no memory, or (`shrink_to_fit`) do without.
NEVER = {
    "grow shrink_to_fit",
    "into_box into_boxed_bitslice",
    "into_box into_boxed_slice",
    "into_box from_vec",
    "iter into_iter",
    "table !back",
    "table !within",
    *(f"table {name}" for name in "delete set copy swap rotate back mark and or xor not count drop".split()),
}


class Case:
    """A line and the name of its call; what stands before the call, what it is told to come to where no request is refused,
    and what stands behind that; what may stand behind one that is refused, in one of several forms; and whether the call
    may ask for memory (None: it is not told)."""

    def __init__(self, call, line, before, done, refused=(), asks=None, outcome="done"):
        self.call, self.line, self.before, self.done, self.refused = call, line, before, done, refused
        self.asks, self.outcome = asks, outcome

    def told(self):
        """What is told where no request is refused."""
        return [self.line, *self.before, "call", self.outcome, *self.done]

    def may_leave(self, left):
        """Whether this may stand behind a call that is refused. Of a list that has grown by a beginning of what was to
        come, the words are not told."""
        if len(self.refused) > 1 and left and left[0].startswith("after ["):
            left = [" ".join(left[0].split()[:3]), *left[1:]]
        return left in self.refused


CASES = []


def case(*args, **named):
    CASES.append(Case(*args, **named))


# ---- lists


def words_of(word, text):
    """The words of a text of hexadecimal digits."""
    size = BITS[word] // 4
    return [text[k : k + size] for k in range(0, len(text) - size + 1, size)]


def bits_of(word, text):
    """The bits of words, in the order that goes with them."""
    bits = []
    for digits in words_of(word, text):
        its = [int(digit) for digit in f"{int(digits, 16):0{BITS[word]}b}"]
        bits += its if HIGHEST_FIRST[word] else its[::-1]
    return bits


def text_of(word, bits):
    """The words of bits."""
    text = ""
    for k in range(0, len(bits), BITS[word]):
        its = bits[k : k + BITS[word]]
        its = its if HIGHEST_FIRST[word] else its[::-1]
        text += f"{int(''.join(map(str, its)), 2):0{BITS[word] // 4}x}"
    return text


def shown(bits):
    return "[" + "".join(map(str, bits)) + "]"


class List:
    """Bits from a head on in words, as a line gives them."""

    def __init__(self, word, text, head, length):
        self.word, self.text, self.head, self.length = word, text, head, length
        self.bits = bits_of(word, text)[head : head + length]

    def spelled(self):
        return f"{self.text or '-'} {self.head} {self.length}"

    def whole(self):
        """The bits, the head and the visible words."""
        seen = -(-(self.head + self.length) // BITS[self.word]) * BITS[self.word] // 4
        return f"{shown(self.bits)} {self.head} {self.text[:seen]}"

    def visible(self):
        return f"{shown(self.bits)} {self.head}"


# Lists at the end of their last word, within it, and of no bits.
LISTS = [
    List("u8", "b5fe", 3, 13),
    List("u8", "96", 0, 5),
    List("u8", "0fc35a9971e2", 7, 41),
    List("u8", "", 0, 0),
    List("u64", "90fb3ac867d11b3e84a90d76f25c48e1", 5, 123),
    List("u64", "5ab7e9c60f8d1472", 9, 40),
    List("u64", "", 0, 0),
]


# ---- vectors


def grown(kind, call, given, more, bits, forms=None, extra=((), ()), room=""):
    """A call that makes a vector longer: to bits. A refusal leaves the list as it was, or in one of some forms."""
    line = f"{kind} {given.word} {call} {given.spelled()} {more}{room}"
    told = [] if call == "shrink_to_fit" else ["room no less"]
    done = [f"after {shown(bits)} {given.head}", *told, *extra[0]]
    if forms is None:
        refused = [[f"after {given.whole()}", "room no less", *extra[1]]]
    else:
        refused = [[f"after {shown(form)} {given.head}", "room no less"] for form in forms]
    before = [f"before {given.whole()}"]
    if kind == "append":
        other = f"other {shown(bits_of('u16', more))} 0 {more}"
        before.append(other)
        done.append("other [] 0 ")
        refused[0].append(other)
    asks = None if not room or call == "shrink_to_fit" else False
    case(f"{kind} {call}", line, before, done, refused, asks=asks)


def beginnings(front, items, tail=()):
    return [front + items[:k] + list(tail) for k in range(len(items))]


def vectors(given, room):
    bits, length = given.bits, given.length
    others = bits_of("u16", MORE)
    for call in ("reserve", "reserve_exact", "shrink_to_fit"):
        grown("grow", call, given, MORE, bits, room=room)
    grown("grow", "resize", given, MORE, bits + [1] * 300, room=room)
    grown("grow", "push", given, MORE, bits + [1], room=room)
    grown("grow", "insert", given, MORE, bits[: length // 2] + [1] + bits[length // 2 :], room=room)
    grown("grow", "extend_from_bitslice", given, MORE, bits + others, room=room)
    grown("grow", "extend_from_slice", given, MORE, bits + others, room=room)
    grown("grow", "extend_from_within", given, MORE, bits + bits, room=room)
    grown("grow", "extend", given, MORE, bits + others, beginnings(bits, others), room=room)
    front, tail = bits[: length // 3], bits[length // 2 :]
    grown("finish", "finish", given, MORE, front + others + tail, beginnings(front, others, tail), room=room)
    words = bits_of(given.word, MORE)
    grown("words", "extend_from_raw_slice", given, MORE, bits + words, room=room)
    whole = range(0, len(words), BITS[given.word])
    grown("words", "extend_elements", given, MORE, bits + words, [bits + words[:k] for k in whole], room=room)
    grown("append", "append", given, MORE, bits + others, room=room)
    thirds = [int(k % 3 == 0) for k in range(length, length + 300)]
    grown("resize", "resize_with", given, MORE, bits + thirds, extra=(["asked 300"], ["asked 0"]), room=room)


def made(kind, call, given, bits, head, before, after=((), ()), more=MORE):
    """A call that makes a list of bits."""
    case(
        f"{kind} {call}",
        f"{kind} {given.word} {call} {given.spelled()} {more}",
        before,
        [*after[0], f"made {shown(bits)} {head}"],
        [[*after[1], "made nothing"]],
    )


def lists(given):
    word, bits, head, length = given.word, given.bits, given.head, given.length
    whole, half = [f"before {given.whole()}"], length // 2
    same = [f"after {given.visible()}"], [f"after {given.whole()}"]
    for call in ("clone", "to_bitvec", "to_vec"):
        made("part", call, given, bits, head, whole, same)
    cut = [f"after {shown(bits[:half])} {head}"], same[1]
    made("part", "split_off", given, bits[half:], (head + half) % BITS[word], whole, cut)

    window, others, words = [f"before {given.visible()}"], bits_of("u16", MORE), bits_of(word, MORE)
    made("make", "with_capacity", given, [], 0, window)
    made("make", "repeat", given, [1] * 70, 0, window)
    made("make", "from_bitslice", given, bits, head, window)
    made("make", "collect", given, others, 0, window)
    made("of_words", "from_element", given, words[: BITS[word]], 0, [])
    made("of_words", "from_slice", given, words, 0, [])
    made("of_words", "from_array", given, words[: 2 * BITS[word]], 0, [])
    made("of_words", "collect_elements", given, words, 0, [])
    made("try", "try_from_slice", given, words, 0, [])
    text = f"words {given.text}"
    for call in ("to_bitvec", "to_vec"):
        made("view", call, given, bits, head, window, ([text], [text]))
    made("view", "repeat", given, bits * 3, 0, window, ([text], [text]))

    boxed = [f"after {given.visible()}"], [f"after {given.visible()}"]
    made("box", "from_bitslice", given, bits, head, window, boxed)
    made("box", "clone", given, bits, head, window, boxed)
    made("box", "from_array", given, words[: 2 * BITS[word]], 0, window, boxed)
    made("box", "collect", given, others, 0, window, boxed)
    first = words_of(word, MORE)[0]
    case(
        "word_box from_element_box",
        f"word_box {word} from_element_box {given.spelled()} {MORE}",
        [],
        [f"made {shown(words[: BITS[word]])} 0"],
        [[f"back {first}"]],
    )
    for call in ("into_boxed_bitslice", "into_boxed_slice", "from_vec"):
        case(
            f"into_box {call}",
            f"into_box {word} {call} {given.spelled()} {MORE}",
            whole,
            [f"made {given.visible()}"],
            [[f"back {given.whole()}"]],
            asks=False,
        )
    case(
        "iter into_iter",
        f"iter {word} into_iter {given.spelled()} {MORE}",
        whole,
        [f"made {given.visible()}"],
        [[f"after {given.whole()}"]],
        asks=False,
    )
    if length > 1:
        inner = f"{shown(bits[1:-1])} {(head + 1) % BITS[word]}"
        case(
            "iter clone",
            f"iter {word} clone {given.spelled()} {MORE}",
            whole,
            [f"after {inner}", f"made {inner}"],
            [[f"after {inner}", "made nothing"]],
        )
        windows(given)


def windows(given):
    """The first bit is set, the list reversed, turned by two, flipped; its ones are counted."""
    bits = [1] + given.bits[1:]
    bits = bits[::-1]
    bits = [1 - bit for bit in bits[2:] + bits[:2]]
    words = bits_of(given.word, given.text)
    words[given.head : given.head + given.length] = bits
    replies = f"[Done, Done, Done, Done, Count({sum(bits)}), Refused]"
    case(
        "window run_window",
        f"window {given.word} run_window {given.spelled()} {MORE}",
        [f"before {given.visible()}"],
        [f"after {shown(bits)} {given.head}", f"words {text_of(given.word, words)}", f"made {replies}"],
        [[f"after {given.visible()}", f"words {given.text}", "made nothing"]],
    )


# ---- lines


def makes(call, line, what):
    """A call that makes something, or nothing."""
    case(call, line, [], [f"made {what}"], [["made nothing"]])


def declines(call, line, cause, before=(), after=()):
    """A call that refuses what it is given, for which it asks for no memory."""
    case(call, line, list(before), list(after), asks=False, outcome=f"declined for {cause}")


def is_plain(line):
    return len(line) < 2000 and not set(line) & set(b"\n\r;") and max(line, default=0) < 128


def lines():
    for line in ("low a:u3 b:i4", "high a:u1", f"high {worked_lines.SIXTEEN}"):
        makes("layout", f"layout {line}", line)
        makes("copied_layout", f"copied_layout {line}", line)
    for line in filter(is_plain, worked_lines.NO_LAYOUTS):
        declines("layout", f"layout {line.decode()}", "layout")
    for line, command in worked_lines.COMMANDS:
        if is_plain(line):
            makes("command", f"command low a:u3 b:i4;{line.decode()}", command)
    for line in filter(is_plain, worked_lines.NO_COMMANDS):
        declines("command", f"command low a:u3 b:i4;{line.decode()}", "form")
    makes("choose", "choose ", "u64 lsb0")
    makes("choose", "choose --word u8 --order=hilo", "u8 hilo")
    makes("choose", "choose --help", "help: Edits a table of packed rows by the lines of a script")
    makes("choose", "choose --word u256", "bad: error: invalid value 'u256' for '--word <WORD>'")
    makes("choose", "choose u8", "bad: error: unexpected argument 'u8' found")


# ---- images


def images():
    makes("image_line", "image_line 0 -", "0")
    makes("image_line", "image_line 2 be8c", "2 be8c")
    makes("image_line", f"image_line 43 {MORE}", f"43 {MORE}")
    for given in LISTS:
        for rule in ("low", "high"):
            line = f"image_write {given.word} {rule} {given.spelled()} {MORE}"
            makes("image_write", line, plain.packed(given.bits, rule == "high").hex())
    for word in ("u8", "u64"):
        for rows, text in ((0, ""), (2, "be8c"), (16, MORE[:28])):
            bits = bits_of("u16", text)[: rows * 7]
            makes("image_read", f"image_read {word} {rows} {text or '-'}", f"{shown(bits)} 0")
        for text in ("be8d", "be8e", "be", "be8c00", "-"):
            declines("image_read", f"image_read {word} 2 {text}", "image")
        for rows in (plain.MOST_BITS // 7 + 1, 2**64 - 1):
            declines("image_read", f"image_read {word} {rows} be8c", "full")
        declines("image_read", f"image_read {word} {plain.MOST_BITS // 7} be8c", "image")


# ---- tables

TWO = "high a:u3 b:i4;insert 0 5 -1;insert 1 2 3"
TABLES = [
    "high a:u3 b:i4",
    f"{TWO};mark x a = 5;keep;dup 0 2;not y",
    # the lists of letters have no room in bytes
    f"{TWO};mark x a = 5;dup 0 2;dup 0 4;dup 0 8;dup 0 16;keep;dup 0 32",
]
CALLS = [
    *("insert 0 1 1", "delete 0 1", "set 0 a 1", "get 0", "copy 0 1 1", "swap 0 1", "rotate 0 2 1", "dup 0 2", "dup 0 64"),
    *("image", "load 2 be8c", "load 0", "keep", "back", "mark y b < 0", "and x y", "or x y", "xor x y", "not x"),
    *("count x", "list x", "drop x"),
    *("get 99", "set 0 z 1", "insert 0 9 9", "dup 0 99", "load 2 be8d", "load 9999999999999999999 00"),
]

# Lines that want no memory where there is room for so many rows.
WITHIN = [
    (3, [*["insert 0 1 1"] * 3, "delete 0 2", *["insert 0 1 1"] * 2]),
    (5, ["insert 0 7 -8", "dup 0 1", "mark z a = 7", "drop z", *["insert 0 2 2"] * 4]),
]


def table_of(word, script):
    layout, *lines = script.split(";")
    table = plain.Table(plain.Layout(layout.encode()), BITS[word])
    for line in lines:
        assert table.answer(line.encode()) == "ok"
    return table


def shown_table(label, table):
    """The table and what it keeps."""
    table = copy.deepcopy(table)
    now = " ".join([label, str(len(table.rows)), *(table.own(line) for line in ("bits", "letters", "moved"))])
    if table.answer(b"back") != "ok":
        return [now, f"{label} nothing kept"]
    then = " ".join([label, str(len(table.rows)), *(table.own(line) for line in ("bits", "letters", "moved"))])
    return [now, then]


def tables(word, script):
    for call in CALLS:
        table = table_of(word, script)
        name, line = f"table {call.split()[0]}", f"table {word} {script};{call}"
        before, unchanged = shown_table("before", table), shown_table("after", table)
        answer = table.answer(call.encode())
        after = shown_table("after", table)
        if answer.startswith("refused "):
            declines(name, line, answer.split()[1], before, unchanged)
        else:
            asks = False if name in NEVER else None
            case(name, line, before, [f"made {answer}", *after], [["made nothing", *unchanged]], asks)
        makes(f"answer {call.split()[0]}", f"answer {word} {script};{call}", answer)
    table = table_of(word, script)
    before, unchanged = shown_table("before", table), shown_table("after", table)
    other = copy.deepcopy(table)
    other.moved = [0] * 27
    done = [*shown_table("made", other), *unchanged]
    case("table !relay", f"table {word} {script};!relay", before, done, [["made nothing", *unchanged]])
    table.answer(b"keep")
    case("table !keep", f"table {word} {script};!keep", before, shown_table("after", table), [unchanged])
    table = table_of(word, script)
    for rows in (0, 3, 100):
        told = ["room made true less false", *unchanged]
        left = [["room made false less false", *unchanged]]
        case("table !reserve", f"table {word} {script};reserve !{rows}", before, told, left)
    refused = [["made nothing", *unchanged]]
    for row in (0, 99):
        answer = table.answer(f"get {row}".encode())
        told = "no row" if answer.startswith("refused ") else answer
        case("table !row", f"table {word} {script};row !{row}", before, [f"made {told}", *unchanged], refused)
    told = table.answer(b"list x")
    case("table !marked", f"table {word} {script};marked !x", before, [f"made {told}", *unchanged], refused)
    for rows, lines in WITHIN:
        other = copy.deepcopy(table)
        assert all(other.answer(line.encode()) == "ok" for line in lines)
        done = shown_table("after", other)
        case("table !within", f"table {word} {script};{','.join(lines)}!{rows}", before, done, asks=False)
    brought = str(table.answer(b"back") == "ok").lower()
    done = [f"made {brought}", *shown_table("after", table)]
    case("table !back", f"table {word} {script};!back", before, done, asks=False)


# ---- scripts

# The answers of the first are eight times `ok`, the image and a row number.
SCRIPTS = [
    (f"{TWO};mark x a = 5;keep;dup 0 2;load 2 be8c;back;image;list x", [*["ok"] * 8, "2 be8c", "0"]),
    ("what;low a:u1;get 0;insert 0 1;get 0;image", ["refused layout", "ok", "refused row", "ok", "1", "1 01"]),
]


def scripts():
    for script, answers in SCRIPTS:
        wrote = [["wrote " + " ".join(f"{line} /" for line in answers[:count])] for count in range(len(answers) + 1)]
        for word in ("u8", "u64"):
            case("run", f"run {word} {script}", [], wrote[-1], wrote[:-1])


for given in LISTS:
    vectors(given, "")
    vectors(given, " room")
    lists(given)
lines()
images()
for word in ("u8", "u64"):
    for script in TABLES:
        tables(word, script)
scripts()


if __name__ == "__main__":
    with open("stdin", "w") as stdin, open("stdout", "w") as stdout:
        for each in CASES:
            stdin.write(each.line + "\n")
            stdout.writelines(line + "\n" for line in each.told())
