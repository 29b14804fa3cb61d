"""Scripts that are thrown together. Each line is carried out by a plain table at once, so that most lines fit the rows."""

from plain import LETTERS, Layout, Table, packed, words

# Lines that are no command, whatever the layout.
NO_COMMANDS = (
    b"insert;insert 0;insert +0 1 1;insert -0 0;insert 0 1- 0;insert 0 - 0;image 0;images;low a:u1;high a:u3;\xfe;"
    b"delete 0;delete 0 1 2;delete 0 -1;set 0 A 1;set 0 a +1;get -0;get;copy 0 1;swap 0;rotate 0 1 x;dup 1;keep 0;"
    b"mark x a < ;mark x a ! 0;mark xy a < 0;mark X a < 0;mark x A < 0;mark x a < 0 0;mark x a << 0;and x;or x y z;"
    b"xor x 0;not;count x y;list \xfe;drop;load;load 1 0g"
).split(b";")

# Lines that are no layout, and blank ones.
NO_LAYOUTS = (
    b";\r;low;low a:u0;low a:u01;low a:u65;low a:u1 a:i2;low a:u64 b:u64 c:i64 d:i64 e:u64 f:u64 g:i64 h:i64 i:u64 j:u64"
    b" k:i64 l:i64 m:u64 n:u64 o:i64 p:i64 q:u1;high a:i0;low a:u1:u1;low 1a:u1;image"
).split(b";")

# How many bits a row has.
WIDTHS = (1, 7, 8, 9, 63, 64, 65, 255, 256)
WIDE = (257, 513, 1023, 1024)


def layout_line(rng, width):
    """A layout line of rows of so many bits, in few fields or in many."""
    widths, most = [], rng.choice((1, 3, 9, 33, 64, 64) if width < 100 else (9, 33, 64, 64, 64, 64))
    while width:
        widths.append(min(width, rng.randint(1, most)))
        width -= widths[-1]
    names = [x + y for x in [""] + list(LETTERS) for y in LETTERS]
    fields = [f"{name}:{rng.choice('ui')}{width}" for name, width in zip(names, widths)]
    return " ".join([rng.choice(("low", "high"))] + fields).encode()


class Thrower:
    """Throws lines for a table, and keeps those that it threw."""

    def __init__(self, rng, width, bits=64, letters="axyz"):
        self.rng, self.letters = rng, letters
        self.lines = [layout_line(rng, width)]
        self.table = Table(Layout(self.lines[0]), bits)

    def throw(self, *line):
        line = b" ".join(word if isinstance(word, bytes) else str(word).encode() for word in line)
        self.lines.append(line)
        if line[:1] == b"!":
            self.table.own(line[1:].decode())
        elif words(line):
            self.table.answer(line)

    def number(self, field):
        """A number at the edges of a field, within them, or now and then past them."""
        rng = self.rng
        least, greatest = field.least(), field.greatest()
        past = rng.choice((least - 1, greatest + 1, (greatest + 1) << 31, (least - 7) << 40))
        within = rng.choice((least, greatest, rng.randint(least, greatest), rng.randint(least, greatest)))
        return past if rng.random() < 0.03 else within

    def row(self):
        rows = len(self.table.rows)
        if self.rng.random() < 0.04:
            return self.rng.choice((rows, rows + 1, 1 << 63, 1 << 70, "000" + str(self.rng.randint(0, rows))))
        return self.rng.randint(0, max(rows - 1, 0))

    def range(self, most=9):
        p = self.row()
        if not isinstance(p, int) or p > len(self.table.rows) or self.rng.random() < 0.05:
            return p, self.row()
        return p, min(p + self.rng.randint(0, most), len(self.table.rows))

    def letter(self):
        return self.rng.choice(self.letters)

    def field(self):
        """The name of a field, one that the layout lacks now and then, and a number for it."""
        field = self.rng.choice(self.table.layout.fields)
        return (field.name if self.rng.random() < 0.96 else "absent"), self.number(field)

    def insertion(self):
        place = self.row() if self.rng.random() < 0.6 else len(self.table.rows)
        self.throw("insert", place, *[self.number(field) for field in self.table.layout.fields])

    def load(self, rows):
        """A load of rows of any digits, which is taken but for a byte, a digit or a row too many, or a one behind."""
        rng, width = self.rng, self.table.layout.width
        bits = [rng.getrandbits(1) for _ in range(rows * width)]
        text = packed(bits + ([1] if rng.random() < 0.1 else []), self.table.layout.high).hex()
        text = rng.choice((text, text, text.upper()))
        more = rng.choice(("00", "0", "")) if rng.random() < 0.15 else ""
        self.throw("load", rows + (rng.random() < 0.05), *([text + more] if text + more else []))

    def line(self):
        rng = self.rng
        kind = rng.choice(KINDS)
        if kind == "insert":
            self.insertion()
        elif kind in ("delete", "dup"):
            self.throw(kind, *self.range(3 if kind == "delete" else 9))
        elif kind == "set":
            name, number = self.field()
            self.throw(kind, self.row(), name, number)
        elif kind == "get":
            self.throw(kind, self.row())
        elif kind == "copy":
            self.throw(kind, *self.range(), self.row())
        elif kind == "swap":
            self.throw(kind, self.row(), self.row())
        elif kind == "rotate":
            p, q = self.range()
            self.throw(kind, p, q, rng.randint(0, 4) if rng.random() < 0.5 else rng.randint(0, 1))
        elif kind == "load":
            self.load(rng.randint(0, 5))
        elif kind == "mark":
            name, number = self.field()
            self.throw(kind, self.letter(), name, rng.choice("<=>"), number)
        elif kind in ("and", "or", "xor"):
            self.throw(kind, self.letter(), self.letter())
        elif kind in ("not", "count", "list", "drop"):
            self.throw(kind, self.letter())
        elif kind == "none":
            self.throw(rng.choice(NO_COMMANDS))
        elif kind == "blank":
            self.throw(rng.choice((b"", b" ", b"\t\r")))
        else:
            self.throw(kind)


# The lines that are thrown, each as often as it stands here.
KINDS = (
    "insert " * 12 + "delete set set get get copy swap rotate dup dup image image keep back load none blank "
    "mark mark mark mark and or or xor not count list list drop"
).split()


def spaced(rng, line):
    """The words of a line with other separators between them."""
    return b"".join(rng.choice((b" ", b"\t", b" \r ")) if byte == 32 and rng.random() < 0.1 else bytes((byte,)) for byte in line)


def script(rng, width, lines, rows=0):
    """A script of so many lines behind some that are no layout, of a table that begins with so many rows."""
    thrower = Thrower(rng, width)
    if rows:
        thrower.load(rows)
    for _ in range(lines):
        thrower.line()
    thrower.throw("image")
    thrower.throw("list x")
    if rows > 50:
        # few rows are told of a long table
        thrower.throw("count y")
    before = [rng.choice(NO_LAYOUTS) for _ in range(rng.choice((0, 0, 1, 3)))]
    end = rng.choice((b"", b"\n", b"\r\n"))
    return b"\n".join(before + [spaced(rng, line) for line in thrower.lines]) + end
