"""Worked scripts and lines with their answers, by hand. Two rows of `a:u3 b:i4` are 5 and -1, then 2 and 3: under `high`
101 1111 and 010 0011, under `low` 101 1111 and 010 1100."""

import worked_lines

# What a script of the two rows begins with.
HIGH = b"high a:u3 b:i4\ninsert 0 5 -1\ninsert 1 2 3\n"
LOW = b"low a:u3 b:i4\ninsert 0 5 -1\ninsert 1 2 3\n"

# Scripts with their answers, for every storage.
SCRIPTS = [
    (b"", ""),
    (b" \n\t\n\r\n\n \t\r", ""),
    (
        b"insert 0 1\nlow\nlow a:u65\nlow a:u1 a:u1\nlow a:u01\nlow a:u1\nlow a:u1\n\xfe",
        "refused layout\n" * 5 + "ok\nrefused form\nrefused form\n",
    ),
    (b"high a:u1\nhigh a:u1\nlow a:u1\n", "ok\nrefused form\nrefused form\n"),
    # a layout that is refused leaves the next line to be tried as one
    (b"low a:u01\nlow a:u3 b:u5\ninsert 0 5 17\nimage", "refused layout\nok\nok\n1 8d\n"),
    # the first cause that holds is told
    (
        HIGH + b"set 9 c 99\nset 9 a 99\ninsert 3 8 0\ninsert 0 8 0\n"
        b"insert 0 5\nget -0\nset 0 a +1\nset 0 A 1\nget 0001\nget\t0\r\nimage",
        "ok\nok\nok\nrefused field\nrefused row\nrefused row\nrefused value\n"
        "refused form\nrefused form\nrefused form\nrefused form\n2 3\n5 -1\n2 be8c\n",
    ),
    (b"high a:u3 b:u5\ninsert 0 5 17\nimage", "ok\nok\n1 b1\n"),
    (b"low a:u3 b:u5\ninsert 0 5 17\nimage", "ok\nok\n1 8d\n"),
    (
        HIGH + b"image\ninsert 1 0 -8\nimage\ndelete 0 1\nimage",
        "ok\nok\nok\n2 be8c\nok\n3 be2118\nok\n2 108c\n",
    ),
    (LOW + b"image\nget 1\nget\t0\r", "ok\nok\nok\n2 7d0d\n2 3\n5 -1\n"),
    (
        HIGH + b"insert 1 0 -8\nrotate 0 3 1\nimage\nrotate 0 3 2\nimage",
        "ok\nok\nok\nok\nok\n3 108ef8\nok\n3 be2118\n",
    ),
    (
        HIGH + b"dup 0 1\nimage\ndelete 2 3\nrotate 0 2 1\nimage",
        "ok\nok\nok\nok\n3 be8ef8\nok\nok\n2 477c\n",
    ),
    (HIGH + b"set 1 a 7\nimage\nget 0\nget 1", "ok\nok\nok\nok\n2 bfcc\n5 -1\n7 3\n"),
    (
        b"low f:u1\nimage\ninsert 0 0\ninsert 0 0\ninsert 0 0\nimage\ninsert 0 0\nimage",
        "ok\n0\nok\nok\nok\n3 00\nok\n4 00\n",
    ),
    (
        b"high n:i64\ninsert 0 -9223372036854775808\nimage\ninsert 0 9223372036854775808",
        "ok\nok\n1 8000000000000000\nrefused value\n",
    ),
    (
        b"low p:u3 q:u64\ninsert 0 7 18446744073709551615\nimage\nget 0",
        "ok\nok\n1 ffffffffffffffff07\n7 18446744073709551615\n",
    ),
    (b"high p:u3 q:u64\ninsert 0 7 18446744073709551615\nimage", "ok\nok\n1 ffffffffffffffffe0\n"),
    (
        HIGH + b"delete 1 0\ndelete 0 3\nrotate 0 1 2\ncopy 0 2 1\ndelete 1 1\nimage",
        "ok\nok\nok\nrefused row\nrefused row\nrefused row\nrefused row\nok\n2 be8c\n",
    ),
    (
        HIGH + b"swap 0 0\nswap 0 1\nimage\nswap 1 0\ncopy 0 1 1\nimage\nset 0 c 1",
        "ok\nok\nok\nok\nok\n2 477c\nok\nok\n2 bf7c\nrefused field\n",
    ),
    (
        HIGH + b"back\nkeep\ndelete 0 2\nimage\nback\nimage\nback",
        "ok\nok\nok\nrefused kept\nok\nok\n0\nok\n2 be8c\nrefused kept\n",
    ),
    # what is kept last comes back
    (
        HIGH + b"keep\ndelete 0 1\nkeep\ndup 0 1\nset 0 a 7\nback\nimage\nback",
        "ok\nok\nok\nok\nok\nok\nok\nok\nok\n1 46\nrefused kept\n",
    ),
    # letters
    (
        HIGH + b"mark x b < 0\ncount x\nlist x\nnot x\nlist x\ndrop x\nimage\nlist x",
        "ok\nok\nok\nok\n1\n0\nok\n1\nok\n1 be\nnone\n",
    ),
    (HIGH + b"mark x a > 2\nxor x x\ncount x", "ok\nok\nok\nok\nok\n0\n"),
    # letters go with their rows: 5 -1 bears x, at last rows 0 to 2, and 2 3 does not
    (
        HIGH + b"mark x a > 2\ninsert 0 1 1\nlist x\ndup 1 2\nlist x\nswap 1 2\nlist x\n"
        b"rotate 0 4 1\nlist x\ncopy 1 2 0\nlist x\nimage",
        "ok\nok\nok\nok\nok\n1\nok\n1 3\nok\n2 3\nok\n1 2\nok\n0 1 2\n4 bf7ef910\n",
    ),
    (
        HIGH + b"mark x a = 5\nmark y b > 0\nor x y\nlist x\nand x y\nlist x\nxor x y\nlist x\n"
        b"mark x b < 8\nload 2 be8c\nlist y",
        "ok\nok\nok\nok\nok\nok\n0 1\nok\n1\nok\nnone\nrefused value\nok\nnone\n",
    ),
    # what is kept has its letters, and a mark of no row takes the letter off
    (
        HIGH + b"mark x b < 0\nkeep\nnot x\ndelete 0 1\nlist x\nback\nlist x\nmark x b > 7\nlist x\nback",
        "ok\nok\nok\nok\nok\nok\nok\n0\nok\n0\nok\nnone\nrefused kept\n",
    ),
    # causes in their order, and nothing is changed
    (
        b"low a:u3 b:i4\ninsert 0 5 -1\nmark x c < 99\nmark x b < 8\nmark x b < -9\nmark x b <\n"
        b"mark x b ! 0\nmark X b < 0\nnot xy\nand x\nlist\ncount x\nmark x b > -8\nlist x",
        "ok\nok\nrefused field\nrefused value\nrefused value\nrefused form\nrefused form\nrefused form\n"
        "refused form\nrefused form\nrefused form\n0\nok\n0\n",
    ),
    # a table without rows
    (
        b"low a:u3\nmark x a < 1\nnot x\nxor x y\nlist x\ncount y\ndrop x\nimage",
        "ok\nok\nok\nok\nnone\n0\nok\n0\n",
    ),
    # loads
    (
        HIGH + b"load 2 be8d\nload 2 BE8C\nload 3 be8c\nload 2 be8\nload 2\nload 0 00\nimage\nload 0\nimage",
        "ok\nok\nok\nrefused image\nok\nrefused image\nrefused form\nrefused image\nrefused image\n2 be8c\nok\n0\n",
    ),
    (
        b"low f:u1\nload 2305843009213693952 00\nload 2305843009213693951 00\nimage",
        "ok\nrefused full\nrefused image\n0\n",
    ),
    (
        b"high a:u3 b:i4\nload 329406144173384851 00\nload 329406144173384850 00\n"
        b"load 329406144173384851 0g\nload 99999999999999999999999999 00\nload -1 00\nload 1 be 00\nload",
        "ok\nrefused full\nrefused image\nrefused form\nrefused full\nrefused form\nrefused form\nrefused form\n",
    ),
    # numbers of both signs, under both rules
    (
        b"low a:u3 b:i4\nload 2 7d0d\nget 0\nget 1\nload 1 7d\nget 0\nload 1 fd\nimage",
        "ok\nok\n5 -1\n2 3\nok\n5 -1\nrefused image\n1 7d\n",
    ),
    (
        b"high p:u3 q:u64\nload 1 ffffffffffffffffe0\nget 0\nload 1 fFfFfFfFfFfFfFfFe1",
        "ok\nok\n7 18446744073709551615\nrefused image\n",
    ),
    # letters are off, and what was kept stays
    (
        HIGH + b"mark x a > 2\nkeep\nnot x\nload 2 be8c\nlist x\nnot x\nlist x\nload 0\nback\nlist x\nimage",
        "ok\nok\nok\nok\nok\nok\nok\nnone\nok\n0 1\nok\nok\n0\n2 be8c\n",
    ),
]

# Rows of 257 bits, 0, 0, 0, 0 and 1.
LOW_257 = b"low a:u64 b:u64 c:u64 d:u64 e:u1\ninsert 0 0 0 0 0 1\nimage\n"
HIGH_257 = b"high" + LOW_257[3:]

# Layouts of 1,024 bits.
LOW_1024, HIGH_1024 = (b"%s %s" % (rule, worked_lines.SIXTEEN.encode()) for rule in (b"low", b"high"))

# Scripts of long rows with their answers, for every storage.
LONG_ROWS = [
    (LOW_1024 + b" q:u1\n" + LOW_1024, "refused layout\nok\n"),
    (HIGH_1024 + b" q:u1\n" + HIGH_1024, "refused layout\nok\n"),
    (
        LOW_257 + b"insert 1 0 0 0 0 1\nimage\nget 1",
        "ok\nok\n1 " + "0" * 64 + "01\nok\n2 " + "0" * 64 + "01" + "0" * 62 + "02\n0 0 0 0 1\n",
    ),
    (
        HIGH_257 + b"insert 1 0 0 0 0 1\nimage\nget 1",
        "ok\nok\n1 " + "0" * 64 + "80\nok\n2 " + "0" * 64 + "80" + "0" * 62 + "40\n0 0 0 0 1\n",
    ),
    (
        LOW_1024 + b"\nload 2251799813685248 00\nload 2251799813685247 00\nimage",
        "ok\nrefused full\nrefused image\n0\n",
    ),
    # the last field of each row
    (
        LOW_1024 + b"\nload 2 " + b"0" * 254 + b"80" + b"0" * 254 + b"40\n"
        b"mark x p < 0\nlist x\nswap 0 1\nlist x\nset 0 a 1\nimage",
        "ok\nok\nok\n0\nok\n1\nok\n2 01" + "0" * 252 + "40" + "0" * 254 + "80\n",
    ),
]

# Scripts with their answers, for some storages.
MORE_SCRIPTS = [
    # numbers of 10,000 nines, and of 10,000 zeros and a 1; the row 1 and 1 goes before the second
    (LOW + b"insert 0 " + b"9" * 10000 + b" 0\nimage", "ok\nok\nok\nrefused value\n2 7d0d\n"),
    (LOW + b"insert 0 0 -" + b"9" * 10000 + b"\nimage", "ok\nok\nok\nrefused value\n2 7d0d\n"),
    (LOW + b"insert " + b"9" * 10000 + b" 0 0\nimage", "ok\nok\nok\nrefused row\n2 7d0d\n"),
    (LOW + b"insert " + b"0" * 10000 + b"1 1 1\nimage", "ok\nok\nok\nok\n3 fd8406\n"),
    (LOW + b"insert 1 " + b"0" * 10000 + b"1 1\nimage", "ok\nok\nok\nok\n3 fd8406\n"),
    # 20,000 digits are 10,000 bytes, and one more is none
    (
        b"low f:u64\nload 1250 " + b"a" * 20000 + b"\nget 0\nget 1249\nget 1250\nload 1250 " + b"a" * 20001 + b"\ncount x",
        "ok\nok\n12297829382473034410\n12297829382473034410\nrefused row\nrefused form\n0\n",
    ),
    # twenty rows: three more, three fewer, one more, as many
    (
        b"low f:u1\nload 20 000000\ndup 2 5\nimage\nload 20 000000\ndelete 2 5\nimage\n"
        b"load 20 000000\ninsert 0 1\nimage\nload 20 000000\nswap 0 1\nimage",
        "ok\nok\nok\n23 000000\nok\nok\n17 000000\nok\nok\n21 010000\nok\nok\n20 000000\n",
    ),
    # numbers compared, with a sign and without
    (
        b"low a:i5\ninsert 0 2\ninsert 1 3\ninsert 2 4\ninsert 3 -1\ninsert 4 0\ninsert 5 -8\ninsert 6 -7\n"
        b"mark x a < 3\nlist x\nmark x a = 3\nlist x\nmark x a > 3\nlist x\nmark x a < 0\nlist x\n"
        b"mark x a > -1\nlist x\nmark x a < 8\ncount x\nmark x a = -8\nlist x\nmark x a > -8\nlist x",
        "ok\n" * 8 + "ok\n0 3 4 5 6\nok\n1\nok\n2\nok\n3 5 6\nok\n0 1 2 4\nok\n7\nok\n5\nok\n0 1 2 3 4 6\n",
    ),
    (
        b"high a:u64 b:i64\ninsert 0 18446744073709551614 -9223372036854775808\n"
        b"insert 1 18446744073709551615 9223372036854775807\nmark x a < 18446744073709551615\nlist x\n"
        b"mark x a > 9223372036854775807\nlist x\nmark x b < 9223372036854775807\nlist x\nmark x b < 0\nlist x",
        "ok\nok\nok\nok\n0\nok\n0 1\nok\n0\nok\n0\n",
    ),
]

# Five rows, and what tells their numbers.
FIVE_ROWS = b"high a:u3 b:i4\ninsert 0 5 -1\ninsert 1 2 3\ninsert 2 7 -8\ninsert 3 4 6\ninsert 4 0 0\n"
NUMBERS = (
    b"image\nget 0\nget 1\nget 2\nget 3\nget 4\nget 5",
    "5 be8fc46000\n5 -1\n2 3\n7 -8\n4 6\n0 0\nrefused row\n",
)

# Edits, each line answered `ok`, that leave the numbers of the five rows.
UNDONE = [
    b"insert 0 1 1\ndelete 0 1\n",
    b"insert 2 7 7\ndelete 2 3\n",
    b"insert 5 0 -8\ndelete 5 6\n",
    b"rotate 0 5 0\nrotate 0 5 5\n",
    b"rotate 0 5 1\nrotate 0 5 4\n",
    b"rotate 1 4 2\nrotate 1 4 1\n",
    b"rotate 3 3 0\nrotate 3 3 0\n",
    b"swap 1 3\nswap 3 1\n",
    b"dup 1 4\ndelete 5 8\n",
    b"copy 1 3 1\ndelete 2 2\n",
    b"keep\ndelete 0 5\nback\n",
]

# One number of the five rows made another one, and their numbers then.
CHANGED = [
    (b"set 0 a 0\n", "0 -1\n2 3\n7 -8\n4 6\n0 0\n"),
    (b"set 2 b 7\n", "5 -1\n2 3\n7 7\n4 6\n0 0\n"),
    (b"set 4 a 7\n", "5 -1\n2 3\n7 -8\n4 6\n7 0\n"),
    (b"set 1 b -8\n", "5 -1\n2 -8\n7 -8\n4 6\n0 0\n"),
]

# Of the five rows 0, 2 and 3 bear x, 1 and 3 bear y, and 4 bears z.
LETTERS = b"mark x a > 3\nmark y b > 2\nmark z a = 0\n"
BEARERS = (b"image\nlist x\nlist y\nlist z", "5 be8fc46000\n0 2 3\n1 3\n4\n")

# Edits, each line answered `ok`, that leave their letters.
LETTERS_LEFT = [
    b"insert 0 1 1\ndelete 0 1\n",
    b"insert 3 1 1\ndelete 3 4\n",
    b"insert 5 1 1\ndelete 5 6\n",
    b"rotate 0 5 2\nrotate 0 5 3\n",
    b"rotate 1 4 1\nrotate 1 4 2\n",
    b"rotate 2 2 0\nrotate 2 2 0\n",
    b"not x\nnot x\n",
    b"swap 0 4\nswap 4 0\n",
    b"keep\ndrop x\nback\n",
    b"set 3 a 0\nset 3 a 4\n",
]

# How many of the five rows bear a letter, and how many do not.
COUNTS = [(b"x", 3, 2), (b"y", 2, 3), (b"z", 1, 4), (b"q", 0, 5)]

# Tables of which some rows bear x, and their images; the image is loaded again after the first row went.
OWN_IMAGES = [
    (b"high a:u3 b:i4\ninsert 0 5 -1\ninsert 1 2 3\ninsert 2 0 -8\nmark x a > 0\n", b"3 be8c40"),
    (b"low n:i64\ninsert 0 -1\ninsert 0 9223372036854775807\nmark x n < 0\n", b"2 ffffffffffffff7fffffffffffffffff"),
    (b"low f:u1\ninsert 0 1\ninsert 1 0\ninsert 2 1\ninsert 3 1\nmark x f = 1\n", b"4 0d"),
    (b"high p:i1 q:u33 r:i7\ninsert 0 -1 8589934591 -64\nmark x p < 0\n", b"1 ffffffffe000"),
]



def moved(rows, letters, other=None):
    """What `!moved` answers: the words that the rows' move wrote, and those of each letter's list, but for one letter."""
    return " ".join(["moved", str(rows)] + ["0" if x == other else str(letters) for x in "abcdefghijklmnopqrstuvwxyz"]) + "\n"


# The storages that `!relay` names.
RELAYS = [b"u8 msb0", b"u16 hilo", b"u32 lsb0", b"u64 msb0"]

# Seventy rows 0 to 69, of which those above 20 bear x and those below 50 bear y.
SEVENTY = (
    b"high f:u7\n" + b"".join(b"insert %d %d\n" % (row, row) for row in range(70)) + b"mark x f > 20\nmark y f < 50\n",
    "ok\n" * 73,
)

# Lines of a table, with lines of this program's own, and their answers, for every storage.
TABLES = [
    (HIGH + b"!bits\n!letters\n!moved", "ok\nok\nok\n[10111110100011]\nletters\n" + moved(0, 0)),
    (LOW + b"!bits", "ok\nok\nok\n[10111110101100]\n"),
    # the bits of letters behind edits
    (
        HIGH + b"mark x b < 0\n!letters\ninsert 1 0 -8\nor z x\nnot z\n!letters\ndup 0 1\ndelete 1 2\n!letters\n"
        b"drop x\n!letters\nimage",
        "ok\nok\nok\nok\nletters x[10]\nok\nok\nok\nletters x[100] z[011]\nok\nok\nletters x[101] z[010]\n"
        "ok\nletters z[1]\n1 46\n",
    ),
    # no row goes, and then all
    (
        HIGH + b"mark x a < 0\ndrop x\n!bits\nnot x\ndrop x\n!bits\n!letters",
        "ok\n" * 5 + "[10111110100011]\nok\nok\n[]\nletters\n",
    ),
    # letters a and z of three rows, put, turned round and taken away
    (
        b"low f:u2\nload 3 24\n!letters\nmark a f = 2\nmark z f = 1\n!letters\nnot z\n!letters\ncount z\ncount a\ncount b\n"
        b"mark a f > 2\n!letters",
        "ok\nok\nletters\nok\nok\nletters a[001] z[010]\nok\nletters a[001] z[101]\n2\n1\n0\nok\nletters z[101]\n",
    ),
]

# Both letters of an operation, and one alone: of seventy rows 29 bear both, 41 exactly one. So many rows are so many steps
# where a step carries 64 bits, and as many as they are where it carries one, under `fifth`.
STEPS = {0: 0, 70: 2, 1000: 16}
COMBINED = [
    (
        70,
        SEVENTY[0] + b"!and x y\ncount x\ncount y\n!and y y\ncount y",
        SEVENTY[1] + "%d\n29\n50\n0\n50\n",
    ),
    (70, SEVENTY[0] + b"!or x y\ncount x\ncount y\n!or y y\ncount y", SEVENTY[1] + "%d\n70\n50\n0\n50\n"),
    (70, SEVENTY[0] + b"!xor x y\ncount x\ncount y\n!xor y y\ncount y", SEVENTY[1] + "%d\n41\n50\n0\n0\n"),
    (
        1000,
        b"low f:u1\nload 1000 " + 125 * b"00" + b"\nmark x f = 0\n!and y x\ncount y\n!or y x\ncount y\n!xor y x\ncount y",
        "ok\nok\nok\n%d\n0\n%d\n1000\n%d\n0\n",
    ),
    (0, b"low f:u1\n!and x y\n!or x y\n!xor x y\ncount x", "ok\n%d\n%d\n%d\n0\n"),
]

# Rows, letters and what is kept go to another storage, and answer there and here as before.
RELAYED = [
    (
        HIGH + b"mark x b < 0\n!relay %s\nimage\nget 0\nlist x\nback",
        "ok\nok\nok\nok\n[10111110100011]\n2 be8c\n5 -1\n0\nrefused kept\n",
    ),
    (
        HIGH + b"mark x b < 0\nkeep\ndelete 0 2\n!moved\n!relay %s\n!moved\nimage\nback\nimage\nlist x\nback",
        "ok\nok\nok\nok\nok\nok\n" + moved(0, 0) + "[]\n" + moved(0, 0) + "0\nok\n2 be8c\n0\nrefused kept\n",
    ),
]

# The same for storages of one word: how many words the moves wrote.
MOVES = [
    # a row of seven bits goes from bit 7 to 14
    *[
        (word, HIGH + b"insert 1 0 -8\n!moved\nimage", "ok\nok\nok\nok\n" + moved(words, 1) + "3 be2118\n")
        for word, words in (("u8", 2), ("u16", 2), ("u32", 1), ("u64", 1))
    ],
    ("u8", LOW + b"insert 1 0 -8\n!moved\nimage", "ok\nok\nok\nok\n" + moved(2, 1) + "3 7da006\n"),
    # the last two of these rows go to the front
    ("u8", HIGH + b"insert 1 0 -8\ndelete 0 1\n!moved\nimage", "ok\nok\nok\nok\nok\n" + moved(2, 1) + "2 108c\n"),
    # the bytes 1 to 5: all five when a row is put before them and when it goes again; the last four when the first goes
    (
        "u8",
        b"low f:u8\n!moved\ninsert 0 1\ninsert 1 2\ninsert 2 3\ninsert 3 4\ninsert 4 5\n!moved\ninsert 0 9\n!moved\n"
        b"get 5\nswap 0 1\nswap 0 1\n!moved\ndelete 0 1\n!moved\nmark c f = 1\nmark e f > 1\ndrop c\n!moved\ncount e\nimage\n"
        b"!relay u8 msb0\n!moved",
        "ok\n" + moved(0, 0) + "ok\n" * 5 + moved(0, 0) + "ok\n" + moved(5, 1) + "5\nok\nok\n" + moved(5, 1)
        + "ok\n" + moved(5, 1) + "ok\nok\nok\n" + moved(4, 1, "c") + "4\n4 02030405\n"
        + "[01000000110000000010000010100000]\n" + moved(0, 0),
    ),
    # twenty rows, each list in three words: bits 1 to 20 lie in three, 11 to 20 in two
    *[
        ("u8", b"low f:u1\nload 20 000000\n" + edit + b"\n!moved", "ok\nok\nok\n" + moved(words, words))
        for edit, words in (
            (b"insert 0 0", 3),
            (b"insert 10 0", 2),
            (b"insert 20 0", 0),
            (b"delete 0 1", 3),
            (b"delete 0 12", 1),
            (b"delete 18 20", 0),
            (b"copy 0 9 5", 0),
            (b"swap 3 19", 0),
            (b"rotate 0 20 9", 0),
            (b"dup 4 20", 0),
        )
    ],
    # letter a goes with row 2: 19 bits of each other list lie in three words; three rows stay, in one word
    (
        "u8",
        b"low f:u1\nload 20 040000\nmark a f = 1\ndrop a\n!moved\nimage",
        "ok\nok\nok\nok\n" + moved(3, 3, "a") + "19 000000\n",
    ),
    (
        "u8",
        b"low f:u1\nload 20 f8ff0f\nmark a f = 1\ndrop a\n!moved\nimage",
        "ok\nok\nok\nok\n" + moved(1, 1, "a") + "3 00\n",
    ),
]
