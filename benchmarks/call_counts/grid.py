"""The cells that benchmarks/calls counts: for each call a base, and each other length, storage, content and place with
some of these. A cell is CALL STORAGE LEN CONTENT NUMBER PLACE OTHER WIDTH TIMES."""

BASE = ["u64l", "u8m", "u64h", "u64f", "u32f", "u8f"]
LENS = [1, 3, 8, 16, 33, 64, 200, 1000]
MORE_LENS = [2, 4, 5, 7, 13, 17, 20, 24, 29, 41, 65, 100, 128]
MORE_AT = ["u64l", "u64h", "u32f"]
FEW_LENS = [2, 5, 7, 13, 24, 128]
FEW_AT = ["u8m", "u64f"]
OTHERS = ["u64m", "u32l", "u8l", "u128h", "u32h", "u16h", "u8h", "u128f", "u16f", "u64n", "u64r"]
OTHER_LENS = [13, 32, 200]
NARROW = ["u8h", "u16h", "u32h"]
NARROW_LENS = [5, 8, 16, 24, 25, 33, 49, 65, 81, 100]
OWN_LENS = [5, 20, 25, 1000]
STARTS = [0, 4, 8, 16, 32]
TIMES = 8

SCANS_UP = ["first_one", "first_zero", "iter_ones_first", "iter_ones_front", "iter_ones_turns", "own_first",
            "own_front", "own_turns"]
SCANS_DOWN = ["last_one", "last_zero", "iter_ones_last", "iter_ones_back", "own_last", "own_back"]
COMPARES = ["eq_bits", "cmp_bits"]
SEEKS = ["contains", "starts_with", "ends_with"]
EDITS = ["copy", "copy_u64l", "copy_u8m", "and_bits", "or_bits", "xor_bits", "swap_with_bitslice", "reverse",
         "rotate_left", "rotate_third", "for_each", "fill_with", "move_within", "move_within_up"]
TWO = ["copy", "and_bits", "or_bits", "xor_bits", "swap_with_bitslice", "eq_bits", "cmp_bits", "extend_from_bitslice",
       "append"]
VECTORS = ["extend_from_bitslice", "append", "clone", "split_off", "drain", "push", "collect", "retain", "retain_index",
           "retain_most"]
FIELDS = ["load_le", "load_be", "store_le", "store_be"]
NUMBERS = ["load_number_low", "load_number_high", "store_number_low", "store_number_high"]
TABLES = ["table_mark", "table_list", "table_image", "table_load", "table_drop", "table_keep", "table_insert",
          "table_set", "table_get"]
RULED = ["table_mark", "table_image", "table_load", "table_insert", "table_set", "table_get"]


class Grid:
    """Cells, each once."""

    def __init__(self):
        self.cells = {}

    def add(self, call, storage, length, content="r", number=2, places=(3, 5), width=0, times=TIMES):
        cell = (call, storage, length, content, number, *places, width, times)
        self.cells[tuple(map(str, cell))] = None

    def each(self, calls, storages, lens, contents=(("r", 2),), **more):
        for call in calls:
            for storage in storages:
                for length in lens:
                    for content, number in contents:
                        self.add(call, storage, length, content, number, **more)

    def product(self, calls, **more):
        """The base of calls, and the other lengths and storages with some of it."""
        self.each(calls, BASE, LENS, **more)
        self.each(calls, MORE_AT, MORE_LENS, **more)
        self.each(calls, FEW_AT, FEW_LENS, **more)
        self.each(calls, OTHERS, OTHER_LENS, **more)
        self.each(calls, NARROW, NARROW_LENS, **more)
        self.each(calls, ["u64n", "u64r"], OWN_LENS, **more)


def scans(grid):
    grid.product(SCANS_UP + SCANS_DOWN)
    for calls, only, beside in ((SCANS_UP, "at", "from"), (SCANS_DOWN, "back", "upto")):
        far = [("at" if only == "back" else "back", 0)]
        grid.each(calls, BASE, [64], [(only, k) for k in STARTS] + far)
        grid.each(calls, ["u64l", "u64h", "u32f", "u128h"], [200], [(beside, k) for k in STARTS])
        grid.each(calls, ["u64l", "u64f"], [1024], [(only, 900)])
        grid.each(calls, ["u64f", "u32f", "u64l", "u64h"], [20_100], [(only, 20_000)], times=2)
    calls = SCANS_UP + SCANS_DOWN
    grid.each(calls, BASE, [33, 200], [("r", 8), ("r", 64)])
    grid.each(calls, BASE, [1, 16, 100, 1000], [("none", 0), ("all", 0)])
    grid.each(calls, ["u64l", "u64n"], [65, 128], [("none", 0)])
    grid.each(calls, ["u64f", "u8f", "u64l"], [20_000], [("none", 0)], times=2)
    grid.each(calls, ["u8f", "u8h", "u16f", "u64l", "u64f"], [2048], [("r", 67)], times=2)
    grid.each(calls, ["u64l", "u32f"], [2048], [("r", 2)], times=2)


def compares(grid):
    grid.product(COMPARES)
    grid.each(COMPARES, BASE, [64, 200], [("at", k) for k in STARTS] + [("back", 0)])
    grid.each(COMPARES, ["u64r", "u64n", "u128h", "u16f"] + NARROW, [200], [("at", k) for k in STARTS])
    grid.each(COMPARES, BASE, [80, 100, 200], [("at", 16), ("at", 17)])
    for call, width in (("contains", 5), ("starts_with", 5), ("ends_with", 5), ("starts_with", 33), ("ends_with", 33)):
        grid.product([call], width=width)
    for width in (5, 33):
        ends = [("at", k) for k in STARTS] + [("back", width - 1)]
        grid.each(["contains"], BASE, [64, 200], ends, width=width)
        grid.each(["contains"], BASE, [33, 200], [("from", k) for k in STARTS], width=width)
        grid.each(["contains"], BASE, [33, 200, 1000], [("r", 2), ("none", 0), ("all", 0)], width=width)
        grid.each(["starts_with", "ends_with"], BASE, [64], [("at", k) for k in (0, 4, 32)], width=width)


def edits(grid):
    grid.product(EDITS)
    grid.each(["move_within", "move_within_up"], ["u64f", "u8f", "u128h"], [4, 5, 10])
    for places in ((3, 3), (0, 0)):
        grid.each(TWO, BASE, [8, 16, 33, 200], places=places)
    grid.each(["reverse", "for_each", "rotate_left", "fill_with"], BASE, [8, 64], places=(0, 0))


def vectors(grid):
    grid.product(VECTORS)
    runs = [("run", k) for k in (1, 2, 3, 4, 7)]
    grid.each(["retain"], BASE, [24, 64, 200], runs + [("r", 8), ("none", 0), ("all", 0)])
    grid.each(["retain", "retain_index"], BASE, [24, 100])
    grid.each(["split_off", "drain", "clone", "push"], BASE, [8, 64, 200], places=(0, 0))


def numbers(grid):
    widths = [1, 2, 3, 4, 5, 7, 8, 13, 16, 17, 24, 29, 33, 63, 64]
    grid.each(FIELDS, ["u64l", "u64m", "u8m", "u32l", "u8l"], widths)
    grid.each(FIELDS, ["u64l", "u64m", "u8m"], [2, 8, 33], places=(63, 5))
    grid.each(FIELDS, ["u64l", "u8m"], [1, 8, 64], places=(0, 0))
    grid.each(NUMBERS, BASE, widths)
    grid.each(NUMBERS, ["u64m", "u32l", "u128h", "u128f", "u32h", "u8h", "u16f"], [1, 2, 3, 4, 7, 17, 33, 64])
    grid.each(NUMBERS, ["u64l", "u8m", "u64h", "u64f"], [2, 8, 33], places=(63, 5))


def tables(grid):
    zero = {"places": (0, 0)}
    for width in (1, 3, 17):
        grid.each(TABLES, BASE + ["u128h"], [1, 8, 33, 128], width=width, **zero)
    for width in (1, 3):
        grid.each(TABLES, NARROW, [8, 33, 128], width=width, **zero)
    for width in (2, 4, 7, 33, 64):
        grid.each(TABLES, ["u64l", "u64h", "u64f", "u8f"], [16], width=width, **zero)
    grid.each(TABLES, ["u64l", "u64h", "u64f", "u128h"], [2, 3, 5, 7, 16, 64, 200], width=1, **zero)
    for width in (1, 3, 17):
        grid.each([call + "_high" for call in RULED], BASE, [8, 33], width=width, **zero)
    grid.each(["table_image", "table_load"], ["u64f", "u64h", "u128h"], [2000], width=1, times=2, **zero)
    few = [("none", 0), ("all", 0), ("r", 8), ("r", 64), ("back", 0), ("at", 0)]
    grid.each(["table_list"], BASE + ["u128h"], [8, 64, 200], few, width=1, **zero)
    runs = [("run", k) for k in (1, 2, 3, 4, 7)]
    for width in (1, 3):
        grid.each(["table_drop"], BASE + ["u128h"], [33, 200], runs + few, width=width, **zero)
    grid.each(["table_drop_b"], BASE + ["u128h"], [8, 64, 128], [("all", 0), ("run", 1), ("run", 7)], width=1, **zero)


def cells():
    """All cells, by call and storage."""
    grid = Grid()
    for part in (scans, compares, edits, vectors, numbers, tables):
        part(grid)
    return sorted(grid.cells, key=lambda cell: (*cell[:2], int(cell[7]), int(cell[2]), cell[3], int(cell[4]), cell[5:]))
