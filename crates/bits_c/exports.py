#!/usr/bin/env python3
"""Writes the exports of the four storages, src/u64_lsb0.rt and so on, from one list of operations.

usage: exports.py [--check]   with --check it writes nothing, and fails where a file is not what it would write

No macro writes items with contracts, so each export stands in full. An operation is told once, below: `$W` is the word's
type, `$B` its bits, `$R` how the words are read, `$O` the order, `$L` whether the first bit of a word is its lowest digit.
"""

import os
import sys

HERE = os.path.dirname(os.path.realpath(__file__))
STORAGES = [("u64", 64, "lsb0"), ("u64", 64, "msb0"), ("u8", 8, "lsb0"), ("u8", 8, "msb0")]

HEAD = """\
//! Words of `$W`, which begin with the $E digit.
//!
//! exports.py wrote this file.

ghost use Rattle.std.specs.Prelude.{◌≡◌, ◌≢◌, ◌-◌, ◌≤◌, ◌++◌, ◌&&◌, ◌||◌, [], ◌∷◌, Some, false, pos, true};
ghost use Rattle.std.specs.Prelude.{count_by, drop, map, not, position, replicate, reverse, slice_index_or, take};
ghost use Rattle.std.specs.Bool.{xor};
ghost use Rattle.std.specs.Cmp.Lexicographic.{slice_cmp};
ghost use Rattle.std.specs.List.{list_all, list_any};
ghost use Rattle.std.specs.Ordering.{bool_cmp};
ghost use Rattle.std.specs.Simd.Lanes.{zip2};
ghost use Rattle.bit_addressing_memory.specs.Memory.{memory};
ghost use Rattle.bit_slice_fields.specs.Whole.{FitsIn};
ghost use Rattle.bit_slice_words.specs.Found.{is_bit, last_position};
ghost use Rattle.bits_c.specs.Outcomes.{Numbered, Ranged, Sought};
ghost use Rattle.bits_c.specs.Windows.{Lies, Tells, Wrote, bit_number, $o, number_bits, order_number, window};
ghost use Rattle.bits_c.specs.declared.status.TheConstants.{OK};

use crate::{changes, combines, compares, numbers, reads};
use bit_addressing_memory::$O;
"""

READ, WRITE = "words: &[$W]", "words: &mut [$W]"
WINDOW = ["start: usize", "len: usize"]
OTHER = ["other: &[$W]", "other_start: usize"]
NOW, OLD = "(window $R words.now start len)", "(window $R words.old start len)"
LIES, LAY = "Lies $R words.now start len", "Lies $R words.old start len"
THEIRS = "(window $R other.now other_start len)"
BOTH_LIE = "$LIES\n        × Lies $R other.now other_start other_len".replace("$LIES", LIES)
BOTH_LAY = "$LAY\n        × Lies $R other.now other_start len".replace("$LAY", LAY)


def found(name, text, place, bit):
    """A search."""
    where = f"({place} (is_bit {bit}) {NOW})"
    which = name.split("_")[0]
    return {
        "name": name,
        "text": text,
        "takes": [READ, *WINDOW, "index: &mut usize"],
        "status": f"Sought result ({LIES})\n        {where}",
        "done": f"Some index.new\n        ≡ {where[1:-1]}",
        "answer": "index",
        "call": f"reads::{which}::<$W, $O>(words, start, len, {bit}, index)",
    }


def told(name, text, test):
    """A test of the bits."""
    return {
        "name": name,
        "text": text,
        "takes": [READ, *WINDOW, "answer: &mut u8"],
        "status": f"Ranged result ({LIES})",
        "done": f"answer.new\n        ≡ bit_number ({test} (λ b. b) {NOW})",
        "answer": "answer",
        "call": f"reads::{name}::<$W, $O>(words, start, len, answer)",
    }


def compared(name, text, answer, done):
    """Two windows compared."""
    return {
        "name": name,
        "text": text,
        "takes": [READ, *WINDOW, "other: &[$W]", "other_start: usize", "other_len: usize", answer],
        "status": f"Ranged result ({BOTH_LIE})",
        "done": done,
        "answer": answer.split(":")[0],
        "call": f"compares::{name}::<$W, $O>(words, start, len, other, other_start, other_len, {answer.split(':')[0]})",
    }


def loaded(name, text, number, signed):
    """A number loaded."""
    whole = "value.new" if signed == "true" else "(pos value.new)"
    return {
        "name": name,
        "text": text,
        "takes": [READ, *WINDOW, f"value: &mut {number}"],
        "status": f"Numbered result 64 len ({LIES})",
        "done": f"window $R words.now start len\n        ≡ number_bits $L len {whole}",
        "within": f"FitsIn {signed} len {whole}",
        "answer": "value",
        "call": f"numbers::load::<$W, $O, {number}>(words, start, len, value)",
    }


def changed(name, text, takes, bits, call, lies=LAY, status="Ranged result", start="start"):
    """Bits of a memory made others."""
    return {
        "name": name,
        "text": text,
        "takes": [WRITE, *takes],
        "status": f"{status} ({lies})",
        "done": f"Wrote $R words.old words.new {start}\n        {bits}",
        "answer": "words",
        "call": call,
    }


def combined(name, text, bits):
    """A window combined with bits of another memory."""
    call = f"combines::{name}_bits::<$W, $O>(words, start, len, other, other_start)"
    return changed(name, text, [*WINDOW, *OTHER], bits, call, BOTH_LAY)


OPERATIONS = [
    {
        "name": "get",
        "text": "Bit `index`, as 0 or 1.",
        "takes": [READ, "index: usize", "bit: &mut u8"],
        "status": "Ranged result (Lies $R words.now index 1)",
        "done": "bit.new\n        ≡ bit_number (slice_index_or (memory $R words.now) index false)",
        "answer": "bit",
        "call": "reads::get::<$W, $O>(words, index, bit)",
    },
    {
        "name": "count_ones",
        "text": "How many of `len` bits from `start` on are 1.",
        "takes": [READ, *WINDOW, "ones: &mut usize"],
        "status": f"Ranged result ({LIES})",
        "done": f"ones.new ≡ count_by (λ b. b) {NOW}",
        "answer": "ones",
        "call": "reads::count_ones::<$W, $O>(words, start, len, ones)",
    },
    found("first_one", "The index of the first bit that is 1, from the window's start.", "position", "true"),
    found("last_one", "The index of the last bit that is 1, from the window's start.", "last_position", "true"),
    found("first_zero", "The index of the first bit that is 0, from the window's start.", "position", "false"),
    found("last_zero", "The index of the last bit that is 0, from the window's start.", "last_position", "false"),
    told("any", "Whether a bit is 1, as 0 or 1: of no bits none is.", "list_any"),
    told("all", "Whether each bit is 1, as 0 or 1: of no bits each is.", "list_all"),
    compared(
        "equal",
        "Whether two windows are the same list of bits, as 0 or 1.",
        "answer: &mut u8",
        f"Tells answer.new ({NOW[1:-1]}\n        ≡ window $R other.now other_start other_len)",
    ),
    compared(
        "compare",
        "How two windows compare as lists, 0 before 1 and a beginning before the whole: -1, 0 or 1.",
        "order: &mut i32",
        f"order.new ≡ order_number (slice_cmp bool_cmp\n        {NOW} (window $R other.now other_start other_len))",
    ),
    loaded("load", "The number in 1 to 64 bits, the first of them $E.", "u64", "false"),
    loaded("load_signed", "The number in 1 to 64 bits in two's complement, the first of them $E.", "i64", "true"),
    changed(
        "set",
        "Makes bit `index` `bit`.",
        ["index: usize", "bit: bool"],
        "(bit ∷ [])",
        "changes::set::<$W, $O>(words, index, bit)",
        "Lies $R words.old index 1",
        start="index",
    ),
    changed(
        "fill",
        "Makes each bit `bit`.",
        [*WINDOW, "bit: bool"],
        "(replicate len bit)",
        "changes::fill::<$W, $O>(words, start, len, bit)",
    ),
    changed(
        "not",
        "Flips each bit.",
        WINDOW,
        f"(map not {OLD})",
        "changes::invert::<$W, $O>(words, start, len)",
    ),
    changed(
        "reverse",
        "Turns the bits round: the last becomes the first.",
        WINDOW,
        f"(reverse {OLD})",
        "changes::reverse::<$W, $O>(words, start, len)",
    ),
    changed(
        "rotate_left",
        "Moves each bit `by` places towards the first one, `len` at most; the first `by` become the last.",
        [*WINDOW, "by: usize"],
        f"(drop by {OLD} ++ take by {OLD})",
        "changes::rotate_left::<$W, $O>(words, start, len, by)",
        f"{LAY} × (by ≤ len)",
    ),
    changed(
        "rotate_right",
        "Moves each bit `by` places towards the last one, `len` at most; the last `by` become the first.",
        [*WINDOW, "by: usize"],
        f"(drop (len - by) {OLD}\n        ++ take (len - by) {OLD})",
        "changes::rotate_right::<$W, $O>(words, start, len, by)",
        f"{LAY} × (by ≤ len)",
    ),
    changed(
        "move",
        "Copies the `len` bits from `from` on to the places from `to` on, overlap allowed.",
        ["from: usize", "to: usize", "len: usize"],
        "(window $R words.old from len)",
        "changes::move_bits::<$W, $O>(words, from, to, len)",
        "Lies $R words.old from len × Lies $R words.old to len",
        start="to",
    ),
    changed(
        "store",
        "Stores the lowest `len` digits of a number in 1 to 64 bits, the first of them $E.",
        [*WINDOW, "value: u64"],
        "(number_bits $L len (pos value))",
        "numbers::store::<$W, $O, u64>(words, start, len, value)",
        status="Numbered result 64 len",
    ),
    changed(
        "store_signed",
        "Stores the lowest `len` digits of a number in two's complement in 1 to 64 bits, the first of them $E.",
        [*WINDOW, "value: i64"],
        "(number_bits $L len value)",
        "numbers::store::<$W, $O, i64>(words, start, len, value)",
        status="Numbered result 64 len",
    ),
    combined("copy", "Makes the bits those of another memory from `other_start` on.", THEIRS),
    combined("and", "Makes each bit what it and the other one are both.", f"(zip2 (λ a b. a && b) {OLD}\n        {THEIRS})"),
    combined("or", "Makes each bit what it or the other one is.", f"(zip2 (λ a b. a || b) {OLD}\n        {THEIRS})"),
    combined("xor", "Makes each bit whether it and the other one differ.", f"(zip2 xor {OLD}\n        {THEIRS})"),
]

WIDTH = 100


def clause(name, fact):
    """A clause, on one line where it fits."""
    one = f"    ensures {name} {{ {' '.join(fact.split())} }}"
    return one if len(one) <= 120 else f"    ensures {name} {{ {fact} }}"


def head(name, takes):
    """The line of a function's name, laid out as rt fmt does."""
    start, end = f'pub extern "C" fn {name}(', ") -> u32"
    one = start + ", ".join(takes) + end
    return one if len(one) <= WIDTH else "\n".join([start, *(f"    {take}," for take in takes), end])


def body(call):
    """A call alone in a body, laid out as rt fmt does."""
    one = f"    {call}"
    if len(one) <= WIDTH:
        return one
    callee, words = call[:-1].split("(", 1)
    return "\n".join([f"    {callee}(", *(f"        {word}," for word in words.split(", ")), "    )"])


def export(prefix, it):
    lines = [f"/// {it['text']}", "#[unsafe(no_mangle)]", head(f"{prefix}_{it['name']}", it["takes"])]
    lines.append(clause("status", it["status"]))
    lines.append(clause("done", f"result ≡ OK → {it['done']}"))
    if "within" in it:
        lines.append(clause("within", f"result ≡ OK → {it['within']}"))
    lines.append(clause("refused", f"result ≢ OK → {it['answer']}.new ≡ {it['answer']}.old"))
    return "\n".join([*lines, "{", body(it["call"]), "}"])


def text(word, bits, order):
    low = order == "lsb0"
    names = {
        "$W": word,
        "$B": str(bits),
        "$R": f"({order} {bits})",
        "$O": order.capitalize(),
        "$o": order,
        "$L": "true" if low else "false",
        "$E": "lowest" if low else "highest",
    }

    def filled(it):
        if isinstance(it, dict):
            return {key: filled(value) for key, value in it.items()}
        if isinstance(it, list):
            return [filled(value) for value in it]
        for name, value in names.items():
            it = it.replace(name, value)
        return it

    exports = [export(f"bits_{word}_{order}", filled(it)) for it in OPERATIONS]
    return "\n".join([filled(HEAD), "\n\n".join(exports), ""])


def main():
    if sys.argv[1:] not in ([], ["--check"]):
        sys.exit(__doc__)
    for word, bits, order in STORAGES:
        path = f"{HERE}/src/{word}_{order}.rt"
        wanted = text(word, bits, order)
        if sys.argv[1:]:
            with open(path, encoding="utf-8") as file:
                if file.read() != wanted:
                    sys.exit(f"{path} is not what exports.py writes")
        else:
            with open(path, "w", encoding="utf-8") as file:
                file.write(wanted)


main()
