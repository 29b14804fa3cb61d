#!/usr/bin/env python3
"""What the built program does where memory, its input or its output fails, and with bytes that mean harm.

usage: faults/program.py PROGRAM SHIM, at the top of the repository; SHIM is faults/shim.c, built. Each line that is printed
tells what held; the first thing that is not so ends it, with status 1. The answers are those of a plain table.
"""

import os
import resource
import subprocess
import sys
import tempfile

sys.path.append("crates/bit_table_cases")
from plain import answers

PROGRAM, SHIM = sys.argv[1:3]
NO_SEPARATOR = [bytes([byte]) for byte in range(256) if byte not in b"\n \t\r"]

# Each command, and each cause.
ALL = b"""high
low a:u3 b:i4 c:u17
insert 0 5 -1 70000
insert 1 2 3 4
set 1 b -8
get 1
image
mark x b < 0
mark y a > 2
dup 0 2
copy 0 1 3
swap 0 1
rotate 0 4 1
keep
and x y
or x y
xor x y
not x
count x
list x
list y
get 9
set 0 z 1
set 0 a 8
dup 0 4
drop x
image
back
list x
load 1 000000
load 0
load 1 ff
load 99999999999999999 00
back
delete 0 1
what
insert 0 1 1 1
list z
image
"""

# 47 bytes, whose answer has 16; the last line has no line end.
SMALL = b"high a:u3 b:i4\ninsert 0 5 -1\ninsert 1 2 3\nimage"


def told(script):
    return "".join(f"{line}\n" for line in answers(script)).encode()


def run(script, **faults):
    """The status, the output and the fault line of a run, and how many requests, reads and writes there were."""
    with tempfile.NamedTemporaryFile() as counts:
        settings = {name: str(number) for name, number in faults.items()}
        environment = {**os.environ, "LD_PRELOAD": os.path.abspath(SHIM), "TOLD": counts.name, **settings}
        done = subprocess.run([PROGRAM], input=script, capture_output=True, env=environment, timeout=60)
        return done.returncode, done.stdout, done.stderr.decode(), [int(word) for word in counts.read().split()]


def want(holds, what):
    if not holds:
        sys.exit(f"not so: {what}")


def whole_lines(part, answer):
    return answer.startswith(part) and (not part or part.endswith(b"\n"))


def memory():
    """Each request for memory is refused in turn. `Vec` asks again for less at some, so that these are not felt."""
    answer = told(ALL)
    status, out, error, (requests, _, _) = run(ALL)
    want((status, out, error) == (0, answer, ""), "without a fault the whole answer is written")
    stopped = set()
    for number in range(1, requests + 2):
        status, out, error, _ = run(ALL, REFUSE=number)
        if status == 0:
            want(out == answer and not error, f"where request {number} is refused and not felt, the whole answer is written")
            continue
        want((status, error) == (1, "bit-table: no memory\n"), f"where request {number} is refused, that is told")
        want(whole_lines(out, answer), f"where request {number} is refused, the answers before it are whole")
        stopped.add([line for line in ALL.split(b"\n") if line][out.count(b"\n")].split()[0].decode())
    want(status == 0, "where no request is refused, none is told")
    wanting = {"low", "insert", "get", "image", "dup", "keep", "list", "load"}
    want(wanting <= stopped, f"each command that wants memory is refused some: {sorted(wanting - stopped)} were not")
    print(f"{requests} requests for memory refused in turn over a script of all commands, at {' '.join(sorted(stopped))}")


def input_and_output():
    """Bytes one by one; a fault at each of them."""
    answer = told(SMALL)
    want((len(SMALL), len(answer)) == (47, 16), "the script has 47 bytes and its answer 16")
    want(run(SMALL, SHORT=1)[:3] == (0, answer, ""), "bytes that come and go one by one are answered as all at once")
    for read in range(len(SMALL) + 1):
        whole = told(SMALL[:read].rpartition(b"\n")[0])
        found = run(SMALL, SHORT=1, FAIL_READ=read + 1)[:3]
        want(found == (1, whole, "bit-table: read fault\n"), f"a read fault behind {read} bytes is told behind whole answers")
    for written in range(len(answer)):
        for fault in ("FAIL_WRITE", "STOP_WRITE"):
            found = run(SMALL, SHORT=1, **{fault: written + 1})[:3]
            want(found == (1, answer[:written], "bit-table: write fault\n"), f"a write fault behind {written} bytes is told")
    for fault in ("FAIL_WRITE", "STOP_WRITE"):
        found = run(SMALL, SHORT=1, **{fault: len(answer) + 1})[:3]
        want(found == (0, answer, ""), "a fault behind the last byte of the answer is none")
    print(f"{len(SMALL) + 1} read faults and {2 * len(answer)} write faults, one behind each byte")


def bytes_that_mean_harm():
    """Each byte as a line; numbers of very many digits."""
    script = b"\n".join(NO_SEPARATOR + [b"low a:u3 b:i4"] + NO_SEPARATOR)
    want_lines = ["refused layout"] * 252 + ["ok"] + ["refused form"] * 252
    found = run(script)
    want(found[:3] == (0, "".join(f"{line}\n" for line in want_lines).encode(), ""), "each byte as a line is refused")
    for digits in (10_000, 1_000_000):
        nines, zeros = b"9" * digits, b"0" * digits
        rows = [
            (b"get " + nines, "refused row"),
            (b"get " + zeros + b"1", "2 3"),
            (b"insert 0 " + nines + b" 0", "refused value"),
            (b"rotate 0 2 " + nines, "refused row"),
            (b"set 0 b -" + zeros + b"8", "ok"),
            (b"get 0", "5 -8"),
        ]
        first = b"low a:u3 b:i4\ninsert 0 5 -1\ninsert 1 2 3\n"
        before = resource.getrusage(resource.RUSAGE_CHILDREN).ru_utime
        status, out, error, _ = run(first + b"\n".join(line for line, _ in rows))
        seconds = resource.getrusage(resource.RUSAGE_CHILDREN).ru_utime - before
        lines = ["ok"] * 3 + [answer for _, answer in rows]
        want((status, out.decode().splitlines(), error) == (0, lines, ""), f"numbers of {digits} digits are answered")
        want(seconds < 1, f"numbers of {digits} digits are answered in a second of a processor, not {seconds:.1f}")
    print("252 bytes that are no separator, each as a line before and behind a layout; numbers of a million digits")


memory()
input_and_output()
bytes_that_mean_harm()
