#!/usr/bin/env python3
"""What each call that may take memory leaves where it finds none.

usage: faults/calls.py PROGRAM SHIM, at the top of the repository; SHIM is faults/shim.c, built, and PROGRAM makes the calls of
crates/bit_refusals. Each call is made while each of its requests is refused, alone and with all that come after it. What has
to be told then is what `crates/bit_refusals/cases.py` works out. The first thing that is not so ends it, with status 1.
"""

import concurrent.futures
import os
import subprocess
import sys
import tempfile

sys.path.append("crates/bit_refusals")
from cases import CASES, NEVER

PROGRAM, SHIM = sys.argv[1:3]
KINDS = ("malloc", "realloc", "posix_memalign")

# A request that is refused alone may not be felt, since less is asked for in its place.
ALONE, ONWARD = "REFUSE", "REFUSE_FROM"

# More requests than a call has.
MOST = 100_000


def want_all(holds, what):
    if not holds:
        sys.exit(f"not so: {what}")


def want(holds, case, what, found):
    want_all(holds, f"{what}\n  {case.line}\n  {found}")


def run(case, **faults):
    """What is told of a call, how many requests it made, and how many of each kind were refused."""
    with tempfile.NamedTemporaryFile() as counts:
        settings = {name: str(number) for name, number in faults.items()}
        environment = {**os.environ, "LD_PRELOAD": os.path.abspath(SHIM), "MARKED": "1", "TOLD": counts.name, **settings}
        done = subprocess.run([PROGRAM], input=case.line.encode(), capture_output=True, env=environment, timeout=60)
        want((done.returncode, done.stderr) == (0, b""), case, "the program ends well", (done.returncode, done.stderr))
        requests, _, _, *refusals = (int(word) for word in counts.read().split())
        return done.stdout.decode().splitlines(), requests, refusals


def is_refused(case, told):
    """Whether the call is told to be refused, and leaves what it may."""
    front = [case.line, *case.before, "call", "refused"]
    return told[: len(front)] == front and case.may_leave(told[len(front) :])


def refuse(case):
    """Refuses each request of a call; how many of each kind were, in how many runs, and whether that was ever felt."""
    told, requests, _ = run(case)
    want(told == case.told(), case, "a call that is refused nothing is done", told)
    want(case.asks is None or (requests > 0) == case.asks, case, "no memory is asked for where it takes none", requests)
    kinds, runs, felt = [0] * len(KINDS), 0, False
    for how in (ALONE, ONWARD) if requests else ():
        for number in range(1, MOST):
            told, _, refusals = run(case, **{how: number})
            if not any(refusals):
                break
            runs += 1
            kinds = [one + more for one, more in zip(kinds, refusals)]
            if told != case.told():
                want(is_refused(case, told), case, f"where request {number} is refused it leaves what it should", told)
                felt = True
        want(told == case.told(), case, "a call that is refused nothing is done", told)
        want(number > requests, case, "each request is refused", number)
    return kinds, runs, felt


def main():
    kinds, refusals = [0] * len(KINDS), 0
    felt = {case.call: False for case in CASES}
    with concurrent.futures.ThreadPoolExecutor(os.cpu_count()) as pool:
        for case, (its, runs, is_felt) in zip(CASES, pool.map(refuse, CASES)):
            kinds = [one + more for one, more in zip(kinds, its)]
            refusals += runs
            felt[case.call] |= is_felt
    missed = sorted(call for call, is_felt in felt.items() if is_felt == (call in NEVER))
    want_all(not missed, f"each call is refused once, but for those that never are: {missed}")
    want_all(kinds[0] and kinds[1], f"a malloc and a realloc are refused: {kinds}")
    each = ", ".join(f"{count} of {kind}" for kind, count in zip(KINDS, kinds) if count)
    print(f"{refusals} refusals of {len(felt)} calls, each left what it should ({each})")


main()
