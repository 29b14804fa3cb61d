#!/usr/bin/env python3
"""Builds the program, or the library for C, if its sources have changed: bit-table and bits-lib call it. Each crate that it
depends on is proved first.

rt proves a crate with several jobs, but keeps only about two of four processors busy, and it locks the folders of the crate
and of all its dependencies until it ends. So the ready crate with the longest chain of dependents is proved in place, and
others at the same time, each with one job in a copy of the files that it needs, at a lower priority: one job loads the
libraries of a crate once, several load them once each.
"""

import argparse
import contextlib
import fcntl
import hashlib
import os
import shutil
import signal
import subprocess
import sys
import time

HERE = os.path.dirname(os.path.realpath(__file__))
PROGRAM, LIBRARY = "bit_table_program", "bits_c"
PROCESSORS = len(os.sched_getaffinity(0))
# Where crates are proved at the same time: in place, and in copies.
PLACES = PROCESSORS if PROCESSORS >= 4 else 1


class Target:
    """What is built, the command that asks for it, and the files of the build."""

    def __init__(self, crate):
        self.crate = crate
        self.caller, self.name = ("bit-table", "the program") if crate == PROGRAM else ("bits-lib", "the library")
        self.out = f"{HERE}/crates/{crate}/out"
        self.built = f"{self.out}/{crate}" if crate == PROGRAM else f"{self.out}/lib{crate}.a"
        self.stamp = f"{self.out}/sources"
        self.copies = [f"{self.out}/copy-{number}" for number in range(1, PLACES)]

    def tell(self, text):
        print(f"{self.caller}: {text}", file=sys.stderr, flush=True)

    def is_current(self, sources):
        """Whether it was built from these sources, and by this rt if there is one."""
        try:
            with open(self.stamp, encoding="utf-8") as stamp:
                by, of, built = stamp.read().splitlines()
            return of == sources and built == sum_of(self.built) and by == (kit() or by)
        except (FileNotFoundError, ValueError):
            return False

    def put_stamp(self, sources):
        """Records the sources that it was built from, atomically."""
        made = f"{self.stamp}.{os.getpid()}"
        with open(made, "w", encoding="utf-8") as stamp:
            stamp.write(f"{kit()}\n{sources}\n{sum_of(self.built)}\n")
        os.replace(made, self.stamp)

    def put_built_from(self, files):
        """Records bit-table's list of files, with the line of the program as it is now, for its next start."""
        name = os.path.relpath(self.built, HERE)
        it = os.stat(self.built)
        seconds, parts = divmod(it.st_mtime_ns, 1_000_000_000)
        lines = [line for line in files.splitlines() if not line.startswith(f"{name} ")]
        made = f"{self.out}/built_from.{os.getpid()}"
        with contextlib.suppress(OSError):
            with open(made, "w", encoding="utf-8", errors="surrogateescape") as built_from:
                built_from.writelines(f"{line}\n" for line in [*lines, f"{name} {it.st_ino} {it.st_size} {seconds}.{parts:09}0"])
            os.replace(made, f"{self.out}/built_from")


class Crates:
    """The target and the crates that it depends on, each after its dependencies."""

    def __init__(self, target):
        self.lines, self.heads, self.names = {}, {}, []
        with open(f"{HERE}/crates.txt", encoding="utf-8") as lines:
            for line in lines:
                head, colon, uses = line.partition("#")[0].partition(":")
                if colon:
                    crate = head.split()[0]
                    self.lines[crate], self.heads[crate] = uses.split(), head.strip()
        self.add(target.crate)
        # Roughly the seconds that each takes on four processors; the target is also compiled.
        self.expected = {it: 15 + sum(map(os.path.getsize, self.sources(it))) / 2000 for it in self.names}
        self.expected[target.crate] += 160
        # The seconds of the longest chain of crates that starts at each.
        self.chain = dict(self.expected)
        for crate in reversed(self.names):
            self.chain[crate] += max((self.chain[it] for it in self.names if crate in self.lines[it]), default=0)

    def uses(self, crate):
        return [it for it in self.lines[crate] if it in self.lines]

    def add(self, crate):
        for use in self.uses(crate):
            if use not in self.names:
                self.add(use)
        self.names.append(crate)

    def sources(self, crate):
        for folder, folders, files in os.walk(f"{HERE}/crates/{crate}"):
            folders[:] = sorted(it for it in folders if it not in ("out", "must-fail"))
            for file in sorted(files):
                if file.endswith((".rt", ".antt")):
                    yield f"{folder}/{file}"

    def sum(self):
        """A checksum of all sources and of the lines about their crates."""
        sources = hashlib.sha256()
        for crate in self.names:
            sources.update(f"{self.heads[crate]}: {self.lines[crate]}\n".encode())
            for file in self.sources(crate):
                sources.update(f"{os.path.relpath(file, HERE)} {sum_of(file)}\n".encode())
        return sources.hexdigest()

    def next_of(self, waiting, running):
        """Of the crates whose dependencies are proved, the one with the longest chain; None if there is none."""
        ready = (it for it in waiting if not any(use in waiting or use in running for use in self.uses(it)))
        return max(ready, key=self.chain.get, default=None)

    def seconds_left(self, waiting, ends, pace):
        """The seconds until all are proved, if the running ones end after these seconds, and each waiting one takes its
        expected seconds times the pace."""
        waiting, ends, now = list(waiting), dict(ends), 0
        while waiting or ends:
            crate = self.next_of(waiting, ends) if len(ends) < PLACES else None
            if crate:
                waiting.remove(crate)
                ends[crate] = now + pace * self.expected[crate]
            else:
                now = ends.pop(min(ends, key=ends.get))
        return now


def sum_of(file):
    with open(file, "rb") as read:
        return hashlib.sha256(read.read()).hexdigest()


def kit():
    """The version of rt; empty if there is no rt."""
    if not shutil.which("rt"):
        return ""
    said = subprocess.run(["rt", "version"], stdin=subprocess.DEVNULL, stdout=subprocess.PIPE, check=True, text=True)
    return " ".join(said.stdout.split())


def minutes(seconds):
    return f"about {round(seconds / 60)} minutes" if seconds >= 90 else "about a minute"


def jobs():
    """As many jobs as there is memory for, at three gigabytes each, and at most one per processor. rt itself would choose two
    for crates with many dependencies."""
    with open("/proc/meminfo", encoding="utf-8") as lines:
        kilobytes = next(int(line.split()[1]) for line in lines if line.startswith("MemAvailable:"))
    return min(PROCESSORS, kilobytes // 3_000_000)


def lay_out(crate, crates, proved, place):
    """Copies the files that a crate needs, as hard links, since rt replaces files and does not write into them."""
    shutil.rmtree(place, ignore_errors=True)
    os.makedirs(place)
    shutil.copy(f"{HERE}/HANDLES", place)
    with open(f"{place}/crates.txt", "w", encoding="utf-8") as lines:
        lines.writelines(f"{crates.heads[it]}: {' '.join(crates.lines[it])}\n" for it in [*proved, crate])
    for other in [*proved, crate]:
        for part in ("src", "specs", "proofs", "out" if other == crate else "out/rlib"):
            here, there = [f"{it}/crates/{other}/{part}" for it in (HERE, place)]
            if os.path.isdir(here):
                shutil.copytree(here, there, copy_function=os.link)


class Proof:
    """The proof of a crate that is running, a group of processes."""

    def __init__(self, crate, place, target):
        self.crate, self.place, self.log = crate, place, f"{target.out}/said-{crate}"
        self.start = time.monotonic()
        words = ["rt", "run" if crate == PROGRAM else "lib", "--jobs", str(max(1, jobs()) if place == HERE else 1)]
        with open(self.log, "w", encoding="utf-8") as log:
            self.group = subprocess.Popen(
                words if place == HERE else ["nice", *words],
                cwd=f"{place}/crates/{crate}",
                stdin=subprocess.DEVNULL,
                stdout=log,
                stderr=log,
                start_new_session=True,
            )

    def seconds(self):
        return time.monotonic() - self.start

    def end(self):
        """Stops it if it is still running, keeps its output files, and returns the lines that it printed."""
        if self.group.poll() is None:
            os.killpg(self.group.pid, signal.SIGTERM)
            self.group.wait()
        here, there = [f"{it}/crates/{self.crate}/out" for it in (HERE, self.place)]
        if self.place != HERE and os.path.isdir(there):
            shutil.rmtree(here, ignore_errors=True)
            os.rename(there, here)
        with open(self.log, encoding="utf-8", errors="replace") as log:
            said = log.readlines()
        os.remove(self.log)
        return said


class Build:
    """The crates that wait to be proved, the proofs that are running, and the seconds that the others took."""

    def __init__(self, target, crates):
        self.target, self.crates = target, crates
        self.waiting, self.running, self.took = list(crates.names), [], {}
        self.start = self.told = time.monotonic()

    def run(self):
        """Proves and builds everything. Returns the exit status: 70 as soon as a proof fails."""
        try:
            while self.waiting or self.running:
                begun = self.begin()
                while self.begin():
                    pass
                if begun or time.monotonic() - self.told > 50:
                    self.tell()
                time.sleep(0.1)
                for proof in [it for it in self.running if it.group.poll() is not None]:
                    if not self.has_passed(proof):
                        return 70
        finally:
            for proof in self.running:
                proof.end()
            for copy in self.target.copies:
                shutil.rmtree(copy, ignore_errors=True)
        return 0

    def begin(self):
        """Starts the next proof if a crate is ready and a place is free, which one in a copy only is where there is memory.
        Returns whether it did."""
        taken = [proof.place for proof in self.running]
        places = [HERE, *self.target.copies] if not taken or jobs() > 0 else [HERE]
        place = next((it for it in places if it not in taken), None)
        crate = self.crates.next_of(self.waiting, [proof.crate for proof in self.running])
        if not place or not crate:
            return False
        if place != HERE:
            lay_out(crate, self.crates, list(self.took), place)
        self.waiting.remove(crate)
        self.running.append(Proof(crate, place, self.target))
        return True

    def has_passed(self, proof):
        """Whether the proof, which has ended, succeeded; prints the end of its output if not."""
        self.running.remove(proof)
        self.took[proof.crate] = proof.seconds()
        said = proof.end()
        if proof.group.returncode != 0:
            self.target.tell(f"the build of {proof.crate} failed; its last lines:")
            sys.stderr.writelines(said[-20:])
        return proof.group.returncode == 0

    def seconds_left(self):
        """An estimate by the speed of this machine so far. A crate that took hardly any time was up to date."""
        expected = self.crates.expected
        new = [it for it in self.took if self.took[it] > expected[it] / 10]
        pace = sum(self.took[it] for it in new) / sum(expected[it] for it in new) if new else 1
        ends = {it.crate: max(pace * expected[it.crate] - it.seconds(), 0) for it in self.running}
        return self.crates.seconds_left(self.waiting, ends, pace)

    def tell(self):
        self.told = time.monotonic()
        now = " and ".join(proof.crate for proof in self.running)
        done = f"{len(self.took)} of {len(self.crates.names)} crates proved"
        self.target.tell(f"{self.told - self.start:.0f} s: {done}, {minutes(self.seconds_left())} left; proving {now}")


def announce(target, crates):
    """Says what happens now, how long it takes, and how to have a first look meanwhile."""
    expected = minutes(crates.seconds_left(crates.names, {}, 1))
    look = "; for a first look without proofs: (cd crates/bit_table_program && rt try)" if target.crate == PROGRAM else ""
    target.tell(
        f"building {target.name}; its {len(crates.names)} crates are proved first, which takes {expected} from scratch; "
        f"an interrupted build resumes{look}"
    )


def bring_up_to_date(target):
    """Builds the target if it is not up to date. Returns the exit status."""
    crates = Crates(target)
    sources = crates.sum()
    if target.is_current(sources):
        return 0
    if not shutil.which("rt"):
        target.tell("the command rt of the Rattle kit is not on the PATH")
        return 127
    os.makedirs(target.out, exist_ok=True)
    # A second build waits for the first one, also if it has the other target, since both prove the same crates.
    turn = os.open(f"{HERE}/crates", os.O_RDONLY)
    try:
        fcntl.flock(turn, fcntl.LOCK_EX | fcntl.LOCK_NB)
    except BlockingIOError:
        target.tell("another build is running; waiting for it")
        fcntl.flock(turn, fcntl.LOCK_EX)
        crates = Crates(target)
        sources = crates.sum()
        if target.is_current(sources):
            return 0
    announce(target, crates)
    start = time.monotonic()
    while True:
        status = Build(target, crates).run()
        if status != 0:
            return status
        crates = Crates(target)
        built_of, sources = sources, crates.sum()
        if built_of == sources:
            break
        target.tell("the sources changed during the build; building again")
    target.put_stamp(sources)
    target.tell(f"built in {time.monotonic() - start:.0f} s")
    return 0


def command_line():
    """The parsed arguments before `--`, and the arguments after it."""
    end = sys.argv.index("--") if "--" in sys.argv else len(sys.argv)
    words = argparse.ArgumentParser(description="Proves and builds the program bit-table or the library libbits.")
    words.add_argument("crate", nargs="?", default=PROGRAM, choices=[PROGRAM, LIBRARY], help="the crate to build")
    words.add_argument(
        "--stamp", action="store_true", help="build nothing; record that what is there was built from these sources"
    )
    words.add_argument(
        "--run",
        action="store_true",
        help="run the program afterwards, with the arguments after --; descriptor 3 has bit-table's list of files",
    )
    return words.parse_args(sys.argv[1:end]), sys.argv[end + 1 :]


def main():
    asked, words = command_line()
    target = Target(asked.crate)
    with open(3, encoding="utf-8", errors="surrogateescape") if asked.run else contextlib.nullcontext() as listed:
        files = listed.read() if asked.run else ""
    if asked.stamp:
        target.put_stamp(Crates(target).sum())
        return 0
    status = bring_up_to_date(target)
    if asked.run and status == 0:
        target.put_built_from(files)
        os.execv(target.built, [target.built, *words])
    return status


if __name__ == "__main__":
    for number in (signal.SIGINT, signal.SIGTERM, signal.SIGHUP):
        # One that is ignored, as under nohup, stays so.
        if signal.getsignal(number) != signal.SIG_IGN:
            signal.signal(number, lambda number, _: sys.exit(128 + number))
    sys.exit(main())
