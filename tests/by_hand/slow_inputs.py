#!/usr/bin/env python3
"""A search for inputs that take much longer than others of their size: each family of inputs in slow_families.py is read by the
program at a size and at twice the size, where a plain program of bench/ can read it by that too, in turn; a scenario by `trace`
besides, and one of version 1 by `migrate`. Where both write the same kind of output it must be the same.

usage: tests/by_hand/slow_inputs.py [--program PATH] [--quick] [--runs N] [--limit SECONDS] [WORD..]

With words only families are taken whose name has one of them. With --quick the inputs are small, and all takes some two minutes:
it shows that the families are what they should be, and what is worst of all. A time is that of the processor, the least of N runs
(3), without what the start of a process takes. A run that takes more than SECONDS (60) is ended. It needs rustc, and some
hundred megabytes for files, which it removes.

For each family: what is read and written at twice the size, the time there, by how much time and octets grew, nanoseconds for an
octet of input and output, the plain program's time and the ratio, and the load of the machine. Behind them, what stands out.
"""
import argparse
import filecmp
import os
import random
import resource
import shutil
import subprocess
import sys
import tempfile

from collections import namedtuple

from slow_families import FAMILIES

ROOT = os.path.abspath(os.path.join(os.path.dirname(__file__), "..", ".."))
PROGRAM = os.path.join(ROOT, "crates", "clnp_tool", "out", "clnp_tool")
MOST_GROWTH, MOST_RATIO = 2.4, 3
MOST_WRITTEN = 2 << 30

Row = namedtuple("Row", "name command what size read wrote time growth octets plain ratio load fault")


# ---- one run


def run(command, source, target, limit):
    """The seconds on the processor, and the status, which is below zero where the run was ended."""
    def bounds():
        resource.setrlimit(resource.RLIMIT_CPU, (limit, limit + 1))
        resource.setrlimit(resource.RLIMIT_FSIZE, (MOST_WRITTEN, MOST_WRITTEN))

    with open(source, "rb") as given, open(target, "wb") as taken:
        process = subprocess.Popen(command, stdin=given, stdout=taken, stderr=subprocess.DEVNULL, preexec_fn=bounds)
        _, status, used = os.wait4(process.pid, 0)
        process.returncode = os.waitstatus_to_exitcode(status)
    return used.ru_utime + used.ru_stime, process.returncode


def started(command, limit):
    """The seconds that a start takes of a program that has nothing to do."""
    return min(run(command, os.devnull, os.devnull, limit)[0] for _ in range(9))


class Reader:
    """A program that reads inputs: its words, and what a start of it takes."""

    def __init__(self, words, limit, start):
        self.words, self.limit, self.start = words, limit, start

    def take(self, words, source, target):
        """The seconds, without those of the start, and the status."""
        seconds, status = run([*self.words, *words], source, target, self.limit)
        return max(seconds - self.start, 0), status

    def take_each(self, seeds, source, target):
        """The same of a process for each seed; its output is that of all."""
        total = 0
        with open(target, "wb") as together:
            for seed in seeds:
                seconds, status = self.take([seed], source, target + ".one")
                total += seconds
                with open(target + ".one", "rb") as one:
                    shutil.copyfileobj(one, together)
                if status != 0:
                    break
        return total, status


# ---- a family


class Search:
    def __init__(self, asked, room):
        self.asked, self.room = asked, room
        self.readers = {}
        program = asked.program or PROGRAM
        start = started([program, "--version"], asked.limit)
        self.program, self.storm = (Reader([program, *words], asked.limit, start) for words in ((), ("storm",)))
        self.plain_start = started([self.built("show")], asked.limit)

    def built(self, name):
        """A plain program of bench/."""
        built = os.path.join(self.room, "plain_" + name)
        source = os.path.join(ROOT, "bench", f"plain_{name}.rs")
        subprocess.run(["rustc", "-O", "--edition", "2021", "-o", built, source], check=True)
        return built

    def plain(self, name):
        if name not in self.readers:
            self.readers[name] = Reader([self.built(name)], self.asked.limit, self.plain_start)
        return self.readers[name]

    def sized(self, family, command, size, plain, runs):
        """At one size: octets read and written, the least times of the program and of the plain one, and what is wrong."""
        source, ours, theirs = (os.path.join(self.room, name) for name in ("input", "ours", "theirs"))
        random.seed(size)
        made = family.make(size)
        seeds = made if command == "storm" else None
        with open(source, "wb") as given:
            given.write(b"" if seeds else made)
        times, fault = [float("inf")] * 2, None
        readers = [(self.storm, [], ours) if seeds else (self.program, [command], ours)]
        readers += [(self.plain(plain), [], theirs)] if plain else []
        for at in range(runs):
            for which, (reader, words, target) in enumerate(readers):
                seconds, status = reader.take_each(seeds, source, target) if seeds else reader.take(words, source, target)
                times[which] = min(times[which], seconds)
                if status != (0 if which else family.status):
                    fault = f"{'the plain program' if which else 'it'} ended with {status}" + (f" in {seconds:.0f} s" if status < 0 else "")
            if fault or at == 0 and times[0] > 10:
                break
        if plain and not fault and family.status == 0 and not filecmp.cmp(ours, theirs, shallow=False):
            fault = "OUTPUTS DIFFER"
        return os.path.getsize(source), os.path.getsize(ours), times, fault

    def row(self, family, command):
        plain = family.plain if command == family.command else None
        size = max(1, family.size // 10) if self.asked.quick else family.size
        runs = self.asked.runs if command == family.command else min(2, self.asked.runs)
        read, wrote, once, fault = self.sized(family, command, size, plain, runs)
        octets = read + wrote + 1
        if fault is None:
            read, wrote, twice, fault = self.sized(family, command, 2 * size, plain, runs)
        else:
            twice = once
        growth, beside = twice[0] / max(once[0], 1e-4), twice[1] if plain else None
        ratio = twice[0] / max(beside, 1e-4) if plain else None
        return Row(family.name, command, family.what, 2 * size, read, wrote, twice[0], growth, (read + wrote) / octets, beside, ratio,
                   os.getloadavg()[0], fault)

    def rows(self):
        for family in FAMILIES:
            if self.asked.words and not any(word in family.name for word in self.asked.words):
                continue
            yield self.row(family, family.command)
            if family.command == "sim" and family.status == 0:
                yield self.row(family, "trace")
                if family.make(max(1, family.size // 10)).startswith(b"clnp-sim 1\n"):
                    yield self.row(family, "migrate")


# ---- what is told


HEAD = (f"{'family':40} {'command':10} {'twice':>9} {'read kB':>9} {'wrote kB':>9} {'ms':>8} {'growth':>6} {'octets':>6}"
        f" {'ns/octet':>8} {'plain ms':>8} {'ratio':>6} {'load':>5}")


def each_octet(row):
    return 1e9 * row.time / (row.read + row.wrote + 1)


def told(row):
    line = f"{row.name[:40]:40} {row.command:10} {row.size:9} {row.read / 1e3:9.0f} {row.wrote / 1e3:9.0f} {1e3 * row.time:8.1f}"
    line += f" {row.growth:6.2f} {row.octets:6.2f} {each_octet(row):8.1f}"
    line += f" {1e3 * row.plain:8.1f} {row.ratio:6.2f}" if row.plain is not None else 16 * " "
    return f"{line} {row.load:5.1f}" + (f" {row.fault}" if row.fault else "")


def table(title, rows):
    print(f"\n{title}:")
    print(HEAD if rows else "  none")
    for row in rows:
        print(told(row))
        print("    " + " ".join(row.what.split()))


def main():
    words = argparse.ArgumentParser(description="A search for inputs that take much longer than others of their size.")
    words.add_argument("words", nargs="*", help="only families whose name has one of these")
    words.add_argument("--program", help="another program to run than the built one")
    words.add_argument("--quick", action="store_true", help="small inputs, in some two minutes")
    words.add_argument("--runs", type=int, help="the least time of so many runs; 3, and 1 with --quick")
    words.add_argument("--limit", type=int, default=60, help="the seconds that a run may take")
    asked = words.parse_args()
    asked.runs = asked.runs or (1 if asked.quick else 3)
    if not asked.program:
        subprocess.run([os.path.join(ROOT, "clnp"), "--version"], check=True, stdout=subprocess.DEVNULL)
    least = 0.005 if asked.quick else 0.02
    rows = []
    print(HEAD, flush=True)
    with tempfile.TemporaryDirectory() as room:
        for row in Search(asked, room).rows():
            rows.append(row)
            print(told(row), flush=True)
    rows.sort(key=each_octet, reverse=True)
    slow = [row for row in rows if row.time >= least]
    table(f"The most time for an octet that is read or written, of what takes {1e3 * least:.0f} ms or more", slow[:25])
    table("What was ended, or ended otherwise than it should, or wrote something else", [row for row in rows if row.fault])
    table(f"What grows faster than {MOST_GROWTH} times for twice the input", [row for row in slow if row.growth > MOST_GROWTH])
    beside = [row for row in slow if row.plain is not None]
    table(f"What is more than {MOST_RATIO} times as slow as the plain program", [row for row in beside if row.ratio > MOST_RATIO])
    sys.exit(any(row.fault for row in rows))


if __name__ == "__main__":
    main()
