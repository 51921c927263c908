#!/usr/bin/env python3
"""Compares the plain models with the worked examples of tests/worked/ that `sim`, `trace` and `migrate` read: the
exit number, the lines that a case compares of the output, and the first line on standard error. So what a case wants is tried
before the program is built, and both say the same of each text.

usage: tests/models/worked_examples.py [FILE ..], files of cases; without one they are those that tests/worked/index names.
"""
import os
import sys

from network_model import Network
from scenario_model import CODE_NAMES, Text, migrate, read

DATA = os.path.join(os.path.dirname(os.path.abspath(__file__)), "..", "worked")


class Case:
    """A call, and what is wanted of it."""

    def __init__(self, name):
        self.name, self.words, self.number, self.selection = name, [], 0, ""
        self.input, self.output, self.said = b"", [], []

    def take(self, line):
        mark, text = line[:1], line[2:]
        if mark in (b"<", b"(", b"["):
            self.input += text + {b"<": b"\n", b"(": b"\r\n", b"[": b""}[mark]
        elif mark == b"{":
            self.input += bytes.fromhex(text.decode())
        elif mark in (b">", b"!"):
            (self.output if mark == b">" else self.said).append(text.decode())
        elif mark == b"$":
            self.words = text.decode().split()
        elif mark == b"?":
            self.number = int(text)
        elif mark == b"~":
            self.selection = text.decode()


def cases_of(path):
    """The cases of a file. Its lines end in line feeds alone."""
    cases = []
    with open(path, "rb") as opened:
        for line in opened.read().split(b"\n"):
            if line.startswith(b"= "):
                cases.append(Case(line[2:].decode()))
            elif cases and not line.startswith(b"#"):
                cases[-1].take(line)
    return cases


def chosen(lines, selection):
    """Those lines of a journal that are compared."""
    which, *words = selection.split(" ")
    if which == "":
        return lines
    if which == "last":
        return lines[-int(words[0]):]
    kinds = [line.split(" ")[0] if line.startswith("end ") else line.split(" ")[2] for line in lines]
    if which == "copies":
        return [line for kind, line in zip(kinds, lines) if kind == "tx" and line.split(" ")[3] in words]
    return [line for kind, line in zip(kinds, lines) if (kind in words) == (which == "kinds")]


def answer(case):
    """The exit number, the output and the first line on standard error that the models call for."""
    if case.words == ["migrate"]:
        came = migrate(case.input)
        came = came if isinstance(came, tuple) else (0, came)
    else:
        found = read(case.input)
        came = found
        if isinstance(found, Text):
            network = Network(found)
            journal, full = network.trace() if case.words == ["trace"] else network.journal()
            if full is not None:
                return 4, journal.splitlines(), [f"clnp: world full at {full} octets"]
            came = (0, journal)
    if came[0] != 0:
        return 3, [], [f"clnp: bad input at line {came[0]}: {CODE_NAMES[came[1]]}"]
    return 0, came[1].splitlines(), []


def judge(case):
    """Whether the models say of a case what it wants."""
    number, lines, said = answer(case)
    lines = chosen(lines, case.selection)
    if (number, lines, said) == (case.number, case.output, case.said[:1]):
        return True
    print(f"{case.name}: the models end with {number}, and write", *lines, *said, "and not", *case.output, *case.said[:1], sep="\n")
    return False


def main():
    paths = sys.argv[1:]
    if not paths:
        with open(os.path.join(DATA, "index"), encoding="utf-8") as opened:
            paths = [os.path.join(DATA, name) for name in opened.read().split()]
    cases = [case for path in paths for case in cases_of(path) if case.words in (["sim"], ["trace"], ["migrate"])]
    differ = sum(not judge(case) for case in cases)
    if differ or not cases:
        sys.exit(f"{differ} of {len(cases)} worked examples: the models say something else")
    print(f"{len(cases)} worked examples: the models say the same")


if __name__ == "__main__":
    main()
