#!/usr/bin/env python3
"""Runs the worked examples of tests/worked/ through the program, and compares what it writes and how it ends.

usage: tests/gate/worked.py PROGRAM [FILE ..]; without files those that tests/worked/index names

A case is a call of the program: its words, its input, and what it must write and exit with. Each was written from the rules,
none from an output. In a file of cases each line begins with a mark and a space:

    = NAME        a case begins
    $ WORDS       the words of its command line
    ? NUMBER      the exit number; 0 where this line isn't there
    ~ SELECTION   which lines of the output are compared (`without KIND ..`, `kinds KIND ..`, `copies NUMBER ..`, `last NUMBER`);
                  all where this line isn't there
    < TEXT        a line of the input
    ( TEXT        a line of the input that ends in a carriage return and a line feed
    [ TEXT        the end of the input, without a line end
    > TEXT        a line of the output, among those that are compared
    { DIGITS      octets of the input, in hexadecimal digits
    } DIGITS      octets of the output, in hexadecimal digits
    ! TEXT        a line on standard error
    |             a link over UDP on 127.0.0.1, behind the others, on which nothing comes; its word stands behind the words
    # TEXT        a remark; empty lines are skipped too
"""
import os
import socket
import subprocess
import sys

FOLDER = os.path.join(os.path.dirname(os.path.abspath(__file__)), "..", "worked")
SELECTIONS = ("without", "kinds", "copies", "last")


class Case:
    """A call of the program, and what it must come to."""

    def __init__(self, name):
        self.name, self.words, self.input, self.number = name, [], b"", 0
        self.selection, self.output, self.said, self.links = [], b"", b"", 0

    def take(self, line):
        """Takes a line, and says whether its mark stands for something."""
        mark, text = line[:1], line[2:]
        if mark == b"|" and line == b"|":
            self.links += 1
        elif line[1:2] not in (b" ", b"") or (len(line) == 1 and mark != b"<"):
            return False
        elif mark == b"<":
            self.input += text + b"\n"
        elif mark == b"(":
            self.input += text + b"\r\n"
        elif mark == b"[":
            self.input += text
        elif mark == b">":
            self.output += text + b"\n"
        elif mark == b"{":
            self.input += bytes.fromhex(text.decode())
        elif mark == b"}":
            self.output += bytes.fromhex(text.decode())
        elif mark == b"!":
            self.said += text + b"\n"
        elif mark == b"$":
            self.words = text.split()
        elif mark == b"?":
            self.number = int(text)
        elif mark == b"~":
            self.selection = text.decode().split()
            return self.selection[0] in SELECTIONS
        else:
            return False
        return True

    def takes(self, line, behind):
        """Whether a line of the output is compared that has so many lines behind it."""
        kind, *named = self.selection
        words = line.decode(errors="replace").split()
        word_at = lambda place: words[place] if place < len(words) else ""
        kind_of_line = "end" if word_at(0) == "end" else word_at(2)
        if kind == "without":
            return kind_of_line not in named
        if kind == "kinds":
            return kind_of_line in named
        if kind == "copies":
            return kind_of_line == "tx" and word_at(3) in named
        return behind < int(named[0])

    def compared(self, output):
        """What is compared of an output."""
        if not self.selection:
            return output
        lines = output.split(b"\n")[:-1] if output.endswith(b"\n") else output.split(b"\n")
        chosen = [line for at, line in enumerate(lines) if self.takes(line, len(lines) - at - 1)]
        return b"".join(line + b"\n" for line in chosen)

    def run(self, program):
        """Runs the program, and gives its exit number, what is compared of its output, and what it said."""
        with Links(self.links) as words:
            ran = subprocess.run([program, *self.words, *words], input=self.input, capture_output=True, timeout=120)
        return ran.returncode, self.compared(ran.stdout), ran.stderr

    def wanted(self):
        return self.number, self.output, self.said


class Links:
    """The words of links between free ports of 127.0.0.1; the other ends are held open, so that sending to them fails nothing."""

    def __init__(self, count):
        self.count, self.held = count, []

    def free_port(self):
        end = socket.socket(socket.AF_INET, socket.SOCK_DGRAM)
        end.bind(("127.0.0.1", 0))
        self.held.append(end)
        return end, end.getsockname()[1]

    def __enter__(self):
        words = []
        for _ in range(self.count):
            own, here = self.free_port()
            _, there = self.free_port()
            own.close()
            words.append(f"udp:127.0.0.1:{here},h127.0.0.1:{there}".encode())
        return words

    def __exit__(self, *_):
        for end in self.held:
            end.close()


def cases_of(path):
    """The cases of a file."""
    cases = []
    with open(path, "rb") as opened:
        for place, line in enumerate(opened.read().split(b"\n"), 1):
            if line.startswith(b"= "):
                cases.append(Case(line[2:].decode()))
            elif line and not line.startswith(b"#"):
                if not cases or not cases[-1].take(line):
                    sys.exit(f"{path}, line {place}: no line of a case: {line.decode(errors='replace')}")
    return cases


def main():
    if len(sys.argv) < 2:
        sys.exit(__doc__)
    program, files = os.path.abspath(sys.argv[1]), sys.argv[2:]
    if not files:
        with open(os.path.join(FOLDER, "index"), encoding="utf-8") as index:
            files = [os.path.join(FOLDER, name) for name in index.read().split()]
    ran = wrong = 0
    for path in files:
        for case in cases_of(path):
            ran += 1
            came = case.run(program)
            if came != case.wanted():
                wrong += 1
                print(f"{os.path.basename(path)}: {case.name}: not as wanted", file=sys.stderr)
                for what, got, want in zip(("exit number", "output", "standard error"), came, case.wanted()):
                    if got != want:
                        print(f"  {what}: {got}\n  wanted: {want}", file=sys.stderr)
    print(f"worked examples: {ran} cases of {len(files)} files, {wrong} wrong")
    sys.exit(1 if wrong or not ran else 0)


if __name__ == "__main__":
    main()
