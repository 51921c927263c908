#!/usr/bin/env python3
"""Compares `clnp reassemble` with a plain model of its grammar and of the tables of sources.

usage: tests/by_hand/shares.py [--program PATH | --try] [TEXTS [FIRST]]

Random texts, a third of them with a line changed, must come to the model's output, or to its bad line and code; then one of
100,000 frames; and last a flood: 99,000 segments from everywhere beside 1,000 frames of one source that has a share, whose lines
must be those that it gets without the flood. PATH is another program to run than the built one. With --try the program is
compiled and run by `rt try`, which proves nothing.
"""
import argparse
import os
import random
import re
import subprocess
import sys

ROOT = os.path.abspath(os.path.join(os.path.dirname(__file__), "..", ".."))
sys.path.append(os.path.join(ROOT, "tests", "models"))

from frames import clnp
from pdu_model import Broken, read_clnp
from scenario_model import ADDRESS, COUNT, DUP_ADDRESS, HEADER, NUMBER, SYNTAX, Refused, address, lines_of, number, want

PROGRAM = os.path.join(ROOT, "crates", "clnp_tool", "out", "clnp_tool")
MOST_FRAMES, MOST_OCTETS = 100_000, 70_000

# ---- the grammar


class Text:
    """What the lines so far say."""

    def __init__(self):
        self.others, self.shares, self.frames, self.started, self.last = None, {}, [], False, 0

    def take(self, words):
        if self.started:
            self.frame(words)
        elif self.others is None:
            want(len(words) == 5 and words[0] == b"others", SYNTAX)
            self.others = [*self.numbers(words[1:4]), number(words[4], 1, 255)]
        elif words == [b"frames"]:
            self.started = True
        else:
            want(len(words) == 5 and words[0] == b"share", SYNTAX)
            self.share(address(words[1]), self.numbers(words[2:]))

    def numbers(self, words):
        return [number(words[0], 1, 1024), number(words[1], 1, 16384), number(words[2], 512, 4194304)]

    def share(self, source, numbers):
        want(source not in self.shares, DUP_ADDRESS)
        self.shares[source] = [*numbers, self.others[3]]
        tables = [self.others, *self.shares.values()]
        want(len(self.shares) <= 64, COUNT)
        want(sum(table[1] for table in tables) <= 65_536, COUNT)
        want(sum(table[2] for table in tables) <= 16_777_216, COUNT)

    def frame(self, words):
        want(len(words) == 2 and words[0] != b"end", SYNTAX)
        moment = number(words[0], self.last, 2**32 - 1)
        want(re.fullmatch(rb"([0-9a-fA-F]{2})*", words[1]), ADDRESS)
        want(len(words[1]) <= 2 * MOST_OCTETS and len(self.frames) < MOST_FRAMES, COUNT)
        self.frames.append((moment, bytes.fromhex(words[1].decode())))
        self.last = moment


def read(text):
    """What a text says, or its first bad line with its code."""
    lines = lines_of(text)
    left = [(at + 1, line) for at, line in enumerate(lines) if line and not line.startswith(b"#")]
    if not left or left[0][1] != b"clnp-reassemble 1":
        return (left[0][0] if left else len(lines) + 1, HEADER)
    said = Text()
    for at, (number_of_line, line) in enumerate(left[1:], 1):
        words = [word for word in line.split(b" ") if word]
        if said.started and words == [b"end"]:
            return (left[at + 1][0], SYNTAX) if at + 1 < len(left) else said
        try:
            said.take(words)
        except Refused as refused:
            return (number_of_line, refused.code)
    return (len(lines) + 1, SYNTAX)


# ---- the tables


class Table:
    """The buffers of one source, or of all that have no share."""

    def __init__(self, slots, segments, budget, hold):
        self.slots, self.segments, self.budget, self.hold, self.buffers = slots, segments, budget, hold, {}

    def held(self):
        return sum(buffer["held"] for buffer in self.buffers.values())

    def kept(self):
        return sum(buffer["kept"] for buffer in self.buffers.values())

    def expire(self, moment):
        while due := [key for key in self.buffers if self.buffers[key]["deadline"] <= moment]:
            key = min(due, key=lambda ended: self.buffers[ended]["deadline"])
            del self.buffers[key]
            yield f"expired {key[0].hex()} {key[1].hex()} {key[2]:04x} {self.held()}"

    def offer(self, moment, size, pdu):
        key, source = (pdu["from"], pdu["to"], pdu["id"]), pdu["from"].hex()
        buffer, shape = self.buffers.get(key), (pdu["kind"], pdu["total"], len(pdu["header"]))
        places = range(pdu["offset"], pdu["offset"] + len(pdu["octets"]))
        named = f"{source} {pdu['id']:04x}"
        if buffer and buffer["shape"] != shape:
            return f"interference {named}"
        if all(place in (buffer["octets"] if buffer else {}) for place in places):
            return f"repeat {named} {pdu['offset']}"
        if not buffer and len(self.buffers) >= self.slots:
            return f"noslot {source} {len(self.buffers)}"
        if self.held() + size > self.budget:
            return f"crowded {source} {self.held()} {size}"
        if self.kept() >= self.segments:
            return f"many {source} {self.kept()}"
        if not buffer:
            buffer = dict(shape=shape, deadline=moment + min(self.hold, pdu["life"]), held=0, kept=0, octets={})
            self.buffers[key] = buffer
        buffer["held"] += size
        buffer["kept"] += 1
        for place, octet in zip(places, pdu["octets"]):
            buffer["octets"].setdefault(place, octet)
        length = pdu["total"] - len(pdu["header"])
        if len(buffer["octets"]) < length:
            return f"held {named} {pdu['offset']} {self.held()}"
        del self.buffers[key]
        return unit(pdu, bytes(buffer["octets"][place] for place in range(length)))


def unit(pdu, octets):
    return f"unit {pdu['from'].hex()} {pdu['to'].hex()} {pdu['kind']} {octets.hex() or '-'}"


def told(tables, others, moment, frame):
    """What is told of a frame."""
    try:
        if frame[:1] != b"\x81":
            return ["unread"]
        pdu = read_clnp(frame)
    except Broken:
        return ["unread"]
    table = tables.get(pdu["from"], others)
    lines = list(table.expire(moment))
    if pdu["life"] == 0:
        return lines + [f"dead {pdu['from'].hex()}"]
    if pdu["id"] is None or pdu["offset"] == 0 and not pdu["more"]:
        return lines + [unit(pdu, pdu["octets"])]
    return lines + [table.offer(moment, len(frame), pdu)]


def output(said):
    tables, others = {source: Table(*said.shares[source]) for source in said.shares}, Table(*said.others)
    lines = [f"{moment} {line}" for moment, frame in said.frames for line in told(tables, others, moment, frame)]
    return "".join(line + "\n" for line in lines + [f"end {len(said.frames)}"])


# ---- texts


class Traffic:
    """Frames of some sources, whose units are cut, mixed, lost, repeated and changed."""

    def __init__(self, sources, destinations, identifiers, lengths):
        self.sources, self.destinations, self.identifiers, self.lengths, self.waiting = sources, destinations, identifiers, lengths, []

    def unit(self):
        source, destination = random.choice(self.sources), random.choice(self.destinations)
        header = 9 + 1 + len(source) + 1 + len(destination) + 6
        octets = random.randbytes(random.choice(self.lengths))
        kind, life, identifier = random.choice(["dt", "dt", "dt", "erq", "erp"]), random.choice([0, 1, 2, 5, 10, 64, 255]), random.choice(self.identifiers)
        step = random.choice([1, 2, 8, 40, 400])
        for start in range(0, max(1, len(octets)), step):
            piece = octets[start:start + step]
            part = (identifier, start, header + len(octets))
            self.waiting.append(clnp(kind, destination, source, piece, part, start + step < len(octets), life=life))

    def frame(self):
        while len(self.waiting) < 8:
            self.unit()
        at = random.randrange(len(self.waiting))
        frame = self.waiting[at] if random.random() < 0.1 else self.waiting.pop(at)
        if random.random() < 0.05:
            frame = bytes([*frame[:-1], random.randrange(256)]) if random.random() < 0.5 else frame[:random.randrange(1, len(frame))]
        return frame + (random.randbytes(3) if random.random() < 0.1 else b"")


def table_numbers(rich):
    if rich:
        return f"{random.randint(1, 64)} {random.randint(8, 512)} {random.choice([4096, 65536, 262144])}"
    return f"{random.randint(1, 4)} {random.randint(1, 8)} {random.choice([512, 513, 600, 2048])}"


def text_of(count, rich=False, sources=8, shared=4, lengths=(0, 1, 2, 8, 30, 100, 300)):
    sources = [bytes([0x47, at]) if at % 3 else bytes([0x47, 0, 0x27, at]) for at in range(1, sources + 1)]
    traffic = Traffic(sources, [bytes.fromhex("47002701"), b"\x49"], list(range(1, 6)), lengths)
    lines = ["clnp-reassemble 1", f"others {table_numbers(rich)} {random.choice([1, 3, 10, 255])}"]
    lines += [f"share {source.hex()} {table_numbers(rich)}" for source in random.sample(sources, random.randint(0, shared))]
    lines.append("frames")
    moment = 0
    for _ in range(count):
        moment += random.choice([0, 0, 0, 1, 1, 2, 5])
        lines.append(f"{moment} {traffic.frame().hex()}")
    return lines + ["end"]


def changed(lines):
    """The same with a line that is lost, repeated, moved, or has another word."""
    lines, at = list(lines), random.randrange(len(lines))
    words = lines[at].split(" ")
    kind = random.randrange(5)
    if kind == 0:
        del lines[at]
    elif kind == 1:
        lines.insert(random.randrange(len(lines)), lines[at])
    elif kind == 2:
        words[random.randrange(len(words))] = random.choice(["0", "65536", "4294967296", "end", "frames", "4700270", "x", "share"])
        lines[at] = " ".join(words)
    elif kind == 3:
        lines[at] = " ".join(words[:-1] if random.random() < 0.5 else [*words, "1"])
    else:
        lines.insert(at, random.choice(["", "# a word", " ", "others 1 4 512 10", "share 47 1 4 512", "0 81"]))
    return lines


# ---- comparing


def run(asked, text):
    command = ["rt", "try", "--", "reassemble"] if asked.tries else [asked.program or PROGRAM, "reassemble"]
    folder = os.path.join(ROOT, "crates", "clnp_tool") if asked.tries else None
    ran = subprocess.run(command, input=text, cwd=folder, capture_output=True)
    return ran.returncode, ran.stdout.decode(), ran.stderr.decode()


def compare(asked, lines, what):
    text = "".join(line + "\n" for line in lines).encode()
    said = read(text)
    code, came, error = run(asked, text)
    if isinstance(said, tuple):
        if code != 3 or came or not re.search(rf"\b{said[0]}\b", error):
            sys.exit(f"{what}: the model has line {said[0]} with code {said[1]}, the program {code}, {came[:80]!r}, {error!r}")
    elif (code, came) != (0, output(said)):
        theirs = output(said).splitlines()
        at = next((at for at, line in enumerate(came.splitlines()) if at >= len(theirs) or line != theirs[at]), None)
        sys.exit(f"{what}: status {code}, and the first other line is {at}: {came.splitlines()[at] if at is not None else None!r}")
    return came


def flood(asked):
    """A source that has a share beside 99,000 segments that are never a whole unit, many of them with its destination and
    identifiers."""
    source, sources = bytes.fromhex("47002702"), [random.randbytes(random.randint(1, 20)) for _ in range(200)]
    head = ["clnp-reassemble 1", "others 16 64 65536 255", "share 47002702 4 16 4096", "frames"]
    own = Traffic([source], [bytes.fromhex("47002701")], list(range(1, 6)), (0, 1, 2, 8, 30, 100))
    frames, moment = [], 0
    chosen = set(random.sample(range(MOST_FRAMES), 1_000))
    for at in range(MOST_FRAMES):
        moment += random.random() < 0.01
        if at in chosen:
            frames.append((moment, own.frame(), True))
            continue
        other = random.choice(sources)
        part = (random.randrange(1, 4), 8 * random.randrange(4), 60_000)
        octets = random.randbytes(8)
        frames.append((moment, clnp("dt", bytes.fromhex("47002701"), other, octets, part, True, life=255), False))
    lines = [f"{moment} {frame.hex()}" for moment, frame, _ in frames]
    alone = [f"{moment} {frame.hex()}" for moment, frame, is_own in frames if is_own]
    among = compare(asked, [*head, *lines, "end"], "the flood")
    apart = compare(asked, [*head, *alone, "end"], "the source without the flood")
    wanted = [line for line in apart.splitlines() if line.split(" ")[2:3] == ["47002702"]]
    got = [line for line in among.splitlines() if line.split(" ")[2:3] == ["47002702"]]
    if got != wanted:
        sys.exit("the flood changed lines of the source that has a share")
    return len(wanted)


def main():
    words = argparse.ArgumentParser(description="Compares `clnp reassemble` with a plain model.")
    words.add_argument("texts", nargs="?", type=int, default=300)
    words.add_argument("first", nargs="?", type=int, default=1)
    words.add_argument("--program", help="another program to run than the built one")
    words.add_argument("--try", dest="tries", action="store_true", help="run what `rt try` compiles")
    asked = words.parse_args()
    for seed in range(asked.first, asked.first + asked.texts):
        random.seed(seed)
        lines = text_of(random.choice([0, 3, 40, 200]), seed % 2 == 0)
        compare(asked, changed(lines) if seed % 3 == 0 else lines, f"the text of seed {seed}")
    print(f"{asked.texts} texts: the program and the model agree")
    random.seed(asked.first)
    compare(asked, text_of(MOST_FRAMES, True, 64, 32, (0, 1, 2, 8, 30)), "the text of 100,000 frames")
    print("a text of 100,000 frames: the program and the model agree")
    print(f"a flood of 99,000 segments: {flood(asked)} lines of the source that has a share are those without it")


main()
