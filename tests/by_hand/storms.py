#!/usr/bin/env python3
"""Compares `clnp storm` with plain models: the scenario of a seed, and the counts of what comes of it.

usage: tests/by_hand/storms.py [--program PATH | --try] [--lines | --text] [FIRST [LAST]]

For each seed the line must be the models', and with --sim the journal of the seed's text too. PATH is another program to run
than the built one. With --try the program is compiled and run by `rt try`, which proves nothing. --lines writes the models'
lines, and --text their texts, without any program.
"""
import argparse
import collections
import os
import subprocess
import sys

ROOT = os.path.abspath(os.path.join(os.path.dirname(__file__), "..", ".."))
sys.path.append(os.path.join(ROOT, "tests", "models"))

from network_model import Network
from scenario_model import read

PROGRAM = os.path.join(ROOT, "crates", "clnp_tool", "out", "clnp_tool")

HOSTS, SYSTEMS = ["a", "b", "c", "d"], ["a", "b", "r1", "r2", "c", "d"]
ADDRESSES = {"a": "4700270101", "b": "4700270102", "r1": "47002701ff", "r2": "47002702ff", "c": "4700270201", "d": "4700270202"}
PORTS = [("a", 0, "lan1", "01"), ("b", 0, "lan1", "02"), ("r1", 0, "lan1", "0a"), ("r1", 1, "mid", "0b"), ("r2", 0, "mid", "0c"),
         ("r2", 1, "lan2", "0d"), ("c", 0, "lan2", "03"), ("d", 0, "lan2", "04")]
ROUTES = {"r1": "47002702 1 0c 47002702ff", "r2": "47002701 0 0b 47002701ff"}
SETTINGS = "hello=60 suggest=0 rhold=120 slots=16 segments=1024 budget=262144 neighbours=64 routers=8 redirects=64 life=32 checksum=on"


class Seed:
    """A generator of numbers."""

    def __init__(self, seed):
        self.state = seed

    def pick(self, below):
        self.state = (self.state * 6364136223846793005 + 1442695040888963407) % 2**64
        return self.state // 2**33 % below


def declarations():
    lines = ["clnp-sim 1", "limits 40 20 60", "subnet lan1 1500", "subnet mid 512", "subnet lan2 1024"]
    lines += [f"system {name} {'router' if name in ROUTES else 'host'} {SETTINGS}" for name in SYSTEMS]
    for name in SYSTEMS:
        lines.append(f"address {name} {ADDRESSES[name]}")
        lines += [f"port {name} {number} {subnet} {snpa} 1" for other, number, subnet, snpa in PORTS if other == name]
        lines += [f"route {name} {ROUTES[name]}"] if name in ROUTES else []
    return lines


def asked(seed, word, most):
    host, other, length, start = HOSTS[seed.pick(4)], HOSTS[seed.pick(4)], seed.pick(most), seed.pick(256)
    return f"{word} {host} {ADDRESSES[host]} {ADDRESSES[other]} pat:{length}:{start}"


def event_of(seed, kind):
    """The event of a round of a kind, where it has one."""
    if kind <= 4:
        return [asked(seed, "send", 6000) + " life=32"]
    if kind == 5:
        return [asked(seed, "echo", 600)]
    if kind == 6:
        copy = 1 + seed.pick(2000)
        return [f"deliver {copy} {SYSTEMS[seed.pick(6)]}"]
    if kind in (7, 8):
        return [f"lose {1 + seed.pick(5)}" if kind == 7 else f"tick {1 + seed.pick(10)}"]
    return [f"restart {SYSTEMS[seed.pick(6)]}"] if seed.pick(8) == 0 else []


def events_of(number):
    seed, lines = Seed(number), ["tick 1", "settle 40"]
    for _ in range(300):
        lines += event_of(seed, seed.pick(10))
        lines.append(f"settle {1 + seed.pick(30)}")
    return lines + ["settle 100000", "tick 200", "settle 100000"]


def text_of(number):
    """The canonical text of a seed's scenario."""
    return "".join(line + "\n" for line in declarations() + ["events"] + events_of(number) + ["end"])


def line_of(number, journal):
    """The line that sums up the journal of a seed's scenario."""
    lines = journal.splitlines()
    kinds = collections.Counter(line.split(" ")[2] for line in lines[:-1])
    _, clock, copies = lines[-1].split(" ")
    counts = [f"{word} {kinds[kind]}" for word, kind in
              [("got", "got"), ("reports", "report"), ("echoed", "echoed"), ("drops", "drop"), ("expired", "expired")]]
    return f"storm {number} events {len(events_of(number))} copies {copies} {' '.join(counts)} end {clock}\n"


def run(asked, words, text):
    command = ["rt", "try", "--", *words] if asked.tries else [asked.program or PROGRAM, *words]
    folder = os.path.join(ROOT, "crates", "clnp_tool") if asked.tries else None
    ran = subprocess.run(command, input=text, cwd=folder, capture_output=True)
    return ran.returncode, ran.stdout.decode()


def main():
    words = argparse.ArgumentParser(description="Compares `clnp storm` with plain models.")
    words.add_argument("first", nargs="?", type=int, default=1)
    words.add_argument("last", nargs="?", type=int, default=20)
    words.add_argument("--program", help="another program to run than the built one")
    words.add_argument("--try", dest="tries", action="store_true", help="run what `rt try` compiles")
    words.add_argument("--sim", action="store_true", help="compare the journals too")
    words.add_argument("--lines", action="store_true", help="only write the models' lines")
    words.add_argument("--text", action="store_true", help="only write the texts")
    asked = words.parse_args()
    met = collections.Counter()
    for number in range(asked.first, asked.last + 1):
        text = text_of(number)
        if asked.text:
            sys.stdout.write(text)
            continue
        network = Network(read(text.encode()))
        journal, _ = network.journal()
        met.update(network.met)
        line = line_of(number, journal)
        if asked.lines:
            sys.stdout.write(line)
            continue
        came = run(asked, ["storm", str(number)], b"")
        if came != (0, line):
            sys.exit(f"the program: {came}, the models: {line}")
        if asked.sim and run(asked, ["sim"], text.encode()) != (0, journal):
            sys.exit(f"the program and the models differ on the journal of seed {number}")
    if not asked.lines and not asked.text:
        print(f"{asked.last - asked.first + 1} storms: the program and the models agree")
        print("met:", " ".join(f"{kind} {n}" for kind, n in sorted(met.items())))


main()
