#!/usr/bin/env python3
"""Runs the program and a plain Rust program on one input, in turn, and prints the best time of each, its rate, its
peak of memory, and the ratio of both times. Their outputs must be the same. The time is that of the processor, so that
other work on the machine changes it little.

usage: bench/measure.py RUNS INPUT PROGRAM COMMAND PLAIN
"""
import os
import subprocess
import sys


def run(command, source, target):
    """The seconds on the processor and the peak in KiB of one run."""
    with open(source, "rb") as given, open(target, "wb") as taken:
        process = subprocess.Popen(command, stdin=given, stdout=taken)
        _, status, used = os.wait4(process.pid, 0)
    if status != 0:
        sys.exit(f"{command} ended with {status}")
    return used.ru_utime + used.ru_stime, used.ru_maxrss


def main():
    runs, source, program, command, plain = int(sys.argv[1]), *sys.argv[2:6]
    outputs = [source + ".ours", source + ".theirs"]
    commands = [[program, command], [plain]]
    best = [(float("inf"), 0)] * 2
    for _ in range(runs):
        for at in range(2):
            best[at] = min(best[at], run(commands[at], source, outputs[at]))
    came, wrote = os.path.getsize(source), os.path.getsize(outputs[0])
    for name, (seconds, peak) in zip(["clnp", "plain Rust"], best):
        print(f"  {name:10} {1000 * seconds:8.0f} ms  {(came + wrote) / seconds / 1e6:7.0f} MB/s in and out  peak {peak / 1024:6.1f} MiB")
    with open(outputs[0], "rb") as ours, open(outputs[1], "rb") as theirs:
        same = ours.read() == theirs.read()
    print(f"  ratio {best[0][0] / best[1][0]:.2f}, {came / 1e6:.1f} MB in, {wrote / 1e6:.1f} MB out, {'the same output' if same else 'OUTPUTS DIFFER'}")
    if not same:
        sys.exit(1)


main()
