#!/usr/bin/env bash
# Measures `clnp storm` beside a plain Rust program that runs the same scenarios and writes the same lines: the seeds 1
# to 200, a process for each, the best of so many rounds of both, in turn. The time is that of the processor, over all
# seeds; the peak is that of the largest process. It needs rustc and GNU time.
# usage: bench/storm.sh [ROUNDS [PROGRAM]]
set -eu
root="$(cd "$(dirname "$0")/.." && pwd)"
work="$(mktemp -d)"
trap 'rm -rf "$work"' EXIT
program="${2:-$root/crates/clnp_tool/out/clnp_tool}"
[ $# -ge 2 ] || "$root/bench/built.sh"
rustc -O --edition 2021 -o "$work/plain" "$root/bench/plain_storm.rs"

echo "storm, seeds 1 to 200:"
python3 - "${1:-5}" "$program" "$work/plain" <<'PYTHON'
import os, subprocess, sys

rounds, program, plain = int(sys.argv[1]), *sys.argv[2:4]

def run(command):
    """The seconds on the processor of a round, and what was written."""
    seconds, lines = 0, b""
    for seed in range(1, 201):
        process = subprocess.Popen([*command, str(seed)], stdout=subprocess.PIPE)
        lines += process.stdout.read()
        _, process.returncode, used = os.wait4(process.pid, 0)
        if process.returncode != 0:
            sys.exit(f"{command} {seed} ended with {process.returncode}")
        seconds += used.ru_utime + used.ru_stime
    return seconds, lines

def peak(command):
    """The greatest peak in KiB of a process, as GNU time tells it: a process that Python starts would count Python's own."""
    told = [subprocess.run(["time", "-f", "%M", *command, str(seed)], stdout=subprocess.DEVNULL, stderr=subprocess.PIPE, check=True)
            for seed in range(1, 201)]
    return max(int(one.stderr) for one in told)

commands, best = [[program, "storm"], [plain]], [(float("inf"), b"")] * 2
for _ in range(rounds):
    for at in range(2):
        best[at] = min(best[at], run(commands[at]))
for name, command, (seconds, _) in zip(["clnp", "plain Rust"], commands, best):
    print(f"  {name:10} {1000 * seconds:8.0f} ms  {5 * seconds:7.2f} ms each  peak {peak(command) / 1024:6.1f} MiB")
same = best[0][1] == best[1][1]
print(f"  ratio {best[0][0] / best[1][0]:.2f}, {'the same lines' if same else 'LINES DIFFER'}")
sys.exit(not same)
PYTHON
