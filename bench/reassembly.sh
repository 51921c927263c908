#!/usr/bin/env bash
# Measures the reassembly of `clnp sim` beside that of a plain Rust program: units of 64,000 octets over an MTU of 512,
# 40 at a time, whose segments are delivered in a random order; 160 units, and then twice as many. The best of so many
# runs of both, in turn. It needs rustc.
# usage: bench/reassembly.sh [RUNS]
set -eu
root="$(cd "$(dirname "$0")/.." && pwd)"
work="$(mktemp -d)"
trap 'rm -rf "$work"' EXIT
"$root/bench/built.sh"
rustc -O -o "$work/plain" "$root/bench/plain_sim.rs"

for units in 160 320; do
    python3 - "$work/scenario" "$units" <<'PYTHON'
import random, sys
random.seed(8473)
lines = ["clnp-sim 1", "subnet lan 512", "system a host hello=0", "system b host hello=0 budget=4194304 slots=64 segments=16384"]
lines += ["address a 47002702", "address b 47002701", "port a 0 lan 01", "port b 0 lan 02", "events"]
header, octets = 25, 64_000
segments = -(-octets // ((512 - header) // 8 * 8))
copies = 0
for first in range(0, int(sys.argv[2]), 40):
    lines += [f"send a 47002702 47002701 pat:{octets}:{(first + at) % 256}" for at in range(40)]
    order = list(range(copies + 1, copies + 40 * segments + 1))
    copies += 40 * segments
    random.shuffle(order)
    lines += [f"deliver {number} b" for number in order]
with open(sys.argv[1], "w") as out:
    out.write("\n".join(lines + ["end", ""]))
PYTHON
    echo "reassembly of $units units:"
    "$root/bench/measure.py" "${1:-5}" "$work/scenario" "$root/crates/clnp_tool/out/clnp_tool" sim "$work/plain"
done
