#!/usr/bin/env bash
# Measures the reassembly of `clnp sim` beside that of a plain Rust program where segments of one octet touch no neighbour:
# 8,000 of one unit and then 16,000, in a random order; and 1,024 units at once, with 7 segments each and then 15. The best of
# so many runs of both, in turn. It needs rustc.
# usage: bench/neighbours.sh [RUNS]
set -eu
root="$(cd "$(dirname "$0")/.." && pwd)"
work="$(mktemp -d)"
trap 'rm -rf "$work"' EXIT
"$root/bench/built.sh"
rustc -O -o "$work/plain" "$root/bench/plain_hostile.rs"

measure() {
    python3 - "$work/scenario" "$1" "$2" <<'PYTHON'
import random, sys
random.seed(8473)
units, segments = int(sys.argv[2]), int(sys.argv[3])
lines = ["clnp-sim 1", "subnet lan 1500", "system a host hello=0 budget=4194304 slots=1024 segments=16384", "address a 47002701", "port a 0 lan 0a", "events"]
places = [(unit, 4 * at) for unit in range(units) for at in range(segments)]
random.shuffle(places)
for unit, offset in places:
    total = 25 + 4 * segments
    lines.append(f"inject lan 01 0a 8119010afc001a00000447002701044700270" + f"2{unit:04x}{offset:04x}{total:04x}" + f"{offset % 256:02x}")
lines.append("settle 100000")
with open(sys.argv[1], "w") as out:
    out.write("\n".join(lines + ["end", ""]))
PYTHON
    echo "$1 units at once, $2 segments of each that touch no neighbour:"
    "$root/bench/measure.py" "$3" "$work/scenario" "$root/crates/clnp_tool/out/clnp_tool" sim "$work/plain"
}

for segments in 8000 16000; do
    measure 1 "$segments" "${1:-5}"
done
for segments in 7 15; do
    measure 1024 "$segments" "${1:-5}"
done
