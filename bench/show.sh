#!/usr/bin/env bash
# Measures `clnp show` beside a plain Rust program that does the same: 200,000 short frames, and 5,000 of 1,400 octets.
# Each is the best of so many runs of both, in turn. It needs rustc.
# usage: bench/show.sh [RUNS]
set -eu
root="$(cd "$(dirname "$0")/.." && pwd)"
work="$(mktemp -d)"
trap 'rm -rf "$work"' EXIT
"$root/bench/built.sh"
rustc -O -o "$work/plain" "$root/bench/plain_show.rs"

python3 - "$work" <<'PYTHON'
import random, sys
random.seed(8473)
frames = [
    "8113010a3c0015ce58044700270104470027026869",
    "8113010a3c00150000044700270104470027026869",
    "8113010a7c0015000004470027010447002702",
    "8119010abc001b00000447002701044700270200000000001d6869",
    "8115010a3c00150000044700270104470027" + "02ff00",
    "811c010a3c001c00000447002701044700270" + "2c807000304470027ff",
]
with open(sys.argv[1] + "/short", "w") as out:
    for number in range(200_000):
        frame = bytearray.fromhex(frames[number % len(frames)])
        if number % 5 == 0:
            frame[random.randrange(len(frame))] = random.randrange(256)
        out.write(frame.hex() + "\n")
with open(sys.argv[1] + "/long", "w") as out:
    for number in range(5_000):
        length = 1_400
        header = "8113010a3c" + length.to_bytes(2, "big").hex() + "0000" + "04470027010447002702"
        out.write(header + random.randbytes(length - 19).hex() + "\n")
PYTHON

for frames in short long; do
    echo "show, $frames frames:"
    "$root/bench/measure.py" "${1:-5}" "$work/$frames" "$root/crates/clnp_tool/out/clnp_tool" show "$work/plain"
done
