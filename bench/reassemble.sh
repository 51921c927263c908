#!/usr/bin/env bash
# Measures `clnp reassemble` beside a plain Rust program that does the same: 50,000 frames of 64 sources that each have a share,
# and then 100,000; units of 96 octets in segments of 32, mixed, of which some are lost or come twice. Then 50,000 and 100,000
# segments of one source, whose buffers are all taken and never whole. Each is the best of so many runs of both, in turn. It
# needs rustc.
# usage: bench/reassemble.sh [RUNS]
set -eu
root="$(cd "$(dirname "$0")/.." && pwd)"
work="$(mktemp -d)"
trap 'rm -rf "$work"' EXIT
"$root/bench/built.sh"
rustc -O -o "$work/plain" "$root/bench/plain_reassemble.rs"

python3 - "$work" <<'PYTHON'
import random, sys

def segment(source, identifier, offset, octets, total, more):
    header = bytes([0x81, 25, 1, 10, 0xdc if more else 0x9c]) + (25 + len(octets)).to_bytes(2, "big") + bytes(2)
    header += bytes.fromhex("0447002701") + bytes([4]) + source
    return header + b"".join(number.to_bytes(2, "big") for number in (identifier, offset, 25 + total)) + octets

def write(name, shares, frames):
    with open(f"{sys.argv[1]}/{name}", "w") as out:
        out.write("\n".join(["clnp-reassemble 1", "others 64 1024 262144 10", *shares, "frames"]) + "\n")
        for at, frame in enumerate(frames):
            out.write(f"{at // 100} {frame.hex()}\n")
        out.write("end\n")

sources = [bytes([0x47, 0, 0x28, at]) for at in range(64)]
shares = [f"share {source.hex()} 16 256 65536" for source in sources]
for count in (50_000, 100_000):
    random.seed(8473)
    frames, waiting, identifier = [], [], 0
    while len(frames) < count:
        while len(waiting) < 200:
            source, identifier = random.choice(sources), (identifier + 1) % 65536
            waiting += [(source, identifier, offset) for offset in (0, 32, 64)]
        source, number, offset = waiting.pop(random.randrange(len(waiting)))
        if random.random() < 0.98:
            frames.append(segment(source, number, offset, random.randbytes(32), 96, offset < 64))
        if random.random() < 0.02:
            waiting.append((source, number, offset))
    write(f"shares-{count}", shares, frames[:count])
    taken = [segment(bytes.fromhex("47002702"), at % 5_000, 8 * (at // 5_000), random.randbytes(8), 60_000, True) for at in range(count)]
    write(f"taken-{count}", ["share 47002702 1024 16384 4194304"], taken)
PYTHON

for frames in shares-50000 shares-100000 taken-50000 taken-100000; do
    echo "reassemble, $frames:"
    "$root/bench/measure.py" "${1:-5}" "$work/$frames" "$root/crates/clnp_tool/out/clnp_tool" reassemble "$work/plain"
done
