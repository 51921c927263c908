#!/usr/bin/env bash
# Measures `clnp pack` beside `clnp show`: of the same frames, 200,000 short ones and 5,000 of 1,400 octets, the one packs the
# lines that the other writes. Each is the best of so many runs of both, in turn. It ends with 1 where what is packed aren't
# the frames, or where packing takes more than twice the time of showing.
# usage: bench/pack.sh [RUNS]
set -eu
root="$(cd "$(dirname "$0")/.." && pwd)"
work="$(mktemp -d)"
trap 'rm -rf "$work"' EXIT
"$root/bench/built.sh"

python3 - "$work" <<'PYTHON'
import random, sys
random.seed(8473)
frames = [
    "8113010a3c0015ce58044700270104470027026869",
    "8113010a3c00150000044700270104470027026869",
    "8119010abc001b00000447002701044700270200000000001b6869",
    "811c010a3c001c000004470027010447002702c807000304470027ff",
    "820f0100020078324b010447002702",
    "82110100060078adc80447002701010200",
]
with open(sys.argv[1] + "/short", "w") as out:
    for number in range(200_000):
        behind = random.randbytes(random.randrange(8)) if number % 5 == 0 else b""
        out.write(frames[number % len(frames)] + behind.hex() + "\n")
with open(sys.argv[1] + "/long", "w") as out:
    for number in range(5_000):
        length = 1_400
        header = "8113010a3c" + length.to_bytes(2, "big").hex() + "0000" + "04470027010447002702"
        out.write(header + random.randbytes(length - 19).hex() + "\n")
PYTHON

for frames in short long; do
    echo "pack, $frames frames:"
    python3 - "${1:-5}" "$work/$frames" "$root/crates/clnp_tool/out/clnp_tool" <<'PYTHON'
import os, subprocess, sys


def run(program, command, source, target):
    """The seconds on the processor of one run."""
    with open(source, "rb") as given, open(target, "wb") as taken:
        process = subprocess.Popen([program, command], stdin=given, stdout=taken)
        _, status, used = os.wait4(process.pid, 0)
    if status != 0:
        sys.exit(f"{command} ended with {status}")
    return used.ru_utime + used.ru_stime


runs, frames, program = int(sys.argv[1]), *sys.argv[2:4]
lines, packed = frames + ".shown", frames + ".packed"
show = pack = float("inf")
for _ in range(runs):
    show = min(show, run(program, "show", frames, lines))
    pack = min(pack, run(program, "pack", lines, packed))
moved = os.path.getsize(frames) + os.path.getsize(lines)
for name, seconds in [("show", show), ("pack", pack)]:
    print(f"  {name:10} {1000 * seconds:8.0f} ms  {moved / seconds / 1e6:7.0f} MB/s in and out")
with open(frames, "rb") as ours, open(packed, "rb") as theirs:
    same = ours.read() == theirs.read()
print(f"  ratio {pack / show:.2f}, {'the frames again' if same else 'OTHER FRAMES'}")
if not same or pack > 2 * show:
    sys.exit(1)
PYTHON
done
