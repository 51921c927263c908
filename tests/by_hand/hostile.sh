#!/usr/bin/env bash
# Feeds hostile octets to `clnp show`: every front of the worked frames below, every octet of six CLNP and six ES-IS
# frames of them set to each value, and random octets up to 70,000. One line each must come out, and none be lost.
# With rustc at hand the lines are compared with those of the plain Rust program of bench/.
# usage: tests/by_hand/hostile.sh
set -eu
root="$(cd "$(dirname "$0")/../.." && pwd)"
work="$(mktemp -d)"
trap 'rm -rf "$work"' EXIT
"$root/clnp" --version >/dev/null

python3 - "$work" <<'PYTHON'
import random, sys
work = sys.argv[1]
random.seed(70000)
worked = [bytes.fromhex(digits) for digits in """
8113010a3c0015ce58044700270104470027026869
8113010a3c00150000044700270104470027026869
811301013c0015fb34044700270104470027026869
8117014001002aeac4044700270204470027ffc102a000811301013c0015fb3404470027010447002702
8119010abc00192c5704470027010447002702000000000019
811301401f00152fde044700270204470027016869
811c010a3c001c00000447002701044700270 2c807000304470027ff
8119010a3c0019000004470027010447002702cd0105cd0105
8117010a3c0017000004470027010447002702cc00cc00
8115010a3c0015000004470027010447002702ff00
820e0100040078b1cd04470027ff
821201000400785b3904470027ffc602001e
820f0100020078324b010447002702
82110100060078adc80447002701010200
8214010002007800000204470027010447002702
821801000400780000 04470027ffc602001ecd00c602001e
821a0100060078000004470027010102 00e104ffffff00e20100
""".replace(" ", "").split()]
frames = []
for frame in worked:
    frames += [frame[:n] for n in range(1, len(frame) + 1)]
    frames += [frame + bytes([0xff] * n) for n in range(1, 4)]
for frame in worked[:6] + worked[-6:]:
    for place in range(len(frame)):
        for value in range(256):
            frames.append(frame[:place] + bytes([value]) + frame[place + 1:])
for size in [1, 2, 8, 9, 10, 254, 255, 256, 1500, 65535, 65536, 69999, 70000]:
    frames.append(random.randbytes(size))
    frames.append(b"\x81" + random.randbytes(size - 1))
    frames.append(b"\x82" + random.randbytes(size - 1))
for _ in range(5000):
    frame = bytearray(b"\x81" + random.randbytes(random.randrange(8, 300)))
    frame[1] = random.randrange(9, min(len(frame), 254) + 1)
    frame[2] = 1
    frame[7] = frame[8] = 0
    frames.append(bytes(frame))
for _ in range(5000):
    frame = bytearray(b"\x82" + random.randbytes(random.randrange(8, 300)))
    frame[1] = random.randrange(9, min(len(frame), 254) + 1)
    frame[2:4] = b"\x01\x00"
    frame[4] = random.choice([2, 4, 6])
    frame[7] = frame[8] = 0
    for place in range(9, len(frame), random.randrange(2, 9)):
        frame[place] = random.choice([0, 1, 2, 4, 20, 0xc6])
    frames.append(bytes(frame))
parts = [[]]
size = 0
for frame in frames:
    if size + 2 * len(frame) + 1 > 12_000_000:
        parts.append([])
        size = 0
    size += 2 * len(frame) + 1
    parts[-1].append(frame)
for number, part in enumerate(parts):
    with open(f"{work}/capture{number}.txt", "w") as out:
        out.writelines(frame.hex() + "\n" for frame in part)
PYTHON

plain=""
if command -v rustc >/dev/null; then
    plain="$work/plain"
    rustc -O -o "$plain" "$root/bench/plain_show.rs"
fi
passed=0
for capture in "$work"/capture*.txt; do
    "$root/clnp" show <"$capture" >"$work/shown.txt"
    frames="$(wc -l <"$capture")"
    lines="$(grep -cE '^(clnp (er|dt|erq|erp) (s?m?e?|-) life=|refused G[0-9]+ [0-9a-f]{2} [0-9a-f]{2} (report|silent)$|(esh|ish|rd) hold=|refused E[0-9]+ [0-9a-f]{2}$|alien$)' "$work/shown.txt")"
    if [ "$frames" -ne "$lines" ] || [ "$frames" -ne "$(wc -l <"$work/shown.txt")" ]; then
        echo "$frames frames gave $lines lines" >&2
        exit 1
    fi
    if [ -n "$plain" ]; then
        "$plain" <"$capture" >"$work/plain.txt"
        cmp "$work/shown.txt" "$work/plain.txt"
    fi
    passed=$((passed + frames))
done
echo "$passed frames shown, a line each"
