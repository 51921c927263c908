#!/usr/bin/env bash
# Measures `clnp pcap-show` beside a plain Rust program that does the same: pcap files of 200 MB, one of short frames and
# one of frames of 1,400 octets, both with some frames that carry no OSI PDU. Each is the best of so many runs of both, in
# turn; the peak in the last line is that of the program alone, where measure.py's has Python's in it. It needs rustc and GNU
# time.
# usage: bench/pcap.sh [RUNS [PROGRAM]]
set -eu
root="$(cd "$(dirname "$0")/.." && pwd)"
work="$(mktemp -d)"
trap 'rm -rf "$work"' EXIT
program="${2:-$root/crates/clnp_tool/out/clnp_tool}"
[ $# -ge 2 ] || "$root/bench/built.sh"
rustc -O --edition 2021 -o "$work/plain" "$root/bench/plain_pcap.rs"

python3 - "$work" <<'PYTHON'
import random, struct, sys
random.seed(8473)
PDUS = [bytes.fromhex(pdu) for pdu in [
    "8113010a3c0015ce58044700270104470027026869",
    "8113010a3c00150000044700270104470027026869",
    "820f0100020078324b010447002702",
    "8119010abc001b00000447002701044700270200000000001d6869",
    "8115010a3c0015000004470027010447002702ff00",
]]
OTHER = bytes.fromhex("ffffffffffff0a00000000010800") + bytes(46)

def record(second, frame):
    return struct.pack("<IIII", second, 0, len(frame), len(frame)) + frame

def osi(pdu):
    frame = bytes.fromhex("09002b000004" + "0a0000000001") + struct.pack(">H", len(pdu) + 3) + b"\xfe\xfe\x03" + pdu
    return frame + bytes(max(0, 60 - len(frame)))

def long_pdu():
    header = "8113010a3c" + (1_400).to_bytes(2, "big").hex() + "0000" + "04470027010447002702"
    return bytes.fromhex(header) + random.randbytes(1_400 - 19)

HEADER = struct.pack("<IHHiIII", 0xA1B2C3D4, 2, 4, 0, 0, 262_144, 1)
for name, frames in [
    ("short", [osi(pdu) for pdu in PDUS] * 7 + [OTHER]),
    ("long", [osi(long_pdu()) for _ in range(40)] + [OTHER]),
]:
    block = b"".join(record(second, frame) for second, frame in enumerate(frames * 100))
    with open(sys.argv[1] + "/" + name, "wb") as out:
        out.write(HEADER)
        size = len(HEADER)
        while size < 200_000_000:
            out.write(block)
            size += len(block)
PYTHON

for frames in short long; do
    echo "pcap-show, $frames frames:"
    "$root/bench/measure.py" "${1:-5}" "$work/$frames" "$program" pcap-show "$work/plain"
    command time -f "  peak of clnp %M KiB" "$program" pcap-show < "$work/$frames" > /dev/null
done
