#!/usr/bin/env bash
# Measures the ticks of `clnp sim` beside those of a plain Rust program: 63 routers that know 1,024 end systems each, and
# 30,000 ticks in which none of them ends, and then twice as many. The best of so many runs of both, in turn. It needs
# rustc.
# usage: bench/ticks.sh [RUNS]
set -eu
root="$(cd "$(dirname "$0")/.." && pwd)"
work="$(mktemp -d)"
trap 'rm -rf "$work"' EXIT
"$root/bench/built.sh"
rustc -O -o "$work/plain" "$root/bench/plain_hostile.rs"

for ticks in 30000 60000; do
    python3 - "$work/scenario" "$ticks" <<'PYTHON'
import sys
lines = ["clnp-sim 1", "subnet lan 1500"]
for router in range(63):
    lines += [f"system r{router} router hello=0 neighbours=1024", f"address r{router} 470026{router:02x}", f"port r{router} 0 lan 00{router:02x}"]
lines.append("events")
for host in range(1_024):
    lines.append(f"inject lan 01{host:04x} is 8210010002ffff00000105470027{host:04x}")
lines += ["settle 1024", f"tick {sys.argv[2]}"]
with open(sys.argv[1], "w") as out:
    out.write("\n".join(lines + ["end", ""]))
PYTHON
    echo "$ticks ticks of 63 routers with full tables:"
    "$root/bench/measure.py" "${1:-5}" "$work/scenario" "$root/crates/clnp_tool/out/clnp_tool" sim "$work/plain"
done
