#!/usr/bin/env bash
# Measures the hearings of `clnp sim` beside those of a plain Rust program: 32 routers that know 1,024 end systems each hear
# of them again, in a random order, half a million times, and then twice as often. The best of so many runs of both, in turn.
# It needs rustc.
# usage: bench/hearings.sh [RUNS]
set -eu
root="$(cd "$(dirname "$0")/.." && pwd)"
work="$(mktemp -d)"
trap 'rm -rf "$work"' EXIT
"$root/bench/built.sh"
rustc -O -o "$work/plain" "$root/bench/plain_hostile.rs"

for hearings in 15625 31250; do
    python3 - "$work/scenario" "$hearings" <<'PYTHON'
import random, sys
random.seed(8473)
lines = ["clnp-sim 1", "subnet lan 1500"]
for router in range(32):
    lines += [f"system r{router} router hello=0 neighbours=1024", f"address r{router} 470026{router:02x}", f"port r{router} 0 lan 00{router:02x}"]
lines.append("events")
hosts = list(range(1_024))
random.shuffle(hosts)
hosts += [random.randrange(1_024) for _ in range(int(sys.argv[2]) - 1_024)]
for host in hosts:
    lines.append(f"inject lan 01{host:04x} is 8210010002ffff00000105470027{host:04x}")
lines.append("settle 100000")
with open(sys.argv[1], "w") as out:
    out.write("\n".join(lines + ["end", ""]))
PYTHON
    echo "$((32 * hearings)) hearings in full tables:"
    "$root/bench/measure.py" "${1:-5}" "$work/scenario" "$root/crates/clnp_tool/out/clnp_tool" sim "$work/plain"
done
