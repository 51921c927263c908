#!/usr/bin/env bash
# Measures `clnp sim` beside a plain Rust program that writes the same journal: 8 hosts, 6,000 units of 0 to 4,000
# octets, each settled, and a tick now and then; the journal has about 50 MB. The best of so many runs of both, in turn.
# It needs rustc.
# usage: bench/sim.sh [RUNS]
set -eu
root="$(cd "$(dirname "$0")/.." && pwd)"
work="$(mktemp -d)"
trap 'rm -rf "$work"' EXIT
"$root/bench/built.sh"
rustc -O -o "$work/plain" "$root/bench/plain_sim.rs"

python3 - "$work/scenario" <<'PYTHON'
import random, sys
random.seed(8473)
hosts = range(8)
lines = ["clnp-sim 1", "subnet lan 1500"]
lines += [f"system h{host} host hello=0" for host in hosts]
lines += [f"address h{host} 470027{host:02x}" for host in hosts]
lines += [f"port h{host} 0 lan {host + 1:02x}" for host in hosts]
lines.append("events")
for number in range(6_000):
    source, destination = random.sample(hosts, 2)
    lines.append(f"send h{source} 470027{source:02x} 470027{destination:02x} pat:{random.randint(0, 4_000)}:{number % 256}")
    lines.append("settle 3")
    if number % 60 == 0:
        lines.append("tick 1")
with open(sys.argv[1], "w") as out:
    out.write("\n".join(lines + ["end", ""]))
PYTHON

echo "sim, 6,000 units between 8 hosts:"
"$root/bench/measure.py" "${1:-5}" "$work/scenario" "$root/crates/clnp_tool/out/clnp_tool" sim "$work/plain"
