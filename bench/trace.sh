#!/usr/bin/env bash
# Measures `clnp trace` beside `clnp sim` on the scenario of bench/sim.sh: 8 hosts, 6,000 units of 0 to 4,000 octets, each
# settled. The best of so many runs of both, in turn, by the time on the processor; and beside what their outputs have of
# octets, since a trace has lines more to write.
# usage: bench/trace.sh [RUNS [PROGRAM]]
set -eu
root="$(cd "$(dirname "$0")/.." && pwd)"
program="${2:-$root/crates/clnp_tool/out/clnp_tool}"
[ $# -ge 2 ] || "$root/bench/built.sh"

python3 - "${1:-5}" "$program" <<'PYTHON'
import os, random, subprocess, sys, tempfile

runs, program = int(sys.argv[1]), sys.argv[2]
random.seed(8473)
hosts = range(8)
lines = ["clnp-sim 1", "subnet lan 1500"]
lines += [f"system h{host} host hello=0" for host in hosts]
lines += [f"address h{host} 470027{host:02x}" for host in hosts]
lines += [f"port h{host} 0 lan {host + 1:02x}" for host in hosts]
lines.append("events")
for number in range(6_000):
    source, destination = random.sample(hosts, 2)
    lines.append(f"send h{source} 470027{source:02x} 470027{destination:02x} pat:{random.randint(0, 4_000)}:{number % 256}")
    lines.append("settle 3")
    if number % 60 == 0:
        lines.append("tick 1")

with tempfile.TemporaryDirectory() as room:
    given = os.path.join(room, "scenario")
    with open(given, "w") as out:
        out.write("\n".join(lines + ["end", ""]))
    best = {"sim": float("inf"), "trace": float("inf")}
    octets, count = {}, {}
    for _ in range(runs):
        for word in best:
            target = os.path.join(room, word)
            with open(given, "rb") as source, open(target, "wb") as taken:
                process = subprocess.Popen([program, word], stdin=source, stdout=taken)
                _, status, used = os.wait4(process.pid, 0)
            if status != 0:
                sys.exit(f"{word} ended with {status}")
            best[word] = min(best[word], used.ru_utime + used.ru_stime)
            octets[word] = os.path.getsize(target)
    for word in best:
        with open(os.path.join(room, word), "rb") as output:
            count[word] = sum(1 for _ in output)
    for word in best:
        print(f"  {word:5} {1000 * best[word]:6.0f} ms  {count[word]:8} lines  {octets[word]:10} octets")
    print(f"  trace takes {best['trace'] / best['sim']:.2f} times the time of sim, for {octets['trace'] / octets['sim']:.2f} times its octets and {count['trace'] / count['sim']:.2f} times its lines")
PYTHON
