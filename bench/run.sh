#!/usr/bin/env bash
# Measures `clnp run` over UDP on 127.0.0.1, its journal going to /dev/null: how many datagrams a router forwards in a
# second, beside a plain Rust loop over recv_from and send_to that sends on what comes as it is; and how much of a processor
# a router takes to which nothing comes. A load keeps 64 datagrams of each flow on their way: units of 2 octets, then of 1,400.
# The flows are: back by the port by which they come; over two ports, in both ways at once; over two ports, in one way, so
# that nothing comes at the other port. Each rate is the best of three, of both in turn, over so many
# seconds. The program is the built one: what `rt try` compiles is watched while it runs, and far slower. It needs rustc.
# usage: bench/run.sh [SECONDS [PROGRAM]]
set -eu
root="$(cd "$(dirname "$0")/.." && pwd)"
work="$(mktemp -d)"
trap 'rm -rf "$work"' EXIT
program="${2:-$root/crates/clnp_tool/out/clnp_tool}"
[ $# -ge 2 ] || "$root/bench/built.sh"
rustc -O --edition 2021 -o "$work/plain" "$root/bench/plain_run.rs"

python3 - "$program" "$work/plain" "${1:-2}" "$root/tests/models" <<'PYTHON'
import os, socket, subprocess, sys, time

program, plain, seconds, models = sys.argv[1:]
sys.path.append(models)
from network_model import pdu

TURNS = 1_000_000_000
LEFT, RIGHT, TITLE = "4700270101", "4700270201", "47002700ff"


def free_ends(count):
    sockets = [socket.socket(socket.AF_INET, socket.SOCK_DGRAM) for _ in range(count)]
    for one in sockets:
        one.bind(("127.0.0.1", 0))
    ends = [one.getsockname() for one in sockets]
    for one in sockets:
        one.close()
    return ends


def word(end):
    return f"{end[0]}:{end[1]}"


def snpa(end):
    return socket.inet_aton(end[0]).hex() + f"{end[1]:04x}"


def frame(octets, destination):
    """A unit of so many octets, with a checksum."""
    unit = {"kind": "dt", "id": None, "total": 21 + octets, "length": octets, "sealed": True, "from": bytes.fromhex(TITLE),
            "to": bytes.fromhex(destination), "report": False, "options": b""}
    return pdu(unit, 64, 0, bytes(octets))


def router(ends, ways):
    """The text of a router with these ends, and routes to ends by ports; and its words."""
    lines = ["clnp-sim 1", *[f"subnet s{port} 1500" for port in range(len(ends))], "system r router hello=0", f"address r {TITLE}"]
    lines += [f"port r {port} s{port} {snpa(end)}" for port, end in enumerate(ends)]
    lines += [f"route r {address} {port} {snpa(to)} {address}" for address, port, to in ways]
    text = "\n".join([*lines, "events", "end", ""])
    return text, [program, "run", "--turns", str(TURNS), *[f"udp:{word(end)}" for end in ends]]


def started(command, text):
    process = subprocess.Popen(command, stdin=subprocess.PIPE, stdout=subprocess.DEVNULL)
    process.stdin.write(text.encode())
    process.stdin.close()
    time.sleep(0.2)
    return process


def rate(command, text, load):
    """The datagrams that come back in a second."""
    process = started(command, text)
    try:
        return float(subprocess.run(load, check=True, capture_output=True, text=True).stdout)
    finally:
        process.kill()
        process.wait()


def compared(what, octets, ends, flows):
    """The rates of datagrams of so many octets over a router with these ends. A flow goes from an end to one of the router's,
    and from that of a port to another end, which has an address."""
    text, command = router(ends, [(address, ends.index(out), back) for _, _, out, back, address in flows])
    routes = [(to, out, back) for _, to, out, back, _ in flows]
    load = [plain, "load", seconds]
    load += [f"{word(by)},{word(to)},{word(back)},{frame(octets, address).hex()}" for by, to, _, back, address in flows]
    beside = [plain, "forward", *[f"{word(by)},{word(out)},{word(to)}" for by, out, to in routes]]
    best = [0, 0]
    for _ in range(3):
        best = [max(best[0], rate(command, text, load)), max(best[1], rate(beside, "", load))]
    print(f"  {what + ',':27}{octets:5} octets: clnp {best[0]:8.0f} in a second, plain Rust {best[1]:8.0f}, ratio {best[0] / best[1]:.3f}", flush=True)


def idle(ports):
    """How much of a processor a router takes to which nothing comes."""
    text, command = router(free_ends(ports), [])
    process = started(command, text)
    began = time.monotonic()
    time.sleep(5)
    process.kill()
    took = time.monotonic() - began
    _, _, used = os.wait4(process.pid, 0)
    print(f"  with {ports} port{'s' if ports > 1 else ''}: {100 * (used.ru_utime + used.ru_stime) / took:.1f} % of a processor", flush=True)


print("forwarded:")
for octets in (2, 1400):
    one, two, left, right = free_ends(4)
    there, back = (left, one, two, right, RIGHT), (right, two, one, left, LEFT)
    compared("back by one port", octets, [one], [(left, one, one, right, RIGHT)])
    compared("over two ports, both ways", octets, [one, two], [there, back])
    compared("over two ports, one way", octets, [one, two], [there])
print("idle:")
for ports in (1, 2, 8):
    idle(ports)
PYTHON
