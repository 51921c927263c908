#!/usr/bin/env python3
"""Compares how `clnp run` ends with what docs/FORMATS.md says of it: each exit number, and all of standard error (of advice,
that it is there and plain), for bad words at each place, bad inputs of each code, inputs of the greatest length and above it,
links that can't be opened, links that fail, streams that fail, and want of memory. Nothing but 127.0.0.1 is bound, at ports
that are free. It ends within a minute.

usage: tests/gate/run.py [PROGRAM]     PROGRAM is another program to run than the built one
"""
import os
import re
import resource
import socket
import subprocess
import sys
import tempfile

ROOT = os.path.abspath(os.path.join(os.path.dirname(__file__), "..", ".."))
PROGRAM = os.path.join(ROOT, "crates", "clnp_tool", "out", "clnp_tool")

MOST = 16_777_216
COMMANDS = ("clnp: wanted: sim, trace, show, check, pack, pcap-show, pcap-make, pcap-lines, reassemble, migrate, storm, or run;"
            " clnp --help tells of each\n")
# the line of advice, which stands behind that of each bad input
ADVICE = r"clnp: [ -~]{1,250}\n"
A, B, R = "47002702", "47002701", "470027ff"
# the unit of README.md: the octets `hi` from A to B, with the lifetime 10, that may not be cut
UNIT = "8113010a3c0015ce58044700270104470027026869"
# the most octets of data of a unit
LONGEST = 64_512
# no socket may send there that wasn't allowed to broadcast, so a link fails at a frame for it
NOBODY, NOBODYS_SNPA = ("255.255.255.255", 9), "ffffffff0009"


# ---- what is run


def free_ends(count):
    """So many ends of 127.0.0.1 that are free just now."""
    sockets = [socket.socket(socket.AF_INET, socket.SOCK_DGRAM) for _ in range(count)]
    for one in sockets:
        one.bind(("127.0.0.1", 0))
    ends = [one.getsockname() for one in sockets]
    for one in sockets:
        one.close()
    return ends


def link(end, *peers):
    """The link word of an end, with peers that are hosts."""
    return f"udp:{end[0]}:{end[1]}" + "".join(f",h{peer[0]}:{peer[1]}" for peer in peers)


def links(count):
    return [link(end) for end in free_ends(count)]


def host(*events, limits=""):
    """A host with a port, which says no hellos; its events begin at line 7, or at line 8 behind limits."""
    lines = ["clnp-sim 1", *([f"limits {limits}"] if limits else []), "subnet lan 1500", "system a host hello=0", f"address a {A}",
             "port a 0 lan 01", "events", *events, "end"]
    return "".join(line + "\n" for line in lines)


def router(*events):
    """A router with two ports, by which A and B are reached, at an end to which no socket may send; its events begin at line 12."""
    lines = ["clnp-sim 1", "limits 256 60 320", "subnet one 1500", "subnet two 1500", "system r router hello=0", f"address r {R}",
             "port r 0 one 0a", "port r 1 two 0b", f"route r {A} 0 {NOBODYS_SNPA} {A}", f"route r {B} 1 {NOBODYS_SNPA} {B}",
             "events", *events, "end"]
    return "".join(line + "\n" for line in lines)


class Ends:
    """What runs came to; it counts what was compared, by exit numbers."""

    def __init__(self, program):
        self.program, self.counts, self.differ = program, {}, 0

    def check(self, what, words, text, status, said, wrote="", **streams):
        """Runs the program with these words behind `run`, and compares its exit number, the lines of standard error, with advice
        behind those of a bad input, and standard output, which `wrote` is a pattern of."""
        given = {"input": text.encode() if isinstance(text, str) else text} if "stdin" not in streams else {}
        ran = subprocess.run([self.program, "run", *words], **given, **{"stdout": subprocess.PIPE, **streams}, stderr=subprocess.PIPE, timeout=30)
        errors = ran.stderr.decode("latin-1")
        output = (ran.stdout or b"").decode("latin-1")
        self.counts[status] = self.counts.get(status, 0) + 1
        all_said = re.escape(said) + (ADVICE if status == 3 else "")
        if ran.returncode != status or not re.fullmatch(all_said, errors) or not re.fullmatch(wrote, output):
            self.differ += 1
            print(f"DIFFERS: {what}: run {' '.join(words)[:300]}\n  ended with {ran.returncode} and said {errors!r}"
                  f"\n  wanted {status} and {said!r}\n  wrote {output[:300]!r}, wanted {wrote[:300]!r}")

    def bad_words(self, what, words, at):
        self.check(what, words, "", 1, f"clnp: bad words at {at}\n{COMMANDS}")

    def bad_input(self, what, text, line, name, count=1):
        self.check(what, ["--turns", "1", *links(count)], text, 3, f"clnp: bad input at line {line}: {name}\n")


# ---- what is compared


def done(ends):
    """All turns are over."""
    ends.check("no events", ["--turns", "1", *links(1)], host(), 0, "", r"end \d+ 0\n")
    ends.check("a number of turns with a leading zero", ["--turns", "01", *links(1)], host(), 0, "", r"end \d+ 0\n")
    ends.check("two links", ["--turns", "2", *links(2)], router(), 0, "", r"end \d+ 0\n")
    with socket.socket(socket.AF_INET, socket.SOCK_DGRAM) as peer:
        peer.bind(("127.0.0.1", 0))
        peer.settimeout(5)
        [end] = free_ends(1)
        words = ["--turns", "1", link(end, peer.getsockname())]
        ends.check("a unit is sent", words, host(f"send a {A} {B} hex:6869 life=10 whole"), 0, "",
                   rf"(\d+) a sent dt 1 - {A} {B} 2\n\1 a tx 1 0 es {UNIT}\nend \1 1\n")
        if peer.recvfrom(70_000) != (bytes.fromhex(UNIT), end):
            ends.differ += 1
            print("DIFFERS: another datagram came than that of the unit")
        longest = host(f"send a {A} {B} pat:{LONGEST}:0 whole").replace("1500", "65535")
        ends.check("the longest unit is sent", words, longest, 0, "",
                   rf"(\d+) a sent dt 1 - {A} {B} {LONGEST}\n\1 a tx 1 0 es [0-9a-f]{{{2 * (LONGEST + 19)}}}\nend \1 1\n")
        octets, sender = peer.recvfrom(70_000)
        if sender != end or octets[19:] != bytes((at + at // 256) % 256 for at in range(LONGEST)):
            ends.differ += 1
            print("DIFFERS: another datagram came than that of the longest unit")
    text = host()
    filled = text + "#" * (MOST - len(text))
    ends.check("an input of the greatest length", ["--turns", "1", *links(1)], filled, 0, "", r"end \d+ 0\n")
    peers = free_ends(16)
    ends.check("sixteen peers", ["--turns", "1", link(free_ends(1)[0], *peers)], host(), 0, "", r"end \d+ 0\n")


def bad_words(ends):
    """Words that are none of a run, first at each place."""
    for words, at in [([], 1), (["--turn", "1"], 1), (["turns", "1"], 1), (["--turns=1"], 1), ([links(1)[0], "--turns", "1"], 1), ([""], 1)]:
        ends.bad_words("no --turns", words, at)
    ends.bad_words("no number", ["--turns"], 2)
    for number in ["0", "1000000001", "18446744073709551617", "+1", "-1", "1.0", " 1", "1 ", "0x1", "one", "", links(1)[0]]:
        ends.bad_words("no number of turns", ["--turns", number, *links(1)], 2)
    good = links(9)
    for word in ["", "udp", "udp:", "udp:127.0.0.1", "udp:127.0.0.1:", "udp:127.0.0.1:0", "udp:127.0.0.1:65536", "udp:127.0.0.1:07001",
                 "udp:127.0.0.1:+7001", "udp:127.0.0.1:7001:1", "udp:127.0.0.1:7001 ", " udp:127.0.0.1:7001", "udp:256.0.0.1:7001",
                 "udp:127.0.0.01:7001", "udp:127.0.0:7001", "udp:127.0.0.0.1:7001", "udp:127..0.1:7001", "UDP:127.0.0.1:7001",
                 "tcp:127.0.0.1:7001", "127.0.0.1:7001", "udp:localhost:7001", good[0] + ",", good[0] + ",127.0.0.1:7002",
                 good[0] + ",s127.0.0.1:7002", good[0] + ",h127.0.0.1", good[0] + ",h127.0.0.1:0", good[0] + 17 * ",h127.0.0.1:7002"]:
        ends.bad_words("no link word", ["--turns", "1", word], 3)
    for before in range(1, 8):
        ends.bad_words("no link word behind others", ["--turns", "1", *good[:before], "udp:", "udp:"], 3 + before)
    ends.bad_words("nine links", ["--turns", "1", *good], 11)
    ends.bad_words("a bad word behind nine links", ["--turns", "1", *good, "udp:"], 11)
    ends.bad_words("a link that can't be opened, and a bad word behind it", ["--turns", "1", good[0], good[0], "udp:"], 5)


def bad_inputs(ends):
    """Texts that are no scenario of one system for so many links."""
    for text in ["", "\n", "# clnp-sim 1\n", "clnp-sim 3\n", " clnp-sim 1\n", host().replace("clnp-sim 1", "clnp-sim 01")]:
        ends.bad_input("no header", text, 2 if text in ("\n", "# clnp-sim 1\n") else 1, "header")
    ends.bad_input("a word too few", host().replace(" 1500", ""), 2, "syntax")
    ends.bad_input("no role", host().replace("host", "gateway"), 3, "syntax")
    ends.bad_input("no end", host().replace("end\n", ""), 7, "syntax")
    ends.bad_input("no events", "clnp-sim 1\n", 2, "syntax")
    ends.bad_input("a line behind the end", host() + "end\n", 8, "syntax")
    ends.bad_input("no limits in version 2", host().replace("sim 1", "sim 2"), 6, "syntax")
    ends.bad_input("a hello of no digits", host().replace("hello=0", "hello=x"), 3, "number")
    ends.bad_input("a hello out of range", host().replace("hello=0", "hello=601"), 3, "number")
    ends.bad_input("no tick", host("tick 0"), 7, "number")
    ends.bad_input("half an octet", host().replace(A, A[1:]), 4, "address")
    ends.bad_input("a port of no system", host().replace("port a", "port b"), 5, "unknown-name")
    ends.bad_input("an event of no system", host(f"send b {A} {B} hex:00"), 7, "unknown-name")
    ends.bad_input("a unit of a router", router(f"send r {R} {B} hex:00"), 12, "unknown-name", 2)
    ends.bad_input("a subnetwork again", host().replace("system", "subnet lan 1500\nsystem"), 3, "dup-name")
    ends.bad_input("a word again", host("tick 1", f"send a {A} {B} hex:00 whole whole"), 8, "dup-name")
    ends.bad_input("an address again", host().replace("port", f"address a {A}\nport"), 5, "dup-address")
    ends.bad_input("limits", host(limits="10 10 19"), 2, "limits")
    ends.bad_input("an MTU", host().replace("1500", "511"), 2, "mtu")
    ends.bad_input("too many ticks", host(*16 * ["tick 65535"]), 22, "count")
    ends.bad_input("a host without a port", host().replace("port a 0 lan 01\n", ""), 5, "count", 0)
    ends.bad_input("skipped lines count", host("tick 0").replace("events", "# lines\n\nevents\r"), 9, "number")
    for count in (0, 2, 8):
        ends.bad_input("links for a host", host(), 6, "count", count)
    for count in (0, 1, 3):
        ends.bad_input("links for a router of two ports", router(), 11, "count", count)
    ends.bad_input("no system and no links", "clnp-sim 1\nevents\nend\n", 2, "count", 0)
    ends.bad_input("two systems", host().replace("events", "system b host\naddress b 01\nport b 0 lan 02\nevents"), 9, "count", 1)
    ends.bad_input("two systems and two links", host().replace("events", "system b host\naddress b 01\nport b 0 lan 02\nevents"), 9, "count", 2)
    for event in ["settle 1", "lose 1", "deliver 1 a", "restart a", "congest a on", "inject lan 02 es 83", "tick a 1", "mtu lan 512",
                  f"route a {B} 0 02 {B}", "run", "send", "echo", "tick"]:
        ends.bad_input("an event that no run takes", host("tick 1", event), 8, "syntax")
    for event in ["mtu one 512", f"route r {B} 0 02 {B}", f"unroute r {B}", "port r 0 one 0c", "tick r 1"]:
        text = router(event).replace("clnp-sim 1\nlimits 256 60 320", "clnp-sim 2\nlimits 256 60 320 0")
        ends.bad_input("an event of version 2, which no run takes", text, 12, "syntax", 2)


def too_long(ends):
    text = host()
    filled = text + "#" * (MOST + 1 - len(text))
    ends.check("an input above the greatest length", ["--turns", "1", *links(1)], filled, 2, "clnp: input too long\n")


def without_links(ends):
    """Local ends that can't be bound. Nothing is read."""
    with tempfile.TemporaryFile() as text, socket.socket(socket.AF_INET, socket.SOCK_DGRAM) as taken:
        text.write(host().encode())
        taken.bind(("127.0.0.1", 0))
        good, one = links(8), link(taken.getsockname())
        # 192.0.2.0/24 is kept for documents, and no machine's
        for words, at in [([one], 3), ([good[0], one], 4), ([good[0], good[0]], 4), ([*good[:7], good[3]], 10), (["udp:192.0.2.1:7001"], 3),
                          ([good[0], "udp:192.0.2.1:7001", one], 4)]:
            text.seek(0)
            ends.check("a link that can't be opened", ["--turns", "1", *words], None, 9, f"clnp: no link at {at}\n", stdin=text)
            if os.lseek(text.fileno(), 0, os.SEEK_CUR) != 0:
                ends.differ += 1
                print("DIFFERS: standard input was read without links")


def links_gone(ends):
    """Links that fail at a frame."""
    ends.check("the only link fails", ["--turns", "1000", link(free_ends(1)[0], NOBODY)], host(f"send a {A} {B} hex:6869 life=10 whole"), 7,
               "clnp: all 1 links gone\n", rf"(\d+) a sent dt 1 - {A} {B} 2\n\1 a tx 1 0 es {UNIT}\n\1 a link 0 gone\n")

    def gone(number, port, to):
        return (rf"\d+ r sent erq {number} - {R} {to} 2\n"
                rf"\d+ r tx {number} {port} {NOBODYS_SNPA} [0-9a-f]+\n\d+ r link {port} gone\n")

    first, other = (f"echo r {R} {to} hex:6869" for to in (A, B))
    ends.check("one of two links fails", ["--turns", "20", *links(2)], router(other), 0, "", gone(1, 1, B) + r"end \d+ 1\n")
    ends.check("both links fail", ["--turns", "1000", *links(2)], router(first, other), 7, "clnp: all 2 links gone\n",
               gone(1, 0, A) + gone(2, 1, B))
    ends.check("both links fail, one of them later", ["--turns", "1000000", *links(2)], router(first, "tick 1", other), 7,
               "clnp: all 2 links gone\n", gone(1, 0, A) + gone(2, 1, B))


def streams(ends):
    """Streams that fail: a folder as standard input, standard output that is full, closed, or whose reader is gone."""
    ends.check("an empty input", ["--turns", "1", *links(1)], None, 3, "clnp: bad input at line 1: header\n", stdin=subprocess.DEVNULL)
    folder = os.open(ROOT, os.O_RDONLY)
    ends.check("a folder as an input", ["--turns", "1", *links(1)], None, 5, "clnp: read fault\n", stdin=folder)
    os.close(folder)
    with open("/dev/full", "wb") as full:
        ends.check("a full output", ["--turns", "1", *links(1)], host(), 6, "clnp: write fault\n", stdout=full)
        ends.check("a full output, and a unit", ["--turns", "1", *links(1)], host(f"send a {A} {B} hex:6869 whole"), 6, "clnp: write fault\n", stdout=full)
        ends.check("a full output, and a bad input", ["--turns", "1", *links(1)], "", 3, "clnp: bad input at line 1: header\n", stdout=full)
    reader, writer = os.pipe()
    os.close(reader)
    ends.check("an output whose reader is gone", ["--turns", "1", *links(1)], host(), 6, "clnp: write fault\n", stdout=writer)
    os.close(writer)


def no_memory(ends):
    """An input for which the process has no room."""
    most = 12_000_000
    text = host()
    filled = text + "#" * (MOST - 1_000_000 - len(text))
    ends.check("no room for the input", ["--turns", "1", *links(1)], filled, 8, "clnp: no memory\n",
               preexec_fn=lambda: resource.setrlimit(resource.RLIMIT_AS, (most, most)))


def main():
    if len(sys.argv) < 2:
        subprocess.run([os.path.join(ROOT, "clnp"), "--version"], check=True, stdout=subprocess.DEVNULL)
    ends = Ends(sys.argv[1] if len(sys.argv) > 1 else PROGRAM)
    for compares in [done, bad_words, bad_inputs, too_long, without_links, links_gone, streams, no_memory]:
        compares(ends)
    if ends.differ:
        sys.exit(f"run.py: {ends.differ} ends of `run` differ from docs/FORMATS.md")
    counts = ", ".join(f"{count} with {status}" for status, count in sorted(ends.counts.items()))
    print(f"run.py: the ends of {sum(ends.counts.values())} runs compared with docs/FORMATS.md: {counts}")


main()
