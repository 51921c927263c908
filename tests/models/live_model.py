#!/usr/bin/env python3
"""A plain model of a live node: one system of a scenario whose ports have links, run turn by turn, and the journal of it.

In a turn a moment comes to the system, then each event is done that is due by then, and then each port whose link is attached
is looked at once. Each output is a line, and a frame is sent behind its line where the link of its port is attached. A link
that fails is detached.

usage: tests/models/live_model.py, which compares some runs with what the rules say of them.
"""
import functools
import sys

from network_model import Network, frame_from_outside
from scenario_model import COUNT, SYNTAX, Text, read, shown_target, want

LAST_NUMBER = 2**64 - 1


class LiveText(Text):
    """A text for so many links: it has one system with as many ports, and its events are `send`, `echo` and `tick` alone."""

    def __init__(self, links, version):
        super().__init__(version)
        self.links = links

    def start(self):
        super().start()
        want(len(self.systems) == 1 and len(self.systems[0].ports) == self.links, COUNT)

    def event(self, keyword, words):
        want(keyword in (b"send", b"echo") or keyword == b"tick" and len(words) == 1, SYNTAX)
        super().event(keyword, words)


def read_for_run(text, links):
    """The text's declarations and events, or the first bad line with its code."""
    return read(text, kind=functools.partial(LiveText, links))


def dues(events, start):
    """The events but ticks, each with the moment at which all ticks that stand before it are over."""
    moment, found = start, []
    for event in events:
        if event[0] == "tick":
            moment += event[1]
        else:
            found.append((moment, event))
    return found


class Node(Network):
    """The system of a text, which a run starts at a moment; nobody knows which identifiers it used before, so it is quiet at
    first. Whoever runs it says by `takes` what comes of each frame that is sent on a port's link: whether the link took it."""

    def __init__(self, text, start, takes=lambda port: True):
        super().__init__(text)
        [self.system] = self.systems
        self.takes, self.transmitted = takes, 0
        self.comes_to(start)
        self.system.starts(start + self.reuse)
        self.attached, self.dues = set(self.system.ports), dues(text.events, start)

    def comes_to(self, moment):
        self.clock = self.system.clock = moment

    def puts(self, system, hop, frame, maker, birth, **carried):
        """A frame is written, and sent where the link of its port is attached."""
        port, target = hop
        self.transmitted = min(self.transmitted + 1, LAST_NUMBER)
        self.note(system, f"tx {self.transmitted} {port} {shown_target(target)} {frame.hex()}")
        if port in self.attached and not self.takes(port):
            self.loses(port)

    def loses(self, port):
        """The link of a port failed."""
        self.attached.remove(port)
        self.note(self.system, f"link {port} gone")

    def begins(self, moment):
        """A turn begins: its moment comes, and each event is done that is due by then."""
        self.comes_to(moment)
        self.does_what_is_due(self.system)
        while self.dues and self.dues[0][0] <= moment:
            self.asks(self.dues.pop(0)[1])

    def sees(self, port, sender, frame):
        """A look at a port saw a frame from a sender, which came to this system alone."""
        own = self.system.ports[port][1]
        copy = dict(sender=sender, target=own, birth=self.clock, size=len(frame), **frame_from_outside(frame))
        self.comes(self.system, port, copy)

    def last_line(self):
        return f"end {self.clock} {self.transmitted}"


# ---- runs over what came of the calls on links


class Strays(Exception):
    """The next outcome is that of another call, or one is left behind a turn, or a turn comes behind the last."""


class Breaks(Exception):
    """The outcomes end before that of the next call."""


class Outcomes:
    """What came of a turn's looks and sendings, in order: (`saw`, port, sender and frame or nothing), (`look failed`, port),
    (`took`, port), (`send failed`, port)."""

    def __init__(self, outcomes):
        self.left = list(outcomes)

    def next(self, port, kinds):
        if not self.left:
            raise Breaks
        kind, at, *seen = self.left.pop(0)
        if at != port or kind not in kinds:
            raise Strays
        return kind, seen

    def takes(self, port):
        return self.next(port, ["took", "send failed"])[0] == "took"

    def look(self, node, port):
        kind, seen = self.next(port, ["saw", "look failed"])
        if kind == "look failed":
            node.loses(port)
        elif seen[0] is not None:
            node.sees(port, *seen[0])


def take_turn(node, moment, outcomes):
    left = Outcomes(outcomes)
    node.takes = left.takes
    node.begins(moment)
    for port in sorted(node.system.ports):
        if port in node.attached:
            left.look(node, port)
    if left.left:
        raise Strays


def run(text, start, turns):
    """The journal of the system of a text over turns, each of a moment and its outcomes, with how it ends: `done`, `over` where
    no link is attached any more, or `broken` where the last turn's outcomes end within it."""
    node = Node(text, start)
    for at, (moment, outcomes) in enumerate(turns):
        if not node.attached:
            raise Strays
        try:
            take_turn(node, moment, outcomes)
        except Breaks:
            if at + 1 < len(turns):
                raise Strays from None
            return node.lines, "broken"
    if turns and not node.attached:
        return node.lines, "over"
    return [*node.lines, node.last_line()], "done"


# ---- worked runs

ROUTER = """clnp-sim 1
subnet one 1500
subnet two 1500
system r router hello=0
address r 470027ff
port r 0 one 0a
port r 1 two 0b
route r 47002701 1 02 47002701
route r 47002702 0 01 47002702
events
end
"""
HOST = """clnp-sim 1
subnet lan 1500
system a host hello=0
address a 47002702
port a 0 lan 01
events
send a 47002702 47002701 hex:6869
tick 320
send a 47002702 47002701 hex:6869
end
"""
HOST_OF_VERSION_2 = HOST.replace("clnp-sim 1", "clnp-sim 2\nlimits 256 60 320 0")
ALONE = """clnp-sim 1
limits 2 1 3
subnet lan 1500
system a host hello=1 checksum=off
address a 47002702
port a 0 lan 01
events
send a 47002702 47002701 hex:6869 whole life=10
tick 2
send a 47002702 47002701 hex:6869
tick 2
end
"""
UNIT = bytes.fromhex("8113010a3c0015ce58044700270104470027026869")
ON_ITS_WAY = "811301093c0015d354044700270104470027026869"
HELLO = bytes.fromhex("820e0100040078b1cd04470027ff")
# the same with a holding time of 2 seconds: 118 less, so 236 more and 118 less in the octets of its checksum
SOON = "820e01000400029e5704470027ff"
OWN = "820f01000200020000010447002702"
PLAIN = "8113010a3c00150000044700270104470027026869"
EMPTY = ("saw", 0, None)

WORKED = [
    ("a router's frame goes on, on a link that fails", ROUTER, 2, 0, [
        (0, [("saw", 0, (b"\1", UNIT)), ("send failed", 1)]), (0, [EMPTY]),
    ], [f"0 r tx 1 1 02 {ON_ITS_WAY}", "0 r link 1 gone", "end 0 1"], "done"),
    ("both links of a router fail at their first looks", ROUTER, 2, 0, [
        (0, [("look failed", 0), ("look failed", 1)]),
    ], ["0 r link 0 gone", "0 r link 1 gone"], "over"),
    ("a host keeps its quiet time", HOST, 1, 0, [
        (0, [EMPTY]), (320, [("took", 0), EMPTY]),
    ], [
        "0 a refused quiet 320", "320 a sent dt 1 0000 47002702 47002701 2",
        "320 a tx 1 0 es 81190140bc001b39100447002701044700270200000000001b6869", "end 320 1",
    ], "done"),
    ("a text of version 2 is run as one of version 1", HOST_OF_VERSION_2, 1, 0, [(0, [EMPTY])], [
        "0 a refused quiet 320", "end 0 0",
    ], "done"),
    ("quiet time and events count from the start; a hello is due at the first turn, and again a period after it", ALONE, 1, 7, [
        (7, [("took", 0), ("took", 0), EMPTY]), (8, [EMPTY]), (11, [("took", 0), ("took", 0), EMPTY]), (11, [EMPTY]),
    ], [
        f"7 a tx 1 0 is {OWN}", "7 a sent dt 1 - 47002702 47002701 2", f"7 a tx 2 0 es {PLAIN}",
        f"11 a tx 3 0 is {OWN}", "11 a sent dt 2 0000 47002702 47002701 2",
        "11 a tx 4 0 es 81190140bc001b00000447002701044700270200000000001b6869", "end 11 4",
    ], "done"),
    ("a link that failed is neither looked at nor sent on; its frames are written", ROUTER.replace("hello=0", "hello=1"), 2, 3, [
        (3, [("took", 0), ("send failed", 1), EMPTY]), (4, [("saw", 0, (b"\1", UNIT))]), (5, [("took", 0), ("look failed", 0)]),
    ], [
        f"3 r tx 1 0 es {SOON}", f"3 r tx 2 1 es {SOON}", "3 r link 1 gone",
        f"4 r tx 3 1 02 {ON_ITS_WAY}",
        f"5 r tx 4 0 es {SOON}", f"5 r tx 5 1 es {SOON}", "5 r link 0 gone",
    ], "over"),
    ("a host answers a new router where it is, and sends there", ALONE.replace(" whole", ""), 1, 0, [
        (0, [("took", 0), ("saw", 0, (b"\7", HELLO)), ("took", 0)]), (3, [("took", 0), ("took", 0)]),
    ], [
        f"0 a tx 1 0 is {OWN}", "0 a refused quiet 3", "0 a hear is 470027ff new", f"0 a tx 2 0 07 {OWN}",
        f"3 a tx 3 0 is {OWN}", "3 a sent dt 1 0000 47002702 47002701 2",
        "3 a tx 4 0 07 81190140bc001b00000447002701044700270200000000001b6869",
    ], "broken"),
]

BAD = [
    (HOST, 2, (6, COUNT)), (HOST, 0, (6, COUNT)), (ROUTER, 1, (10, COUNT)), ("clnp-sim 1\nevents\nend\n", 0, (2, COUNT)),
    (HOST.replace("system a", "system b host\naddress b 01\nport b 0 lan 07\nsystem a"), 1, (9, COUNT)),
    (HOST.replace("address", "# address"), 2, (6, COUNT)), (HOST.replace("tick 320", "restart a"), 1, (8, SYNTAX)),
    (HOST.replace("tick 320", "settle 1"), 1, (8, SYNTAX)), (HOST.replace("tick 320", "inject lan 02 es 83"), 1, (8, SYNTAX)),
    (HOST_OF_VERSION_2.replace("tick 320", "tick a 320"), 1, (9, SYNTAX)),
    (HOST_OF_VERSION_2.replace("tick 320", "mtu lan 512"), 1, (9, SYNTAX)),
]
STRAYING = [[(0, [("saw", 1, None)])], [(0, [("took", 0)])], [(0, [EMPTY])], [(0, [EMPTY, ("saw", 1, None), EMPTY])]]


def check():
    for what, text, links, start, turns, *wanted in WORKED:
        if list(run(read_for_run(text.encode(), links), start, turns)) != wanted:
            lines, end = run(read_for_run(text.encode(), links), start, turns)
            sys.exit("\n".join([f"{what}: the model ends {end}, with these lines:", *lines]))
    for text, links, wanted in BAD:
        if read_for_run(text.encode(), links) != wanted:
            sys.exit(f"not refused with {wanted}:\n{text}")
    for turns in STRAYING:
        try:
            run(read_for_run(ROUTER.encode(), 2), 0, [*turns, (0, [EMPTY, ("saw", 1, None)])])
        except Strays:
            continue
        sys.exit(f"taken for outcomes of the node: {turns}")
    print(f"{len(WORKED)} worked runs, {len(BAD)} refused texts, {len(STRAYING)} lists of outcomes of no run: the model is right")


if __name__ == "__main__":
    check()
