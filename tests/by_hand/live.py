#!/usr/bin/env python3
"""Compares `clnp run` with a plain model of a live node, over UDP links between processes on 127.0.0.1.

Four networks run side by side, for less than a minute where nothing else is at work:

- Over a router: two hosts on subnetworks of two sizes, and the router between them. Hellos, units, echoes, a unit that is cut at
  the router, one that is reported since its destination isn't known any more. One host is killed, is forgotten by the router,
  and starts again: neither of its runs draws an identifier before its quiet time is over. A link of the router fails at a
  frame for an end to which no socket may send; what comes behind it for that port is written alone.
- On one subnetwork: two hosts and a router that tells them of each other by redirects, which they follow while these hold.
- A host whose only link fails at its first hello, so that all of its links are gone.
- A router and a host, beside an end of this script's own that sends them frames of whatever octets.

Of each process all lines are compared with those of the model (tests/models/live_model.py), octet for octet. The model is
told the moments of the lines, the frames that came, and which sendings failed. The frames are those that the lines of the
processes, its own among them, say were sent to that end, and those that this script sent. What came from one sender came in
the order of its lines and without a gap; only what was sent before the process had begun, or when it ended, may be missing. From
which sender the next frame came isn't visible in lines: each order is tried, up to one that explains them. A link failed where a
line says so; which ones fail is compared with what must. The octets that came to this script are those of the lines. Lines are
read about when their moments were, by this script's own clock; no line tells of an identifier in a quiet time; the statuses are
compared, and what is written to standard error.

Not compared, since no line tells: how many turns there were at one moment, how many looks saw nothing, and whether a moment came
to a process at which it had nothing to write.

usage: tests/by_hand/live.py [--program PATH] [SEED]

PATH is another program to run than the built one; the seed is that of the frames of whatever octets. A machine that is busy may
keep processes from their ends for longer than this script waits, which it then says.
"""
import argparse
import copy
import functools
import os
import random
import re
import socket
import subprocess
import sys
import threading
import time

ROOT = os.path.abspath(os.path.join(os.path.dirname(__file__), "..", ".."))
sys.path.append(os.path.join(ROOT, "tests", "models"))

import live_model
from frames import Outside, clnp, esis
from live_model import Node, read_for_run
from scenario_model import CODE_NAMES

PROGRAM = os.path.join(ROOT, "crates", "clnp_tool", "out", "clnp_tool")

# seconds: the whole; by how much a line may be read late; and by how much behind a line that says that a frame was sent
MOST, LATE, SLACK = 110, 2, 0.5
# how much longer a process runs than it must
MORE = 1.4
# how many turns a process has besides, since behind each frame that comes some are short
SHORT_TURNS = 500
# how many moments may pass between two turns of a process on a busy machine, in all
MOST_PASSED = 6
# no socket may send there that wasn't allowed to broadcast
NOBODY = ("255.255.255.255", 9)


class Differs(Exception):
    """The program did something else than it must."""


# ---- ends and links


def free_ends(count):
    """So many ends of 127.0.0.1 that are free just now."""
    sockets = [socket.socket(socket.AF_INET, socket.SOCK_DGRAM) for _ in range(count)]
    for one in sockets:
        one.bind(("127.0.0.1", 0))
    ends = [one.getsockname() for one in sockets]
    for one in sockets:
        one.close()
    return ends


def shown(end):
    return f"{end[0]}:{end[1]}"


def snpa(end):
    """The SNPA of an end: its address and its port."""
    return socket.inet_aton(end[0]).hex() + f"{end[1]:04x}"


def end_at(digits):
    """The end that has an SNPA, if one has."""
    octets = bytes.fromhex(digits)
    port = int.from_bytes(octets[4:], "big")
    return (socket.inet_ntoa(octets[:4]), port) if len(octets) == 6 and port > 0 else None


class Link:
    """A link of a process: its own end, its peers that are hosts, and those that are routers."""

    def __init__(self, local, hosts=(), routers=()):
        self.local, self.hosts, self.routers = local, hosts, routers

    def word(self):
        peers = [f",h{shown(end)}" for end in self.hosts] + [f",r{shown(end)}" for end in self.routers]
        return f"udp:{shown(self.local)}{''.join(peers)}"

    def reached(self, target):
        """The ends to which a frame for a target goes."""
        groups = {"es": self.hosts, "is": self.routers}
        return groups[target] if target in groups else [end for end in [end_at(target)] if end]


# ---- processes


class Process:
    """A `clnp run`: what it writes is read while it runs, with the time of each line."""

    def __init__(self, program, name, text, links, turns):
        self.name, self.text, self.links, self.lines, self.rest, self.killed = name, text, links, [], b"", False
        self.began = time.monotonic()
        self.ended, self.status, self.late = None, None, False
        words = [program, "run", "--turns", str(turns), *[link.word() for link in links]]
        pipes = dict.fromkeys(("stdin", "stdout", "stderr"), subprocess.PIPE)
        self.process = subprocess.Popen(words, **pipes)
        self.process.stdin.write(text.encode())
        self.process.stdin.close()
        self.reader = threading.Thread(target=self.read, daemon=True)
        self.reader.start()

    def read(self):
        for line in self.process.stdout:
            if line.endswith(b"\n"):
                self.lines.append((time.monotonic(), line[:-1].decode()))
            else:
                self.rest = line
        self.said = self.process.stderr.read().decode()
        self.status = self.process.wait()
        if self.ended is None:
            self.ended = time.monotonic()

    def kill(self):
        self.killed, self.ended = True, time.monotonic()
        self.process.kill()
        self.reader.join()

    def end(self, until):
        """Waits for its end, and ends it at a time."""
        self.reader.join(max(0, until - time.monotonic()))
        if self.reader.is_alive():
            self.kill()
            self.late = True

    def journal(self):
        return [line for _, line in self.lines]

    def sendings(self):
        """The datagrams that its lines say it sent: when, from which end, to which, and the octets."""
        gone, lines = set(), self.journal()
        for at, line in enumerate(lines):
            moment, _, kind, *words = line.split(" ") + [""] * 3
            if kind == "link":
                gone.add(words[0])
            is_sent = kind == "tx" and words[1] not in gone
            if is_sent and lines[at + 1:at + 2] != [f"{moment} {line.split(' ')[1]} link {words[1]} gone"]:
                link = self.links[int(words[1])]
                for end in link.reached(words[2]):
                    yield self.lines[at][0], link.local, end, bytes.fromhex(words[3])


class OwnEnd:
    """An end of this script: what it sent, and what came to it."""

    def __init__(self, end):
        self.end, self.sent, self.came = end, [], []
        self.socket = socket.socket(socket.AF_INET, socket.SOCK_DGRAM)
        self.socket.setsockopt(socket.SOL_SOCKET, socket.SO_RCVBUF, 4_000_000)
        self.socket.bind(end)
        self.reader = threading.Thread(target=self.read, daemon=True)
        self.reader.start()

    def read(self):
        while True:
            frame, sender = self.socket.recvfrom(70_000)
            self.came.append((sender, frame))

    def send(self, end, frame):
        self.sent.append((time.monotonic(), self.end, end, frame))
        self.socket.sendto(frame, end)

    def sendings(self):
        return iter(self.sent)


# ---- what a process saw, by the lines


class Stream:
    """What one sender sent to one port: octets with the times at which the lines were read. The first ones may be missing
    that were sent before the port had begun to listen, and the last ones that were sent when it ended."""

    def __init__(self, port, sender, sendings, begun, ended):
        self.port, self.sender = port, bytes.fromhex(snpa(sender))
        self.frames = [frame for _, frame in sendings]
        self.early = sum(when < begun + SLACK for when, _ in sendings)
        self.late = sum(when < ended - LATE for when, _ in sendings)

    def places(self, seen):
        """The places of the frames that may come next, where so many were seen or passed over."""
        return range(0, min(self.early + 1, len(self.frames))) if seen == 0 else range(seen, min(seen + 1, len(self.frames)))

    def may_end(self, seen):
        return seen >= self.late or (seen == 0 and self.early >= self.late)


def streams_to(process, senders):
    begun = process.lines[0][0] if process.lines else process.ended
    found = []
    for port, link in enumerate(process.links):
        for sender in senders:
            sent = {}
            for when, local, end, frame in sender.sendings():
                if end == link.local:
                    sent.setdefault(local, []).append((when, frame))
            found += [Stream(port, local, sendings, begun, process.ended) for local, sendings in sent.items()]
    return found


class Search:
    """A search for an order in which frames came that explains the lines of a process."""

    def __init__(self, process, streams):
        self.process, self.lines, self.streams = process, process.journal(), streams
        self.furthest, self.instead, self.tried = 0, [], 0

    def takes(self, at, node, port):
        """Whether a link took the frame of the last line that was made."""
        next_line = self.lines[at + len(node.lines):at + len(node.lines) + 1]
        return next_line != [f"{node.clock} {node.system.name.decode()} link {port} gone"]

    def after(self, at, node, step):
        """Behind a step the place in the lines and the node, where the lines are those of the step. Those of a process that
        was killed may end within it."""
        self.tried += 1
        trial = copy.deepcopy(node)
        trial.lines, trial.takes = [], functools.partial(self.takes, at, trial)
        step(trial)
        made, trial.takes = trial.lines, None
        there = self.lines[at:at + len(made)]
        if there == made[:len(there)] and (len(there) == len(made) or self.process.killed):
            return at + len(there), trial
        if at >= self.furthest:
            self.instead = (self.instead if at == self.furthest else []) + [made]
            self.furthest = at
        return None

    def begin_turns(self, state, moment):
        """The turns begin of the moments up to one, of which some may have been passed over."""
        at, node, now, seen, passed = state
        for each in range(now + 1, moment + 1):
            came = self.after(at, node, lambda trial: trial.begins(each))
            if came is None and each == moment:
                return None
            if came is None:
                passed += (each,)
            else:
                at, node = came
        return at, node, moment, seen, passed

    def next_states(self, state):
        at, node, now, seen, passed = state
        words = (self.lines + [self.lines[-1]])[at].split(" ")
        moment = int(words[1] if words[0] == "end" else words[0])
        if moment > now:
            came = self.begin_turns(state, moment)
            return [came] if came else []
        if words[0] == "end" and at < len(self.lines):
            is_last = node.attached and self.lines[at:] == [f"end {now} {node.transmitted}"]
            return [(at + 1, node, now, seen, passed)] if is_last else []
        return list(self.looks(state))

    def looks(self, state):
        at, node, now, seen, passed = state
        for number, stream in enumerate(self.streams):
            for place in stream.places(seen[number]) if stream.port in node.attached else []:
                came = self.after(at, node, lambda trial: trial.sees(stream.port, stream.sender, stream.frames[place]))
                if came:
                    yield *came, now, (*seen[:number], place + 1, *seen[number + 1:]), passed

    def is_end(self, state):
        at, node, _, seen, passed = state
        ends = [stream.may_end(number) for stream, number in zip(self.streams, seen) if stream.port in node.attached]
        return at == len(self.lines) and all(ends) and len(passed) <= MOST_PASSED

    def find(self):
        """The node at the end of the lines, how many frames it saw, and how many moments were passed over."""
        states = [(0, Node(read_for_run(self.process.text.encode(), len(self.process.links)), 0), -1, (0,) * len(self.streams), ())]
        incomplete = None
        while states and self.tried < 50_000:
            state = states.pop()
            if self.is_end(state):
                return state
            if state[0] == len(self.lines):
                incomplete = state
            states += reversed(self.next_states(state))
        raise Differs(self.why(incomplete))

    def why(self, incomplete):
        if incomplete:
            missing = [f"from {stream.sender.hex()} at port {stream.port} {number} of {stream.late} to {len(stream.frames)}"
                       for stream, number in zip(self.streams, incomplete[3]) if not stream.may_end(number)]
            return f"{self.process.name}: frames are missing, or moments {list(incomplete[4])}: {'; '.join(missing)}"
        there = self.lines[self.furthest:self.furthest + 3]
        told = [f"{self.process.name}, line {self.furthest + 1} of {len(self.lines)}:", *there, "the model has instead, by what comes next:"]
        return "\n".join(told + ["  | " + "\n    ".join(lines[:3]) for lines in self.instead[:12]])


# ---- what is compared of each process


def check_times(process):
    """Lines are read about when their moments were."""
    for when, line in process.lines:
        words = line.split(" ")
        moment = int(words[1] if words[0] == "end" else words[0])
        if not process.began + moment / 2 <= when <= process.lines[0][0] + (moment + 1) / 2 + LATE:
            raise Differs(f"{process.name}: read {when - process.began:.2f} s after its start: {line}")


def check_quiet(process):
    """No identifier is drawn in the quiet time that begins with a run."""
    reuse = read_for_run(process.text.encode(), len(process.links)).limits[2]
    for line in process.journal():
        sent = re.fullmatch(r"(\d+) \w+ sent \w+ \d+ [0-9a-f]{4} .*", line)
        if sent and int(sent[1]) < reuse:
            raise Differs(f"{process.name}: an identifier is drawn in its quiet time: {line}")


def check_status(process, wanted):
    if process.late:
        raise Differs(f"{process.name} didn't end in time")
    if process.killed:
        return
    if process.rest or (process.status, process.said) != wanted:
        raise Differs(f"{process.name} ended with {process.status} {process.said!r} {process.rest!r}, not {wanted}")


def check_process(process, senders, wanted):
    """Whether a process did what the model does, and what was to be shown by it; what is told of it."""
    status, gone, patterns = wanted
    check_status(process, status)
    check_times(process)
    check_quiet(process)
    _, node, _, seen, passed = Search(process, streams_to(process, senders)).find()
    if set(node.system.ports) - node.attached != gone:
        raise Differs(f"{process.name}: the links of {sorted(set(node.system.ports) - node.attached)} are gone, not of {sorted(gone)}")
    journal = "".join(line + "\n" for line in process.journal())
    for pattern in patterns:
        if not re.search(pattern, journal, re.MULTILINE):
            short = "".join(line[:120] + "\n" for line in process.journal())
            raise Differs(f"{process.name}: no line is like {pattern}\n{short}")
    told = f", moments passed over: {', '.join(map(str, passed))}" if passed else ""
    return f"  {process.name}: {len(process.lines)} lines, up to {sum(seen)} frames seen{told}"


def check_own(own, processes):
    """What came to this script's end is what the lines say."""
    for process in processes:
        for link in process.links:
            wanted = [frame for _, local, end, frame in process.sendings() if (local, end) == (link.local, own.end)]
            came = [frame for sender, frame in own.came if sender == link.local]
            if came != wanted:
                raise Differs(f"{process.name}: the {len(came)} datagrams that came from it aren't the {len(wanted)} of its lines")
    return f"  the end of ours: {len(own.came)} datagrams came"


# ---- the networks

DONE = (0, "")
LIMITS = "clnp-sim 1\nlimits 8 4 12\n"
A, B, C, R, AWAY = "4700270101", "4700270201", "4700270102", "47002700ff", "4700270301"


class Play:
    """The processes of a network while it runs."""

    def __init__(self, program, look, processes):
        self.program, self.look, self.all, self.own, self.processes = program, look, processes, [], []
        self.start, self.fault = time.monotonic(), None

    def run(self, name, text, links, seconds, wanted):
        """Starts a process that runs for some seconds, with looks at so many ports each, and for some more."""
        turns = SHORT_TURNS + sum(int(MORE * for_so_long / (ports * self.look)) for ports, for_so_long in seconds)
        process = Process(self.program, name, text, links, turns)
        self.all.append(process)
        self.processes.append((process, wanted))
        return process

    def play(self, network):
        try:
            network(self)
        except Exception as fault:
            self.fault = fault

    def until_it_says(self, process):
        """Waits for the first line of a process, which says hello at its start."""
        while not process.lines and process.status is None and time.monotonic() < self.start + 10:
            time.sleep(0.01)

    def until(self, process, seconds):
        """Waits until so many seconds after the first line of a process."""
        self.until_it_says(process)
        time.sleep(max(0, process.lines[0][0] + seconds - time.monotonic()))

    def wait(self, until):
        """Waits for the ends of all processes, until a time; those that didn't end by then are ended."""
        for process, _ in self.processes:
            process.end(until)
        time.sleep(0.2)

    def comparisons(self):
        """What is to be compared when all have ended."""
        senders = [process for process, _ in self.processes] + self.own
        for process, wanted in self.processes:
            yield functools.partial(check_process, process, senders, wanted)
        for own in self.own:
            yield functools.partial(check_own, own, [process for process, _ in self.processes])


def over_a_router(play):
    a, near, far, off, b = free_ends(5)
    first = f"""{LIMITS}subnet near 1500
system a host hello=2
address a {A}
port a 0 near {snpa(a)}
events
tick 3
send a {A} {B} hex:6869 whole
send a {A} {B} hex:6a6b
echo a {A} {B} hex:01
tick 10
send a {A} {B} pat:1400:3
tick 1
send a {A} {AWAY} hex:00 whole
tick 1
send a {A} {AWAY} hex:01 whole
tick 1
echo a {A} {B} pat:600:5
tick 7
send a {A} {B} hex:6c6f7374 whole
tick 9
send a {A} {B} hex:6e6f whole
tick 10
send a {A} {B} hex:6261636b whole
end
"""
    between = f"""{LIMITS}subnet near 1500
subnet far 512
subnet off 1500
system r router hello=2
address r {R}
port r 0 near {snpa(near)}
port r 1 far {snpa(far)} 2
port r 2 off {snpa(off)}
route r 47002703 2 {snpa(NOBODY)} {AWAY}
events
tick 5
echo r {R} {A} hex:70696e67
end
"""
    second = f"""{LIMITS}subnet far 512
system b host hello=2
address b {B}
port b 0 far {snpa(b)}
events
send b {B} {A} pat:900:1
tick 9
send b {B} {A} pat:900:1
tick 4
send b {B} {A} pat:900:1
end
"""
    links = [Link(near, hosts=[a]), Link(far, hosts=[b]), Link(off)]
    router = play.run("r, over a router", between, links, [(3, 7.5), (2, 19)], (DONE, {2}, [
        f"r hear es {A} new$", f"r tx \\d+ 0 {snpa(a)} 82", f"(^\\d+ r tx \\d+ 1 {snpa(b)} 81\\w+\n){{3}}", f"r echoed {A} {R} 1$",
        f"^\\d+ r tx \\d+ 2 {snpa(NOBODY)} 81\\w+\n\\d+ r link 2 gone$", f"link 2 gone$[^$]*^\\d+ r tx \\d+ 2 {snpa(NOBODY)} 81",
        f"gone es {B}$", "r drop 81 00$", f"gone es {B}$[^$]*hear es {B} new$",
    ]))
    play.until_it_says(router)
    asking = play.run("a, over a router", first, [Link(a, routers=[near])], [(1, 26)], (DONE, set(), [
        "a refused quiet 12$", f"^\\d+ a hear is {R} new$", f"a sent dt \\d+ 0000 {A} {B} 1400$",
        f"a echoed {B} {A} 2$", f"a echoed {B} {A} \\d+$[^$]*a echoed {B} {A} \\d+$", f"a got {B} {A} \\w{{1800}}$",
        f"a got {B} {A} \\w{{1800}}$[^$]*a got {B} {A} \\w{{1800}}$", f"a report {R} {A} 81 00 81",
    ]))
    link, quiet = [Link(b, routers=[far])], "^0 b refused quiet 12$[^$]*b refused quiet 12$[^$]*"
    killed = play.run("b, over a router", second, link, [(1, 40)], (None, set(), [
        f"{quiet}^1\\d b sent dt 2 0000 ", f"b got {A} {B} 6869$", f"b got {A} {B} \\w{{2800}}$",
        "b sent erp 1 - ", "b sent erp 3 0001 ",
    ]))
    play.until(asking, 10.3)
    killed.kill()
    play.until(asking, 17)
    play.run("b again, over a router", second, link, [(1, 9)], (DONE, set(), [
        f"{quiet}^1\\d b sent dt 1 0000 ", f"b got {A} {B} 6261636b$",
    ]))


def on_one_subnetwork(play):
    a, c, r = free_ends(3)
    first = f"""{LIMITS}subnet lan 1500
system a host hello=2
address a {A}
port a 0 lan {snpa(a)}
events
tick 4
send a {A} {C} hex:01 whole
tick 1
send a {A} {C} hex:02 whole
tick 9
send a {A} {C} hex:03 whole
end
"""
    second = f"""{LIMITS}subnet lan 1500
system c host hello=2 checksum=off
address c {C}
port c 0 lan {snpa(c)}
events
tick 7
echo c {C} {A} hex:0405
end
"""
    router = f"""{LIMITS}subnet lan 1500
system r router hello=2 suggest=1 rhold=3
address r {R}
port r 0 lan {snpa(r)}
events
end
"""
    redirect, routed, direct = "82..0100060003", f"^\\d+ a tx \\d+ 0 {snpa(r)} 81", f"^\\d+ a tx \\d+ 0 {snpa(c)} 81"
    between = play.run("r, on one subnetwork", router, [Link(r, hosts=[a, c])], [(1, 11)], (DONE, set(), [
        f"r hear es {A} new$", f"r hear es {C} new$", f"r tx \\d+ 0 {snpa(c)} 81\\w+\n\\d+ r tx \\d+ 0 {snpa(a)} {redirect}",
        f"r tx \\d+ 0 {snpa(a)} 81\\w+\n\\d+ r tx \\d+ 0 {snpa(c)} {redirect}",
    ]))
    play.until_it_says(between)
    play.run("a, on one subnetwork", first, [Link(a, routers=[r])], [(1, 10)], (DONE, set(), [
        f"{routed}[^$]*a hear rd {C} new$[^$]*{direct}", f"a sent erp \\d+ - {A} {C} 2\n{direct}", f"a gone rd {C}$[^$]*{routed}[^$]*a hear rd {C} new$",
    ]))
    play.run("c, on one subnetwork", second, [Link(c, routers=[r])], [(1, 10)], (DONE, set(), [
        f"c got {A} {C} 01$", f"c got {A} {C} 02$", f"c got {A} {C} 03$", f"c tx \\d+ 0 {snpa(r)} 81", f"c hear rd {A} new$",
        f"c echoed {A} {C} 1$",
    ]))


def alone(play):
    [a] = free_ends(1)
    text = f"""{LIMITS}subnet lan 1500
system a host hello=2
address a {A}
port a 0 lan {snpa(a)}
events
send a {A} {C} hex:01 whole
end
"""
    gone = (7, "clnp: all 1 links gone\n")
    play.run("a host whose link goes", text, [Link(a, routers=[NOBODY])], [(1, 5)], (gone, {0}, [
        "^0 a tx 1 0 is 82\\w+\n0 a link 0 gone\n0 a sent dt 1 - \\w+ \\w+ 1\n0 a tx 2 0 es 81\\w+$",
    ]))


def frames_for(name, outside, known):
    """Frames of whatever octets for a system."""
    frames = [b"", b"\x83", esis(2, 120, bytes([1, 5]) + known[0]), esis(2, 1, bytes([1, 5]) + known[1])]
    frames += [clnp("dt", bytes.fromhex(outside_address), known[0], b"hi", life=9) for outside_address in (A, R, AWAY)]
    for _ in range(60):
        forms = [lambda: [outside.unit(name)], lambda: [outside.reply(name)], lambda: [outside.hello()],
                 lambda: outside.segments(name), lambda: [outside.hostile(name)], lambda: [clnp("dt", known[0], known[1], bytes(65_400), life=9)]]
        frames += random.choices(forms, [4, 2, 3, 2, 4, 0.2])[0]()
    return frames


def beside_an_end_of_ours(play):
    a, r, own = free_ends(3)
    addresses = [bytes.fromhex("4700270110"), bytes.fromhex("4700270111")]
    settings = "hello=1 slots=2 segments=6 budget=3000 neighbours=4 routers=2 redirects=3"
    host = f"""{LIMITS}subnet lan 1500
system a host {settings}
address a {A}
address a {C}
port a 0 lan {snpa(a)}
events
tick 2
echo a {A} {addresses[0].hex()} hex:6869
tick 3
echo a {C} {addresses[1].hex()} hex:6869
end
"""
    router = f"""{LIMITS}subnet lan 600
system r router {settings} suggest=2
address r {R}
port r 0 lan {snpa(r)}
route r 470027 0 {snpa(own)} 4700270110
events
tick 3
echo r {R} {addresses[0].hex()} hex:6869
end
"""
    play.own.append(OwnEnd(own))
    told = play.run("a, beside an end of ours", host, [Link(a, routers=[r, own])], [(1, 9)], (DONE, set(), ["a hear ", "a alien$"]))
    answers = play.run("r, beside an end of ours", router, [Link(r, hosts=[a, own])], [(1, 9)], (DONE, set(), ["r hear ", "r alien$", "r drop "]))
    there, snpas = {"a": ["lan"], "r": ["lan"]}, {("a", "lan"): snpa(a), ("r", "lan"): snpa(r), ("", "lan"): snpa(own)}
    known = {"a": [A, C], "r": [R]}
    outside = Outside(there, snpas, known, [A, C, R, AWAY, *[address.hex() for address in addresses]], lambda: "c8070003044700270110")
    play.until_it_says(told)
    play.until_it_says(answers)
    time.sleep(2 * SLACK)
    sent = [(end, frame) for name, end in [("a", a), ("r", r)] for frame in frames_for(name, outside, addresses)]
    random.shuffle(sent)
    for end, frame in sent:
        play.own[0].send(end, frame)
        time.sleep(0.02)


NETWORKS = [over_a_router, on_one_subnetwork, alone, beside_an_end_of_ours]


# ---- the whole


def seconds_of(program, turns):
    """The seconds that so many turns take of a host that hears nothing."""
    [end] = free_ends(1)
    text = f"clnp-sim 1\nsubnet lan 1500\nsystem a host hello=0\naddress a {A}\nport a 0 lan 01\nevents\nend\n"
    began = time.monotonic()
    ran = subprocess.run([program, "run", "--turns", str(turns), Link(end).word()], input=text, capture_output=True, text=True, timeout=30)
    if ran.returncode != 0 or not re.fullmatch(r"end \d+ 0\n", ran.stdout):
        raise Differs(f"a host without events or hellos ended with {ran.returncode}: {ran.stdout!r} {ran.stderr!r}")
    return time.monotonic() - began


def look_of(program):
    """The seconds that a look takes that sees nothing, where nothing else is at work."""
    more, fewer = (min(seconds_of(program, turns) for _ in range(4)) for turns in (120, 20))
    return (more - fewer) / 100


def check_refused(program, words, text, status, said):
    """A run ends at once, with this status and this first line of standard error, and writes nothing."""
    ran = subprocess.run([program, "run", *words], input=text, capture_output=True, text=True, timeout=30)
    if (ran.returncode, ran.stdout, ran.stderr.splitlines()[:1]) != (status, "", [f"clnp: {said}"]):
        raise Differs(f"{words} and {text!r}: {ran.returncode} {ran.stdout!r} {ran.stderr!r}, not {status} {said!r}")


def check_all_refused(program):
    """Words, texts and ends that no run may have."""
    with socket.socket(socket.AF_INET, socket.SOCK_DGRAM) as taken:
        taken.bind(("127.0.0.1", 0))
        free = [Link(end).word() for end in free_ends(9)]
        check_refused(program, ["--turns", "1", free[0], Link(taken.getsockname()).word()], "", 9, "no link at 4")
    for words, at in [([], 1), (["--turn", "1"], 1), (["--turns"], 2), (["--turns", "0"], 2),
                      (["--turns", "1000000001"], 2), (["--turns", "1", "udp"], 3), (["--turns", "1", free[0], "udp:"], 4),
                      (["--turns", "1", *free], 11)]:
        check_refused(program, words, "", 1, f"bad words at {at}")
    for text, links, (line, code) in live_model.BAD:
        check_refused(program, ["--turns", "1", *free[:links]], text, 3, f"bad input at line {line}: {CODE_NAMES[code]}")


def play_all(program, processes):
    until = time.monotonic() + MOST
    check_all_refused(program)
    look = look_of(program)
    print(f"a look that sees nothing takes {1000 * look:.1f} ms")
    plays = [Play(program, look, processes) for _ in NETWORKS]
    threads = [threading.Thread(target=play.play, args=[network], daemon=True) for network, play in zip(NETWORKS, plays)]
    for thread in threads:
        thread.start()
    for thread in threads:
        thread.join()
    return sum(compared(network, play, until) for network, play in zip(NETWORKS, plays))


def compared(network, play, until):
    """Tells what came of a network; how often it did something else than it must."""
    print(network.__name__.replace("_", " ") + ":")
    play.wait(until)
    if play.fault:
        raise play.fault
    differ = 0
    for comparison in play.comparisons():
        try:
            print(comparison())
        except Differs as differs:
            differ += 1
            print(f"DIFFERS: {differs}")
    return differ


def main():
    words = argparse.ArgumentParser(description="Compares `clnp run` with a plain model of a live node, over UDP.")
    words.add_argument("seed", nargs="?", type=int, default=1)
    words.add_argument("--program", help="another program to run than the built one")
    asked = words.parse_args()
    random.seed(asked.seed)
    live_model.check()
    if asked.program is None:
        subprocess.run([os.path.join(ROOT, "clnp"), "--version"], check=True, stdout=subprocess.DEVNULL)
    processes = []
    try:
        differ = play_all(asked.program or PROGRAM, processes)
    except Differs as differs:
        sys.exit(f"DIFFERS: {differs}")
    finally:
        for process in processes:
            if process.process.poll() is None:
                process.process.kill()
    if differ:
        sys.exit(1)
    print("the program and the model agree")


main()
