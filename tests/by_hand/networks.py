#!/usr/bin/env python3
"""Compares `clnp sim`, or `clnp trace`, with plain models of the scenario grammar and of the network, on random texts.

Half of the texts are scenarios, the others have a few words or lines changed. In a third of them frames come from outside. For
each one the program must write the models' journal, or with --trace their trace, or refuse the models' line and code.

usage: tests/by_hand/networks.py [--program PATH | --try] [--trace] [--version-2] [SEED [TEXTS]]

PATH is another program to run than the built one. With --try the program is compiled and run by `rt try`, which takes
less than a minute and proves nothing. A third of the texts are of version 2, with its events: ports that move, routes that are
set and taken away, other MTUs, clocks that stand apart; with --version-2 nine of ten.
"""
import argparse
import collections
import os
import random
import re
import subprocess
import sys
import tempfile

ROOT = os.path.abspath(os.path.join(os.path.dirname(__file__), "..", ".."))
sys.path.append(os.path.join(ROOT, "tests", "models"))

from frames import Outside
from network_model import Network
from scenario_model import CODE_NAMES, Text, read

PROGRAM = os.path.join(ROOT, "crates", "clnp_tool", "out", "clnp_tool")


def random_settings(role, is_silent):
    hellos = [["hello=0"], [], ["hello=1"], [f"hello={random.randint(1, 5)}"]]
    settings = ["hello=0"] if is_silent else random.choice(hellos)
    settings += random.choice([[], ["checksum=off"], ["checksum=on"]])
    settings += random.choice([[], [f"life={random.randint(1, random.choice([6, 255]))}"]])
    settings += random.choice([[], [], ["slots=1"], ["segments=2"], ["budget=1100"], ["budget=512"]])
    settings += random.choice([[], [], ["neighbours=1"], ["neighbours=2", "routers=1"], ["routers=1"]])
    settings += random.choice([[], [], ["rhold=0"], ["rhold=1"], ["rhold=2"], ["rhold=65535"]])
    settings += random.choice([[], [], ["redirects=1"], ["redirects=2"]])
    if random.random() < (0.6 if role == "router" else 0.1):
        settings.append(f"suggest={random.choice([0, 1, 2, 3, 7, 400, 32767])}")
    random.shuffle(settings)
    return "".join(" " + setting for setting in settings)


def random_network():
    """Subnetworks, and which of them each host and each router is on: often a row with a router between two, or one on which
    most hosts and each router are, so that routers send back what came from there."""
    is_shared = random.random() < 0.4
    subnets = [f"s{at}" for at in range(random.choice([1, 1, 2] if is_shared else [1, 1, 2, 2, 3, 4]))]
    hosts = [f"h{at}" for at in range(random.randint(2 if is_shared else 0 if random.random() < 0.05 else 1, 6))]
    there = {name: [subnets[0] if is_shared and random.random() < 0.9 else random.choice(subnets)] for name in hosts}
    is_row = len(subnets) > 1 and not is_shared and random.random() < 0.6
    for at in range(len(subnets) - 1 if is_row else random.choice([1, 1, 2] if is_shared else [0, 1, 1, 2, 3])):
        there[f"r{at}"] = subnets[at:at + 2] if is_row else random.sample(subnets, random.randint(1, len(subnets)))
        if is_shared and subnets[0] not in there[f"r{at}"]:
            there[f"r{at}"].append(subnets[0])
    return subnets, hosts, there


def random_address():
    beginning = random.choice(["", "47", "4700", "470027"])
    return beginning + random.randbytes(random.choice([1, 1, 2, 4, 17])).hex()


def distances(there, home):
    """How many routers are between a subnetwork and each that routers reach from it."""
    known = {home: 0}
    for subnet in (reached := [home]):
        for name, others in there.items():
            for other in others if name[0] == "r" and subnet in others else []:
                if other not in known:
                    known[other] = known[subnet] + 1
                    reached.append(other)
    return known


def nearer_systems(system, other, there):
    """The port of a system that is nearest to another one, and who there is nearer to it."""
    far = distances(there, there[other][0])
    port, subnet = min(enumerate(there[system]), key=lambda at: far.get(at[1], 99))
    return port, [other] if far.get(subnet) == 0 else [
        name for name in there if name[0] == "r" and name != system and subnet in there[name]
        and any(far.get(further, 99) < far.get(subnet, 99) for further in there[name])]


def random_path(host, other, there):
    """The routers on a near way from a host to another system."""
    path, system = [], host
    while len(path) < 6:
        _, nearer = nearer_systems(system, other, there)
        if not nearer or other in nearer:
            break
        system = random.choice(nearer)
        path.append(system)
    return path


def random_hop(router, other, there, snpas):
    """A port and who is there: mostly on the nearest way to another system, else anyone, the router too, or nobody."""
    port, nearer = nearer_systems(router, other, there)
    if random.random() < 0.2:
        port = random.randrange(len(there[router]))
        nearer = [name for name in there if there[router][port] in there[name]] + [None]
    name = random.choice(nearer or [router])
    return port, name, "ee" if name is None else snpas[name, there[router][port]]


def random_routes(router, there, snpas, known):
    """Routes to hosts and other routers: the titles there are mostly those of the next systems."""
    lines, used = [], set()
    for other in [name for name in there if name != router]:
        for digits in known[other] if random.random() < 0.8 else []:
            port, name, snpa = random_hop(router, other, there, snpas)
            title = random.choice(known[name] if name and known[name] and random.random() < 0.7 else known[other])
            leading = digits[:random.choice([0, 1, 2, 4, 7, 40, 40, 40])]
            shown = random.choice([leading, leading.upper(), leading[:2] + "." + leading[2:]]) or "*"
            if leading not in used:
                lines.append(f"route {router} {shown} {port} {snpa} {title}")
            used.add(leading)
    return lines


class Changes:
    """The events of version 2, most of which may come: it knows where each port is, which prefixes a router has, and by how much
    a clock is ahead of where the others began."""

    def __init__(self, subnets, there, snpas, known, skew):
        self.subnets, self.there, self.snpas, self.known, self.skew = subnets, there, snpas, known, skew
        self.ahead = {name: 0 for name in there}
        self.prefixes = {name: ["", "47"] for name in there if name[0] == "r"}
        self.left = ["05"]

    def moved_port(self):
        """A port goes where its system is not yet, or gets another SNPA, at times one that another port had."""
        name = random.choice(list(self.there))
        number = random.randrange(len(self.there[name]))
        old = self.there[name][number]
        free = [subnet for subnet in self.subnets if subnet == old or subnet not in self.there[name]]
        subnet = random.choice(free if random.random() < 0.995 else self.subnets)
        snpa = random.choice([self.snpas[name, old], random.choice(self.left), random.randbytes(random.choice([1, 6])).hex()])
        taken = [other for (system, at), other in self.snpas.items() if at == subnet and (system, at) != (name, old)]
        if taken and random.random() < 0.005:
            snpa = random.choice(taken)
        elif snpa in taken:
            snpa = random.randbytes(6).hex()
        if subnet in free:
            self.left.append(self.snpas.pop((name, old)))
            self.there[name][number], self.snpas[name, subnet] = subnet, snpa
        return [f"port {name} {number} {subnet} {snpa}"]

    def other_mtu(self):
        return [f"mtu {random.choice(self.subnets)} {random.choice([512, 512, 513, 800, 1500, 65535])}"]

    def other_route(self):
        router, other = random.choice(list(self.prefixes)), random.choice(list(self.there))
        leading = random.choice(self.known[other] or ["47"])[:random.choice([0, 1, 4, 7, 40, 40])]
        prefix = random.choice([leading, leading, random.choice(self.prefixes[router])])
        if random.random() < 0.4:
            return [f"unroute {router} {prefix or random.choice(['*', '.'])}"]
        port, name, snpa = random_hop(router, other, self.there, self.snpas)
        self.prefixes[router].append(prefix)
        return [f"route {router} {prefix or '*'} {port} {snpa} {random.choice(self.known[name or other] or ['4700'])}"]

    def tick_alone(self):
        """The clock of a system goes on, mostly one that is behind."""
        name = min(random.sample(list(self.ahead), min(2, len(self.ahead))), key=self.ahead.get)
        most = min([65535, *(self.ahead[other] + self.skew - self.ahead[name] for other in self.ahead if other != name)])
        most = max(most, 1) if random.random() < 0.005 else most
        if most < 1:
            return []
        ticks = min(most, random.choice([1, 1, 2, 3, 8, most]))
        self.ahead[name] += ticks
        return [f"tick {name} {ticks}"]

    def lines(self):
        forms = [self.moved_port, self.moved_port, self.other_mtu] if self.there else [self.other_mtu]
        forms += [self.other_route] if self.prefixes else []
        forms += 3 * [self.tick_alone] if self.skew > 0 and self.there else []
        lines = []
        for _ in range(random.choice([1, 1, 2, 3])):
            lines += random.choice(forms)()
        return lines + random.choice([[], [], [], ["tick 1", "settle 8"], [f"settle {random.choice([1, 4])}"], ["settle 30"]])


def random_scenario(mostly_version_2=False):
    subnets, hosts, there = random_network()
    systems = [(name, "host" if name in hosts else "router") for name in there]
    random.shuffle(systems)
    is_silent = random.random() < (0.1 if len(hosts) < len(there) else 0.4)
    declared = [f"subnet {subnet} {random.choice([512, 512, 513, 800, 1500, 1500, 65535])}" for subnet in subnets]
    declared += [f"system {name} {role}{random_settings(role, is_silent)}" for name, role in systems]
    known, attached, snpas = {name: [] for name, _ in systems}, [], {}
    for name, role in systems:
        for _ in range(random.randint(1, 3) if role == "host" else 1):
            octets = random_address()
            if all(octets not in others for others in known.values()):
                known[name].append(octets)
                attached.append(f"address {name} {random.choice([octets, octets.upper()])}")
        for at, subnet in enumerate(there[name]):
            snpas[name, subnet] = random.randbytes(random.choice([1, 6])).hex()
            transit = random.choice(["", "", " 1", " 2", f" {random.randint(1, 20)}", " 255"])
            attached.append(f"port {name} {at} {subnet} {snpas[name, subnet]}{transit}")
    version = 2 if random.random() < (0.9 if mostly_version_2 else 0.34) else 1
    skew = random.choice([0, 0, 1, 2, 3, 9, 60]) if version == 2 else 0
    if version == 2 or random.random() < 0.5:
        is_usual = version == 2 and random.random() < 0.5
        age, hold = (256, 60) if is_usual else (random.randint(1, 9), random.randint(1, 9))
        rest = age + hold + 2 * skew + random.randint(0, 3)
        attached.append(f"limits {age} {hold} {rest}{'' if version == 1 else f' {skew}'}")
    random.shuffle(attached)
    routers = [name for name, role in systems if role == "router"]
    for name in routers:
        attached += random_routes(name, there, snpas, known) if random.random() < 0.9 else []
    everyone = [octets for others in known.values() for octets in others] + ["ab", "4700"]
    names = [name for name, _ in systems] or ["x"]
    events = random.choice([[], ["tick 1", "settle 40"], ["tick 1", "settle 40"]])
    outside = Outside(there, snpas, known, everyone, lambda: random_options(routers[:1], routers or names, known, everyone))
    is_open = bool(there) and random.random() < 0.35
    changes = Changes(subnets, there, snpas, known, skew) if version == 2 else None
    for _ in range(random.randint(0, 40)):
        events += changes.lines() if changes and random.random() < 0.4 else []
        events += outside.lines() if is_open and random.random() < 0.4 else []
        events += random_echoes(names, known, everyone) if random.random() < 0.12 else []
        if len(hosts) > 1 and len(hosts) < len(there) and random.random() < 0.2:
            events += random_crossing(hosts, known)
        if hosts and routers and random.random() < 0.3:
            events += random_led(hosts, routers, there, known, everyone)
        events.append(random_event(hosts or names, names, known, everyone))
        if random.random() < 0.5 and events[-1].startswith(("send", "tick")):
            events.append(f"settle {random.choice([4, 30, 60])}")
    lines = []
    header = f"clnp-sim {version}"
    for line in [header] + declared + attached + ["events"] + events + ["end"]:
        if random.random() < 0.1:
            lines.append(random.choice(["", "#", "# a comment"]))
        lines.append(line if line == header or random.random() < 0.9 else line.replace(" ", "  "))
    return lines


OPTIONS = ["", "c501c0", "cd0105", "cc00cc020000", "c807000304470027ff", "cb0700030000000000", "cb07000804470027ff",
           "c301c0cd010e", "cc80" + 128 * "00" + "cc50" + 80 * "00"]

# echo requests of the octets 6869 and of none, which may be asked to be echoed themselves; and what is none
REQUESTS = """810d01403e000f0000014701476869 810d01001e000fab07014701476869 8110013f1e0012000001470147cd01056869
811301409e00150000014701470001000000156869 81130140de00150000014701470001000000166869
811301409e00150000014701470001000300186869 810d01403e000d000001470147 810e01403e000e00000247470147""".split()
NO_REQUESTS = """810d01403e000f000001470147686900 810d01403c000f0000014701476869 810d02403e000f0000014701476869
810d01403e000f0001014701476869 810d01403e000f0102014701476869 810d01407e000f0000014701476869
811301409e00150000014701470001000000146869 811301409e00150000014701470001000000166869
81130140de00150000014701470001000000156869 811101403e0013000001470147c10200006869
811301403e0015000001470147cd0105cd01056869 810c01403e000e00000001476869 810d01403e000c0000014701476869
810d01403e00100000014701476869 81ff01403e000f0000014701476869 820d01403e000f0000014701476869
811001403e00120000014701476869 810d01403e000f 810801403e000f0000014701476869
811401409e0016000001470147000100000016cd6869""".split()


def random_echoes(names, known, everyone):
    """Echo requests of a system to an address, at times so many that pending ones are forgotten, and replies."""
    name = random.choice(names)
    source = random.choice(known.get(name) or everyone) if random.random() < 0.9 else random.choice(everyone)
    destination, events = random.choice(everyone), []
    for _ in range(random.choice([1, 1, 2, 3, 12])):
        form = "hex:" + random.choice(["", "6869", "6869", random.choice(REQUESTS), random.choice(NO_REQUESTS)])
        form = form if random.random() < 0.9 else f"pat:{random.choice([3, 490, 501, 2000, 64513])}:7"
        events.append(f"echo {name} {source} {destination} {form}")
        events += random.choice([[], [], ["settle 2"], ["settle 30"], ["lose 1"]])
    return events + random.choice([[], ["settle 40"]])


def random_crossing(hosts, known):
    """Units from one host to another, whose copies go on a few at a time while the clock ticks and the host may restart."""
    host, other = random.sample(hosts, 2)
    source, destination = (random.choice(known[name] or ["ab"]) for name in (host, other))
    length, whole = random.choice([2, 493, 600, 1490, 1500, 2000, 2500]), random.choice(["", "", " whole"])
    octets, life = f"pat:{length}:{random.randint(0, 255)}", random.choice([5, 30, 255])
    events = [f"send {host} {source} {destination} {octets} life={life}{whole}"] * random.choice([1, 1, 2])
    for _ in range(random.choice([1, 2, 4])):
        events.append(f"settle {random.choice([1, 3, 20, 60])}")
        events += random.choice([[], [f"tick {random.choice([1, 1, 2, 3])}"], [random.choice(events)]])
        events += random.choice([[], [], [], [], [], [f"restart {host}"]])
    return events + ["settle 60"]


def option(code, value):
    return f"{code:02x}{len(value) // 2:02x}{value}"


def titles_of(systems, known):
    return [f"{len(digits) // 2:02x}{digits}" for name in systems for digits in known[name][:1]]


def random_source_route(path, routers, known, everyone):
    """A source route, mostly by the routers on a way, with some left out, passed already, named twice or not there."""
    kept = random.choice([0.5, 1, 1, 1])
    named = [name for name in path if random.random() < kept]
    for _ in range(random.choice([0, 0, 0, 0, 1, 2])):
        named.insert(random.randint(0, len(named)), random.choice(routers + named))
    titles = titles_of(named, known)
    if random.random() < 0.15:
        digits = random.choice(everyone + [random_address()])
        titles.insert(random.randint(0, len(titles)), f"{len(digits) // 2:02x}{digits}")
    passed = random.choice([0, 0, 0, 0, 0, len(titles), random.randint(0, len(titles))])
    pointer = 3 + len("".join(titles[:passed])) // 2
    if passed == len(titles) and random.random() < 0.3:
        pointer = random.choice([pointer, pointer + 1, 254, 255])
    return f"{random.choice(['00', '00', '01'])}{pointer:02x}{''.join(titles)}"


def random_recording(routers, known):
    """A recording of route with some titles in it, and room for some more."""
    titles = "".join(titles_of([name for name in routers if random.random() < 0.2], known))
    room = random.choice([0, 1, 4, 5, 6, 10, 11, 18, 40, 60])
    pointer = 255 if random.random() < 0.1 else 3 + len(titles) // 2
    octets = bytes(room) if random.random() < 0.6 else random.randbytes(room)
    return f"{random.choice(['00', '00', '01'])}{pointer:02x}{titles}{octets.hex()}"


def random_options(path, routers, known, everyone):
    """Options of what goes through routers: a source route, a recording, a quality of service, beside each other and others."""
    qualities = ["c0", "c8", "c000", "ff", "80", "8001", "40", "48ff"]
    found = [(0xC8, random_source_route(path, routers, known, everyone))] if random.random() < 0.6 else []
    found += [(0xCB, random_recording(routers, known))] if random.random() < 0.5 else []
    found += [(0xC3, random.choice(qualities))] if random.random() < 0.5 else []
    found += random.choice([[], [], [], [(0xC5, "c0")], [(0xCD, "05")], [(0xCC, "0000")], [(0xCC, ""), (0xCC, "ff")]])
    random.shuffle(found)
    return "".join(option(code, value) for code, value in found)


def random_led(hosts, routers, there, known, everyone):
    """Units with such options from one host to another, through routers that are congested at times."""
    ends = [random.choices(hosts, k=2) for _ in range(5)]
    host, other = max(ends, key=lambda pair: len(random_path(*pair, there)))
    source, destination = (random.choice(known[name] or ["ab"]) for name in (host, other))
    path, events = random_path(host, other, there), random.choice([[], ["tick 1", "settle 30"]])
    for _ in range(random.choice([1, 2, 3])):
        for router in routers if random.random() < 0.4 else []:
            events += random.choice([[], [f"congest {router} on"], [f"congest {router} on"], [f"congest {router} off"]])
        words = random.choice([[], ["whole"], ["whole"]]) + random.choice([[], [], ["noreport"]])
        words += random.choice([[], [f"life={random.choice([1, 2, 3, 10, 255])}"]])
        words += [f"opt={random_options(path, routers, known, everyone)}"]
        random.shuffle(words)
        octets = f"pat:{random.choice([0, 2, 2, 20, 450, 600, 1480])}:{random.randint(0, 255)}"
        events.append(f"send {host} {source} {destination} {octets} {' '.join(words)}")
        events += random.choice([[], [f"settle {random.choice([1, 4, 12])}"], ["settle 30"]])
    return events + random.choice([["settle 40"], ["tick 1", "settle 40"], [f"restart {random.choice(routers)}"]])


def random_event(hosts, names, known, everyone):
    kind = random.random()
    if kind < 0.25:
        host = random.choice(hosts)
        source = random.choice(known.get(host) or everyone) if random.random() < 0.9 else random.choice(everyone)
        length = random.choice([0, 1, 3, 40, 490, 500, 600, 1480, 2000, 2500]) if random.random() < 0.95 else 64513
        words = random.choice([[], [], [], ["whole"]]) + random.choice([[], ["noreport"]])
        words += random.choice([[], [f"life={random.choice([1, 2, 3, 4, 10, 255])}"]])
        words += random.choice([[], [], [f"opt={random.choice(OPTIONS)}"]])
        random.shuffle(words)
        pattern = f"pat:{length}:{random.randint(0, 255)}"
        octets = pattern if random.random() < 0.5 else "hex:" + random.randbytes(length).hex()
        return f"send {host} {source} {random.choice(everyone)} {octets} {' '.join(words)}"
    if kind < 0.4:
        return f"deliver {random.randint(1, random.choice([5, 15, 60]))} {random.choice(names)}"
    if kind < 0.65:
        return f"tick {random.choice([1, 1, 2, 3, 4, 8, 20]) if random.random() < 0.97 else random.randint(1, 300)}"
    if kind < 0.67:
        return f"restart {random.choice(names)}"
    routers = [name for name in names if name[0] == "r"]
    if kind < 0.69 and routers:
        return f"congest {random.choice(routers)} {random.choice(['on', 'on', 'off'])}"
    return f"settle {random.choice([1, 2, 4, 8, 30])}" if kind < 0.95 else f"lose {random.randint(1, 6)}"


WORDS = """pat:3 pat:70001:0 pat:3:256 pat:x:1 opt= opt=c1020000 opt=cd opt=c5 slots=0 budget=511 tick suggest=1
suggest=32768 suggest= hello=1 hello=601 hello= hello x 0 1 2 8 256 65536 511 70 end events host router r0 r1 life=0
life=300 whole congest on off zz a.b 4 . * ** 4700* 47.0 route echo hex:1 hex -1 007 99999999999999999999999
checksum=maybe h0 s0 H0 inject es is ES eses 81 8 mtu unroute port h1 s1 r2 4096 4097 513
abcdefghijklmnopq 012345678901234567890123456789012345678 01234567890123456789012345678901234567890""".split()
MORE = "x whole life=3 noreport hello=0 hello=2 suggest=3 checksum=on opt=cd0101 slots=2 7".split()


def changed(lines):
    favoured = [at for at, line in enumerate(lines) if line.startswith(("route", "mtu", "unroute", "port", "tick h", "tick r"))]
    for _ in range(random.randint(1, 2)):
        at, kind = random.randrange(len(lines)), random.randrange(10)
        if favoured and random.random() < 0.2:
            at, kind = min(random.choice(favoured), len(lines) - 1), random.choice([1, 2, 2, 2, 3, 5, 9])
        words = lines[at].split(" ")
        if kind == 0 and len(lines) > 1:
            del lines[at]
        elif kind == 1:
            lines.insert(at, random.choice(lines))
        elif kind == 2:
            words[random.randrange(len(words))] = random.choice(WORDS)
            lines[at] = " ".join(words)
        elif kind == 3:
            del words[random.randrange(len(words))]
            lines[at] = " ".join(words)
        elif kind == 4:
            lines[at] += " " + random.choice(MORE)
        elif kind == 5:
            other = random.randrange(len(lines))
            lines[at], lines[other] = lines[other], lines[at]
        elif kind == 6:
            lines[at] = " " + lines[at]
        elif kind == 7:
            lines.append(random.choice(["", "# x", "x", "end", " "]))
        elif kind == 8:
            lines[at] += "\r"
        elif lines[at]:
            characters = list(lines[at])
            characters[random.randrange(len(characters))] = random.choice("0az #.=:\t")
            lines[at] = "".join(characters)
    return lines


def kinds_of(journal):
    """How often each kind of line stands in a journal, with a hearing's table and answer, a drop's reason, and the like."""
    lines = [line.split(" ") for line in journal.splitlines()]
    words = [line[2:] for line in lines if line[0] != "end"]
    told = {
        "hear": [1, 3], "gone": [1], "ignored": [1], "drop": [1], "badesis": [1], "sent": [1], "refused": [1], "congest": [1],
        "unroute": [2],
    }
    return collections.Counter("-".join([line[0]] + [line[at] for at in told.get(line[0], [])]) for line in words)


def run_each(program, command, texts):
    """What the program says of each text: its status, its output, and what it writes to standard error."""
    for text in texts:
        ran = subprocess.run([program, command], input=text, capture_output=True)
        yield ran.returncode, ran.stdout.decode(), ran.stderr.decode()


def try_all(command, texts):
    """The same, of the program that `rt try` compiles once and runs on each text."""
    with tempfile.TemporaryDirectory() as folder:
        for at, text in enumerate(texts):
            with open(os.path.join(folder, f"{at:06}"), "wb") as case:
                case.write(text)
        ran = subprocess.run(
            ["rt", "try", "--seconds", "500", "--cases", folder, "--", command],
            cwd=os.path.join(ROOT, "crates", "clnp_tool"), capture_output=True)
    outputs = re.split(r"^== [0-9]+\n", ran.stdout.decode(), flags=re.MULTILINE)[1:]
    ends = re.findall(r"((?:^clnp: .*\n)*)^case=[0-9]+ run=ended status=([0-9]+)", ran.stderr.decode(), re.MULTILINE)
    if not len(outputs) == len(ends) == len(texts):
        sys.exit(f"rt try ran {len(ends)} of {len(texts)} texts: {ran.stderr.decode()[-2000:]}")
    return [(int(status), output, said) for output, (said, status) in zip(outputs, ends)]


def without_advice(status, output, said):
    """What the program said, without the second line of a text that is refused; that has to be there, and to be plain."""
    lines = said.splitlines(keepends=True)
    if status != 3:
        return status, output, said
    if len(lines) != 2 or not re.fullmatch(r"clnp: [ -~]{1,250}\n", lines[1]):
        return status, output, said + "(no line of advice)"
    return status, output, lines[0]


def wanted_of(text, command, kinds):
    """What the models say of a text that a command reads, and whether it is a scenario."""
    found = read(text)
    if not isinstance(found, Text):
        return (3, "", f"clnp: bad input at line {found[0]}: {CODE_NAMES[found[1]]}\n"), False
    network = Network(found)
    journal, full = network.trace() if command == "trace" else network.journal()
    kinds.update(kinds_of(journal))
    kinds.update(f"({kind})" for kind in network.met.elements())
    return (0, journal, "") if full is None else (4, journal, f"clnp: world full at {full} octets\n"), True


def random_text(mostly_version_2=False):
    lines = random_scenario(mostly_version_2)
    lines = lines if random.random() < 0.5 else changed(lines)
    end = random.choice(["\n", "\r\n"]) if random.random() < 0.2 else "\n"
    return (end.join(lines) + ("\n" if random.random() < 0.9 else "")).encode()


def main():
    words = argparse.ArgumentParser(description="Compares `clnp sim` or `clnp trace` with plain models, on random texts.")
    words.add_argument("seed", nargs="?", type=int, default=1)
    words.add_argument("texts", nargs="?", type=int, default=2000)
    words.add_argument("--program", help="another program to run than the built one")
    words.add_argument("--try", dest="tries", action="store_true", help="run what `rt try` compiles")
    words.add_argument("--trace", dest="command", action="store_const", const="trace", default="sim", help="compare traces")
    words.add_argument("--version-2", dest="version_2", action="store_true", help="nine of ten texts of version 2")
    asked = words.parse_args()
    random.seed(asked.seed)
    texts = [random_text(asked.version_2) for _ in range(asked.texts)]
    if asked.program is None and not asked.tries:
        subprocess.run([os.path.join(ROOT, "clnp"), "--version"], check=True, stdout=subprocess.DEVNULL)
    accepted, kinds = 0, collections.Counter()
    for text, came in zip(texts, try_all(asked.command, texts) if asked.tries else run_each(asked.program or PROGRAM, asked.command, texts)):
        wanted, is_scenario = wanted_of(text, asked.command, kinds)
        accepted += is_scenario
        if without_advice(*came) != wanted:
            sys.stdout.buffer.write(text)
            ends = f"{came[0]} {came[2]!r}, not {wanted[0]} {wanted[2]!r}"
            sys.exit(f"the program and the models differ on this text; the program: {ends}")
    print(f"{asked.texts} texts, {accepted} of them scenarios: the program and the models agree")
    print("lines of their journals, and (what was met):", " ".join(f"{kind} {n}" for kind, n in sorted(kinds.items())))


main()
