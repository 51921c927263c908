"""A plain model of the grammar of scenario texts: what a text says, the first bad line, and the canonical text."""
import copy
import re

from pdu_model import is_options

HEADER, SYNTAX, NUMBER, ADDRESS, UNKNOWN_NAME, DUP_NAME, DUP_ADDRESS, LIMITS, MTU, COUNT = range(1, 11)
CODE_NAMES = {
    HEADER: "header", SYNTAX: "syntax", NUMBER: "number", ADDRESS: "address", UNKNOWN_NAME: "unknown-name",
    DUP_NAME: "dup-name", DUP_ADDRESS: "dup-address", LIMITS: "limits", MTU: "mtu", COUNT: "count",
}

# the settings that are numbers: their least and greatest values, and what they are where they are missing
RANGES = {
    b"hello": (0, 600, 60), b"suggest": (0, 32767, 0), b"rhold": (0, 65535, 120),
    b"slots": (1, 1024, 16), b"segments": (1, 16384, 1024),
    b"budget": (512, 4194304, 262144), b"neighbours": (1, 1024, 64), b"routers": (1, 64, 8),
    b"redirects": (1, 1024, 64), b"life": (1, 255, 64),
}

# how old a copy may be, how long a buffer lasts, how long an identifier rests, and how far apart clocks may stand
DEFAULT_LIMITS = (256, 60, 320, 0)

MOST_ROUTES, MOST_SKEW = 256, 4096

# the least and the greatest numbers of addresses and of ports of a role
ADDRESSES = {b"host": (1, 8), b"router": (1, 1)}
PORTS = {b"host": (1, 1), b"router": (1, 8)}


class Refused(Exception):
    """A line breaks the grammar, with this code."""

    def __init__(self, code):
        self.code = code


def want(holds, code):
    if not holds:
        raise Refused(code)


# ---- the words of a line

def name(word):
    want(re.fullmatch(rb"[a-z][a-z0-9]{0,15}", word), SYNTAX)
    return word


def decimal(word):
    want(re.fullmatch(rb"[0-9]+", word), NUMBER)
    return int(word)


def number(word, low, high):
    want(low <= decimal(word) <= high, NUMBER)
    return int(word)


def address(word):
    digits = word.replace(b".", b"")
    want(re.fullmatch(rb"[0-9a-fA-F]+", digits) and len(digits) % 2 == 0 and len(digits) <= 40, ADDRESS)
    return bytes.fromhex(digits.decode())


def prefix(word):
    """The leading digits of addresses; no digits, or `*` alone, lead each address."""
    digits = b"" if word == b"*" else word.replace(b".", b"")
    want(re.fullmatch(rb"[0-9a-fA-F]{0,40}", digits), ADDRESS)
    return digits.lower().decode()


def place(names, word):
    wanted = name(word)
    want(wanted in names, UNKNOWN_NAME)
    return names.index(wanted)


# ---- the text

class System:
    """A host or a router, with a clock of its own."""

    def __init__(self, system_name, role, sealed, settings):
        self.name, self.role, self.sealed, self.settings = system_name, role, sealed, settings
        self.addresses, self.ports, self.transits, self.routes, self.units = [], {}, {}, {}, 0
        self.clock = 0
        self.starts(0)

    def starts(self, quiet):
        """At its start, and again at a restart: nothing is kept, nothing was heard, no congestion, and its hello is due. Its
        ports and routes are those that it has."""
        self.uses, self.buffers, self.pending, self.quiet = [], [], [], quiet
        self.congested = False
        self.heard = {"es": {}, "is": {}, "rd": {}}
        self.period, self.due = self.settings[b"hello"], self.clock

    def held(self):
        return sum(segment["size"] for buffer in self.buffers for segment in buffer["kept"])

    def kept(self):
        return sum(len(buffer["kept"]) for buffer in self.buffers)

    def is_complete(self):
        counts = [(len(self.addresses), ADDRESSES), (len(self.ports), PORTS)]
        in_range = all(ranges[self.role][0] <= count <= ranges[self.role][1] for count, ranges in counts)
        return in_range and sorted(self.ports) == list(range(len(self.ports)))

    def known(self, table):
        """The places of all that it knows of end systems (es), of routers (is) or of better hops (rd)."""
        return {key: entry["place"] for key, entry in self.heard[table].items() if entry["until"] > self.clock}

    def next_hop(self, destination):
        """Where a PDU goes, a port and whom it is for there. A host sends it to the better hop that a redirect named for this
        address, else to the end system of this address, else to the router that it heard last, or to all end systems."""
        if self.role == b"router":
            way = self.way(destination)
            return way and way[0]
        for table in ("rd", "es"):
            if destination in (known := self.known(table)):
                return known[destination]
        return (list(self.known("is").values()) or [(0, "es")])[-1]

    def way(self, destination):
        """A router's next hop, and the title of the system there: none where it is the end system of this address, which
        comes before the route of the most digits."""
        if destination in (known := self.known("es")):
            return known[destination], b""
        covering = [digits for digits in self.routes if destination.hex().startswith(digits)]
        return self.routes[max(covering, key=len)] if covering else None


class Text:
    """What the lines so far declare, in a text of a version, and their events. Event lines are read over what the events before
    them leave: where each port is, which prefixes a router has, and where each clock stands."""

    # whether limits are refused in which an identifier rests for too short a time
    judges_rest = True

    def __init__(self, version):
        self.version = version
        self.subnets, self.systems, self.events, self.passed, self.ticks = [], [], [], 0, 0
        self.limits = None
        self.spots, self.prefixes, self.clocks = [], [], []

    def subnet_names(self):
        return [subnet[0] for subnet in self.subnets]

    def system_names(self):
        return [system.name for system in self.systems]

    def declare(self, keyword, words):
        kinds = {
            b"subnet": self.subnet, b"system": self.system, b"address": self.address, b"port": self.port,
            b"limits": self.limit, b"route": self.route,
        }
        want(keyword in kinds, SYNTAX)
        kinds[keyword](words)

    def limit(self, words):
        want(len(words) == (3 if self.version == 1 else 4), SYNTAX)
        age, hold, reuse = number(words[0], 1, 4096), number(words[1], 1, 255), number(words[2], 1, 16384)
        skew = 0 if self.version == 1 else number(words[3], 0, MOST_SKEW)
        want(self.limits is None, DUP_NAME)
        want(age + hold + 2 * skew <= reuse or not self.judges_rest, LIMITS)
        self.limits = (age, hold, reuse, skew)

    def subnet(self, words):
        want(len(words) == 2, SYNTAX)
        subnet_name, mtu = name(words[0]), decimal(words[1])
        want(subnet_name not in self.subnet_names(), DUP_NAME)
        want(512 <= mtu <= 65535, MTU)
        want(len(self.subnets) < 64, COUNT)
        self.subnets.append((subnet_name, mtu))

    def system(self, words):
        want(len(words) >= 2, SYNTAX)
        system_name = name(words[0])
        want(words[1] in (b"host", b"router"), SYNTAX)
        kinds, sealed = [], True
        settings = {key: default for key, (_, _, default) in RANGES.items()}
        for word in words[2:]:
            key = word.split(b"=")[0]
            if key in RANGES and word != key:
                low, high, _ = RANGES[key]
                settings[key] = number(word[len(key) + 1:], low, high)
            else:
                want(word in (b"checksum=on", b"checksum=off"), SYNTAX)
                sealed = word == b"checksum=on"
            kinds.append(key)
        want(system_name not in self.system_names() and len(set(kinds)) == len(kinds), DUP_NAME)
        want(len(self.systems) < 64, COUNT)
        self.systems.append(System(system_name, words[1], sealed, settings))

    def address(self, words):
        want(len(words) == 2, SYNTAX)
        system = self.systems[place(self.system_names(), words[0])]
        octets = address(words[1])
        want(all(octets not in other.addresses for other in self.systems), DUP_ADDRESS)
        want(len(system.addresses) < ADDRESSES[system.role][1], COUNT)
        system.addresses.append(octets)

    def port(self, words):
        want(len(words) in (4, 5), SYNTAX)
        system = self.systems[place(self.system_names(), words[0])]
        port_number = number(words[1], 0, 7)
        subnet = place(self.subnet_names(), words[2])
        snpa = address(words[3])
        transit = number(words[4], 1, 255) if len(words) == 5 else 1
        want(port_number not in system.ports, DUP_NAME)
        want(all(subnet != other for other, _ in system.ports.values()), DUP_NAME)
        want(all((subnet, snpa) not in other.ports.values() for other in self.systems), DUP_ADDRESS)
        want(len(system.ports) < PORTS[system.role][1], COUNT)
        system.ports[port_number], system.transits[port_number] = (subnet, snpa), transit

    def route_of(self, words):
        """The place of a router, and a route of it: its prefix, the hop, and the title there."""
        want(len(words) == 5, SYNTAX)
        router = self.router(words[0])
        digits, port_number = prefix(words[1]), number(words[2], 0, 7)
        want(port_number in self.systems[router].ports, UNKNOWN_NAME)
        return router, digits, (port_number, address(words[3])), address(words[4])

    def router(self, word):
        router = place(self.system_names(), word)
        want(self.systems[router].role == b"router", UNKNOWN_NAME)
        return router

    def route(self, words):
        at, digits, hop, title = self.route_of(words)
        router = self.systems[at]
        want(digits not in router.routes, DUP_ADDRESS)
        want(len(router.routes) < MOST_ROUTES, COUNT)
        router.routes[digits] = hop, title

    def start(self):
        want(self.version == 1 or self.limits is not None, SYNTAX)
        want(all(system.is_complete() for system in self.systems), COUNT)
        self.spots = [dict(system.ports) for system in self.systems]
        self.prefixes = [set(system.routes) for system in self.systems]
        self.clocks = [0 for _ in self.systems]

    # events

    def event(self, keyword, words):
        kinds = {
            b"send": self.send, b"echo": self.echo, b"deliver": self.deliver, b"settle": self.settle, b"lose": self.lose,
            b"tick": self.tick, b"restart": self.restart, b"congest": self.congest, b"inject": self.inject,
        }
        if self.version > 1:
            kinds.update({b"mtu": self.resize, b"route": self.set_route, b"unroute": self.remove_route, b"port": self.move_port})
        want(keyword in kinds, SYNTAX)
        event = kinds[keyword](words)
        self.passed += event[1] if event[0] in ("settle", "lose") else 0
        self.ticks += event[-1] if event[0] in ("tick", "tick alone") else 0
        want(len(self.events) < 100_000 and self.passed <= 10_000_000 and self.ticks <= 1_000_000, COUNT)
        self.events.append(event)

    def echo(self, words):
        want(len(words) == 4, SYNTAX)
        system = place(self.system_names(), words[0])
        return ("echo", system, address(words[1]), address(words[2]), data(words[3]))

    def deliver(self, words):
        want(len(words) == 2, SYNTAX)
        copy_number = number(words[0], 1, 1_000_000_000)
        return ("deliver", copy_number, place(self.system_names(), words[1]))

    def settle(self, words):
        want(len(words) == 1, SYNTAX)
        return ("settle", number(words[0], 1, 100_000))

    def lose(self, words):
        want(len(words) == 1, SYNTAX)
        return ("lose", number(words[0], 1, 100_000))

    def tick(self, words):
        """All clocks go on, or that of one system alone, which may not come too far ahead of another one."""
        if len(words) == 2 and self.version > 1:
            system = place(self.system_names(), words[0])
            ticks = number(words[1], 1, 65535)
            self.clocks[system] += ticks
            want(self.clocks[system] <= min(self.clocks) + self.limits[3], LIMITS)
            return ("tick alone", system, ticks)
        want(len(words) == 1, SYNTAX)
        ticks = number(words[0], 1, 65535)
        self.clocks = [clock + ticks for clock in self.clocks]
        return ("tick", ticks)

    def restart(self, words):
        want(len(words) == 1, SYNTAX)
        return ("restart", place(self.system_names(), words[0]))

    def congest(self, words):
        want(len(words) == 2, SYNTAX)
        router = self.router(words[0])
        want(words[1] in (b"on", b"off"), SYNTAX)
        return ("congest", router, words[1] == b"on")

    def send(self, words):
        want(len(words) >= 4, SYNTAX)
        host = place(self.system_names(), words[0])
        want(self.systems[host].role == b"host", UNKNOWN_NAME)
        source, destination = address(words[1]), address(words[2])
        octets = data(words[3])
        kinds, life, options = [], None, b""
        for word in words[4:]:
            if word.startswith(b"life="):
                ticks = number(word[5:], 1, 255)
                life = ticks if life is None else life
            elif word.startswith(b"opt="):
                want(re.fullmatch(rb"([0-9a-fA-F]{2}){0,254}", word[4:]), ADDRESS)
                options = bytes.fromhex(word[4:].decode())
                want(is_options(options), ADDRESS)
            else:
                want(word in (b"noreport", b"whole"), SYNTAX)
            kinds.append(word.split(b"=")[0])
        want(len(set(kinds)) == len(kinds), DUP_NAME)
        lifetime = self.systems[host].settings[b"life"] if life is None else life
        report, segment = b"noreport" not in kinds, b"whole" not in kinds
        return ("send", host, source, destination, octets, lifetime, report, segment, options)

    def inject(self, words):
        want(len(words) == 4, SYNTAX)
        subnet = place(self.subnet_names(), words[0])
        sender = address(words[1])
        target = words[2].decode() if words[2] in (b"es", b"is") else address(words[2])
        want(re.fullmatch(rb"([0-9a-fA-F]{2})*", words[3]), ADDRESS)
        want(len(words[3]) <= 2 * 70_000, COUNT)
        return ("inject", subnet, sender, target, bytes.fromhex(words[3].decode()))

    # events that change a network

    def resize(self, words):
        want(len(words) == 2, SYNTAX)
        subnet, mtu = place(self.subnet_names(), words[0]), decimal(words[1])
        want(512 <= mtu <= 65535, MTU)
        return ("mtu", subnet, mtu)

    def set_route(self, words):
        router, digits, hop, title = self.route_of(words)
        self.prefixes[router].add(digits)
        want(len(self.prefixes[router]) <= MOST_ROUTES, COUNT)
        return ("route", router, digits, hop, title)

    def remove_route(self, words):
        want(len(words) == 2, SYNTAX)
        router, digits = self.router(words[0]), prefix(words[1])
        self.prefixes[router].discard(digits)
        return ("unroute", router, digits)

    def move_port(self, words):
        """A port goes elsewhere: not where another port of its system is, nor to the address of another port there."""
        want(len(words) == 4, SYNTAX)
        system, port_number = place(self.system_names(), words[0]), number(words[1], 0, 7)
        want(port_number in self.spots[system], UNKNOWN_NAME)
        subnet, snpa = place(self.subnet_names(), words[2]), address(words[3])
        others = [dict(spots) for spots in self.spots]
        del others[system][port_number]
        want(all(subnet != other for other, _ in others[system].values()), DUP_NAME)
        want(all((subnet, snpa) not in spots.values() for spots in others), DUP_ADDRESS)
        self.spots[system][port_number] = (subnet, snpa)
        return ("port", system, port_number, subnet, snpa)


class Data(bytes):
    """Octets, and the canonical word that gives them. (The word comes later where octets are copied.)"""

    def __new__(cls, octets, word=None):
        made = super().__new__(cls, octets)
        made.word = word
        return made


def data(word):
    if word.startswith(b"pat:"):
        fields = word[4:].split(b":")
        want(len(fields) == 2, SYNTAX)
        length, start = number(fields[0], 0, 70_000), number(fields[1], 0, 255)
        return Data(((at + at // 256 + start) % 256 for at in range(length)), f"pat:{length}:{start}")
    want(word.startswith(b"hex:"), SYNTAX)
    want(re.fullmatch(rb"([0-9a-fA-F]{2})*", word[4:]), ADDRESS)
    return Data(bytes.fromhex(word[4:].decode()), word.decode().lower())


def lines_of(text):
    lines = text.split(b"\n")
    last = lines.pop()
    lines = [line[:-1] if line.endswith(b"\r") else line for line in lines]
    return lines + [last] if last else lines


HEADERS = {b"clnp-sim 1": 1, b"clnp-sim 2": 2}


def read(text, newest=2, kind=Text):
    """The text's declarations and events, or the first bad line with its code. A version later than the newest has no header.
    Texts of another kind have a grammar of their own."""
    lines = lines_of(text)
    left = [(at + 1, line) for at, line in enumerate(lines) if line and not line.startswith(b"#")]
    if not left or HEADERS.get(left[0][1], newest + 1) > newest:
        return (left[0][0] if left else len(lines) + 1, HEADER)
    read_text, started = kind(HEADERS[left[0][1]]), False
    for at, (number_of_line, line) in enumerate(left[1:], 1):
        words = [word for word in line.split(b" ") if word]
        try:
            if started and words == [b"end"]:
                return (left[at + 1][0], SYNTAX) if at + 1 < len(left) else read_text
            want(words, SYNTAX)
            if started:
                read_text.event(words[0], words[1:])
            elif words == [b"events"]:
                read_text.start()
                started = True
            else:
                read_text.declare(words[0], words[1:])
        except Refused as refused:
            return (number_of_line, refused.code)
    return (len(lines) + 1, SYNTAX)


# ---- the canonical text

def shown_prefix(digits):
    return digits or "*"


def shown_target(target):
    return target if isinstance(target, str) else target.hex()


def system_line(system):
    settings = "".join(f" {key.decode()}={system.settings[key]}" for key in RANGES)
    return f"system {system.name.decode()} {system.role.decode()}{settings} checksum={'on' if system.sealed else 'off'}"


def lines_of_system(text, system):
    """The addresses of a system, its ports by their numbers, and its routes."""
    own, subnets = system.name.decode(), text.subnet_names()
    lines = [f"address {own} {octets.hex()}" for octets in system.addresses]
    for port_number, (subnet, snpa) in sorted(system.ports.items()):
        lines.append(f"port {own} {port_number} {subnets[subnet].decode()} {snpa.hex()} {system.transits[port_number]}")
    for digits, ((port_number, snpa), title) in system.routes.items():
        lines.append(f"route {own} {shown_prefix(digits)} {port_number} {snpa.hex()} {title.hex()}")
    return lines


def send_words(source, destination, octets, life, report, segment, options):
    words = [source.hex(), destination.hex(), octets.word, f"life={life}"]
    words += ([] if report else ["noreport"]) + ([] if segment else ["whole"])
    return words + ([f"opt={options.hex()}"] if options else [])


def event_line(text, event):
    """The line of an event: its words as they stand in the event, but for names, addresses and the like."""
    kind, first, *others = event
    systems = [system.name.decode() for system in text.systems]
    subnets = [subnet.decode() for subnet in text.subnet_names()]
    if kind == "deliver":
        words = [first, systems[others[0]]]
    elif kind in ("settle", "lose", "tick"):
        words = [first]
    elif kind == "inject":
        sender, target, frame = others
        words = [subnets[first], sender.hex(), shown_target(target), frame.hex()]
    elif kind == "mtu":
        words = [subnets[first], *others]
    else:
        words = [systems[first], *words_of_system(subnets, kind, others)]
    return " ".join([kind.split(" ")[0], *map(str, words)])


def words_of_system(subnets, kind, words):
    """What stands behind the name of a system in the line of an event of this kind."""
    if kind == "send":
        return send_words(*words)
    if kind == "echo":
        source, destination, octets = words
        return [source.hex(), destination.hex(), octets.word]
    if kind == "congest":
        return ["on" if words[0] else "off"]
    if kind == "route":
        digits, (port_number, snpa), title = words
        return [shown_prefix(digits), port_number, snpa.hex(), title.hex()]
    if kind == "unroute":
        return [shown_prefix(words[0])]
    if kind == "port":
        port_number, subnet, snpa = words
        return [port_number, subnets[subnet], snpa.hex()]
    return words


def write(text):
    """The canonical text of a scenario."""
    limits = (text.limits or DEFAULT_LIMITS)[:3 if text.version == 1 else 4]
    lines = [f"clnp-sim {text.version}", "limits " + " ".join(map(str, limits))]
    lines += [f"subnet {subnet.decode()} {mtu}" for subnet, mtu in text.subnets]
    lines += [system_line(system) for system in text.systems]
    for system in text.systems:
        lines += lines_of_system(text, system)
    lines += ["events", *(event_line(text, event) for event in text.events), "end"]
    return "".join(line + "\n" for line in lines)


def migrated(text):
    """The scenario of a text of version 1 in version 2, where clocks tick together."""
    found = copy.copy(text)
    found.version, found.limits = 2, text.limits or DEFAULT_LIMITS
    return found


def migrate(text):
    """The canonical text in version 2 of a text of version 1, or the first bad line with its code."""
    found = read(text, newest=1)
    return write(migrated(found)) if isinstance(found, Text) else found
