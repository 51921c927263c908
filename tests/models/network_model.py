"""A plain model of the network: what hosts and routers do in a scenario, and the journal and the trace of it."""
import collections
from copy import deepcopy

from pdu_model import REASON, TYPES, Broken, options_from, read_clnp, read_esis, report_to, sealed
from scenario_model import DEFAULT_LIMITS, shown_prefix, shown_target

MOST_WEIGHT = 268_435_456
MOST_OCTETS = 64_512

# whom a copy is for that is for a group
GROUPS = {b"host": "es", b"router": "is"}


def pdu(unit, life, offset, octets):
    """A PDU of a unit, with these octets of its data from an offset."""
    part = bytes([len(unit["to"])]) + unit["to"] + bytes([len(unit["from"])]) + unit["from"]
    more = offset + len(octets) < unit["length"]
    flags = (0x20 if unit["report"] else 0) | (0x40 if more else 0) | TYPES[unit["kind"]]
    if unit["id"] is not None:
        flags |= 0x80
        part += b"".join(value.to_bytes(2, "big") for value in (unit["id"], offset, unit["total"]))
    part += unit["options"]
    length = 9 + len(part)
    header = bytes([0x81, length, 1, life, flags]) + (length + len(octets)).to_bytes(2, "big") + bytes(2) + part
    return (sealed(header) if unit["sealed"] else header) + octets


def pieces(unit, offset, octets, mtu):
    """Offsets and octets of the PDUs in which a subnetwork takes these octets of a unit, where they may be cut."""
    length = unit["total"] - unit["length"]
    if length + len(octets) <= mtu:
        return [(offset, octets)]
    room = (mtu - length) // 8 * 8
    cut = [(offset + at, octets[at:at + room]) for at in range(0, len(octets), room)]
    return None if unit["id"] is None else cut


def frame_from_outside(frame):
    """What a frame carries that no system made, with the address to which it is reported where it is dropped."""
    back = report_to(frame)
    if frame[:1] not in (b"\x81", b"\x82"):
        return dict(alien=True)
    try:
        return from_clnp(read_clnp(frame), back) if frame[0] == 0x81 else from_esis(read_esis(frame))
    except Broken as broken:
        if frame[0] == 0x82:
            return dict(refused=f"badesis E{broken.rule} {broken.place:02x}")
        return dict(broken=f"{broken.reason:02x} {broken.place:02x}", header=frame[:frame[1]] if back else None, back=back)


def from_clnp(read, back):
    """A PDU with the unit of which it is a part; of its octets those of the unit are known that it has."""
    unit = {name: read[name] for name in ("kind", "life", "id", "total", "from", "to", "report", "options", "octets")}
    unit.update(maker=None, number=None, sealed=any(read["sum"]), length=read["total"] - len(read["header"]))
    assert pdu(unit, read["life"], read["offset"], read["octets"]) == read["header"] + read["octets"]
    return dict(unit=unit, **{name: read[name] for name in ("life", "offset", "octets", "header")}, back=back)


def from_esis(read):
    if read["kind"] == "rd":
        return dict(redirect=dict(to=read["fields"][0], via=read["fields"][1], holding=read["hold"]))
    role = b"host" if read["kind"] == "esh" else b"router"
    return dict(hello=dict(role=role, addresses=read["fields"], holding=read["hold"], suggest=read["suggested"]))


def request_of(octets):
    """The data of the echo request that these octets are, where they are one and nothing follows it."""
    try:
        read = read_clnp(octets) if octets[:1] == b"\x81" else None
    except Broken:
        return None
    return read["octets"] if read and read["kind"] == "erq" and not read["rest"] else None


def needs_identifier(source, destination, octets):
    """Whether an echo of these octets might be too long for a subnetwork."""
    return 11 + len(source) + len(destination) + len(octets) > 512


def holding_of(system):
    """How long a system's hello holds: for two of its periods, so that one may be lost."""
    return min(65535, 2 * system.period)


def hello(system):
    """A system's hello: of its addresses, or of its title with the period that it asks hosts for."""
    holding = holding_of(system).to_bytes(2, "big")
    if system.role == b"host":
        kind, part = 2, bytes([len(system.addresses)])
        part += b"".join(bytes([len(octets)]) + octets for octets in system.addresses)
    else:
        kind, part = 4, bytes([len(system.addresses[0])]) + system.addresses[0]
        if system.settings[b"suggest"] > 0:
            part += b"\xc6\x02" + system.settings[b"suggest"].to_bytes(2, "big")
    header = bytes([0x82, 9 + len(part), 1, 0, kind]) + holding + bytes(2) + part
    return sealed(header) if system.sealed else header


def options_of(octets):
    """The options that these octets spell: codes and values."""
    return [(code, value) for _, code, value in options_from(octets, 1)[0]]


def source_route(options):
    """Whether a source route is complete, and the titles to which it still leads."""
    for value in [value for code, value in options if code == 0xC8]:
        titles, at = [], value[1] - 1
        while at < len(value):
            titles.append(value[at + 1:at + 1 + value[at]])
            at += 1 + value[at]
        return value[0] == 1, titles
    return False, []


def recorded(value, title):
    """A recording of route with one title more, or ended where there is no room for it."""
    pointer = value[1]
    last = pointer + len(title)
    if pointer == 255:
        return value
    if last > len(value):
        return value[:1] + b"\xff" + value[2:]
    return value[:1] + bytes([last + 1]) + value[2:pointer - 1] + bytes([len(title)]) + title + value[last:]


def redirect(router, holding, to, via, title):
    """A router's redirect: where the next hop towards an address is, and its title unless it is that address itself."""
    part = b"".join(bytes([len(octets)]) + octets for octets in (to, via, title))
    header = bytes([0x82, 9 + len(part), 1, 0, 6]) + holding.to_bytes(2, "big") + bytes(2) + part
    return sealed(header) if router.sealed else header


class Network:
    """The network of a text: it plays the text's events, on systems of its own. Its clock is that of the system that is furthest
    ahead. A copy grows old by the clock of the system that made what it carries, or by the network's where none did."""

    def __init__(self, text):
        self.text, self.clock, self.copies, self.cursor, self.weight = text, 0, [], 0, 0
        self.systems, self.mtus = deepcopy(text.systems), [mtu for _, mtu in text.subnets]
        # the lines of the trace, and the places of those that the journal hasn't
        self.lines, self.only_traced = [], set()
        self.met = collections.Counter()
        self.age, self.hold, self.reuse, _ = text.limits or DEFAULT_LIMITS

    def note(self, system, words):
        """A line of a system, at the moment of its clock."""
        self.lines.append(f"{system.clock} {system.name.decode()} {words}")

    def tells(self, words):
        """A line of no system, at the moment of the network's clock."""
        self.lines.append(f"{self.clock} - {words}")

    def traces(self, words, system=None):
        """Tells of a copy what the trace alone tells: that it came to a system, or to none."""
        self.only_traced.add(len(self.lines))
        if system is None:
            self.tells(words)
        else:
            self.note(system, words)

    def puts(self, system, hop, frame, maker, birth, **carried):
        """A frame goes out on a port, to an address there or to a group."""
        port, target = hop
        subnet, snpa = system.ports[port]
        self.adds(subnet, snpa, target, frame, maker, birth, **carried)
        self.note(system, f"tx {len(self.copies)} {port} {shown_target(target)} {frame.hex()}")

    def adds(self, subnet, sender, target, frame, maker, birth, **carried):
        """A frame becomes the next copy, born at a moment of its maker's clock."""
        copy = dict(subnet=subnet, sender=sender, target=target, maker=maker, birth=birth, size=len(frame), **carried)
        self.copies.append(copy)
        self.weight += len(frame) + 64

    def age_of(self, copy):
        """How old a copy is: by its maker's clock, or by the network's where it came from outside."""
        return (self if copy["maker"] is None else copy["maker"]).clock - copy["birth"]

    def entries(self, copy, system):
        """The ports by which a copy comes to a system."""
        def takes(snpa):
            if copy["target"] in ("es", "is"):
                return copy["target"] == GROUPS[system.role] and snpa != copy["sender"]
            return copy["target"] == snpa

        there = [(port, snpa) for port, (subnet, snpa) in sorted(system.ports.items()) if subnet == copy["subnet"]]
        return [port for port, snpa in there if takes(snpa)]

    def give(self, number_of_copy, system):
        copy = self.copies[number_of_copy - 1]
        is_late = self.age_of(copy) > self.age
        self.met["late-by-its-maker-alone"] += is_late and system.clock - copy["birth"] <= self.age
        self.met["late-by-its-holder-alone"] += not is_late and system.clock - copy["birth"] > self.age
        if is_late:
            self.note(system, f"late {number_of_copy}")
        else:
            port = self.entries(copy, system)[0]
            self.traces(f"rx {number_of_copy} {port}", system)
            self.comes(system, port, copy)

    def comes(self, system, port, copy):
        """A frame comes to a system by a port."""
        if "alien" in copy:
            self.note(system, "alien")
        elif "refused" in copy:
            self.note(system, copy["refused"])
        elif "broken" in copy:
            self.discards(system, copy, copy["broken"])
        elif "hello" in copy:
            self.hears(system, (port, copy["sender"]), **copy["hello"])
        elif "redirect" in copy:
            self.hears_redirect(system, (port, copy["sender"]), **copy["redirect"])
        elif copy["life"] == 0:
            self.discards(system, copy, "a0 00")
        elif copy["unit"]["to"] in system.addresses:
            self.receive(system, copy)
            if copy["target"] == "es":
                self.tells_of_itself(system, (port, copy["sender"]))
        elif system.role == b"host":
            self.note(system, f"notmine {copy['unit']['to'].hex()}")
        else:
            self.forwards(system, copy, (port, copy["sender"]))

    # hellos and redirects

    def says(self, system, hop):
        suggest = system.settings[b"suggest"] if system.role == b"router" else 0
        told = dict(role=system.role, addresses=system.addresses, holding=holding_of(system), suggest=suggest)
        self.puts(system, hop, hello(system), system, system.clock, hello=told)

    def tells_of_itself(self, system, hop):
        if system.period > 0:
            self.says(system, hop)

    def hears(self, system, source, role, addresses, holding, suggest):
        if system.role == b"router" and role == b"router":
            return self.note(system, "ignored ish")
        table = "es" if role == b"host" else "is"
        answers = [self.keeps_in_mind(system, table, key, source, holding) for key in addresses]
        if "new" in answers and (system.role, role) != (b"host", b"host"):
            self.tells_of_itself(system, source)
        if suggest > 0 and system.period > 0:
            system.period = suggest
            system.due = min(system.due, system.clock + 2 * suggest)

    def hears_redirect(self, host, source, to, via, holding):
        """A host hears redirects of the routers that it knows."""
        if source[1] in [snpa for _, snpa in host.known("is").values()]:
            self.keeps_in_mind(host, "rd", to, (source[0], via), holding)
        else:
            self.note(host, "ignored rd")

    def keeps_in_mind(self, system, table, key, source, holding):
        entries = system.heard[table]
        limit = system.settings[{"es": b"neighbours", "is": b"routers", "rd": b"redirects"}[table]]
        if holding == 0:
            entries.pop(key, None)
            answer = "zero"
        elif key not in entries and len(entries) >= limit:
            answer = f"full {len(entries)}"
        else:
            answer = "again" if key in entries else "new"
            entries.pop(key, None)
            entries[key] = dict(place=source, until=system.clock + 2 * holding)
        self.note(system, f"hear {table} {key.hex()} {answer}")
        return answer

    def forgets(self, system):
        for table, entries in system.heard.items():
            for key in sorted(key for key, entry in entries.items() if entry["until"] <= system.clock):
                del entries[key]
                self.note(system, f"gone {table} {key.hex()}")

    def says_hello(self, system):
        if system.period > 0 and system.due <= system.clock:
            system.due = system.clock + 2 * system.period
            for port in sorted(system.ports):
                self.says(system, (port, "is" if system.role == b"host" else "es"))

    # units

    def forwards(self, router, copy, came):
        """A PDU for another address goes on, as what was cut of its unit and with what is left of its lifetime. Its source
        route leads it, its recording tells of the router, and its quality of service of congestion there."""
        unit, own = copy["unit"], router.addresses[0]
        options = options_of(unit["options"])
        is_complete, titles = source_route(options)
        if is_complete and titles[:1] != [own]:
            self.met["complete-route-elsewhere" if titles else "complete-route-exhausted"] += 1
            return self.discards(router, copy, "93 00")
        passed = 0
        while titles[:1] == [own]:
            passed, titles = passed + 1, titles[1:]
        target = titles[0] if titles else unit["to"]
        way = router.way(target)
        if way is None:
            return self.discards(router, copy, "92 00" if titles else "81 00")
        hop, title = way
        if is_complete and title not in (b"", target):
            self.met["complete-route-by-another-system"] += 1
            return self.discards(router, copy, "93 00")
        life = copy["life"] - router.transits[hop[0]]
        if life <= 0:
            return self.discards(router, copy, "a0 00")
        options = b"".join(self.behind(router, code, value, passed * (1 + len(own))) for code, value in options)
        if not self.goes_on(router, hop, dict(unit, options=options), life, copy["birth"], copy["offset"], copy["octets"]):
            return self.discards(router, copy, "05 00")
        self.met[f"{'complete' if is_complete else 'partial'}-route-passed"] += passed
        self.met["led-to-a-neighbour" if title == b"" else "led-by-a-route"] += titles != []
        if titles:
            self.met["led-back"] += hop[0] == came[0]
        elif hop[0] == came[0]:
            self.may_redirect(router, copy, came, hop[1], title)

    def behind(self, router, code, value, passed):
        """An option of a PDU behind a router, by so many octets of titles further in a source route."""
        there = value
        if code == 0xC8:
            value = value[:1] + bytes([value[1] + passed]) + value[2:]
        elif code == 0xCB:
            value = recorded(value, router.addresses[0])
            kind = ["partial", "complete"][value[0]]
            self.met[f"{kind}-recording-{'ended' if value[1] == 255 else 'went-on'}"] += there != value
        elif code == 0xC3 and router.congested and value[0] >> 6 == 3:
            value = bytes([value[0] | 0x08]) + value[1:]
            self.met["congestion-told"] += there != value
        return bytes([code, len(value)]) + value

    def may_redirect(self, router, copy, came, via, title):
        """A PDU went on by the port by which it came. Its source is told of the next hop there, where the PDU begins its unit
        and its source is known to be where it came from, unless the router's redirects are held for no time."""
        holding, to = router.settings[b"rhold"], copy["unit"]["to"]
        known = router.known("es").get(copy["unit"]["from"])
        if holding == 0:
            self.met["back-with-redirects-off"] += 1
        elif copy["offset"] > 0:
            self.met["back-in-a-later-segment"] += 1
        elif known != came:
            self.met["back-from-elsewhere" if known else "back-from-an-unknown-source"] += 1
        else:
            self.met["redirect-to-a-route" if title else "redirect-to-an-end-system"] += 1
            told = dict(to=to, via=via, holding=holding)
            self.puts(router, came, redirect(router, holding, to, via, title), router, router.clock, redirect=told)

    def goes_on(self, system, hop, unit, life, birth, offset, octets):
        """Octets of a unit go out on a port, in PDUs that its subnetwork takes, unless they may not be cut."""
        cut = pieces(unit, offset, octets, self.mtus[system.ports[hop[0]][0]])
        if cut is None:
            return False
        is_on_its_way, is_segment = life < unit["life"], len(octets) < unit["length"]
        self.met["forwarded"] += is_on_its_way
        self.met["cut-again" if is_segment else "cut-on-the-way" if is_on_its_way else "cut"] += len(cut) > 1
        for start, part in cut:
            frame = pdu(unit, life, start, part)
            carried = dict(unit=unit, life=life, offset=start, octets=part, header=frame[:len(frame) - len(part)])
            self.puts(system, hop, frame, unit["maker"], birth, **carried, back=report_to(frame))
        return True

    def discards(self, system, copy, reason):
        """A PDU is dropped for a reason at a place, and its header goes back in an error report where one is wanted."""
        self.note(system, f"drop {reason}")
        if copy["back"] is not None:
            option = bytes([REASON, 2]) + bytes.fromhex(reason)
            self.makes(system, "er", system.addresses[0], copy["back"], copy["header"], options=option)

    def receive(self, system, copy):
        self.met["came-over-a-router"] += copy["life"] < copy["unit"]["life"]
        if len(copy["octets"]) == copy["unit"]["length"]:
            self.is_whole(system, copy["unit"])
        else:
            self.offer(system, copy)

    def is_whole(self, system, unit):
        ends, octets = f"{unit['from'].hex()} {unit['to'].hex()}", unit["octets"]
        if unit["kind"] == "dt":
            self.note(system, f"got {ends} {octets.hex() or '-'}")
        elif unit["kind"] == "er":
            [reason] = [value for code, value in options_of(unit["options"]) if code == REASON]
            self.note(system, f"report {ends} {reason[0]:02x} {reason[1]:02x} {octets.hex() or '-'}")
        elif unit["kind"] == "erq" and len(octets) > MOST_OCTETS:
            self.note(system, f"refused too-long {len(octets)}")
        elif unit["kind"] == "erq":
            segment = needs_identifier(unit["to"], unit["from"], octets)
            self.makes(system, "erp", unit["to"], unit["from"], octets, segment=segment)
        else:
            self.note(system, self.answered(system, unit, ends))

    def answered(self, system, reply, ends):
        """What is noted of an echo reply. Of the requests that it may answer the oldest isn't pending any more."""
        for at, request in enumerate(system.pending):
            is_back = (request["from"], request["to"]) == (reply["to"], reply["from"])
            if is_back and request["octets"] in (reply["octets"], request_of(reply["octets"])):
                self.met["answered-by-a-pdu"] += request["octets"] != reply["octets"]
                return f"echoed {ends} {system.pending.pop(at)['number']}"
        return f"stray {ends}"

    def offer(self, system, copy):
        unit, size, settings = copy["unit"], copy["size"], system.settings
        key = (unit["from"], unit["to"], unit["id"])
        identifier = f"{unit['id']:04x}"
        there = [buffer for buffer in system.buffers if buffer["key"] == key]
        covered = there[0]["octets"] if there else {}
        places = range(copy["offset"], copy["offset"] + len(copy["octets"]))
        shape = (unit["kind"], unit["total"], len(copy["header"]))
        if there and there[0]["shape"] != shape:
            self.note(system, f"interference {identifier}")
            self.discards(system, copy, "c0 00")
        elif all(at in covered for at in places):
            self.note(system, f"repeat {identifier} {copy['offset']}")
        elif not there and len(system.buffers) >= settings[b"slots"]:
            self.note(system, f"noslot {len(system.buffers)}")
            self.discards(system, copy, "03 00")
        elif system.held() + size > settings[b"budget"]:
            self.note(system, f"crowded {system.held()} {size}")
            self.discards(system, copy, "03 00")
        elif system.kept() >= settings[b"segments"]:
            self.note(system, f"many {system.kept()}")
            self.discards(system, copy, "03 00")
        else:
            if not there:
                deadline = system.clock + min(self.hold, copy["life"])
                there = [dict(key=key, shape=shape, deadline=deadline, kept=[], octets={})]
                system.buffers.append(there[0])
            buffer = there[0]
            buffer["kept"].append(copy)
            for at, octet in zip(places, copy["octets"]):
                buffer["octets"].setdefault(at, octet)
            if len(buffer["octets"]) == unit["length"]:
                system.buffers.remove(buffer)
                octets = bytes(buffer["octets"][at] for at in range(unit["length"]))
                self.is_whole(system, dict(unit, octets=octets))
            else:
                self.note(system, f"held {identifier} {copy['offset']} {system.held()}")

    def send(self, host, source, destination, octets, life, report, segment, options):
        if source not in host.addresses:
            return self.note(host, "refused not-mine 0")
        if len(octets) > MOST_OCTETS:
            return self.note(host, f"refused too-long {len(octets)}")
        length = 11 + len(destination) + len(source) + len(options) + (6 if segment else 0)
        if length > 254:
            return self.note(host, f"refused too-long {length}")
        self.makes(host, "dt", source, destination, octets, life, report, segment, options)

    def echo(self, system, source, destination, octets):
        if source not in system.addresses:
            return self.note(system, "refused not-mine 0")
        if len(octets) > MOST_OCTETS:
            return self.note(system, f"refused too-long {len(octets)}")
        segment = needs_identifier(source, destination, octets)
        self.makes(system, "erq", source, destination, octets, report=True, segment=segment)

    def draws(self, system):
        """The next identifier, or why there is none."""
        identifier = len(system.uses) % 65536
        used = [moment for other, moment in system.uses if other == identifier]
        if system.clock < system.quiet:
            return None, f"refused quiet {system.quiet}"
        if used and used[-1] + self.reuse > system.clock:
            return None, f"refused ids-busy {used[-1]}"
        system.uses.append((identifier, system.clock))
        return identifier, f"{identifier:04x}"

    def makes(self, system, kind, source, destination, octets, life=None, report=False, segment=False, options=b""):
        """A unit is made and goes out, if it gets the identifier that it needs."""
        identifier, shown = self.draws(system) if segment else (None, "-")
        if segment and identifier is None:
            return self.note(system, shown)
        system.units += 1
        total = 11 + len(destination) + len(source) + len(options) + (6 if segment else 0) + len(octets)
        unit = {
            "kind": kind, "maker": system, "number": system.units, "id": identifier, "total": total, "length": len(octets),
            "sealed": system.sealed,
            "from": source, "to": destination, "octets": octets, "report": report, "options": options,
            "life": system.settings[b"life"] if life is None else life,
        }
        if kind == "erq":
            self.met["forgot-a-request"] += len(system.pending) == 8
            system.pending = (system.pending + [unit])[-8:]
        self.note(system, f"sent {kind} {system.units} {shown} {source.hex()} {destination.hex()} {len(octets)}")
        self.met["sent-as-redirected"] += system.role == b"host" and destination in system.known("rd")
        is_to_itself = system.role == b"router" and destination in system.addresses
        hop = None if is_to_itself else system.next_hop(destination)
        if hop is None:
            self.note(system, "drop 81 00")
        elif not self.goes_on(system, hop, unit, unit["life"], system.clock, 0, octets):
            self.note(system, "drop 05 00")

    # moves

    def tick(self):
        self.clock += 1
        for system in self.systems:
            self.ticks(system)

    def tick_alone(self, system):
        """The clock of one system goes on, and the network's where it passes that."""
        self.clock = max(self.clock, system.clock + 1)
        self.ticks(system)

    def ticks(self, system):
        system.clock += 1
        self.does_what_is_due(system)

    def does_what_is_due(self, system):
        self.expire(system)
        self.forgets(system)
        self.says_hello(system)

    def expire(self, system):
        while due := [buffer for buffer in system.buffers if buffer["deadline"] <= system.clock]:
            buffer = min(due, key=lambda ended: ended["deadline"])
            system.buffers.remove(buffer)
            self.note(system, f"expired {buffer['key'][2]:04x} {system.held()}")
            for first in [segment for segment in buffer["kept"] if segment["offset"] == 0][:1]:
                self.discards(system, first, "a1 00")

    def deliver(self, number_of_copy, system):
        if 1 <= number_of_copy <= len(self.copies) and self.entries(self.copies[number_of_copy - 1], system):
            self.give(number_of_copy, system)
        else:
            self.note(system, f"void {number_of_copy}")

    def pass_on(self, settles):
        if self.cursor == len(self.copies):
            return
        self.cursor += 1
        copy = self.copies[self.cursor - 1]
        addressees = [system for system in self.systems if self.entries(copy, system)]
        if not settles:
            self.traces(f"lost {self.cursor}")
        elif not addressees:
            self.traces(f"nobody {self.cursor}")
        for system in addressees if settles else []:
            self.give(self.cursor, system)

    def restart(self, system):
        system.starts(system.clock + self.reuse)
        self.note(system, "restart")

    def inject(self, subnet, sender, target, frame):
        """A frame comes from outside on a subnetwork."""
        carried = frame_from_outside(frame)
        self.adds(subnet, sender, target, frame, None, self.clock, **carried)
        self.met[f"injected-{next(iter(carried))}"] += 1
        self.tells(f"inject {len(self.copies)} {self.name_of(subnet)} {sender.hex()} {shown_target(target)}")

    def name_of(self, subnet):
        return self.text.subnets[subnet][0].decode()

    def congest(self, router, is_congested):
        router.congested = is_congested
        self.note(router, f"congest {'on' if is_congested else 'off'}")

    # changes of a network

    def resize(self, subnet, mtu):
        """A subnetwork takes frames of so many octets, from whatever port is on it."""
        self.mtus[subnet] = mtu
        self.tells(f"mtu {self.name_of(subnet)} {mtu}")

    def set_route(self, router, digits, hop, title):
        """A route takes the place of the one of its prefix."""
        self.met["route-set-again"] += digits in router.routes
        router.routes[digits] = hop, title
        self.note(router, f"route {shown_prefix(digits)}")

    def remove_route(self, router, digits):
        was_there = router.routes.pop(digits, None) is not None
        self.note(router, f"unroute {shown_prefix(digits)} {'yes' if was_there else 'no'}")

    def move_port(self, system, port, subnet, snpa):
        """A port is elsewhere, with the transit that it had; what the system heard and keeps stays, and it says hello at its next
        tick, where it says hello at all."""
        self.met["port-of-a-buffer"] += system.buffers != []
        system.ports[port] = subnet, snpa
        system.due = system.clock
        self.note(system, f"port {port} {self.name_of(subnet)} {snpa.hex()}")

    def moves(self, event):
        kind, *words = event
        if kind in ("settle", "lose"):
            return words[0] * [lambda: self.pass_on(kind == "settle")]
        if kind == "tick":
            return words[0] * [self.tick]
        if kind == "tick alone":
            return words[1] * [lambda: self.tick_alone(self.systems[words[0]])]
        if kind == "deliver":
            return [lambda: self.deliver(words[0], self.systems[words[1]])]
        if kind in ("inject", "mtu"):
            return [lambda: (self.inject if kind == "inject" else self.resize)(*words)]
        return [lambda: self.asks(event)]

    def asks(self, event):
        """One system is asked for something, or changed."""
        asked = {
            "send": self.send, "echo": self.echo, "restart": self.restart, "congest": self.congest,
            "route": self.set_route, "unroute": self.remove_route, "port": self.move_port,
        }
        asked[event[0]](self.systems[event[1]], *event[2:])

    def runs(self):
        """Plays the events, and tells the weight at which the run stops, where it does."""
        for event in self.text.events:
            for move in self.moves(event):
                if self.weight >= MOST_WEIGHT:
                    return self.weight
                move()
        self.lines.append(f"end {self.clock} {len(self.copies)}")
        return None

    def journal(self):
        """The journal, and the weight at which the run stops, where it does. A network runs once: for this or for its trace."""
        full = self.runs()
        return "".join(line + "\n" for at, line in enumerate(self.lines) if at not in self.only_traced), full

    def trace(self):
        """The same with the trace, which has all lines of the journal and its own between them."""
        full = self.runs()
        return "".join(line + "\n" for line in self.lines), full
