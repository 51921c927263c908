"""Families of inputs for slow_inputs.py. Each is a function of a size, whose first line of words says what it is; twice the size
is twice of what counts in it. `family` says by which command it is read, its size, the plain program of bench/ that reads it too,
if one does, and the status with which it ends."""
import random
import struct

from collections import namedtuple

Family = namedtuple("Family", "name command what size plain status make")
FAMILIES = []


def family(command, size, plain=None, status=0):
    def add(make):
        FAMILIES.append(Family(make.__name__.replace("_", "-"), command, make.__doc__, size, plain, status, make))
        return make
    return add


# ---- PDUs without checksums


def behind_length(octets):
    return bytes([len(octets)]) + octets


def esis(kind, hold, fields):
    return bytes([0x82, 9 + len(fields), 1, 0, kind]) + hold.to_bytes(2, "big") + bytes(2) + fields


def esh(hold, *addresses):
    return esis(2, hold, bytes([len(addresses)]) + b"".join(map(behind_length, addresses)))


def ish(hold, title):
    return esis(4, hold, behind_length(title))


def rd(hold, to, via, title=b""):
    return esis(6, hold, b"".join(map(behind_length, (to, via, title))))


def pdu(to, source, data=b"", options=b"", part=None, more=False, life=64, kind=28, report=False):
    fields = behind_length(to) + behind_length(source)
    fields += b"".join(number.to_bytes(2, "big") for number in part or ()) + options
    flags = (0x80 if part else 0) | (0x40 if more else 0) | (0x20 if report else 0) | kind
    length = 9 + len(fields)
    return bytes([0x81, length, 1, life, flags]) + (length + len(data)).to_bytes(2, "big") + bytes(2) + fields + data


A, B = bytes.fromhex("47002701"), bytes.fromhex("47002702")
ONE, TWO = b"\xa1", b"\xa2"
MOST_OPTIONS = 254 - 13  # beside two addresses of one octet


def segment(unit, offset, octets, length, life=255, source=B):
    """A segment of a unit with so many octets of data."""
    return pdu(A, source, octets, part=(unit, offset, 25 + length), more=offset + len(octets) < length, life=life)


def host_key(number):
    return bytes.fromhex(f"470027{number:04x}")


# ---- scenario texts


def scenario(declared, events):
    return "\n".join(["clnp-sim 1", *declared, "events", *events, "end", ""]).encode()


def ticks(count):
    return [f"tick {min(65_535, count - at)}" for at in range(0, count, 65_535)]


def settles(count):
    return [f"settle {min(100_000, count - at)}" for at in range(0, count, 100_000)]


def lan(systems, role, settings="hello=0", mtu=1500):
    lines = [f"subnet lan {mtu}"]
    for at in range(systems):
        lines += [f"system s{at} {role} {settings}", f"address s{at} 470026{at:02x}", f"port s{at} 0 lan 00{at:02x}"]
    return lines


def heard(keys, hold=65_535, to="is"):
    """Hellos of hosts, one address each."""
    return [f"inject lan 01{key:04x} {to} {esh(hold, host_key(key)).hex()}" for key in keys]


def shuffled(keys):
    keys = list(keys)
    random.shuffle(keys)
    return keys


ROUTERS = lan(64, "router", "hello=0 neighbours=1024")

# ---- tables of ES-IS


@family("sim", 125_000, "hostile")
def ticks_of_systems_that_know_nothing(size):
    """ticks of 64 routers that say no hello and know nobody"""
    return scenario(lan(64, "router"), ticks(size))


@family("sim", 30_000, "hostile")
def ticks_over_full_tables(size):
    """ticks of 64 routers that know 1,024 end systems each, of which none ends"""
    return scenario(ROUTERS, heard(range(1_024)) + ["settle 1024"] + ticks(size))


@family("sim", 30_000)
def ticks_over_full_tables_of_hosts(size):
    """ticks of 63 hosts whose three tables are full: 1,024 end systems, 64 routers, 1,024 redirects"""
    events = [f"inject lan 02 es {esh(65_535, *map(host_key, range(at, at + 32))).hex()}" for at in range(0, 1_024, 32)]
    events += [f"inject lan 03{at:02x} es {ish(65_535, bytes([0x48, at])).hex()}" for at in range(64)]
    events += [f"inject lan 0300 es {rd(65_535, host_key(at), b'%c' % 5).hex()}" for at in range(1_024)]
    return scenario(lan(63, "host", "hello=0 neighbours=1024 routers=64 redirects=1024"), events + ["settle 2000"] + ticks(size))


@family("sim", 512, "hostile")
def hearings_of_new_keys(size):
    """64 routers hear of so many end systems for the first time, in a random order"""
    return scenario(ROUTERS, heard(shuffled(range(size))) + ["settle 1024"])


@family("sim", 512, "hostile")
def hearings_in_falling_order(size):
    """the same, each key below all before it"""
    return scenario(ROUTERS, heard(range(size - 1, -1, -1)) + ["settle 1024"])


@family("sim", 8_000, "hostile")
def hearings_again(size):
    """32 routers that know 1,024 end systems hear of them again, in a random order"""
    routers = lan(32, "router", "hello=0 neighbours=1024")
    return scenario(routers, heard([*range(1_024), *random.choices(range(1_024), k=size)]) + settles(1_024 + size))


@family("sim", 4_000, "hostile")
def hearings_of_a_key_taken_out(size):
    """32 routers that know 1,024 end systems: the least of them is taken out (a holding time of 0), and comes again"""
    events = heard(range(1_024)) + (heard([0], 0) + heard([0])) * size
    return scenario(lan(32, "router", "hello=0 neighbours=1024"), events + settles(1_024 + 2 * size))


@family("sim", 8_000, "hostile")
def hearings_beyond_a_full_table(size):
    """32 routers that know 1,024 end systems hear of others"""
    events = heard(range(1_024)) + heard(1_024 + at % 60_000 for at in range(size))
    return scenario(lan(32, "router", "hello=0 neighbours=1024"), events + settles(1_024 + size))


@family("sim", 8, "hostile")
def keys_that_all_end_at_once(size):
    """8 routers hear of 1,024 end systems, all of which end at one tick, so many times"""
    events = (heard(range(1_024), 1) + ["settle 1024", "tick 2"]) * size
    return scenario(lan(8, "router", "hello=0 neighbours=1024"), events)


@family("sim", 50, "hostile")
def keys_that_end_behind_others(size):
    """64 routers know 1,000 end systems that stay; 24 greater ones are heard and end, so many times"""
    events = heard(range(1_000)) + ["settle 1000"] + (heard(range(1_000, 1_024), 1) + ["settle 24", "tick 2"]) * size
    return scenario(ROUTERS, events)


@family("sim", 512, "hostile")
def keys_that_end_one_by_one(size):
    """64 routers hear of so many end systems, of which one ends in each second"""
    events = [line for at, key in enumerate(shuffled(range(size))) for line in heard([key], at + 1)]
    return scenario(ROUTERS, events + ["settle 1024"] + ticks(2 * size))


@family("sim", 1_000)
def hearings_of_many_addresses(size):
    """hellos of 80 addresses each to 64 routers that know them"""
    known = [esh(65_535, *(bytes([at, key]) for key in range(80))).hex() for at in range(12)]
    return scenario(ROUTERS, [f"inject lan 01 is {known[at % 12]}" for at in range(size)] + settles(size))


@family("sim", 4_000)
def redirects_again(size):
    """63 hosts that know 1,024 redirects and 64 routers: redirects again, from the router that is found last"""
    events = [f"inject lan 03{at:02x} es {ish(65_535, bytes([0x48, at])).hex()}" for at in range(64)]
    keys = [*range(1_024), *random.choices(range(1_024), k=size)]
    events += [f"inject lan 033f es {rd(65_535, host_key(key), b'%c' % 5).hex()}" for key in keys]
    return scenario(lan(63, "host", "hello=0 routers=64 redirects=1024"), events + settles(1_088 + size))


@family("sim", 20_000)
def sends_of_a_host_that_knows_64_routers(size):
    """one host knows 64 routers, and sends units of one octet"""
    events = [f"inject lan 03{at:02x} es {ish(65_535, bytes([0x48, at])).hex()}" for at in range(64)] + ["settle 64"]
    return scenario(lan(1, "host", "hello=0 routers=64"), events + ["send s0 47002600 4911 hex:00"] * size)


# ---- hellos in loops


@family("sim", 1_000)
def new_routers_again_and_again(size):
    """63 hosts of 8 addresses hear a new router, answer it, and hear that it is gone"""
    pair = [f"inject lan 02 es {ish(hold, A).hex()}" for hold in (10, 0)]
    more = [f"address s{at} 4999{at:02x}{other}" for at in range(63) for other in range(10, 17)]
    return scenario(lan(63, "host", "hello=1") + more, pair * size + settles(200_000)[:1] * (size // 700 + 1))


@family("sim", 1_000)
def new_hosts_again_and_again(size):
    """63 routers hear a new host, answer it, and hear that it is gone"""
    pair = [f"inject lan 02 is {esh(hold, A).hex()}" for hold in (10, 0)]
    return scenario(lan(63, "router", "hello=1"), pair * size + settles(200_000)[:1] * (size // 700 + 1))


def hosts_and_routers(hosts, routers):
    """32 hosts of 8 addresses and 32 routers on one subnetwork, with these settings."""
    lines = ["subnet lan 1500"]
    for at in range(32):
        lines += [f"system h{at} host {hosts}", f"port h{at} 0 lan 01{at:02x}", f"system r{at} router {routers}"]
        lines += [f"port r{at} 0 lan 02{at:02x}", f"address r{at} 470026{at:02x}"]
        lines += [f"address h{at} {(host_key(256 * at + other) + bytes(15)).hex()}" for other in range(8)]
    return lines


@family("sim", 20)
def hellos_of_all(size):
    """32 hosts of 8 addresses and 32 routers, all of which say hello in each second"""
    return scenario(hosts_and_routers("hello=1 routers=64", "hello=1 neighbours=1024"), ["tick 2", "settle 2000"] * size)


@family("sim", 20)
def hellos_as_suggested(size):
    """the same, of hosts that say hello every ten minutes and routers that suggest each second"""
    return scenario(hosts_and_routers("hello=600 routers=64", "hello=1 suggest=1 neighbours=1024"), ["tick 2", "settle 2000"] * size)


@family("sim", 500)
def hellos_that_answer_groups(size):
    """64 hosts that know no router: each unit goes to all, and its receiver answers with a hello"""
    events = [f"send s{at % 64} 470026{at % 64:02x} 470026{(at + 7) % 64:02x} hex:00" for at in range(size)]
    return scenario(lan(64, "host", "hello=600"), events + settles(2 * size))


# ---- reassembly


ROOMY = "hello=0 budget=4194304 slots=1024 segments=16384"


def one_host(events, settings=ROOMY):
    return scenario(["subnet lan 1500", f"system a host {settings}", "address a 47002701", "port a 0 lan 0a"], events)


def offered(frames):
    lines = [f"inject lan 01 0a {frame.hex()}" for frame in frames]
    return lines + settles(len(lines))


@family("sim", 8_000, "hostile")
def segments_without_neighbours(size):
    """so many segments of one octet of one unit, none beside another, in a random order"""
    return one_host(offered(segment(1, 4 * at, b"x", 4 * size) for at in shuffled(range(size))))


@family("sim", 8_000, "hostile")
def segments_in_order(size):
    """so many segments of one octet, in order"""
    return one_host(offered(segment(1, at, b"x", size) for at in range(size)))


@family("sim", 8_000, "hostile")
def segments_in_reverse(size):
    """so many segments of one octet, the last first"""
    return one_host(offered(segment(1, at, b"x", size) for at in range(size - 1, -1, -1)))


@family("sim", 8_000, "hostile")
def segments_that_overlap(size):
    """so many segments of 8 octets, each of which begins an octet before the one that came last"""
    return one_host(offered(segment(1, at, 8 * b"x", size + 9) for at in range(size - 1, -1, -1)))


@family("sim", 16_000, "hostile")
def segments_that_repeat(size):
    """a unit of 8,000 segments without neighbours, and then so many that are there"""
    places = shuffled(range(8_000))
    return one_host(offered(segment(1, 4 * at, b"x", 32_000) for at in [*places, *random.choices(places, k=size)]))


@family("sim", 8_000, "hostile")
def holes_that_are_filled(size):
    """every other octet of a unit, and then the holes between them, in a random order"""
    places = shuffled(range(0, size, 2)) + shuffled(range(1, size, 2))
    return one_host(offered(segment(1, at, b"x", size) for at in places))


@family("sim", 7, "hostile")
def many_units_at_once(size):
    """1,024 units at once, so many segments of each that touch no neighbour"""
    places = shuffled((unit, 4 * at) for unit in range(1_024) for at in range(size))
    return one_host(offered(segment(unit, at, b"x", 4 * size) for unit, at in places))


@family("sim", 7, "hostile")
def units_that_end_at_once(size):
    """the same, and then they all end at one tick"""
    places = shuffled((unit, 4 * at) for unit in range(1_024) for at in range(size))
    events = offered(segment(unit, at, b"x", 4 * size, 10) for unit, at in places)
    return one_host(events + ["tick 10"])


@family("sim", 2_000, "hostile")
def units_whole_beside_a_large_one(size):
    """a unit of 15,000 kept segments, and beside it so many units of two segments that become whole"""
    frames = [segment(0, 4 * at, b"x", 60_000) for at in range(15_000)]
    frames += [segment(1 + at, offset, b"x", 2) for at in range(size) for offset in (0, 1)]
    return one_host(offered(frames))


@family("sim", 2_000, "hostile")
def units_whole_beside_many(size):
    """1,023 units with 14 kept segments each, and beside them so many units of two segments that become whole"""
    frames = [segment(unit, 4 * at, b"x", 60) for unit in range(1_023) for at in range(14)]
    frames += [segment(2_000 + at, offset, b"x", 2) for at in range(size) for offset in (0, 1)]
    return one_host(offered(frames))


@family("sim", 120)
def ticks_over_open_units(size):
    """so many ticks, at most 250, of 16 hosts with 1,024 open units each, of which none ends"""
    frames = [segment(at, 0, b"x", 8).hex() for at in range(1_024)]
    events = [f"inject lan ff 00{at:02x} {frame.replace('47002701', f'470026{at:02x}')}" for at in range(16) for frame in frames]
    return scenario(["limits 256 255 600", *lan(16, "host", ROOMY)], events + settles(len(events)) + ticks(size))


@family("sim", 10_000)
def segments_where_all_buffers_are_taken(size):
    """1,024 units open, and then segments of so many others"""
    return one_host(offered(segment(at % 60_000, 0, b"x", 8) for at in range(1_024 + size)))


@family("sim", 10_000)
def segments_beyond_the_budget(size):
    """segments that the budget has no room for"""
    frames = [segment(1, 0, bytes(400), 4_000)] + [segment(2 + at % 60_000, 0, bytes(200), 4_000) for at in range(size)]
    return one_host(offered(frames), "hello=0 budget=512")


@family("sim", 10_000)
def segments_of_another_shape(size):
    """1,024 units open, and segments of another shape for the last of them"""
    frames = [segment(at, 0, b"x", 8) for at in range(1_024)] + [segment(1_023, 0, b"x", 9)] * size
    return one_host(offered(frames))


@family("sim", 40, "sim")
def long_units_mixed(size):
    """so many units of 64,000 octets over an MTU of 512, whose segments are delivered in a random order, 40 units at a time"""
    lines = ["subnet lan 512", "system a host hello=0", "system b host hello=0 budget=4194304 slots=64 segments=16384"]
    lines += ["address a 47002702", "address b 47002701", "port a 0 lan 01", "port b 0 lan 02"]
    events, copies, pieces = [], 0, -(-64_000 // ((512 - 25) // 8 * 8))
    for first in range(0, size, 40):
        count = min(40, size - first)
        events += [f"send a 47002702 47002701 pat:64000:{at % 256}" for at in range(first, first + count)]
        events += [f"deliver {number} b" for number in shuffled(range(copies + 1, copies + count * pieces + 1))]
        copies += count * pieces
    return scenario(lines, events)


@family("sim", 100, "sim")
def long_units_in_order(size):
    """so many units of 64,000 octets over an MTU of 512, each settled in order"""
    lines = ["subnet lan 512", "system a host hello=0", "system b host hello=0"]
    lines += ["address a 47002702", "address b 47002701", "port a 0 lan 01", "port b 0 lan 02"]
    return scenario(lines, ["send a 47002702 47002701 pat:64000:1", "settle 140"] * size)


# ---- routes


def ring(settings="hello=0 rhold=0 life=255", routes=()):
    """Two routers, each of which sends on to the other what it has no other way for."""
    lines = ["subnet lan 1500", f"system one router {settings}", f"system two router {settings}", "address one a1", "address two a2"]
    lines += ["port one 0 lan 01", "port two 0 lan 02", "route one * 0 02 a2", "route two * 0 01 a1"]
    lines += [f"route one {prefix} 0 02 a2" for prefix in routes]
    return lines + [f"route two {prefix} 0 01 a1" for prefix in routes]


def round_and_round(frame, size, hops=254):
    """The frame comes to the first router so many times, and its copies are settled."""
    return [f"inject lan ff 01 {frame.hex()}", f"settle {hops + 1}"] * size


FAR = bytes.fromhex("47" + 19 * "11")


@family("sim", 8_000)
def routes_of_one_length(size):
    """64 routers with so many routes of 40 digits, all together"""
    lines = lan(64, "router")
    lines += [f"route s{at % 64} {0x47 << 152 | at:040x} 0 ff 49" for at in range(size)]
    return scenario(lines, [])


@family("sim", 100)
def hops_by_the_shortest_route(size):
    """units for an address of 20 octets go round between two routers, which try 40 lengths of prefixes at each hop"""
    routes = [f"{digits:0{length}x}" for length in range(2, 41) for digits in range(1, 7)]
    return scenario(ring(routes=routes), round_and_round(pdu(FAR, ONE, life=255), size))


@family("sim", 100)
def hops_by_the_longest_of_nested_routes(size):
    """the same, with a route of each length for the address"""
    return scenario(ring(routes=[FAR.hex()[:length] for length in range(1, 41)]), round_and_round(pdu(FAR, ONE, life=255), size))


@family("sim", 20_000)
def no_route(size):
    """units for which a router with 256 routes of 40 lengths has none"""
    lines = lan(1, "router") + [f"route s0 {at + 1:0{1 + at // 7}x} 0 ff 49" for at in range(15, 256)]
    return scenario(lines, [f"inject lan ff 0000 {pdu(FAR, ONE).hex()}"] * size + settles(size))


# ---- options


@family("sim", 60)
def hops_with_one_padding(size):
    """headers of 254 octets with one padding, round between two routers"""
    return scenario(ring(), round_and_round(pdu(b"\x47", b"\x48", options=b"\xcc\xef" + bytes(239), life=255), size))


@family("sim", 60)
def hops_with_120_paddings(size):
    """the same with 120 empty paddings"""
    return scenario(ring(), round_and_round(pdu(b"\x47", b"\x48", options=120 * b"\xcc\0", life=255), size))


@family("sim", 60)
def hops_with_all_options(size):
    """the same with paddings, behind them each option that a router looks for, and both routers congested"""
    options = b"\xcb\x79\0\x03" + bytes(119) + 50 * b"\xcc\0" + b"\xc8\x02\0\x03" + b"\xc5\x01\xc0" + b"\xc3\x01\xc0" + b"\xcd\x01\x05"
    return scenario(ring(), ["congest one on", "congest two on"] + round_and_round(pdu(b"\x47", b"\x48", options=options, life=255), size))


@family("sim", 120)
def hops_by_a_long_source_route(size):
    """a source route of 118 titles, the two routers in turn"""
    route = b"\xc8\xee\0\x03" + 59 * b"\x01\xa2\x01\xa1"
    return scenario(ring(), round_and_round(pdu(b"\x47", b"\x48", options=route, life=255), size))


@family("sim", 120)
def hops_by_a_source_route_behind_paddings(size):
    """a source route of 58 titles behind 60 empty paddings"""
    route = 60 * b"\xcc\0" + b"\xc8\x76\0\x03" + 29 * b"\x01\xa2\x01\xa1"
    return scenario(ring(), round_and_round(pdu(b"\x47", b"\x48", options=route, life=255), size))


@family("sim", 6_000)
def titles_of_its_own(size):
    """a source route in which the router's own title stands 118 times"""
    route = b"\xc8\xee\0\x03" + 118 * b"\x01\xa1"
    return scenario(ring(), [f"inject lan ff 01 {pdu(b'%c' % 0x47, b'%c' % 0x48, options=route).hex()}"] * size + settles(size))


@family("sim", 6_000)
def titles_of_its_own_behind_paddings(size):
    """58 times behind 60 empty paddings"""
    route = 60 * b"\xcc\0" + b"\xc8\x76\0\x03" + 58 * b"\x01\xa1"
    return scenario(ring(), [f"inject lan ff 01 {pdu(b'%c' % 0x47, b'%c' % 0x48, options=route).hex()}"] * size + settles(size))


@family("sim", 60)
def hops_with_a_long_recording(size):
    """a recording of route that takes 118 titles"""
    return scenario(ring(), round_and_round(pdu(b"\x47", b"\x48", options=b"\xcb\xef\0\x03" + bytes(237), life=255), size))


@family("sim", 200)
def a_chain_of_routers(size):
    """units with a recording and a padding from a host to another over 62 routers and 63 subnetworks"""
    lines = [f"subnet n{at} 1500" for at in range(63)]
    lines += ["system a host hello=0", "address a 47002701", "port a 0 n0 aa"]
    lines += ["system b host hello=0", "address b 47002702", "port b 0 n62 bb"]
    for at in range(62):
        title = f"48{at:02x}"
        lines += [f"system r{at} router hello=0", f"address r{at} {title}", f"port r{at} 0 n{at} 01", f"port r{at} 1 n{at + 1} 02"]
        lines.append(f"route r{at} * 1 {'01' if at < 61 else 'bb'} {'48%02x' % (at + 1) if at < 61 else '47002702'}")
    options = "cb70" + "0003" + 110 * "00" + "cc64" + 100 * "00"
    events = [f"inject n0 01 es {ish(65_535, bytes([0x48, 0])).hex()}", "settle 1"]
    return scenario(lines, events + [f"send a 47002701 47002702 hex:00 life=255 opt={options}", "settle 63"] * size)


# ---- settles over many systems


@family("sim", 1_000, "sim")
def units_to_64_hosts(size):
    """64 hosts that know no router: each unit of one octet goes to all, and one takes it"""
    events = [f"send s{at % 64} 470026{at % 64:02x} 470026{(at + 7) % 64:02x} pat:1:0" for at in range(size)]
    return scenario(lan(64, "host"), events + settles(size))


@family("sim", 20_000)
def copies_for_the_last_of_64(size):
    """frames that are no PDU for the last of 64 systems on one subnetwork"""
    return scenario(lan(64, "host"), ["inject lan ff 003f 83"] * size + settles(size))


@family("sim", 20_000)
def copies_for_nobody(size):
    """64 routers with 8 ports each on 64 subnetworks, and copies that are for none of them"""
    return scenario(mesh(), ["inject n63 ff ee 83"] * size + settles(size))


def mesh():
    lines = [f"subnet n{at} 1500" for at in range(64)]
    for at in range(64):
        lines += [f"system r{at} router hello=0", f"address r{at} 48{at:02x}"]
        lines += [f"port r{at} {port} n{(8 * at + port) % 64} {at:02x}{port:02x}" for port in range(8)]
    return lines


@family("sim", 20_000)
def copies_for_the_last_of_512_ports(size):
    """the same, for the last port of the last router"""
    return scenario(mesh(), ["inject n63 ff 3f07 83"] * size + settles(size))


@family("sim", 500)
def copies_for_all_of_64(size):
    """frames that are no PDU for the group of 64 hosts"""
    return scenario(lan(64, "host"), ["inject lan ff es 83"] * size + settles(size))


@family("sim", 20)
def hellos_by_512_ports(size):
    """64 routers with 8 ports each, which all say hello in each second"""
    return scenario([line.replace("hello=0", "hello=1") for line in mesh()], ["tick 2", "settle 512"] * size)


@family("sim", 50)
def losses_of_nothing(size):
    """lines that lose 100,000 copies each where there are none"""
    return scenario(lan(64, "host"), ["lose 100000"] * size)


@family("sim", 50)
def settles_of_nothing(size):
    """lines that settle 100,000 copies each where there are none"""
    return scenario(lan(64, "host"), ["settle 100000"] * size)


@family("sim", 40_000)
def identifiers_used_up(size):
    """units of one octet of one host, more than there are identifiers, one of which is drawn for each"""
    return scenario(lan(1, "host"), ["send s0 47002600 49 hex:00"] * size)


@family("sim", 20_000)
def restarts_of_a_full_router(size):
    """restarts of the last of 64 routers that knew 1,024 end systems"""
    return scenario(ROUTERS, heard(range(1_024)) + ["settle 1024"] + ["restart s63"] * size)


@family("sim", 20_000)
def congestion_on_and_off(size):
    """a router is congested, and is so no longer"""
    return scenario(lan(64, "router"), ["congest s63 on", "congest s63 off"] * size)


@family("sim", 10_000, "sim")
def deliveries_of_one_copy(size):
    """one copy of 1,000 octets is delivered so many times"""
    return scenario(lan(2, "host"), ["send s0 47002600 47002601 pat:1000:0"] + ["deliver 1 s1"] * size)


@family("sim", 100, "sim")
def the_longest_frames(size):
    """units of 64,000 octets in one frame"""
    return scenario(lan(2, "host", mtu=65_535), ["send s0 47002600 47002601 pat:64000:0", "settle 1"] * size)


@family("sim", 100)
def echoes_of_long_data(size):
    """echo requests of 60,000 octets, which are answered"""
    return scenario(lan(2, "host", mtu=65_535), ["echo s0 47002600 47002601 pat:60000:0", "settle 2"] * size)


@family("sim", 40)
def replies_that_answer_none(size):
    """eight requests of 60,000 octets are pending, and replies come that differ from them in their last octet"""
    asked = ["echo s0 47002600 470026ff pat:60000:0"] * 8 + ["settle 8"]
    octets = bytes((at + at // 256) % 256 for at in range(59_999)) + b"\0"
    reply = pdu(bytes.fromhex("47002600"), bytes.fromhex("470026ff"), octets, kind=31)
    return scenario(lan(1, "host", mtu=65_535), asked + [f"inject lan ff 0000 {reply.hex()}"] * size + ["settle 1000"])


@family("sim", 500)
def echoes_in_a_loop(size):
    """echo requests for an address for which two routers send each other round, and their reports"""
    return scenario(ring(), ["echo one a1 99 hex:00", "settle 1000"] * size)


@family("sim", 500)
def reports_to_64_hosts(size):
    """frames that break a rule, each of which is reported, and the report goes to 64 hosts"""
    frame = pdu(bytes.fromhex("47002600"), bytes.fromhex("4700263f"), b"x", b"\xff\0", report=True)
    return scenario(lan(64, "host"), [f"inject lan ff 0000 {frame.hex()}"] * size + settles(2 * size))


@family("sim", 60)
def reports_in_a_loop(size):
    """units that go round until they are dropped, with reports that go round"""
    return scenario(ring(), round_and_round(pdu(b"\x47", b"\x48", life=255, report=True), size, 600))


# ---- networks that change


def changing(events, routes=()):
    """A text of version 2 with 64 routers that have a port on each of eight subnetworks."""
    lines = [f"subnet lan{at} 1500" for at in range(8)]
    for at in range(64):
        lines += [f"system s{at} router hello=0", f"address s{at} 470026{at:02x}"]
        lines += [f"port s{at} {port} lan{port} 00{at:02x}" for port in range(8)]
    return scenario([*lines, *routes], events).replace(b"clnp-sim 1\n", b"clnp-sim 2\nlimits 256 60 320 0\n", 1)


@family("sim", 20_000)
def ports_that_move(size):
    """the last port of the last of 64 routers with eight ports gets another address and back"""
    return changing(["port s63 7 lan7 ffff", "port s63 7 lan7 003f"] * size)


@family("sim", 20_000)
def mtus_that_change(size):
    """the MTU of a subnetwork on which 64 routers are, with seven other ports each, gets smaller and greater"""
    return changing(["mtu lan7 512", "mtu lan7 1500"] * size)


@family("sim", 15_000)
def routes_set_again(size):
    """a router with 256 routes of 40 digits is given one of them again, and one of no digits is set and removed"""
    routes = [f"route s63 {'47' * 19}{at:02x} 7 0000 47002600" for at in range(255)]
    return changing([f"route s63 {'47' * 19}fe 7 0001 47002601", "route s63 * 7 0001 47002601", "unroute s63 *"] * size, routes)


# ---- texts of scenarios


@family("sim", 40_000)
def events_of_the_last_of_long_names(size):
    """events that name the last of 64 systems, whose names have 16 letters and differ in the last two"""
    lines = [line.replace(" s", " abcdefghijklmn") for line in lan(64, "router") if not line.startswith("subnet")]
    names = {f"abcdefghijklmn{at}": f"abcdefghijklmn{at:02}" for at in range(64)}
    lines = [" ".join(names.get(word, word) for word in line.split(" ")) for line in lines]
    return scenario(["subnet lan 1500", *lines], ["congest abcdefghijklmn63 on"] * size)


@family("sim", 4_000_000)
def comments(size):
    """a text of so many octets, almost all of them comments"""
    return b"clnp-sim 1\n" + (b"# " + 97 * b"x" + b"\n") * (size // 100) + b"events\nend\n"


@family("sim", 4_000_000)
def empty_lines(size):
    """the same, of empty lines"""
    return b"clnp-sim 1\n" + size * b"\n" + b"events\nend\n"


@family("sim", 4_000_000)
def spaces_between_words(size):
    """the same, of spaces between two words"""
    return b"clnp-sim 1\nevents\ntick " + size * b" " + b"1\nend\n"


@family("sim", 4_000_000)
def a_number_with_zeros(size):
    """the same, of zeros before a number"""
    return b"clnp-sim 1\nevents\ntick " + size * b"0" + b"1\nend\n"


@family("sim", 40)
def data_in_digits(size):
    """units of 60,000 octets in hexadecimal digits, which are dropped since they may not be cut"""
    octets = random.Random(1).randbytes(60_000).hex()
    return scenario(lan(1, "host"), [f"send s0 47002600 49 hex:{octets} whole"] * size)


@family("sim", 4_000_000, status=3)
def refused_for_a_line_of_spaces(size):
    """a text whose last line has so many spaces and no word"""
    return b"clnp-sim 1\nevents\n" + size * b" " + b"\nend\n"


@family("sim", 4_000_000, status=3)
def refused_for_a_long_name(size):
    """a system whose name has so many letters"""
    return b"clnp-sim 1\nsystem " + size * b"a" + b" host\nevents\nend\n"


@family("sim", 2_000_000, status=3)
def refused_for_many_words(size):
    """an event of so many words"""
    return b"clnp-sim 1\nevents\nsettle" + size * b" 1" + b"\nend\n"


@family("sim", 200_000, status=3)
def refused_for_many_settings(size):
    """a system with so many settings"""
    return b"clnp-sim 1\nsystem a host" + size * b" hello=1" + b"\nevents\nend\n"


@family("sim", 2_000_000, status=3)
def refused_for_long_digits(size):
    """an injected frame of so many octets, more than there may be"""
    return scenario(lan(1, "host"), ["inject lan ff es " + max(size, 70_001) * "83"])


@family("sim", 40_000, status=3)
def refused_at_the_last_event(size):
    """64 systems and so many events, the last of which names a system that isn't declared"""
    return scenario(lan(64, "router"), ["congest s63 on"] * size + ["congest s64 on"])


@family("sim", 40_000, status=3)
def refused_at_the_last_settle(size):
    """64 systems and so many events, behind which too many copies are settled"""
    return scenario(lan(64, "router"), ["tick 1"] * size + ["settle 100000"] * 101)


@family("sim", 8_000, status=3)
def refused_at_the_last_route(size):
    """64 systems and so many routes, the last of which has a prefix again"""
    lines = lan(64, "router") + [f"route s{at % 64} {0x47 << 152 | at:040x} 0 ff 49" for at in range(size)]
    return scenario([*lines, lines[-1]], [])


@family("sim", 4_000_000, status=3)
def refused_for_systems_without_ports(size):
    """64 systems of which the last has no port, and behind them so many empty lines"""
    return scenario([line for line in lan(64, "host") if not line.startswith("port s63 ")] + size * [""], [])


@family("sim", 4_000_000, status=3)
def refused_for_want_of_an_end(size):
    """comments of so many octets, and no last line"""
    return b"clnp-sim 1\nevents\n" + (b"# " + 97 * b"x" + b"\n") * (size // 100)


# ---- captures, vectors and shown lines


def shown(options=(), data=b"", rest=b""):
    """A frame, and the line that shows it."""
    frame = pdu(TWO, ONE, data, b"".join(bytes([code]) + behind_length(value) for code, value in options)) + rest
    told = "".join(f" opt={code:02x}:{value.hex()}" for code, value in options)
    return frame.hex(), f"clnp dt - life=64 sum=0000 to=a2 from=a1{told} data={data.hex()} rest={rest.hex()}"


def shown_hello(addresses):
    told = "".join(f" addr={address.hex()}" for address in addresses)
    return esh(10, *addresses).hex(), f"esh hold=10 sum=0000{told} rest="


PADDED = shown(120 * [(0xCC, b"")])
ONE_PADDING = shown([(0xCC, bytes(239))])
ROUTE = shown([(0xC8, b"\0\x03" + 118 * b"\x01\xa1")])
RECORDING = shown([(0xCB, b"\0\xef" + 118 * b"\x01\xa1" + b"\0")])
LONG = shown(data=random.Random(2).randbytes(60_000))
LONG_REST = shown(rest=random.Random(3).randbytes(60_000))
SHORT = shown(data=b"x")
HELLO = shown_hello([bytes([1, at]) for at in range(81)])
REDIRECT = (rd(10, bytes(20), bytes(20), bytes(20)).hex(), f"rd hold=10 sum=0000 to={40 * '0'} via={40 * '0'} title={40 * '0'} rest=")
FORMS = [("paddings", PADDED, 10_000), ("one_padding", ONE_PADDING, 10_000), ("a_source_route", ROUTE, 10_000),
         ("a_recording", RECORDING, 10_000), ("long_data", LONG, 60), ("a_long_rest", LONG_REST, 60), ("short", SHORT, 100_000),
         ("hellos_of_81_addresses", HELLO, 10_000), ("redirects", REDIRECT, 40_000)]


def of_form(command, plain, prefix, part, line):
    """A family for each form of frame, of such a part of its frames, whose lines are made of a frame's digits and of the line that
    shows it."""
    for form, (digits, told), most in FORMS:
        size = int(most * part)
        def make(size, text=(line(digits, told) + "\n").encode()):
            return text * size
        make.__name__, make.__doc__ = f"{prefix}_{form}", f"{prefix} of frames: {form.replace('_', ' ')}"
        family(command, size, plain)(make)


of_form("show", "show", "captures", 1, lambda digits, told: digits)
of_form("check", None, "vectors", 0.5, lambda digits, told: f"{digits} => {told}")
of_form("pack", None, "packed", 0.8, lambda digits, told: told)


@family("show", 1_000_000, "show")
def captures_of_one_octet(size):
    """frames of one octet, which are alien"""
    return b"83\n" * size


@family("show", 200_000, "show")
def captures_of_a_wrong_checksum(size):
    """frames of 19 octets whose checksum is wrong"""
    return b"8113010a3c0013ce5804470027010447002702\n" * size


@family("show", 10_000, "show")
def captures_that_break_the_last_rule(size):
    """frames with 119 paddings and at last a reason, which no data unit has"""
    return (pdu(TWO, ONE, b"", 118 * b"\xcc\0" + b"\xc1\x02\x81\0").hex() + "\n").encode() * size


@family("show", 10_000, "show")
def captures_with_an_option_twice(size):
    """frames with 117 paddings between two priorities"""
    return (pdu(TWO, ONE, b"", b"\xcd\x01\x05" + 117 * b"\xcc\0" + b"\xcd\x01\x05").hex() + "\n").encode() * size


@family("show", 4_000_000, "show")
def captures_of_empty_lines(size):
    """so many empty lines"""
    return size * b"\n"


@family("show", 40_000, "show")
def captures_of_comments(size):
    """so many comments of 100 octets"""
    return (b"#" + 99 * b"x" + b"\n") * size


@family("show", 4_000_000, status=3)
def captures_of_a_line_of_spaces(size):
    """a line of so many spaces, which is refused"""
    return size * b" " + b"\n"


@family("show", 4_000_000, status=3)
def captures_of_a_line_too_long(size):
    """a line of so many digits, which is refused"""
    return max(size, 140_002) * b"8" + b"\n"


@family("show", 100_000, status=3)
def captures_refused_at_the_last_line(size):
    """so many frames, and a line of one digit"""
    return (SHORT[0] + "\n").encode() * size + b"8\n"


@family("check", 200_000)
def vectors_that_fail(size):
    """vectors of one octet, whose expected line is empty"""
    return b"83 => \n" * size


@family("check", 30)
def vectors_that_fail_at_the_last_digit(size):
    """vectors of 60,000 octets, whose expected line has another last digit"""
    digits, told = LONG
    return f"{digits} => {told[:-7]}0 rest=\n".encode() * size


@family("check", 4_000_000)
def vectors_of_spaces(size):
    """a vector whose expected line has so many spaces"""
    return b"83 => " + size * b" " + b"\n"


@family("check", 100_000, status=3)
def vectors_refused_at_the_last_line(size):
    """so many vectors, and a line without an arrow"""
    return b"83 => alien\n" * size + b"83\n"


@family("pack", 1_000_000, status=3)
def packed_with_too_many_options(size):
    """a line that almost shows a frame: it has so many empty paddings"""
    return SHORT[1].replace(" data=", max(size, 200) * " opt=cc:" + " data=").encode() + b"\n"


@family("pack", 1_000_000, status=3)
def packed_with_too_many_addresses(size):
    """the same of a hello: it has so many addresses"""
    return HELLO[1].replace(" rest=", max(size, 200) * " addr=01" + " rest=").encode() + b"\n"


@family("pack", 2_000_000, status=3)
def packed_with_too_much_data(size):
    """the same: it has so many octets of data"""
    return SHORT[1].replace("data=78", "data=" + max(size, 70_001) * "78").encode() + b"\n"


@family("pack", 4_000_000, status=3)
def packed_with_a_long_number(size):
    """the same: its lifetime has so many digits"""
    return SHORT[1].replace("life=", "life=" + size * "0").encode() + b"\n"


@family("pack", 60, status=3)
def packed_but_the_last_digit(size):
    """so many lines of 60,000 octets, and one whose last digit is in upper case"""
    return (LONG[1] + "\n").encode() * size + (LONG[1][:-7] + "A rest=\n").encode()


# ---- files of Ethernet captures


def pcap(records, link=1):
    header = struct.pack("<IHHiIII", 0xA1B2C3D4, 2, 4, 0, 0, 262_144, link)
    return header + b"".join(struct.pack("<IIII", 1, 0, len(frame), len(frame)) + frame for frame in records)


def ethernet(octets, length=None):
    head = bytes.fromhex("09002b0000040a0000000001") + struct.pack(">H", len(octets) + 3 if length is None else length)
    frame = head + b"\xfe\xfe\x03" + octets
    return frame + bytes(max(0, 60 - len(frame)))


LARGE = pdu(TWO, ONE, random.Random(4).randbytes(1_400))
RECORDS = [("empty_records", b"", 400_000), ("the_longest_records", bytes(262_144), 60), ("other_frames", bytes(60), 200_000),
           ("cut_frames", ethernet(SHORT[1].encode(), 1_500), 100_000), ("short_frames", ethernet(bytes.fromhex(SHORT[0])), 100_000),
           ("long_frames", ethernet(LARGE), 8_000), ("frames_of_paddings", ethernet(bytes.fromhex(PADDED[0])), 10_000),
           ("the_longest_padding", ethernet(bytes.fromhex(SHORT[0])) + bytes(262_000), 60)]


def of_records(command, plain, prefix):
    for form, frame, size in RECORDS:
        def make(size, frame=frame):
            return pcap([frame] * size)
        make.__name__, make.__doc__ = f"{prefix}_{form}", f"{prefix} {form.replace('_', ' ')}"
        family(command, size, plain)(make)


of_records("pcap-show", "pcap", "files_of")
of_records("pcap-lines", None, "lines_of")


@family("pcap-show", 200_000, status=3)
def files_of_another_link_type(size):
    """a file of another link type with so many records"""
    return pcap([bytes(60)] * size, 113)


@family("pcap-make", 100_000)
def made_of_short_frames(size):
    """lines of short PDUs"""
    return (f"1 es 0a0000000001 {SHORT[0]}\n".replace(" es ", " 09002b000004 ")).encode() * size


@family("pcap-make", 2_500)
def made_of_long_frames(size):
    """lines of PDUs of 1,413 octets"""
    return f"1 09002b000004 0a0000000001 {LARGE.hex()}\n".encode() * size


@family("pcap-make", 4_000_000)
def made_of_spaces(size):
    """a line with so many spaces between two words"""
    return b"1 " + size * b" " + f"09002b000004 0a0000000001 {SHORT[0]}\n".encode()


# ---- captured traffic with shares


def traffic(frames, shares=(), others="1024 16384 4194304 255"):
    lines = ["clnp-reassemble 1", f"others {others}", *shares, "frames"]
    return "\n".join([*lines, *(f"{moment} {frame.hex()}" for moment, frame in frames), "end", ""]).encode()


SOURCES = [bytes([0x47, 0, 0x28, at]) for at in range(64)]
SHARES = [f"share {source.hex()} 16 256 65536" for source in SOURCES]


@family("reassemble", 40_000, "reassemble")
def traffic_of_64_shares(size):
    """segments of 64 sources with a share each, units of three segments"""
    frames = [segment(at // 192 % 60_000, 8 * (at // 64 % 3), bytes(8), 24, source=SOURCES[at % 64]) for at in range(size)]
    return traffic([(at // 100, frame) for at, frame in enumerate(frames)], SHARES)


@family("reassemble", 40_000, "reassemble")
def traffic_of_the_last_share(size):
    """units of one segment of the last of 64 sources"""
    return traffic([(0, pdu(A, SOURCES[63], b"x"))] * size, SHARES)


@family("reassemble", 20_000, "reassemble")
def traffic_where_all_buffers_are_taken(size):
    """1,024 units open, and segments of others"""
    return traffic([(0, segment(at % 60_000, 0, bytes(8), 60_000)) for at in range(size)])


@family("reassemble", 8_000, "reassemble")
def traffic_without_neighbours(size):
    """segments of one octet of one unit, none beside another, in a random order"""
    return traffic([(0, segment(1, 4 * at, b"x", 4 * size)) for at in shuffled(range(size))])


@family("reassemble", 7, "reassemble")
def traffic_that_ends_at_once(size):
    """1,024 units of so many segments, which all end at one frame"""
    places = shuffled((unit, 4 * at) for unit in range(1_024) for at in range(size))
    frames = [(0, segment(unit, at, b"x", 4 * size, 10)) for unit, at in places]
    return traffic([*frames, (20, segment(1, 0, b"x", 4))])


@family("reassemble", 2_000, "reassemble")
def traffic_whole_beside_a_large_unit(size):
    """a unit of 15,000 kept segments, and beside it units of two segments that become whole"""
    frames = [segment(0, 4 * at, b"x", 60_000) for at in range(15_000)]
    frames += [segment(1 + at, offset, b"x", 2) for at in range(size) for offset in (0, 1)]
    return traffic([(0, frame) for frame in frames])


@family("reassemble", 40_000, "reassemble")
def traffic_that_is_no_pdu(size):
    """frames of one octet"""
    return traffic([(0, b"\x83")] * size)


@family("reassemble", 60, "reassemble")
def traffic_of_long_units(size):
    """units of 60,000 octets in one frame"""
    return traffic([(0, pdu(A, B, bytes(60_000)))] * size)


# ---- storms, which read nothing


@family("storm", 20, "storm")
def storms(size):
    """the storms of the seeds from 1 on, a process each"""
    return [str(seed) for seed in range(1, size + 1)]
