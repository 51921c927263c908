"""What texts of version 2 say, beside the plain model of their grammar: what is just allowed, and what just not; the canonical
text; what a text of version 1 becomes. Networks of which tests/models/version_2_rows.py plays events are here too."""
import sys

from scenario_model import (
    COUNT, DUP_ADDRESS, DUP_NAME, HEADER, LIMITS, MTU, NUMBER, SYNTAX, Refused, Text, migrate, read, write,
)


def changed(text, *changes):
    """A text with some of it in another form."""
    for old, new in changes:
        assert old in text, f"{old!r} isn't in the text"
        text = text.replace(old, new)
    return text


def text_of(network, events):
    return network + "".join(line + "\n" for line in [*events, "end"])


compared = []


def expect(name, came, wanted):
    compared.append(name)
    if came != wanted:
        sys.exit("\n".join([f"{name}: the model says", *map(str, came if isinstance(came, list) else [came]),
                            "and should say", *map(str, wanted if isinstance(wanted, list) else [wanted])]))


# ---- networks

OLD_PAIR = """clnp-sim 1
subnet lan 1500
system a host hello=0
system b host hello=0
address a 47002702
address b 47002701
port a 0 lan 01
port b 0 lan 02
events
"""
PAIR = changed(OLD_PAIR, ("clnp-sim 1\n", "clnp-sim 2\nlimits 256 60 320 0\n"))
SMALL_PAIR = changed(PAIR, ("lan 1500", "lan 512"))

# two hosts with a router between them, which says the only hellos
ROUTER = """clnp-sim 2
limits 256 60 320 0
subnet one 1500
subnet two 1500
subnet three 1500
system a host hello=0
system r router
system b host hello=0
address a 47002702
address r 470027ff
address b 47002701
port a 0 one 01
port r 0 one 0a
port r 1 two 0b
port b 0 two 02
route r 47002701 1 02 47002701
route r 47002702 0 01 47002702
events
"""
# clocks that may stand 2 ticks apart
APART = ("limits 256 60 320 0", "limits 4 2 10 2")
SMALL_APART, ROUTER_APART = changed(SMALL_PAIR, APART), changed(ROUTER, APART)

# ---- a unit that is sent in many of them: of 1,000 octets, which may be cut

SEND_LONG = "send a 47002702 47002701 pat:1000:0 life=10"

# ---- canonical texts: a text of version 1, what it is in canonical form, and what it becomes

SETTINGS = "suggest=0 rhold=120 slots=16 segments=1024 budget=262144 neighbours=64 routers=8 redirects=64 life=64 checksum=on"
TICKING = f"""subnet lan 1500
system a host hello=0 {SETTINGS}
system b host hello=0 {SETTINGS}
address a 47002702
port a 0 lan 01 1
address b 47002701
port b 0 lan 02 1
events
tick 1
end
"""
WRITTEN = (OLD_PAIR + "tick 1\nend\n", "clnp-sim 1\nlimits 256 60 320\n" + TICKING, "clnp-sim 2\nlimits 256 60 320 0\n" + TICKING)

# each event of version 2, in a form that isn't the canonical one, and its canonical line
FORMS = [
    ("mtu one 0512", "mtu one 512"), ("route r 4.8A 01 0.C 4700.27FF", "route r 48a 1 0c 470027ff"),
    ("route r . 1 0c 470027ff", "route r * 1 0c 470027ff"), ("unroute  r 48.A", "unroute r 48a"), ("unroute r .", "unroute r *"),
    ("port b 00 one 0.D", "port b 0 one 0d"), ("tick b 02", "tick b 2"), ("tick 03", "tick 3"),
    ("send a 4700.2702 47002701 pat:07:1 whole opt=C501C0 noreport life=010",
     "send a 47002702 47002701 pat:7:1 life=10 noreport whole opt=c501c0"),
    ("send a 47002702 47002701 hex:AB opt=", "send a 47002702 47002701 hex:ab life=64"),
    ("echo r 470027ff 47002702 hex:", "echo r 470027ff 47002702 hex:"), ("deliver 07 b", "deliver 7 b"),
    ("settle 05", "settle 5"), ("lose 1", "lose 1"), ("restart r", "restart r"), ("congest r off", "congest r off"),
    ("inject two 0.1 es FF", "inject two 01 es ff"), ("inject two 01 0.B 0aff", "inject two 01 0b 0aff"),
]

# ---- texts at the bounds of what is allowed: a network and events; those of one kind that are refused stand in the data of
# worked examples

OLD_ROUTER = changed(ROUTER, ("clnp-sim 2\nlimits 256 60 320 0\n", "clnp-sim 1\n"))
ALLOWED = [
    (ROUTER, ["port b 0 two 02"]), (ROUTER, ["port b 0 two 03", "port a 0 two 02"]),
    (ROUTER, ["port b 0 one 02", "port r 1 two 02"]), (ROUTER, ["port r 1 three 0b", "port r 0 two 0a"]),
    (ROUTER, ["route r 47002701 0 01 470027ff", "unroute r 48"]), (ROUTER_APART, ["tick a 2", "tick r 2", "tick b 4"]),
    (ROUTER_APART, ["tick a 2", "tick b 1", "tick r 1", "tick a 1"]),
    (ROUTER_APART, [*15 * ["tick 65535"], "tick 16974", "tick a 1"]),
    (ROUTER, ["mtu one 512", "mtu one 65535", "mtu one 0000000001500"]),
]
# declarations: a whole text, its bad line and that one's code, or nothing where it is right
DECLARED = [
    (changed(ROUTER, ("60 320 0", "60 320 2")), None, None), (changed(ROUTER, ("60 320 0", "60 320 3")), 2, LIMITS),
    (changed(ROUTER, ("60 320 0", "60 8508 4096")), None, None), (changed(ROUTER, ("60 320 0", "60 8507 4096")), 2, LIMITS),
    (changed(ROUTER, ("60 320 0", "60 16384 4097")), 2, NUMBER), (changed(ROUTER, ("60 320 0", "60 320 x")), 2, NUMBER),
    (changed(ROUTER, ("60 320 0", "60 320")), 2, SYNTAX), (changed(ROUTER, ("60 320 0", "60 320 0 0")), 2, SYNTAX),
    (changed(OLD_ROUTER, ("clnp-sim 1\n", "clnp-sim 1\nlimits 256 60 320 0\n")), 2, SYNTAX),
    (changed(SMALL_APART, ("4 2 10 2", "4 2 9 2")), 2, LIMITS), (changed(ROUTER, ("clnp-sim 2", "clnp-sim 3")), 1, HEADER),
    # once, anywhere among the declarations; again is judged before whether the numbers fit
    (changed(ROUTER, ("limits 256 60 320 0\n", ""), ("events", "limits 256 60 320 0\nevents")), None, None),
    (changed(ROUTER, ("events", "limits 9 9 9 9\nevents")), 18, DUP_NAME),
    # none: at the line of the events, and before what else is wrong there
    (changed(ROUTER, ("limits 256 60 320 0\n", "")), 17, SYNTAX),
    (changed(ROUTER, ("limits 256 60 320 0\n", ""), ("address a 47002702\n", "")), 16, SYNTAX),
    (changed(ROUTER, ("address a 47002702\n", "")), 17, COUNT),
]

# routes up to as many as a router may have, and one more: events, and the code of the last one, if it has one
ROUTES = [f"route r 48{at:02x} 1 02 48" for at in range(254)]
MANY_ROUTES = [
    (ROUTES, None), ([*ROUTES, "route r 49 1 02 48"], COUNT),
    # one that is set again is none more, and one that wasn't there none less
    ([*ROUTES, "route r 4800 0 01 49"], None), ([*ROUTES, "route r 4800 0 01 49", "route r 49 1 02 48"], COUNT),
    ([*ROUTES, "unroute r 49", "route r 49 1 02 48"], COUNT), ([*ROUTES, "unroute r 4801", "route r 49 1 02 48"], None),
]
# behind 100,000 events there may be none more; what else is wrong with a line comes first
ONE_TOO_MANY = [
    ("mtu one 512", COUNT), ("mtu one 511", MTU), ("route r 48 1 02 48", COUNT), ("unroute r 48", COUNT),
    ("port b 0 one 02", COUNT), ("port b 0 one 01", DUP_ADDRESS), ("port r 0 two 0a", DUP_NAME), ("tick b 1", LIMITS),
    ("tick 1", COUNT), ("tick b", NUMBER),
]


# ---- comparing

def check_texts():
    old, canonical, became = WRITTEN
    expect("canonical text of version 1", write(read(old.encode())), canonical)
    expect("a text that becomes one of version 2", migrate(old.encode()), became)
    expect("that text", write(read(became.encode())), became)
    expect("a text of version 2 doesn't become one", migrate(became.encode()), (1, HEADER))
    network = changed(ROUTER, ("60 320 0", "60 330 5"))
    written = write(read(text_of(network, [form for form, _ in FORMS]).encode()))
    expect("canonical lines of events", written.split("events\n")[1].splitlines(), [*(line for _, line in FORMS), "end"])
    expect("canonical text of version 2", write(read(written.encode())), written)


def judged(text):
    found = read(text.encode())
    return None if isinstance(found, Text) else found


def check_bounds():
    for network, events in ALLOWED:
        expect(events[-1], judged(text_of(network, events)), None)
    for text, line, code in DECLARED:
        expect(f"line {line}", judged(text_of(text, [])), line and (line, code))
    for events, code in MANY_ROUTES:
        expect(f"{len(events)} events", judged(text_of(ROUTER, events)), code and (len(ROUTER.splitlines()) + len(events), code))


def check_most_events():
    full = read(text_of(ROUTER, 100_000 * ["settle 1"]).encode())
    for line, code in ONE_TOO_MANY:
        keyword, *words = line.encode().split(b" ")
        try:
            came = full.event(keyword, words)
        except Refused as refused:
            came = refused.code
        expect(f"{line} behind 100,000 events", came, code)


def check_all_texts():
    check_texts()
    check_bounds()
    check_most_events()
