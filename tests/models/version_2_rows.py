#!/usr/bin/env python3
"""Texts of version 1, which run in version 2 as they did, beside the plain models; and why an identifier rests as long as it does
where clocks stand apart. What else texts of version 2 say is in tests/models/version_2_texts.py.

Each wanted journal was written from the rules. The worked examples of version 2 stand in tests/worked/, with which
tests/models/worked_examples.py compares the models.

usage: tests/models/version_2_rows.py
"""
from network_model import Network
from scenario_model import CODE_NAMES, Text, migrate, read
from version_2_texts import OLD_PAIR, SEND_LONG, SMALL_APART, changed, check_all_texts, compared, expect, text_of
from worked_examples import chosen


def pattern(length, start):
    """So many octets of a pattern, in digits."""
    return bytes((at + at // 256 + start) % 256 for at in range(length)).hex()


# Where Q is one less than L, R and twice S together, which no text may say, segments of two units fill one buffer at 9 of a's clock
# and 7 of b's, and b gets octets that nobody sent.
UNRESTED = (changed(SMALL_APART, ("limits 4 2 10 2", "limits 4 2 9 2")), [
    SEND_LONG, "restart a", "tick 4", "tick b 2", "deliver 1 b", "tick a 4", "tick 1", "send a 47002702 47002701 pat:1000:1",
    "deliver 5 b", "deliver 6 b",
], [
    "0 a sent dt 1 0000 47002702 47002701 1000", "0 a restart", "6 b held 0000 0 505",
    "9 a sent dt 2 0000 47002702 47002701 1000", "7 b held 0000 480 1010",
    f"7 b got 47002702 47002701 {pattern(1000, 0)[:960]}{pattern(1000, 1)[960:]}", "end 9 6",
])

# ---- texts of version 1, which run as they did, and in the same way as what they become in version 2

G, X = "4700278100000000000000000000000000000101", "470027c100000000000000000000000000000102"
R1, R2 = "4700278100000000000000000000000000000201", "470027c100000000000000000000000000000202"
OLD_SMALL_PAIR = changed(OLD_PAIR, ("lan 1500", "lan 512"))
REAL = f"""clnp-sim 1
subnet gnd 1500
subnet mid 1500
subnet air 512
system g host
system r1 router
system r2 router
system x host
address g {G}
address r1 {R1}
address r2 {R2}
address x {X}
port g 0 gnd 0a0000000001
port r1 0 gnd 0a0000000002
port r1 1 mid 0a0000000003
port r2 0 mid 0a0000000004
port r2 1 air 0a0000000005
port x 0 air 0a0000000006
route r1 470027c1 1 0a0000000004 {R2}
route r2 47002781 0 0a0000000003 {R1}
events
"""
AS_BEFORE = [
    ("segments-in-another-order-and-again", "sim", OLD_SMALL_PAIR, [
        SEND_LONG, *[f"deliver {copy} b" for copy in (3, 1, 1, 2, 1, 2, 3)],
    ], "without tx", [
        "0 a sent dt 1 0000 47002702 47002701 1000", "0 b held 0000 960 65", "0 b held 0000 0 570", "0 b repeat 0000 0",
        f"0 b got 47002702 47002701 {pattern(1000, 0)}", "0 b held 0000 0 505", "0 b held 0000 480 1010",
        f"0 b got 47002702 47002701 {pattern(1000, 0)}", "end 0 3",
    ]),
    ("quiet-after-a-restart-and-late", "sim", changed(OLD_SMALL_PAIR, ("clnp-sim 1\n", "clnp-sim 1\nlimits 4 2 6\n")), [
        "send a 47002702 47002701 pat:1000:0", "tick 1", "restart a", "tick 1", "send a 47002702 47002701 pat:1000:0", "tick 5",
        "send a 47002702 47002701 pat:1000:0", "deliver 1 b",
    ], "without tx", [
        "0 a sent dt 1 0000 47002702 47002701 1000", "1 a restart", "2 a refused quiet 7",
        "7 a sent dt 2 0000 47002702 47002701 1000", "7 b late 1", "end 7 6",
    ]),
    ("default-settings-over-two-routers", "sim", REAL, [
        "tick 1", "settle 100", f"send g {G} {X} pat:4000:1 opt=c501c0cd0105", "settle 100", f"echo g {G} {X} hex:70696e67",
        "settle 100",
    ], "kinds sent got echoed drop end", [
        f"1 g sent dt 1 0000 {G} {X} 4000", f"1 x got {G} {X} {pattern(4000, 1)}", f"1 g sent erq 2 - {G} {X} 4",
        f"1 x sent erp 1 - {X} {G} 4", f"1 g echoed {X} {G} 2", "end 1 33",
    ]),
]


class UnjudgedText(Text):
    """A text in which an identifier may rest for too short a time."""

    judges_rest = False


def lines_of(text, command, kind=Text):
    """The lines that a model writes of a text, or where and why it refuses it."""
    found = read(text.encode(), kind=kind)
    if not isinstance(found, Text):
        return [f"refused at line {found[0]}: {CODE_NAMES[found[1]]}"]
    network = Network(found)
    return (network.trace() if command == "trace" else network.journal())[0].splitlines()


def check_runs():
    for name, command, network, events, selection, wanted in AS_BEFORE:
        expect(name, chosen(lines_of(text_of(network, events), command), selection), wanted)
    for name, command, network, events, selection, wanted in AS_BEFORE:
        became = migrate(text_of(network, events).encode())
        expect(f"{name}, in version 2", chosen(lines_of(became, command), selection), wanted)
        expect(f"{name}, all lines", lines_of(became, "trace"), lines_of(text_of(network, events), "trace"))
    network, events, wanted = UNRESTED
    expect("too short a rest, not judged", chosen(lines_of(text_of(network, events), "sim", UnjudgedText), "without tx"), wanted)


def main():
    check_runs()
    check_all_texts()
    print(f"{len(compared)} worked examples of version 2: the models are right")


if __name__ == "__main__":
    main()
