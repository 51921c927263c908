#!/usr/bin/env python3
"""Compares `pcap-show`, `pcap-lines` and `pcap-make` of the built program with a plain model, on files at every bound: both
magic numbers in both orders of octets, each fault at each place of header and record, each cut, frames at each bound of
their length, and lines of every code; and on random files, changed and cut.

usage: tests/gate/pcap.py [PROGRAM] [RANDOM]     PROGRAM is the built program, RANDOM how many random files
"""
import os
import random
import struct
import subprocess
import sys

ROOT = os.path.abspath(os.path.join(os.path.dirname(__file__), "..", ".."))
GROUPS = {"09002b000004": "es", "09002b000005": "is"}
HELLO = bytes.fromhex("820f0100020078324b010447002702")
NAMES = {2: "syntax", 3: "number", 4: "address", 10: "count", 11: "magic", 12: "version", 13: "link-type", 14: "record-length", 15: "cut-file"}
TO, FROM = bytes.fromhex("09002b000005"), bytes.fromhex("0a0000000001")


# ---- the model

def seen(frame):
    """What is in a frame: "other", "cut", or destination, source and PDU."""
    if len(frame) < 17 or frame[14:17] != b"\xfe\xfe\x03":
        return "other"
    length = frame[12] * 256 + frame[13]
    if not 3 <= length <= 1500:
        return "other"
    if len(frame) < 14 + length:
        return "cut"
    return frame[:6], frame[6:12], frame[17:14 + length]


def word(station):
    return GROUPS.get(station.hex(), station.hex())


def records(octets):
    """The records of a file, each with its seconds and its frame, and the line and the code of the first fault."""
    came = []
    if len(octets) < 24:
        return came, (0, 15)
    order = {b"\xa1\xb2\xc3\xd4": ">", b"\xa1\xb2\x3c\x4d": ">", b"\xd4\xc3\xb2\xa1": "<", b"\x4d\x3c\xb2\xa1": "<"}.get(octets[:4])
    if order is None:
        return came, (0, 11)
    if struct.unpack(order + "HH", octets[4:8]) != (2, 4):
        return came, (0, 12)
    if struct.unpack(order + "I", octets[20:24])[0] % 65536 != 1:
        return came, (0, 13)
    at = 24
    while at < len(octets):
        if len(octets) >= at + 12 and struct.unpack(order + "I", octets[at + 8:at + 12])[0] > 262144:
            return came, (len(came) + 1, 14)
        if len(octets) < at + 16:
            return came, (len(came) + 1, 15)
        seconds, _, size, _ = struct.unpack(order + "IIII", octets[at:at + 16])
        if len(octets) < at + 16 + size:
            return came, (len(came) + 1, 15)
        came.append((seconds, octets[at + 16:at + 16 + size]))
        at += 16 + size
    return came, None


def shown(octets, show):
    """What `pcap-show` writes; `show` gives the line of a PDU."""
    came, fault = records(octets)
    lines = []
    for number, (_, frame) in enumerate(came, 1):
        what = seen(frame)
        lines.append(f"{number} {what}" if isinstance(what, str) else f"{number} {word(what[0])} {what[1].hex()} {show(what[2])}")
    return "".join(line + "\n" for line in lines).encode(), fault


def remade(octets):
    """What `pcap-lines` writes."""
    came, fault = records(octets)
    lines = []
    for number, (seconds, frame) in enumerate(came, 1):
        what = seen(frame)
        if not isinstance(what, str) and not what[2]:
            what = "empty"
        lines.append(f"# {number} {what}" if isinstance(what, str) else f"{seconds} {word(what[0])} {what[1].hex()} {what[2].hex()}")
    return "".join(line + "\n" for line in lines).encode(), fault


def station(text):
    digits = text.replace(b".", b"")
    try:
        octets = bytes.fromhex(digits.decode("ascii"))
    except ValueError:
        return None
    return octets if len(octets) == 6 and len(digits) == 12 else None


def made(text):
    """What `pcap-make` writes."""
    out = struct.pack(">IHHIIII", 0xA1B2C3D4, 2, 4, 0, 0, 262144, 1)
    for number, line in enumerate(text.split(b"\n")[:-1] if text.endswith(b"\n") else text.split(b"\n") if text else [], 1):
        if not line or line.startswith(b"#"):
            continue
        words = line.split(b" ")
        words = [each for each in words if each]
        if len(words) != 4:
            return out, (number, 2)
        if not words[0].isdigit() or int(words[0]) >= 2 ** 32:
            return out, (number, 3)
        to = {b"es": bytes.fromhex("09002b000004"), b"is": bytes.fromhex("09002b000005")}.get(words[1]) or station(words[1])
        source = station(words[2])
        if to is None or source is None:
            return out, (number, 4)
        try:
            pdu = bytes.fromhex(words[3].decode("ascii"))
        except ValueError:
            return out, (number, 4)
        if len(pdu) > 1497:
            return out, (number, 10)
        frame = to + source + struct.pack(">H", len(pdu) + 3) + b"\xfe\xfe\x03" + pdu
        frame += bytes(max(0, 60 - len(frame)))
        out += struct.pack(">IIII", int(words[0]), 0, len(frame), len(frame)) + frame
    return out, None


# ---- the table

def header(order=">", magic=0xA1B2C3D4, major=2, minor=4, link=1, snap=262144):
    return struct.pack(order + "IHHiIII", magic, major, minor, 0, 0, snap, link)


def record(frame, order=">", seconds=0, length=None):
    return struct.pack(order + "IIII", seconds, 0, len(frame) if length is None else length, len(frame)) + frame


def frame(pdu=HELLO, length=None, to=TO, fill=60):
    octets = to + FROM + struct.pack(">H", len(pdu) + 3 if length is None else length) + b"\xfe\xfe\x03" + pdu
    return octets + bytes(max(0, fill - len(octets)))


def table():
    """Files, by what they try."""
    for order in "><":
        for magic in (0xA1B2C3D4, 0xA1B23C4D):
            first = header(order, magic)
            yield first + record(frame(), order) + record(b"", order) + record(frame(to=FROM), order, 2 ** 32 - 1)
            for fault in (header(order, magic + 1), header(order, magic, major=3), header(order, magic, minor=3), header(order, magic, link=113),
                          header(order, magic, link=0x10001), header(order, magic, snap=16)):
                yield fault
                yield fault + record(frame(), order)
            for before in range(3):
                behind = first + record(frame(), order) * before
                yield behind + record(frame(), order, length=262145)
                yield behind + record(frame(), order, length=2 ** 32 - 1)[:12]
                whole = behind + record(frame(), order)
                for cut in list(range(len(behind), len(whole))):
                    yield whole[:cut]
    for cut in range(25):
        yield header()[:cut]
    yield header() + record(bytes(262144))
    for length in (2, 3, 4, 1500, 1501):
        for there in (16, 17, 18, 60, 1514):
            yield header() + record((frame(bytes(1497), length))[:there])
    yield header() + record(frame(b"", fill=0)) + record(frame(b"")) + record(frame(HELLO, fill=1514))
    yield b"\x0a\x0d\x0d\x0a" + bytes(24)


def texts():
    """Lines of frames, by what they try."""
    good = b"0 is 0a0000000001 820f0100020078324b010447002702"
    yield b""
    yield good
    yield good + b"\n# a remark\n\n" + good.replace(b"0 is", b"4294967295  09.00.2b000004 ") + b"\n"
    for bad in (b"0 is 0a0000000001", good + b" 00", b"4294967296" + good[1:], b"-1" + good[1:], b"x" + good[1:], good.replace(b"is", b"os"),
                good.replace(b"is", b"0a00000001"), good.replace(b"0a00", b"es"), good.replace(b"0a0000000001", b"0a000000000102"), good + b"0",
                good + b"0g", b"0 es 0a0000000001 " + b"00" * 1498, b"1 x 0a0000000001 zz", b" "):
        yield good + b"\n" + bad + b"\n" + good + b"\n"
    yield b"0 es 0a0000000001 " + b"00" * 1497 + b"\n"


def changed(random_source, octets):
    octets = bytearray(octets)
    for _ in range(random_source.randrange(3)):
        if octets:
            octets[random_source.randrange(min(len(octets), 200))] = random_source.randrange(256)
    return bytes(octets[:random_source.randrange(len(octets) + 1)] if random_source.random() < 0.3 else octets)


# ---- the program

def run(program, command, octets):
    came = subprocess.run([program, command], input=octets, capture_output=True)
    return came.stdout, came.returncode, came.stderr


def check(program, command, octets, wanted, fault):
    written, number, said = run(program, command, octets)
    told = f"clnp: bad input at line {fault[0]}: {NAMES[fault[1]]}\n".encode() if fault else b""
    if written != wanted or number != (3 if fault else 0) or not said.startswith(told):
        sys.exit(f"{command} of {octets[:200].hex()}: {number}, {said!r}, {written[:400]!r}; wanted {fault}, {wanted[:400]!r}")


def main():
    program = sys.argv[1] if len(sys.argv) > 1 else os.path.join(ROOT, "crates/clnp_tool/out/clnp_tool")
    count = int(sys.argv[2]) if len(sys.argv) > 2 else 200
    source = random.Random(8473)
    lines = {}

    def show(pdu):
        if pdu not in lines:
            lines[pdu] = run(program, "show", pdu.hex().encode() + b"\n")[0].decode().rstrip("\n") if pdu else "alien"
        return lines[pdu]

    files = list(table())
    files += [changed(source, source.choice(files)) for _ in range(count)]
    for octets in files:
        check(program, "pcap-show", octets, *shown(octets, show))
        lines_written, fault = remade(octets)
        check(program, "pcap-lines", octets, lines_written, fault)
        check(program, "pcap-make", lines_written, *made(lines_written))
    for text in texts():
        check(program, "pcap-make", text, *made(text))
    print(f"{len(files)} files and {len(list(texts()))} texts: the same as the model")


if __name__ == "__main__":
    main()
