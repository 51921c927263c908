"""Random frames from outside: right ones of a network's addresses, and ones that are cut, changed or of random octets."""
import random

from pdu_model import TYPES, sealed

HOLDS = [0, 0, 1, 1, 2, 3, 120, 65535]
MISFITS = ["cc", "cd", "cd01", "cd0205", "c50140", "c501ff", "c500", "c50100", "ff00", "c1028100", "c3010000", "c30108", "c80100",
           "c80203", "c8020103", "c802000a", "c807000304470027ff", "cb0200ff", "cb020003", "cb0300030b", "cb06000804470027",
           "cd0105cd0106", "cc00cc00", "cc0100c501c0", "c600", "e100"]


def behind_length(octets):
    return bytes([len(octets)]) + octets


def checked(header):
    """The header with its checksum, without one, or at times with a wrong one."""
    kind = random.random()
    if kind < 0.5:
        return sealed(header)
    return header if kind < 0.96 else header[:7] + random.randbytes(2) + header[9:]


def clnp(kind, destination, source, octets, part=None, more=False, options=b"", life=None):
    """A PDU; part is its identifier, offset and total length, where it has a segmentation part."""
    fields = behind_length(destination) + behind_length(source)
    fields += b"".join((value % 65536).to_bytes(2, "big") for value in part or ()) + options
    flags = (0x80 if part else 0) | (0x40 if more else 0) | random.choice([0, 0x20, 0x20]) | TYPES[kind]
    life = random.choice([0, 1, 2, 2, 3, 10, 64, 255]) if life is None else life
    length = (9 + len(fields)) % 256
    front = bytes([0x81, length, 1, life, flags]) + ((length + len(octets)) % 65536).to_bytes(2, "big") + bytes(2)
    return checked(front + fields) + octets


def esis(kind, hold, fields, options=b""):
    length = (9 + len(fields) + len(options)) % 256
    return checked(bytes([0x82, length, 1, 0, kind]) + hold.to_bytes(2, "big") + bytes(2) + fields + options)


def random_octets():
    return random.randbytes(random.choice([0, 0, 1, 2, 2, 2, 3, 8, 40, 300, 460, 600, 1470, 2000]))


class Outside:
    """What is known of a network by those who send it frames."""

    def __init__(self, there, snpas, known, everyone, leading):
        self.there, self.snpas, self.leading = there, snpas, leading
        self.known = {name: [bytes.fromhex(digits) for digits in known[name]] for name in known}
        self.everyone = [bytes.fromhex(digits) for digits in everyone]

    def someone(self):
        return random.choice(self.everyone)

    def line(self, frame, name=None):
        """The event that a frame comes to a system, mostly, from a system of its subnetwork, mostly."""
        name = name or random.choice(list(self.there))
        subnet = random.choice(self.there[name])
        others = [snpa for (_, other), snpa in self.snpas.items() if other == subnet]
        sender = random.choice(others) if random.random() < 0.8 else random.choice(["05", "0b", random.randbytes(20).hex()])
        target = self.snpas[name, subnet] if random.random() < 0.6 else random.choice(["es", "is", "es", "is", "06"])
        digits = (frame or b"\0").hex()
        return f"inject {subnet} {sender} {target} {digits if random.random() < 0.9 else digits.upper()}"

    def ends(self, name):
        """A destination, mostly an address of a system, and a source."""
        own = self.known[name]
        destination = random.choice(own) if own and random.random() < 0.7 else self.someone()
        return destination, self.someone() if random.random() < 0.9 else random.randbytes(random.randint(1, 20))

    def options(self):
        kind = random.random()
        if kind < 0.5:
            return b""
        return bytes.fromhex(self.leading()) if kind < 0.8 else bytes.fromhex(random.choice(MISFITS))

    def unit(self, name):
        """A PDU that is a whole unit, or a segment by itself."""
        destination, source = self.ends(name)
        kind, octets, options = random.choice(["dt", "dt", "er", "erq", "erp"]), random_octets(), self.options()
        if kind == "er" and random.random() < 0.9:
            reason = bytes([0xC1, 2, random.choice([0, 0x81, 0xA0, 255]), random.randrange(256)])
            options = options + reason if random.random() < 0.5 else reason + options
        if kind in ("erq", "erp") and random.random() < 0.5:
            octets = b"hi"
        part, more, length = None, False, 11 + len(destination) + len(source) + len(options)
        if random.random() < 0.4:
            total = length + 6 + len(octets) + random.choice([0, 0, 1, 1000])
            offset = random.choice([0, 0, max(0, total - length - 6 - len(octets)), 1])
            more = offset + len(octets) != total - length - 6
            more = more if random.random() < 0.95 else not more
            part = (random.randrange(3), offset, total)
        return clnp(kind, destination, source, octets, part, more, options)

    def reply(self, name):
        """An echo reply, of data that were perhaps asked for, or of a PDU that has them."""
        destination, source = self.ends(name)
        octets = random.choice([b"", b"hi", b"hi", b"ho"])
        if random.random() < 0.4:
            octets = clnp("erq", random.choice([source, destination]), destination, octets) + random.choice([b"", b"", b"\0"])
        return clnp("erp", destination, source, octets, life=random.choice([1, 64]))

    def segments(self, name):
        """Segments of one identifier, of a unit or of several that aren't alike."""
        destination, source = self.ends(name)
        data, length = random.randbytes(random.choice([4, 10, 60, 1000])), 17 + len(destination) + len(source)
        identifier, frames = random.randrange(4), []
        for _ in range(random.choice([2, 3, 5, 8])):
            start = random.choice([0, 0, random.randrange(len(data))])
            end = random.choice([len(data), random.randint(start, len(data))])
            kind = random.choice(["dt", "dt", "dt", "dt", "dt", "dt", "er", "erq"])
            options = random.choice([b"", b"", b"", b"", b"", b"\xcd\x01\x05", b"\xcc\x01\xff"])
            options += b"\xc1\x02\xa0\x01" if kind == "er" else b""
            grown = 0 if random.random() < 0.85 else random.randint(1, 9)
            part = (identifier, start, length + len(options) + len(data) + grown)
            frame = clnp(kind, destination, source, data[start:end], part, grown > 0 or end < len(data), options,
                         random.choice([1, 2, 5, 64, 255]))
            frames.append(frame + random.choice([b"", b"", b"", b"\xff", bytes(500)]))
        return frames

    def hello(self):
        """A hello or a redirect, mostly of systems of the network."""
        hold, kind = random.choice(HOLDS), random.choice([2, 2, 4, 4, 6, 6])
        suggestions = ["c6020001", "c6020003", "c6020000", "c602ffff", "c60103", "c6020001c6020002", "cd0105c6020002"]
        options = random.choice(["", "", "", "e104ffffff00e20100", "ff00", "c600", "cc", "cd02", random.choice(suggestions)])
        options = random.choice(suggestions) if kind == 4 and random.random() < 0.4 else options
        if kind == 2:
            count = random.choice([0, 1, 1, 1, 2, 3, 9])
            fields = bytes([count]) + b"".join(behind_length(self.someone()) for _ in range(count))
        elif kind == 4:
            fields = behind_length(self.someone())
        else:
            via = bytes.fromhex(random.choice(list(self.snpas.values())))
            title = random.choice([b"", b"", self.someone()])
            fields = behind_length(self.someone()) + behind_length(via) + behind_length(title)
        return esis(kind, hold, fields, bytes.fromhex(options))

    def redirected(self, name):
        """A hello of a router, and redirects of it that a host believes."""
        frames = [esis(4, random.choice([1, 2, 120]), behind_length(self.someone()))]
        for _ in range(random.choice([1, 2, 4])):
            via = bytes.fromhex(random.choice(list(self.snpas.values())))
            fields = behind_length(self.someone()) + behind_length(via) + behind_length(b"")
            frames.append(esis(6, random.choice(HOLDS), fields))
        lines = [self.line(frame, name).split(" ") for frame in frames]
        return [" ".join([*lines[0][:3], line[3] if line[3] == "es" else lines[0][3], line[4]]) for line in lines]

    def hostile(self, name):
        """Octets that few would send."""
        frame = random.choice([lambda: self.unit(name), self.hello, lambda: self.reply(name)])()
        kind = random.random()
        if kind < 0.35:
            return frame[:random.randrange(len(frame))]
        if kind < 0.75:
            octets = bytearray(frame)
            for _ in range(random.choice([1, 1, 2])):
                place = random.randrange(min(len(octets), random.choice([10, 40, 2000])))
                octets[place] = random.choice([0, 1, 2, 255, random.randrange(256)])
            if random.random() < 0.6:
                octets[7:9] = bytes(2)
            return bytes(octets)
        length = random.choice([1, 2, 8, 9, 12, 30, 254, 600])
        front = random.choice([b"", b"\x81", b"\x82", b"\x81\x09\x01", bytes([0x81, min(254, length)]), bytes([0x82, min(254, length), 1, 0])])
        return front + random.randbytes(length)

    def lines(self):
        """Events of frames that come, and some copies that go on."""
        name, kind = random.choice(list(self.there)), random.random()
        if kind < 0.25:
            lines = [self.line(frame, name) for frame in self.segments(name)]
        elif kind < 0.35:
            lines = self.redirected(name)
        else:
            forms = [lambda: self.unit(name), lambda: self.unit(name), lambda: self.reply(name), self.hello, self.hello, lambda: self.hostile(name)]
            frames = [random.choice(forms)() for _ in range(random.choice([1, 1, 2, 4]))]
            frames = [frame + random.choice([b"", b"", b"", b"", b"\0", random.randbytes(9)]) for frame in frames]
            lines = [self.line(frame, name) for frame in frames]
        if random.random() < 0.3:
            random.shuffle(lines)
        return lines + random.choice([["settle 2"], ["settle 8"], ["settle 8"], ["settle 40"], ["settle 40"], ["tick 1"], []])
