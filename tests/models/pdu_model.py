"""A plain model of the PDUs of CLNP and ES-IS: what octets spell, or the first rule that they break."""

TYPES = {"dt": 28, "er": 1, "erq": 30, "erp": 31}
KINDS = {number: kind for kind, number in TYPES.items()}

PADDING, SECURITY, SOURCE_ROUTE, RECORDING, QUALITY, PRIORITY, REASON = 0xCC, 0xC5, 0xC8, 0xCB, 0xC3, 0xCD, 0xC1
SUGGESTED_TIMER = 0xC6


class Broken(Exception):
    """A frame breaks a rule, and no rule before it: with this reason where it is of CLNP, and at this place."""

    def __init__(self, rule, reason, place):
        self.rule, self.reason, self.place = rule, reason, place


def want(holds, rule, reason, place):
    if not holds:
        raise Broken(rule, reason, place)


def sealed(header):
    """The header with its checksum."""
    length, octets = len(header), list(header[:7] + bytes(2) + header[9:])
    first = sum(octets) % 255
    second = sum((length - at) * octet for at, octet in enumerate(octets)) % 255
    octets[7] = ((length - 8) * first - second) % 255 or 255
    octets[8] = (second - (length - 7) * first) % 255 or 255
    return bytes(octets)


def is_right(header):
    """Whether a header's checksum isn't used or is right."""
    if 0 in header[7:9]:
        return not any(header[7:9])
    weighed = sum((len(header) - at) * octet for at, octet in enumerate(header))
    return sum(header) % 255 == 0 and weighed % 255 == 0


def value_of(octets):
    return int.from_bytes(octets, "big")


def field(header, place, least=1):
    """What stands behind the length octet at a place, and the place behind that, where it lies in the header."""
    length = header[place - 1] if place <= len(header) else -1
    if not least <= length <= 20 or place + length > len(header):
        return None
    return header[place:place + length], place + length + 1


def options_from(part, first):
    """The options that a part of a header spells, each with its place, and the place of one that doesn't fit."""
    found, at = [], 0
    while at < len(part):
        if at + 2 > len(part) or at + 2 + part[at + 1] > len(part):
            return found, first + at
        found.append((first + at, part[at], part[at + 2:at + 2 + part[at + 1]]))
        at += 2 + part[at + 1]
    return found, None


def titles_from(value):
    """The places of the titles that fill a value behind its kind and pointer, and the place behind them; no place where they
    don't fill it."""
    places, place = [], 3
    while place <= len(value):
        if not 1 <= value[place - 1] <= 20 or place + value[place - 1] > len(value):
            return places, None
        places.append(place)
        place += 1 + value[place - 1]
    return places, place


def is_of_kind(value):
    return len(value) >= 2 and value[0] in (0, 1)


def is_source_route(value):
    if not is_of_kind(value):
        return False
    places, end = titles_from(value)
    return end is not None and (value[1] in places or value[1] > len(value))


def is_recording(value):
    if not is_of_kind(value) or value[1] == 255:
        return is_of_kind(value)
    return 3 <= value[1] <= len(value) + 1 and titles_from(value[:value[1] - 1])[1] is not None


def has_format(value):
    return len(value) >= 1 and value[0] >> 6 != 0


FORMS = {
    RECORDING: is_recording, QUALITY: has_format,
    PRIORITY: lambda value: len(value) == 1, REASON: lambda value: len(value) == 2,
}


def judge_options(part, first, is_report):
    """Raises `Broken` where a part of a header that begins at this place isn't one of options."""
    options, misfit = options_from(part, first)
    want(misfit is None, 14, 0x04, misfit)
    codes = [code for _, code, _ in options]
    for at, (place, code, _) in enumerate(options):
        want(code == PADDING or code not in codes[:at], 15, 0x07, place)
    for place, code, _ in options:
        want(code in (PADDING, SECURITY, SOURCE_ROUTE, *FORMS), 16, 0xB0, place)
    for place, code, value in options:
        want(code != SECURITY or has_format(value), 17, 0xB2, place)
    for place, code, value in options:
        want(code != SOURCE_ROUTE or is_source_route(value), 18, 0x91, place)
    for place, code, value in options:
        want(code not in FORMS or FORMS[code](value), 19, 0x04, place)
    for place, code, _ in options:
        want(code != REASON or is_report, 20, 0x04, place)
    want(not is_report or REASON in codes, 20, 0x04, 5)


def is_options(part):
    """Whether a header of a PDU that is no error report may have these options."""
    try:
        judge_options(part, 1, False)
    except Broken:
        return False
    return True


def read_clnp(frame):
    """What a frame that begins with 0x81 spells, or `Broken`."""
    want(len(frame) >= 9, 1, 0x06, 0)
    length = frame[1]
    want(9 <= length <= 254, 2, 0x04, 2)
    want(length <= len(frame), 3, 0x06, 2)
    header, flags, segment_length = frame[:length], frame[4], value_of(frame[5:7])
    want(header[2] == 1, 4, 0xB1, 3)
    want(is_right(header), 5, 0x02, 0)
    want(flags & 31 in KINDS, 6, 0x04, 5)
    has_part, more = flags & 0x80 != 0, flags & 0x40 != 0
    want(has_part or not more, 7, 0x04, 5)
    destination = field(header, 10)
    want(destination is not None, 8, 0x04, 10)
    source = field(header, destination[1])
    want(source is not None, 9, 0x04, destination[1])
    place = source[1]
    want(not has_part or place + 5 <= length, 10, 0x04, place)
    want(segment_length >= length, 11, 0x04, 6)
    want(segment_length <= len(frame), 12, 0x06, 6)
    octets, identifier, offset, total = frame[length:segment_length], None, 0, segment_length
    if has_part:
        identifier, offset, total = (value_of(header[place - 1 + start:place + 1 + start]) for start in (0, 2, 4))
        end = offset + len(octets)
        want(total >= length and end <= total - length and more == (end != total - length), 13, 0x04, place + 4)
        place += 6
    kind = KINDS[flags & 31]
    judge_options(header[place - 1:], place, kind == "er")
    return {
        "kind": kind, "life": frame[3], "report": flags & 0x20 != 0, "more": more, "sum": header[7:9],
        "to": destination[0], "from": source[0], "id": identifier, "offset": offset, "total": total, "header": header,
        "options": header[place - 1:], "octets": octets, "rest": frame[segment_length:],
    }


def report_to(frame):
    """The address to which a dropped frame is reported, where it is: whether or not the frame breaks a rule."""
    if len(frame) < 9 or frame[0] != 0x81 or not 9 <= frame[1] <= min(254, len(frame)):
        return None
    if frame[4] & 0x20 == 0 or frame[4] & 31 == TYPES["er"]:
        return None
    header = frame[:frame[1]]
    destination = field(header, 10)
    source = destination and field(header, destination[1])
    return source and source[0]


def read_esis(frame):
    """What a frame that begins with 0x82 spells, or `Broken`."""
    want(len(frame) >= 9, 1, None, 0)
    length = frame[1]
    want(9 <= length <= 254, 2, None, 2)
    want(length <= len(frame), 3, None, 2)
    header = frame[:length]
    want(header[2] == 1, 4, None, 3)
    want(header[3] == 0, 5, None, 4)
    want(header[4] in (2, 4, 6), 6, None, 5)
    want(is_right(header), 7, None, 8)
    kind = {2: "esh", 4: "ish", 6: "rd"}[header[4]]
    if kind == "esh":
        want(length >= 10, 8, None, 10)
        fields, place, rule = header[9] * [1], 11, 8
    else:
        fields, place, rule = ([1], 10, 9) if kind == "ish" else ([1, 1, 0], 10, 10)
    found = []
    for least in fields:
        one = field(header, place, least)
        want(one is not None, rule, None, 10)
        found.append(one[0])
        place = one[1]
    options, misfit = options_from(header[place - 1:], place)
    want(misfit is None, 11, None, misfit)
    timers = [(at, value) for at, code, value in options if code == SUGGESTED_TIMER and kind == "ish"]
    for before, (at, value) in enumerate(timers):
        want(before == 0 and len(value) == 2, 12, None, at)
    return {
        "kind": kind, "hold": value_of(header[5:7]), "sum": header[7:9], "fields": found,
        "options": header[place - 1:], "suggested": value_of(timers[0][1]) if timers else 0, "rest": frame[length:],
    }


def shown_options(part):
    return "".join(f" opt={code:02x}:{value.hex()}" for _, code, value in options_from(part, 1)[0])


def shown(frame):
    """The line that shows a frame."""
    try:
        if frame[:1] == b"\x81":
            pdu = read_clnp(frame)
            flags = "".join(letter for letter, there in zip("sme", (pdu["id"] is not None, pdu["more"], pdu["report"])) if there)
            part = "" if pdu["id"] is None else f" id={pdu['id']:04x} off={pdu['offset']} total={pdu['total']}"
            return (f"clnp {pdu['kind']} {flags or '-'} life={pdu['life']} sum={pdu['sum'].hex()} to={pdu['to'].hex()}"
                    f" from={pdu['from'].hex()}{part}{shown_options(pdu['options'])} data={pdu['octets'].hex()}"
                    f" rest={pdu['rest'].hex()}")
        if frame[:1] == b"\x82":
            pdu = read_esis(frame)
            names = {"esh": len(pdu["fields"]) * ["addr"], "ish": ["title"], "rd": ["to", "via", "title"]}[pdu["kind"]]
            fields = "".join(f" {name}={octets.hex()}" for name, octets in zip(names, pdu["fields"]))
            return (f"{pdu['kind']} hold={pdu['hold']} sum={pdu['sum'].hex()}{fields}{shown_options(pdu['options'])}"
                    f" rest={pdu['rest'].hex()}")
    except Broken as broken:
        if broken.reason is None:
            return f"refused E{broken.rule} {broken.place:02x}"
        told = "report" if report_to(frame) is not None else "silent"
        return f"refused G{broken.rule} {broken.reason:02x} {broken.place:02x} {told}"
    return "alien"
