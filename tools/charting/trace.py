"""Reads traces: the lines of a run, and the copies that they tell of."""
import dataclasses
import re

# the name of nobody in a trace, which has the column of what comes from outside and of what changes a subnetwork; and who sent
# copies before the first line
NOBODY, BEFORE = "-", "?"
# how many letters of a line are told
MOST_TOLD = 400


class Fault(Exception):
    """What is wrong, with the status with which the program ends: 1 for what it reads or writes, 2 for its words."""

    def __init__(self, status, text):
        super().__init__(text)
        self.status = status


@dataclasses.dataclass
class Copy:
    """A frame on its way: where it was sent, and what became of it."""

    number: int
    moment: int
    name: str
    kind: str
    told: str
    frame: str = ""
    fates: list = dataclasses.field(default_factory=list)


@dataclasses.dataclass
class Line:
    """A line of a trace: its moment, the system, what it is of, the copy where it tells of one, and its whole text."""

    moment: int
    name: str
    word: str
    copy: Copy
    text: str


# the lines that tell of a copy, or of a subnetwork: their form, and how they are said to an author of a bad one
NAME = r"[a-z][a-z0-9]{0,15}"
TARGET = r"es|is|(?:[0-9a-f]{2}){1,20}"
FORMS = {
    "tx": (rf"(?P<copy>\d+) (?P<port>[0-7]) (?P<to>{TARGET}) (?P<hex>(?:[0-9a-f]{{2}})+)", "T NAME tx COPY PORT TARGET HEX"),
    "rx": (r"(?P<copy>\d+) [0-7]", "T NAME rx COPY PORT"),
    "late": (r"(?P<copy>\d+)", "T NAME late COPY"),
    "lost": (r"(?P<copy>\d+)", "T - lost COPY"),
    "nobody": (r"(?P<copy>\d+)", "T - nobody COPY"),
    "inject": (rf"(?P<copy>\d+) (?P<subnet>{NAME}) (?P<sender>\S+) (?P<to>{TARGET})", "T - inject COPY SUBNET FROM TO"),
    "mtu": (rf"{NAME} \d+", "T - mtu SUBNET MTU"),
}
OF_NO_SYSTEM = ("lost", "nobody", "inject", "mtu")
FATES = {"rx": "came to {name}", "late": "too late for {name}", "lost": "lost", "nobody": "for nobody"}


class Trace:
    """The lines of a trace and the copies that they tell of. Each system has a clock of its own, as far as it was told."""

    def __init__(self):
        self.lines, self.copies, self.unsent, self.end, self.clocks = [], {}, {}, None, {}

    def take(self, place, text):
        """Takes the line at a place, from 1."""
        if not re.fullmatch(r"[ -~]*", text):
            raise Fault(1, f"line {place}: an octet is no letter, digit or sign of a trace")
        if self.end is not None:
            raise Fault(1, f"line {place}: nothing stands behind the line {self.end!r}")
        if re.fullmatch(r"end \d+ \d+", text):
            self.end = text
            return
        found = re.fullmatch(rf"(\d+) ({NAME}|-) ([a-z]+)(?: (.*))?", text)
        if not found:
            raise Fault(1, f"line {place}: {clipped(text, 40)!r} is no line of a trace; wanted: T NAME WORD, with more words")
        moment, name, word, rest = int(found[1]), found[2], found[3], found[4] or ""
        if (word in OF_NO_SYSTEM) != (name == NOBODY):
            raise Fault(1, f"line {place}: {word!r} doesn't stand behind {name!r}; wanted: {form_of(word)}")
        if moment < self.clocks.get(name, 0):
            raise Fault(1, f"line {place}: the moment {moment} is before that of the line of {name!r} before it")
        self.clocks[name] = moment
        copy = self.copy_of(place, moment, name, word, rest) if word in FORMS else None
        self.lines.append(Line(moment, name, word, copy, text))

    def copy_of(self, place, moment, name, word, rest):
        """The copy of which a line tells; none where it tells of a subnetwork."""
        form, wanted = FORMS[word]
        found = re.fullmatch(form, rest)
        if not found:
            raise Fault(1, f"line {place}: {clipped(word + ' ' + rest, 40)!r} has another form; wanted: {wanted}")
        if "copy" not in found.groupdict():
            return None
        number = int(found["copy"])
        if word in ("tx", "inject"):
            return self.sent(place, moment, name, number, found)
        copy = self.copies.get(number)
        if copy is None:
            self.unsent.setdefault(number, place)
            copy = self.copies[number] = Copy(number, moment, BEFORE, "unknown", "sent before the first line")
        copy.fates.append(f"{FATES[word].format(name=name)} at {moment}")
        return copy

    def sent(self, place, moment, name, number, found):
        """A copy that a line says was sent."""
        if number in self.unsent:
            raise Fault(1, f"line {place}: the copy {number} is sent here and came before, at line {self.unsent[number]}")
        if number in self.copies:
            raise Fault(1, f"line {place}: the copy {number} was sent before")
        words = found.groupdict()
        if "hex" in words:
            told = f"sent by {name} at {moment}, by its port {words['port']} to {words['to']}"
            copy = Copy(number, moment, name, kind_of(words["hex"]), told, words["hex"])
        else:
            told = f"from outside at {moment}, on {words['subnet']} from {words['sender']} to {words['to']}"
            copy = Copy(number, moment, NOBODY, "outside", told)
        self.copies[number] = copy
        return copy


def form_of(word):
    """The form of a line of this word."""
    return FORMS[word][1] if word in FORMS else "T NAME " + word


def clipped(text, most):
    """A text, cut where it has more letters."""
    return text if len(text) <= most else text[:most - 1] + "…"


def kind_of(frame):
    """The kind of a frame that a system sent, by which it has its colour."""
    octets = bytes.fromhex(frame[:10])
    if octets[0] != 0x81 or len(octets) < 5:
        return "redirect" if len(octets) == 5 and octets[4] & 31 == 6 else "hello"
    kind = {1: "report", 30: "echo", 31: "echo"}.get(octets[4] & 31, "data")
    return "segment" if kind == "data" and octets[4] & 0x80 and is_part(frame, octets[4]) else kind


def is_part(frame, flags):
    """Whether a data PDU with a segmentation part is one of several of its unit: more follows, or its offset isn't 0."""
    octets = bytes.fromhex(frame[:120])
    place = 10 + octets[9] if len(octets) > 9 else len(octets)
    offset = place + 1 + octets[place] + 2 if place < len(octets) else len(octets)
    return bool(flags & 0x40) or any(octets[offset:offset + 2])


def read_trace(octets):
    """The trace that these octets are."""
    trace, lines = Trace(), octets.decode("latin-1").split("\n")
    for place, line in enumerate(lines[:-1] if lines[-1] == "" else lines, 1):
        trace.take(place, line.removesuffix("\r"))
    if not trace.lines:
        raise Fault(1, "the trace has no line that tells of a system")
    return trace


def column_of(line):
    """The column in which a line stands: what is told of nobody stands where its copy was sent."""
    return line.copy.name if line.copy and line.name == NOBODY else line.name
