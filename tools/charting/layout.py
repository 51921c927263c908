"""Where all stands in a picture: the columns, and what each has below one another."""
import dataclasses
import re

from charting.trace import BEFORE, NOBODY, Copy, clipped, column_of

# ---- what is drawn


@dataclasses.dataclass
class Item:
    """What stands at one place of a column: what happened to a copy, or nothing of that kind, and what is noted then. Where the
    clock of its system is behind another one, its text says its moment first."""

    column: str
    moment: int
    word: str
    copy: Copy
    first: str
    notes: list
    is_behind: bool
    rows: list = dataclasses.field(default_factory=list)
    y: float = 0

    @property
    def stands_above(self):
        """Whether its text stands above its place, as where an arrow goes down from it."""
        return self.word in ("tx", "inject")


# how many notes stand below one another; behind them stands how many more there are
MOST_NOTES = 3
MOST_LETTERS = 42


def goes_on(before, column, line):
    """Whether a note belongs to the item before it: it is of the same system and moment, and not of what the scenario asks for,
    which no copy caused."""
    is_asked_for = re.match(r"\d+ \S+ (sent (dt|erq)|restart|congest|void|mtu|route|unroute|port)\b", line.text)
    return (before.column, before.moment) == (column, line.moment) and before.word in ("rx", "note") and not is_asked_for


def items_of(lines):
    """The items of some lines: notes that a system writes behind one another are one, with the copy that came before them."""
    items, clock = [], 0
    for line in lines:
        column, clock = column_of(line), max(clock, line.moment)
        is_behind = line.moment < clock
        before = items[-1] if items else None
        if line.copy is not None:
            items.append(Item(column, line.moment, line.word, line.copy, text_of_copy(line), [], is_behind))
        elif before and goes_on(before, column, line):
            before.notes.append(line.text)
        else:
            items.append(Item(column, line.moment, "note", None, "", [line.text], is_behind))
    for item in items:
        item.rows = rows_of(item)
    return items


def text_of_copy(line):
    """What stands behind the number of a copy."""
    if line.word == "tx":
        return f"{line.copy.kind} to {shortened(line.text.split(' ')[5])}"
    if line.word == "inject":
        return f"to {shortened(line.text.split(' ')[6])} on {line.text.split(' ')[4]}"
    return {"rx": "", "late": "late", "lost": "lost", "nobody": "for nobody"}[line.word]


def shortened(word):
    """A word, in its middle cut where it is long."""
    return word if len(word) <= 14 else f"{word[:6]}…{word[-6:]}"


def note_text(text):
    """What stands in the picture of a line: without moment and system."""
    return clipped(" ".join(shortened(word) for word in text.split(" ")[2:]), MOST_LETTERS)


def rows_of(item):
    """The rows of text of an item: each a copy's number or none, a text, and the lines of the trace that it stands for."""
    notes = [(note_text(text), [text]) for text in item.notes]
    if len(notes) > MOST_NOTES:
        behind = item.notes[MOST_NOTES - 1:]
        notes = notes[:MOST_NOTES - 1] + [(f"+ {len(behind)} more", behind)]
    rows = [("", text, lines) for text, lines in notes]
    if item.copy is not None:
        number = str(item.copy.number)
        if item.first or not notes:
            rows = [(number, clipped(item.first, MOST_LETTERS), [])] + rows
        else:
            rows[0] = (number, *notes[0])
    if item.is_behind:
        number, text, lines = rows[0]
        rows[0] = (number, f"({item.moment}) {text}".rstrip(), lines)
    return rows


def letters_of(row):
    """How many letters a row has."""
    number, text, _ = row
    return len(number) + (1 if number and text else 0) + len(text)


# ---- which column stands where


# so many columns are moved; more stand as they come up
MOST_MOVED = 24


def ways_between(items, columns):
    """How many arrows there are between two columns, for each pair."""
    ways = {column: {} for column in columns}
    for item in items:
        if item.word in ("rx", "late") and item.copy.name in ways and item.copy.name != item.column:
            for one, other in ((item.column, item.copy.name), (item.copy.name, item.column)):
                ways[one][other] = ways[one].get(other, 0) + 1
    return ways


def gain_of_exchange(ways, order, at):
    """By how much all arrows get shorter, counted in columns, where the columns at a place and behind it change places."""
    left, right = order[at], order[at + 1]
    gain = 0
    for one, sign in ((left, 1), (right, -1)):
        for other, count in ways[one].items():
            if other not in (left, right):
                gain += sign * count * (1 if order.index(other) > at else -1)
    return gain


def best_place(ways, order, at):
    """Where the column at a place would stand best, and by how much the arrows get shorter then."""
    best = (0, at)
    for step in (1, -1):
        there, gain, place = list(order), 0, at
        while 0 <= place + step < len(there):
            left = min(place, place + step)
            gain += gain_of_exchange(ways, there, left)
            there[left], there[left + 1] = there[left + 1], there[left]
            place += step
            best = max(best, (gain, place), key=lambda found: found[0])
    return best


def columns_in_order(items):
    """The columns, in the order in which they come up, moved while that makes the arrows shorter, and from left to right rather
    as they come up."""
    known = list(dict.fromkeys(item.column for item in items))
    order = list(known)
    ways, is_better = ways_between(items, order), len(order) <= MOST_MOVED
    while is_better:
        is_better = False
        for column in list(order):
            at = order.index(column)
            gain, place = best_place(ways, order, at)
            if gain > 0:
                order.insert(place, order.pop(at))
                is_better = True
    return min(order, order[::-1], key=lambda found: exchanges(found, known))


def exchanges(order, known):
    """How many pairs of an order stand the other way round than in another one."""
    places = [known.index(column) for column in order]
    return sum(one > other for at, one in enumerate(places) for other in places[at + 1:])


# ---- where all stands, in pixels

LETTER, ROW = 6.7, 13
# from a column to its text, and to the next column's half of its head
BESIDE, LEAST_WIDTH, LEAST_PICTURE = 11, 96, 420
LEFT, RIGHT, MARGIN = 62, 14, 12
# the least fall of an arrow, the gap before a moment, the height of names of columns, and about how far apart these are
LEAST_FALL, MOMENT_GAP, NAMES_HEIGHT, NAMES_APART = 12, 16, 24, 1000


class Layout:
    """Where columns, items, moments and names stand, below a height. Names of columns come again where that many pixels are
    passed."""

    def __init__(self, items, columns, places, top, apart):
        self.places, self.width, self.apart = places.of, places.width, apart
        self.items, self.moments, self.names = items, [], [top]
        self.bottom = {column: top + NAMES_HEIGHT for column in columns}
        self.last, self.sent = top + NAMES_HEIGHT, {}
        moment = None
        for item in items:
            if moment is None or item.moment > moment:
                moment = item.moment
                self.begin_moment(moment)
            self.put(item)
        self.names.append(self.lowest() + 10)
        self.height = self.lowest() + 10 + NAMES_HEIGHT + MARGIN

    def lowest(self):
        return max(self.bottom.values())

    def clear(self, y):
        """Nothing that comes stands above this."""
        self.bottom = {column: y for column in self.bottom}
        self.last = y

    def begin_moment(self, moment):
        self.repeat_names_where_due()
        y = self.lowest() + MOMENT_GAP / 2
        self.moments.append((moment, y))
        self.clear(y + 3)

    def repeat_names_where_due(self):
        if self.lowest() - self.names[-1] > self.apart:
            y = self.lowest() + 8
            self.names.append(y)
            self.clear(y + NAMES_HEIGHT)

    def put(self, item):
        """Gives an item its place: not above what came before it, below what stands in its column, and below where its copy was
        sent."""
        self.repeat_names_where_due()
        above, below = extent(item)
        y = max(self.last, self.bottom[item.column] + above)
        if not item.stands_above and item.copy is not None and item.copy.number in self.sent:
            y = max(y, self.sent[item.copy.number].y + LEAST_FALL)
        item.y = self.last = y
        self.bottom[item.column] = y + below
        if item.stands_above:
            self.sent[item.copy.number] = item


def laid_out(items, columns, places, top):
    """The layout in which the names of the columns come again evenly, where it is high."""
    height = Layout(items, columns, places, top, float("inf")).height
    return Layout(items, columns, places, top, height / max(round(height / NAMES_APART), 1) + 2 * NAMES_HEIGHT)


def extent(item):
    """How far an item goes above and below its place."""
    if item.stands_above:
        return ROW, 3
    height = len(item.rows) * ROW
    return (7, height - 4) if item.word == "note" else (3, height + 4)


class Places:
    """Where each column stands, and how wide the picture is."""

    def __init__(self):
        self.of, self.width = {}, 0


def places_of(items, columns):
    """Places for columns as wide as their text."""
    letters = {column: 0 for column in columns}
    for item in items:
        letters[item.column] = max([letters[item.column]] + [letters_of(row) for row in item.rows])
    places, x = Places(), LEFT
    for column in columns:
        half = head_width(column) / 2
        places.of[column] = round(x + max(half, 20), 1)
        x = places.of[column] + max(BESIDE + letters[column] * LETTER + 10, LEAST_WIDTH)
    places.width = max(round(x + RIGHT), LEAST_PICTURE)
    return places


def head_text(column):
    return {NOBODY: "outside", BEFORE: "before"}.get(column, column)


def head_width(column):
    return max(30, len(head_text(column)) * 7.4 + 16)
