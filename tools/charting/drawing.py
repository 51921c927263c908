"""Draws what has its place, as the text of an SVG picture."""
import xml.sax.saxutils

from charting.layout import BESIDE, LETTER, MARGIN, ROW, head_text, head_width, laid_out, letters_of, places_of
from charting.trace import BEFORE, MOST_TOLD, NOBODY, clipped

COLOURS = {
    "data": "#0b5cad", "segment": "#00796b", "echo": "#7b3fb5", "report": "#c62828", "hello": "#6b7280", "redirect": "#b45309",
    "outside": "#6d4c41", "unknown": "#37474f",
}
# above so many copies the picture says how to draw a part
MANY_COPIES = 300
NAMES_OF_KINDS = {
    "data": "data", "segment": "segment", "echo": "echo", "report": "error report", "hello": "hello", "redirect": "redirect",
    "outside": "from outside", "unknown": "sent before",
}
INK, GREY, PALE = "#1f2933", "#9aa5b1", "#d7dde3"


def escaped(text):
    return xml.sax.saxutils.escape(text)


def number(value):
    """A number as SVG has it, without needless digits."""
    return f"{value:.1f}".removesuffix(".0")


def tag(name, content=None, **attributes):
    """An element. Its attributes have no text of a trace; its content is written as it is."""
    written = "".join(f' {key.rstrip("_").replace("_", "-")}="{value}"' for key, value in attributes.items())
    return f"<{name}{written}/>" if content is None else f"<{name}{written}>{content}</{name}>"


def head_of_arrow(x, y, from_x, from_y):
    """The path of an arrow's head at a point, for a line that comes from another."""
    length = max(((x - from_x) ** 2 + (y - from_y) ** 2) ** 0.5, 0.1)
    along, down = (x - from_x) / length, (y - from_y) / length
    back_x, back_y = x - 8 * along, y - 8 * down
    corners = [(back_x - 3.2 * down, back_y + 3.2 * along), (x, y), (back_x + 3.2 * down, back_y - 3.2 * along)]
    return "M" + "L".join(f"{number(a)} {number(b)}" for a, b in corners) + "Z"


def cross_at(x, y):
    return f"M{number(x - 4)} {number(y - 4)}l8 8m0-8l-8 8"


def line_path(points):
    return "M" + "L".join(f"{number(x)} {number(y)}" for x, y in points)


def points_of_arrow(layout, item):
    """The points of the line from where a copy was sent to an item, and whether that is in the picture. Where it isn't the line
    is a short one from the side on which its sender stands."""
    x, y = layout.places[item.column], item.y
    sent = layout.sent.get(item.copy.number)
    if sent is None:
        is_right = layout.places.get(item.copy.name, 0) > x
        return [(x + (28 if is_right else -28), y - 10), (x, y)], False
    from_x = layout.places[sent.column]
    if sent.column == item.column:
        return [(x, sent.y), (x - 16, sent.y + 6), (x - 16, y - 4), (x, y)], True
    return [(from_x, sent.y), (x, y)], True


def arrow(layout, item, told):
    """The arrow to where a copy came, or the broken line to where it came too late."""
    points, is_whole = points_of_arrow(layout, item)
    (x, y), (from_x, from_y) = points[-1], points[-2]
    line, dashes = line_path(points), {} if is_whole and item.word == "rx" else {"stroke_dasharray": "4 3"}
    drawn = tag("path", d=line, **dashes)
    if item.word == "rx":
        drawn += tag("path", d=head_of_arrow(x, y, from_x, from_y), fill=COLOURS[item.copy.kind], stroke="none")
    else:
        drawn += tag("path", d=cross_at(x, y), stroke_width="1.8")
    reach = tag("path", d=line, stroke_width="9", stroke_opacity="0")
    name = "arrow" if item.word == "rx" else "late"
    return tag("g", tag("title", escaped(told)) + drawn + reach, class_=name, stroke=COLOURS[item.copy.kind])


def loss(layout, item, told):
    """The cross where a copy was lost or for nobody, with a broken line from where it was sent."""
    x, drawn = layout.places[item.column] - 11, ""
    sent = layout.sent.get(item.copy.number)
    if sent is not None:
        points = [(layout.places[sent.column], sent.y), (x, min(sent.y + 8, item.y)), (x, item.y)]
        drawn = tag("path", d=line_path(points), stroke_dasharray="4 3")
    drawn += tag("path", d=cross_at(x, item.y), stroke_width="1.8")
    return tag("g", tag("title", escaped(told)) + drawn, class_="cross", stroke=COLOURS[item.copy.kind])


def start(layout, item, told):
    """The dot where a copy was sent; with a short line where nothing tells what became of it."""
    x, colour = layout.places[item.column], COLOURS[item.copy.kind]
    drawn = tag("circle", cx=number(x), cy=number(item.y), r="2.6", fill=colour, stroke="none")
    if not item.copy.fates:
        drawn += tag("path", d=f"M{number(x)} {number(item.y)}h{number(BESIDE + 16)}")
    return tag("g", tag("title", escaped(told)) + drawn, class_="start", stroke=colour)


def mark(layout, item):
    """The mark of notes that no copy caused."""
    x = layout.places[item.column]
    return tag("rect", x=number(x - 2), y=number(item.y - 2), width="4", height="4", fill=INK, stroke="none", class_="mark")


def drawn_items(layout, told):
    """The arrows, crosses and marks."""
    for item in layout.items:
        if item.copy is None:
            yield mark(layout, item)
        elif item.word in ("rx", "late"):
            yield arrow(layout, item, told[item.copy.number])
        elif item.stands_above:
            yield start(layout, item, told[item.copy.number])
        else:
            yield loss(layout, item, told[item.copy.number])


def baselines(item):
    """Where the rows of an item's text stand."""
    first = item.y - 4 if item.stands_above else item.y + (4 if item.word == "note" else 11)
    return [first + at * ROW for at in range(len(item.rows))]


def texts(layout, told):
    """The texts beside the columns, and the path of what is light behind them."""
    light, written = [], []
    for item in layout.items:
        x = layout.places[item.column] + BESIDE
        for row, y in zip(item.rows, baselines(item)):
            width = number(letters_of(row) * LETTER + 3)
            light.append(f"M{number(x - 2)} {number(y - 9)}h{width}v12h-{width}z")
            written.append(text_element(item, row, x, y, told))
    return tag("path", d="".join(light), fill="#fff", fill_opacity="0.78"), written


def text_element(item, row, x, y, told):
    """A row of an item's text, with the lines for which it stands."""
    figure, text, lines = row
    hover = "\n".join([told[item.copy.number]] if figure else []) + ("\n" if figure and lines else "")
    hover += "\n".join(clipped(line, MOST_TOLD) for line in lines)
    content = tag("title", escaped(hover))
    if figure:
        content += tag("tspan", figure, fill=COLOURS[item.copy.kind], font_weight="bold")
    content += escaped((" " if figure and text else "") + text)
    return tag("text", content, x=number(x), y=number(y))


def heads(layout):
    """The names of the columns, above, below, and between where the picture is long."""
    for y in layout.names:
        yield tag("text", "moment", x=MARGIN, y=number(y + 14), fill="#52606d")
        for column, x in layout.places.items():
            yield head(column, x, y, "column" if y == layout.names[0] else "again")


def head(column, x, y, name):
    """The name of a column in its box."""
    width = head_width(column)
    box = tag("rect", x=number(x - width / 2), y=number(y), width=number(width), height="20", rx="4", fill="#eef2f6", stroke=GREY)
    font = {"text_anchor": "middle", "font_weight": "bold", "font_size": "12"}
    return tag("g", box + tag("text", head_text(column), x=number(x), y=number(y + 14), **font), class_=name)


def lifelines(layout):
    first, last = layout.names[0] + 20, layout.names[-1]
    for column, x in layout.places.items():
        dashes = {"stroke_dasharray": "2 3"} if column in (NOBODY, BEFORE) else {}
        yield tag("path", d=f"M{number(x)} {number(first)}V{number(last)}", stroke=GREY, **dashes)


def moments(layout):
    for moment, y in layout.moments:
        yield tag("path", d=f"M{MARGIN} {number(y)}H{layout.width - MARGIN}", stroke=PALE)
        yield tag("text", f"{moment}", x=MARGIN, y=number(y + 13), fill="#52606d", class_="moment")


# ---- the words above the picture


def samples(items):
    """What the legend has: a word, its colour, and what is drawn before it."""
    kinds = {item.copy.kind for item in items if item.copy is not None}
    words = {item.word for item in items}
    form = "arrow" if "rx" in words else "line"
    found = [(NAMES_OF_KINDS[kind], COLOURS[kind], form) for kind in COLOURS if kind in kinds]
    found += [("lost, or for nobody", INK, "cross")] if words & {"lost", "nobody"} else []
    return found + ([("too late", INK, "late")] if "late" in words else [])


def sample(form, x, y, colour):
    """What the legend draws before a word."""
    if form == "cross":
        return tag("path", d=cross_at(x + 11, y), stroke=colour, stroke_width="1.8")
    dashes = {"stroke_dasharray": "4 3"} if form == "late" else {}
    line = tag("path", d=f"M{number(x)} {number(y)}h20", stroke=colour, **dashes)
    ends = {"arrow": tag("path", d=head_of_arrow(x + 22, y, x, y), fill=colour), "line": "",
            "late": tag("path", d=cross_at(x + 18, y), stroke=colour, stroke_width="1.8")}
    return line + ends[form]


def legend(items, y, width):
    """The legend, from a height down, and the height at which it ends."""
    drawn, x = [], MARGIN
    for text, colour, form in samples(items):
        needed = 30 + len(text) * LETTER + 18
        if x > MARGIN and x + needed > width - MARGIN:
            x, y = MARGIN, y + 18
        content = sample(form, x, y, colour) + tag("text", text, x=number(x + 29), y=number(y + 4), fill=INK)
        drawn.append(tag("g", content, class_="legend"))
        x += needed
    return drawn, y + 12


def caption(trace, items):
    """The sentences above the picture."""
    shown = len({item.copy.number for item in items if item.copy is not None})
    part = "" if shown == len(trace.copies) else f" of {len(trace.copies)}"
    first, last = items[0].moment, max(item.moment for item in items)
    copies = f"{shown}{part} {'copy' if len(trace.copies) == 1 else 'copies'}"
    times = f"moment {first}" if first == last else f"moments {first} to {last}"
    sentences = [f"{copies}, {times} in ticks. Time goes down, not to scale."]
    if not any(line.word in ("rx", "lost", "nobody") for line in trace.lines):
        sentences.append("No line tells where a copy came: a plain journal, or none was settled. So there are no arrowheads.")
    if shown > MANY_COPIES:
        sentences.append("--from, --to and --systems draw a part of it.")
    return sentences


def wrapped(sentences, width):
    """Sentences as lines that fit a width."""
    most, lines = int((width - 2 * MARGIN) / LETTER), []
    for sentence in sentences:
        line = ""
        for word in sentence.split(" "):
            if line and len(line) + 1 + len(word) > most:
                lines.append(line)
                line = word
            else:
                line = f"{line} {word}" if line else word
        lines.append(line)
    return lines


def picture(trace, items, columns, told):
    """The whole picture."""
    places = places_of(items, columns)
    lines = wrapped(caption(trace, items), places.width)
    captions = [tag("text", escaped(line), x=MARGIN, y=20 + 16 * at, class_="caption") for at, line in enumerate(lines)]
    legends, bottom = legend(items, 22 + 16 * len(lines), places.width)
    layout = laid_out(items, columns, places, bottom + 6)
    light, written = texts(layout, told)
    body = [
        tag("rect", width=layout.width, height=number(layout.height), fill="#fff"),
        *captions,
        tag("g", "\n".join(legends), fill="none", stroke_width="1.4"),
        tag("g", "\n".join([*moments(layout), *lifelines(layout)]), fill="none"),
        tag("g", "\n".join(drawn_items(layout, told)), fill="none", stroke_width="1.4"),
        light, *written, *heads(layout),
    ]
    return document(layout, body)


def document(layout, body):
    """The text of a picture with this body."""
    size = {"width": layout.width, "height": number(layout.height)}
    style = ".arrow:hover,.late:hover,.cross:hover{stroke-width:3}"
    opened = tag("svg", "\n" + "\n".join([tag("style", style), *body]) + "\n", xmlns="http://www.w3.org/2000/svg", **size,
                 viewBox=f"0 0 {size['width']} {size['height']}", fill=INK, font_size=11,
                 font_family="DejaVu Sans Mono, Menlo, Consolas, Liberation Mono, monospace")
    return opened + "\n"
