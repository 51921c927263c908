#!/usr/bin/env python3
"""Draws traces with `tools/chart` and compares what the pictures have with what the lines of the traces say.

- Of each example the trace that the plain model gives: an arrow for each `rx`, from the column of its copy's sender to that of
  its system, a cross for each `lost` and `nobody`, a broken line for each `late`, a column for each system, a text for each
  line. No two texts overlap, and none stands outside.
- The same of a part of a trace, and of a journal, which has no arrows; of ten thousand lines within two seconds.
- The pictures in docs/ are those of the traces in examples/, and these are the model's.
- Each fault of a trace and of the words, with its status; then no picture is written, and one that was there stays.

usage: tests/gate/chart.py [PROGRAM]

PROGRAM is the built program, which then shows the frames of the pictures in docs/ in place of the plain model.
"""
import glob
import os
import re
import resource
import subprocess
import sys
import tempfile
import xml.etree.ElementTree as tree

ROOT = os.path.abspath(os.path.join(os.path.dirname(__file__), "..", ".."))
sys.path.append(os.path.join(ROOT, "tests", "models"))

from network_model import Network
from pdu_model import shown
from scenario_model import read

CHART = os.path.join(ROOT, "tools", "chart")
SVG = "{http://www.w3.org/2000/svg}"
PICTURES = ["lost-hello", "moving", "redirect", "routers"]
# the width of a letter, as part of its height
LETTER = 0.609

wrong = []


def expect(holds, what):
    if not holds:
        wrong.append(what)


def text_of(*path):
    with open(os.path.join(ROOT, *path), encoding="utf-8") as opened:
        return opened.read()


def trace_of(text):
    """The trace of a scenario text, by the plain model."""
    return Network(read(text.encode())).trace()[0]


# ---- pictures


STAND_IN = """#!/usr/bin/env python3
import sys
sys.path.append({models!r})
from pdu_model import shown
with open({calls!r}, "a") as calls:
    calls.write(" ".join(sys.argv[1:]) + "\\n")
for line in sys.stdin:
    print(shown(bytes.fromhex(line.strip())))
"""


class StandIn:
    """A program that shows frames as the plain model does, and keeps with which words it was called."""

    def __init__(self, folder):
        self.path, self.called = os.path.join(folder, "clnp"), os.path.join(folder, "calls")
        with open(self.path, "w", encoding="utf-8") as opened:
            opened.write(STAND_IN.format(models=os.path.join(ROOT, "tests", "models"), calls=self.called))
        os.chmod(self.path, 0o755)

    def calls(self):
        """The calls since this was asked last."""
        if not os.path.exists(self.called):
            return []
        with open(self.called, encoding="utf-8") as opened:
            found = opened.read().splitlines()
        os.unlink(self.called)
        return found


def run(words, text=""):
    """The status, the picture and what is said of a call."""
    ran = subprocess.run([CHART, *words], input=text.encode("latin-1"), capture_output=True)
    return ran.returncode, ran.stdout.decode(), ran.stderr.decode()


def classes(picture):
    """How many elements of each class a picture has."""
    counts = {}
    for element in tree.fromstring(picture).iter():
        name = element.get("class")
        counts[name] = counts.get(name, 0) + 1
    return counts


def box_of(element):
    """Where a text stands: left, top, right, bottom, and the text."""
    size = float(element.get("font-size", 11))
    parts = [element.text] + [part for child in element for part in (child.text if child.tag == SVG + "tspan" else "", child.tail)]
    text = "".join(part or "" for part in parts)
    width = len(text) * size * LETTER
    left = float(element.get("x")) - (width / 2 if element.get("text-anchor") == "middle" else 0)
    bottom = float(element.get("y"))
    return left, bottom - 0.8 * size, left + width, bottom + 0.2 * size, text


def clashes(picture):
    """The texts of a picture that overlap another, or stand outside."""
    root = tree.fromstring(picture)
    width, height = float(root.get("width")), float(root.get("height"))
    boxes = sorted((box_of(element) for element in root.iter(SVG + "text")), key=lambda box: box[1])
    found = [box[4] for box in boxes if box[0] < 0 or box[1] < 0 or box[2] > width or box[3] > height]
    for at, one in enumerate(boxes):
        for other in boxes[at + 1:]:
            if other[1] >= one[3]:
                break
            if one[0] < other[2] and other[0] < one[2]:
                found.append(f"{one[4]} / {other[4]}")
    return found


def titles_of(picture):
    """All that is told where the pointer is."""
    return "\n".join(element.text or "" for element in tree.fromstring(picture).iter(SVG + "title"))


def columns_of(lines):
    """The columns that lines call for: one for each system, one for what comes from outside or changes a subnetwork, and one for
    what was lost or for nobody of what was sent before the first line."""
    words = [line.split(" ") for line in lines]
    sent = {line[3] for line in words if line[2] in ("tx", "inject")}
    before = any(line[2] in ("lost", "nobody") and line[3] not in sent for line in words)
    return len({line[1] for line in words} - {"-"}) + any(line[2] in ("inject", "mtu") for line in words) + before


def of_class(picture, name):
    return [group for group in tree.fromstring(picture).iter(SVG + "g") if group.get("class") == name]


def ends_of_arrows(picture):
    """From which column each arrow leads to which: none where a copy was sent outside the picture."""
    columns = {}
    for group in of_class(picture, "column"):
        element = group.find(SVG + "text")
        columns[element.get("x")] = {"outside": "-"}.get(element.text, element.text)
    ends = []
    for group in of_class(picture, "arrow"):
        points = re.findall(r"([\d.-]+) ([\d.-]+)", group.find(SVG + "path").get("d"))
        ends.append((columns.get(points[0][0]), columns.get(points[-1][0])))
        expect(float(points[0][1]) < float(points[-1][1]), f"an arrow goes up: {points}")
    return ends


def ends_of_copies(lines):
    """From which system each copy that came was sent, and to which it came."""
    words = [line.split(" ") for line in lines]
    senders = {line[3]: line[1] for line in words if line[2] in ("tx", "inject")}
    return [(senders.get(line[3]), line[1]) for line in words if line[2] == "rx"]


def count(lines, *words):
    return sum(line.split(" ")[2] in words for line in lines)


def judge(name, lines, words, text):
    """Draws a trace, or a part of it, and compares it with the lines that should be drawn. Answers the picture."""
    status, picture, said = run(words, text)
    expect((status, said) == (0, ""), f"{name}: status {status}, and {said!r}")
    if status != 0:
        return ""
    counts = classes(picture)
    wanted = {"arrow": count(lines, "rx"), "cross": count(lines, "lost", "nobody"), "late": count(lines, "late"),
              "start": count(lines, "tx", "inject"), "column": columns_of(lines)}
    for kind, number in wanted.items():
        expect(counts.get(kind, 0) == number, f"{name}: {counts.get(kind, 0)} of the class {kind} and not {number}")
    expect(ends_of_arrows(picture) == ends_of_copies(lines), f"{name}: the arrows lead elsewhere")
    for clash in clashes(picture):
        wrong.append(f"{name}: {clash!r} isn't legible")
    titles = titles_of(picture)
    for line in lines:
        is_told = line.split(" ")[2] in ("tx", "rx", "inject", "late", "lost", "nobody") or line[:399] in titles
        expect(is_told, f"{name}: {line!r} is told nowhere")
    return picture


def judge_examples(stand_in):
    """Each example, with all frames shown by one call."""
    drawn = 0
    for path in sorted(glob.glob(os.path.join(ROOT, "examples", "*", "scenario.txt"))):
        name = os.path.relpath(path, ROOT)
        trace = trace_of(text_of(path))
        lines = trace.splitlines()[:-1]
        picture = judge(name, lines, ["--program", stand_in.path], trace)
        expect(stand_in.calls() == ["show"], f"{name}: the program wasn't called once with the word show")
        titles = titles_of(picture)
        for line in lines:
            if line.split(" ")[2] == "tx":
                expect(shown(bytes.fromhex(line.split(" ")[6]))[:399] in titles, f"{name}: {line[:40]!r} isn't shown")
        drawn += 1
    return drawn


def judge_parts():
    """Parts of a trace, and a journal."""
    trace = trace_of(text_of("examples", "lost-hello", "scenario.txt"))
    lines = trace.splitlines()[:-1]
    part = [line for line in lines if 3 <= int(line.split(" ")[0]) <= 5]
    judge("from 3 to 5", part, ["--from", "3", "--to", "5"], trace)
    own = {line.split(" ")[3] for line in lines if line.split(" ")[1:3] in (["a", "tx"], ["r", "tx"])}
    part = [line for line in lines if line.split(" ")[1] in ("a", "r") or line.split(" ")[1] == "-" and line.split(" ")[3] in own]
    picture = judge("the systems r and a", part, ["--systems", "r,a"], trace)
    names = [group.find(SVG + "text").text for group in of_class(picture, "column")]
    expect(names == ["r", "a"], f"the columns are {names}")
    journal = text_of("examples", "lost-hello", "journal.txt")
    picture = judge("a journal", journal.splitlines()[:-1], [], journal)
    expect("no arrowheads" in picture, "the picture of a journal doesn't say that there are no arrowheads")
    without_beginning = "\n".join(lines[26:]) + "\n"
    judge("a trace without its beginning", lines[26:], [], without_beginning)


def judge_notes():
    """A copy that comes back to its sender, and more notes of it than stand below one another."""
    notes = "".join(f"0 a notmine 4700270{last}\n" for last in range(1, 7))
    trace = TX + "0 a rx 1 0\n" + notes + "900000 averyveryverylon restart\n"
    picture = judge("many notes", trace.splitlines(), [], trace)
    expect("+ 4 more" in picture and "notmine 47002703" not in re.sub("<title>.*?</title>", "", picture, flags=re.DOTALL),
           "six notes aren't folded into three rows")


def judge_clocks_apart():
    """Lines of systems whose clocks stand apart: a moment begins where the clock that is ahead of all goes on, and a text whose
    clock is behind says its own."""
    text = text_of("examples", "two-hosts", "scenario.txt").split("events\n")[0]
    text = text.replace("clnp-sim 1\n", "clnp-sim 2\nlimits 256 60 320 2\n")
    text += "events\ntick b 2\nsend a 47002702 47002701 hex:6869 life=10 whole\nsettle 1\ntick a 1\nrestart a\ntick 1\nrestart b\nend\n"
    trace = trace_of(text)
    picture = judge("clocks that stand apart", trace.splitlines()[:-1], [], trace)
    moments = [element.text for element in tree.fromstring(picture).iter(SVG + "text") if element.get("class") == "moment"]
    expect(moments == ["0", "2", "3"], f"the moments of clocks that stand apart are {moments}")
    shown_texts = ["".join(element.itertext()) for element in tree.fromstring(picture).iter(SVG + "text")]
    expect(any(found.endswith("(1) restart") for found in shown_texts), "a clock that is behind isn't told")


def judge_a_long_one():
    """Ten thousand lines, drawn within two seconds of a processor's time."""
    rounds = 700
    text = text_of("examples", "lost-hello", "scenario.txt").split("events\n")[0] + "events\n"
    text += (rounds * "tick 2\nsettle 2\nlose 1\nsettle 9\nsend a 47000101 47000201 pat:2000:0\nsettle 9\n") + "end\n"
    trace = trace_of(text)
    lines = trace.splitlines()[:10_000]
    before = resource.getrusage(resource.RUSAGE_CHILDREN)
    status, picture, said = run([], "\n".join(lines) + "\n")
    after = resource.getrusage(resource.RUSAGE_CHILDREN)
    taken = after.ru_utime + after.ru_stime - before.ru_utime - before.ru_stime
    expect((status, said, len(lines)) == (0, "", 10_000), f"ten thousand lines: status {status}, {said!r}, {len(lines)} lines")
    expect(taken < 2, f"ten thousand lines took {taken:.1f} seconds")
    expect(not clashes(picture), "ten thousand lines: texts overlap")
    return taken


def judge_pictures(program):
    """The pictures in docs/, and the traces of which they are."""
    for name in PICTURES:
        trace = text_of("examples", name, "trace.txt")
        expect(trace == trace_of(text_of("examples", name, "scenario.txt")), f"examples/{name}/trace.txt isn't the model's")
        drawn = run(["--program", program, os.path.join(ROOT, "examples", name, "trace.txt")])
        expect(drawn == (0, text_of("docs", f"{name}.svg"), ""), f"docs/{name}.svg isn't the picture of its trace")


# ---- faults


TX = "0 a tx 1 0 es 8113010a3c0015ce58044700270104470027026869\n"
BAD_TRACES = [
    ("", "the trace has no line that tells of a system"),
    ("end 0 0\n", "the trace has no line that tells of a system"),
    ("clnp-sim 1\n", "line 1: 'clnp-sim 1' is no line of a trace"),
    (TX + "\n", "line 2: '' is no line of a trace"),
    (TX + "-1 a restart\n", "line 2: '-1 a restart' is no line of a trace"),
    (TX + "0 A restart\n", "line 2: '0 A restart' is no line of a trace"),
    (TX + "0 a\n", "line 2: '0 a' is no line of a trace"),
    ("1 a restart\n0 a restart\n", "line 2: the moment 0 is before that of the line of 'a' before it"),
    (TX + "2 - lost 1\n1 - lost 1\n", "line 3: the moment 1 is before that of the line of '-' before it"),
    ("0 a tx 1 0 es 811\n", "line 1: 'tx 1 0 es 811' has another form; wanted: T NAME tx COPY PORT TARGET HEX"),
    ("0 a tx 1 8 es 81\n", "wanted: T NAME tx COPY PORT TARGET HEX"),
    ("0 a tx 1 0 all 81\n", "wanted: T NAME tx COPY PORT TARGET HEX"),
    ("0 a tx 1 0 es\n", "wanted: T NAME tx COPY PORT TARGET HEX"),
    (TX + "0 b rx 1\n", "line 2: 'rx 1' has another form; wanted: T NAME rx COPY PORT"),
    (TX + "0 b rx x 0\n", "wanted: T NAME rx COPY PORT"),
    (TX + "0 b late\n", "wanted: T NAME late COPY"),
    (TX + "0 - lost\n", "wanted: T - lost COPY"),
    (TX + "0 - nobody 1 2\n", "wanted: T - nobody COPY"),
    ("0 - inject 1 lan 01\n", "wanted: T - inject COPY SUBNET FROM TO"),
    (TX + "0 - mtu lan\n", "line 2: 'mtu lan' has another form; wanted: T - mtu SUBNET MTU"),
    (TX + "0 - mtu lan 512 1\n", "wanted: T - mtu SUBNET MTU"),
    (TX + "0 a mtu lan 512\n", "line 2: 'mtu' doesn't stand behind 'a'; wanted: T - mtu SUBNET MTU"),
    (TX + "0 - port 0 lan 01\n", "line 2: 'port' doesn't stand behind '-'; wanted: T NAME port"),
    (TX + "0 b lost 1\n", "line 2: 'lost' doesn't stand behind 'b'; wanted: T - lost COPY"),
    (TX + "0 - rx 1 0\n", "line 2: 'rx' doesn't stand behind '-'; wanted: T NAME rx COPY PORT"),
    (TX + TX, "line 2: the copy 1 was sent before"),
    ("0 b rx 1 0\n" + TX, "line 2: the copy 1 is sent here and came before, at line 1"),
    (TX + "end 0 1\n0 a restart\n", "line 3: nothing stands behind the line 'end 0 1'"),
    (TX + "0 a got \x01\n", "line 2: an octet is no letter, digit or sign of a trace"),
    (TX + "0 a got \xe9\n", "line 2: an octet is no letter, digit or sign of a trace"),
]
BAD_WORDS = [
    (["--from", "9"], 1, "no line is left to draw"),
    (["--systems", "c"], 2, "no line is of 'c'; there are a"),
    (["--from", "2", "--to", "1"], 2, "there is no moment from 2 to 1"),
    (["--from", "x"], 2, "'x' is no moment"),
    (["--to", "-1"], 2, "--to"),
    (["--systems", "A"], 2, "'A' are no systems"),
    (["--systems", "a,a"], 2, "'a,a' are no systems"),
    (["--fro", "1"], 2, "--fro"),
    (["one", "two"], 2, "two"),
    (["/nowhere/trace.txt"], 1, "/nowhere/trace.txt can't be read: No such file or directory"),
    (["/"], 1, "/ can't be read: Is a directory"),
    (["--program", "/nowhere/clnp"], 1, "/nowhere/clnp can't be run: No such file or directory"),
    (["--program", "/bin/false"], 1, "/bin/false show ended with the status 1 and showed 0 of 1 frames"),
    (["--output", "/nowhere/chart.svg"], 1, "the picture can't be written: No such file or directory"),
]


def judge_faults(folder):
    for trace, wanted in BAD_TRACES:
        status, picture, said = run([], trace)
        is_plain = said.startswith("chart: ") and said.count("\n") == 1 and wanted in said
        expect((status, picture, is_plain) == (1, "", True), f"{trace!r}: status {status}, {said!r}")
    for words, number, wanted in BAD_WORDS:
        status, picture, said = run(words, TX)
        expect((status, picture, wanted in said) == (number, "", True), f"{words}: status {status}, {said!r}")
    output = os.path.join(folder, "chart.svg")
    expect(run(["--output", output], TX) == (0, "", "") and os.path.getsize(output) > 0, "--output makes no picture")
    with open(output, "rb") as opened:
        before = opened.read()
    expect(run(["--output", output], TX + "x\n")[0] == 1, "--output of a bad trace")
    with open(output, "rb") as opened:
        expect(opened.read() == before, "a bad trace changed the picture that was there")
    expect(sorted(os.listdir(folder)) == ["chart.svg", "clnp"], f"{folder} has {os.listdir(folder)}")
    with open("/dev/full", "wb") as full:
        ran = subprocess.run([CHART], input=TX.encode(), stdout=full, stderr=subprocess.PIPE)
    expect(ran.returncode == 1 and b"can't be written" in ran.stderr, f"a full disk: {ran.returncode}, {ran.stderr!r}")
    status, text, said = run(["--help"])
    expect((status, said) == (0, "") and "--systems" in text, "--help")
    return len(BAD_TRACES) + len(BAD_WORDS) + 3


def main():
    with tempfile.TemporaryDirectory() as folder:
        stand_in = StandIn(folder)
        examples = judge_examples(stand_in)
        judge_parts()
        judge_notes()
        judge_clocks_apart()
        judge_pictures(sys.argv[1] if len(sys.argv) > 1 else stand_in.path)
        stand_in.calls()
        faults = judge_faults(folder)
    taken = judge_a_long_one()
    for line in wrong:
        print(f"chart: {line}", file=sys.stderr)
    drawn = f"{examples} examples and {len(PICTURES)} pictures drawn, {faults} faults, {len(wrong)} wrong"
    print(f"chart: {drawn}; ten thousand lines took {taken:.1f} s")
    if wrong or not examples:
        sys.exit(1)


main()
