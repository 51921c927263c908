#!/usr/bin/env python3
"""Looks whether what the documents name is there.

- docs/PROMISES.md: each crate or part, call, clause and field in the second column of its tables. A row's second column has
  references, each behind a `;`: the crate or part, its calls, and behind them the clauses. What a reference doesn't name it has
  from the one before in its row, and a row's first one from the heading above the table. A row that says no in its last
  column names something that isn't there. Likewise the list of calls that the program doesn't make.
- every document: each file that stands in backquotes or in a command of a fenced block, and each heading that stands in
  quotes behind a document's name.
- docs/CHANGING.md: the words that stand in backquotes in parentheses right behind a file, in that file; and the files that
  stand by their bare names behind one of a crate's `proofs/`.
- edits/README.md: the edits in its tables.
- docs/ARCHITECTURE.md: its picture has each crate of crates.txt, and no other, each with its parts (`tests/gate/layout.py`) and
  on those that it stands on there; its table has a row for each part, and for each crate that is more than its parts; the
  lists of what must be believed
  have each file that `tests/gate/believed.py` finds, that for the headline each that it finds for that, and no other.
- docs/clnp.1: where mandoc is installed, its lint finds nothing.

usage: tests/gate/documents.py [FOLDER], the folder of a repository; without one it is that of this file.
"""
import glob
import os
import re
import shutil
import subprocess
import sys

import believed
import layout

ROOT = os.path.abspath(sys.argv[1] if len(sys.argv) > 1 else os.path.join(os.path.dirname(__file__), "..", ".."))
DOCUMENTS = ["README.md", "docs/*.md", "docs/*.1", "tests/README.md", "edits/README.md"]
SUFFIXES = (".md", ".txt", ".py", ".sh", ".rt", ".antt", ".rs", ".1", ".edit")
FOLDERS = ("crates/", "docs/", "tests/", "edits/", "examples/", "bench/", "tools/", ".ci/", "./")
# what stands in a crate's own folder is named without it
IN_A_CRATE = ("src/", "specs/", "proofs/", "must-fail/", "data/")
NAMES = r"`([^`\n]+)`"
# the modules that stand before the names of their laws
MODULES_OF_LAWS = ("laws", "attaching", "echo_laws", "link_laws", "pcap_laws", "report_laws")

wrong = []
where = layout.Layout(ROOT)


def text_of(path):
    with open(os.path.join(ROOT, path), encoding="utf-8") as opened:
        return opened.read()


def paths_of(pattern):
    found = glob.glob(os.path.join(ROOT, pattern), recursive=True)
    return sorted(os.path.relpath(path, ROOT) for path in found)


# What a crate has, or a part of a crate.


class Crate:
    """The calls of a crate with their clauses, its types, and the fields of its records."""

    def __init__(self, name):
        self.calls, self.types, self.records = {}, set(), {}
        for path in where.files(name, "src", ".rt"):
            self.add_code(path)
        for path in where.files(name, "specs", ".antt"):
            self.add_definitions(path)

    def add_code(self, path):
        stem = os.path.splitext(os.path.basename(path))[0]
        module = f"{stem}::" if stem in MODULES_OF_LAWS else ""
        owner, call = "", None
        for line in text_of(path).splitlines():
            if begun := re.match(r"impl(?:<[^>]*>)? (?:\w+(?:<.*>)? for )?(?:&\w* ?)?(\w+)|(?:pub )?trait (\w+)", line):
                owner = (begun[1] or begun[2]) + "::"
            elif line == "}":
                owner = ""
            if declared := re.match(r"(?:pub(?:\(\w+\))? )?(?:struct|enum|trait) (\w+)", line):
                self.types.add(declared[1])
            if named := re.match(r"\s*(?:pub(?:\([a-z]+\))? )?(?:const )?fn (\w+)", line):
                call = self.calls.setdefault((module or owner) + named[1], set())
            if call is not None and (clause := re.match(r"\s*ensures (\w*) ?\{", line)):
                call.add(clause[1] or "its one clause")

    def add_definitions(self, path):
        record = None
        for line in text_of(path).splitlines():
            if begun := re.match(r"(?:pub )?record (\w+)", line):
                record = self.records.setdefault(begun[1], set())
            elif part := re.match(r"  (?:pub )?(\w+) :", line):
                if record is not None:
                    record.add(part[1])
            elif line and not line.startswith(" "):
                record = None

    def calls_named(self, name):
        """The calls of a name, with their clauses: `Type::call` and `laws::law`, or a call's name alone."""
        return {call: clauses for call, clauses in self.calls.items() if call == name or call.split("::")[-1] == name}


# What the promises name.


class Reading:
    """How far a row's second column was read."""

    def __init__(self, crates, place):
        self.crates, self.place = crates, place
        self.crate, self.calls, self.record, self.named = None, {}, None, 0

    def wrong(self, what):
        wrong.append(f"docs/PROMISES.md, line {self.place}: {what}")

    def reference(self, text):
        """Reads a reference: what names calls in it begins a new list of them."""
        begins = True
        for at, found in enumerate(re.findall(r"`([^`]+)`|(its one clause|their one clause)", text)):
            name = found[0] or "its one clause"
            self.named += 1
            if at > 0 and self.is_clause(name):
                begins = True
            elif name in self.crates:
                self.crate, self.calls, self.record = self.crates[name], {}, None
            elif self.crate is None:
                self.wrong(f"`{name}` stands behind no crate")
            elif self.is_clause(name):
                begins = True
            elif found := self.crate.calls_named(name):
                self.calls = found if begins else {**self.calls, **found}
                begins, self.record = False, None
            elif name in self.crate.records:
                self.record = self.crate.records[name]
            elif name not in self.crate.types:
                self.wrong(f"`{name}` is neither a call, a type or a record of its crate nor a clause of the calls before it")

    def is_clause(self, name):
        if self.record is not None and name in self.record:
            return True
        return any(name in clauses for clauses in self.calls.values())


def judge_promises():
    crates = {name: Crate(name) for name in where.names()}
    rows = references = 0
    for place, line in enumerate(text_of("docs/PROMISES.md").splitlines(), 1):
        if line.startswith("#"):
            heading = line
        if line.startswith("- `") and "not called" in heading:
            reading = Reading(crates, place)
            for reference in re.split(r"[;.] ", line):
                reading.reference(reference)
            references += reading.named
        cells = re.split(r" \| ", line.strip("| ")) if line.startswith("| ") else []
        if len(cells) != 3 or cells[0] in ("Promise", "Call") or set(cells[0]) == {"-"}:
            continue
        reading = Reading(crates, place)
        for name in re.findall(NAMES, heading):
            reading.reference(f"`{name}`")
        reading.named, known = 0, len(wrong)
        for reference in cells[1].split(";"):
            reading.reference(reference)
        rows += 1
        references += reading.named
        if cells[2].startswith("no"):
            missing = wrong[known:]
            del wrong[known:]
            if not missing:
                reading.wrong("its last column says no, and all that it names is there")
        if reading.named == 0:
            reading.wrong("no call and no clause is named")
        if not re.match(r"(yes|no)\b", cells[2]):
            reading.wrong("the last column begins neither with yes nor with no")
    return rows, references


# What every document names.


def is_there(name, document, crate):
    """Whether a file or folder is there: from the repository's root, the document's folder, or that of a crate or part: the
    one that stands before the name in its line, or any."""
    name = name.removeprefix("./")
    if name.startswith(IN_A_CRATE):
        return any(paths_of(path) for path in where.places(crate, name))
    return any(paths_of(os.path.join(beginning, name)) for beginning in ("", os.path.dirname(document)))


def is_file(name):
    """Whether a name in a document is that of a file or folder. NAME, CRATE and the like stand for a name."""
    if re.search(r"[\s<>{}$]|\.\.|(^|/)[A-Z]+(/|$|\.(rt|antt|edit))", name):
        return False
    return name.startswith(FOLDERS + IN_A_CRATE) or ("/" not in name and name.endswith(SUFFIXES))


def files_named(text):
    """The names of files in a document, each with the crate or part before it: in backquotes, and in commands of fenced
    blocks."""
    crates = set(where.names())
    fenced = re.findall(r"^```\w*\n(.*?)^```$", text, re.MULTILINE | re.DOTALL)
    for command in (line[2:] for block in fenced for line in block.splitlines() if line.startswith("$ ")):
        yield from ((word, "*") for word in re.split(r"[\s;()<>|'\"]+", command) if is_file(word))
    for line in re.sub(r"^```\w*\n.*?^```$", "", text, flags=re.MULTILINE | re.DOTALL).splitlines():
        crate = "*"
        for name in re.findall(NAMES, line):
            if name in crates:
                crate = name
            elif is_file(name):
                yield name, crate


def judge_files():
    files = headings = 0
    for document in (path for pattern in DOCUMENTS for path in paths_of(pattern)):
        text = text_of(document)
        for name, crate in sorted(set(files_named(text))):
            files += 1
            if not is_there(name, document, crate):
                wrong.append(f"{document}: `{name}` isn't there" + (f" in `{crate}`" if crate != "*" else ""))
        for name, heading in re.findall(r"`([\w/]+\.md)`, \"([^\"]+)\"", text):
            headings += 1
            path = next((path for path in (name, os.path.join(os.path.dirname(document), name)) if paths_of(path)), None)
            if path and not re.search(rf"^#+ {re.escape(heading)}( \(|$)", text_of(path), re.MULTILINE):
                wrong.append(f"{document}: `{name}` has no heading \"{heading}\"")
    return files, headings


def judge_changing():
    """What docs/CHANGING.md says is in a file, and the files that it names by their bare names."""
    crates, words = set(where.names()), 0
    for place, line in enumerate(text_of("docs/CHANGING.md").splitlines(), 1):
        crate = "*"
        for name, inside, others in re.findall(NAMES + r"(?: \(([^)]*)\))?((?:, `[A-Z]\w+`)*)", line):
            if name in crates:
                crate = name
            if not is_file(name) or not name.endswith((".rt", ".antt", ".py")):
                continue
            places = where.places(crate, name) if name.startswith(IN_A_CRATE) else [name]
            text = "".join(text_of(path) for place_of in places for path in paths_of(place_of))
            for word in re.findall(r"`(\w+)`", inside):
                words += 1
                if not re.search(rf"\b{word}\b", text):
                    wrong.append(f"docs/CHANGING.md, line {place}: `{word}` isn't in `{name}`")
            for other in re.findall(r"`(\w+)`", others) if name.startswith("proofs/") else []:
                words += 1
                if not any(paths_of(path) for path in where.places(crate, f"proofs/{other}.antt")):
                    wrong.append(f"docs/CHANGING.md, line {place}: `proofs/{other}.antt` isn't there in `{crate}`")
    return words


def judge_edits():
    """The edits that the tables of edits/README.md name: each is one of the crates of its row, or of those of its parts."""
    named = 0
    for place, line in enumerate(text_of("edits/README.md").splitlines(), 1):
        if found := re.match(r"\| (`.*?) \| (.*) \|$", line):
            crates = [where.crate_of.get(name, name) for name in re.findall(NAMES, found[1])]
            for name in re.findall(NAMES, re.sub(r"the call `\w+`", "", found[2])):
                named += 1
                if not any(paths_of(f"{folder}/{name}.edit") for crate in crates for folder in (f"edits/{crate}", f"crates/{crate}/must-fail")):
                    wrong.append(f"edits/README.md, line {place}: there is no edit `{name}` of {found[1]}")
    return named


def section(document, heading):
    """What stands in a document below a heading, up to the next one."""
    found = re.search(rf"^## {re.escape(heading)}$(.*?)(?=^## |\Z)", text_of(document), re.MULTILINE | re.DOTALL)
    if found is None:
        wrong.append(f"{document}: there is no heading \"{heading}\"")
    return found[1] if found else ""


def judge_crates():
    below = section("docs/ARCHITECTURE.md", "The crates")
    listed, known = re.findall(r"^\| `(\w+)` \|", below, re.MULTILINE), where.crates
    told = [name for name in where.names() if not (name in known and where.is_of_parts_alone(name))]
    drawn = {name: (on or "").split(", ") for name, on in re.findall(r"^  (\w+)  +\S.*\n(?: +on (.*)\n)?", below, re.MULTILINE)}
    for name, on in re.findall(r"^([a-z0-9_]+):(.*)$", text_of("crates.txt"), re.MULTILINE):
        if sorted(drawn.get(name, [])) != (sorted(set(on.split()) & set(known)) or [""]):
            wrong.append(f"docs/ARCHITECTURE.md: in the picture `{name}` doesn't stand on those of crates.txt:{on}")
    for name in sorted(set(drawn) - set(known)):
        wrong.append(f"docs/ARCHITECTURE.md: the crate `{name}` of the picture isn't in crates.txt")
    parts, crate = [], None
    for name, part in re.findall(r"^  (\w+)  +\S|^    (\w+)  +\S", below, re.MULTILINE):
        crate = name or crate
        parts += [(crate, part)] if part else []
    for crate, part in sorted(set(parts) ^ {(crate, part) for part, crate in where.crate_of.items()}):
        wrong.append(f"docs/ARCHITECTURE.md: `{part}` of `{crate}` stands in the picture and not in the crate, or the other way round")
    for name in sorted(set(told) - set(listed)):
        wrong.append(f"docs/ARCHITECTURE.md: no row of its table is of `{name}`")
    for name in sorted(set(listed) - set(told)):
        wrong.append(f"docs/ARCHITECTURE.md: `{name}` of its table is neither a part nor a crate with more than parts")


def files_listed(text):
    """The files in a list of what must be believed: a row for each crate or part, with definitions and code."""
    for row in re.findall(r"^\| `.*$", text, re.MULTILINE):
        crate, specs, code = (re.sub(r"\(.*?\)", "", cell) for cell in row.strip("|").split("|"))
        crate = re.findall(NAMES, crate)[0]
        yield from (where.path(crate, f"specs/{name}.antt") for name in re.findall(NAMES, specs))
        yield from (where.path(crate, f"src/{name}.rt") for name in re.findall(NAMES, code))


def judge_believed():
    believed.WHERE = where
    below = section("docs/ARCHITECTURE.md", "What must be read and believed")
    headline, _, others = below.partition("### For the other promises")
    of_headline, all_found = set(believed.files(headline=True)), set(believed.files())
    for told, listed, found in [
        ("the headline", list(files_listed(headline)), of_headline),
        ("the other promises", list(files_listed(others)), all_found - of_headline),
    ]:
        for path in sorted(found - set(listed)):
            wrong.append(f"docs/ARCHITECTURE.md: `{path}` isn't in the list of what must be believed for {told}")
        for path in sorted(set(listed) - found):
            wrong.append(f"docs/ARCHITECTURE.md: `{path}` needn't be believed for {told}, or isn't there")


def judge_manual():
    if shutil.which("mandoc"):
        ran = subprocess.run(["mandoc", "-T", "lint", "docs/clnp.1"], cwd=ROOT, capture_output=True, text=True)
        wrong.extend(ran.stdout.splitlines())


def main():
    rows, references = judge_promises()
    files, headings = judge_files()
    words, edits = judge_changing(), judge_edits()
    judge_crates()
    judge_believed()
    judge_manual()
    for line in wrong:
        print(line, file=sys.stderr)
    print(f"documents: {rows} promises with {references} names, {files} files and {headings} headings named, "
          f"{words} words where to change, {edits} edits named, {len(wrong)} wrong")
    if wrong or not (rows and references and files and words and edits):
        sys.exit(1)


main()
