#!/usr/bin/env python3
"""Which files hold what the contracts of the top calls say: the definitions that they use, those that these use, and so
on, and the code that declares the types in them.

usage: tests/gate/believed.py [--headline] [--definitions]

It writes the files, lowest crates first; with --headline those alone of which the headline speaks, with --definitions the
names in each that are used. `tests/gate/documents.py` compares the files with the lists in docs/ARCHITECTURE.md.
"""
import collections
import os
import re
import sys

import layout

WHERE = layout.Layout(os.path.abspath(os.path.join(os.path.dirname(__file__), "..", "..")))
# the calls whose contracts are what is promised, and the file that each is in
CALLS = [("clnp_program", "src/call.rt", "run"), ("clnp_program", "src/top.rt", "clnp_main")]
# what the headline doesn't speak of: crates, parts and files of other commands than `sim`, of what becomes of packets in a step, of
# what is said of refused texts, and of the program's texts about itself
OF_OTHERS = [
    "capture_commands", "fair_commands", "live_commands", "live_model", "live_node", "link_board", "scenario_advice",
    "clnp_machine/specs/Whereabouts.antt",
    "network_commands/specs/Storm.antt", "network_commands/src/storm.rt", "clnp_program/specs/Live.antt",
    "clnp_program/specs/Advised.antt", "clnp_program/specs/Agree.antt", "command_base/specs/ByLine.antt",
    "command_base/specs/Output.antt", "clnp_program/specs/Texts.antt", "clnp_program/specs/Traces.antt", "scenario_writing",
    "scenario_plan/specs/Migrated.antt", "scenario/specs/Versions.antt", "clnp_safety/specs/Migrated.antt",
]
NAME = r"[A-Za-z_][A-Za-z0-9_]*"


def text_of(crate, file):
    return layout.read(WHERE.root, WHERE.path(crate, file))


def module_of(path):
    """The crate or part and the file of the module that a path names, where it is one of this repository's; the type if it
    is one."""
    words, names = path.split("."), WHERE.names()
    if words[0] != "Rattle" or words[1] not in names or words[2] != "specs":
        return None
    crate, rest = words[1], words[3:]
    # a part's modules, and what a crate passes on, stand under the part's or lower crate's name, in capitals: `PduHeader`
    passed_on = {layout.in_capitals(name): name for name in names}
    while rest and passed_on.get(rest[0], crate) != crate:
        crate, rest = passed_on[rest[0]], rest[1:]
    if rest and rest[0] == "declared":
        places = [word for word in rest[1:] if word != "TheVariants"]
        if places and WHERE.crate_of.get(places[0]) == crate:
            crate, places = places[0], places[1:]
        for end in range(len(places), 0, -1):
            file = os.path.join("src", *places[:end]) + ".rt"
            if os.path.exists(os.path.join(WHERE.root, WHERE.path(crate, file))):
                return crate, file, places[end:]
        return crate, "src/lib.rt", places
    return crate, os.path.join("specs", *rest) + ".antt", []


class File:
    """What a file of definitions imports and defines."""

    def __init__(self, crate, file):
        self.imported, self.aliases, self.defined = {}, {}, {}
        text = re.sub(r"^\s*(--|//).*$", "", text_of(crate, file), flags=re.MULTILINE)
        uses = rf"^(?:pub |ghost )?use (Rattle[\w.]+?)(?: as ({NAME}))?(?:\.\{{([^}}]*)\}})?;?$"
        for path, name, names in re.findall(uses, text, re.MULTILINE):
            module = module_of(path)
            if module is None:
                continue
            if name:
                self.aliases[name] = module
            for imported in re.split(r",\s*", names):
                self.imported[imported.split(" as ")[-1].strip()] = (module, imported.split(" as ")[0].strip())
        self.text = text
        if file.endswith(".antt"):
            self.add_definitions(text)

    def add_definitions(self, text):
        owner = None
        for line in text.splitlines():
            if begun := re.match(rf"(?:(?:abbrev|unfoldable|opaque) )?(?:pub )?(?:(?:record|data) )?({NAME})\b", line):
                if not line.startswith(("use ", "pub use ", "pub mod ", "mod ")):
                    owner = begun[1]
                    self.defined.setdefault(owner, "")
            if owner is not None:
                self.defined[owner] += line + "\n"
                if variant := re.match(rf"  (?:pub )?({NAME}) :", line):
                    self.defined.setdefault(variant[1], owner if re.match(r"  [A-Z]", line) else "")

    def uses(self, text):
        """The files and names that a text of this file uses."""
        for whole in re.findall(rf"{NAME}(?:\.{NAME})*", text):
            words = whole.split(".")
            if words[0] in self.aliases:
                module = self.aliases[words[0]]
                yield module, words[1] if len(words) > 1 else ""
            elif words[0] in self.imported:
                yield self.imported[words[0]]
            elif words[0] in self.defined:
                yield None, words[0]


def contract(text, call):
    """The clauses of a call, from its head to its body."""
    begun = re.search(rf"^pub fn {call}\b.*?^\{{", text, re.MULTILINE | re.DOTALL)
    if begun is None:
        sys.exit(f"there is no call `{call}`: see CALLS")
    return begun[0]


def believed(headline=False):
    """The files with the names in them that are used: in all that the top calls promise, or in the headline alone."""
    files, found, waiting = {}, collections.defaultdict(set), []

    def file_of(crate, file):
        if (crate, file) not in files:
            files[crate, file] = File(crate, file)
        return files[crate, file]

    for crate, file, call in CALLS:
        found[crate, file].add(call)
        waiting.append(((crate, file), contract(file_of(crate, file).text, call)))
    # what a source and a sink are
    found["clnp_base", "src/streams.rt"].update(["Source", "Sink"])
    while waiting:
        at, text = waiting.pop()
        for module, name in file_of(*at).uses(text):
            crate, file = module[:2] if module else at
            if name in found[crate, file] or not name:
                continue
            if headline and (crate in OF_OTHERS or f"{crate}/{file}" in OF_OTHERS):
                continue
            found[crate, file].add(name)
            if file.endswith(".antt"):
                waiting.append(((crate, file), file_of(crate, file).defined.get(name, "")))
    return {at: names for at, names in found.items() if names}


def files(headline=False):
    """The files, lowest crates first, in a crate or part definitions before code."""
    return [WHERE.path(*at) for at in sorted(believed(headline), key=in_order)]


def in_order(at):
    return WHERE.names().index(at[0]), at[1]


def main():
    names = believed("--headline" in sys.argv[1:])
    for crate, file in sorted(names, key=in_order):
        told = " " + " ".join(sorted(names[crate, file])) if "--definitions" in sys.argv[1:] else ""
        print(WHERE.path(crate, file) + told)


if __name__ == "__main__":
    main()
