#!/usr/bin/env python3
"""Looks whether a name that a file gives to a module by `use MODULE as NAME` means the same in every other.

A module of definitions or proofs may be reached by more than one path, since crates pass on those below them; it is the
same module by each. Where a file names the goals of the proof that it answers, they are `goal`, whichever they are.

usage: tests/gate/names.py [FOLDER], the folder of a repository; without one it is that of this file.
"""
import collections
import glob
import os
import re
import sys

import layout

ROOT = os.path.abspath(sys.argv[1] if len(sys.argv) > 1 else os.path.join(os.path.dirname(__file__), "..", ".."))
NAMED = re.compile(r"use Rattle\.([\w.+]+) as (\w+)")


def files():
    for suffix in ("rt", "antt"):
        for part in ("src", "specs", "proofs"):
            yield from glob.glob(os.path.join(ROOT, "crates", "*", part, "**", f"*.{suffix}"), recursive=True)


WHERE = layout.Layout(ROOT)


def crates_by_passed_name():
    """The crates and parts by the names under which others pass them on, and under which a part's own modules stand:
    `clnp_plan` as `ClnpPlan`."""
    names = {layout.in_capitals(name): name for name in WHERE.names()}
    return {**names, **{layout.in_proofs(part): part for part in WHERE.crate_of}}


def module_of(path, crates):
    """The module of a path, named by its own crate or part."""
    crate, *rest = path.split(".")
    kind, rest = rest[:1], rest[1:]
    while rest and rest[0] in crates:
        crate, rest = crates[rest[0]], rest[1:]
    if rest[:1] == ["declared"] and WHERE.crate_of.get(rest[1]) == crate:
        crate, rest = rest[1], ["declared", *rest[2:]]
    return ".".join([crate, *kind, *rest])


def main():
    crates = crates_by_passed_name()
    modules, names = collections.defaultdict(set), collections.defaultdict(set)
    for path in files():
        with open(path, encoding="utf-8") as opened:
            for module, name in NAMED.findall(opened.read()):
                if name != "goal" and name[0].islower():
                    module = module_of(module, crates)
                    modules[module].add(name)
                    names[name].add(module)
    wrong = [f"{module} is named {', '.join(sorted(given))}" for module, given in sorted(modules.items()) if len(given) > 1]
    wrong += [f"{name} names {', '.join(sorted(given))}" for name, given in sorted(names.items()) if len(given) > 1]
    for line in wrong:
        print(f"names: {line}", file=sys.stderr)
    print(f"names: {len(names)} names of modules, {len(wrong)} with more than one meaning")
    sys.exit(1 if wrong or not names else 0)


if __name__ == "__main__":
    main()
