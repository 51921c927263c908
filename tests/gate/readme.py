#!/usr/bin/env python3
"""Runs the commands of the fenced `sh` blocks of the documents below and compares what they write with what stands there.

A command is a line that begins with `$ `; what it writes, on standard error too, stands below it, up to the next
command or the end of the block. Lines that begin with `# ` and stand right above a command say something of it, and
belong to no output. Blocks without a command are only read.
"""
import os
import re
import subprocess
import sys

ROOT = os.path.abspath(os.path.join(os.path.dirname(__file__), "..", ".."))
DOCUMENTS = ["README.md", "docs/FIRST.md", "docs/TOUR.md", "docs/FORMATS.md"]


def examples(text):
    """The commands with what they write."""
    for block in re.findall(r"^```sh\n(.*?)^```$", text, re.MULTILINE | re.DOTALL):
        block = re.sub(r"^(?:# .*\n)+(?=\$ )", "", block, flags=re.MULTILINE)
        found = []
        for line in block.splitlines(keepends=True):
            if line.startswith("$ "):
                found.append([line[2:].strip(), ""])
            elif found:
                found[-1][1] += line
        yield from found


def differing(document):
    """How many examples a document has, and how many of them differ."""
    with open(os.path.join(ROOT, document), encoding="utf-8") as opened:
        found = list(examples(opened.read()))
    differ = 0
    for command, wanted in found:
        ran = subprocess.run(["bash", "-c", command], cwd=ROOT, stdout=subprocess.PIPE, stderr=subprocess.STDOUT)
        came = ran.stdout.decode()
        if came != wanted:
            differ += 1
            print(f"{document}: `{command}` writes\n{came}and not\n{wanted}", file=sys.stderr)
    print(f"{document}: {len(found)} examples, {differ} differ")
    return len(found), differ


def main():
    counted = [differing(document) for document in DOCUMENTS]
    if any(differ or not found for found, differ in counted):
        sys.exit(1)


main()
