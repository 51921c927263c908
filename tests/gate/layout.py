"""Where the files of crates and of their parts stand.

A part of a crate is a module that its `src/lib.rt` declares as `pub mod NAME;` and that has a folder of code or of
definitions under its own name. The documents name a part's files as if it were a crate: `src/octets.rt` of the part `nsap` is
`src/nsap/octets.rt` of its crate, `src/lib.rt` is `src/nsap.rt`, `specs/Address.antt` is `specs/Nsap/Address.antt`, and
`proofs/octets/..` is `proofs/nsap/octets/..`. `proofs/Digits.antt` stands in `proofs/NsapFacts/`, since two folders may not have
names that differ in the case of letters alone; where the part's name has two words, as `pdu_header`, in `proofs/PduHeader/`.
"""
import glob
import os
import re

FOLDERS = ("src", "specs", "proofs")


def in_capitals(name):
    return "".join(word.capitalize() for word in name.split("_"))


def in_proofs(part):
    """The folder of a part's own proof files."""
    return in_capitals(part) + ("" if "_" in part else "Facts")


def read(root, *path):
    with open(os.path.join(root, *path), encoding="utf-8") as opened:
        return opened.read()


class Layout:
    """The crates of a repository, lowest first, and the parts of each."""

    def __init__(self, root):
        self.root = root
        self.crates = re.findall(r"^([a-z0-9_]+):", read(root, "crates.txt"), re.MULTILINE)
        self.parts = {crate: self.parts_of(crate) for crate in self.crates}
        self.crate_of = {part: crate for crate, parts in self.parts.items() for part in parts}

    def parts_of(self, crate):
        lib = os.path.join("crates", crate, "src", "lib.rt")
        if not os.path.isfile(os.path.join(self.root, lib)):
            return []
        begins = os.path.join(self.root, "crates", crate)
        declared = re.findall(r"^pub mod (\w+);", read(self.root, lib), re.MULTILINE)
        folders = lambda name: (f"{begins}/src/{name}", f"{begins}/specs/{in_capitals(name)}")
        return [name for name in declared if any(os.path.isdir(folder) for folder in folders(name))]

    def names(self):
        """Crates and parts, lowest crate first, each crate before its parts."""
        return [name for crate in self.crates for name in (crate, *self.parts[crate])]

    def is_of_parts_alone(self, crate):
        """Whether a crate has nothing but its parts."""
        files = glob.glob(os.path.join(self.root, "crates", crate, "src", "*.rt"))
        stems = {os.path.splitext(os.path.basename(file))[0] for file in files}
        return bool(self.parts[crate]) and stems <= {"lib", *self.parts[crate]}

    def path(self, name, file):
        """Where a file of a crate or a part stands, from the repository's root; its name may be a pattern."""
        if name not in self.crate_of:
            return os.path.join("crates", name, file)
        begins, (folder, _, rest) = os.path.join("crates", self.crate_of[name]), file.partition("/")
        if folder == "src":
            return os.path.join(begins, "src", name + ".rt" if rest == "lib.rt" else os.path.join(name, rest))
        if folder == "specs":
            return os.path.join(begins, "specs", in_capitals(name), rest)
        if folder == "proofs":
            return os.path.join(begins, "proofs", in_proofs(name) if rest[:1].isupper() else name, rest)
        return os.path.join(begins, file)

    def places(self, name, file):
        """The paths at which a file may stand that is named with a crate or a part, or with `*` for any."""
        return [self.path(each, file) for each in (self.names() if name == "*" else [name])]

    def files(self, name, folder, suffix):
        """The files of a crate, but not of its parts, or of a part, in one of its folders."""
        found = glob.glob(os.path.join(self.root, "crates", self.crate_of.get(name, name), folder, "**", "*" + suffix), recursive=True)
        found = [os.path.relpath(file, self.root) for file in found]
        return sorted(file for file in found if self.owner(file)[0] == name)

    def owner(self, path):
        """The part or crate of a file, and the file's name in it."""
        _, crate, folder, rest = path.split("/", 3)
        for part in self.parts.get(crate, []):
            if folder == "src" and rest == part + ".rt":
                return part, "src/lib.rt"
            for begins in (part, in_capitals(part) if folder == "specs" else in_proofs(part)):
                if folder in FOLDERS and rest.startswith(begins + "/"):
                    return part, os.path.join(folder, rest[len(begins) + 1:])
        return crate, os.path.join(folder, rest)
