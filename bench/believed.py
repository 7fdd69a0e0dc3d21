#!/usr/bin/env python3
"""believed.py [--rest] [CRATE/specs/FILE NAME..]: how many lines of definitions somebody has to believe who reads a contract: those of the
definitions that it names, and of all that these rest on. A line counts that is no comment, no blank and no import. Without words these are the
definitions that the contracts of `World::new` and `World::run` name. Prints of each file, the most first, the lines that are rested on and
those of the whole file, which its reader goes through, and both sums.

With --rest it names what else stands in these files: words of laws and of other contracts. That a name is used is told by its spelling, so a
variable that is called like a definition makes it count."""
import collections
import glob
import os
import re
import sys

ROOT = os.path.dirname(os.path.dirname(os.path.abspath(__file__)))
WORLD = [
    ("nv_world/specs/Mediated", ["AreAnswered", "mediated", "IsContained", "KeepsPromise", "opened"]),
    ("nv_mediator/specs/Refused", ["refused"]),
    ("nv_world_model/specs/SetUp", ["refusal_of"]),
]
WORD = re.compile(r"[A-Za-z_][\w-]*")
HEAD = re.compile(r"(?:(?:abbrev|unfoldable|pub)\s+)*(?:(record|data|mod)\s+)?([A-Za-z_][\w-]*)")


class File:
    """A file of definitions: the lines of each, what it imports, and which data type has which constructors."""

    def __init__(self, path):
        self.lines = collections.OrderedDict()
        self.imports = {}
        self.constructors = {}
        name = None
        with open(path, encoding="utf-8") as text:
            for line in text.read().split("\n"):
                if not line.strip() or line.strip().startswith("--"):
                    continue
                if line.startswith("use "):
                    self.imported(line)
                    name = None
                elif line[0].isspace():
                    self.goes_on(name, line)
                else:
                    kind, word = HEAD.match(line).groups() if HEAD.match(line) else (None, None)
                    name = word if kind != "mod" else None
                    self.goes_on(name, line)

    def imported(self, line):
        found = re.match(r"use Rattle\.(\w+)\.specs\.(\w+)\.\{(.*)\}$", line.strip())
        for item in found[3].split(",") if found else []:
            name, _, alias = item.strip().partition(" as ")
            self.imports[alias or name] = (f"{found[1]}/specs/{found[2]}", name)

    def goes_on(self, name, line):
        if name is None:
            return
        self.lines.setdefault(name, []).append(line)
        constructor = re.match(r"\s+([A-Z]\w*) :", line)
        if constructor and self.lines[name][0].startswith("pub data"):
            self.constructors[constructor[1]] = name

    def words(self, name):
        return set(WORD.findall("\n".join(self.lines[name]))) - {name}


def read():
    files = {}
    for path in sorted(glob.glob(os.path.join(ROOT, "crates", "*", "specs", "*.antt"))):
        crate, _, file = os.path.relpath(path, os.path.join(ROOT, "crates")).split(os.sep)
        files[f"{crate}/specs/{file[: -len('.antt')]}"] = File(path)
    return files


def meant(files, file, word):
    """The definition that a word of a file names, where it names one."""
    at, name = (file, word) if word not in files[file].imports else files[file].imports[word]
    if at not in files:
        return None
    if name in files[at].lines:
        return at, name
    return (at, files[at].constructors[name]) if name in files[at].constructors else None


def rests_on(files, roots):
    """The definitions that these rest on, themselves among them."""
    found, left = set(), list(roots)
    while left:
        one = left.pop()
        if one not in found:
            found.add(one)
            named = (meant(files, one[0], word) for word in files[one[0]].words(one[1]))
            left.extend(other for other in named if other)
    return found


def main():
    words = sys.argv[1:]
    rest = "--rest" in words
    words = [word for word in words if word != "--rest"]
    files = read()
    roots = [(file, name) for file, names in ([(words[0], words[1:])] if words else WORLD) for name in names]
    for file, name in roots:
        if file not in files or name not in files[file].lines:
            sys.exit(f"{file} has no {name}\n\n{__doc__}")
    found = rests_on(files, roots)
    lines = collections.Counter()
    for file, name in found:
        lines[file] += len(files[file].lines[name])
    whole = {file: sum(map(len, files[file].lines.values())) for file in lines}
    for file, count in lines.most_common():
        others = [name for name in files[file].lines if (file, name) not in found]
        print(f"{count:5} of {whole[file]:3} {file}" + (f"; besides: {' '.join(others)}" if rest and others else ""))
    print(f"{sum(lines.values()):5} lines of {len(found)} definitions are rested on; {sum(whole.values())} lines have their {len(lines)} files")


if __name__ == "__main__":
    main()
