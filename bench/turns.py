#!/usr/bin/env python3
"""turns.py CRATE..: tries each turn of the crates' must-fail edits by itself, where the gate tries those of a file together. It does so in
a copy of this repository, by `rt must-fail`, which says of each turn whether it is refused and by which function, and gives its status.

A turn is a pair of lines `old:` and `new:`. One whose old text stands there once only behind earlier ones goes with these."""
import glob
import os
import shutil
import subprocess
import sys
import tempfile

ROOT = os.path.dirname(os.path.dirname(os.path.abspath(__file__)))


def read(path):
    with open(path, encoding="utf-8") as text:
        return text.read()


def pairs(edit):
    """The file, the old text and the new one of each pair of an edit's text."""
    file = old = None
    for line in edit.splitlines():
        word, _, rest = line.partition(":")
        if word == "file":
            file = rest.strip()
        elif word == "old":
            old = rest.removeprefix(" ")
        elif word == "new":
            yield file, old, rest.removeprefix(" ")


def stands(turn, crate):
    """Whether each old text of these pairs stands in its file once when it is its turn."""
    texts = {}
    for file, old, new in turn:
        path = f"{crate}/{file}"
        if not os.path.isfile(path):
            return False
        text = texts.get(file) or read(path)
        if text.count(old) != 1:
            return False
        texts[file] = text.replace(old, new)
    return True


def turns(edit, crate):
    """The edit's turns, each a list of pairs that are an edit by themselves."""
    found = []
    for pair in pairs(edit):
        turn = [pair]
        while found and not stands(turn, crate):
            turn = found.pop() + turn
        found.append(turn)
    return found


def split(crate):
    """Puts a file for each turn in the place of the crate's edits."""
    for path in glob.glob(f"{crate}/must-fail/*.edit"):
        for number, turn in enumerate(turns(read(path), crate), 1):
            with open(f"{path.removesuffix('.edit')}.{number}.edit", "w", encoding="utf-8") as text:
                text.writelines(f"file: {file}\nold: {old}\nnew: {new}\n" for file, old, new in turn)
        os.remove(path)


def main():
    crates = sys.argv[1:]
    if not crates:
        sys.exit(__doc__)
    with tempfile.TemporaryDirectory() as copy:
        shutil.copytree(f"{ROOT}/crates", f"{copy}/crates", ignore=shutil.ignore_patterns("out"))
        for name in ("crates.txt", "HANDLES"):
            shutil.copy(f"{ROOT}/{name}", copy)
        for crate in crates:
            split(f"{copy}/crates/{crate}")
        sys.exit(subprocess.run(["rt", "must-fail", *crates], cwd=copy, check=False).returncode)


if __name__ == "__main__":
    main()
