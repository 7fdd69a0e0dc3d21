#!/usr/bin/env python3
"""covered.py: how many lines of a crate its tests have reached, by what `llvm-cov export --format=lcov` writes.

    covered.py [--missing] FOLDER PERCENT < LINES

It prints a line for each file below FOLDER, and one for all; with --missing the lines that were not reached, too. What is built for tests alone does not
count: files of modules with `#[cfg(test)]`, and items with it. The status is 0 where PERCENT of all lines or more were reached, and 1 else."""
import glob
import os
import re
import sys

TEST = re.compile(r"^(\s*)#\[cfg\(test\)\]$")
MODULE = re.compile(r"^\s*(?:pub(?:\([a-z]+\))? )?mod ([a-z0-9_]+);$")
PATH = re.compile(r'^\s*#\[path = "([^"]+)"\]$')


def read(path):
    with open(path, encoding="utf-8") as file:
        return file.read().split("\n")


def submodule(path, name, given):
    """The file and the folder of a module that a file declares."""
    folder, file = os.path.split(path)
    if given:
        return [os.path.normpath(os.path.join(folder, given))]
    if file not in ("mod.rs", "lib.rs", "main.rs"):
        folder = os.path.join(folder, file.removesuffix(".rs"))
    return [os.path.join(folder, name + ".rs"), os.path.join(folder, name) + os.sep]


def for_tests(path):
    """Of one file: the numbers of its lines that are built for tests alone, and the files and folders of such modules."""
    lines = read(path)
    numbers, elsewhere = set(), []
    for start, line in enumerate(lines):
        test = TEST.match(line)
        if not test or start in numbers:
            continue
        indent, given, at = test.group(1), None, start + 1
        while lines[at].lstrip().startswith(("#[", "//")):
            named = PATH.match(lines[at])
            given = named.group(1) if named else given
            at += 1
        module = MODULE.match(lines[at])
        if module:
            elsewhere += submodule(path, module.group(1), given)
        elif not lines[at].endswith(";"):
            # rustfmt puts an item's last brace below its first word
            while lines[at] != indent + "}":
                at += 1
        numbers.update(range(start, at + 1))
    return {number + 1 for number in numbers}, elsewhere


def counted(text, folder):
    """By file: how often each line with code was reached."""
    files, lines = {}, {}
    for line in text:
        kind, _, rest = line.rstrip("\n").partition(":")
        if kind == "SF":
            path = os.path.realpath(rest)
            lines = files.setdefault(path, {}) if path.startswith(folder + os.sep) else {}
        elif kind == "DA":
            number, count = rest.split(",")[:2]
            lines[int(number)] = lines.get(int(number), 0) + int(count)
    return files


def ranges(numbers):
    """Numbers as text, those in a row as one."""
    rows = []
    for number in sorted(numbers):
        if rows and rows[-1][1] == number - 1:
            rows[-1][1] = number
        else:
            rows.append([number, number])
    return " ".join(str(first) if first == last else f"{first}-{last}" for first, last in rows)


def main():
    words = sys.argv[1:]
    missing = words[:1] == ["--missing"]
    if missing:
        words.pop(0)
    if len(words) != 2:
        sys.exit(__doc__)
    folder, wanted = os.path.realpath(words[0]), float(words[1])
    files = counted(sys.stdin, folder)
    if not files:
        sys.exit("covered.py: no line of the crate was counted")
    own, elsewhere = {}, []
    for path in glob.glob(os.path.join(folder, "**", "*.rs"), recursive=True):
        own[path], others = for_tests(path)
        elsewhere += others
    all_lines = all_reached = 0
    for path in sorted(files):
        if any(path == it or it.endswith(os.sep) and path.startswith(it) for it in elsewhere):
            continue
        lines = {number: count for number, count in files[path].items() if number not in own[path]}
        reached = sum(count > 0 for count in lines.values())
        all_lines += len(lines)
        all_reached += reached
        if lines:
            print(f"{100 * reached / len(lines):6.1f}  {reached:5} of {len(lines):5}  {os.path.relpath(path, folder)}")
        if missing and reached < len(lines):
            print(f"        {ranges(number for number, count in lines.items() if count == 0)}")
    percent = 100 * all_reached / all_lines
    print(f"{percent:.1f} percent: {all_reached} of {all_lines} lines are reached")
    sys.exit(percent < wanted)


if __name__ == "__main__":
    main()
