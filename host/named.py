#!/usr/bin/env python3
"""named.py: whether the tests that a page names in its table "What a program like this gets wrong" were run.

    named.py PAGE RUNS < OUTPUT

OUTPUT is what `cargo test` printed, and RUNS a folder with a file for each run of bench/vm.sh. The table's last column has parts with semicolons between them:
a place and its tests, as in "`drive::ram`: `no_wait_is_long`"; a file of tests alone, as in "`ram_kill`"; a run, as in "run `faults`"; or other words. A place
is a module of nvmed-host or a file of its folder `tests`; after a crate's name stand such files by their paths. It prints what was not found, and a part with
an underscore that has none of these forms. The status is 0 where there is none."""
import os
import re
import sys

HEADING = "## What a program like this gets wrong"
RUNNING = re.compile(r"^ +Running (?:unittests )?(\S+) \(\S*/(\w+)-[0-9a-f]+\)$")
TEST = re.compile(r"^test (\S+)(?: - should panic)? \.\.\. (?!ignored)")
PLACE = re.compile(r"`([\w:]+)`: (`[^`]+`(?:, `[^`]+`)*)")
FILE = re.compile(r"`(\w+)`")
RUN = re.compile(r"run `(\w+)`.*")


def parts(page):
    """The parts of the table's last column."""
    lines = page.split("\n")
    table = lines[lines.index(HEADING) + 1 :] if HEADING in lines else []
    for line in table:
        if line.startswith("#"):
            return
        if " | " in line:
            yield from (part.strip() for part in line.rsplit(" | ", 1)[1].split(";"))


def tests(output):
    """The paths of the tests that were run; for those of a folder `tests` the file's name is first."""
    found, file = set(), ""
    for line in output:
        running, test = RUNNING.match(line), TEST.match(line)
        if running:
            file = running.group(2) + "::" if running.group(1).startswith("tests/") else ""
        elif test:
            found.add(file + test.group(1))
    return found


def absent(part, found, runs):
    """The names of a part that were not found."""
    place, file, run = PLACE.fullmatch(part), FILE.fullmatch(part), RUN.fullmatch(part)
    if run:
        return [] if run.group(1) in runs else [part]
    if file:
        return [] if any(path.startswith(file.group(1) + "::") for path in found) else [part]
    if not place:
        return [part] if "_" in part else []
    wanted = []
    for name in re.findall("`([^`]+)`", place.group(2)):
        path = re.fullmatch(r"tests/(\w+)\.rs", name)
        first, last = (path.group(1) + "::", "") if path else (place.group(1) + "::", "::" + name)
        if not any(it.startswith(first) and it.endswith(last) for it in found):
            wanted.append(f"{place.group(1)}: {name}")
    return wanted


def main():
    if len(sys.argv) != 3:
        sys.exit(__doc__)
    with open(sys.argv[1], encoding="utf-8") as page:
        named = list(parts(page.read()))
    if not named:
        sys.exit("named.py: the page has no such table")
    runs = {name.removesuffix(".sh") for name in os.listdir(sys.argv[2])}
    found = tests(line.rstrip("\n") for line in sys.stdin)
    wrong = [name for part in named for name in absent(part, found, runs)]
    for name in wrong:
        print(f"named.py: no test and no run that the page names so: {name}")
    sys.exit(bool(wrong))


if __name__ == "__main__":
    main()
