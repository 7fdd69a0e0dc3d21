#!/usr/bin/env python3
"""scripts.py [PROGRAM]: runs the cases of tests/ on a built nvmed, and compares what it prints, what it reports and its status with what each
case wants. tests/README.md has the format of a case. Where no PROGRAM is given, it is crates/nvmed/out/nvmed, which `rt ci` leaves there.

Cases run side by side, one a processor, each run of the program for 60 seconds at most, or for LIMIT seconds where the environment has that: a
program that `./nvmed try` built without proofs (crates/nvmed/out/nvmed.tried) needs minutes for the longest. A line is printed for each case that
fails, with the first line that differs. The last line is 'N passed, M failed', and the status is 0 where M is 0."""
import concurrent.futures
import dataclasses
import glob
import os
import re
import subprocess
import sys
import time

sys.dont_write_bytecode = True
ROOT = os.path.dirname(os.path.dirname(os.path.abspath(__file__)))
TESTS = os.path.join(ROOT, "tests")
PROGRAM = os.path.join(ROOT, "crates", "nvmed", "out", "nvmed")
# the most seconds that a run of the program may take
LIMIT = float(os.environ.get("LIMIT", "60"))
# the most characters that are shown of a line
SHOWN = 100
NAMES = ("args", "stdin", "events", "stdout", "stderr", "status", "runs", "seconds", "rows")
ESCAPES = {"t": "\t", "r": "\r", "0": "\0", "\\": "\\"}


class BadCase(Exception):
    """A file of cases that cannot be read."""


@dataclasses.dataclass
class Case:
    """The words for the program and its input; what it is to print and to report, and its status; how often it runs, and its least seconds."""

    name: str
    args: list
    stdin: bytes
    stdout: bytes
    stderr: bytes
    status: int
    runs: int
    seconds: float


@dataclasses.dataclass
class Section:
    """A part of a file: its name, the number of its first line, and its lines."""

    name: str
    first: int
    lines: list


def sections_of(text):
    """The sections of a file of cases, without the comment before the first."""
    found = []
    for number, line in enumerate(text.split("\n"), 1):
        head = re.match(r"\[(\w+)\]", line)
        if head:
            if head[1] not in NAMES or (head[1] != "rows" and line != head[0]):
                raise BadCase(f"line {number}: no section begins so: {line}")
            if head[1] not in ("args", "rows") and any(section.name == head[1] for section in found):
                raise BadCase(f"line {number}: a second section {head[0]}")
            found.append(Section(head[1], number + 1, []))
        elif found:
            found[-1].lines.append(line)
    if not text.endswith("\n") or not any(section.name == "args" for section in found):
        raise BadCase("a file has a section [args], and ends with a line feed")
    # what comes after the last line feed is no line
    found[-1].lines.pop()
    return found


def spelled_out(lines):
    """The lines with what is repeated written out: 'N times: LINES', {A..B} and {TEXT*N}."""
    for line in lines:
        times = re.match(r"(\d+) times: (.*)", line)
        count, parts = (int(times[1]), times[2].split(";")) if times else (1, [line])
        made = [one for part in parts for one in numbered(part)]
        yield from [re.sub(r"\{([^{}*]*)\*(\d+)\}", lambda again: again[1] * int(again[2]), one) for one in made] * count


def numbered(line):
    """The line once for each number from A to B, where it has {A..B}, and else the line."""
    span = re.search(r"\{(\d+)\.\.(\d+)\}", line)
    if not span:
        return [line]
    first, last = int(span[1]), int(span[2])
    step = 1 if first <= last else -1
    return [line[: span.start()] + str(number) + line[span.end() :] for number in range(first, last + step, step)]


def whole(lines):
    """Lines as one text. The last has no line feed where it ends with a backslash."""
    text = "".join(line + "\n" for line in lines)
    return text[:-2] if text.endswith("\\\n") else text


def cell(text):
    """A cell of a row: `;` is a line feed, and \\t, \\r, \\0, \\\\ and \\xNN are single bytes."""

    def escaped(found):
        if found[0] == ";":
            return "\n"
        if found[1] in ESCAPES:
            return ESCAPES[found[1]]
        if not found[2]:
            raise BadCase(f"no byte is written so: {found[0]}")
        return bytes([int(found[2], 16)]).decode("utf-8", "surrogateescape")

    return re.sub(r";|\\(x([0-9a-f]{2})|.)", escaped, text)


def filled(text, cells):
    """A text with the row's cells in place of $1, $2 and so on."""

    def of_row(found):
        number = int(found[1])
        if not 1 <= number <= len(cells):
            raise BadCase(f"a row without a cell {number}")
        return cells[number - 1]

    return re.sub(r"\$(\d)", of_row, text)


def replies_of(events):
    """The lines of these events, and what `replay` prints of them: the reply after ` => `, or `done`."""
    split = [line.partition(" => ") for line in events]
    printed = [f"{number} {reply or 'done'}" for number, (_, _, reply) in enumerate(split, 1)]
    return [line for line, _, _ in split], [*printed, f"events {len(events)}"]


def cases_of(path, text):
    """The cases of a file: one for each row, or one where it has no rows, by each of its [args]."""
    sections = sections_of(text)
    lines = {name: list(spelled_out(section.lines)) for section in sections if (name := section.name) not in ("args", "rows")}
    if "events" in lines:
        if "stdout" in lines:
            raise BadCase("what is printed is written beside [events] or in [stdout]")
        events, lines["stdout"] = replies_of(lines.pop("events"))
        lines["stdin"] = [*lines.get("stdin", []), *events]
    texts = {name: whole(lines.get(name, [])) for name in ("stdin", "stdout", "stderr")}
    numbers = {name: "".join(lines.get(name, [default])) for name, default in (("status", "0"), ("runs", "1"), ("seconds", "0"))}
    forms = [section.lines for section in sections if section.name == "args"]
    tables = [section for section in sections if section.name == "rows"]
    rows = [(section.first + at, row) for section in tables for at, row in enumerate(section.lines) if row]
    if tables and not rows:
        raise BadCase("no rows")
    for number, row in rows or [(None, "")]:
        cells = [cell(part) for part in row.split("|")] if tables else None
        for form in forms:
            # without rows there is nothing to fill in, and a dollar sign is itself
            fill = (lambda text, cells=cells: filled(text, cells)) if tables else str
            args = [fill(word) for word in form]
            where = f"{path}:{number}" if tables else path
            name = f"{where} ({short(' '.join(args))})" if len(forms) > 1 else where
            yield Case(
                name,
                [os.fsencode(word) for word in args],
                **{name: fill(text).encode("utf-8", "surrogateescape") for name, text in texts.items()},
                status=int(fill(numbers["status"])),
                runs=int(numbers["runs"]),
                seconds=float(numbers["seconds"]),
            )


def files():
    """The path and the text of each file of cases, and of those that tests/generated.py makes."""
    for path in sorted(glob.glob(os.path.join(TESTS, "*", "*.case"))):
        with open(path, encoding="utf-8") as file:
            yield os.path.relpath(path, ROOT), file.read()
    sys.path.insert(0, TESTS)
    import generated

    for name, text in generated.files():
        yield f"tests/generated.py, {name}", text


def short(line):
    """A line as far as it is shown, whatever bytes it has."""
    text = line.decode("utf-8", "backslashreplace") if isinstance(line, bytes) else line
    return repr(text[:SHOWN] + (".." if len(text) > SHOWN else ""))


def difference(what, want, got):
    """The first line in which two texts differ, or `None` where they are the same."""
    if want == got:
        return None
    wanted, found = want.split(b"\n"), got.split(b"\n")
    at = next((at for at, (one, other) in enumerate(zip(wanted, found)) if one != other), min(len(wanted), len(found)))
    # from a little before the first byte that differs: a line may be long
    one, other = (lines[at] if at < len(lines) else None for lines in (wanted, found))
    start = 0
    if one is not None and other is not None:
        same = next((at for at, (a, b) in enumerate(zip(one, other)) if a != b), min(len(one), len(other)))
        start = max(0, same - SHOWN // 2)
    one, other = ("nothing more" if line is None else short(line[start:]) for line in (one, other))
    place = f", from byte {start + 1} on" if start else ""
    return f"{what} line {at + 1}{place}: {one} is wanted, and it is {other}"


def run_once(program, case):
    """What is wrong with a run of the program, or `None`."""
    begun = time.monotonic()
    try:
        ran = subprocess.run([program, *case.args], input=case.stdin, capture_output=True, timeout=LIMIT, check=False)
    except subprocess.TimeoutExpired:
        return f"it had not ended after {LIMIT:g} seconds"
    except OSError as error:
        return f"it does not start: {error.strerror}"
    took = time.monotonic() - begun
    wrong = [difference("standard output", case.stdout, ran.stdout), difference("standard error", case.stderr, ran.stderr)]
    if ran.returncode != case.status:
        wrong.append(f"the status is {ran.returncode}, and not {case.status}")
    if took < case.seconds:
        wrong.append(f"it took {took:.3f} seconds, and {case.seconds:g} are the least")
    return "; ".join(filter(None, wrong)) or None


def run(program, case):
    """What is wrong with the first run of a case that is not as it should be, or `None`."""
    return next(filter(None, (run_once(program, case) for _ in range(case.runs))), None)


def load():
    """All cases, and what is wrong with files that have none."""
    cases, wrong = [], []
    for path, text in files():
        try:
            cases.extend(cases_of(path, text))
        except (BadCase, ValueError) as error:
            wrong.append(f"{path}: {error}")
    return cases, wrong or ([] if cases else ["tests: no case"])


def main():
    if len(sys.argv) > 2 or sys.argv[1:2] in (["-h"], ["--help"]):
        sys.exit(__doc__)
    program = os.path.abspath(sys.argv[1]) if sys.argv[1:] else PROGRAM
    cases, wrong = load()
    passed = 0
    if not os.path.isfile(program):
        wrong.append(f"scripts.py: {os.path.relpath(program)} is not there, and no case was run")
        cases = []
    with concurrent.futures.ThreadPoolExecutor(len(os.sched_getaffinity(0))) as pool:
        for case, why in zip(cases, pool.map(lambda case: run(program, case), cases)):
            if why:
                wrong.append(f"{case.name}: {why}")
            else:
                passed += 1
    for why in wrong:
        print(why)
    print(f"{passed} passed, {len(wrong)} failed")
    sys.exit(bool(wrong))


if __name__ == "__main__":
    main()
