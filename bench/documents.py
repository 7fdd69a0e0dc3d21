#!/usr/bin/env python3
"""documents.py [--write]: whether the documents say what the crates say, in plain words. Prints a line for each thing that is off,
and ends with status 1 where there is one. With --write the table of docs/EDITS.md and the numbers of lines in docs/DEFINITIONS.md are
written anew first, and docs/GATE.md gets a row for each new crate.

Checked are: the width of all pages; words of the private dialect; a row of docs/CRATES.md for each crate; the codes of docs/STATUS.md; the
first line and the history of docs/PERF.md; the edits of docs/EDITS.md, and whether the code has what each turns; the lines of each file in
docs/DEFINITIONS.md; a row of docs/GATE.md for each crate; the sentences on what is promised of a host, on each page that has them; the picture of the parts; links, and
names of files, crates and code in backquotes; and long lines of code, definitions and proofs."""
import fnmatch
import glob
import os
import re
import subprocess
import sys

import turns

ROOT = os.path.dirname(os.path.dirname(os.path.abspath(__file__)))
README_WIDTH = 120
WIDTH = 160
# of the history in docs/PERF.md
HISTORY_LINES = 60
# words of the private dialect, which a page has only in names of code, each with what to write
DIALECT = {
    "behind": "after",
    "told": "reported",
    "tell": "report",
    "tells": "reports",
    "in vain": "never met",
    "rung": "notified",
    "want of memory": "out of memory",
    "wrong body": "wrong implementation",
    "wrong bodies": "wrong implementations",
}
LONG = 200
LONG_LINES = 300
# what is promised of a host, in the same words on each of these pages
HOSTS = (
    "Proved: whatever guests and the drive have left in memory when a call begins, the call is safe, ends, and does what the definition's step does with "
    "those bytes, as long as nobody else writes there until it returns (IsDone of nv_host). Then it changes nothing of another guest's, depends on nothing "
    "of another's, and names nothing of another's to the drive (the_code_is_contained of nv_laws_machine). Proved where a log of the definition's events "
    "leads to that moment: what a disciplined guest has seen, and has, is a run of its private controller (IsPromised of nv_host). A host with a real "
    "drive, or with guests that run meanwhile, isn't at such a moment at every call."
)
HOSTS_PAGES = ("README.md", "docs/PROMISES.md", "docs/EMBEDDING.md", "docs/HOSTING.md", "include/nvmed.h")
PERF = "Start: 4466b48d1733cc7975d6a2b277906902cf51a675 is the last commit landed before the work for speed began."
BEGIN = "<!-- written by bench/%s.py -->"
END = "<!-- as far as here -->"
DEFINITIONS = "docs/DEFINITIONS.md"
# statuses that no check gives
GIVEN_BY_THE_DRIVE = {"UnrecoveredReadError"}
# the crates all of whose definitions are worked examples
LOGS = {"nv_examples", "nv_examples_host"}
# names of the toolchain's that documents speak of
FOREIGN = {"as_flattened_mut"}


def read(path):
    with open(os.path.join(ROOT, path), encoding="utf-8") as file:
        return file.read()


def pages():
    return ["README.md", *sorted(os.path.basename(path) for path in glob.glob(os.path.join(ROOT, "[!R]*.md"))), *sorted(os.path.relpath(path, ROOT) for path in glob.glob(os.path.join(ROOT, "docs", "*.md")))]


def groups():
    """The groups of crates.txt, each with its comment and the names of its crates, in their order."""
    found = []
    for line in read("crates.txt").splitlines():
        comment = re.match(r"# *([^:]+): *(.+)", line)
        if comment:
            found.append((comment[1], comment[2], []))
        elif line.strip() and not line.startswith("#"):
            name = re.split(r"[ :]", line)[0]
            if not found:
                found.append(("no group", "", []))
            found[-1][2].append(name)
    return found


def edits_of(crate):
    return sorted(os.path.basename(path)[: -len(".edit")] for path in glob.glob(os.path.join(ROOT, "crates", crate, "must-fail", "*.edit")))


def edits_table():
    return [f"- `{crate}`: `{edit}`" for _, _, crates in groups() for crate in crates for edit in edits_of(crate)]


def lines_of(cell):
    """How many lines the files of definitions have that a cell names; `None` where one is not there. A name behind another is of its crate."""
    lines, folder = 0, ""
    for name in re.findall(r"`([^`]+)`", cell):
        folder = name[: name.index("/specs/") + len("/specs/")] if "/specs/" in name else folder
        files = glob.glob(os.path.join(ROOT, "crates", folder, os.path.basename(name) + ".antt"))
        if not files:
            return None
        lines += sum(len(read(file).splitlines()) for file in files)
    return lines


def counted(text):
    """The page of definitions with the number of lines in each row as it is now."""
    return re.sub(r"^((`\w+/specs/[^|]+) \| )(\d+) \|", lambda row: f"{row[1]}{lines_of(row[2])} |", text, flags=re.M)


TABLES = {"docs/EDITS.md": edits_table}


def parts_of(path, by="documents"):
    """What stands in a page before the part that a program writes, that part, and what stands behind it; `None` where there is none."""
    before, begin, rest = read(path).partition(BEGIN % by + "\n")
    part, end, after = rest.partition(END)
    return (before + begin, part, end + after) if begin and end else None


def put(path, lines, by="documents"):
    """Writes that part of a page anew."""
    before, _, after = parts_of(path, by)
    with open(os.path.join(ROOT, path), "w", encoding="utf-8") as file:
        file.write(before + "\n".join(["", *lines, "", ""]) + after)


def gate_row(*cells):
    """A row of the gate's table, without the empty cells at its end."""
    return f"| {' | '.join(map(str, cells)).rstrip(' |')} |"


def gate_rows():
    """What gate.py wrote, with a row for each crate that there is: one without numbers for a crate that is newer."""
    lines = parts_of("docs/GATE.md", "gate")[1].strip().splitlines()
    rows = {name[1]: line for line in lines if (name := re.match(r"\| `(\w+)` \|", line))}
    first = next(number for number, line in enumerate(lines) if line in rows.values())
    new = [rows.get(crate, gate_row(f"`{crate}`", "", "", len(edits_of(crate)) or "")) for _, _, crates in groups() for crate in crates]
    return [*lines[:first], *new, *(line for line in lines[first:] if line not in rows.values())]


def write():
    for path, table in TABLES.items():
        if parts_of(path):
            put(path, table())
    put("docs/GATE.md", gate_rows(), "gate")
    text = counted(read(DEFINITIONS))
    with open(os.path.join(ROOT, DEFINITIONS), "w", encoding="utf-8") as file:
        file.write(text)


def check_tables():
    for path, table in TABLES.items():
        parts = parts_of(path)
        if not parts:
            yield f"{path}: the part that is written has no beginning or no end"
        elif parts[1].strip().splitlines() != table():
            yield f"{path}: its table is not what the crates say: bench/documents.py --write"
    if counted(read(DEFINITIONS)) != read(DEFINITIONS):
        yield f"{DEFINITIONS}: a file has another number of lines, or is not there: bench/documents.py --write"


def prose(path):
    """The lines of a page with their numbers, without code, names in backquotes and what a program writes."""
    is_code = is_written = False
    for number, line in enumerate(read(path).splitlines(), 1):
        is_written = is_written and line != END or re.fullmatch(BEGIN % r"\w+", line) is not None
        is_code = is_code != line.startswith("```")
        if not is_code and not is_written:
            yield number, re.sub(r"`[^`]*`", "", line)


def check_dialect():
    for path in pages():
        for number, line in prose(path):
            for word in re.findall(rf"\b(?:{'|'.join(DIALECT)})\b", line, re.I):
                yield f"{path}:{number}: \"{word}\", where plain words are \"{DIALECT[word.lower()]}\""


def check_status():
    """Whether the table of statuses has each code that a check gives."""
    text = read("docs/STATUS.md")
    for name, code in re.findall(r"^sc_of (\w+) = 0x(\w+)", read("crates/nv_entry/specs/StatusCode.antt"), re.M):
        if name not in GIVEN_BY_THE_DRIVE and f"{code.upper()}h" not in text:
            yield f"docs/STATUS.md: nothing of {code.upper()}h, {name}"


def check_widths():
    for path in pages():
        most = README_WIDTH if path == "README.md" else WIDTH
        for number, line in enumerate(read(path).splitlines(), 1):
            if len(line) > most:
                yield f"{path}:{number}: {len(line)} characters, and {most} are the most"


def check_rows(crates):
    rows = re.findall(r"^\| `(\w+)` \| \w", read("docs/CRATES.md"), re.M)
    if rows != crates:
        yield f"docs/CRATES.md: its rows are not crates.txt's, in order: {sorted(set(rows) ^ set(crates))}"


def check_perf():
    if read("docs/PERF.md").splitlines()[0] != PERF:
        yield "docs/PERF.md: its first line is another"
    history = read("docs/PERF.md").partition("\n## History\n")[2].count("\n")
    if history > HISTORY_LINES:
        yield f"docs/PERF.md: {history} lines of history, and {HISTORY_LINES} are the most"


def check_gate(crates):
    rows = re.findall(r"^\| `(\w+)` \|", read("docs/GATE.md"), re.M)
    for crate in crates:
        if rows.count(crate) != 1:
            yield f"docs/GATE.md: {rows.count(crate)} rows of {crate}"
    for row in rows:
        if row not in crates:
            yield f"docs/GATE.md: a row of {row}, which crates.txt has not"


def check_edits(crates):
    """Whether the code has what each edit turns: `rt ci` passes where an edit cannot be made."""
    for crate in crates:
        for edit in edits_of(crate):
            path = f"crates/{crate}/must-fail/{edit}.edit"
            if not turns.stands(turns.pairs(read(path)), os.path.join(ROOT, "crates", crate)):
                yield f"{path}: a text that it turns does not stand in its file once"


def check_crates(crates):
    there = [os.path.basename(os.path.dirname(path)) for path in glob.glob(os.path.join(ROOT, "crates", "*", "src"))]
    for crate in sorted(set(there) ^ set(crates)):
        yield f"crates.txt: {crate} stands there or in crates/, and not in both"


def check_names(crates):
    """Links between pages, and what stands in backquotes and looks like the path of a file of the repository or the name of a crate."""
    for path in pages():
        text = read(path)
        here = os.path.dirname(os.path.join(ROOT, path))
        for target in re.findall(r"\]\(([^)#\s]+)[^)]*\)", text):
            if "://" not in target and not os.path.exists(os.path.join(here, target)):
                yield f"{path}: a link to {target}, which is not there"
        for name in re.findall(r"`((?:docs|bench|examples|tests|\.ci)/[\w./-]*)", text):
            if not os.path.exists(os.path.join(ROOT, name)):
                yield f"{path}: {name} is not there"
        for crate, file in re.findall(r"`(nv_\w+|nvmed)/((?:specs|src|proofs)(?:/\w+)*)", text):
            parts = os.path.join(ROOT, "crates", crate, file)
            if not any(os.path.exists(parts + end) for end in ("", ".antt", ".rt")) and not glob.glob(parts + "*"):
                yield f"{path}: {crate}/{file} is not there"
        for crate in re.findall(r"`(nv_\w+)(?=[`:/])", text):
            if crate not in crates:
                yield f"{path}: {crate} is no crate"


def sources():
    """The text of each file of code, definitions, proofs and scripts."""
    for pattern in ("nvmed", "crates.txt", "crates/**/*", "bench/**/*", "host/**/*", "examples/**/*", "tests/**/*"):
        for path in glob.glob(os.path.join(ROOT, pattern), recursive=True):
            if os.path.isfile(path) and not re.search(r"/out/|/target/|__pycache__", path):
                with open(path, encoding="utf-8", errors="replace") as file:
                    yield path, file.read()


def check_definitions():
    """Whether each file of definitions stands in their page, by its name or by one with a star."""
    named = [os.path.basename(name) for name in re.findall(r"`([^`\n]+)`", read(DEFINITIONS))]
    for path in sorted(glob.glob(os.path.join(ROOT, "crates", "*", "specs", "*.antt"))):
        crate, _, file = os.path.relpath(path, os.path.join(ROOT, "crates")).split(os.sep)
        name = file[: -len(".antt")]
        if name != "Lib" and crate not in LOGS and not any(fnmatch.fnmatch(name, pattern) for pattern in named):
            yield f"{DEFINITIONS}: {crate}/specs/{name} is not there"


def check_hosts():
    """The sentences on what is promised of a host, on each page that has them."""
    for path in HOSTS_PAGES:
        words = re.sub(r"^ \* ?|`", "", read(path), flags=re.M).split()
        if HOSTS not in " ".join(words):
            yield f"{path}: what is promised of a host does not stand there in the words of bench/documents.py"


def check_picture():
    """Whether the picture of the parts is the one that its script draws."""
    drawn = subprocess.run([sys.executable, os.path.join(ROOT, "bench", "architecture.py")], capture_output=True, text=True, check=False)
    if drawn.returncode:
        yield drawn.stderr.strip()
    elif drawn.stdout != read("docs/architecture.svg"):
        yield "docs/architecture.svg: it is not what bench/architecture.py draws"


def check_code():
    """Long lines; and names in backquotes that look like names of code, and stand in no source."""
    long_lines, words = 0, set(FOREIGN)
    for path, text in sources():
        words.update(re.findall(r"\w[\w-]*", text), re.findall(r"\w+", text))
        words.add(os.path.splitext(os.path.basename(path))[0])
        if path.endswith((".rt", ".antt")):
            long_lines += sum(len(line.encode()) > LONG for line in text.split("\n"))
    if long_lines >= LONG_LINES:
        yield f"crates/: {long_lines} lines of over {LONG} bytes, and fewer than {LONG_LINES} are wanted"
    for path in pages():
        prose = re.sub(r"```.*?```", "", read(path), flags=re.S)
        for code in re.findall(r"`([^`\n]+)`", prose):
            for name in re.findall(r"[A-Za-z][\w-]*", code):
                if re.search(r"_|[a-z][A-Z]", name) and not {name, name.rstrip("-")} & words:
                    yield f"{path}: `{code}` names {name}, which no source has"


def main():
    if sys.argv[1:] not in ([], ["--write"]):
        sys.exit(__doc__)
    if sys.argv[1:]:
        write()
    crates = [crate for _, _, names in groups() for crate in names]
    off = [
        *check_crates(crates),
        *check_widths(),
        *check_dialect(),
        *check_status(),
        *check_rows(crates),
        *check_perf(),
        *check_tables(),
        *check_gate(crates),
        *check_edits(crates),
        *check_names(crates),
        *check_definitions(),
        *check_hosts(),
        *check_picture(),
        *check_code(),
    ]
    print("\n".join(off) if off else f"{len(pages())} pages and {len(crates)} crates: nothing is off")
    sys.exit(bool(off))


if __name__ == "__main__":
    main()
