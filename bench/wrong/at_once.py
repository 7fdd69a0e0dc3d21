#!/usr/bin/env python3
"""at_once.py LIST [NAME..]: tries the bugs of a list of bugs.py against the proofs of their crates, all of a crate in one check.

For each bug a copy of its function is put behind it, with a name of its own, the same contract, and copies of its proof's files, in a copy
of the repository. What a copy calls is right, so none waits for another's proof. Prints of each bug whether its function's goals refuse it,
or only the names that its proof cites (which shows nothing of the contract), or that it is proved; and what was said. A bug that does not
compile is named, and then none of its crate is judged. A bug that is not inside of one function, or in a trait's method, is left out."""
import os
import re
import shutil
import subprocess
import sys
import tempfile
import time

import bugs

ROOT = os.path.dirname(os.path.dirname(os.path.dirname(os.path.abspath(__file__))))
HEAD = re.compile(r"^( *)(?:pub(?:\([^)]*\))? )?(?:const )?fn (\w+)", re.M)


def read(path):
    with open(path, encoding="utf-8") as text:
        return text.read()


def write(path, text):
    with open(path, "w", encoding="utf-8") as out:
        out.write(text)


def function_at(text, begin, end):
    """The begin, end and name of the function that a part of a text lies in, or None."""
    heads = [head for head in HEAD.finditer(text) if head.start() < (begin + end) // 2]
    if not heads:
        return None
    head = heads[-1]
    last = f"\n{head.group(1)}}}\n"
    stop = text.index(last, head.start()) + len(last)
    start = head.start()
    line = text.rfind("\n", 0, start - 1) + 1
    while text[line:start].strip().startswith("#["):
        start, line = line, text.rfind("\n", 0, line - 1) + 1
    return (start, stop, head.group(2)) if start <= begin and end <= stop else None


def copy_proofs(folder, function, name):
    """Copies the proofs of a function for its copy."""
    for above, below, _ in list(os.walk(folder)):
        for proofs in below:
            if proofs.lstrip("+") == function:
                to = os.path.join(above, proofs.replace(function, name))
                shutil.copytree(os.path.join(above, proofs), to)
                for file in os.listdir(to):
                    text = read(os.path.join(to, file))
                    text = re.sub(rf"(proofs\.[\w.+]*\b){function}\.(Goals|Given)", rf"\g<1>{name}.\2", text)
                    write(os.path.join(to, file), re.sub(rf"decreases-{function}\b", f"decreases-{name}", text))


def place(crate, tried):
    """Puts the copies into a crate's folder, and gives their names."""
    made, copies = {}, {}
    for bug, _, file, old, new in tried:
        text = read(f"{crate}/{file}")
        at = text.find(old)
        found = function_at(text, at, at + len(old)) if text.count(old) == 1 else None
        if not found:
            print(bug, "is left out: its text stands there", text.count(old), "times, or not in one function")
            continue
        start, stop, function = found
        name = f"{function}_{bug.replace('-', '_')}"
        body = text[start:stop].replace(old, new)
        body = re.sub(rf"(?:pub(?:\([^)]*\))? )?((?:const )?)fn {function}\b", rf"pub \1fn {name}", body, count=1)
        copies.setdefault(file, []).append((stop, "\n" + body))
        made[bug] = name
        copy_proofs(f"{crate}/proofs/{file[len('src/'):-len('.rt')]}", function, name)
    for file, parts in copies.items():
        text = read(f"{crate}/{file}")
        for stop, body in sorted(parts, key=lambda part: -part[0]):
            text = text[:stop] + body + text[stop:]
        write(f"{crate}/{file}", text)
    # a copy that is seen from outside is checked
    for above, _, files in os.walk(f"{crate}/src"):
        for file in files:
            path = os.path.join(above, file)
            if file in ("lib.rt", "mod.rt"):
                write(path, re.sub(r"^(?:pub )?mod (\w+);", r"pub mod \1;", read(path), flags=re.M))
    return made


def judged(name, lines):
    """What a check said of a copy."""
    wrong, names = [], []
    for line in lines:
        error = re.match(r"\./proofs/([^:]*)/\w+\.antt:\d+:\d+: error: (.*)", line)
        if error and error.group(1).split("/")[-1].lstrip("+") == name:
            (names if "can be named" in line else wrong).append(error.group(2))
        goals = re.match(rf"fn \S*::{name}: .*did not prove (.*?)(?:; it calls|$)", line)
        if goals:
            wrong.append(goals.group(1))
    if wrong or names:
        return ("refused by " if wrong else "NAMES ALONE ") + "; ".join(wrong or names)[:150]
    said = [line for line in lines if re.match(rf"fn \S*::{name}: ", line)]
    return "THROUGH" if said and all(line.endswith(": proved") for line in said) else "NOT JUDGED " + "; ".join(said)[:150]


def main():
    if len(sys.argv) < 2 or not isinstance(getattr(bugs, sys.argv[1], None), list):
        sys.exit(__doc__)
    names = set(sys.argv[2:])
    tried = [bug for bug in getattr(bugs, sys.argv[1]) if not names or bug[0] in names]
    with tempfile.TemporaryDirectory() as folder:
        copy = os.path.join(folder, "copy")
        shutil.copytree(ROOT, copy, ignore=shutil.ignore_patterns(".git"), symlinks=True)
        for crate in dict.fromkeys(bug[1] for bug in tried):
            path = f"{copy}/crates/{crate}"
            made = place(path, [bug for bug in tried if bug[1] == crate])
            begun = time.time()
            done = subprocess.run(["rt", "check"], cwd=path, capture_output=True, text=True)
            lines = (done.stdout + done.stderr).splitlines()
            print(f"{crate}: {len(made)} bugs in {time.time() - begun:.0f} s")
            for line in lines:
                if re.match(r"src/\S+:\d+:\d+: error", line):
                    print(line)
            for bug, name in made.items():
                print(bug, judged(name, lines), flush=True)


main()
