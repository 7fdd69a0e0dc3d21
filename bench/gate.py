#!/usr/bin/env python3
"""gate.py [WORD..]: runs `rt ci WORD..` at the top of the repository, and prints the processor seconds of each crate's proof, of its
tests' and of its edits. They are taken by looking at the processes twice a second, so half a second of each process may be missing.

With `--anew` everything is proved and tried. Where that is the only word and the gate passes, the table of docs/GATE.md is written anew;
the launcher reckons by it how long a build will take."""
import collections
import os
import subprocess
import sys
import textwrap
import threading
import time

import documents

ROOT = documents.ROOT
TICKS = os.sysconf("SC_CLK_TCK")
KINDS = ("proof", "tests", "edits")


def processes():
    """Each process with its parent, when it began, and its ticks so far."""
    found = {}
    for name in filter(str.isdigit, os.listdir("/proc")):
        try:
            with open(f"/proc/{name}/stat", encoding="utf-8", errors="replace") as stat:
                words = stat.read().rpartition(")")[2].split()
        except OSError:
            continue
        found[int(name)] = int(words[1]), int(words[19]), int(words[11]) + int(words[12])
    return found


def own_label(process):
    """The crate that a process of the prover is at, and whether it tries an edit, or proves tests."""
    try:
        with open(f"/proc/{process}/cmdline", encoding="utf-8", errors="replace") as line:
            words = line.read().split("\0")
        folder = os.path.basename(os.readlink(f"/proc/{process}/cwd"))
    except OSError:
        return None
    if "--crate-name" not in words:
        return None
    kind = "edits" if folder.startswith("rt-edit") else "tests" if "--test" in words else "proof"
    return words[words.index("--crate-name") + 1], kind


class Sampler:
    """Adds up what was spent since the last look, each process for the nearest above it that has a label."""

    def __init__(self, gate):
        self.gate = gate
        self.labels = {}
        self.seen = {}
        self.spent = collections.Counter()

    def label(self, process, found):
        """The label of a process of the gate; `None` where it isn't one."""
        nearest = None
        while process in found:
            if process == self.gate:
                return nearest or ("rt ci", "itself")
            key = process, found[process][1]
            if self.labels.get(key) is None:
                self.labels[key] = own_label(process)
            nearest = nearest or self.labels[key]
            process = found[process][0]
        return None

    def look(self):
        found = processes()
        for process, (_, begun, ticks) in found.items():
            label = self.label(process, found)
            if label is not None:
                key = process, begun
                self.spent[label] += ticks - self.seen.get(key, 0)
                self.seen[key] = ticks


def pass_on(output, lines):
    """Prints what the gate says as it comes, and keeps its lines."""
    for line in output:
        print(line, end="", flush=True)
        lines.append(line.rstrip("\n"))


def table(rows):
    """The rows of the crates, in the order of crates.txt, and the sum of all."""
    lines = ["| Crate | Proof | Tests | Edits | They cost |", "|---|---|---|---|---|"]
    sums = collections.Counter()
    for _, _, crates in documents.groups():
        for crate in crates:
            edits = len(documents.edits_of(crate))
            cells = [f"{rows[crate].get(kind, 0):.0f}" if rows[crate].get(kind) else "" for kind in KINDS]
            lines.append(documents.gate_row(f"`{crate}`", cells[0], cells[1], edits or "", cells[2]))
            sums.update({**rows[crate], "number": edits})
    lines.append(f"| all | {sums['proof']:.0f} | {sums['tests']:.0f} | {sums['number']} | {sums['edits']:.0f} |")
    return lines


def command():
    """`rt ci` with the words given. Some kits prove everything anew at each run, and know no `--anew`."""
    usage = subprocess.run(["rt", "help"], stderr=subprocess.STDOUT, stdout=subprocess.PIPE, text=True, check=False).stdout
    return ["rt", "ci", *(word for word in sys.argv[1:] if word != "--anew" or "--anew" in usage)]


def main():
    begun = time.time()
    gate = subprocess.Popen(command(), cwd=ROOT, stdout=subprocess.PIPE, text=True, errors="replace")
    said = []
    reader = threading.Thread(target=pass_on, args=(gate.stdout, said))
    reader.start()
    sampler = Sampler(gate.pid)
    while gate.poll() is None:
        sampler.look()
        time.sleep(0.5)
    reader.join()
    rows = collections.defaultdict(dict)
    for (crate, kind), ticks in sampler.spent.items():
        rows[crate][kind] = ticks / TICKS
    for crate, row in sorted(rows.items(), key=lambda item: -sum(item[1].values())):
        print(f"{crate:20} {sum(row.values()):7.0f}", " ".join(f"{kind} {spent:.0f}" for kind, spent in sorted(row.items())))
    minutes = sum(sampler.spent.values()) / TICKS / 60, (time.time() - begun) / 60
    print(f"{minutes[0]:.0f} processor minutes in {minutes[1]:.0f} minutes")
    if sys.argv[1:] == ["--anew"] and gate.returncode == 0:
        kit = subprocess.run(["rt", "version"], capture_output=True, text=True, check=False).stdout.strip()
        run = (
            f"{time.strftime('%Y-%m-%d')}, {os.cpu_count()} cores, `{kit}`: {minutes[0]:.0f} minutes of processor time in {minutes[1]:.0f},"
            f" {sum(rows['rt ci'].values()):.0f} seconds of them `rt`'s own; {said[-1] if said else ''}."
        )
        documents.put("docs/GATE.md", [*textwrap.wrap(run, documents.WIDTH - 10), "", *table(rows)], "gate")
    sys.exit(gate.returncode)


if __name__ == "__main__":
    main()
