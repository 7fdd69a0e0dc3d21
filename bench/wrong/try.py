#!/usr/bin/env python3
"""try.py LIST [NAME..]: tries wrong definitions or bugs, one by one, in the repository that this file stands in, which it changes
and puts back; so run it in a clone. LIST is LISTS, WORLD, MORE_LISTS, MORE_WORLD, FRONT_WORDS,
FRONT_STATEMENTS or MACHINE (definitions.py), ONCE, WORKERS, PRINT, RUN_SCRIPT,
ONCE_SCRIPT_MORE or REPLAY_SCRIPT (bugs.py; at_once.py asks the proofs alone, and of a whole list in one check).

A definition is tried against the computed examples, lowest crate first; a bug against the proofs of its crate and, where these let it
through, the tests that run it. Prints of each who refused it, or THROUGH, and the seconds that it took."""
import os
import re
import subprocess
import sys
import time

import bugs
import definitions

ROOT = os.path.dirname(os.path.dirname(os.path.dirname(os.path.abspath(__file__))))
EXAMPLES = [("nv_model", ["--only", "rows"]), ("nv_world_model", ["--only", "rows"]), ("nv_examples", [])]
ALL = [(crate, ["check", *only]) for crate, only in EXAMPLES]
HOST = [("nv_examples_host", ["check"])]
# each list, and the commands that it goes through: a crate with the words for rt
TRIALS = {
    "LISTS": (definitions.LISTS, ALL),
    "WORLD": (definitions.WORLD, ALL[1:]),
    "MORE_LISTS": (definitions.MORE_LISTS, ALL),
    "MORE_WORLD": (definitions.MORE_WORLD, ALL[1:]),
    "FRONT_WORDS": (definitions.FRONT_WORDS, HOST),
    "FRONT_STATEMENTS": (definitions.FRONT_STATEMENTS, HOST),
    "MACHINE": (definitions.MACHINE, [("nv_machine", ["check", "--only", "rows"]), ("nv_machine", ["check"])]),
    "ONCE": (bugs.ONCE, [("nv_commands", ["check"]), ("nv_checks_program", ["try", "--test"])]),
    "WORKERS": (bugs.WORKERS, [("nv_threads", ["check"]), ("nv_checks_program", ["try", "--test"])]),
    "PRINT": (bugs.PRINT, [("nv_print", ["check"]), ("nv_checks_program", ["try", "--test"])]),
    "RUN_SCRIPT": (bugs.RUN_SCRIPT, [("nv_run_script", ["check"]), ("nv_checks_program", ["try", "--test"])]),
    "ONCE_SCRIPT_MORE": (bugs.ONCE_SCRIPT_MORE, [("nv_once_script", ["check"]), ("nv_checks_program", ["try", "--test"])]),
    "REPLAY_SCRIPT": (bugs.REPLAY_SCRIPT, [("nv_replay_script", ["check"]), ("nv_checks_program", ["try", "--test"])]),
}


def run(crate, words):
    """Whether the crate passes, and what was said."""
    folder = os.path.join(ROOT, "crates", crate)
    try:
        done = subprocess.run(["rt", *words], cwd=folder, capture_output=True, text=True, timeout=1200)
    except subprocess.TimeoutExpired:
        return False, "no answer in 1200 seconds"
    return done.returncode == 0, done.stdout + done.stderr


def refused_by(commands):
    """The first crate that refuses what stands there now, with the rows or files that it names."""
    for crate, words in commands:
        passed, said = run(crate, words)
        if not passed:
            rows = sorted(set(re.findall(r"fn \w+::(rows::[\w:]+): not", said)))
            files = sorted(set(re.findall(r"^\./(\S+?):\d+:\d+: error", said, re.M)))
            return " ".join(["refused by", crate, *rows[:3], *files[:3]])
    return "THROUGH"


def main():
    if len(sys.argv) < 2 or sys.argv[1] not in TRIALS:
        sys.exit(__doc__)
    tried, commands = TRIALS[sys.argv[1]]
    names = set(sys.argv[2:])
    for name, crate, file, old, new in tried:
        if names and name not in names:
            continue
        path = os.path.join(ROOT, "crates", crate, file)
        with open(path, encoding="utf-8") as text:
            right = text.read()
        if right.count(old) != 1:
            print(name, "its text stands there", right.count(old), "times")
            continue
        # what a crate below the first is made of is looked at there first
        below = [] if crate == commands[0][0] or any(crate == c for c, _ in commands) else [(crate, ["check"])]
        begun = time.time()
        try:
            with open(path, "w", encoding="utf-8") as text:
                text.write(right.replace(old, new))
            verdict = refused_by(below + commands)
        finally:
            with open(path, "w", encoding="utf-8") as text:
                text.write(right)
        print(name, verdict, f"{time.time() - begun:.0f} s", flush=True)


main()
