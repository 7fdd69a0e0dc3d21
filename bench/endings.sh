#!/usr/bin/env bash
# How the program ends where its input ends early or fails, and where its output is closed, full or cut off: each kind at 50 places of an input
# or an output. It tells how many ended in which way, and what was off: a status, what was told, or an output that is no beginning of the whole one.
#
# - An input that ends early is a script of its own: status 0 with what it prints, or status 1 with one fault and no output.
# - An input that fails, as a folder does and a terminal that is gone, and an output that can't be written, are status 5 with one line on standard
#   error. Of an output that can't be written there is a beginning, which is not the whole.
# - A write to a closed pipe, and one past the limit of a file's size, raise a signal first, which ends a process that does not ignore it. So these two are
#   tried twice: with the signal ignored, and as a shell starts a program. The second way the signal may end it, and the output is a beginning, too.
#
#     bench/endings.sh PROGRAM
set -euo pipefail
export LC_ALL=C

[ $# = 1 ] || { sed -n '2,12s/^# \{0,1\}//p' "$0"; exit 2; }
program=$(readlink -f "$1")
examples=$(dirname "$(readlink -f "$0")")/../examples

exec python3 - "$program" "$examples" <<'PYTHON'
import collections
import fcntl
import os
import pty
import re
import resource
import signal
import subprocess
import sys
import tempfile
import threading
import tty

PROGRAM, EXAMPLES = sys.argv[1:]
PLACES = 50
SECONDS = 120
# the bytes that a pipe holds here, one page, so that little is written before the reader is gone
PIPE = 4096
ENTRY = "02400700010000000000000000000000000000000000000000300000000000000002000000000000050000000000000000000000000000000000000000000000"
FAULTS = re.compile(
    rb"(line [0-9]+: (unknown word|missing word|too many words|bad number|bad bytes|out of place|out of range|no completion)"
    rb"|guest [0-9]+ map refused: [0-9] \w+|setup refused: [0-9] \w+)\n\Z"
)
# what each script does besides, so that its output is much longer than a pipe holds
LONG = {
    "once": "dump 0x0 4096\n" * 20,
    "replay": "load 0 0x0 4096\n" * 20,
    "run": "load 0 0x0 4096\n" * 10 + "load 1 0x0 4096\n" * 10,
}
SCRIPTS = {"once": "first-run.once", "replay": "two-guests.replay", "run": "guests-in-threads.run"}

off = 0


class Ended:
    """How a process ended, and what it wrote."""

    def __init__(self, status, output, told):
        self.status, self.output, self.told = status, output, told

    def way(self):
        if self.status >= 0:
            return f"status {self.status}"
        return f"signal {signal.Signals(-self.status).name}"


def told_by(process, output=b""):
    """How a process ended whose output went elsewhere."""
    try:
        printed, told = process.communicate(timeout=SECONDS)
    except subprocess.TimeoutExpired:
        process.kill()
        printed, told = process.communicate()
        told += b"no end in time\n"
    return Ended(process.returncode, output or printed or b"", told)


def start(words, ignored=(), limit=None, **files):
    """Starts the program. These signals are ignored, the others as a shell leaves them."""

    def prepare():
        for number in (signal.SIGPIPE, signal.SIGXFSZ):
            signal.signal(number, signal.SIG_IGN if number in ignored else signal.SIG_DFL)
        if limit is not None:
            resource.setrlimit(resource.RLIMIT_FSIZE, (limit, limit))

    files.setdefault("stdin", subprocess.DEVNULL)
    files.setdefault("stdout", subprocess.PIPE)
    return subprocess.Popen([PROGRAM, *words], stderr=subprocess.PIPE, preexec_fn=prepare, restore_signals=False, **files)


def script_file(text):
    file = tempfile.TemporaryFile()
    file.write(text)
    file.seek(0)
    return file


def places(end):
    """So many places from 0 to before `end`, spread over it."""
    return sorted({end * place // PLACES for place in range(PLACES)}) if end >= PLACES else list(range(end))


def report(what, results):
    """Tells how the runs of a kind ended, and counts what was off."""
    global off
    ways = collections.Counter(ended.way() for _place, ended, _wrong in results)
    told = ", ".join(f"{count} with {way}" for way, count in sorted(ways.items()))
    print(f"{what}: {len(results)} runs, {told}", flush=True)
    for place, ended, wrong in results:
        if wrong:
            off += 1
            print(f"  off at {place}: {wrong}: {ended.way()}, {ended.told[:100]!r}, {len(ended.output)} bytes", flush=True)


def lines(text):
    return text.split(b"\n")


def whole(words, text):
    """What the program prints where nothing fails."""
    ended = told_by(start(words, stdin=script_file(text)))
    if ended.status != 0 or ended.told or not ended.output:
        sys.exit(f"{words}: {ended.way()}, {ended.told!r}")
    return ended.output


def cut_wrong(ended, want, word):
    """What is off where an input ended early."""
    if ended.status == 1:
        if ended.output:
            return "output beside a fault"
        return "" if FAULTS.match(ended.told) else "no clear fault"
    if ended.status != 0 or ended.told:
        return "neither well nor with a fault"
    printed = lines(ended.output)
    if printed[-1] != b"":
        return "a line without its end"
    # the last line of a script that was cut may be another line, and so may its reply
    kept = {"once": printed[:-2], "replay": printed[:-3], "run": []}[word]
    if kept != lines(want)[: len(kept)]:
        return "no beginning"
    last = printed[-2] if len(printed) > 1 else b""
    if word == "replay" and last != b"events %d" % (len(printed) - 2):
        return "another count of events"
    if word == "run" and last != b"ok":
        return "no ok"
    return ""


def failed_wrong(ended, want, fault, signals=()):
    """What is off where an input or an output failed, and the whole output is `want`."""
    if len(ended.output) >= len(want) or not want.startswith(ended.output):
        return "no beginning of the output"
    if ended.status in [-number for number in signals]:
        return "told beside a signal" if ended.told else ""
    if ended.status != 5:
        return "another status"
    return "" if ended.told == fault else "something else told"


def read_and_close(words, text, place, ignored):
    """The output goes to a pipe whose reader reads so many bytes, and closes it; before the program starts, where it reads none."""
    here, there = os.pipe()
    fcntl.fcntl(there, fcntl.F_SETPIPE_SZ, PIPE)
    if place == 0:
        os.close(here)
    process = start(words, ignored, stdin=script_file(text), stdout=there)
    os.close(there)
    output = b""
    if place > 0:
        while len(output) < place:
            part = os.read(here, place - len(output))
            if not part:
                break
            output += part
        os.close(here)
    return told_by(process, output)


def write_to_file(words, text, limit, ignored):
    """The output goes to a file that may have so many bytes."""
    with tempfile.TemporaryFile() as file:
        ended = told_by(start(words, ignored, limit, stdin=script_file(text), stdout=file))
        file.seek(0)
        ended.output = file.read()
    return ended


def write_to_full(words, text):
    with open("/dev/full", "wb") as file:
        return told_by(start(words, stdin=script_file(text), stdout=file))


def read_from_gone(words, text, place):
    """The input is a terminal, which is gone behind so many bytes."""
    near, far = pty.openpty()
    tty.setraw(far)

    def feed():
        at = 0
        while at < place:
            at += os.write(far, text[at:place])
        os.close(far)

    process = start(words, stdin=near)
    feeder = threading.Thread(target=feed)
    feeder.start()
    ended = told_by(process)
    os.close(near)
    feeder.join()
    return ended


def try_outputs(name, commands, wants, closed):
    """An output that is full, that may have so many bytes only, and whose reader is gone. `commands` has words and an input for each place."""
    report(
        f"{name}, output full",
        [(at, e, failed_wrong(e, wants[at], b"cannot write\n")) for at, e in ((at, write_to_full(*c)) for at, c in enumerate(commands))],
    )
    for number, what, run, spots in (
        (signal.SIGXFSZ, "file of limited size", write_to_file, [places(len(want)) for want in wants]),
        (signal.SIGPIPE, "pipe closed", read_and_close, [closed(want) for want in wants]),
    ):
        for ignored in ((number,), ()):
            results = []
            for at, (words, text) in enumerate(commands):
                place = spots[at][at % len(spots[at])]
                ended = run(words, text, place, ignored)
                may = () if ignored else (number,)
                results.append((place, ended, failed_wrong(ended, wants[at], b"cannot write\n", may)))
            how = "ignored" if ignored else "as it stands"
            report(f"{name}, {what}, {number.name} {how}", results)


def try_script(word):
    with open(os.path.join(EXAMPLES, SCRIPTS[word]), "rb") as file:
        text = file.read() + LONG[word].encode()
    want = whole([word], text)
    # the places spread over the lines of the example, which differ more than those behind it
    results = []
    for place in places(len(text) - len(LONG[word]) * 3 // 4):
        ended = told_by(start([word], stdin=script_file(text[:place])))
        results.append((place, ended, cut_wrong(ended, want, word)))
    report(f"{word}, input ends early", results)

    ended = told_by(start([word], stdin=os.open(EXAMPLES, os.O_RDONLY)))
    report(f"{word}, input is a folder", [(0, ended, failed_wrong(ended, want, b"cannot read\n"))])
    results = []
    for place in places(len(text)):
        ended = read_from_gone([word], text, place)
        results.append((place, ended, failed_wrong(ended, want, b"cannot read\n") or ("output" if ended.output else "")))
    report(f"{word}, input fails", results)

    try_outputs(word, [([word], text)] * PLACES, [want] * PLACES, lambda want: places(len(want) - 2 * PIPE))


def try_decode():
    """`decode` has its input in its words: an entry for each place."""
    entries = [ENTRY[:12] + f"{at:02x}" + ENTRY[14:] for at in range(PLACES)]
    commands = [(["decode", "sqe", entry], b"") for entry in entries]
    wants = [whole(*command) for command in commands]
    results = []
    for place in places(len(ENTRY)):
        ended = told_by(start(["decode", "sqe", ENTRY[:place]]))
        wrong = "" if (ended.status, ended.told, ended.output) == (1, b"line 1: bad bytes\n", b"") else "another fault"
        results.append((place, ended, wrong))
    report("decode, entry ends early", results)

    ended = told_by(start(commands[0][0], stdin=os.open(EXAMPLES, os.O_RDONLY)))
    report("decode, input is a folder, and is not read", [(0, ended, "" if (ended.status, ended.output) == (0, wants[0]) else "it was read")])
    # its one line is shorter than a pipe, so the reader is gone before it starts
    try_outputs("decode", commands, wants, lambda want: [0])


for script in SCRIPTS:
    try_script(script)
try_decode()
print("nothing was off" if off == 0 else f"{off} runs were off")
sys.exit(1 if off else 0)
PYTHON
