#!/usr/bin/env python3
"""architecture.py: draws the parts of the project, as an SVG on standard output.

What is proved has one colour, what is tested another. The crates are those of crates.txt, each in one place; the drives are the modules of the host
program that make one. A part that is there and has no place in the picture, or a place that nothing has, is an error.

    bench/architecture.py > docs/architecture.svg"""
import glob
import html
import os
import re
import sys

TOP = os.path.dirname(os.path.dirname(os.path.abspath(__file__)))
WIDTH, MARGIN, LINE, PAD, GAP = 960, 20, 17, 10, 30
PROVED, TESTED, BELIEVED, OTHER = "#d9ead3", "#fce5cd", "#cfe2f3", "#eeeeee"
TEXT = "#222222"

# the code that is proved, from the top down: what it is, and its crates
HOSTS = [
    ("the library for C; the mediator of a host with memory and a drive of its own", ["nv_c", "nv_host"]),
]
SIMULATED = [
    ("the program nvmed: scripts, output", ["nvmed", "nv_commands", "nv_print", "nv_once_script", "nv_replay_script", "nv_run_script", "nv_replay", "nv_run", "nv_flat"]),
    ("threads, a log, memory and a drive of its own", ["nv_threads", "nv_world", "nv_mediator", "nv_device", "nv_disk"]),
]
SHARED = [
    ("the mediator: one call an event", ["nv_core", "nv_tags"]),
    ("a guest's controller", ["nv_vctl", "nv_admin", "nv_ring"]),
    ("plans: checks, lists, blocks, copies", ["nv_plan", "nv_judge", "nv_sgl", "nv_prp", "nv_ns", "nv_bounce"]),
    ("entries, memory", ["nv_entry", "nv_mem", "nv_zeroed"]),
]
# the modules of the host program's drives, and what each is called
DRIVES = {
    "ram": "in memory, or in a file",
    "file": "a file or a block device (io_uring)",
    "nvme": "",
    "opening": "",
    "passthrough": "a namespace that the kernel drives",
    "qtest": "QEMU's controller",
    "vfio": "a real controller (VFIO)",
}


def read(path):
    with open(os.path.join(TOP, path), encoding="utf-8") as file:
        return file.read()


def groups():
    """The crates of each group of crates.txt."""
    found = {}
    for line in read("crates.txt").splitlines():
        if comment := re.match(r"# *([^:]+):", line):
            group = found.setdefault(comment[1], [])
        elif line.strip():
            group.append(re.split(r"[ :]", line)[0])
    return found


def check(what, placed, there):
    if len(placed) != len(set(placed)) or set(placed) != set(there):
        sys.exit(f"architecture.py: {what}: {sorted(set(placed) ^ set(there))} is there or in the picture, and not in both")


def wrapped(text, width, letter=6.7):
    """The text in lines that fit, where a letter takes so many pixels."""
    lines = [""]
    for word in text.split():
        if lines[-1] and letter * len(f"{lines[-1]} {word}") > width - 2 * PAD:
            lines.append("")
        lines[-1] = f"{lines[-1]} {word}".strip()
    return lines


class Picture:
    def __init__(self):
        self.parts, self.bottom = [], MARGIN

    def text(self, x, y, text, weight="normal", anchor="start"):
        self.parts.append(f'<text x="{x}" y="{y}" fill="{TEXT}" font-weight="{weight}" text-anchor="{anchor}">{html.escape(text)}</text>')

    def box(self, x, y, width, colour, title, text=""):
        """A box with a title and a text below it; returns where it ends."""
        titles, lines = wrapped(title, width, 7.6), wrapped(text, width) if text else []
        height = 2 * PAD + LINE * (len(titles) + len(lines)) - 4
        self.parts.append(f'<rect x="{x}" y="{y}" width="{width}" height="{height}" rx="5" fill="{colour}" stroke="#666666"/>')
        for number, line in enumerate([*titles, *lines]):
            self.text(x + PAD, y + PAD + LINE * number + 9, line, "bold" if number < len(titles) else "normal")
        return y + height

    def row(self, boxes, y, left=MARGIN, width=WIDTH - 2 * MARGIN, space=12):
        """Boxes side by side, each as (colour, title, text); returns where the highest ends."""
        each = (width - space * (len(boxes) - 1)) // len(boxes)
        return max(self.box(left + number * (each + space), y, each, *box) for number, box in enumerate(boxes))

    def arrow(self, x, y, text):
        """An arrow in both directions, with what goes there; returns where it ends."""
        self.parts.append(f'<path d="M{x} {y + 3}v{GAP - 6}m-4 -6l4 6l4 -6M{x - 4} {y + 9}l4 -6l4 6" stroke="#444444" fill="none"/>')
        self.text(x + 14, y + GAP // 2 + 4, text)
        return y + GAP

    def written(self, height):
        return "\n".join(
            [
                f'<svg xmlns="http://www.w3.org/2000/svg" viewBox="0 0 {WIDTH} {height}" font-family="sans-serif" font-size="13">',
                f'<rect width="{WIDTH}" height="{height}" fill="white"/>',
                *self.parts,
                "</svg>",
            ]
        )


def stack(picture, layers, x, y, width):
    for title, crates in layers:
        y = picture.box(x, y, width, PROVED, title, ", ".join(crates)) + 6
    return y - 6


def main():
    if sys.argv[1:]:
        sys.exit(__doc__)
    found = groups()
    check("code", [crate for _, crates in [*HOSTS, *SIMULATED, *SHARED] for crate in crates], found["code"])
    modules = [os.path.basename(path) for path in glob.glob(os.path.join(TOP, "host/nvmed-host/src/drive/*")) if os.path.isdir(path)]
    check("drives", list(DRIVES), modules)
    picture = Picture()
    half = (WIDTH - 2 * MARGIN - 40) * 3 // 5
    right = MARGIN + half + 40
    other = WIDTH - MARGIN - right
    y = MARGIN
    for colour, text, x in ((PROVED, "proved", MARGIN), (TESTED, "tested", MARGIN + 90), (BELIEVED, "to be believed", MARGIN + 180), (OTHER, "not ours", MARGIN + 320)):
        picture.parts.append(f'<rect x="{x}" y="{y}" width="16" height="16" fill="{colour}" stroke="#666666"/>')
        picture.text(x + 24, y + 13, text)
    picture.text(MARGIN, y + 44, "Virtual machines", "bold")
    picture.text(right, y + 44, "Scripts", "bold")
    y += 54
    end = picture.row([(OTHER, f"QEMU {number}", "its guest's own NVMe driver") for number in ("0", "1", "..")], y, width=half)
    script = picture.box(right, y, other, OTHER, "a script", "guests' acts, line by line")
    end = picture.arrow(MARGIN + 90, end, "vfio-user: a socket, memory as files, doorbells in a page, MSI-X")
    end = picture.box(MARGIN, end, half, TESTED, "nvmed-host", "a thread for each guest, one for the mediator and the drive; configuration, sealed memory, interrupts, statistics")
    end = picture.arrow(MARGIN + 90, end, "the crate nvmed: safe Rust over nvmed.h")
    end = stack(picture, HOSTS, MARGIN, end, half)
    simulated = stack(picture, SIMULATED, right, picture.arrow(right + 90, script, ""), other)
    y = max(end, simulated)
    for x, to in ((MARGIN + 90, end), (right + 90, simulated)):
        picture.parts.append(f'<path d="M{x} {to}V{y + GAP}" stroke="#444444" fill="none"/>')
    y = stack(picture, SHARED, MARGIN, y + GAP, WIDTH - 2 * MARGIN)
    y = picture.arrow(MARGIN + 90, y, "physical queues (lanes), PRP entries with host addresses")
    picture.text(MARGIN, y + 14, "Drives of nvmed-host", "bold")
    y = picture.row([(TESTED, title, "") for title in DRIVES.values() if title], y + 24)
    picture.text(MARGIN, y + 34, "What the proofs are about", "bold")
    y = picture.row(
        [
            (BELIEVED, "definitions", ", ".join(found["definitions"])),
            (PROVED, "laws", ", ".join(found["laws"])),
            (TESTED, "checks, benchmarks", ", ".join([*found["checks"], *found["benchmark programs"]])),
        ],
        y + 44,
    )
    print(picture.written(y + MARGIN))


if __name__ == "__main__":
    main()
