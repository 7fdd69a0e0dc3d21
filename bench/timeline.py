#!/usr/bin/env python3
"""timeline.py SCRIPT [PROGRAM]: draws what a script of `replay` does, as an SVG on standard output.

The script is run by PROGRAM, or by ./nvmed, which proves itself first where it has to. Each event is a dot under its number, in the row of whom it
concerns: a guest, the mediator, a lane or the drive. A command's way is a line of its own colour, from the doorbell that announced it to its
completion; each part of a command has such a line. A hollow dot is an event that changed nothing, as `idle` or `stale`. Point at a dot to read
the event and its reply.

    bench/timeline.py examples/two-guests.replay > docs/two-guests.svg"""
import collections
import html
import itertools
import os
import subprocess
import sys

TOP = os.path.dirname(os.path.dirname(os.path.abspath(__file__)))
SET_UP = {"host", "mediator", "disk", "lanes", "guest", "extent", "map", "descriptors"}
TAGS = 64
# sizes in pixels: of a band of the picture, which shows so many events
EVENTS, STEP, ROW, LEFT, HEAD, GAP, BEND = 30, 30, 36, 92, 66, 18, 22
COLOURS = ["#1f77b4", "#d62728", "#2ca02c", "#9467bd", "#ff7f0e", "#17becf", "#8c564b", "#e377c2"]
GREY = "#9a9a9a"


class Event:
    """An event of the script: its number, its words and its reply; the rows that it concerns, first and last; the lines that it is on."""

    def __init__(self, number, words, reply):
        self.number, self.words, self.reply = number, words, reply
        self.kind, self.rows, self.ways = words[0], [], []
        self.is_done = reply.split()[0] in ("done", "bytes")


class Way:
    """A line: a command, or a part of one, with the points that it goes through."""

    def __init__(self, points):
        self.points = points


def number(word):
    return int(word, 16 if word.startswith("0x") else 10)


def is_post_of(event, leader):
    return event.kind == "post" and number(event.words[2]) == leader


def lines_of(text):
    """The words of each line that has some."""
    return [words for line in text.splitlines() if (words := line.split("#")[0].split())]


def run(path, program):
    """The script's set-up lines, and its events with the replies that the program prints."""
    with open(path, encoding="utf-8") as file:
        text = file.read()
    done = subprocess.run([program, "replay"], input=text, capture_output=True, text=True, check=False)
    if done.returncode:
        sys.exit(f"{program} replay ended with status {done.returncode}: {done.stderr.strip()}")
    replies = [line.split(" ", 1)[1] for line in done.stdout.splitlines()[:-1]]
    lines = lines_of(text)
    events = [words for words in lines if words[0] not in SET_UP]
    if len(events) != len(replies):
        sys.exit(f"{path}: {len(events)} events, and {len(replies)} replies")
    return [line for line in lines if line[0] in SET_UP], [Event(at, *both) for at, both in enumerate(zip(events, replies), 1)]


class Drawing:
    """Which rows there are, and who is on which line."""

    def __init__(self, set_up, events):
        guests = sum(words[0] == "guest" for words in set_up)
        lanes = next(number(words[1]) for words in set_up if words[0] == "lanes")
        self.names = [f"guest {at}" for at in range(guests)] + ["mediator"] + [f"lane {at}" for at in range(lanes)] + ["drive"]
        self.mediator, self.first_lane, self.drive = guests, guests + 1, guests + 1 + lanes
        self.events, self.ways, self.bells = events, [], {}
        # of each lane: the lines by tag, the leaders of tags, and the tags whose entries and completions wait in its rings
        self.by_tag = collections.defaultdict(dict)
        self.leaders = collections.defaultdict(dict)
        self.queued, self.answered = collections.defaultdict(list), collections.defaultdict(list)
        for event in events:
            self.place(event)

    def begin(self, event, lane, tag, leader):
        bell = self.bells.get((event.words[1], event.words[2]))
        way = Way([bell] if bell else [])
        self.ways.append(way)
        self.by_tag[lane][tag], self.leaders[lane][tag] = way, leader
        return way

    def parts_of(self, event, lane):
        """How many tags a Take claims: those that later events of the lane name before its leader's Post, above what is in use."""
        used = set(self.by_tag[lane])
        leader = min(tag for tag in range(TAGS) if tag not in used)
        named, others = set(), set()
        for later in self.events[event.number :]:
            kind, words = later.kind, later.words
            if kind == "take" and later.is_done and words[3] == lane:
                # its own tags are the lowest that are free then
                others.add(min(tag for tag in range(TAGS) if tag not in used | others | {leader} | named))
            elif kind in ("devmove", "devpost", "devfail") and words[1] == lane:
                named.add(number(words[2]))
            elif kind == "post" and later.is_done and words[1] == lane and number(words[2]) == leader:
                break
        return [leader, *sorted(tag for tag in named - used - others - {leader} if tag > leader)]

    def on(self, event, lane, tag, *rows):
        """Puts an event on the line of a tag: at these rows in turn."""
        way = self.by_tag[lane].get(tag)
        event.rows = list(rows)
        if way and event.is_done:
            event.ways.append(way)
            way.points.extend((event.number, row) for row in rows)

    def place(self, event):
        kind, words = event.kind, event.words
        lane = words[1] if len(words) > 1 else ""
        lane_row = self.first_lane + number(lane) if lane else 0
        if kind in ("store", "fill", "load", "regread", "regwrite"):
            event.rows = [number(words[1])]
        elif kind == "bell":
            event.rows = [number(words[1])]
            if (number(words[2]) - 0x1000) % 8 == 0:
                self.bells[words[1], str((number(words[2]) - 0x1000) // 8)] = (event.number, number(words[1]))
        elif kind == "admin":
            event.rows = [number(words[1]), self.mediator]
        elif kind == "take":
            event.rows = [self.mediator]
            if event.is_done:
                parts = self.parts_of(event, words[3])
                for tag in parts:
                    event.ways.append(self.begin(event, words[3], tag, parts[0]))
                    event.ways[-1].points.append((event.number, self.mediator))
        elif kind in ("list", "giveup"):
            self.on(event, lane, number(words[2]), self.mediator)
        elif kind == "submit":
            self.submit(event, lane, number(words[2]), lane_row)
        elif kind == "devtake":
            waiting = self.queued[lane]
            self.on(event, lane, waiting.pop(0) if waiting and event.is_done else None, self.drive)
        elif kind == "devmove":
            self.on(event, lane, number(words[2]), self.drive)
        elif kind in ("devpost", "devfail"):
            self.on(event, lane, number(words[2]), lane_row)
            if event.is_done:
                self.answered[lane].append(number(words[2]))
        elif kind == "reap":
            waiting = self.answered[lane]
            self.on(event, lane, waiting.pop(0) if waiting and event.is_done else None, self.mediator)
        elif kind == "post":
            self.post(event, lane, number(words[2]))
        else:
            event.rows = [self.drive]

    def group(self, lane, leader):
        return [tag for tag, by in self.leaders[lane].items() if by == leader]

    def submit(self, event, lane, leader, row):
        event.rows = [row]
        for tag in self.group(lane, leader) if event.is_done else []:
            # a command that is answered at once has no entry, and no event of the drive names it
            later = (it for it in self.events[event.number :] if it.is_done and it.kind in ("devpost", "devfail", "post") and it.words[1] == lane)
            if any(it.kind != "post" for it in itertools.takewhile(lambda it: not is_post_of(it, leader), later) if number(it.words[2]) == tag):
                self.queued[lane].append(tag)
                self.on(event, lane, tag, row)
            else:
                self.on(event, lane, tag, self.mediator)

    def post(self, event, lane, leader):
        way = self.by_tag[lane].get(leader)
        guest = way.points[0][1] if way else self.mediator
        event.rows = [guest]
        for tag in self.group(lane, leader) if event.is_done else []:
            self.on(event, lane, tag, guest)
        if event.is_done:
            for tag in self.group(lane, leader):
                del self.by_tag[lane][tag], self.leaders[lane][tag]


class Svg:
    """The picture, band by band."""

    def __init__(self, drawing):
        self.drawing = drawing
        self.bands = (len(drawing.events) + EVENTS - 1) // EVENTS
        self.band_height = HEAD + ROW * len(drawing.names) + GAP
        self.parts = []

    def x(self, event):
        return LEFT + STEP * ((event - 1) % EVENTS) + STEP // 2

    def y(self, event, row):
        return (event - 1) // EVENTS * self.band_height + HEAD + ROW * row + ROW // 2

    def add(self, text):
        self.parts.append(text)

    def text(self, x, y, words, more=""):
        self.add(f'<text x="{x}" y="{y}"{more}>{html.escape(words)}</text>')

    def band(self, number_of_band):
        top = number_of_band * self.band_height
        right = LEFT + STEP * EVENTS
        for row, name in enumerate(self.drawing.names):
            y = top + HEAD + ROW * row
            if row % 2 == 0:
                self.add(f'<rect x="4" y="{y}" width="{right}" height="{ROW}" fill="#f3f3f3"/>')
            self.text(10, y + ROW // 2 + 5, name, ' class="row"')
        for event in self.drawing.events[number_of_band * EVENTS : (number_of_band + 1) * EVENTS]:
            x = self.x(event.number)
            self.add(f'<text x="{x - 3}" y="{top + HEAD - 20}" transform="rotate(-50 {x - 3} {top + HEAD - 20})">{event.kind}</text>')
            self.text(x, top + HEAD - 6, str(event.number), ' class="number"')

    def way(self, way, colour, shift):
        """A line through its points, which stays in a row until the next event comes; where that is in another band it leaves at the right edge
        and comes in at the left one."""
        points = []
        right = LEFT + STEP * EVENTS + 4
        for (event, row), following in zip(way.points, [*way.points[1:], None]):
            points.append((self.x(event), self.y(event, row) + shift))
            if following and (following[0] - 1) // EVENTS != (event - 1) // EVENTS:
                points.append((right, self.y(event, row) + shift))
                self.line(points, colour)
                points = [(LEFT - 4, self.y(following[0], row) + shift)]
            if following and following[0] > event:
                points.append((self.x(following[0]) - BEND, self.y(following[0], row) + shift))
        self.line(points, colour)

    def line(self, points, colour):
        joined = " ".join(f"{x},{y}" for x, y in points)
        self.add(f'<polyline points="{joined}" fill="none" stroke="{colour}" stroke-width="2.5" stroke-linejoin="round" stroke-opacity="0.75"/>')

    def dot(self, event, row, colour):
        fill = colour if event.is_done else "#ffffff"
        title = html.escape(f"{event.number} {' '.join(event.words)[:80]}: {event.reply[:60]}")
        self.add(f'<circle cx="{self.x(event.number)}" cy="{self.y(event.number, row)}" r="5" fill="{fill}" stroke="{colour}"><title>{title}</title></circle>')

    def draw(self):
        colours = {id(way): COLOURS[at % len(COLOURS)] for at, way in enumerate(self.drawing.ways)}
        for band in range(self.bands):
            self.band(band)
        for event in self.drawing.events:
            for one, other in zip(event.rows, event.rows[1:]):
                x = self.x(event.number)
                self.add(f'<line x1="{x}" y1="{self.y(event.number, one)}" x2="{x}" y2="{self.y(event.number, other)}" stroke="{GREY}" stroke-width="1.5"/>')
        for at, way in enumerate(self.drawing.ways):
            self.way(way, colours[id(way)], 2 * (at % 3 - 1))
        for event in self.drawing.events:
            for row in event.rows:
                self.dot(event, row, colours[id(event.ways[0])] if event.ways else GREY)
        width, height = LEFT + STEP * EVENTS + 12, self.bands * self.band_height
        style = "text{font:11px sans-serif;fill:#333}.row{font-size:13px}.number{font-size:10px;text-anchor:middle;fill:#777}"
        head = f'<svg xmlns="http://www.w3.org/2000/svg" width="{width}" height="{height}" viewBox="0 0 {width} {height}">'
        back = f'<rect width="{width}" height="{height}" fill="#ffffff"/>'
        return "\n".join([head, "<!-- written by bench/timeline.py -->", f"<style>{style}</style>", back, *self.parts, "</svg>"])


def main():
    if len(sys.argv) not in (2, 3):
        sys.exit(__doc__)
    set_up, events = run(sys.argv[1], sys.argv[2] if sys.argv[2:] else os.path.join(TOP, "nvmed"))
    print(Svg(Drawing(set_up, events)).draw())


if __name__ == "__main__":
    main()
