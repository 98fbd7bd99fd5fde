#!/usr/bin/env python3
"""Draws the pictures of the papers as SVG, beside this file.

    docs/pictures/draw.py [--check]

frame.svg is the frame's layout, even.svg how evenly its client bytes lie, control.svg the bits of
the control bytes, standings.svg the sink as a state machine, recovery.svg the two-frame recovery as
span.txt in tests/expected has it, ports.svg the tallies of a card as ports.txt there has them,
types.svg three ports that check the payload type as types.txt there has them, and crates.svg the
groups of crates as crates.txt lists them. With --check nothing is written; the exit status is 1 if
a stored picture is not the one drawn.
"""
import functools
import itertools
import pathlib
import re
import sys

HERE = pathlib.Path(__file__).resolve().parent
CRATES = HERE.parents[1] / "crates.txt"
EXPECTED = HERE.parents[1] / "tests" / "expected"
SPAN = EXPECTED / "span.txt"
PORTS = EXPECTED / "ports.txt"
TYPES = EXPECTED / "types.txt"
WIDTH = 900

INK, DIM, BAND = "#222", "#777", "#f4f4f4"
CLIENT, STUFF, CONTROL, OVER, HIT = "#cfe3f7", "#ffffff", "#f7dfb2", "#e6e6e6", "#f3b0a8"
BYTES = "#2f6fb0"

# The groups of crates from the top down: title, colour, and the names or prefixes of its crates.
# A program is one with a main.rt; the group without names has the crates that no other has.
GROUPS = [
    ("Claims over whole runs", "#f9d9d4", ("claim_",)),
    ("Programs", "#dcefd8", ("program_",)),
    ("The interface for C and Rust", "#e7dcf3", ("c_",)),
    ("Components beside the mapper", "#f6f0c4", ()),
    ("The card: the sink with a tally for each port", "#d5edec", ("card_",)),
    ("The generic mapper", CLIENT, ("gmp_",)),
    ("The floor", OVER, ("math", "refusals", "ports")),
]


class Picture:
    def __init__(self, width, height, title):
        self.width, self.height, self.title = width, height, title
        self.parts = []

    def box(self, x, y, w, h, fill, text="", size=13, stroke=INK):
        self.parts.append(
            f'<rect x="{x}" y="{y}" width="{w}" height="{h}" fill="{fill}" stroke="{stroke}"/>'
        )
        if text:
            self.text(x + w / 2, y + h / 2 + size / 3, text, size, "middle")

    def text(self, x, y, text, size=13, anchor="start", fill=INK):
        self.parts.append(
            f'<text x="{x}" y="{y}" font-size="{size}" text-anchor="{anchor}" fill="{fill}">'
            f"{text}</text>"
        )

    def fitting(self, x, y, text, size, width, fill=INK):
        """A text around x, small enough for the width: a letter is at most 0.62 of its size."""
        if text:
            size = min(size, int(width / len(text) / 0.062) / 10)
            self.text(x, y, text, size, "middle", fill)

    def line(self, points, width=1, stroke=INK, end=""):
        places = " ".join(f"{x},{y}" for x, y in points)
        self.parts.append(
            f'<polyline points="{places}" fill="none" stroke="{stroke}" stroke-width="{width}"'
            f"{end}/>"
        )

    def arrow(self, *points, width=1):
        self.line(points, width, end=' marker-end="url(#head)"')

    def strip(self, *points):
        places = " ".join(f"{x},{y}" for x, y in points)
        self.parts.append(
            f'<polygon points="{places}" fill="{BAND}" stroke="{DIM}" stroke-dasharray="5 4"/>'
        )

    def dot(self, x, y, fill):
        self.parts.append(f'<circle cx="{x}" cy="{y}" r="4" fill="{fill}"/>')

    def svg(self):
        w, h = self.width, self.height
        head = [
            f'<svg xmlns="http://www.w3.org/2000/svg" width="{w}" height="{h}" '
            f'viewBox="0 0 {w} {h}" font-family="sans-serif">',
            '<defs><marker id="head" markerWidth="8" markerHeight="8" refX="7" refY="3" '
            'orient="auto"><path d="M0,0 L7,3 L0,6 z"/></marker></defs>',
            f"<title>{self.title}</title>",
            f'<rect width="{w}" height="{h}" fill="#fff"/>',
        ]
        return "\n".join([*head, *self.parts, "</svg>\n"])


def layout():
    """A frame on the grid K = 2 with count 3: places 3, 6 and 8 of 8 carry client bytes."""
    k, count = 2, 3
    p = Picture(710, 300, "The layout of a frame")
    p.text(20, 28, "A frame: four rows of K + 2 bytes (here K = 2, S = 8, count 3)", 15)
    cell, top, left = 92, 56, 120
    second = ["JC1", "JC2", "JC3", "reserved"]
    for row in range(4):
        y = top + row * 48
        p.text(20, y + 18, f"row {row + 1}", 13, fill=DIM)
        p.text(20, y + 34, f"({row} in the specs)", 11, fill=DIM)
        p.box(left, y, cell, 40, OVER if row < 3 else CONTROL, "reserved" if row < 3 else "PSI")
        p.box(left + cell, y, cell, 40, CONTROL if row < 3 else OVER, second[row])
        for column in range(k):
            n = row * k + column + 1
            carries = n * count % (4 * k) < count
            fill, word = (CLIENT, "client") if carries else (STUFF, "stuffing")
            p.box(left + (2 + column) * cell, y, cell, 40, fill, f"{n}: {word}")
    words = "payload bytes are", "numbered from 1;", "n carries a client", "byte if"
    for i, line in enumerate((*words, "n &#215; C mod S &lt; C")):
        p.text(left + 4 * cell + 16, top + 30 + 18 * i, line, 13)
    note = "Reserved bytes and stuffing are written as zero. PSI is the payload type in frames"
    p.text(20, 280, f"{note} numbered 0.", 13, fill=DIM)
    return p


def run_of(p, count, s, first, last, left, top):
    """Client bytes so far in the run of payload bytes first to last, and the straight line."""
    wide, high = 46, 46
    length = last - first + 1
    rise = length * count / s

    def at(n, clients):
        return left + wide * n, round(top + high * (4 - clients), 1)

    def along(by):
        return [at(0, by), at(length, rise + by)]

    p.strip(*along(1), *reversed(along(-1)))
    for clients in range(4):
        x, y = at(0, clients)
        p.text(x - 8, y + 4, clients, 11, "end", DIM)
        p.line([at(0, clients), at(length, clients)], stroke=OVER)
    p.line(along(0))
    so_far, steps = 0, [at(0, 0)]
    for n in range(length):
        carries = (first + n) * count % s < count
        so_far += carries
        steps.append(at(n + 1, so_far))
        x, y = at(n, -1.3)
        p.box(x, y, wide, 26, CLIENT if carries else STUFF, str(first + n))
    p.line(steps, 2, BYTES)
    for x, y in steps:
        p.dot(x, y, BYTES)
    x, y = at(0, -2.25)
    p.text(x, y, f"payload bytes {first} to {last}: L = {length},")
    p.text(x, y + 18, f"{so_far} client bytes, L &#215; C / S = {rise:g}")


def even():
    """Client bytes so far against the straight line: from payload byte 1 on, and from byte 6."""
    k, count = 2, 3
    s = 4 * k
    p = Picture(WIDTH, 422, "How evenly the client bytes lie")
    p.text(20, 28, f"How evenly the client bytes lie (here K = {k}, S = {s}, count {count})", 15)
    run_of(p, count, s, 1, 8, 50, 46)
    run_of(p, count, s, 6, 8, 520, 46)
    p.line([(710, 90), (740, 90)], 2, BYTES)
    p.dot(725, 90, BYTES)
    p.line([(710, 114), (740, 114)])
    p.strip((710, 131), (740, 131), (740, 145), (710, 145))
    for i, text in enumerate(("client bytes so far", "L &#215; C / S", "less than one from it")):
        p.text(750, 94 + 24 * i, text)
    notes = (
        "With N client bytes in a run of L payload bytes of one frame, S &#215; N &lt; L &#215; C"
        " + S and L &#215; C &lt; S &#215; N + S: the dots keep inside the band,",
        "whichever payload byte the run begins with. From payload byte 1 on they are never above"
        " the line.",
    )
    for i, note in enumerate(notes):
        p.text(20, 386 + 18 * i, note, 13, fill=DIM)
    return p


# The table of changes (01, "Control word"): the change, its pattern over C1 to C14, II DI, and the
# worked frame of 01 that has it.
CHANGES = [
    ("0", "00000000000000", "00", "14407 to 14407: E1 1C 6E"),
    ("+1", "10101010101010", "10", "14407 to 14408: 4B B6 38"),
    ("&#8722;1", "01010101010101", "01", "14407 to 14406: B4 49 45"),
    ("+2", "01100110011001", "10", "14407 to 14409: 87 7A A7"),
    ("&#8722;2", "10011001100110", "01", "14407 to 14405: 78 85 DA"),
    ("other", "", "11", "14405 to 14409: E1 27 6C"),
]


def control():
    """The bits of JC1, JC2 and JC3, and under each bit what a change of the count does to it."""
    p = Picture(WIDTH, 412, "The control bytes")
    head = "The control bytes of a frame, first bit first: they announce the next frame's count"
    p.text(20, 28, head, 15)
    cell, top, left = 32, 66, 112
    at = [left + cell * i + 6 * (i // 8) for i in range(24)]
    for i, name in enumerate(("JC1", "JC2", "JC3: the remainder (CRC-8)")):
        p.text(at[8 * i] + 4 * cell, top - 10, name, 13, "middle")
    powers = ("x&#8311;", "x&#8310;", "x&#8309;", "x&#8308;", "x&#179;", "x&#178;", "x", "1")
    for x, name in zip(at, (*(f"C{i}" for i in range(1, 15)), "II", "DI", *powers)):
        fill = CONTROL if name in ("II", "DI") else OVER if x >= at[16] else CLIENT
        p.box(x, top, cell, 36, fill, name, 12)

    y = top + 62
    p.text(20, y, "change")
    p.text(at[0], y, "C bits turned over: 1; left as they are: 0")
    p.text(at[16] + 8, y, "worked frames")
    for change, pattern, indicators, worked in CHANGES:
        y += 36
        p.text(20, y + 1, change, 15)
        for x, bit in zip(at, pattern):
            p.box(x, y - 18, cell, 28, CLIENT if bit == "1" else STUFF, bit, 12)
        if not pattern:
            p.box(at[0], y - 18, at[13] + cell - at[0], 28, STUFF, "the new count itself", 12)
        for x, bit in zip(at[14:], indicators):
            p.box(x, y - 18, cell, 28, CONTROL if bit == "1" else STUFF, bit, 12)
        p.text(at[16] + 8, y + 1, worked)

    notes = (
        "C1 is the first bit of the count. The bits are turned over in the count of the payload in"
        " this frame, not in the bits last sent.",
        "The remainder is that of the 16 bits of JC1 and JC2, times x&#8312;, by"
        " x&#8312; + x&#179; + x&#178; + 1.",
    )
    for i, note in enumerate(notes):
        p.text(20, y + 34 + 20 * i, note, 13, fill=DIM)
    return p


def standings():
    """The sink as a state machine (01, "Sink", rules 1 to 3)."""
    p = Picture(WIDTH, 600, "The standings")
    head = "A sink between frames, and the standings that lead from state to state"
    p.text(20, 28, f"{head} (rules 1 to 3 of 01)", 15)
    wide, high, left, right, upper, lower = 226, 82, 168, 562, 112, 336
    out = {"known": "the next frame hands out by it", "none": "the next frame hands out nothing"}
    states = [
        (left, upper, "none", "no word", STUFF),
        (right, upper, "none", "word remembered", STUFF),
        (left, lower, "known", "no word", CLIENT),
        (right, lower, "known", "word remembered", CLIENT),
    ]
    for x, y, count, word, fill in states:
        p.box(x, y, wide, high, fill)
        for dy, line, size in ((28, f"count {count}", 15), (48, word, 15), (70, out[count], 12)):
            p.text(x + wide / 2, y + dy, line, size, "middle", DIM if size < 13 else INK)

    def say(x, y, anchor, *lines):
        for i, line in enumerate(lines):
            p.text(x, y + 18 * i, line, 13, anchor)

    third = "OUTSIDE (rule 3)"
    a, b = upper + high / 2, lower + high / 2
    p.arrow((left + 60, upper - 34), (left + 60, upper))
    say(left + 60, upper - 42, "middle", "new sink")
    p.arrow((20, a), (left, a))
    say(20, a - 26, "start", "BADCHECK,", "OUTSIDE (rule 2)")
    p.text(20, a + 18, "from every state", 12, fill=DIM)
    p.arrow((20, b), (left, b))
    say(20, b - 8, "start", "READ")
    p.text(20, b + 18, "from every state", 12, fill=DIM)

    p.arrow((left + wide, a), (right, a))
    say((left + wide + right) / 2, a - 8, "middle", "WAITING")
    p.arrow((left + wide, b), (right, b))
    say((left + wide + right) / 2, b - 8, "middle", "TRACKED")
    p.arrow((left + wide - 40, lower), (right + 10, upper + high))
    say(left + wide + 36, (upper + high + lower) / 2 - 14, "end", "WAITING,", third)
    p.arrow((right + 90, upper + high), (right + 90, lower))
    say(right + 82, (upper + high + lower) / 2 + 20, "end", "PAIRED")
    p.arrow((right + 136, lower), (right + 136, upper + high))
    say(right + 144, (upper + high + lower) / 2 - 4, "start", "WAITING,", third)

    def loop(y, dy):
        p.arrow((right + 70, y), (right + 70, y + dy), (right + 156, y + dy), (right + 156, y))

    loop(upper, -24)
    say(right + 113, upper - 32, "middle", f"WAITING, {third}")
    loop(lower + high, 24)
    held = "TRACKED, or PAIRED where the", "count held is not continued"
    say(right + 113, lower + high + 42, "middle", *held)

    rules = (
        "BADCHECK: the check fails, and no bit is mended (rule 1).",
        "READ: II = DI, and the C bits are the count (rule 2).",
        "TRACKED: the word continues the count held (rule 3).",
        "PAIRED: it does not, but continues a possible count of the word remembered (rule 3).",
        "WAITING: neither (rule 3). OUTSIDE: the count that rule 2 or 3 leads to is outside the"
        " window.",
        "With the type check on a frame hands out by the count only while the accepted type is the"
        " expected one.",
    )
    for i, rule in enumerate(rules):
        p.text(20, lower + high + 74 + 19 * i, rule, 13, fill=DIM)
    return p


def span_lines(first, last):
    """Of the table that ./span prints: frame, what the span did, standing, count, client bytes."""
    for line in SPAN.read_text(encoding="utf-8").splitlines():
        words = line.split(maxsplit=6)
        if words and words[0].isdigit() and first <= int(words[0]) <= last:
            yield int(words[0]), words[1], words[3], words[4], words[6]


def keeper_count(t):
    """The t-th count of a new keeper at 1000BASE-X's rate, from 1.

    The first t add up to the number nearest to t * p / q, exact halves going up.
    """
    p, q = 18671875, 1296
    return (2 * t * p + q) // (2 * q) - (2 * (t - 1) * p + q) // (2 * q)


def recovery():
    """A sink over a hit, as ./span shows it: two clean frames later bytes are handed out again."""
    p = Picture(WIDTH, 338, "Back after two clean frames")
    head = "A hit at 1000BASE-X's rate, and the way back: two clean frames in succession"
    p.text(20, 28, head, 15)
    wide, step, left, top = 90, 94, 142, 62
    fills = {"BADCHECK": HIT, "WAITING": STUFF, "PAIRED": CONTROL}
    heights = 0, 22, 50, 70, 108, 150, 172
    titles = "frame", "the span", "count of its payload", "its word announces", "the sink says"
    for y, title in zip(heights, (*titles, "the sink then holds", "bytes handed out")):
        p.text(20, top + y, title, 13, fill=DIM)
    changes = {0: "", 1: " (+1)", -1: " (&#8722;1)"}
    after_hit = left
    for i, (frame, span, standing, count, handed) in enumerate(span_lines(4, 11)):
        x = left + i * step
        now, then = keeper_count(frame), keeper_count(frame + 1)
        bytes_are = "nothing" if handed == "-" else "may be wrong"
        bytes_are = "as mapped" if handed.startswith("as mapped") else bytes_are
        held = "none" if count == "-" else count
        said = frame, span, now, f"{then}{changes[then - now]}", standing, held, bytes_are
        p.box(x, top + 84, wide, 40, fills.get(standing, CLIENT))
        for y, text in zip(heights, said):
            p.text(x + wide / 2, top + y, text, 13, "middle")
        after_hit = x + step if span == "hit" else after_hit
    p.arrow((after_hit, top + 198), (after_hit + step + wide, top + 198))
    p.text(after_hit + (step + wide) / 2, top + 216, "two clean frames", 13, "middle")
    notes = (
        "A frame's bytes are handed out by the count held before it. So the first frame of the hit"
        " still hands out bytes, and those",
        "that were hit are wrong; a damaged word costs the bytes of the frames after its own.",
    )
    for i, note in enumerate(notes):
        p.text(20, top + 246 + 18 * i, note, 13, fill=DIM)
    return p


def port_tallies():
    """Frames, BADCHECK frames and bytes of each port, and those of the card."""
    text = PORTS.read_text(encoding="utf-8")
    rows = re.findall(r"^ *(?:\d|card) +(\d+) +(\d+) +(\d+)$", text, re.M)
    return [tuple(map(int, row)) for row in rows]


def ports():
    """The three numbers of each port of a card, and beneath them the card's total."""
    p = Picture(WIDTH, 358, "A tally for each port")
    p.text(20, 28, "Whose span is bad: the tallies of a card's eight ports, and its total", 15)
    wide, step, left, top, lower = 90, 94, 142, 56, 164
    heights = 46, 70, 94
    titles = "frames taken", "BADCHECK", "bytes handed out"
    for y, title in zip(heights, titles):
        p.text(20, top + y, title, 13, fill=DIM)
        p.text(20, lower + y, title, 13, fill=DIM)

    *tallies, total = port_tallies()
    for i, numbers in enumerate(tallies):
        x = left + i * step
        p.box(x, top, wide, 110, HIT if numbers[1] else CLIENT)
        p.text(x + wide / 2, top + 20, f"port {i + 1}", 13, "middle")
        for y, number in zip(heights, numbers):
            p.text(x + wide / 2, top + y, f"{number:,}", 13, "middle")

    right = left + 7 * step + wide
    p.line([(left, lower + 8), (left, lower + 14), (right, lower + 14), (right, lower + 8)])
    p.box(left, lower + 24, right - left, 88, BAND)
    for y, number in zip(heights, total):
        p.text((left + right) / 2, lower + y, f"{number:,}", 13, "middle")
    p.text(left + 14, lower + heights[1], "the card", 13)

    notes = (
        "An accepted call changes the three numbers of the port that it names, and no other. Each"
        " stops at 4,294,967,295.",
        "The port with BADCHECK frames has the bad span. It has handed out less, too: here each such"
        " frame costs the bytes of",
        "one frame; where the count moves it may cost those of two.",
        "The card's total is the sum of the eight, in 64 bits: here the bytes are more than 32 bits"
        " can say.",
    )
    for i, note in enumerate(notes):
        p.text(20, lower + 130 + 18 * i, note, 13, fill=DIM)
    return p


def type_rows(port, last):
    """A port's three rows as types.txt has them: what arrives, is accepted and handed out.

    Each is a list of parts: first frame, end, what it says, and its colour.
    """
    text = TYPES.read_text(encoding="utf-8")
    other, right = re.search(r"has type (\d+), and (\d+) is expected", text).groups()
    arriving = [(1, f"type {right}", CLIENT)]
    accepted, handed = [(1, "none", STUFF)], [(1, "nothing", STUFF)]
    for frame, what in re.findall(rf"^ *(\d+) +{port}  (.+)$", text, re.M):
        frame = int(frame)
        if what == "gets the other client's frames":
            arriving = [part for part in arriving if part[0] < frame]
            arriving.append((frame, f"type {other}, the other client's", HIT))
            if handed[-1][2] == CLIENT:
                handed.append((frame, "the other client's bytes", HIT))
        elif what.startswith("has accepted"):
            number = what.split()[-1]
            accepted.append((frame, f"type {number}", CLIENT if number == right else HIT))
        elif what == "hands out bytes":
            handed.append((frame, "bytes", arriving[-1][2]))
        elif what == "hands out nothing more":
            handed.append((frame, "nothing", STUFF))
    for parts in (arriving, accepted, handed):
        ends = [part[0] for part in parts[1:]] + [last + 1]
        yield [(first, end, says, fill) for (first, says, fill), end in zip(parts, ends)]


def types():
    """Ports with the right cord, with a swapped one, and with one that is swapped in service."""
    p = Picture(WIDTH, 440, "The payload type must count")
    p.text(20, 28, "Three ports of a card that expect type 7, over the frames of a run", 15)
    text = TYPES.read_text(encoding="utf-8")
    last = int(re.search(r"^ *1 +(\d+) +\d+ +\d+ +\d+$", text, re.M)[1])
    left, top, high, step = 206, 74, 22, 96

    def at(frame):
        return round(left + (WIDTH - 20 - left) * (frame - 1) / last, 1)

    p.text(20, top - 20, "frames numbered 0", 13, fill=DIM)
    for frame in range(1, last + 1, 256):
        p.text(at(frame), top - 20, frame, 13, "middle")
        p.line([(at(frame), top - 14), (at(frame), top + 3 * step - 12)], stroke=DIM)
    titles = "frames that arrive", "accepted type", "handed out"
    cords = "the right cord", "a swapped cord", "swapped in service"
    for port, cord in enumerate(cords, 1):
        y = top + step * (port - 1)
        p.text(20, y + 10, f"port {port}: {cord}", 13)
        for i, (title, parts) in enumerate(zip(titles, type_rows(port, last))):
            upper = y + 16 + high * i
            p.text(34, upper + 14, title, 12, fill=DIM)
            for first, end, says, fill in parts:
                p.box(at(first), upper, round(at(end) - at(first), 1), high - 4, fill)
                middle = round((at(first) + at(end)) / 2, 1)
                p.fitting(middle, upper + 13, says, 12, at(end) - at(first) - 4)

    notes = (
        "All three hold the count after frame 2. A type is accepted in the third frame numbered 0"
        " running that has it; until then",
        "the earlier one, or none, stands. A frame is judged after its own bytes, so handing out"
        " changes with the frame behind it.",
        "Port 2 hands out not one byte. Port 3 had accepted type 7 when its cord was swapped: until"
        " three frames numbered 0",
        "have come with type 5, the other client's bytes are handed out.",
    )
    for i, note in enumerate(notes):
        p.text(20, top + 3 * step + 12 + 18 * i, note, 13, fill=DIM)
    return p


def group_of(name):
    """The number of a crate's group in GROUPS."""
    is_program = (CRATES.parent / "crates" / name / "src" / "main.rt").exists()
    name = "program_" if is_program else name
    for number, (_, _, keys) in enumerate(GROUPS):
        if any(name == key or key[-1] == "_" and name.startswith(key) for key in keys):
            return number
    return [keys for _, _, keys in GROUPS].index(())


def read_crates():
    """Each crate of crates.txt with those that it rests on, the kit's libraries left out.

    Both stand in the order of their names: crates.txt has them in that of proving.
    """
    lines = [line for line in CRATES.read_text().splitlines() if line.strip() and line[0] != "#"]
    listed = {name.split()[0]: rest.split() for name, rest in (line.split(":") for line in lines)}
    rests = {name: sorted(o for o in listed[name] if o in listed) for name in sorted(listed)}
    for name, other in ((name, other) for name in rests for other in rests[name]):
        if group_of(name) > group_of(other):
            sys.exit(f"draw.py: {name} rests on {other}, whose group stands above its own")
    return rests


def reduced(rests):
    """Of what each rests on, that which it does not rest on by way of another."""

    @functools.cache
    def below(name):
        return {name}.union(*(below(other) for other in rests[name]))

    return {
        name: [a for a in others if not any(a in below(b) for b in others if b != a)]
        for name, others in rests.items()
    }


def layers(rests):
    """The rows of a group from the top down, and each arrow as what it passes from row to row.

    A crate stands above those that it rests on, and one that rests on none just below those that
    rest on it. An arrow over more than one row has a place of its own in each row between.
    """

    def depth(name):
        return max((depth(other) + 1 for other in rests[name]), default=0)

    def level(name):
        users = [depth(user) for user in rests if name in rests[user]]
        return min(users) - 1 if users and not rests[name] else depth(name)

    levels = {name: level(name) for name in sorted(rests, reverse=True)}
    top = max(levels.values(), default=0)
    rows = [[name for name in levels if levels[name] == top - i] for i in range(top + 1)]
    arrows = []
    for upper, lower in ((upper, lower) for upper in rests for lower in rests[upper]):
        between = range(top - levels[upper] + 1, top - levels[lower])
        places = [(upper, lower, i) for i in between]
        for i, place in zip(between, places):
            rows[i].append(place)
        arrows.append([upper, *places, lower])
    return rows, arrows


def room(row):
    """What a row takes, in boxes: an arrow that passes takes less than a crate."""
    return sum(1 if isinstance(name, str) else 0.3 for name in row)


def spread(row):
    """The places in a row, from 0 at the left to 1 at the right."""
    return {n: (room(row[:i]) + room([n]) / 2) / room(row) for i, n in enumerate(row)}


def best_turn(row, cost):
    """The cheapest order of a row; of a long one the best that moving one at a time leads to."""
    if len(row) < 7:
        return list(min(itertools.permutations(row), key=cost))
    best, found = row, cost(row)
    while True:
        rests = [(name, [n for n in best if n != name]) for name in best]
        turns = [rest[:i] + [name] + rest[i:] for name, rest in rests for i in range(len(best))]
        turn = min(turns, key=cost)
        if cost(turn) >= found:
            return best
        best, found = turn, cost(turn)


def ordered(rows, arrows):
    """The rows, each in turn put in the order in which its arrows cross least and are shortest."""
    steps = [step for arrow in arrows for step in zip(arrow, arrow[1:])]
    was = None
    while rows != was:
        was = list(rows)
        for i, row in enumerate(rows):
            at = {name: x for other in rows for name, x in spread(other).items()}
            above = [step for step in steps if step[1] in row]
            below = [step for step in steps if step[0] in row]

            def cost(turn):
                x = {**at, **spread(turn)}
                crossed = sum(
                    (x[a] - x[c]) * (x[b] - x[d]) < 0
                    for side in (above, below)
                    for (a, b), (c, d) in itertools.combinations(side, 2)
                )
                return crossed, round(sum(abs(x[a] - x[b]) for a, b in above + below), 6)

            rows[i] = best_turn(row, cost)
    return rows


def band(p, top, right, group, rests, others):
    """A group of crates: a box for each, and the arrows between them. Answers its lower edge."""
    title, fill, _ = group
    rows, arrows = layers(rests)
    rows = ordered(rows, arrows)
    left, high = 10, 36
    longest = max(map(room, rows))
    wide = min(int((right - left - 12) / longest) - 12, 190)
    slots = min(right - left - 12, longest * (wide + 30))
    middle = (left + right) / 2
    x = {n: round(middle + slots * (at - 0.5)) for row in rows for n, at in spread(row).items()}

    # The title stands above the first row, or beside it where there is room.
    beside = min(x[name] for name in rows[0]) - wide / 2 > left + 24 + 9 * len(title)
    y, end = {}, top + (12 if beside else 32)
    for row in rows:
        y.update({name: end for name in row})
        steps = (step for arrow in arrows for step in zip(arrow, arrow[1:]) if step[0] in row)
        slant = max((abs(x[a] - x[b]) for a, b in steps), default=0)
        end += high + max(20, min(56, slant // 7))
    end = y[rows[-1][0]] + high + 12

    def foot(arrow, at, mate):
        """Where an arrow meets its box: the arrows at one edge stand side by side."""
        mates = sorted(x[other[mate]] for other in arrows if other[at] == arrow[at])
        apart = min(18, wide // (len(mates) + 1))
        return x[arrow[at]] + apart * (mates.index(x[arrow[mate]]) - (len(mates) - 1) / 2)

    p.box(left, top, right - left, end - top, BAND, stroke=DIM)
    p.text(left + 12, top + 22, f'<tspan font-weight="bold">{title}</tspan>')
    for arrow in arrows:
        points = [(foot(arrow, 0, 1), y[arrow[0]] + high)]
        for place in arrow[1:-1]:
            points += [(x[place], y[place]), (x[place], y[place] + high)]
        p.arrow(*points, (foot(arrow, -1, -2), y[arrow[-1]]))
    for name in (name for row in rows for name in row if name in rests):
        p.box(x[name] - wide / 2, y[name], wide, high, fill)
        p.fitting(x[name], y[name] + (16 if others[name] else 22), name, 13, wide - 6)
        p.fitting(x[name], y[name] + 30, ", ".join(others[name]), 10, wide - 6, DIM)
    return end


def crates():
    """The groups of crates: which group rests on which, and in a group which crate on which."""
    rests = read_crates()
    direct = reduced(rests)
    drawn = sorted({group_of(name) for name in rests})
    at = {name: drawn.index(group_of(name)) for name in rests}
    groups = {g: [name for name in rests if at[name] == g] for g in range(len(drawn))}
    over = reduced(
        {
            g: sorted({at[other] for name in names for other in rests[name]} - {g})
            for g, names in groups.items()
        }
    )
    # Between groups an arrow runs straight down, at the right of the groups that it passes; that
    # which reaches furthest down runs outermost.
    links = [(upper, lower) for upper in over for lower in over[upper]]
    links.sort(key=lambda link: (link[1] == link[0] + 1, -link[1], link[0]))
    passing = [link for link in links if link[1] > link[0] + 1]
    lane = {link: WIDTH - 30 - 32 * min(i, len(passing)) for i, link in enumerate(links)}

    p = Picture(WIDTH, 0, "The groups of crates")
    p.text(20, 26, "The crates by group: an arrow runs from what rests to what it rests on", 15)
    y, tops, ends = 42, {}, {}
    for g, names in groups.items():
        right = min((lane[up, low] for up, low in passing if up < g < low), default=WIDTH + 6)
        within = {name: [other for other in direct[name] if other in names] for name in names}
        others = {name: [other for other in direct[name] if other not in names] for name in names}
        tops[g], ends[g] = y, band(p, y, right - 16, GROUPS[drawn[g]], within, others)
        y = ends[g] + 24
    for (upper, lower), x in lane.items():
        p.arrow((x, ends[upper]), (x, tops[lower]), width=2)
    note = "The small line in a box names the crates of other groups that it rests on."
    p.text(20, y, note, fill=DIM)
    p.height = y + 16
    return p


PICTURES = {
    "frame.svg": layout,
    "even.svg": even,
    "control.svg": control,
    "standings.svg": standings,
    "recovery.svg": recovery,
    "ports.svg": ports,
    "types.svg": types,
    "crates.svg": crates,
}


def main():
    check = sys.argv[1:] == ["--check"]
    if sys.argv[1:] and not check:
        sys.exit(__doc__)
    old = []
    for name, draw in PICTURES.items():
        path, svg = HERE / name, draw().svg()
        if not check:
            path.write_text(svg, encoding="utf-8")
        elif not path.exists() or path.read_text(encoding="utf-8") != svg:
            old.append(name)
    for name in old:
        print(f"draw.py: {name} is not as drawn; docs/pictures/draw.py draws it anew")
    return 1 if old else 0


if __name__ == "__main__":
    sys.exit(main())
