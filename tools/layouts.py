#!/usr/bin/env python3
"""Draws docs/layouts/*.svg, the pictures of docs/LAYOUTS.md, from the widths that documents 01 and 02 give.

  python3 tools/layouts.py            writes the pictures
  python3 tools/layouts.py --check    ends with 1 if a picture is not what this script draws

The same script gives the same octets everywhere. A label that does not fit in its box, two texts that overlap, and a header whose widths do
not add up end it.
"""
import argparse
import os
import sys

WIDTH = 960
LEFT = 84  # where boxes begin; labels of rows stand before
UNIT = 54  # one bit of a header, one octet of a body
FULL = 16 * UNIT

# One colour for one meaning, in every picture.
FIXED = "#e3e3e3"  # the value is fixed by a rule
FREE = "#ffffff"  # may hold anything
NAMES = "#cfe3f7"  # names of spacecraft, channel, MAP, entry
SORT = "#c9ece6"  # which of several: version, service, kind, state, answer
LENGTH = "#fcd9ad"  # lengths, positions, counts
NUMBER = "#fff0a8"  # SPI, sequence number, window, mark, stores
DATA = "#d3ecd0"  # data
MAC = "#f7cdc9"  # MAC and key
TRAILER = "#dfd3ee"  # OCF and check field
INK = "#1a1a1a"
SOFT = "#595959"


def text_width(text, size, weight="normal"):
    """About what the text takes in the widest of the fonts named below."""
    total = 0.0
    for c in text:
        if c in "iljI.,:;'|!()[] ":
            total += 0.37
        elif c in "mwMW%":
            total += 0.96
        elif c.isupper():
            total += 0.72
        else:
            total += 0.62
    return total * size * (1.05 if weight == "bold" else 1)


class Picture:
    def __init__(self, name, title):
        self.name = name
        self.title = title
        self.parts = []
        self.bottom = 0
        self.texts = []

    def add(self, part, bottom):
        self.parts.append(part)
        self.bottom = max(self.bottom, bottom)

    def text(self, x, y, words, size=13, anchor="middle", weight="normal", colour=INK):
        width = text_width(words, size, weight)
        left = x - {"start": 0, "middle": width / 2, "end": width}[anchor]
        assert left >= 0 and left + width <= WIDTH, "outside the picture: " + words
        for other, x1, x2, base, tall in self.texts:
            apart = left + width <= x1 or x2 <= left or y - 0.75 * size >= base + 1 or base - 0.75 * tall >= y + 1
            assert apart, f"overlap: {words} and {other}"
        self.texts.append((words, left, left + width, y, size))
        words = words.replace("&", "&amp;").replace("<", "&lt;").replace(">", "&gt;")
        bold = ' font-weight="bold"' if weight == "bold" else ""
        self.add(f'<text x="{x:g}" y="{y:g}" font-size="{size}" text-anchor="{anchor}" fill="{colour}"{bold}>{words}</text>', y + 6)

    def note(self, y, words, x=LEFT):
        self.text(x, y, words, 12.5, "start", colour=SOFT)

    def line(self, x1, y1, x2, y2, colour=INK, width=1, dashes=""):
        dashed = f' stroke-dasharray="{dashes}"' if dashes else ""
        self.add(f'<path d="M{x1:g} {y1:g}L{x2:g} {y2:g}" stroke="{colour}" stroke-width="{width}"{dashed}/>', max(y1, y2))

    def arrow(self, points, colour=INK):
        path = "L".join(f"{x:g} {y:g}" for x, y in points)
        self.add(f'<path d="M{path}" fill="none" stroke="{colour}" stroke-width="1.3" marker-end="url(#tip)"/>', max(y for _, y in points))

    def box(self, x, y, width, height, fill, lines, dashes="", sizes=(13, 12, 12, 12)):
        """A box with its name in bold and what else is said of it in the lines below. A line that begins with * goes on with the name."""
        dashed = f' stroke-dasharray="{dashes}"' if dashes else ""
        self.add(f'<rect x="{x:g}" y="{y:g}" width="{width:g}" height="{height:g}" fill="{fill}" stroke="{INK}"{dashed}/>', y + height)
        steps = 16
        start = y + height / 2 - steps * (len(lines) - 1) / 2 + 4.5
        for i, words in enumerate(lines):
            bold = i == 0 or words.startswith("*")
            weight = "bold" if bold else "normal"
            size = sizes[0] if bold else sizes[min(i, len(sizes) - 1)]
            words = words.lstrip("*")
            assert text_width(words, size, weight) <= width - 1, f"does not fit: {words} in {width}"
            self.text(x + width / 2, start + steps * i, words, size, weight=weight)

    def bracket(self, x1, x2, y, words, colour=INK, size=12.5):
        """A bracket below something, from x1 to x2, with words below it."""
        self.add(f'<path d="M{x1 + 2:g} {y:g}v7H{x2 - 2:g}v-7" fill="none" stroke="{colour}" stroke-width="1.6"/>', y + 7)
        for i, part in enumerate(words):
            self.text((x1 + x2) / 2, y + 21 + 15 * i, part, size, colour=colour)

    def svg(self):
        height = int(self.bottom + 14)
        head = (
            f'<svg xmlns="http://www.w3.org/2000/svg" viewBox="0 0 {WIDTH} {height}" width="{WIDTH}" height="{height}" role="img"'
            " font-family=\"Helvetica, Arial, 'Liberation Sans', 'DejaVu Sans', sans-serif\">"
        )
        tip = (
            '<defs><marker id="tip" viewBox="0 0 8 8" refX="7" refY="4" markerWidth="8" markerHeight="8" orient="auto">'
            f'<path d="M0 0L8 4L0 8z" fill="{INK}"/></marker></defs>'
        )
        ground = f'<rect width="{WIDTH}" height="{height}" fill="#ffffff"/>'
        return "\n".join([head, f"<title>{self.title}</title>", tip, ground] + self.parts + ["</svg>", ""])


def heading(picture, words, note=""):
    picture.text(LEFT, 26, words, 16, "start", "bold")
    if note:
        picture.note(46, note)


def legend(picture, y, entries, x=LEFT):
    for fill, words in entries:
        picture.add(f'<rect x="{x:g}" y="{y - 11:g}" width="14" height="14" fill="{fill}" stroke="{INK}"/>', y + 3)
        picture.text(x + 20, y, words, 12.5, "start")
        x += 20 + text_width(words, 12.5) + 18


# ---- headers: rows of 16 bits

TC = [
    ("version", 2, FIXED, "0"),
    ("bypass", 1, FREE, "any"),
    ("control", 1, FIXED, "0"),
    ("spare", 2, FIXED, "0"),
    ("spacecraft", 10, NAMES, "0 to 1,023"),
    ("virtual channel", 6, NAMES, "0 to 63"),
    ("length", 10, LENGTH, "all octets of the frame less one"),
    ("frame sequence", 8, FREE, "any"),
]
SEGMENT = [("flags", 2, FREE, "any"), ("MAP", 6, NAMES, "0 to 63")]
TM = [
    ("version", 2, FIXED, "0"),
    ("spacecraft", 10, NAMES, "0 to 1,023"),
    ("virtual channel", 3, NAMES, "0 to 7"),
    ("OCF", 1, LENGTH, "flag"),
    ("master channel count", 8, FREE, "any"),
    ("virtual channel count", 8, FREE, "any"),
    ("flag", 1, LENGTH, "0, 1"),
    ("rest of the data field status", 15, FREE, "any"),
]
SECONDARY = [("version", 2, FIXED, "0"), ("length", 6, LENGTH, "its octets less one, 1 to 63")]
AOS = [
    ("version", 2, FIXED, "01"),
    ("spacecraft", 8, NAMES, "0 to 255"),
    ("virtual channel", 6, NAMES, "0 to 63"),
    ("frame count, first part", 16, FREE, "any"),
    ("frame count, last part", 8, FREE, "any"),
    ("signalling", 8, FREE, "any"),
]
MEANINGS = [(FIXED, "fixed"), (FREE, "may hold anything"), (NAMES, "names the channel"), (LENGTH, "says how long")]


def header(name, title, note, fields, octets):
    assert sum(width for _, width, _, _ in fields) == 8 * octets
    p = Picture(name, title)
    heading(p, title, note)
    y = 92
    rows = (octets + 1) // 2
    at = 0
    waiting = list(fields)
    for row in range(rows):
        bits = min(16, 8 * octets - 16 * row)
        for octet in range(bits // 8):
            p.text(LEFT + UNIT * (8 * octet + 4), y - 22, f"octet {2 * row + octet}", 12.5, weight="bold")
            p.line(LEFT + UNIT * 8 * octet, y - 34, LEFT + UNIT * 8 * octet, y, SOFT)
        p.line(LEFT + UNIT * bits, y - 34, LEFT + UNIT * bits, y, SOFT)
        for bit in range(bits):
            p.text(LEFT + UNIT * (bit + 0.5), y - 6, str(bit % 8), 11.5, colour=SOFT)
        p.text(LEFT - 10, y + 32, f"bits {16 * row}", 12, "end", colour=SOFT)
        p.text(LEFT - 10, y + 47, f"to {16 * row + bits - 1}", 12, "end", colour=SOFT)
        while waiting and at + waiting[0][1] <= 16 * row + bits:
            label, width, fill, rule = waiting.pop(0)
            size = "1 bit" if width == 1 else f"{width} bits"
            sizes = (11.5, 12) if width == 1 else (13, 12)
            p.box(LEFT + UNIT * (at - 16 * row), y, UNIT * width, 70, fill, [label, size, rule], sizes=sizes)
            at += width
        y += 122
    assert not waiting
    legend(p, p.bottom + 30, [m for m in MEANINGS if m[0] in [f[2] for f in fields]])
    return p


def tc_header():
    note = "Bit 0 of an octet is its most significant. Largest frame: 1,024 octets."
    return header("tc-header", "TC header (kind 1): 5 octets", note, TC, 5)


def tc_segment_header():
    note = "The header of kind 1 and one octet more, the segment header. Largest frame: 1,024 octets."
    return header("tc-segment-header", "TC header with segment header (kind 2): 6 octets", note, TC + SEGMENT, 6)


def tm_header():
    note = "OCF flag 1: the last 4 octets of the frame are the operational control field. Largest frame: 2,048 octets."
    p = header("tm-header", "TM header (kind 3): 6 octets, and where its flag is 1 a secondary header of 2 to 64", note, TM + SECONDARY, 7)
    y = 92 + 122 * 3
    p.text(LEFT + UNIT * 12, y - 22, "octets 7 to h - 1", 12.5, weight="bold")
    p.box(LEFT + UNIT * 8, y, UNIT * 8, 70, FREE, ["rest of the secondary header", "1 to 63 octets", "any"], dashes="5 4")
    p.note(p.bottom + 20, "The flag that opens the data field status announces the secondary header. With flag 0 the data begins at octet 6.")
    return p


def aos_header():
    note = "There is no length field and no OCF. Largest frame: 2,048 octets."
    p = header("aos-header", "AOS header (kind 4): 6 octets", note, AOS, 6)
    p.note(p.bottom + 20, "The frame count has 24 bits, octets 2 to 4.")
    return p


# ---- secured frames


def parts_row(p, y, parts, label, end):
    """Parts one behind the other, with the place where each begins above it, and where the last ends."""
    p.text(LEFT - 10, y + 31, label, 12.5, "end", "bold")
    x = LEFT
    places = {}
    for name, width, fill, lines, place in parts:
        p.text(x + 3, y - 6, place, 12, "start", colour=SOFT)
        p.line(x, y - 16, x, y, SOFT)
        p.box(x, y, width, 52, fill, lines)
        places[name] = (x, x + width)
        x += width
    p.line(x, y - 16, x, y, SOFT)
    if x + 70 < WIDTH:
        p.text(x + 3, y - 6, end, 12, "start", colour=SOFT)
    else:
        p.text(x - 3, y - 6, end, 12, "end", colour=SOFT)
    return places


def secured_rows(p, y, service, ocf):
    field = 4 if service == 1 else 12

    def place(behind, data=False):
        """So many octets behind the header, and behind the data too."""
        return ("h" if behind == 0 else f"h+{behind}") + ("+n" if data else "")

    h = "h octets"
    # A part has the same width in both rows.
    head, spi, number, data, mac, trailer = 120, 74, 148, 252, 116, 154
    clear = [("header", head, NAMES, ["header", h], "0"), ("data", data, DATA, ["data", "n octets"], place(0))]
    secured = [
        ("header", head, NAMES, ["header", h], "0"),
        ("spi", spi, NUMBER, ["SPI", "2 octets"], place(0)),
        ("number", number, NUMBER, ["number" if service == 1 else "IV", f"{field} octets"], place(2)),
        ("data", data, DATA, ["data" if service == 1 else "data, encrypted", "n octets"], place(2 + field)),
        ("mac", mac, MAC, ["MAC", "16 octets"], place(2 + field, True)),
    ]
    if ocf:
        clear.append(("ocf", trailer, TRAILER, ["OCF", "4 octets"], place(0, True)))
        secured.append(("ocf", trailer, TRAILER, ["OCF, copied", "4 octets"], place(18 + field, True)))
    parts_row(p, y, clear, "clear", place(4 if ocf else 0, True))
    ends = parts_row(p, y + 96, secured, "secured", place((22 if ocf else 18) + field, True))
    below = y + 96 + 60
    p.bracket(*ends["header"], below, ["ANDed with", "the mask"], "#1f4e99")
    if service == 1:
        p.bracket(ends["spi"][0], ends["data"][1], below, ["as they are: no mask here"], "#1f4e99")
        all_of_it = "the MAC covers all of this: CMAC over masked header, security header, data"
        p.bracket(ends["header"][0], ends["data"][1], below + 48, [all_of_it], "#8a1c12")
    else:
        p.bracket(ends["spi"][0], ends["number"][1], below, ["as they are: no mask here"], "#1f4e99")
        p.bracket(ends["data"][0], ends["data"][1], below, ["GCM plaintext, out as ciphertext"], "#1f6b1a")
        p.bracket(ends["header"][0], ends["number"][1], below + 48, ["GCM additional data"], "#8a1c12")
        p.bracket(ends["header"][0], ends["data"][1], below + 86, ["the MAC, GCM's tag, covers all of this"], "#8a1c12")
    p.bracket(ends["mac"][0], ends["ocf"][1] if ocf else ends["mac"][1], below, ["not covered"], SOFT)


def secured(service):
    what = "authentication" if service == 1 else "authenticated encryption"
    name = f"secured-service-{service}"
    p = Picture(name, f"Service {service}, {what}: a clear frame and the secured one")
    size = 6 if service == 1 else 14
    sizes = f"h is 5 for kind 1, else 6, and 8 to 70 with a secondary header; n is at least 1. The secured frame is {size + 16} octets longer."
    heading(p, p.title, sizes)
    p.text(LEFT, 80, "Without OCF: TC, AOS, and TM with OCF flag 0", 14, "start", "bold")
    secured_rows(p, 110, service, False)
    y = p.bottom + 34
    p.text(LEFT, y, "With OCF: TM with OCF flag 1", 14, "start", "bold")
    secured_rows(p, y + 30, service, True)
    p.note(p.bottom + 26, "In TC the length field in the header is rewritten for the longer frame before the MAC is made.")
    p.note(p.bottom + 14, "In TM a secondary header is the end of the header: it is copied, and covered as it is, since the mask has 6 octets.")
    p.note(p.bottom + 14, "Widths are not to scale.")
    if service == 2:
        p.note(p.bottom + 14, "Below version 3 of the image the IV is the number, big-endian in 12 octets; what is sent has 0 in the first 8.")
        p.note(p.bottom + 14, "From version 3 on the first 8 are the SPI, in 4 octets, and 4 zero octets.")
    return p


def check_field():
    p = Picture("check-field", "Frames that end in a check field: TC, and TM with OCF or without")
    heading(p, p.title, "The field has 2 octets, so f is 2, and 6 with OCF. The TC length field counts it. Widths are not to scale.")
    head, spi, number, data, mac, ocf, field = 104, 66, 100, 216, 100, 124, 154
    parts = [
        ("header", head, NAMES, ["header", "h octets"], ""),
        ("data", data, DATA, ["data", "n octets"], ""),
        ("ocf", ocf, TRAILER, ["OCF, if any", "4 octets"], ""),
        ("field", field, TRAILER, ["check field", "2 octets"], ""),
    ]
    ends = parts_row(p, 96, parts, "clear", "")
    p.bracket(ends["header"][0], ends["ocf"][1], 156, ["the field is tested over all of this: answer 12"], SOFT)
    parts = [
        ("header", head, NAMES, ["header", "h octets"], ""),
        ("spi", spi, NUMBER, ["SPI", "2 octets"], ""),
        ("number", number, NUMBER, ["number", "4 or 12"], ""),
        ("data", data, DATA, ["data", "n octets"], ""),
        ("mac", mac, MAC, ["MAC", "16 octets"], ""),
        ("ocf", ocf, TRAILER, ["OCF, copied", "4 octets"], ""),
        ("field", field, TRAILER, ["check field, made", "2 octets"], ""),
    ]
    ends = parts_row(p, 220, parts, "secured", "")
    p.bracket(ends["header"][0], ends["data"][1], 280, ["the MAC covers all of this, the header masked"], "#8a1c12")
    p.bracket(ends["header"][0], ends["ocf"][1], 328, ["the field is made last, of all of this: the rewritten length and the MAC are in it"], SOFT)
    p.note(p.bottom + 26, "x^16 + x^12 + x^5 + 1, register preset to all ones, first bit first, nothing inverted at the end; the high octet stands first.")
    return p


# ---- the image


def image():
    p = Picture("image", "The image, versions 1 and 2: a table of contents, then the bodies")
    heading(p, p.title, "k entries, 0 to 32. Numbers are big-endian. Widths are not to scale.")
    y = 112
    contents = [
        (66, SORT, ["version", "1, 2", "1 octet"], "0"),
        (62, LENGTH, ["count", "k", "1 octet"], "1"),
        (82, NUMBER, ["SPI", "entry 0", "2 octets"], "2"),
        (82, LENGTH, ["position", "of body 0", "2 octets"], "4"),
        (82, NUMBER, ["SPI", "entry 1", "2 octets"], "6"),
        (82, LENGTH, ["position", "of body 1", "2 octets"], "8"),
        (50, FREE, ["..."], ""),
        (92, NUMBER, ["SPI", "entry k-1", "2 octets"], "4k-2"),
        (92, LENGTH, ["position", "of body k-1", "2 octets"], "4k"),
    ]
    tops = {}
    x = LEFT
    p.text(LEFT - 10, y + 37, "contents", 12.5, "end", "bold")
    for i, (width, fill, lines, place) in enumerate(contents):
        p.line(x, y - 14, x, y, SOFT)
        p.text(x + 3, y - 6, place, 12, "start", colour=SOFT)
        p.box(x, y, width, 64, fill, lines)
        tops[i] = x + width / 2
        x += width
    p.line(x, y - 14, x, y, SOFT)
    p.text(x + 3, y - 6, "2+4k", 12, "start", colour=SOFT)
    p.text(LEFT, y - 30, "place of the octet in the image", 12, "start", colour=SOFT)
    yb = y + 172
    bodies = [
        (220, FREE, ["body 0", "52 octets"], "2+4k", 3),
        (220, FREE, ["body 1", "52 octets"], "2+4k+52", 5),
        (50, FREE, ["..."], "", None),
        (220, FREE, ["body k-1", "52 octets"], "2+4k+52(k-1)", 8),
    ]
    x = LEFT
    p.text(LEFT - 10, yb + 37, "bodies", 12.5, "end", "bold")
    for width, fill, lines, place, source in bodies:
        p.line(x, yb - 14, x, yb, SOFT)
        p.text(x + 3, yb - 6, place, 12, "start", colour=SOFT)
        p.box(x, yb, width, 64, fill, lines)
        if source is not None:
            p.arrow([(tops[source], y + 64), (x + 0.62 * width, yb - 1)])
        x += width
    p.line(x, yb - 14, x, yb, SOFT)
    p.text(x + 3, yb - 6, "2+56k: the end", 12, "start", colour=SOFT)
    p.note(yb + 92, "SPIs are 1 to 65,534 and rise strictly. Body i stands at 2 + 4k + 52i; its position says so.")
    p.note(yb + 110, "The image has exactly 2 + 56k octets: 2 with no entry, 58 with one, 1,794 with 32.")
    return p


def body():
    p = Picture("body", "A body, versions 1 and 2: 52 octets")
    heading(p, p.title, "Octets are counted from the body's first. Below each name: the values allowed.")
    rows = [
        [
            ("service", 1, SORT, ["1, 2"]),
            ("kind", 1, SORT, ["1 to 4"]),
            ("direc-", 1, SORT, ["*tion", "1, 2"]),
            ("state", 1, SORT, ["0 to 2"]),
            ("spacecraft", 2, NAMES, ["0 to 1,023;", "AOS to 255"]),
            ("virtual", 1, NAMES, ["*channel", "0-63;", "TM: see"]),
            ("MAP", 1, NAMES, ["kind 2:", "0-63,", "else 0"]),
            ("window", 2, NUMBER, ["1 to 1,024", "in state 2"]),
            ("header mask", 6, FREE, ["any; for kind 1 the last octet is 0"]),
        ],
        [("AES-256 key, first half", 16, MAC, ["any"])],
        [("AES-256 key, second half", 16, MAC, ["any"])],
        [("mark m, coded", 4, NUMBER, ["m below 2^26, as m xor m/2"])],
    ]
    y = 96
    at = 0
    for row in rows:
        width = sum(f[1] for f in row)
        tall = 84 if at == 0 else 54
        p.text(LEFT - 10, y + tall / 2 + 4, f"octets {at}", 12, "end", colour=SOFT)
        p.text(LEFT - 10, y + tall / 2 + 19, f"to {at + width - 1}", 12, "end", colour=SOFT)
        for i in range(width):
            p.text(LEFT + UNIT * (i + 0.5), y - 6, str(at + i), 11.5, colour=SOFT)
        x = LEFT
        for name, octets, fill, lines in row:
            small = octets == 1
            p.box(x, y, UNIT * octets, tall, fill, [name] + lines, sizes=(10.5, 11.5) if small else (13, 12))
            x += UNIT * octets
        at += width
        y += tall + 34
    assert at == 52
    x = LEFT + 4 * UNIT + 24
    last = y - 54 - 34
    p.text(x, last + 16, "The module writes the mark, and by commands state and window.", 12.5, "start")
    p.text(x, last + 34, "Raising m by one changes one bit of the code, so one octet.", 12.5, "start")
    p.note(y, "service: 1 authentication, 2 authenticated encryption. kind: 1 TC, 2 TC with segment header, 3 TM, 4 AOS.")
    p.note(y + 18, "direction: 1 send, 2 receive. state: 0 unkeyed, 1 keyed, 2 operational. xor: exclusive or; m/2 is rounded down.")
    p.note(y + 36, "virtual channel of TM: 0 to 7 in version 1; in version 2 a set, 1 to 255, its lowest bit for channel 0.")
    p.note(y + 54, "window: 1 to 1,024 where the state is operational; in other states any, 0 to 65,535.")
    legend(p, y + 82, [(SORT, "which of several"), (NAMES, "names the channel"), (NUMBER, "for the number"), (MAC, "secret")])
    return p


# ---- version 3: keys in one place


def image_keys():
    p = Picture("image-keys", "The image, version 3: contents, bodies, and keys in one place")
    heading(p, p.title, "k entries, 0 to 32, and q keys, 0 to 64. Numbers are big-endian. Widths are not to scale.")
    y = 112
    contents = [
        (62, SORT, ["version", "3", "1 octet"], "0"),
        (58, LENGTH, ["count", "k", "1 octet"], "1"),
        (74, NUMBER, ["SPI", "entry 0", "2 octets"], "2"),
        (80, LENGTH, ["position", "of body 0", "2 octets"], "4"),
        (50, FREE, ["..."], ""),
        (84, NUMBER, ["SPI", "entry k-1", "2 octets"], "4k-2"),
        (92, LENGTH, ["position", "of body k-1", "2 octets"], "4k"),
        (84, FIXED, ["65,535", "not counted", "2 octets"], "2+4k"),
        (108, LENGTH, ["position", "of the key part", "2 octets"], "4+4k"),
    ]
    bodies = [
        (180, FREE, ["body 0", "22 octets"], "6+4k", 3),
        (50, FREE, ["..."], "", None),
        (200, FREE, ["body k-1", "22 octets"], "6+4k+22(k-1)", 6),
    ]
    keys = [
        (70, LENGTH, ["count", "q", "1 octet"], "6+26k", 8),
        (190, MAC, ["key 0", "35 octets"], "7+26k", None),
        (50, FREE, ["..."], "", None),
        (210, MAC, ["key q-1", "35 octets"], "7+26k+35(q-1)", None),
    ]
    p.text(LEFT, y - 30, "place of the octet in the image", 12, "start", colour=SOFT)
    middles = {}
    rows = [("contents", [(*part, None) for part in contents], "6+4k", y), ("bodies", bodies, "6+26k", y + 150)]
    rows += [("key part", keys, "7+26k+35q: the end", y + 300)]
    for label, parts, end, top in rows:
        x = LEFT
        p.text(LEFT - 10, top + 37, label, 12.5, "end", "bold")
        for i, (width, fill, lines, place, source) in enumerate(parts):
            p.line(x, top - 14, x, top, SOFT)
            p.text(x + 3, top - 6, place, 12, "start", colour=SOFT)
            p.box(x, top, width, 64, fill, lines)
            if top == y:
                middles[i] = x + width / 2
            if source == 8:
                p.arrow([(middles[8], y + 64), (middles[8], top - 36), (x + 54, top - 36), (x + 54, top - 1)])
            elif source is not None:
                p.arrow([(middles[source], y + 64), (x + 0.7 * width, top - 1)])
            x += width
        p.line(x, top - 14, x, top, SOFT)
        p.text(x + 3, top - 6, end, 12, "start", colour=SOFT)
    y += 300
    p.note(y + 92, "SPIs are 1 to 65,534 and rise strictly; the last entry stands outside the count. Key IDs rise strictly, from 0 on.")
    p.note(y + 110, "The image has exactly 7 + 26k + 35q octets: 7 with nothing in it, 3,079 with 32 entries and 64 keys.")
    p.note(y + 128, "An operational body names a key that is there and active. Other bodies may name any ID.")
    return p


def octet_row(p, y, label, fields, tall, at=0):
    """Fields of so many octets, in one row, with the place of each octet above it."""
    p.text(LEFT - 10, y + tall / 2 + 4, label, 12.5, "end", "bold")
    x = LEFT
    for name, octets, fill, lines, unit in fields:
        for i in range(octets if unit == UNIT else 1):
            p.text(x + UNIT * (i + 0.5) if unit == UNIT else x + 12, y - 6, str(at + i), 11.5, colour=SOFT)
        small = octets == 1
        p.box(x, y, unit * octets, tall, fill, [name] + lines, sizes=(10.5, 11.5) if small else (13, 12))
        x += unit * octets
        at += octets
    return at


def body_keys():
    p = Picture("body-keys", "A body of version 3, and a key of the key part")
    heading(p, p.title, "Octets are counted from the first of the body, or of the key. Below each name: the values allowed.")
    front = [
        ("service", 1, SORT, ["1, 2"], UNIT),
        ("kind", 1, SORT, ["1 to 4"], UNIT),
        ("direc-", 1, SORT, ["*tion", "1, 2"], UNIT),
        ("state", 1, SORT, ["0 to 2"], UNIT),
        ("spacecraft", 2, NAMES, ["0 to 1,023;", "AOS to 255"], UNIT),
        ("virtual", 1, NAMES, ["*channel", "0-63;", "TM: set"], UNIT),
        ("MAP", 1, NAMES, ["kind 2:", "0-63,", "else 0"], UNIT),
        ("window", 2, NUMBER, ["1 to 1,024", "in state 2"], UNIT),
        ("header mask", 6, FREE, ["any; for kind 1 the last octet is 0"], UNIT),
    ]
    at = octet_row(p, 96, "body", front, 84)
    back = [("key ID", 2, NUMBER, ["0 to 65,535"], UNIT), ("mark m, coded", 4, NUMBER, ["m below 2^26, as m xor m/2"], UNIT)]
    assert octet_row(p, 214, "", back, 54, at) == 22
    key = [("ID", 2, NUMBER, ["0 to 65,535"], UNIT), ("state", 1, SORT, ["0 to 2"], UNIT), ("AES-256 key", 32, MAC, ["any, 32 octets"], 15)]
    assert octet_row(p, 318, "key", key, 54) == 35
    x = LEFT + 6 * UNIT + 24
    p.text(x, 232, "The module writes the mark, and by commands state, window and key ID.", 12.5, "start")
    p.text(x, 250, "Of a key it writes the state alone.", 12.5, "start")
    p.note(400, "Up to octet 15 a body is one of version 2. The key ID names the key of the association; several may name one.")
    p.note(418, "State of a key: 0 pre-active, 1 active, 2 deactivated. An operational body names an active key; another may name any ID.")
    legend(p, 446, [(SORT, "which of several"), (NAMES, "names the channel"), (NUMBER, "for the number, or names"), (MAC, "secret")])
    return p


# ---- version 4: desks


def body_desks():
    p = Picture("body-desks", "A body of version 4: that of version 3, and its owner")
    heading(p, p.title, "Octets are counted from the first of the body.")
    front = [("as in version 3", 16, FREE, ["service, kind, direction, state, spacecraft, virtual channel, MAP, window, header mask"], UNIT)]
    at = octet_row(p, 96, "body", front, 54)
    back = [("key ID", 2, NUMBER, ["0 to 65,535"], UNIT), ("mark m, coded", 4, NUMBER, ["m below 2^26, as m xor m/2"], UNIT)]
    back += [("owner", 1, SORT, ["1, 2"], UNIT)]
    assert octet_row(p, 184, "", back, 54, at) == 23
    p.note(266, "Bodies stand at 6 + 4k + 23i, and the key part at 6 + 27k; keys are as in version 3, and so is the IV.")
    p.note(284, "The image has exactly 7 + 27k + 35q octets: 7 with nothing in it, 3,111 with 32 entries and 64 keys.")
    p.note(302, "No call and no command writes an owner. Below version 4 every body is desk 1's.")
    return p


def desks():
    """Whose calls reach what: three desks above, the parts of an image below."""
    p = Picture("desks", "Desks, and the parts of an image that their calls reach")
    heading(p, p.title, "An arrow: calls of the desk see it. Where there is none, an SPI gives 4 or 14, and a key command 19.")
    high, wide, top, low = 56, 200, 96, 236
    above = [(84, NAMES, ["desk 1", "a laboratory"]), (364, MAC, ["desk 0", "the key office"]), (644, NUMBER, ["desk 2", "a guest laboratory"])]
    below = [(84, NAMES, ["bodies with owner 1", "and their numbers"]), (364, MAC, ["the key part"])]
    below += [(644, NUMBER, ["bodies with owner 2", "and their numbers"])]
    for y, boxes in ((top, above), (low, below)):
        for x, fill, lines in boxes:
            p.box(x, y, wide, high, fill, lines)
    for start, end in ((184, 184), (464, 464), (744, 744), (424, 244), (504, 684)):
        p.arrow([(start, top + high), (end, low - 1)])
    p.note(low + high + 24, "A rekey or a start of any desk asks the key part whether the key is there and active (17, 18), and writes nothing in it.")
    p.note(low + high + 42, "A load, and the tests of 1 and 2 before all others, see the whole image, whoever calls. A desk above 2 is answered by 19.")
    p.note(low + high + 60, "Below version 4 all bodies have owner 1.")
    return p


def initialization_vector():
    p = Picture("iv", "The IV of service 2, by the version of the image")
    heading(p, p.title, "12 octets, as they stand in the frame behind the SPI. Numbers are big-endian.")
    zeros, number = (8, FIXED, ["0", "8 octets"]), (4, NUMBER, ["number", "4 octets"])
    rows = [("1, 2", [zeros, number]), ("3, 4", [(4, NUMBER, ["SPI", "4 octets, the first 2 are 0"]), (4, FIXED, ["0", "4 octets"]), number])]
    y = 96
    for version, fields in rows:
        p.text(LEFT - 10, y + 24, "version", 12.5, "end", "bold")
        p.text(LEFT - 10, y + 40, version, 12.5, "end", "bold")
        x, at = LEFT, 0
        for octets, fill, lines in fields:
            for i in range(octets):
                p.text(x + UNIT * (i + 0.5), y - 6, str(at + i), 11.5, colour=SOFT)
            p.box(x, y, UNIT * octets, 54, fill, lines)
            x, at = x + UNIT * octets, at + octets
        y += 94
    p.note(y - 14, "From version 3 on a check answers 8 where the first 8 octets are others, once the MAC was found right (else 7).")
    p.note(y + 4, "No SPI is 0, so no IV of versions 3 and 4 is one of versions 1 and 2, and no two associations ever make the same one.")
    return p


def key_states():
    p = Picture("key-states", "The states of a key from version 3 on, and the commands that lead from one to the other")
    p.text(24, 26, p.title, 16, "start", "bold")
    y, high, wide = 64, 76, 190
    places = [("pre-active", 24, FREE, "waits"), ("active", 384, DATA, "may be used"), ("deactivated", 744, FREE, "given up")]
    for state, (name, x, fill, what) in enumerate(places):
        p.box(x, y, wide, high, fill, [name, f"state {state}", what], sizes=(15, 12.5))
    for x1, x2, words in ((24 + wide, 384, "activation"), (384 + wide, 744, "deactivation")):
        p.arrow([(x1, y + 38), (x2 - 1, y + 38)])
        p.text((x1 + x2) / 2, y + 30, words, 14, weight="bold")
    p.note(y + high + 26, "There is no way back. From another state a command is answered by 18, and so is a deactivation", 24)
    p.note(y + high + 44, "while an operational association names the key. Rekey and start need an active key: 17 where there is", 24)
    p.note(y + high + 62, "none of that ID, 18 where it is in another state.", 24)
    return p


# ---- the result of the C interface


def packed_result():
    p = Picture("packed-result", "What load, secure, check and command return in C: one number of 64 bits")
    heading(p, p.title, "Bit 0 is the least significant, on the right.")
    y = 96
    bit = FULL / 64
    fields = [
        ("0", 63, 48, FIXED, []),
        ("answer", 47, 40, SORT, ["0 to 19"]),
        ("stores", 39, 32, NUMBER, ["0 to 16"]),
        ("length", 31, 0, LENGTH, ["octets of the result"]),
    ]
    assert sum(high - low + 1 for _, high, low, _, _ in fields) == 64
    x = LEFT
    for name, high, low, fill, lines in fields:
        width = bit * (high - low + 1)
        p.line(x, y - 20, x, y, SOFT)
        p.text(x + 4, y - 6, str(high), 12, "start", colour=SOFT)
        p.text(x + width - 4, y - 6, str(low), 12, "end", colour=SOFT)
        p.box(x, y, width, 62, fill, [name] + lines + [f"{high - low + 1} bits"])
        x += width
    p.line(x, y - 20, x, y, SOFT)
    y += 98
    examples = [
        (0, 1, 28, "done: 28 octets out, one octet stored (case D)"),
        (0, 0, 0, "a load that is done"),
        (7, 0, 0, "refused: the MAC differs"),
    ]
    p.text(LEFT, y, "Examples, in hex", 13, "start", "bold")
    for answer, stores, length, words in examples:
        y += 24
        value = answer << 40 | stores << 32 | length
        digits = f"{value:016X}"
        p.text(LEFT, y, " ".join([digits[:4], digits[4:6], digits[6:8], digits[8:]]), 13, "start")
        p.text(LEFT + 230, y, words, 13, "start")
    p.note(y + 30, "A refusal has length 0 and 0 stores.")
    return p


# ---- notes: reports and log

REPORT = [
    ("type", 1, FIXED, "1"),
    ("version", 3, FIXED, "100"),
    ("alarm", 1, SORT, "0, 1"),
    ("number", 1, SORT, "bad: 1"),
    ("MAC", 1, SORT, "bad: 1"),
    ("assoc.", 1, SORT, "bad: 1"),
    ("SPI, first octet", 8, NUMBER, "of the frame that was checked last"),
    ("SPI, last octet", 8, NUMBER, ""),
    ("number", 8, NUMBER, "low octet of the association's; 0 after 4"),
]


def report():
    note = "It rides in an operational control field as it is. Type 1 says that it is no link control word."
    p = header("report", "A frame security report: 4 octets for each desk", note, REPORT, 4)
    y = p.bottom + 34
    rows = [
        ("0", "no flag; SPI and number; the alarm stays as it was"),
        ("1, 2, 3, 12", "the alarm is set, and nothing else changes"),
        ("4", "bad association; SPI, and 0 for the number; the alarm is set"),
        ("5, 6", "no flag; SPI and number; the alarm is set"),
        ("7", "bad MAC; SPI and number; the alarm is set"),
        ("8", "bad number; SPI and number; the alarm is set"),
    ]
    p.text(LEFT, y, "Answer to a check, and what its desk's report then says", 13, "start", "bold")
    for answer, words in rows:
        y += 22
        p.text(LEFT, y, answer, 12.5, "start")
        p.text(LEFT + 110, y, words, 12.5, "start")
    p.note(y + 28, "An alarm reset clears the alarm of the desk that gives it. A fresh report is C0 00 00 00.")
    return p


def log():
    p = Picture("notes", "Notes, as a caller in C has them: a struct of 20 octets, and a list of events beside it")
    heading(p, p.title, "Octets are counted from the first of the struct, or of the list.")
    wide = 80
    reports = [(f"report, desk {i}", 4, TRAILER, ["4 octets"], 34) for i in range(3)]
    counts = [("kept", 4, LENGTH, ["0 to 256"], 34), ("dropped", 4, LENGTH, ["to 2^32 - 1"], 34)]
    assert octet_row(p, 96, "struct", reports + counts, 54) == 20
    event = [("desk", 1, SORT, ["as named"], wide), ("tag", 1, SORT, ["0: check"], wide), ("answer", 1, SORT, ["0 to 19"], wide)]
    at = octet_row(p, 200, "list", event, 54)
    assert octet_row(p, 200, "", [], 54, at) == 3
    x = LEFT + 3 * wide
    for words, fill, place in (("...", FREE, ""), ("event kept - 1", FREE, "3 kept - 3"), ("may hold anything", FREE, "3 kept")):
        width = 60 if words == "..." else 168
        p.text(x + 4, 194, place, 11.5, "start", colour=SOFT)
        p.box(x, 200, width, 54, fill, [words], dashes="5 4" if words == "may hold anything" else "")
        x += width
    p.text(x + 4, 194, "768", 11.5, "start", colour=SOFT)
    p.note(288, "Counts are numbers of the processor's own. Where kept has reached 256, an event is counted as dropped and not written.")
    p.note(306, "A list of another length has room for as many whole events as fit, at most 256. An erase sets both counts to 0.")
    legend(p, 334, [(TRAILER, "rides in an OCF"), (LENGTH, "says how many"), (SORT, "which of several"), (FREE, "may hold anything")])
    return p


# ---- management commands

TAG, SIZE, SPI = 64, 96, 84  # widths of the boxes that all have


def command_row(p, y, name, tag, length, fields):
    """Tag, length and the fields of the value, with the place of each above it. A field's octets may be a number or words."""
    p.text(124, y + 31, name, 13, "end", "bold")
    x, place = 136, 0
    boxes = [(TAG, SORT, [tag, "tag"], 1), (SIZE, LENGTH, [length, "length"], 2)] + fields
    for width, fill, lines, octets in boxes:
        p.line(x, y - 14, x, y, SOFT)
        p.text(x + 3, y - 5, str(place), 12, "start", colour=SOFT)
        p.box(x, y, width, 48, fill, lines)
        x += width
        place = place + octets if isinstance(place, int) and isinstance(octets, int) else octets
    p.line(x, y - 14, x, y, SOFT)
    p.text(x + 3, y - 5, str(place), 12, "start", colour=SOFT)


def commands():
    p = Picture("commands", "Management commands and their replies")
    heading(p, p.title, "Tags are in hex. The length counts the octets of the value, behind it. Numbers are big-endian.")
    spi, key = (SPI, NUMBER, ["SPI", "2 octets"], 2), (SPI, NUMBER, ["key ID", "2 octets"], 2)
    number = (200, NUMBER, ["number", "12 octets, the first 8 are 0"], 12)
    name = (122, NAMES, ["channel", "4 octets"], 4)
    rows = [
        ("start", "1B", "2 + 4N", [spi, name, (50, FREE, ["..."], "1+4N"), (132, NAMES, ["channel N", "4 octets"], "5+4N")]),
        ("stop", "1E", "2", [spi]),
        ("expire", "19", "2", [spi]),
        ("rekey", "16", "16", [spi, (96, NUMBER, ["key ID", "2 octets"], 2), (200, FIXED, ["number: 0", "12 octets"], 12)]),
        ("set window", "15", "4", [spi, (110, NUMBER, ["window", "2 octets"], 2)]),
        ("set number", "1A", "14", [spi, number]),
        ("status", "1F", "2", [spi]),
        ("read number", "10", "2", [spi]),
        ("ping", "31", "0", []),
        ("activation", "02", "2", [key]),
        ("deactivation", "03", "2", [key]),
        ("inventory", "07", "4", [(100, NUMBER, ["first ID", "2 octets"], 2), (100, NUMBER, ["last ID", "2 octets"], 2)]),
        ("dump", "33", "0", []),
        ("erase", "34", "0", []),
        ("alarm reset", "37", "0", []),
    ]
    replies = [
        ("status", "9F", "3", [spi, (84, SORT, ["state", "1 octet"], 1)]),
        ("read number", "90", "14", [spi, number]),
        ("ping", "B1", "0", []),
        ("inventory", "87", "2 + 3n", [(84, LENGTH, ["count n", "2 octets"], 2), (90, NUMBER, ["key ID", "2 octets"], 2),
                                       (70, SORT, ["state", "1 octet"], 1), (50, FREE, ["..."], "2+3n"), (104, NUMBER, ["key ID n", "2 octets"], "4+3n"),
                                       (84, SORT, ["state n", "1 octet"], "5+3n")]),
        ("dump", "B3", "5n", [(70, SORT, ["tag", "1 octet"], 1), (84, LENGTH, ["2", "2 octets"], 2), (70, SORT, ["desk", "1 octet"], 1),
                              (76, SORT, ["answer", "1 octet"], 1), (50, FREE, ["..."], "5n-2"), (170, FREE, ["event n", "5 octets"], "3+5n")]),
        ("erase", "B4", "4", [(110, FIXED, ["events: 0", "2 octets"], 2), (130, LENGTH, ["free space: 768", "2 octets"], 2)]),
    ]
    y = 84
    for row in rows:
        command_row(p, y, *row)
        y += 74
    p.text(24, y + 6, "Replies: the command's tag with its first bit set", 14, "start", "bold")
    y += 40
    for row in replies:
        command_row(p, y, *row)
        y += 74
    p.note(y - 4, "A start names N channels, one or more. Rekey has key ID 0 below version 3. An inventory lists n keys, none to 64.", 24)
    p.note(y + 14, "A dump has n events, none to 256, the oldest first; tag 0 is a check. The other commands have no reply.", 24)
    y += 18
    meanings = [(SORT, "which of several"), (LENGTH, "says how long"), (NUMBER, "for the number"), (NAMES, "names a channel"), (FIXED, "fixed")]
    legend(p, y + 22, meanings, 24)
    return p


def channel_names():
    p = Picture("channel-names", "A channel as a start names it: 32 bits, by the kind of the association")
    heading(p, p.title, "Zeros on the left, then the identifiers one behind the other. Widths are to scale.")
    bit = FULL / 32
    telecommand = [("version", 2, FIXED, "00"), ("spacecraft", 10, NAMES, "10 bits"), ("virtual channel", 6, NAMES, "6 bits")]
    kinds = [
        ("TC", telecommand),
        ("segment", telecommand + [("MAP", 6, NAMES, "6 bits")]),
        ("TM", [("version", 2, FIXED, "00"), ("spacecraft", 10, NAMES, "10 bits"), ("channel", 3, NAMES, "3 bits")]),
        ("AOS", [("version", 2, FIXED, "01"), ("spacecraft", 8, NAMES, "8 bits"), ("virtual channel", 6, NAMES, "6 bits")]),
    ]
    y = 88
    for i, (name, fields) in enumerate(kinds):
        p.text(LEFT - 10, y + 24, f"kind {i + 1}", 12.5, "end", "bold")
        p.text(LEFT - 10, y + 40, name, 12.5, "end")
        zeros = 32 - sum(width for _, width, _, _ in fields)
        x = LEFT
        for label, width, fill, rule in [("0", zeros, FIXED, f"{zeros} bits")] + fields:
            p.line(x, y - 14, x, y, SOFT)
            p.text(x + 3, y - 5, str(round((x - LEFT) / bit)), 11.5, "start", colour=SOFT)
            p.box(x, y, bit * width, 52, fill, [label, rule], sizes=(12, 12))
            x += bit * width
        y += 84
    p.note(y - 8, "The name of spacecraft 27, channel 5: 000006C5 for TC, 0001B149 with MAP 9, 000000DD for TM, 000046C5 for AOS.")
    p.note(y + 10, "An association with a set of channels has a name for each of them.")
    return p


def states():
    p = Picture("states", "The states of an association, and the commands that lead from one to the other")
    p.text(24, 26, p.title, 16, "start", "bold")
    y, high, wide = 86, 76, 190
    places = {"unkeyed": (24, FREE, "serves no frame"), "keyed": (384, FREE, "serves no frame"), "operational": (744, DATA, "serves frames")}
    for state, (name, (x, fill, what)) in enumerate(places.items()):
        p.box(x, y, wide, high, fill, [name, f"state {state}", what], sizes=(15, 12.5))
    for left, right, forth, back in (("unkeyed", "keyed", "rekey", "expire"), ("keyed", "operational", "start", "stop")):
        x1, x2 = places[left][0] + wide, places[right][0]
        p.arrow([(x1, y + 24), (x2 - 1, y + 24)])
        p.text((x1 + x2) / 2, y + 16, forth, 14, weight="bold")
        p.arrow([(x2, y + 54), (x1 + 1, y + 54)])
        p.text((x1 + x2) / 2, y + 71, back, 14, weight="bold")
    p.bracket(24, 574, y + high + 14, ["set window: where no frame is served"])
    p.bracket(24, 934, y + high + 58, ["set number, status, read number: in every state"])
    p.note(y + high + 112, "From another state than the one that its arrow leaves, a command is answered by 15. The number stays,", 24)
    p.note(y + high + 130, "and below version 3 the key too. From version 3 on rekey names the key that is used from then on,", 24)
    p.note(y + high + 148, "and rekey and start need it active (17, 18).", 24)
    return p


# ---- the crates


def stands_on():
    """What each crate stands on, of those that are in this repository, as crates.txt says."""
    path = os.path.join(os.path.dirname(os.path.abspath(__file__)), "..", "crates.txt")
    lines = [line.split("#")[0].strip() for line in open(path, encoding="utf-8")]
    # A name may have a word behind it, as that of a static library has.
    crates = {head.split()[0]: below.split() for head, below in (line.split(":") for line in lines if line)}
    return {name: {other for other in below if other in crates} for name, below in crates.items()}


def everything_below(name, arrows):
    below = {b for a, b, _ in arrows if a == name}
    return below.union(*(everything_below(b, arrows) for b in below))


# The programs of the ground and their libraries: where each stands in the picture, and what is said of it.
GROUND = {
    "writing": (610, 1, 100, FREE, "putting text"),
    "salvage_entries": (24, 2, 200, FREE, "which are kept, their order"),
    "salvage_image": (24, 3, 200, FREE, "the new image"),
    "salvage_lines": (24, 4, 200, FREE, "dropped, moved"),
    "salvage": (24, 5, 88, FREE, "program"),
    "salvage_promises": (124, 5, 236, FREE, "theorems alone"),
    "listing_text": (384, 3, 326, FREE, "the listing's lines"),
    "listing": (384, 4, 326, FREE, "the program"),
}


# The crates of management commands.
MANAGEMENT = {
    "named_keys": (204, 1, 166, DATA, "the key that one names"),
    "command_form": (378, 2, 166, DATA, "form, channels"),
    "inventory": (378, 3, 316, DATA, "the keys of a range, listed"),
    "procedures": (204, 4, 490, DATA, "what a command may call, a record each"),
    "conditions": (112, 5, 114, DATA, "of its value"),
    "plans": (234, 5, 100, DATA, "its stores"),
    "replies": (342, 5, 100, DATA, "its reply"),
    "key_conditions": (450, 5, 130, DATA, "of its key"),
    "addressing": (588, 5, 122, DATA, "desk, form, SPI"),
    "deciding": (112, 6, 468, DATA, "the tests under the entry that it names"),
    "commands": (204, 7, 506, DATA, "the command call: decided, then carried out"),
    "command_promises": (24, 8, 340, FREE, "theorems alone"),
    "desks": (24, 9, 340, FREE, "theorems on two runs side by side"),
}


# The crates of reports and log.
NOTES = {
    "reports": (24, 1, 96, TRAILER, "reports"),
    "event_log": (128, 1, 96, TRAILER, "the log"),
    "notes": (24, 2, 200, TRAILER, "both, as a caller has them"),
    "note_commands": (24, 3, 466, DATA, "dump, erase and alarm reset"),
    "noting": (24, 4, 686, DATA, "a check and a command, and what each tells the notes"),
    "lent": (24, 6, 160, FREE, "for C: three crates"),
    "noted_promises": (212, 6, 330, FREE, "theorems alone"),
    "noted_desks": (212, 7, 498, FREE, "theorems on two runs side by side"),
    "secrecy": (24, 7, 184, FREE, "theorems on secrets"),
}


# Crates that are one box in the picture of the layers. Those of theorems show that no promise is empty.
TOGETHER = {
    "witnesses": {
        "witness_frames", "round_trip_witnesses", "answer_witnesses", "bit_witnesses", "header_bit_witnesses", "secured_bit_witnesses", "run_witnesses", "isolation_witnesses", "desk_witnesses", "noted_witnesses", "secrecy_witnesses",
    },
    "word_cipher": {"word_rounds", "word_cipher"},
    "cmac": {"subkeys", "message_blocks", "cmac"},
    "lent": {"lent", "lent_checks", "lent_commands"},
}


def beside(p, own, module, arrows, bent):
    """Crates that stand on those of the picture of the module, which are drawn with what they need of it."""
    p.text(24, 26, p.title, 16, "start", "bold")
    p.note(46, "Where a box stands in the picture of the module, what it stands on is there. An arrow that follows from others is left out.", 24)
    high, pitch, boxes = 48, 76, {**own, **module}
    most = max(row for _, row, _, _, _ in boxes.values())
    needed = stands_on()
    for box, crates in TOGETHER.items():
        if box in own:
            needed[box] = set().union(*(needed[name] for name in crates)) - crates
    drawn = arrows + [(above, below, x) for above, below, x, _ in bent]
    for name in own:
        below = everything_below(name, drawn)
        for crate in sorted(needed, key=list(needed).index, reverse=True):
            below |= needed[crate] if crate in below - set(own) else set()
        assert needed[name] <= below, f"an arrow is missing: {name}"

    def top(row):
        return 64 + pitch * (most - row)

    for name, (x, row, width, fill, words) in boxes.items():
        p.box(x, top(row), width, high, fill, [name, words], sizes=(14, 12.5))
    for above, below, x in arrows:
        p.arrow([(x, top(boxes[above][1]) + high), (x, top(boxes[below][1]) - 1)])
    for above, below, x, to in bent:
        foot = top(boxes[above][1]) + high
        p.arrow([(x, foot), (x, foot + 12), (to, foot + 12), (to, top(boxes[below][1]) - 1)])
    return p


def ground():
    module = {
        "octets": (24, 0, 686, FIXED, "lists of octets, numbers, copying, and their laws"),
        "image": (24, 1, 560, NUMBER, "contents, the whole rule"),
        "association": (384, 2, 200, NUMBER, "search, entries"),
        "promises": (240, 4, 120, FIXED, "theorems alone"),
    }
    arrows = [
        ("salvage", "salvage_lines", 68), ("salvage_promises", "salvage_lines", 174), ("salvage_promises", "promises", 300),
        ("salvage_lines", "salvage_image", 124), ("salvage_image", "salvage_entries", 124), ("salvage_entries", "image", 124),
        ("listing", "listing_text", 484), ("listing_text", "association", 484), ("listing_text", "writing", 680), ("association", "image", 484),
        ("image", "octets", 304), ("writing", "octets", 660),
    ]
    return beside(Picture("ground", "The crates of the ground's programs"), GROUND, module, arrows, [("salvage_image", "writing", 210, 630)])


def management():
    module = {
        "image": (204, 0, 340, NUMBER, "contents, the whole rule"),
        "writing": (552, 2, 142, FREE, "text into an output"),
        "judging": (552, 1, 158, DATA, "the tests of a call"),
        "association": (378, 1, 166, NUMBER, "search, entries"),
        "verdicts": (24, 2, 172, DATA, "tests under an entry"),
        "link": (24, 3, 80, DATA, "calls; load"),
        "promises": (24, 7, 172, FREE, "theorems alone"),
        "noting": (372, 8, 338, DATA, "with notes; on it, the interface for C"),
    }
    arrows = [
        ("desks", "command_promises", 194), ("command_promises", "promises", 110), ("command_promises", "commands", 284), ("noting", "commands", 541),
        ("commands", "deciding", 394), ("commands", "addressing", 649), ("deciding", "conditions", 169), ("deciding", "plans", 284),
        ("deciding", "replies", 392), ("deciding", "key_conditions", 515), ("conditions", "verdicts", 150), ("conditions", "procedures", 215),
        ("plans", "procedures", 284), ("replies", "procedures", 392), ("key_conditions", "procedures", 515), ("addressing", "procedures", 641), ("addressing", "judging", 702),
        ("procedures", "named_keys", 287), ("procedures", "inventory", 544), ("inventory", "command_form", 461), ("inventory", "writing", 623),
        ("command_form", "association", 461), ("association", "image", 461), ("named_keys", "image", 287), ("promises", "link", 48),
    ]
    return beside(Picture("management", "The crates of management commands"), MANAGEMENT, module, arrows, [("commands", "link", 214, 84)])


def noting():
    module = {
        "octets": (24, 0, 686, FIXED, "lists of octets"),
        "command_form": (232, 2, 130, DATA, "form, channels"),
        "link": (370, 2, 120, DATA, "the calls; load"),
        "checking": (498, 3, 100, DATA, "check"),
        "commands": (606, 3, 104, DATA, "command"),
        "promises": (198, 5, 190, FREE, "theorems alone"),
        "command_promises": (404, 5, 306, FREE, "theorems alone"),
        "desks": (556, 6, 154, FREE, "of two runs"),
    }
    arrows = [
        ("noted_desks", "noted_promises", 377), ("noted_desks", "desks", 633), ("noted_promises", "noting", 396),
        ("noted_promises", "command_promises", 471), ("desks", "command_promises", 633), ("lent", "noting", 104),
        ("noting", "note_commands", 257), ("noting", "checking", 548), ("noting", "commands", 658), ("note_commands", "notes", 124),
        ("note_commands", "command_form", 297), ("note_commands", "link", 430), ("notes", "reports", 72), ("notes", "event_log", 176),
        ("reports", "octets", 72), ("event_log", "octets", 176), ("secrecy", "noting", 191), ("secrecy", "promises", 205),
    ]
    return beside(Picture("noting", "The crates of reports and log"), NOTES, module, arrows, [])


def layers():
    p = Picture("layers", "The crates: each stands on those that its arrows point to")
    p.text(24, 26, p.title, 16, "start", "bold")
    p.note(46, "An arrow that follows from others is left out.", 24)
    high, pitch, most = 48, 76, 16
    boxes = {
        "octets": (24, 0, 686, FIXED, "lists of octets, numbers, copying, and their laws"),
        "substitution": (24, 1, 112, MAC, "S-box"),
        "block": (145, 1, 199, MAC, "a block as a number"),
        "key_schedule": (24, 2, 112, MAC, "KeyExpansion"),
        "ghash": (252, 2, 92, MAC, "GHASH"),
        "cipher": (24, 3, 170, MAC, "AES-256"),
        "columns": (24, 4, 170, MAC, "a state as four words"),
        "word_tables": (24, 5, 170, MAC, "tables of a round"),
        "word_cipher": (24, 6, 170, MAC, "on words: two crates"),
        "engines": (24, 7, 170, MAC, "either, by one call"),
        "cmac": (24, 8, 112, MAC, "three crates"),
        "gctr": (145, 8, 98, MAC, "counter mode"),
        "gcm": (145, 9, 199, MAC, "GCM: seal, open"),
        "headers": (372, 1, 234, NAMES, "header fields"),
        "telecommand": (372, 2, 108, NAMES, "TC"),
        "telemetry": (484, 2, 86, NAMES, "TM"),
        "aos": (574, 2, 32, NAMES, "AOS"),
        "check_field": (608, 2, 94, NAMES, "the CRC"),
        "kinds": (372, 3, 234, NAMES, "a kind as a record"),
        "frame": (372, 4, 130, NAMES, "parts, rules"),
        "masking": (372, 5, 130, NAMES, "the header's mask"),
        "marks": (616, 1, 94, NUMBER, "octet stores"),
        "bodies": (522, 4, 188, NUMBER, "layouts, fields, rules"),
        "keys": (522, 5, 188, NUMBER, "the key part"),
        "image": (522, 6, 188, NUMBER, "contents, the whole rule"),
        "numbers": (522, 7, 188, NUMBER, "the last of each entry"),
        "association": (522, 8, 188, NUMBER, "search, entries"),
        "services": (24, 10, 400, DATA, "the two services"),
        "security_header": (24, 11, 320, DATA, "its octets, and the number in it"),
        "protection": (352, 11, 358, DATA, "the secured frame, what the MAC covers"),
        "sealing": (24, 12, 150, DATA, "it is made"),
        "opening": (182, 12, 150, DATA, "it is read"),
        "judging": (340, 12, 370, DATA, "the tests of a call, in their order"),
        "verdicts": (24, 13, 340, DATA, "the tests under an entry"),
        "admission": (372, 13, 158, DATA, "those before"),
        "link": (538, 13, 172, DATA, "the calls; load"),
        "securing": (24, 14, 226, DATA, "secure, carried out"),
        "checking": (258, 14, 226, DATA, "check, carried out"),
        "promises": (538, 14, 172, FREE, "theorems alone"),
        "lent_calls": (24, 15, 506, FREE, "load and sending over what C lends"),
        "link_c": (24, 16, 506, FREE, "the C interface"),
        "witnesses": (538, 15, 172, FREE, "not empty: 11 crates"),
    }
    programs = {
        "listing_cases": (11, "runs listing_text"),
        "salvage_cases": (10, "runs salvage's crates"),
        "gcm_vectors": (8, "runs gcm"),
        "gcm_entries": (7, "an entry of its vectors"),
        "cmac_vectors": (6, "runs cmac"),
        "aes_vectors": (5, "runs cipher, word_cipher"),
        "cipher_bench": (4, "times cipher, cmac, gcm"),
        "frame_cases": (3, "runs frame, kinds, masking"),
        "vector_lines": (2, "vectors, for three of them"),
        "lines": (1, "lines of text for them"),
    }
    arrows = [
        ("witnesses", "promises", 624), ("promises", "link", 624), ("link_c", "lent_calls", 277), ("lent_calls", "securing", 137),
        ("securing", "verdicts", 137), ("checking", "verdicts", 310), ("checking", "admission", 420), ("link", "judging", 624),
        ("admission", "judging", 417), ("verdicts", "judging", 352), ("verdicts", "sealing", 99),
        ("verdicts", "opening", 257), ("judging", "protection", 525), ("sealing", "security_header", 99),
        ("opening", "security_header", 257), ("security_header", "services", 184), ("protection", "services", 388), ("protection", "masking", 437), ("services", "cmac", 80), ("services", "gcm", 244),
        ("association", "numbers", 616), ("numbers", "image", 616), ("image", "keys", 616), ("keys", "bodies", 616), ("bodies", "kinds", 555),
        ("bodies", "marks", 706), ("masking", "frame", 437), ("frame", "kinds", 437), ("kinds", "telecommand", 418), ("kinds", "telemetry", 527),
        ("kinds", "aos", 590), ("telecommand", "headers", 418), ("telemetry", "headers", 527), ("aos", "headers", 590), ("gcm", "gctr", 194),
        ("gcm", "ghash", 298),
        ("gctr", "engines", 170), ("gctr", "block", 219), ("ghash", "block", 298), ("cmac", "engines", 80), ("engines", "word_cipher", 109),
        ("word_cipher", "word_tables", 109), ("word_tables", "columns", 109), ("columns", "cipher", 109), ("cipher", "key_schedule", 80),
        ("key_schedule", "substitution", 80), ("substitution", "octets", 80), ("block", "octets", 244), ("headers", "octets", 437),
        ("marks", "octets", 638), ("check_field", "octets", 611),
    ]
    # those that step aside below the box above: from there, and to there
    bent = [
        ("services", "association", 320, 616), ("frame", "check_field", 490, 612), ("securing", "admission", 240, 390), ("securing", "link", 240, 560),
        ("checking", "link", 476, 560), ("sealing", "protection", 160, 365), ("opening", "protection", 320, 365),
    ]
    needed = stands_on()
    for box, crates in TOGETHER.items():
        needed[box] = set().union(*(needed.pop(name) for name in crates)) - crates
    apart = set(MANAGEMENT) | set(NOTES)
    assert set(needed) == set(boxes) | set(programs) | set(GROUND) | apart, "crates.txt has other crates"
    elsewhere = apart.union(*(TOGETHER[box] for box in apart if box in TOGETHER))
    drawn = arrows + [(above, below, x) for above, below, x, _ in bent]
    for name in boxes:
        assert needed[name] - elsewhere <= everything_below(name, drawn), f"an arrow is missing: {name}"
        direct = {below for above, below, _ in drawn if above == name}
        assert direct <= needed[name], f"an arrow too many: {name}"

    def top(row):
        return 64 + pitch * (most - row)

    lab_top = top(boxes["gcm"][1])
    tall = top(1) + high - lab_top + 24
    p.add(f'<rect x="12" y="{lab_top - 12}" width="344" height="{tall}" fill="none" stroke="#8a1c12" stroke-dasharray="6 4"/>', 0)
    for name, (x, row, width, fill, words) in boxes.items():
        p.box(x, top(row), width, high, fill, [name, words], sizes=(14, 12.5))
    for above, below, x in arrows:
        p.arrow([(x, top(boxes[above][1]) + high), (x, top(boxes[below][1]) - 1)])
    for above, below, x, to in bent:
        foot = top(boxes[above][1]) + high
        p.arrow([(x, foot), (x, foot + 12), (to, foot + 12), (to, top(boxes[below][1]) - 1)])
    lab = "Dashed frame: with octets, what goes to the partner lab by itself. Nothing in it names a frame."
    p.text(24, top(0) + high + 24, lab, 12.5, "start", colour="#8a1c12")
    p.text(744, 58, "Aside: programs", 13, "start", "bold")
    p.text(744, 76, "that run them", 13, "start", "bold")
    for name, (row, words) in programs.items():
        p.box(744, top(row), 192, high, FREE, [name, words], dashes="4 3", sizes=(14, 12.5))
    p.line(727, 50, 727, top(0) + high, SOFT, 1, "2 4")
    return p


PICTURES = [tc_header, tc_segment_header, tm_header, aos_header, lambda: secured(1), lambda: secured(2), check_field, image, body]
PICTURES += [image_keys, body_keys, body_desks, desks, initialization_vector, key_states]
PICTURES += [commands, report, log, channel_names, states, packed_result, layers, management, noting, ground]


def main(checking):
    folder = os.path.join(os.path.dirname(os.path.abspath(__file__)), "..", "docs", "layouts")
    os.makedirs(folder, exist_ok=True)
    wrong = 0
    for make in PICTURES:
        picture = make()
        path = os.path.join(folder, picture.name + ".svg")
        drawn = picture.svg()
        if checking:
            if not os.path.exists(path) or open(path, encoding="utf-8").read() != drawn:
                print(f"docs/layouts/{picture.name}.svg is not what tools/layouts.py draws")
                wrong = 1
        else:
            with open(path, "w", encoding="utf-8") as out:
                out.write(drawn)
    return wrong


if __name__ == "__main__":
    parser = argparse.ArgumentParser(description=__doc__, formatter_class=argparse.RawDescriptionHelpFormatter)
    parser.add_argument("--check", action="store_true")
    sys.exit(main(parser.parse_args().check))
