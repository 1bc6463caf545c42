#!/usr/bin/env python3
"""Draws docs/layouts/restarts.svg, the timeline of docs/USING.md, with the pens of tools/layouts.py.

  python3 tools/timeline.py            writes the picture
  python3 tools/timeline.py --check    ends with 1 if the picture is not what this script draws

What it shows is what examples/c/restarts.c does; the numbers are those of examples/restarts.txt.
"""
import argparse
import os
import sys

sys.dont_write_bytecode = True
from layouts import FREE, INK, NUMBER, SOFT, Picture

GROUND, SPACE = 400, 660  # the two ends' lines
ROW = 30
REFUSED = "#8a1c12"

# Each row: what the ground does, the number on its way (with whether it arrives), what the spacecraft does.
STORY = [
    ("starts: last 63", None, "starts: last 63"),
    ("", (64, True), "0, done: last 64"),
    ("", None, "restarts: last 127"),
    ("", (65, True), "8: not above 127"),
    ("restarts: last 127", None, ""),
    ("", (128, True), "0, done: last 128"),
    ("restarts: last 191", (192, False), ""),
    ("restarts: last 255", (256, False), ""),
    ("restarts: last 319", (320, True), "8: above 128 + 100"),
    ("restarts: last 383", None, "mark raised to 5, restarts: last 383"),
    ("", (384, True), "0, done: last 384"),
]
NOTES = {
    3: "65 to 127 are refused: the",
    4: "ground has to restart too",
    7: "64 numbers for each restart:",
    8: "beyond the window of 100",
}


def blocks(p, top):
    """The numbers in blocks of 64, and where a load goes."""
    p.text(24, top + 24, "Numbers", 13, "start", "bold")
    for i, (words, fill) in enumerate((("0 to 63", FREE), ("64 to 127", NUMBER), ("128 to 191", FREE), ("192 to 255", FREE))):
        p.box(150 + 190 * i, top, 190, 40, fill, [words, f"mark {i}"], sizes=(13, 12))
    p.line(346, top + 40, 346, top + 58)
    p.text(346, top + 72, "last 64", 12.5)
    p.line(528, top + 40, 528, top + 58)
    p.text(528, top + 72, "last 127, after a load", 12.5)
    p.arrow([(376, top + 68), (452, top + 68)])


def timeline():
    words = "Restarts: a load goes to the end of its block of 64 numbers"
    p = Picture("restarts", words)
    p.text(24, 26, words, 16, "start", "bold")
    blocks(p, 44)
    top = 160
    p.text(GROUND, top, "the ground, which sends", 14, weight="bold")
    p.text(SPACE, top, "the spacecraft, window 100", 14, weight="bold")
    bottom = top + 22 + ROW * len(STORY)
    for x in (GROUND, SPACE):
        p.line(x, top + 10, x, bottom, SOFT, 2)
    for i, (ground, frame, space) in enumerate(STORY):
        y = top + 30 + ROW * i
        colour = REFUSED if space.startswith("8") else INK
        if "start" in ground:
            p.add(f'<rect x="{GROUND - 6}" y="{y - 6}" width="12" height="12" fill="{NUMBER}" stroke="{INK}"/>', y)
        if "start" in space:
            p.add(f'<rect x="{SPACE - 6}" y="{y - 6}" width="12" height="12" fill="{NUMBER}" stroke="{INK}"/>', y)
        if ground:
            p.text(GROUND - 16, y + 4, ground, 12.5, "end")
        if space:
            p.text(SPACE + 16, y + 4, space, 12.5, "start", colour=colour)
        if frame:
            number, arrives = frame
            end = SPACE - 4 if arrives else (GROUND + SPACE) / 2 + 40
            p.arrow([(GROUND + 8, y), (end, y)], colour)
            p.text((GROUND + SPACE) / 2, y - 5, str(number), 12.5, colour=colour)
            if not arrives:
                p.text(end + 12, y + 4, "lost", 12.5, "start", colour=REFUSED)
        if i in NOTES:
            p.text(24, y + 4, NOTES[i], 12, "start", colour=SOFT)
    p.note(bottom + 24, "A square is a start: the image is there, the numbers are not. Time runs downwards.", 24)
    return p


def main(checking):
    picture = timeline()
    path = os.path.join(os.path.dirname(os.path.abspath(__file__)), "..", "docs", "layouts", picture.name + ".svg")
    drawn = picture.svg()
    if not checking:
        with open(path, "w", encoding="utf-8") as out:
            out.write(drawn)
    elif not os.path.exists(path) or open(path, encoding="utf-8").read() != drawn:
        print("docs/layouts/restarts.svg is not what tools/timeline.py draws")
        return 1
    return 0


if __name__ == "__main__":
    parser = argparse.ArgumentParser(description=__doc__, formatter_class=argparse.RawDescriptionHelpFormatter)
    parser.add_argument("--check", action="store_true")
    sys.exit(main(parser.parse_args().check))
