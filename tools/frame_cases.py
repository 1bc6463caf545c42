#!/usr/bin/env python3
"""Makes crates/frame_cases/stdin, the frames, and crates/frame_cases/stdout, the answers expected on them.

The answers are read off document 01 ('Frames', 'The image', 'What comes back') and document 02 (requests 1, 4 and 6) here, over strings of
bits, and not off the code:

  python3 tools/frame_cases.py
"""
import argparse
import os

from check_field import check_field

TC_FIELDS = [("version", 2), ("bypass", 1), ("control", 1), ("spare", 2), ("spacecraft", 10), ("channel", 6), ("length", 10), ("sequence", 8)]
SEGMENT_FIELDS = [("flags", 2), ("map", 6)]
TM_FIELDS = [("version", 2), ("spacecraft", 10), ("channel", 3), ("ocf", 1), ("master", 8), ("virtual", 8), ("status", 16)]
AOS_FIELDS = [("version", 2), ("spacecraft", 8), ("channel", 6), ("count", 24), ("signalling", 8)]
KINDS = {
    1: dict(fields=TC_FIELDS, largest=1024, most=(1023, 63, 0)),
    2: dict(fields=TC_FIELDS + SEGMENT_FIELDS, largest=1024, most=(1023, 63, 63)),
    3: dict(fields=TM_FIELDS, largest=2048, most=(1023, 7, 0)),
    4: dict(fields=AOS_FIELDS, largest=2048, most=(255, 63, 0)),
}


def width(kind):
    return sum(bits for _, bits in KINDS[kind]["fields"])


def pack(kind, values):
    bits = "".join(format(values.get(name, 0), "0%db" % n) for name, n in KINDS[kind]["fields"])
    return bytes(int(bits[i : i + 8], 2) for i in range(0, len(bits), 8))


def unpack(kind, frame):
    need = width(kind)
    bits = "".join(format(x, "08b") for x in frame[: need // 8]).ljust(need, "0")
    values = {}
    for name, n in KINDS[kind]["fields"]:
        values[name], bits = int(bits[:n], 2), bits[n:]
    return values


def version(kind):
    return 1 if kind == 4 else 0


def trailer(kind, field, frame):
    return (4 if kind == 3 and unpack(kind, frame)["ocf"] else 0) + (2 if field else 0)


def right_field(field, frame):
    return not field or (len(frame) >= 2 and frame[-2:] == check_field(frame[:-2]))


def has_secondary(kind, frame):
    return kind == 3 and unpack(3, frame)["status"] >= 2**15


def secondary(frame):
    """The fields of the first octet behind the primary header of TM; past the frame's end they are 0."""
    octet = format(frame[6] if len(frame) > 6 else 0, "08b")
    return dict(edition=int(octet[:2], 2), less_one=int(octet[2:], 2))


def header_length(kind, frame):
    return width(kind) // 8 + (secondary(frame)["less_one"] + 1 if has_secondary(kind, frame) else 0)


def obeys(kind, field, frame, secured):
    if kind not in KINDS or (kind == 4 and field):
        return False
    v, h = unpack(kind, frame), header_length(kind, frame)
    f = trailer(kind, field, frame)
    if len(frame) < h + (2 if secured else 1) + f or len(frame) > KINDS[kind]["largest"] or v["version"] != version(kind):
        return False
    if kind == 4:
        return True
    if kind == 3:
        return not has_secondary(3, frame) or (secondary(frame)["edition"] == 0 and secondary(frame)["less_one"] >= 1)
    return v["control"] == 0 and v["spare"] == 0 and v["length"] == len(frame) - 1


def holds_length(kind, frame):
    """TM and AOS frames have no length field, and fewer than four octets do not reach over that of TC."""
    return kind < 3 and len(frame) >= 4


def rewritten(kind, frame, n):
    """The frame with its length field for n octets; the field holds ten bits, and what does not hold the field stays."""
    if not holds_length(kind, frame):
        return frame
    bits = "".join(format(x, "08b") for x in frame[:4])
    bits = bits[:22] + format((n - 1) % 1024, "010b")
    return bytes(int(bits[i : i + 8], 2) for i in range(0, 32, 8)) + frame[4:]


def line(number, secured, field, security, mask, frame):
    out = [number, int(obeys(number, field, frame, secured))]
    if number in KINDS:
        kind, n, v, h = KINDS[number], len(frame), unpack(number, frame), header_length(number, frame)
        f = trailer(number, field, frame)
        out += [h, kind["largest"], v["spacecraft"], v["channel"], v.get("map", 0)]
        out += kind["most"]
        end = max(n - f, 0)
        out += [f, h, end, max(n - 2 * field, 0), h, h + security, max(end - 16, 0), end, n + security + 16]
        out += [int(n + security + 16 > kind["largest"]), int(n < h + security + 1 + 16 + f), int(right_field(field, frame))]
        header = bytes(x & m for x, m in zip(frame[:h], mask)) + frame[:h][len(mask) :]
        # the output has room for eight octets, and stays as it is where the header has more
        out += [len(header), *(header + bytes([165] * 8))[:8]] if len(header) <= 8 else [165] * 8
        out += [int(holds_length(number, frame)), *(rewritten(number, frame, n + security + 16) + bytes(8))[:8]]
    return " ".join(str(x) for x in out)


def main():
    cases = []

    def add(number, header, n, security=6, mask=b"\xff" * 6):
        frame = (header + bytes(n))[:n] if n < len(header) else header + bytes(n - len(header))
        for secured in (0, 1):
            cases.append((number, secured, 0, security, mask, frame))
        # a check field that is right, and one that is wrong in one bit
        if n >= len(header) + 2:
            right = frame[:-2] + check_field(frame[:-2])
            flip = n % 16
            wrong = right[:-2] + bytes([right[-2] ^ (1 << flip >> 8), right[-1] ^ (1 << flip & 255)])
            cases.append((number, n % 2, 1, security, mask, right))
            cases.append((number, n % 2, 1, security, mask, wrong))
        else:
            cases.append((number, n % 2, 1, security, mask, frame))

    masks = [b"\xff" * 6, bytes(6), b"\x0f\xf0\xaa\x55\x33\xcc", b"\x03\xff\xfc", b""]
    for number in KINDS:
        fields, largest, h = KINDS[number]["fields"], KINDS[number]["largest"], width(number) // 8
        sizes = set(range(0, h + 14)) | set(range(h + 19, h + 38)) | {largest + d for d in (-31, -30, -29, -23, -22, -21, -1, 0, 1)} | {256, 257, 512, 768}
        for ocf in (0, 1) if number == 3 else (0,):
            for n in sorted(sizes):
                for wrong in (0, 1, 1023) if number < 3 else (0,):
                    good = dict(version=version(number), spacecraft=27, channel=5, map=9, sequence=77, ocf=ocf, length=(n - 1 + wrong) % 1024)
                    add(number, pack(number, good), n, (6, 14)[n % 2])
        # each field by each of its bits, and all of them, on a frame that is well formed but for it
        for name, bits in fields:
            for value in [1 << b for b in range(bits)] + [2 ** bits - 1]:
                good = dict(version=version(number), spacecraft=27, channel=5, map=9, length=39)
                good[name] = value
                add(number, pack(number, good), 40, 14)
        # secondary headers: every length where the frame just holds it, and a check field behind it, the shortest and the longest at every limit, and wrong versions
        for first in range(256) if number == 3 else ():
            for ocf in (0, 1):
                good = pack(3, dict(spacecraft=27, channel=5, ocf=ocf, status=2**15 + 77)) + bytes([first])
                end, f = 6 + first % 64 + 1, 4 * ocf
                sizes = {end + f + d for d in range(5)}
                if first in (0, 1, 2, 62, 63):
                    sizes |= {4, 5, 6, 7, 8, end - 1, end, end + 1, end + 2} | {end + f + d for d in (22, 23, 24, 25, 30, 31, 32, 33)}
                for n in sorted(sizes) if first < 64 else (6, 200) if first % 64 in (0, 1, 63) else ():
                    add(3, good, n, (6, 14)[n % 2], masks[n % 5])
        for mask in masks:
            for n in (0, 3, h - 1, h, h + 1, 40):
                most = dict(spacecraft=KINDS[number]["most"][0], channel=5, bypass=1, sequence=255, map=63, flags=3, count=2**24 - 1, length=39)
                add(number, pack(number, dict(most, version=version(number))), n, 6, mask)
    for number in (0, 5, 17, 255):
        add(number, pack(1, dict(spacecraft=27, channel=5, length=5)), 6)
    # case C of the paper
    add(1, bytes.fromhex("001b140500aa"), 6)
    add(1, bytes.fromhex("001b140600aa"), 6)

    here = os.path.join(os.path.dirname(os.path.abspath(__file__)), "..", "crates", "frame_cases")
    with open(os.path.join(here, "stdin"), "w") as stdin, open(os.path.join(here, "stdout"), "w") as stdout:
        for number, secured, field, security, mask, frame in cases:
            front, last = (frame + bytes(7))[:7], (bytes(2) + frame)[-2:]
            said = bytes([number, secured, field, security, len(mask)])
            stdin.write((said + len(frame).to_bytes(2, "big") + front + last + (mask + bytes(6))[:6]).hex() + "\n")
            stdout.write(line(number, secured, field, security, mask, frame) + "\n")


argparse.ArgumentParser(description=__doc__, formatter_class=argparse.RawDescriptionHelpFormatter).parse_args()
main()
