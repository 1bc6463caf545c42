#!/usr/bin/env python3
"""Makes tests/link_cases/calls.txt, calls of the module, and tests/link_cases/answers.txt, what is expected to come back and to change.

All of it is read off document 01, and requests 1, 2, 4, 5, 6, 9 and 10 of document 02, here, over whole numbers and strings of octets, and not
off the code; AES is OpenSSL's. Of request 11 there are the three commands about notes, which are fresh in each call. Each call below states the
answer that the paper gives it, and the reading is held to that as well. tests/link_cases.c makes the calls through the C interface, and tests/run
compares:

  python3 tools/link_cases.py        (needs the Python package `cryptography`)
"""
import argparse
import os
import random
import sys
from dataclasses import dataclass, replace

from check_field import check_field

MOST = 2**32 - 1
HEADER = {1: 5, 2: 6, 3: 6, 4: 6}
LARGEST = {1: 1024, 2: 1024, 3: 2048, 4: 2048}
SECURITY = {1: 6, 2: 14}
FIELDS = dict(service=1, kind=1, direction=1, state=1, spacecraft=2, channel=1, map=1, window=2, mask=6, key=32, code=4)
KEYED_FIELDS = dict(service=1, kind=1, direction=1, state=1, spacecraft=2, channel=1, map=1, window=2, mask=6, key_id=2, code=4)
OWNED_FIELDS = dict(KEYED_FIELDS, owner=1)
KEY_PART = 65535
OFFICE = 0
PRE_ACTIVE, ACTIVE, DEACTIVATED = 0, 1, 2


# 'The image'


@dataclass(frozen=True)
class Entry:
    spi: int
    service: int
    kind: int
    direction: int
    state: int = 2
    spacecraft: int = 27
    channel: int = 5
    map: int = 0
    window: int = 100
    mask: bytes = bytes.fromhex("ffffffffff00")
    key: bytes = bytes(range(32))
    mark: int = 0
    code: int = None
    version: int = 1
    key_id: int = 7
    owner: int = 1

    def channels(self):
        """The channels that it serves: of kind 3 from version 2 on, those whose bits are 1, the lowest bit for channel 0."""
        if self.version >= 2 and self.kind == 3:
            return {c for c in range(8) if self.channel & 1 << c}
        return {self.channel}

    def body(self):
        code = self.mark ^ self.mark // 2 if self.code is None else self.code
        values = dict(vars(self), code=code)
        fields = fields_of(self.version)
        return b"".join(values[name] if name in ("mask", "key") else values[name].to_bytes(n, "big") for name, n in fields.items())


@dataclass(frozen=True)
class Key:
    id: int
    state: int = ACTIVE
    octets: bytes = bytes(range(32))

    def laid_out(self):
        return self.id.to_bytes(2, "big") + bytes([self.state]) + self.octets


def fields_of(version):
    return {3: KEYED_FIELDS, 4: OWNED_FIELDS}.get(version, FIELDS)


def has_keys(version):
    return version in (3, 4)


def positions_of(k, version=1):
    """Where the bodies stand, and behind them the key part of versions 3 and 4; their contents have one entry more than are counted."""
    first, size = 2 + 4 * k + (4 if has_keys(version) else 0), sum(fields_of(version).values())
    return [first + size * i for i in range(k + has_keys(version))]


def image_of(*entries, positions=None, last=KEY_PART, keys=None, count=None, version=None):
    """An image of the version of its entries. From version 3 on it has these keys, or else one for each that is named, active."""
    k, version = len(entries), max([1, *(e.version for e in entries)]) if version is None else version
    places = positions_of(k, version) if positions is None else positions
    spis = [e.spi for e in entries] + ([last] if has_keys(version) else [])
    contents = b"".join(spi.to_bytes(2, "big") + place.to_bytes(2, "big") for spi, place in zip(spis, places))
    bodies = b"".join(replace(e, version=version).body() for e in entries)
    if not has_keys(version):
        return bytes([version, k]) + contents + bodies
    keys = sorted({Key(e.key_id, ACTIVE, e.key) for e in entries}, key=lambda key: key.id) if keys is None else keys
    return bytes([version, k]) + contents + bodies + bytes([len(keys) if count is None else count]) + b"".join(key.laid_out() for key in keys)


def decoded_mark(code):
    """The m whose code is this: each bit of m is the exclusive-or of the code's bits from the top down to it."""
    m = 0
    for bit in format(code, "032b"):
        m = 2 * m + (m % 2 ^ int(bit))
    return m


def read_body(version, spi, body):
    values, at = {}, 0
    for name, n in fields_of(version).items():
        part, at = body[at : at + n], at + n
        values[name] = part if name in ("mask", "key") else int.from_bytes(part, "big")
    return Entry(version=version, spi=spi, mark=decoded_mark(values["code"]), **values)


def is_allowed(e):
    return (
        1 <= e.spi <= 65534
        and e.service in (1, 2)
        and e.kind in (1, 2, 3, 4)
        and e.direction in (1, 2)
        and e.state in (0, 1, 2)
        and e.spacecraft <= (255 if e.kind == 4 else 1023)
        and e.channels()
        and max(e.channels()) <= (7 if e.kind == 3 else 63)
        and e.map <= (63 if e.kind == 2 else 0)
        and (e.state != 2 or 1 <= e.window <= 1024)
        and (e.kind != 1 or e.mask[5] == 0)
        and e.mark < 2**26
        and e.owner in (1, 2)
    )


def at_keys(image):
    """Where the key part stands, in an image of version 3 or 4."""
    return positions_of(image[1], image[0])[-1]


def keys_in(image):
    """The keys of a key part that is as long as its count says, in their order; none below version 3."""
    if not has_keys(image[0]):
        return []
    at = [at_keys(image) + 1 + 35 * j for j in range(image[at_keys(image)])]
    return [Key(int.from_bytes(image[x : x + 2], "big"), image[x + 2], image[x + 3 : x + 35]) for x in at]


def has_size(image):
    k = image[1]
    if not has_keys(image[0]):
        return len(image) == 2 + 56 * k
    part = 6 + (27 if image[0] == 4 else 26) * k
    return len(image) > part and image[part] <= 64 and len(image) == part + 1 + 35 * image[part]


def keys_ok(image, entries):
    """IDs rise, states are 0 to 2, and an operational body names a key that is there and active."""
    keys = keys_in(image)
    active = {key.id for key in keys if key.state == ACTIVE}
    is_rising = all(a.id < b.id for a, b in zip(keys, keys[1:]))
    return is_rising and all(key.state <= 2 for key in keys) and all(e.key_id in active for e in entries if e.state == 2)


def with_key(image, e):
    """A body of version 3 or 4 with the octets of the key that it names, if that is there."""
    named = [key.octets for key in keys_in(image) if key.id == e.key_id]
    return replace(e, key=named[0]) if named else e


def read_image(image):
    """The entries, or None where the image breaks a rule."""
    if len(image) < 2 or image[0] not in (1, 2, 3, 4) or image[1] > 32 or not has_size(image):
        return None
    k, entries, size = image[1], [], sum(fields_of(image[0]).values())
    contents = [tuple(int.from_bytes(image[at : at + 2], "big") for at in (2 + 4 * i, 4 + 4 * i)) for i in range(k + has_keys(image[0]))]
    for (spi, position), place in zip(contents[:k], positions_of(k, image[0])):
        if position != place or (entries and spi <= entries[-1].spi):
            return None
        entries.append(read_body(image[0], spi, image[position : position + size]))
    if not all(map(is_allowed, entries)):
        return None
    if not has_keys(image[0]):
        return entries
    if contents[k] != (KEY_PART, at_keys(image)) or not keys_ok(image, entries):
        return None
    return [with_key(image, e) for e in entries]


def stored(image, i, mark, count):
    """The image after the first so many stores that raise the mark of entry i from this one."""
    at = positions_of(image[1], image[0])[i] + (18 if has_keys(image[0]) else 48)
    for m in range(mark + 1, mark + count + 1):
        after = image[:at] + (m ^ m // 2).to_bytes(4, "big") + image[at + 4 :]
        assert sum(a != b for a, b in zip(image, after)) == 1, "a raise stores one octet"
        image = after
    return image


# 'Frames'


def bits(frame, first, count):
    return int.from_bytes(frame, "big") >> 8 * len(frame) - first - count & 2**count - 1


def packed(*fields):
    value = width = 0
    for v, n in fields:
        value, width = value << n | v, width + n
    return value.to_bytes(width // 8, "big")


def tc(size, data, bypass=0, sequence=0, spacecraft=27, channel=5, segment=None, version=0, control=0, spare=0):
    header = packed((version, 2), (bypass, 1), (control, 1), (spare, 2), (spacecraft, 10), (channel, 6), (size - 1, 10), (sequence, 8))
    return header + (b"" if segment is None else packed((segment[0], 2), (segment[1], 6))) + data


def tm(data, ocf=b"", counts=(0, 0), status=0, spacecraft=27, channel=5, version=0, stamp=b""):
    """A TM frame; a stamp is what a secondary header holds behind its first octet, whose length field is the octets of the stamp."""
    status += 2**15 if stamp else 0
    header = packed((version, 2), (spacecraft, 10), (channel, 3), (len(ocf) // 4, 1), (counts[0], 8), (counts[1], 8), (status, 16))
    return header + (packed((0, 2), (len(stamp), 6)) + stamp if stamp else b"") + data + ocf


def aos(data, count=0, signalling=0, spacecraft=27, channel=5, version=1):
    return packed((version, 2), (spacecraft, 8), (channel, 6), (count, 24), (signalling, 8)) + data


def closed(frame):
    """A frame with a check field in the place of its last two octets, which its length counts already."""
    return frame[:-2] + check_field(frame[:-2])


def is_closed(frame):
    return frame[-2:] == check_field(frame[:-2])


def clear(kind, data, ocf=b"", **fields):
    if kind == 3:
        return tm(data, ocf, **fields)
    if kind == 4:
        return aos(data, **fields)
    return tc(HEADER[kind] + len(data), data, segment=(3, 9) if kind == 2 else None, **fields)


def trailer(kind, frame, field):
    return (4 if kind == 3 and bits(frame, 15, 1) else 0) + (2 if field else 0)


def has_secondary(kind, frame):
    return kind == 3 and bits(frame, 32, 1) == 1


def header_length(kind, frame):
    """h, of a frame that is as long as its primary header at least; its secondary header counts all of its octets less one."""
    return HEADER[kind] + (bits(frame, 50, 6) + 1 if has_secondary(kind, frame) else 0)


def is_frame(kind, frame, least, field):
    """Whether the frame keeps its kind's header rules, length field and size: with at least so many octets behind its header."""
    if kind not in HEADER or not HEADER[kind] <= len(frame) <= LARGEST[kind] or (kind == 4 and field):
        return False
    if has_secondary(kind, frame) and (len(frame) == 6 or bits(frame, 48, 2) != 0 or bits(frame, 50, 6) == 0):
        return False
    if len(frame) < header_length(kind, frame) + least + trailer(kind, frame, field):
        return False
    if bits(frame, 0, 2) != (1 if kind == 4 else 0):
        return False
    if kind in (3, 4):
        return True
    return bits(frame, 3, 1) == 0 and bits(frame, 4, 2) == 0 and bits(frame, 22, 10) == len(frame) - 1


def identifiers(kind, frame):
    if kind == 3:
        return bits(frame, 2, 10), bits(frame, 12, 3), 0
    if kind == 4:
        return bits(frame, 2, 8), bits(frame, 10, 6), 0
    return bits(frame, 6, 10), bits(frame, 16, 6), bits(frame, 42, 6) if kind == 2 else 0


def sees(desk, e):
    """'A desk sees only its own associations', and the key office's, 0, sees all."""
    return desk in (OFFICE, e.owner)


def matching(entries, desk, spi, direction, kind, frame):
    """The first entry of the contents that matches and that the desk sees, or None."""
    spacecraft, channel, map_id = identifiers(kind, frame)
    wanted = (spi, 2, direction, kind, spacecraft, map_id)
    alike = [i for i, e in enumerate(entries) if (e.spi, e.state, e.direction, e.kind, e.spacecraft, e.map) == wanted]
    found = [i for i in alike if channel in entries[i].channels() and sees(desk, entries[i])]
    return found[0] if found else None


# The services


def masked(octets, mask):
    """The octets, each ANDed with the mask's; a mask that is shorter begins anew."""
    return bytes(x & mask[i % len(mask)] for i, x in enumerate(octets))


def covered(header, mask):
    """A header as the MAC covers it: six octets under the mask, and a secondary header under ones."""
    return masked(header[:6], mask) + header[6:]


def protected(e, iv, before, data):
    """The data as it goes out, and the MAC."""
    if e.service == 2:
        sealed = AESGCM(e.key).encrypt(iv, data, before)
        return sealed[:-16], sealed[-16:]
    cmac = CMAC(AES(e.key))
    cmac.update(before + data)
    return data, cmac.finalize()


SLIPS = [
    "security header masked",
    "old length",
    "mask not applied",
    "OCF covered",
    "data not covered",
    "security header not covered",
    "another key",
    "secondary header masked",
    "secondary header not covered",
]


def iv_prefix(e):
    """What the IV of versions 3 and 4 has in front of the number, as a number of 12 octets."""
    return e.spi << 64 if has_keys(e.version) and e.service == 2 else 0


def secured_frame(e, kind, frame, n, slip=None, field=False):
    """The secured frame of a clear one. A slip makes its MAC as the paper does not."""
    h, f = header_length(kind, frame), trailer(kind, frame, field)
    header, data, ocf = frame[:h], frame[h : len(frame) - f], frame[len(frame) - f : len(frame) - 2 * field]
    size = len(frame) + SECURITY[e.service] + 16
    sent = header if kind in (3, 4) else header[:2] + packed((bits(header, 16, 6), 6), (size - 1, 10)) + header[4:]
    iv = (iv_prefix(e) + n).to_bytes(SECURITY[e.service] - 2, "big")
    security = e.spi.to_bytes(2, "big") + iv
    before = covered(sent, e.mask) + security
    out, mac = protected(e, iv, before, data)
    if slip == "security header masked":
        mac = protected(e, iv, covered(sent, e.mask) + masked(security, e.mask), data)[1]
    elif slip == "old length":
        mac = protected(e, iv, covered(header, e.mask) + security, data)[1]
    elif slip == "mask not applied":
        mac = protected(e, iv, sent + security, data)[1]
    elif slip == "OCF covered":
        mac = protected(e, iv, before, data + ocf)[1]
    elif slip == "data not covered":
        mac = protected(e, iv, before, b"")[1]
    elif slip == "security header not covered":
        mac = protected(e, iv, covered(sent, e.mask), data)[1]
    elif slip == "secondary header masked":
        mac = protected(e, iv, masked(sent, e.mask) + security, data)[1]
    elif slip == "secondary header not covered":
        mac = protected(e, iv, covered(sent[:6], e.mask) + security, data)[1]
    elif slip == "another key":
        mac = protected(replace(e, key=e.key[::-1]), iv, before, data)[1]
    front = sent + security + out + mac + ocf
    return front + check_field(front) if field else front


def opened(e, kind, frame, field=False):
    """The number in a secured frame, whether its MAC is right, and its clear data. Behind another prefix than its own no number is in any window."""
    h, end = header_length(kind, frame), len(frame) - trailer(kind, frame, field)
    at = h + SECURITY[e.service]
    security, out, mac = frame[h:at], frame[at : end - 16], frame[end - 16 : end]
    before = covered(frame[:h], e.mask) + security
    # in GCM the text is the exclusive-or of the data and what the IV alone decides, so that protecting the text once more gives the data
    data = protected(e, security[2:], before, out)[0]
    return int.from_bytes(security[2:], "big") - iv_prefix(e), protected(e, security[2:], before, data)[1] == mac, data


# 'What comes back'


@dataclass
class Done:
    result: bytes = b""
    entry: int = None  # whose number it takes, raising the mark
    number: int = 0
    stores: tuple = ()  # of other octets: place and value


def disagrees(entries, numbers):
    return any(numbers[i] // 64 != e.mark for i, e in enumerate(entries))


def securing(image, numbers, desk, kind, field, spi, frame, room):
    entries = read_image(image)
    if entries is None:
        return 1
    if disagrees(entries, numbers):
        return 2
    if desk > 2:
        return 19
    if not is_frame(kind, frame, 1, field):
        return 3
    if field and not is_closed(frame):
        return 12
    i = matching(entries, desk, spi, 1, kind, frame)
    if i is None:
        return 4
    size = len(frame) + SECURITY[entries[i].service] + 16
    if size > LARGEST[kind]:
        return 11
    if room < size:
        return 6
    if numbers[i] == MOST:
        return 10
    return Done(secured_frame(entries[i], kind, frame, numbers[i] + 1, field=field), i, numbers[i] + 1)


def checking(image, numbers, desk, kind, field, frame, room):
    entries = read_image(image)
    if entries is None:
        return 1
    if disagrees(entries, numbers):
        return 2
    if desk > 2:
        return 19
    if not is_frame(kind, frame, 2, field):
        return 3
    if field and not is_closed(frame):
        return 12
    h = header_length(kind, frame)
    i = matching(entries, desk, int.from_bytes(frame[h : h + 2], "big"), 2, kind, frame)
    if i is None:
        return 4
    rest = len(frame) - h - SECURITY[entries[i].service] - 16 - trailer(kind, frame, field)
    if rest < 1:
        return 5
    if room < rest:
        return 6
    n, is_right, data = opened(entries[i], kind, frame, field)
    if not is_right:
        return 7
    if not numbers[i] < n <= min(numbers[i] + entries[i].window, MOST):
        return 8
    return Done(data, i, n)


# Management commands: a tag, the value's length in 2 octets, the value

START, STOP, REKEY, EXPIRE = 0b00011011, 0b00011110, 0b00010110, 0b00011001
SET_NUMBER, SET_WINDOW, STATUS, READ_NUMBER, PING = 0b00011010, 0b00010101, 0b00011111, 0b00010000, 0b00110001
ACTIVATION, DEACTIVATION, INVENTORY = 0b00000010, 0b00000011, 0b00000111
# The octets of a value, and what a command asks of the state: 0 unkeyed, 1 keyed, 2 operational. Start has a channel or more.
VALUES = {STOP: 2, REKEY: 16, EXPIRE: 2, SET_NUMBER: 14, SET_WINDOW: 4, STATUS: 2, READ_NUMBER: 2, PING: 0}
VALUES |= {ACTIVATION: 2, DEACTIVATION: 2, INVENTORY: 4}
OF_KEYS = (ACTIVATION, DEACTIVATION, INVENTORY)
DUMP, ERASE, ALARM_RESET = 0b00110011, 0b00110100, 0b00110111
VALUES |= {DUMP: 0, ERASE: 0, ALARM_RESET: 0}
FOR_OFFICE = (*OF_KEYS, DUMP, ERASE)
STATES = {START: {1}, STOP: {2}, EXPIRE: {1}, REKEY: {0}, SET_WINDOW: {0, 1}}
GOES_TO = {START: 2, STOP: 1, EXPIRE: 0, REKEY: 1}


def tlv(tag, value=b""):
    return bytes([tag]) + len(value).to_bytes(2, "big") + value


def number_field(n):
    return n.to_bytes(12, "big")


def channel_names(e):
    """Its channels as a start names them: version, spacecraft, channel and for kind 2 MAP, one behind the other at the right of 32 bits."""
    wide = dict(spacecraft=8 if e.kind == 4 else 10, channel=3 if e.kind == 3 else 6, map=6 if e.kind == 2 else 0)
    names = set()
    for channel in e.channels():
        digits = "01" if e.kind == 4 else "00"
        for field, value in (("spacecraft", e.spacecraft), ("channel", channel), ("map", e.map)):
            digits += format(value, "b").zfill(wide[field]) if wide[field] else ""
        names.add(int(digits, 2).to_bytes(4, "big"))
    return names


def has_form(octets):
    if len(octets) < 3 or int.from_bytes(octets[1:3], "big") != len(octets) - 3:
        return False
    tag, size = octets[0], len(octets) - 3
    return VALUES.get(tag) == size or (tag == START and size >= 6 and (size - 2) % 4 == 0)


def is_refused_value(e, last, tag, rest):
    if tag == START:
        named = {rest[at : at + 4] for at in range(0, len(rest), 4)}
        return not named <= channel_names(e) or not 1 <= e.window <= 1024
    n = int.from_bytes(rest[2:] if tag == REKEY and has_keys(e.version) else rest, "big")
    return {REKEY: n != 0, SET_WINDOW: not 1 <= n <= 1024, SET_NUMBER: not last < n <= min(last + 1024, MOST)}.get(tag, False)


def refused_key(image, entries, tag, id):
    """17 where there is no key of that ID, 18 where its state, or for deactivation its use, does not allow the command; else 0."""
    states = {key.id: key.state for key in keys_in(image)}
    if id not in states:
        return 17
    is_used = tag == DEACTIVATION and any(e.state == 2 and e.key_id == id for e in entries)
    return 18 if states[id] != (PRE_ACTIVE if tag == ACTIVATION else ACTIVE) or is_used else 0


def managing_keys(image, entries, tag, value, room):
    first, last = int.from_bytes(value[:2], "big"), int.from_bytes(value[2:], "big")
    if tag == INVENTORY:
        listed = [key.laid_out()[:3] for key in keys_in(image) if first <= key.id <= last]
        reply = tlv(tag | 128, len(listed).to_bytes(2, "big") + b"".join(listed))
        return 6 if room < len(reply) else Done(reply)
    if refused_key(image, entries, tag, first):
        return refused_key(image, entries, tag, first)
    place = [key.id for key in keys_in(image)].index(first)
    return Done(stores=((at_keys(image) + 1 + 35 * place + 2, ACTIVE if tag == ACTIVATION else DEACTIVATED),))


def managing(image, numbers, desk, octets, room):
    entries = read_image(image)
    if entries is None:
        return 1
    if disagrees(entries, numbers):
        return 2
    if desk > 2 or (desk != OFFICE and octets[:1] and octets[0] in FOR_OFFICE):
        return 19
    if not has_form(octets):
        return 13
    tag, value = octets[0], octets[3:]
    if tag == ALARM_RESET:
        return Done()
    if tag in (PING, DUMP, ERASE):
        reply = tlv(tag | 128, two(0) + two(3 * 256) if tag == ERASE else b"")
        return 6 if room < len(reply) else Done(reply)
    if tag in OF_KEYS:
        return managing_keys(image, entries, tag, value, room)
    found = [i for i, e in enumerate(entries) if e.spi == int.from_bytes(value[:2], "big") and sees(desk, e)]
    if not found:
        return 14
    i, rest = found[0], value[2:]
    if entries[i].state not in STATES.get(tag, {0, 1, 2}):
        return 15
    if is_refused_value(entries[i], numbers[i], tag, rest):
        return 16
    named = int.from_bytes(rest[:2], "big") if tag == REKEY else entries[i].key_id
    if has_keys(image[0]) and tag in (START, REKEY) and refused_key(image, entries, tag, named):
        return refused_key(image, entries, tag, named)
    if tag == SET_NUMBER:
        return Done(entry=i, number=int.from_bytes(rest, "big"))
    at = positions_of(len(entries), image[0])[i]
    if tag == REKEY and has_keys(image[0]):
        return Done(stores=((at + 16, rest[0]), (at + 17, rest[1]), (at + 3, GOES_TO[tag])))
    if tag == SET_WINDOW:
        return Done(stores=((at + 8, rest[0]), (at + 9, rest[1])))
    if tag in GOES_TO:
        return Done(stores=((at + 3, GOES_TO[tag]),))
    reply = tlv(tag | 128, value[:2] + (bytes([entries[i].state]) if tag == STATUS else number_field(numbers[i])))
    return 6 if room < len(reply) else Done(reply)


class Module:
    """The lines: the calls, and what is expected of each, on an image and numbers as they stand between calls."""

    def __init__(self):
        self.lines, self.expected, self.octets, self.numbers = [], [], b"", [0] * 32
        self.desk = OFFICE  # of the calls that name none

    def case(self, name):
        self.lines.append("# " + name)
        self.expected.append("# " + name)

    def image(self, octets):
        self.octets = octets
        self.lines.append("image " + octets.hex())

    def number(self, entry, n):
        self.numbers[entry] = n
        self.lines.append("number %02x %08x" % (entry, n))

    def expect(self, text, octets, numbers):
        text += "".join(", image %d: %02x to %02x" % (i, a, b) for i, (a, b) in enumerate(zip(self.octets, octets)) if a != b)
        text += "".join(", number %d: %d to %d" % (i, a, b) for i, (a, b) in enumerate(zip(self.numbers, numbers)) if a != b)
        self.expected.append(text)
        self.octets, self.numbers = octets, numbers

    def came(self, reply, answer, stores):
        """Holds the reading to the answer that is stated, and carries a done call out."""
        if not isinstance(reply, Done):
            assert answer in (reply, None), (self.lines[-1], reply, answer)
            self.expect("answer %d" % reply, self.octets, self.numbers)
            return None
        assert answer in (0, None), (self.lines[-1], 0, answer)
        octets, numbers, made = self.octets, list(self.numbers), len(reply.stores)
        for place, octet in reply.stores:
            octets = octets[:place] + bytes([octet]) + octets[place + 1 :]
        if reply.entry is not None:
            mark = numbers[reply.entry] // 64
            made = reply.number // 64 - mark
            octets = stored(octets, reply.entry, mark, made)
            numbers[reply.entry] = reply.number
        assert stores in (made, None), (self.lines[-1], made, stores)
        text = "answer 0 length %d stores %d result" % (len(reply.result), made)
        self.expect(text + "".join(" %02x" % x for x in reply.result), octets, numbers)
        return reply.result

    def load(self, answer=0):
        self.lines.append("load")
        entries = read_image(self.octets)
        assert answer == (1 if entries is None else 0), (self.octets.hex(), answer)
        if entries is None:
            self.expect("answer 1", self.octets, self.numbers)
        else:
            loaded = [64 * e.mark + 63 for e in entries]
            self.expect("answer 0 length 0 stores 0 result", self.octets, loaded + [0] * (32 - len(loaded)))

    def fresh(self, *entries, keys=None):
        """A new image, loaded."""
        self.image(image_of(*entries, keys=keys))
        self.load()

    def stand(self, entry, last):
        """An image of one entry, whose last number is this."""
        self.image(image_of(replace(entry, mark=last // 64)))
        self.number(0, last)

    def secure(self, kind, spi, frame, answer, room=None, stores=None, field=False, desk=None):
        room, desk = len(frame) + 40 if room is None else room, self.desk if desk is None else desk
        self.lines.append("secure %02x %02x %02x %04x %04x %s" % (desk, kind, field, spi, room, frame.hex()))
        return self.came(securing(self.octets, self.numbers, desk, kind, field, spi, frame, room), answer, stores)

    def check(self, kind, frame, answer, room=None, stores=None, field=False, desk=None):
        room, desk = len(frame) if room is None else room, self.desk if desk is None else desk
        self.lines.append("check %02x %02x %02x %04x %s" % (desk, kind, field, room, frame.hex()))
        return self.came(checking(self.octets, self.numbers, desk, kind, field, frame, room), answer, stores)

    def manage(self, octets, answer, room=17, stores=None, desk=None):
        desk = self.desk if desk is None else desk
        self.lines.append(("manage %02x %04x %s" % (desk, room, octets.hex())).rstrip())
        return self.came(managing(self.octets, self.numbers, desk, octets, room), answer, stores)

    def cut(self, entry, n, j, stores):
        """A call that raises the mark of the entry to that of n, cut after its first j stores."""
        self.lines.append("raise %02x %08x %08x" % (entry, n, j))
        mark = read_image(self.octets)[entry].mark
        assert stores == max(0, min(j, n // 64 - mark))
        self.expect("stores %d" % stores, stored(self.octets, entry, mark, stores), self.numbers)


# 'Cases'

B = Entry(spi=9, service=1, kind=1, direction=1)
RECEIVING = replace(B, direction=2)
C = bytes.fromhex("001b140500aa")


def numbered(e, n, slip=None):
    """Case C's frame, secured with this number."""
    return secured_frame(e, 1, C, n, slip)


def sized(n):
    return tc(n, bytes(i % 251 for i in range(n - 5)))


def cases_a_to_h(run):
    run.case("A: no entry")
    run.number(0, 7)
    run.image(bytes.fromhex("0100"))
    run.load()
    run.case("B: one entry, whose number is 63")
    run.fresh(B)
    assert len(run.octets) == 58 and run.octets[5] == 6 and run.numbers[0] == 63
    run.case("C: the fourth octet is not the length less one")
    run.secure(1, 9, bytes.fromhex("001b140600aa"), 3)
    run.case("D: C secured under B, with one store")
    sent = run.secure(1, 9, C, 0, stores=1)
    assert len(sent) == 28 and sent.startswith(bytes.fromhex("001b141b00000900000040aa"))
    assert run.octets[57] == 1
    run.case("E and F: after 63, with a window of 100")
    for n, answer in ((63, 8), (64, 0), (163, 0), (164, 8)):
        run.fresh(RECEIVING)
        run.check(1, numbered(B, n), answer)
    run.case("G: accepting 163 stores 01, then 03; cut after the first, a load gives 127")
    for j, octet in ((0, 0), (2, 3), (3, 3), (1, 1)):
        run.fresh(RECEIVING)
        run.cut(0, 163, j, min(j, 2))
        assert run.octets[57] == octet
        run.load()
    assert run.numbers[0] == 127
    run.case("H: after the cut, 163 passes with one store")
    run.check(1, numbered(B, 163), 0, stores=1)


def cases_i_to_o(run):
    run.case("I: 1,087 takes 16 stores, a cut leaves the first of them, and 1,088 is outside the window")
    wide = replace(RECEIVING, window=1024)
    run.fresh(wide)
    run.check(1, numbered(B, 1088), 8)
    run.check(1, numbered(B, 1087), 0, stores=16)
    for j in range(17):
        run.fresh(wide)
        run.cut(0, 1087, j, j)
        run.load()
        assert run.numbers[0] == 64 * j + 63
    run.case("J: mark 255 to 256")
    run.fresh(replace(B, mark=255))
    assert run.octets[54:] == bytes.fromhex("00000080")
    run.secure(1, 9, C, 0, stores=1)
    assert run.octets[54:] == bytes.fromhex("00000180")
    run.case("K: the last mark, whose numbers are spent")
    run.fresh(replace(B, mark=67108863))
    assert run.octets[54:] == bytes.fromhex("02000000") and run.numbers[0] == MOST
    run.secure(1, 9, C, 10)
    for name, service, most in (("L", 1, 1002), ("M", 2, 994)):
        run.case("%s: a TC frame of %d octets becomes one of 1,024, and a longer one none" % (name, most))
        run.fresh(replace(B, service=service))
        run.secure(1, 9, sized(most + 1), 11)
        sent = run.secure(1, 9, sized(most), 0)
        assert len(sent) == 1024
    gcm = replace(RECEIVING, service=2)
    run.case("N: an IV with a first octet of 01, and with a 01 in each octet above a number, with a right MAC")
    run.fresh(gcm)
    for octet in range(4, 12):
        run.check(1, numbered(gcm, 64 + 256**octet), 8)
    run.check(1, numbered(gcm, 64), 0, stores=1)
    run.case("O: an IV number of 4,294,967,296 after 4,294,967,290, with a right MAC; and the last number")
    run.stand(gcm, 4294967290)
    run.check(1, numbered(gcm, 4294967296), 8)
    run.check(1, numbered(gcm, MOST), 0, stores=0)
    run.check(1, numbered(gcm, MOST), 8)


# 'Slips that look right'

MASKS = {1: bytes.fromhex("1ff7fbfd7e00"), 2: bytes.fromhex("1ff7fbfd7ebf"), 3: bytes.fromhex("f03ffe5aa57f"), 4: bytes.fromhex("5aa5f03fc37e")}


def random_frame(kind, has_ocf, size, rng, stamp=0):
    """A clear frame of an association of `pair`, with any bits in what is not tested, and a stamp of so many octets."""
    data, ocf = rng.randbytes(size), rng.randbytes(4) if has_ocf else b""
    if kind == 3:
        counts = (rng.randrange(256), rng.randrange(256))
        return tm(data, ocf, counts, rng.randrange(2**15), spacecraft=0x2B5, channel=6, stamp=rng.randbytes(stamp))
    if kind == 4:
        return aos(data, rng.randrange(2**24), rng.randrange(256), spacecraft=0xB5, channel=0x35)
    segment = (rng.randrange(4), 0x2D) if kind == 2 else None
    header = dict(bypass=rng.randrange(2), sequence=rng.randrange(256), spacecraft=0x2B5, channel=0x35)
    return tc(HEADER[kind] + size, data, segment=segment, **header)


def pair(kind, service, rng):
    """Both ends of an association."""
    spacecraft, channel, map = 0xB5 if kind == 4 else 0x2B5, 6 if kind == 3 else 0x35, 0x2D if kind == 2 else 0
    here = Entry(rng.randrange(256, 65535), service, kind, 1, 2, spacecraft, channel, map, 64, MASKS[kind], rng.randbytes(32))
    return here, replace(here, direction=2)


def slips_of(kind, has_ocf, stamp):
    left_out = {"old length"} if kind > 2 else set()
    left_out |= set() if has_ocf else {"OCF covered"}
    left_out |= set() if stamp else {"secondary header masked", "secondary header not covered"}
    return [s for s in SLIPS if s not in left_out]


def slips(run, rng):
    shapes = [(1, False, 0), (2, False, 0), (3, False, 0), (3, True, 0), (4, False, 0)]
    shapes += [(3, has_ocf, stamp) for stamp in (1, 63) for has_ocf in (False, True)]
    for kind, has_ocf, stamp in shapes:
        name = "kind %d%s%s" % (kind, " with OCF" if has_ocf else "", " and a stamp of %d" % stamp if stamp else "")
        for service in (1, 2):
            here, there = pair(kind, service, rng)
            last = rng.randrange(1000, 2**31)
            run.case("%s, service %d: secured here, released there" % (name, service))
            for size in (1, 15, 16, 17, 33, 200):
                frame = random_frame(kind, has_ocf, size, rng, stamp)
                run.stand(here, last)
                sent = run.secure(kind, here.spi, frame, 0)
                run.stand(there, last)
                for slip in slips_of(kind, has_ocf, stamp) if size in (1, 17) else ():
                    wrong = secured_frame(here, kind, frame, last + 1, slip)
                    assert wrong != sent, slip
                    run.check(kind, wrong, 7)
                released = run.check(kind, sent, 0)
                assert released == frame[header_length(kind, frame) :][:size]
                run.check(kind, sent, 8)
                last += rng.randrange(1, 64)
            run.case("the same, with a bit changed in each octet; one that no MAC covers may change")
            sent = secured_frame(here, kind, random_frame(kind, has_ocf, 17, rng, stamp), last + 1)
            run.stand(there, last)
            for i in range(len(sent)):
                changed = bytearray(sent)
                changed[i] ^= 1 << rng.randrange(8)
                if run.check(kind, bytes(changed), None) is not None:
                    run.stand(there, last)


def old_numbers(run):
    for service in (1, 2):
        e = replace(RECEIVING, service=service)
        run.case("service %d: a wrong MAC outside the window, and numbers far below the last with a right MAC" % service)
        run.stand(e, 1000)
        for n in (0, 999, 1000, 1101, MOST):
            run.check(1, numbered(e, n, "another key"), 7)
            run.check(1, numbered(e, n), 8)
        for last in (4294967200, MOST - 1, MOST):
            run.stand(e, last)
            for n in (0, 1, 3, 98, 2**31, last - 2**31, last):
                run.check(1, numbered(e, n), 8)
        run.case("service %d: the last number is sent, and nothing after it" % service)
        run.stand(replace(e, direction=1), MOST - 1)
        run.secure(1, 9, C, 0)
        run.secure(1, 9, C, 10)


# 'What comes back': each refusal, and which of two is given


SEGMENT = replace(B, kind=2, map=9, mask=b"\xff" * 6)
TELEMETRY = replace(B, kind=3, mask=b"\xff" * 6)
CAMERAS = replace(B, kind=4, mask=b"\xff" * 6)
OUTSIDE = dict(service=(0, 3), kind=(0, 5, 255), direction=(0, 3), state=(3,), spacecraft=(1024,), window=(0, 1025), code=(2**26, 2**31))


def broken_entries():
    """Entries with one field that is not allowed."""
    yield from (replace(B, **{name: x}) for name, values in OUTSIDE.items() for x in values)
    yield from (replace(B, channel=64), replace(TELEMETRY, channel=8), replace(SEGMENT, map=64))
    yield from (replace(CAMERAS, spacecraft=256), replace(CAMERAS, spacecraft=1023), replace(CAMERAS, channel=64))
    yield from (replace(e, map=x) for e in (B, TELEMETRY, CAMERAS) for x in (1, 32))
    yield replace(B, mask=b"\xff" * 5 + b"\x01")


def broken_images():
    good, other = image_of(B), replace(B, spi=10)
    yield from (b"", b"\x01", b"\x00\x00", b"\x04\x00", b"\x01\x00\x00", good[:-1], good + b"\x00", b"\x04" + good[1:])
    yield from (good[:5] + bytes([x]) + good[6:] for x in (5, 7))
    yield bytes([1, 33]) + image_of(*(replace(B, spi=i + 1) for i in range(33)))[2:]
    yield from (image_of(replace(B, spi=x)) for x in (0, 65535))
    yield from (image_of(B, B), image_of(other, B))
    yield from (image_of(e) for e in broken_entries())
    yield image_of(replace(B, spi=8, service=3), B)
    yield image_of(B, replace(other, state=0, service=3))


def extremes():
    """Entries at the ends of what is allowed."""
    yield replace(B, spi=1, window=1, spacecraft=0, channel=0, mask=bytes(6))
    yield replace(B, spi=2, service=2, kind=2, direction=2, state=0, spacecraft=1023, channel=63, map=63, window=1024, mask=b"\xff" * 6)
    yield replace(CAMERAS, spi=65533, service=2, spacecraft=255, channel=63, mask=b"\xff" * 6)
    yield replace(B, spi=65534, kind=3, state=1, channel=7, mask=b"\xff" * 6, mark=2**26 - 1, key=b"\xff" * 32)


def image_refusals(run):
    run.case("1: images that break a rule, under a load, a securing and a check")
    for image in broken_images():
        run.number(0, 63)
        run.image(image)
        run.load(1)
        run.secure(1, 9, C, 1)
        run.check(1, numbered(B, 64), 1)
    run.case("entries at the ends of what is allowed, and 32 of them")
    run.fresh(*extremes())
    run.fresh(*(replace(B, spi=100 + 7 * i, direction=1 + i % 2, mark=i, key=bytes([i] * 32)) for i in range(32)))
    run.secure(1, 100 + 7 * 30, C, 0)
    run.check(1, secured_frame(replace(B, spi=317, key=bytes([31] * 32)), 1, C, 64 * 31 + 64), 0)
    run.case("2: numbers that do not agree with the marks of some entry; one past the entries may be any")
    run.fresh(B, replace(RECEIVING, spi=10))
    run.number(2, 77)
    run.number(31, MOST)
    run.secure(1, 9, C, 0)
    run.check(1, numbered(replace(B, spi=10), 64), 0)
    for entry, n in ((1, 192), (1, 64), (0, 127), (0, MOST)):
        run.fresh(B, replace(RECEIVING, spi=10))
        run.number(entry, n)
        run.secure(1, 9, C, 2)
        run.check(1, numbered(replace(B, spi=10), 64), 2)


# Three entries: rules and tests are for each of them, and an entry is served whatever stands beside it

UNKEYED = Entry(1, 2, 3, 2, 0, 1023, 7, 0, 1, b"\xff" * 6, b"\xff" * 32, 2**26 - 1)
KEYED = Entry(1, 2, 2, 1, 1, 0, 63, 63, 1024, bytes(6), bytes(32), 5)


def among(place, e, others):
    """The entry as the first, the second or the last of three; SPIs are one apart."""
    entries = [*others[:place], e, *others[place:]]
    return [replace(x, spi=e.spi + i - place) for i, x in enumerate(entries)]


def broken_threes():
    """Images of three entries of which one breaks a rule."""
    three = [replace(B, spi=9 + i) for i in range(3)]
    for spis in ((9, 9, 10), (9, 10, 10), (9, 10, 9), (9, 11, 10), (10, 9, 11), (0, 9, 10), (65533, 65534, 65535)):
        yield image_of(*(replace(B, spi=spi) for spi in spis))
    right = positions_of(3)
    for place in range(3):
        for position in (right[place] - 1, right[place] + 1, right[place] + 256, right[place - 1], right[place] + 52):
            yield image_of(*three, positions=[*right[:place], position, *right[place + 1 :]])
    yield image_of(*three, positions=right[::-1])
    for place in (1, 2):
        yield from (image_of(*among(place, e, three[:2])) for e in broken_entries())


def ask(run, e, answer, n=64):
    """A frame of the association at its end: secured there, or checked with this number."""
    address = dict(spacecraft=e.spacecraft, channel=e.channel)
    segment = (3, e.map) if e.kind == 2 else None
    frame = clear(e.kind, b"data", **address) if e.kind > 2 else tc(HEADER[e.kind] + 4, b"data", segment=segment, **address)
    if e.direction == 1:
        run.secure(e.kind, e.spi, frame, answer)
    else:
        run.check(e.kind, secured_frame(e, e.kind, frame, n), answer)


def three_entries(run):
    run.case("1: three entries, of which one breaks a rule")
    run.number(0, 63)
    for image in broken_threes():
        run.image(image)
        run.load(1)
    run.case("2: three entries, of which the number of one does not agree with its mark")
    for entry in range(3):
        run.fresh(B, replace(RECEIVING, spi=10), replace(B, spi=11, state=1))
        run.number(entry, 127)
        ask(run, B, 2)
        ask(run, replace(RECEIVING, spi=10), 2)
    run.case("three entries, of which one is operational; the others differ from it in all else, or in nothing else")
    for e in (B, RECEIVING):
        alike = [replace(e, state=0), replace(e, state=1)]
        for others in ([UNKEYED, KEYED], [KEYED, UNKEYED], alike, alike[::-1]):
            for place in range(3):
                run.fresh(*among(place, e, others))
                for i in range(3):
                    ask(run, replace(e, spi=e.spi + i - place), 0 if i == place else 4)
    run.case("three entries in operation: each is found by its SPI, and has a key, a mark and a number of its own")
    for direction in (1, 2):
        three = [replace(B, spi=9 + i, direction=direction, mark=m, key=bytes([m] * 32)) for i, m in enumerate((3, 0, 70))]
        for order in (three, three[::-1]):
            run.fresh(*three)
            for e in order:
                ask(run, e, 0, 64 * e.mark + 64)
    for i, e in enumerate(three):
        ask(run, replace(e, key=three[i - 1].key), 7, 64 * e.mark + 65)


def identifier_bits(run):
    for kind in HEADER:
        here = replace(B, spi=0x1234, kind=kind, spacecraft=0x55 if kind == 4 else 0x155, map=9 if kind == 2 else 0, mask=MASKS[kind])
        widths = dict(spi=16, spacecraft=8 if kind == 4 else 10, channel=3 if kind == 3 else 6, map=6 if kind == 2 else 0)
        run.case("4: kind %d: a bit of the SPI or of an identifier differs" % kind)
        for e in (here, replace(here, direction=2)):
            run.fresh(*among(1, e, [UNKEYED, KEYED]))
            for name, width in widths.items():
                for bit in range(width):
                    ask(run, replace(e, **{name: vars(e)[name] ^ 1 << bit}), 4)
            ask(run, e, 0)


def aos_fields(run):
    """Frames that would be the association's if a field of AOS were read where another kind, or a slip, has it."""
    run.case("AOS: channel bits read as TM's and as TC's, spacecraft of 10 bits and of 6; frame count and signalling are free")
    here = replace(CAMERAS, spacecraft=104, channel=5)
    slips = [aos(b"data", spacecraft=104, channel=10), aos(b"data", spacecraft=104, channel=6, count=5 << 18)]
    slips += [packed((1, 2), (104, 10), (5, 4)) + bytes(4) + b"data", packed((1, 2), (104 >> 2, 6), (1, 2), (5, 6)) + bytes(4) + b"data"]
    for e in (here, replace(here, direction=2)):
        run.fresh(e)
        for frame in slips:
            assert identifiers(4, frame) != (104, 5, 0)
            if e.direction == 1:
                run.secure(4, 9, frame, 4)
            else:
                run.check(4, secured_frame(e, 4, frame, 64), 4)
    run.fresh(here)
    run.secure(4, 9, aos(b"data", 2**24 - 1, 255, spacecraft=104), 0)


def channel_sets(run):
    """Version 2: a TM association with several channels, and what a slip would make of it."""
    run.case("1: version 2, kind 3: the empty set; other kinds have a channel; version 1 has no set; versions 0 and 4")
    for e in (replace(TELEMETRY, version=2, channel=0), replace(TELEMETRY, channel=8), replace(TELEMETRY, channel=128)):
        run.image(image_of(e))
        run.load(1)
    for e in (replace(B, channel=64), replace(SEGMENT, channel=64), replace(CAMERAS, channel=64)):
        run.image(image_of(replace(e, version=2)))
        run.load(1)
    for version in (0, 3, 4, 255):
        run.image(bytes([version]) + image_of(replace(TELEMETRY, channel=1))[1:])
        run.load(1)
    run.case("version 2, kinds 1, 2 and 4: a channel, as in version 1")
    for e in (replace(B, channel=0), B, replace(SEGMENT, channel=63), replace(CAMERAS, channel=63)):
        run.fresh(replace(e, version=2))
        ask(run, replace(e, version=2), 0)
    run.case("version 2, kind 3: each channel of a set, and 4 for every other, sending and receiving")
    for chosen in (0x01, 0x80, 0x22, 0x05, 0xA7, 0xFF):
        for direction in (1, 2):
            e = replace(TELEMETRY, version=2, channel=chosen, direction=direction)
            run.fresh(e)
            for channel in range(8):
                n = run.numbers[0] + 1
                ask(run, replace(e, version=1, channel=channel), 0 if chosen & 1 << channel else 4, n)
    run.case("two channels of one set: one number for both, over loads and cuts")
    here = replace(TELEMETRY, version=2, channel=0x22, direction=1)
    run.fresh(here)
    sent = [run.secure(3, here.spi, tm(b"data", channel=c), 0) for c in (1, 5, 5, 1)]
    run.load()
    sent += [run.secure(3, here.spi, tm(b"data", channel=c), 0) for c in (5, 1)]
    run.cut(0, 192, 1, 1)
    run.load()
    sent += [run.secure(3, here.spi, tm(b"data", channel=c), 0) for c in (1, 5)]
    numbers = [opened(here, 3, frame)[0] for frame in sent]
    assert numbers == [64, 65, 66, 67, 128, 129, 256, 257], numbers
    run.case("at the other end: a version 2 set, the same or another, or version 1 with one of the channels")
    for held, version in ((0x22, 2), (0x23, 2), (0x02, 2), (1, 1), (5, 1)):
        there = replace(here, direction=2, version=version, channel=held, window=1024)
        run.fresh(there)
        for frame in sent:
            run.check(3, frame, 0 if identifiers(3, frame)[1] in there.channels() else 4)
        run.check(3, sent[0], 8 if 1 in there.channels() else 4)
    run.case("from version 1 to version 2: octet 0, and octet 6 of TM bodies; marks and numbers stay")
    before = [replace(B, mark=3), replace(TELEMETRY, spi=10, channel=5, direction=1, mark=70)]
    run.fresh(*before)
    ask(run, before[0], 0)
    ask(run, before[1], 0)
    last = list(run.numbers)
    run.image(bytes([2]) + run.octets[1 : 10 + 52 + 6] + bytes([1 << 5 | 1 << 2]) + run.octets[10 + 52 + 7 :])
    assert [e.mark for e in read_image(run.octets)] == [n // 64 for n in last[:2]]
    ask(run, before[0], 0)
    for channel in (5, 2):
        ask(run, replace(before[1], channel=channel), 0)
    assert run.numbers[:2] == [last[0] + 1, last[1] + 2]


def with_field(kind, data, ocf=b"", **fields):
    """A clear frame with a right check field, behind the OCF."""
    return closed(tm(data, ocf, **fields) + bytes(2)) if kind == 3 else closed(clear(kind, data + bytes(2), **fields))


def every_bit(run, kind, frame, sent):
    """A clear frame and a secured one with right check fields, each with any one bit changed."""
    run.case("the same with any one bit changed: 3 or 12, whatever the SPI and the output")
    for at in range(8 * len(frame)):
        changed = (int.from_bytes(frame, "big") ^ 1 << at).to_bytes(len(frame), "big")
        answer = securing(run.octets, run.numbers, OFFICE, kind, True, 8, changed, 0)
        assert answer in (3, 12)
        run.secure(kind, 8, changed, answer, room=0, field=True)
    for at in range(8 * len(sent)):
        changed = (int.from_bytes(sent, "big") ^ 1 << at).to_bytes(len(sent), "big")
        answer = checking(run.octets, run.numbers, OFFICE, kind, True, changed, 0)
        assert answer in (3, 12)
        run.check(kind, changed, answer, room=0, field=True)


def check_fields(run):
    """Document 02, request 4."""
    assert check_field(b"123456789") == bytes.fromhex("29b1")
    for name, service, most in (("L", 1, 1002), ("M", 2, 994)):
        run.case("%s with a check field: a TC frame of %d octets, the field counted in, becomes one of 1,024, and a longer one none" % (name, most))
        run.fresh(replace(B, service=service))
        run.secure(1, 9, closed(sized(most + 1)), 11, field=True)
        assert len(run.secure(1, 9, closed(sized(most)), 0, field=True)) == 1024
    for kind, ocf in ((1, b""), (2, b""), (3, b""), (3, b"ocf.")):
        for service in (1, 2):
            here = Entry(9, service, kind, 1, map=9 if kind == 2 else 0, mask=MASKS[kind])
            run.case("kind %d%s, service %d: a check field at both ends" % (kind, " with OCF" if ocf else "", service))
            frame = with_field(kind, b"data", ocf)
            run.fresh(here)
            sent = run.secure(kind, 9, frame, 0, field=True)
            assert is_closed(sent) and len(sent) == len(frame) + SECURITY[service] + 16
            assert ocf == sent[len(sent) - 2 - len(ocf) : len(sent) - 2]
            run.secure(kind, 9, with_field(kind, b"", ocf), 3, field=True)
            run.fresh(replace(here, direction=2))
            assert run.check(kind, sent, 0, field=True) == b"data"
            run.check(kind, sent, 8, field=True)
            every_bit(run, kind, frame, sent)
    run.case("AOS: a check field gives 3, right or wrong")
    run.fresh(CAMERAS)
    for frame in (aos(b"data" + bytes(2)), closed(aos(b"data" + bytes(2)))):
        run.secure(4, 9, frame, 3, field=True)
    run.fresh(replace(CAMERAS, direction=2))
    run.check(4, closed(secured_frame(CAMERAS, 4, aos(b"data" + bytes(2)), 64)), 3, field=True)
    run.case("another word on it: absent, its octets are data; present, the last octets of data are taken for it")
    run.fresh(B)
    frame = with_field(1, b"data")
    assert run.secure(1, 9, frame, 0)[11:17] == b"data" + frame[-2:]
    run.secure(1, 9, tc(9, b"data"), 12, field=True)
    run.case("slips: preset with zeros, least bit first, over the data alone, before the length is rewritten, inverted at the end")
    sent = secured_frame(B, 1, frame, 64, field=True)
    zeros = bytes(x ^ y for x, y in zip(check_field(sent[:-2]), check_field(bytes(len(sent) - 2))))
    mirrored = bytes(int(format(x, "08b")[::-1], 2) for x in check_field(bytes(int(format(x, "08b")[::-1], 2) for x in sent[:-2])))
    old_length = check_field(frame[:4] + sent[4:-2])
    run.fresh(RECEIVING)
    for slip in (zeros, mirrored, mirrored[::-1], check_field(sent[11:-2]), check_field(sent[:-18]), old_length, bytes(255 - x for x in sent[-2:]), sent[:-3:-1]):
        assert slip != sent[-2:]
        run.check(1, sent[:-2] + slip, 12, field=True)
    run.check(1, sent, 0, field=True)
    run.case("12 after 3 and before 4, in securing and in checking")
    run.fresh(B)
    wrong = frame[:-1] + bytes([frame[-1] ^ 1])
    run.secure(1, 10, wrong + b"\x00", 3, room=0, field=True)
    run.secure(1, 10, wrong, 12, room=0, field=True)
    run.secure(1, 10, frame, 4, room=0, field=True)
    run.secure(1, 9, frame, 6, room=0, field=True)
    run.fresh(RECEIVING)
    wrong = sent[:-1] + bytes([sent[-1] ^ 1])
    run.check(1, wrong + b"\x00", 3, room=0, field=True)
    run.check(1, wrong, 12, room=0, field=True)
    run.check(1, closed(sent[:6] + b"\x0a" + sent[7:]), 4, room=0, field=True)
    run.check(1, closed(sent[:20] + bytes([sent[20] ^ 1]) + sent[21:]), 7, field=True)


def frame_refusals(run):
    """3, of clear frames and of secured ones, under an association of their kind."""
    for kind, ocf in ((1, b""), (2, b""), (3, b""), (3, b"ocf."), (4, b"")):
        here = Entry(9, 1, kind, 1, map=9 if kind == 2 else 0, mask=MASKS[kind])
        there, h, f, data = replace(here, direction=2), HEADER[kind], len(ocf), b"data"
        run.case("3: kind %d%s" % (kind, " with OCF" if ocf else ""))
        good = clear(kind, data, ocf)
        wrong = [clear(kind, b"", ocf), good[:h], good[:3], b""]
        wrong += [clear(kind, data, ocf, version=v) for v in ((0, 2, 3) if kind == 4 else (1, 2))]
        if kind == 3:
            wrong += [tm(bytes(2049 - h - f), ocf), tm(bytes([0]) + data, ocf, status=2**15)]
        elif kind == 4:
            wrong += [aos(bytes(2049 - h))]
        else:
            wrong += [clear(kind, data, control=1), clear(kind, data, spare=1), clear(kind, data, spare=2), good + b"\x00", good[:-1]]
            wrong += [tc(1, bytes(1025 - h), segment=(3, 9) if kind == 2 else None)]
        run.fresh(here)
        for frame in wrong:
            run.secure(kind, 9, frame, 3)
        for other in (0, 5, 255):
            run.secure(other, 9, good, 3)
        sent = run.secure(kind, 9, clear(kind, b"d", ocf), 0, room=h + 1 + f + 22)
        assert len(sent) == h + 1 + f + 22
        run.fresh(there)
        for frame in wrong + [clear(kind, b"d", ocf)]:
            run.check(kind, frame, 3)
        for other in (0, 5, 255):
            run.check(other, secured_frame(here, kind, good, 64), 3)
        run.case("5: too short for its security header, a MAC and data")
        shortest = len(secured_frame(here, kind, clear(kind, b"d", ocf), 64))
        for size in (h + 2 + f, shortest - 1):
            run.check(kind, clear(kind, b"\x00\x09" + bytes(size - h - 2 - f), ocf), 5, room=0)
        run.check(kind, clear(kind, b"\x00\x09" + bytes(shortest - h - 2 - f), ocf), 7)
        run.check(kind, secured_frame(here, kind, clear(kind, b"d", ocf), 64), 0, room=1)


def secondary_headers(run):
    """TM with a secondary header: every length of it, at the least of data; and what is none, a bad one, or leaves no room."""
    here = replace(TELEMETRY, service=2, mask=MASKS[3])
    run.case("secondary headers of 2 to 64 octets: secured here, released there without them")
    for n in range(1, 64):
        frame = tm(b"data", b"ocf." if n % 2 else b"", stamp=bytes(range(n)))
        run.fresh(replace(here, service=1 + n % 2))
        sent = run.secure(3, 9, frame, 0)
        assert sent[: 7 + n] == frame[: 7 + n]
        run.fresh(replace(here, service=1 + n % 2, direction=2))
        run.check(3, sent, 6, room=3)
        assert run.check(3, sent, 0, room=4) == b"data"
    run.case("3: no octet behind the primary header, a version that is not 0, a length field of 0, no room for what must follow")
    flagged = tm(b"", status=2**15)
    wrong = [flagged] + [flagged + bytes([first]) + bytes(200) for first in (0, 0x41, 0x80, 0xC1, 0xFF)]
    for ocf in (b"", b"ocf."):
        wrong += [tm(b"", ocf, stamp=bytes(n))[:cut] for n in (1, 2, 62, 63) for cut in (7, 8, 6 + n, 7 + n, 7 + n + len(ocf))]
    for e in (here, replace(here, direction=2)):
        run.fresh(e)
        for frame in wrong:
            if e.direction == 1:
                run.secure(3, 9, frame, 3)
            else:
                run.check(3, frame, 3)
    run.case("the flag cleared on the way, where the stamp holds the SPI 4386 and the number 65: 7 if the mask covers the flag, and under service 2")
    frame = tm(b"data", stamp=bytes([0x22, 0, 0, 0, 65]) + bytes(12))
    for service, mask, answer in ((1, b"\xff" * 6, 7), (2, b"\xff" * 6, 7), (2, b"\xff" * 4 + bytes(2), 7), (1, b"\xff" * 4 + bytes(2), 0)):
        e = replace(here, spi=0x1122, service=service, mask=mask)
        changed = bytearray(secured_frame(e, 3, frame, 64))
        changed[4] -= 0x80
        run.fresh(replace(e, direction=2))
        run.check(3, bytes(changed), answer)
    for ocf in (b"", b"ocf."):
        for n in (1, 63):
            run.case("a stamp of %d%s: 3, 5, 6 and 11 at their limits" % (n, ", with OCF" if ocf else ""))
            run.fresh(here)
            run.secure(3, 9, tm(b"d", ocf, stamp=bytes(n)), 6, room=8 + n + len(ocf) + 29)
            run.secure(3, 9, tm(b"d", ocf, stamp=bytes(n)), 0, room=8 + n + len(ocf) + 30)
            most = 2048 - 30 - 7 - n - len(ocf)
            run.secure(3, 9, tm(bytes(most + 1), ocf, stamp=bytes(n)), 11)
            sent = run.secure(3, 9, tm(bytes(most), ocf, stamp=bytes(n)), 0)
            assert len(sent) == 2048
            run.fresh(replace(here, direction=2))
            run.check(3, tm(b"\x00", ocf, stamp=bytes(n)), 3)
            for size in (2, 30):
                run.check(3, tm(b"\x00\x09" + bytes(size - 2), ocf, stamp=bytes(n)), 5)
            run.check(3, tm(b"\x00\x09" + bytes(29), ocf, stamp=bytes(n)), 7)
            run.check(3, sent, 0, room=most)


def stamped_check_fields(run):
    """The shortest and the longest secondary header, and a check field: the limits follow both, and a bit that moves the header is seen."""
    for n, ocf, service in ((n, ocf, service) for n in (1, 63) for ocf in (b"", b"ocf.") for service in (1, 2)):
        here = replace(TELEMETRY, service=service, mask=MASKS[3])
        run.case("a stamp of %d%s, service %d: a check field at both ends" % (n, ", with OCF" if ocf else "", service))
        frame = with_field(3, b"data", ocf, stamp=bytes(range(n)))
        run.fresh(here)
        sent = run.secure(3, 9, frame, 0, field=True)
        assert is_closed(sent) and sent[: 7 + n] == frame[: 7 + n] and len(sent) == len(frame) + SECURITY[service] + 16
        run.secure(3, 9, with_field(3, b"", ocf, stamp=bytes(n)), 3, field=True)
        most = 2048 - 2 - 16 - SECURITY[service] - 7 - n - len(ocf)
        run.secure(3, 9, with_field(3, bytes(most + 1), ocf, stamp=bytes(n)), 11, field=True)
        assert len(run.secure(3, 9, with_field(3, bytes(most), ocf, stamp=bytes(n)), 0, field=True)) == 2048
        run.fresh(replace(here, direction=2))
        run.check(3, with_field(3, b"\x00", ocf, stamp=bytes(n)), 3, field=True)
        run.check(3, with_field(3, b"\x00\x09" + bytes(SECURITY[service] + 14), ocf, stamp=bytes(n)), 5, field=True)
        run.check(3, with_field(3, b"\x00\x09" + bytes(SECURITY[service] + 15), ocf, stamp=bytes(n)), 7, field=True)
        run.check(3, sent, 6, room=3, field=True)
        assert run.check(3, sent, 0, room=4, field=True) == b"data"
        if n == 1 or (ocf and service == 1):
            every_bit(run, 3, frame, sent)
    run.case("a TM frame without a secondary header whose flag is set on the way, before data that could be one: 12, and 3 before data that could not")
    for data, answer in ((b"\x01data", 12), (b"\x00data", 3), (b"\x41data", 3), (b"\x04data", 3)):
        flagged = bytearray(with_field(3, data))
        flagged[4] += 0x80
        run.fresh(TELEMETRY)
        run.secure(3, 9, bytes(flagged), answer, field=True)


def entry_refusals(run):
    for kind in HEADER:
        e, frame = replace(B, kind=kind, map=9 if kind == 2 else 0, mask=MASKS[kind]), clear(kind, b"data")
        run.case("4: kind %d: no entry, or one that differs in what is matched" % kind)
        changes = [dict(spi=8), dict(spi=10), dict(state=0), dict(state=1), dict(spacecraft=28), dict(channel=4)]
        changes += [dict(kind=2 if kind == 1 else 1, map=0, mask=bytes(6))] + ([dict(map=8)] if kind == 2 else [])
        for change in changes:
            run.fresh(replace(e, **change))
            run.secure(kind, 9, frame, 4)
            run.fresh(replace(e, direction=2, **change))
            run.check(kind, secured_frame(e, kind, frame, 64), 4)
        run.fresh(replace(e, direction=2))
        run.secure(kind, 9, frame, 4)
        run.fresh(e)
        run.check(kind, secured_frame(e, kind, frame, 64), 4)
        for spi in (0, 65535):
            run.secure(kind, spi, frame, 4)


def orders(run):
    long = clear(1, bytes(1019))
    run.case("securing: 1 before 2, 2 before 3, 3 before 4, 4 before 11, 11 before 6, 6 before 10")
    run.number(0, 5000)
    run.image(image_of(replace(B, window=0)))
    run.secure(1, 9, C, 1)
    run.image(image_of(B))
    run.secure(5, 9, C, 2)
    run.load()
    run.secure(1, 10, C + b"\x00", 3)
    run.secure(1, 10, long, 4, room=0)
    run.secure(1, 9, long, 11, room=0)
    run.stand(B, MOST)
    run.secure(1, 9, long, 11)
    for room in (0, 27):
        run.secure(1, 9, C, 6, room=room)
    run.secure(1, 9, C, 10, room=28)
    run.fresh(B)
    run.secure(1, 9, C, 6, room=27)
    run.secure(1, 9, C, 0, room=28)
    run.case("checking: 1 before 2, 2 before 3, 3 before 4, 4 before 5, 5 before 6, 6 before 7 and 8, 7 before 8")
    frame, short = tc(33, b"\x00\x09" + bytes(26)), tc(8, b"\x00\x0a\x00")
    run.number(0, 5000)
    run.image(image_of(replace(RECEIVING, window=0)))
    run.check(1, frame, 1)
    run.image(image_of(RECEIVING))
    run.check(5, frame, 2)
    run.load()
    run.check(1, short + b"\x00", 3)
    run.check(1, short, 4, room=0)
    run.check(1, tc(8, b"\x00\x09\x00"), 5, room=0)
    run.check(1, frame, 6, room=5)
    run.check(1, frame, 7, room=6)
    old = secured_frame(B, 1, tc(11, b"sextet"), 63)
    run.check(1, old, 6, room=5)
    run.check(1, old, 8, room=6)
    right = secured_frame(B, 1, tc(11, b"sextet"), 64)
    run.check(1, right, 6, room=5)
    run.check(1, right, 0, room=6)


# Management commands: each sentence of the request, and which of two refusals is given

SPI_9 = b"\x00\x09"


def start_of(e):
    return tlv(START, e.spi.to_bytes(2, "big") + b"".join(sorted(channel_names(e))))


def commands_for(e, last):
    """Each command in a form that is done where the state is the one that it asks for; with the octets of its reply."""
    spi = e.spi.to_bytes(2, "big")
    yield start_of(e), 0
    yield tlv(STOP, spi), 0
    yield tlv(EXPIRE, spi), 0
    yield tlv(REKEY, spi + bytes(14)), 0
    yield tlv(SET_WINDOW, spi + b"\x03\xe7"), 0
    yield tlv(SET_NUMBER, spi + number_field(last + 1)), 0
    yield tlv(STATUS, spi), 6
    yield tlv(READ_NUMBER, spi), 17
    yield tlv(PING), 3


# The commands about keys, and the least octets of their replies.
KEY_COMMANDS = [(tlv(ACTIVATION, b"\x00\x07"), 0), (tlv(DEACTIVATION, b"\x00\x07"), 0), (tlv(INVENTORY, b"\x00\x00\xff\xff"), 5)]


def command_states(run):
    for state in (0, 1, 2):
        for e in (B, replace(RECEIVING, service=2, mark=70), replace(SEGMENT, mark=255), replace(TELEMETRY, version=2, channel=0x22), CAMERAS):
            here = replace(e, state=state)
            run.case("state %d, kind %d, direction %d: every command, with a right reply and a room that is one short" % (state, e.kind, e.direction))
            for octets, size in commands_for(here, 64 * e.mark + 63):
                answer = 0 if state in STATES.get(octets[0], {0, 1, 2}) else 15
                run.fresh(here)
                if size:
                    run.manage(octets, 6, room=size - 1)
                    run.manage(octets, 6, room=0)
                run.manage(octets, answer, room=size)
                run.load()


def command_forms(run):
    run.case("13: lengths one too short and one too long, counted and not; a length in bits; no value, no length, nothing")
    run.fresh(replace(B, state=1))
    for octets, _ in [*commands_for(B, 63), *KEY_COMMANDS]:
        tag, value = octets[0], octets[3:]
        wrong = [tlv(tag, value + b"\x00"), octets + b"\x00", octets[:-1], octets[:2], octets[:1]]
        wrong += [bytes([tag]) + n.to_bytes(2, "big") + value for n in (len(value) + 1, 8 * len(value) or 8, len(value) + 256, 65535)]
        if value:
            wrong += [tlv(tag, value[:-1]), tlv(tag), bytes([tag, 0, 0]) + value, tlv(tag, b"\x00\x0a" + value[2:] + b"\x00")]
        for octets in wrong:
            run.manage(octets, 13, room=0)
    run.manage(b"", 13)
    for tag, size in ((START, 0), (START, 3), (START, 5), (REKEY, 2), (SET_NUMBER, 4)):
        run.manage(tlv(tag, SPI_9 + bytes(size)), 13)
    run.case("13: every tag that is none, replies' among them, with an SPI and without")
    for tag in range(256):
        if tag not in VALUES and tag != START:
            run.manage(tlv(tag, SPI_9), 13)
            run.manage(tlv(tag), 13)
    run.case("14: an SPI that is not in the table; there are three, of any direction and state, and each is found")
    three = [replace(B, spi=0x109, state=0), replace(RECEIVING, spi=0x10A, state=1), replace(B, spi=0x209, state=2)]
    run.fresh(*three)
    for spi in (0, 9, 0x108, 0x10B, 0x209 ^ 0x800, 65535):
        for octets, _ in commands_for(replace(B, spi=spi), 63):
            run.manage(octets, 0 if octets[0] == PING else 14, room=3 if octets[0] == PING else 0)
    for e in three:
        run.manage(tlv(STATUS, e.spi.to_bytes(2, "big")), 0)
    run.case("no entry at all: 14, and ping is answered")
    run.fresh()
    run.manage(tlv(STATUS, SPI_9), 14)
    run.manage(tlv(PING), 0)


def command_values(run):
    run.case("16: rekey names key 0 and number 0")
    run.fresh(replace(B, state=0, mark=3))
    for i in range(14):
        for octet in (1, 128):
            run.manage(tlv(REKEY, SPI_9 + bytes(i) + bytes([octet]) + bytes(13 - i)), 16)
    run.manage(tlv(REKEY, SPI_9 + bytes(14)), 0, stores=1)
    run.case("windows 0, 1, 1,024, 1,025 and more: asked for, and held by a body that is to start, in every state")
    for window in (0, 1, 255, 256, 1023, 1024, 1025, 1280, 32768, 65535):
        is_right = 1 <= window <= 1024
        for state in (0, 1, 2):
            run.fresh(replace(B, state=state))
            run.manage(tlv(SET_WINDOW, SPI_9 + window.to_bytes(2, "big")), 15 if state == 2 else 0 if is_right else 16)
            run.image(image_of(replace(B, state=state, window=window)))
            run.load(1 if state == 2 and not is_right else 0)
            if state == 2 and not is_right:
                run.number(0, 63)
                run.manage(start_of(B), 1)
                continue
            run.manage(start_of(B), 15 if state != 1 else 0 if is_right else 16)
            run.manage(tlv(SET_WINDOW, SPI_9 + b"\x00\x64"), 15 if run.octets[9] == 2 else 0)
    run.case("set window makes both stores, also of an octet that stays")
    run.fresh(replace(B, state=1))
    for window in (b"\x00\x64", b"\x00\x65", b"\x01\x65", b"\x02\x01"):
        run.manage(tlv(SET_WINDOW, SPI_9 + window), 0, stores=2)
    run.case("set number: last, last + 1, last + 1,024, last + 1,025, and beside them; 0 to 16 stores")
    for last in (0, 63, 64, 700, 16383, 2**31, MOST - 1088, MOST - 1025, MOST - 1024, MOST - 1023, MOST - 64, MOST - 1, MOST):
        for step in (-64, -1, 0, 1, 2, 63, 64, 65, *range(128, 1024, 64), 1023, 1024, 1025, 1088):
            if last + step >= 0:
                n = last + step
                run.stand(replace(B, state=step % 3), last)
                is_right = 1 <= step <= 1024 and n <= MOST
                run.manage(tlv(SET_NUMBER, SPI_9 + number_field(n)), 0 if is_right else 16, stores=n // 64 - last // 64 if is_right else None)
                run.manage(tlv(READ_NUMBER, SPI_9), 0)
    run.case("set number: a bit in each octet above a number that would do")
    run.stand(B, 700)
    for octet in range(4, 12):
        for bit in (1, 128):
            run.manage(tlv(SET_NUMBER, SPI_9 + number_field(701 + bit * 256**octet)), 16)
    run.manage(tlv(SET_NUMBER, SPI_9 + number_field(701)), 0)


def command_channels(run):
    for e in (B, SEGMENT, TELEMETRY, CAMERAS, replace(CAMERAS, spacecraft=255, channel=63), replace(SEGMENT, spacecraft=1023, channel=63, map=63)):
        for version in (1, 2) if e.kind != 3 else (1,):
            here = replace(e, state=1, version=version)
            (name,) = channel_names(here)
            run.case("kind %d, version %d: the channel as it is named, and with each bit changed" % (e.kind, version))
            run.fresh(here)
            for bit in range(32):
                run.manage(tlv(START, SPI_9 + (int.from_bytes(name, "big") ^ 1 << bit).to_bytes(4, "big")), 16)
            others = [tlv(START, SPI_9 + x) for k in (1, 2, 3, 4) for x in channel_names(replace(e, kind=k, map=0)) if x != name]
            for octets in [*others, tlv(START, SPI_9 + name + bytes(4)), tlv(START, SPI_9 + b"\xff" * 4 + name)]:
                run.manage(octets, 16)
            run.manage(tlv(START, SPI_9 + 5 * name), 0, stores=1)
    run.case("a set: each of its channels, all of them, repeated, and every channel outside it")
    for chosen in (0x01, 0x80, 0x22, 0xA7, 0xFF):
        here = replace(TELEMETRY, version=2, state=1, channel=chosen)
        for channel in range(8):
            (name,) = channel_names(replace(here, version=1, channel=channel))
            run.fresh(here)
            is_own = chosen >> channel & 1
            run.manage(tlv(START, SPI_9 + name), 0 if is_own else 16)
            run.fresh(here)
            run.manage(tlv(START, SPI_9 + b"".join(sorted(channel_names(here))) + name), 0 if is_own else 16)
        run.fresh(here)
        run.manage(start_of(here), 0)
        for channel in range(8):
            frame = tm(b"data", channel=channel)
            run.secure(3, 9, frame, 0 if chosen >> channel & 1 else 4)


def command_orders(run):
    run.case("commands: 1 before 2, 2 before 13, 13 before 14, 14 before 15, 15 before 16, 16 or 14 before 6")
    bad, unknown = tlv(START, SPI_9), tlv(SET_WINDOW, b"\x00\x0a\x00\x00")
    run.number(0, 5000)
    run.image(image_of(replace(B, window=0)))
    run.manage(bad, 1, room=0)
    run.image(image_of(B))
    run.manage(bad, 2, room=0)
    run.load()
    run.manage(tlv(START, b"\x00\x0a"), 13, room=0)
    run.manage(unknown, 14, room=0)
    run.manage(tlv(STATUS, b"\x00\x0a"), 14, room=0)
    run.manage(tlv(SET_WINDOW, SPI_9 + bytes(2)), 15, room=0)
    run.manage(tlv(START, SPI_9 + b"\xff" * 4), 15, room=0)
    run.manage(tlv(REKEY, SPI_9 + b"\xff" * 14), 15, room=0)
    run.manage(tlv(SET_NUMBER, SPI_9 + number_field(63)), 16, room=0)
    run.manage(tlv(STATUS, SPI_9), 6, room=5)
    run.manage(tlv(READ_NUMBER, SPI_9), 6, room=16)
    run.manage(tlv(PING), 6, room=2)
    run.manage(tlv(SET_NUMBER, SPI_9 + number_field(64)), 0, room=0)
    run.manage(tlv(STOP, SPI_9), 0, room=0)


def managed_link(run):
    run.case("stop, and nothing is sent; start, and the numbers go on; expire and rekey keep key and mark")
    run.fresh(B)
    sent = [run.secure(1, 9, C, 0)]
    run.manage(tlv(STOP, SPI_9), 0)
    run.secure(1, 9, C, 4)
    run.manage(start_of(B), 0)
    sent.append(run.secure(1, 9, C, 0))
    for octets in (tlv(STOP, SPI_9), tlv(EXPIRE, SPI_9), tlv(REKEY, SPI_9 + bytes(14)), start_of(B)):
        run.manage(octets, 0)
    sent.append(run.secure(1, 9, C, 0))
    run.manage(tlv(SET_NUMBER, SPI_9 + number_field(66 + 1024)), 0, stores=16)
    sent.append(run.secure(1, 9, C, 0))
    assert [opened(B, 1, frame)[0] for frame in sent] == [64, 65, 66, 1091]
    run.case("set number, cut after each of its stores: a load, and a number above all that were sent")
    for j in range(17):
        run.fresh(B)
        run.secure(1, 9, C, 0)
        run.cut(0, 64 + 1024, j, min(j, 16))
        run.load()
        assert opened(B, 1, run.secure(1, 9, C, 0))[0] == 64 * (2 + j)
    run.case("at the other end: stopped, it refuses by 4; a number that was set refuses what is below it, and takes what is above")
    run.fresh(RECEIVING)
    run.check(1, sent[0], 0)
    run.manage(tlv(STOP, SPI_9), 0)
    run.check(1, sent[1], 4)
    run.manage(start_of(B), 0)
    run.check(1, sent[1], 0)
    run.manage(tlv(SET_NUMBER, SPI_9 + number_field(1000)), 0)
    run.check(1, sent[2], 8)
    run.check(1, sent[3], 0)
    run.case("a window that is cut between its octets: it loads, start refuses it, and set window mends it")
    for old, new, between in ((b"\x00\x64", b"\x04\x00", b"\x04\x64"), (b"\x04\x00", b"\x00\x64", b"\x00\x00")):
        assert between == new[:1] + old[1:]
        run.fresh(replace(B, state=1, window=int.from_bytes(between, "big")))
        run.manage(start_of(B), 16)
        run.manage(tlv(SET_WINDOW, SPI_9 + new), 0)
        run.manage(start_of(B), 0)
    run.case("three entries and 32: a command changes its own alone")
    three = [replace(B, spi=8, mark=3), replace(B, spi=9, mark=0), replace(B, spi=10, mark=70)]
    run.fresh(*three)
    for e in three:
        for octets, _ in commands_for(e, 64 * e.mark + 63):
            run.manage(octets, None)
    run.fresh(*(replace(B, spi=100 + 7 * i, state=i % 3, mark=i) for i in range(32)))
    for i in (0, 1, 2, 29, 30, 31):
        for octets, _ in commands_for(replace(B, spi=100 + 7 * i), 64 * i + 63):
            run.manage(octets, None)


# Keys in one place: version 3

SHARING = replace(B, version=3, service=2)
OTHER_KEY = bytes(range(100, 132))


def two(n):
    return n.to_bytes(2, "big")


def rekey_of(spi, id, number=0):
    return tlv(REKEY, two(spi) + two(id) + number_field(number))


def broken_key_images():
    """Images of version 3, each of which breaks one rule, and what it breaks."""
    pair = [SHARING, replace(SHARING, spi=20, channel=6)]
    keys, at = [Key(7), Key(263, PRE_ACTIVE)], positions_of(2, 3)
    good = image_of(*pair, keys=keys)
    yield "an octet less", good[:-1]
    yield "an octet more", good + b"\x00"
    yield "a key more than is counted", good + Key(300).laid_out()
    yield "the last entry's SPI", image_of(*pair, keys=keys, last=65534)
    yield "the last entry's SPI is the first one's", image_of(*pair, keys=keys, last=9)
    for place in (at[2] - 1, at[2] + 1, at[2] + 256, at[0], 0):
        yield "the key part's position is %d" % place, image_of(*pair, keys=keys, positions=[*at[:2], place])
    yield "a body's position", image_of(*pair, keys=keys, positions=[at[0], at[1] + 1, at[2]])
    yield "bodies where version 2 has them", image_of(*pair, keys=keys, positions=[10, 62, at[2]])
    yield "the last entry is counted", bytes([3, 3]) + good[2:]
    for count in (0, 1, 3, 66, 255):
        yield "%d keys are counted" % count, image_of(*pair, keys=keys, count=count)
    yield "65 keys", image_of(*pair, keys=[Key(7 + j) for j in range(65)])
    yield "33 entries", bytes([3, 33]) + image_of(*(replace(SHARING, spi=1 + i) for i in range(33)))[2:]
    for state in (PRE_ACTIVE, DEACTIVATED, 3, 255):
        yield "the key that is named has state %d" % state, image_of(*pair, keys=[Key(7, state), *keys[1:]])
    yield "a key that nobody names has state 3", image_of(*pair, keys=[keys[0], Key(263, 3)])
    yield "equal IDs", image_of(*pair, keys=[Key(7), Key(7)])
    yield "IDs fall", image_of(*pair, keys=[Key(7), Key(6)])
    yield "IDs fall at the third", image_of(*pair, keys=[Key(7), Key(263), Key(262)])
    for id in (0, 6, 8, 263, 263 - 256 + 512, 65535):
        yield "the second names %d" % id, image_of(pair[0], replace(pair[1], key_id=id), keys=keys)
    yield "no key at all", image_of(*pair, keys=[])
    yield "telemetry without a channel", image_of(replace(SHARING, kind=3, channel=0))
    yield "a TC channel of 64", image_of(replace(SHARING, channel=64))
    yield "a window of 0", image_of(replace(SHARING, window=0))
    yield "a mark of 2^26", image_of(replace(SHARING, mark=2**26))
    yield "SPI 65,535", image_of(replace(SHARING, spi=65535))
    yield "nothing behind the bodies", good[: at[2]]
    yield "version 1 in front of it", bytes([1]) + good[1:]
    yield "version 2 in front of it", bytes([2]) + good[1:]
    yield "version 3 in front of version 2", bytes([3]) + image_of(replace(B, version=2))[1:]


def key_images(run):
    run.case("the smallest image of version 3")
    run.number(0, 7)
    run.image(bytes.fromhex("0300ffff000600"))
    run.load()
    run.case("1: images of version 3 that break one rule")
    for name, image in broken_key_images():
        run.case(name)
        run.number(0, 63)
        run.image(image)
        run.load(1)
        run.secure(1, 9, C, 1)
        run.manage(tlv(PING), 1)
    run.case("0, 1, 2 and 64 keys; IDs 0 and 65,535; 32 entries and 64 keys, 3,079 octets, and one octet more")
    for k, q in ((0, 1), (0, 64), (1, 1), (1, 2), (2, 64)):
        keys = [Key(65535 - 1040 * j) for j in reversed(range(q))]
        run.image(image_of(*(replace(SHARING, spi=9 + i, key_id=65535) for i in range(k)), keys=keys, version=3))
        run.load()
    run.fresh(replace(SHARING, key_id=0), keys=[Key(0)])
    run.fresh(replace(SHARING, state=1), keys=[])
    full = [replace(SHARING, spi=1 + i, key_id=1040 * (i % 64), mark=i) for i in range(32)]
    run.fresh(*full, keys=[Key(1040 * j) for j in range(64)])
    assert len(run.octets) == 3079
    run.secure(1, 32, C, 0)
    run.image(run.octets + b"\x00")
    run.load(1)
    run.case("entries that are not operational name keys in any state, or none there is")
    for id in (0, 6, 7, 263, 264, 65535):
        for state in (0, 1):
            run.fresh(replace(SHARING, state=state, key_id=id), keys=[Key(7, PRE_ACTIVE), Key(263, DEACTIVATED), Key(264)])
            run.secure(1, 9, C, 4)
    run.case("telemetry in version 3 has a set")
    here = replace(TELEMETRY, version=3, channel=0x22, direction=1)
    run.fresh(here)
    for channel in range(8):
        run.secure(3, 9, tm(b"data", channel=channel), 0 if channel in (1, 5) else 4)


def key_frames(run):
    run.case("what goes out in versions 1, 2 and 3, under both services")
    for service in (1, 2):
        for version in (1, 2, 3):
            run.fresh(replace(B, spi=0x1234, service=service, version=version))
            sent = run.secure(1, 0x1234, C, 0)
            iv = "00001234" + 8 * "0" if version == 3 else 16 * "0"
            assert sent[5:].startswith(bytes.fromhex("1234" + (iv if service == 2 else "") + "00000040")), sent.hex()
    run.case("8: each bit of the prefix changed, with a right MAC; 7 with a wrong one; and the IVs of other versions")
    for spi in (9, 0x1234, 65534):
        here = replace(SHARING, spi=spi, direction=2)
        run.fresh(here)
        for bit in range(32, 96):
            n = (spi << 64 ^ 1 << bit) + 64 - (spi << 64)
            run.check(1, secured_frame(here, 1, C, n), 8)
            run.check(1, secured_frame(here, 1, C, n, "another key"), 7)
        run.check(1, secured_frame(replace(here, version=2), 1, C, 64), 8)
        run.check(1, secured_frame(here, 1, C, 63), 8)
        run.check(1, secured_frame(here, 1, C, 164), 8)
        run.check(1, secured_frame(here, 1, C, 64), 0, stores=1)
        run.check(1, secured_frame(here, 1, C, 64), 8)
        for version in (1, 2):
            run.fresh(replace(here, version=version))
            run.check(1, secured_frame(here, 1, C, 64), 8)
            run.check(1, secured_frame(replace(here, version=version), 1, C, 64), 0)
    run.case("service 1 is the same in all versions, from one to another")
    for there in (1, 2, 3):
        for here in (1, 2, 3):
            run.fresh(replace(RECEIVING, version=there))
            run.check(1, secured_frame(replace(B, version=here), 1, C, 64), 0)
    run.case("the last numbers in version 3")
    run.stand(replace(SHARING, direction=2), 4294967290)
    run.check(1, secured_frame(SHARING, 1, C, 2**32), 8)
    run.check(1, secured_frame(SHARING, 1, C, MOST), 0)
    run.stand(SHARING, MOST)
    run.secure(1, 9, C, 10)


def shared_keys(run):
    run.case("a key is found by its ID, whatever its place; IDs that share an octet")
    keys = [Key(j, ACTIVE, bytes([j // 256, j % 256] * 16)) for j in (0, 1, 7, 256, 263, 519, 1792, 65535)]
    for key in keys:
        here = replace(SHARING, key_id=key.id, key=key.octets)
        run.fresh(here, keys=keys)
        sent = run.secure(1, 9, C, 0)
        run.fresh(replace(here, direction=2), keys=keys)
        assert run.check(1, sent, 0) == C[5:]
        run.fresh(replace(here, direction=2, key_id=3), keys=[Key(3, ACTIVE, key.octets)])
        run.check(1, sent, 0)
        run.fresh(replace(here, direction=2), keys=[replace(k, octets=k.octets if k != key else OTHER_KEY) for k in keys])
        run.check(1, sent, 7)
    run.case("two associations under one key, sending in turn: no IV goes out twice; the other end has another ID for it")
    pair = [SHARING, replace(SHARING, spi=20, channel=6)]
    run.fresh(*pair)
    sent = []
    for i in range(140):
        e = pair[i % 2]
        sent.append(run.secure(1, e.spi, tc(9, b"same", channel=e.channel), 0))
    assert len({frame[7:19] for frame in sent}) == len(sent)
    run.fresh(*(replace(e, direction=2, key_id=0x0700) for e in pair), keys=[Key(7, ACTIVE, OTHER_KEY), Key(0x0700, ACTIVE, SHARING.key)])
    for frame in sent:
        run.check(1, frame, 0)


def key_commands(run):
    """Start, rekey, activation and deactivation, for each state of the association and of the key."""
    absent = None
    for state in (0, 1, 2):
        for key_state in (absent, PRE_ACTIVE, ACTIVE, DEACTIVATED):
            here = replace(SHARING, state=state)
            keys = [Key(1), *([] if key_state is absent else [Key(7, key_state)]), Key(263), Key(0x0707, PRE_ACTIVE), Key(65535, DEACTIVATED)]
            image = image_of(here, keys=keys)
            if read_image(image) is None:
                assert state == 2 and key_state != ACTIVE
                continue
            by_key = {absent: 17, ACTIVE: 0}.get(key_state, 18)
            due = [
                (start_of(here), by_key if state == 1 else 15, 1),
                (rekey_of(9, 7), by_key if state == 0 else 15, 3),
                (rekey_of(9, 263), 0 if state == 0 else 15, 3),
                (rekey_of(9, 0x0707), 18 if state == 0 else 15, 0),
                (rekey_of(9, 65535), 18 if state == 0 else 15, 0),
                (rekey_of(9, 0), 17 if state == 0 else 15, 0),
                (rekey_of(9, 264, 1), 16 if state == 0 else 15, 0),
                (rekey_of(9, 7, 2**95), 16 if state == 0 else 15, 0),
                (tlv(START, two(9) + bytes(4)), 16 if state == 1 else 15, 0),
                (tlv(ACTIVATION, two(7)), {absent: 17, PRE_ACTIVE: 0}.get(key_state, 18), 1),
                (tlv(DEACTIVATION, two(7)), {absent: 17, ACTIVE: 18 if state == 2 else 0}.get(key_state, 18), 1),
                (tlv(ACTIVATION, two(0x0707)), 0, 1),
                (tlv(DEACTIVATION, two(0x0707)), 18, 0),
                (tlv(DEACTIVATION, two(263)), 0, 1),
                (tlv(ACTIVATION, two(65535)), 18, 0),
                (tlv(ACTIVATION, two(9)), 17, 0),
                (tlv(DEACTIVATION, two(264)), 17, 0),
                (tlv(EXPIRE, two(9)), 0 if state == 1 else 15, 1),
                (tlv(STOP, two(9)), 0 if state == 2 else 15, 1),
                (tlv(SET_WINDOW, two(9) + two(999)), 15 if state == 2 else 0, 2),
                (tlv(SET_NUMBER, two(9) + number_field(127)), 0, 1),
            ]
            run.case("version 3, state %d, key %s: commands that need a key, or none" % (state, "not there" if key_state is absent else key_state))
            for octets, answer, stores in due:
                run.image(image)
                run.load()
                run.manage(octets, answer, room=0, stores=stores if answer == 0 else None)
                run.load()
    run.case("a window that does not start, and a key that is not active: 16 before 17 and 18")
    for keys in ([], [Key(7, PRE_ACTIVE)], [Key(7)]):
        run.fresh(replace(SHARING, state=1, window=0), keys=keys)
        run.manage(start_of(SHARING), 16)
    run.case("read number and set number have the number alone in 12 octets, in version 3 too")
    run.fresh(SHARING)
    assert run.manage(tlv(READ_NUMBER, two(9)), 0)[5:] == number_field(63)
    run.manage(tlv(SET_NUMBER, two(9) + number_field((9 << 64) + 64)), 16)
    run.manage(tlv(SET_NUMBER, two(9) + number_field(64)), 0, stores=1)
    run.case("rekey stores all three octets, also those that stay")
    for id in (7, 263, 0x0207, 65535):
        run.fresh(replace(SHARING, state=0), keys=[Key(7), Key(263), Key(0x0207), Key(65535)])
        run.manage(rekey_of(9, id), 0, stores=3)
    run.case("versions 1 and 2 have no key with an ID: 17, and an empty inventory; rekey names 0")
    for version in (1, 2):
        run.fresh(replace(B, version=version, state=0))
        for id in (0, 1, 7, 9, 65535):
            run.manage(tlv(ACTIVATION, two(id)), 17)
            run.manage(tlv(DEACTIVATION, two(id)), 17)
        assert run.manage(tlv(INVENTORY, b"\x00\x00\xff\xff"), 0, room=5) == bytes.fromhex("8700020000")
        run.manage(rekey_of(9, 7), 16)
        run.manage(rekey_of(9, 0), 0, stores=1)


def inventories(run):
    run.case("inventory: each range of IDs, and a room that is one short")
    keys = [Key(0, DEACTIVATED), Key(7), Key(263, PRE_ACTIVE), Key(65535)]
    run.fresh(replace(SHARING, state=1), keys=keys)
    for first in (0, 1, 7, 8, 263, 264, 65535):
        for last in (0, 6, 7, 262, 263, 65534, 65535):
            size = 5 + 3 * sum(first <= key.id <= last for key in keys)
            run.manage(tlv(INVENTORY, two(first) + two(last)), 6, room=size - 1)
            assert len(run.manage(tlv(INVENTORY, two(first) + two(last)), 0, room=size, stores=0)) == size
    run.case("inventory: no key, and 64")
    run.fresh(replace(SHARING, state=1), keys=[])
    run.manage(tlv(INVENTORY, b"\x00\x00\xff\xff"), 0, room=5)
    run.fresh(replace(SHARING, state=1), keys=[Key(9 * j, j % 3) for j in range(64)])
    run.manage(tlv(INVENTORY, b"\x00\x00\xff\xff"), 6, room=196)
    assert len(run.manage(tlv(INVENTORY, b"\x00\x00\xff\xff"), 0, room=197)) == 197


def key_use(run):
    run.case("deactivation: 18 while any operational body names the key, whichever it is; keyed and unkeyed bodies do not count")
    for place in (0, 1, 2, 31):
        for state in (0, 1, 2):
            k = max(3, place + 1)
            entries = [replace(SHARING, spi=9 + i, direction=1 + i % 2) for i in range(k)]
            entries[place] = replace(entries[place], state=state, key_id=263)
            run.fresh(*entries, keys=[Key(7), Key(263)])
            run.manage(tlv(DEACTIVATION, two(263)), 18 if state == 2 else 0)
            run.manage(tlv(DEACTIVATION, two(7)), 18)
    run.case("a shared key is changed in one place; what is left after each store loads")
    pair = [SHARING, replace(SHARING, spi=20, channel=6)]
    run.fresh(*pair, keys=[Key(7), Key(0x0108, PRE_ACTIVE, OTHER_KEY)])
    numbers = [opened(SHARING, 1, run.secure(1, 9, C, 0))[0]]
    steps = [(tlv(ACTIVATION, two(0x0108)), 0), (tlv(DEACTIVATION, two(7)), 18)]
    for e in pair:
        steps += [(tlv(STOP, two(e.spi)), 0), (tlv(EXPIRE, two(e.spi)), 0), (rekey_of(e.spi, 0x0108), 0), (start_of(e), 0)]
    steps += [(tlv(DEACTIVATION, two(7)), 0), (tlv(ACTIVATION, two(7)), 18), (rekey_of(9, 7), 15)]
    for octets, answer in steps:
        before, last = run.octets, list(run.numbers)
        run.manage(octets, answer)
        after, done = run.octets, managing(before, last, OFFICE, octets, 17)
        for j in range(len(done.stores) if isinstance(done, Done) else 0):
            for place, octet in done.stores[: j + 1]:
                before = before[:place] + bytes([octet]) + before[place + 1 :]
            run.image(before)
            run.load()
        run.image(after)
        for i, n in enumerate(last[:2]):
            run.number(i, n)
    new = replace(SHARING, key=OTHER_KEY)
    numbers += [opened(new, 1, run.secure(1, 9, C, 0))[0]]
    assert opened(new, 1, secured_frame(new, 1, C, 65))[1] and numbers == [64, 65]
    run.fresh(replace(SHARING, state=0, key_id=0x0107), keys=[Key(7), Key(0x0108)])
    run.manage(start_of(SHARING), 15)
    run.manage(rekey_of(9, 0x0108), 0)


def to_version_3(run):
    run.case("from version 2 to version 3: bodies as they were, with a key ID for the key, and their marks; the numbers go on")
    before = [replace(B, version=2, mark=3), replace(TELEMETRY, version=2, spi=10, channel=0x22, direction=1, mark=70, service=2, key=OTHER_KEY)]
    run.fresh(*before)
    run.secure(1, 9, C, 0)
    run.secure(3, 10, tm(b"data"), 0)
    last, old = list(run.numbers), run.octets
    places = positions_of(2, 2)
    bodies = [old[at : at + 16] + two(id) + old[at + 48 : at + 52] for at, id in zip(places, (1, 2))]
    contents = b"".join(two(spi) + two(at) for spi, at in zip((9, 10, KEY_PART), positions_of(2, 3)))
    run.image(bytes([3, 2]) + contents + b"".join(bodies) + bytes([2]) + Key(1, ACTIVE, B.key).laid_out() + Key(2, ACTIVE, OTHER_KEY).laid_out())
    assert [e.mark for e in read_image(run.octets)] == [n // 64 for n in last[:2]]
    run.secure(1, 9, C, 0)
    run.secure(3, 10, tm(b"data", channel=1), 0)
    assert run.numbers[:2] == [n + 1 for n in last[:2]]
    run.load()
    run.secure(1, 9, C, 0, stores=1)


# A guest laboratory's desk: version 4

GUEST = replace(SHARING, version=4, owner=2)
# SPI 9 is desk 1's, 20 and 30 are desk 2's; 30 receives telemetry.
THREE = [replace(GUEST, owner=1, service=1), replace(GUEST, spi=20, channel=6, mark=1)]
THREE += [replace(GUEST, spi=30, kind=3, direction=2, channel=0x22, mark=2)]
THREE_KEYS = [Key(7), Key(263, PRE_ACTIVE)]
DESKS = (0, 1, 2, 3, 4, 127, 128, 255)


def broken_owned_images():
    """Images of version 4, each of which breaks one rule, and what it breaks."""
    at, good = positions_of(3, 4), image_of(*THREE, keys=THREE_KEYS)
    for place in range(3):
        for owner in (0, 3, 4, 128, 255):
            changed = [replace(e, owner=owner) if i == place else e for i, e in enumerate(THREE)]
            yield "owner %d of entry %d" % (owner, place), image_of(*changed, keys=THREE_KEYS)
    yield "an octet less", good[:-1]
    yield "an octet more", good + b"\x00"
    yield "version 3 in front of it", bytes([3]) + good[1:]
    yield "version 5 in front of it", bytes([5]) + good[1:]
    yield "version 4 in front of version 3", bytes([4]) + image_of(*(replace(e, version=3) for e in THREE), keys=THREE_KEYS)[1:]
    yield "bodies where version 3 has them", image_of(*THREE, keys=THREE_KEYS, positions=[*positions_of(3, 3)[:3], at[3]])
    yield "the key part where version 3 has it", image_of(*THREE, keys=THREE_KEYS, positions=[*at[:3], positions_of(3, 3)[3]])
    for place in (at[3] - 1, at[3] + 1, at[0], 0):
        yield "the key part's position is %d" % place, image_of(*THREE, keys=THREE_KEYS, positions=[*at[:3], place])
    yield "the last entry's SPI", image_of(*THREE, keys=THREE_KEYS, last=65534)
    yield "the last entry is counted", bytes([4, 4]) + good[2:]
    for count in (0, 1, 3, 255):
        yield "%d keys are counted" % count, image_of(*THREE, keys=THREE_KEYS, count=count)
    yield "65 keys", image_of(*THREE, keys=[Key(7 + j) for j in range(65)])
    yield "33 entries", bytes([4, 33]) + image_of(*(replace(GUEST, spi=1 + i) for i in range(33)))[2:]
    yield "the key that is named is pre-active", image_of(*THREE, keys=[Key(7, PRE_ACTIVE)])
    yield "no key at all", image_of(*THREE, keys=[])
    yield "equal IDs", image_of(*THREE, keys=[Key(7), Key(7)])
    yield "telemetry without a channel", image_of(replace(GUEST, kind=3, channel=0))
    yield "a window of 0", image_of(replace(GUEST, window=0))
    yield "a mark of 2^26", image_of(replace(GUEST, mark=2**26))


def owned_images(run):
    run.case("the smallest image of version 4")
    run.number(0, 7)
    run.image(bytes.fromhex("0400ffff000600"))
    run.load()
    run.case("1: images of version 4 that break one rule")
    for name, image in broken_owned_images():
        run.case(name)
        run.number(0, 63)
        run.image(image)
        run.load(1)
        run.secure(1, 9, C, 1, desk=1)
        run.manage(tlv(PING), 1, desk=2)
        run.manage(tlv(PING), 1, desk=3)
    run.case("32 entries and 64 keys, 3,111 octets, of owners in turn; and one octet more")
    full = [replace(GUEST, spi=1 + i, key_id=1040 * (i % 64), mark=i, owner=1 + i % 2) for i in range(32)]
    run.fresh(*full, keys=[Key(1040 * j) for j in range(64)])
    assert len(run.octets) == 3111
    run.secure(1, 32, C, 4, desk=1)
    run.secure(1, 32, C, 0, desk=2)
    run.secure(1, 31, C, 4, desk=2)
    run.secure(1, 31, C, 0, desk=1)
    run.cut(31, 64 * 35, 3, 3)
    run.image(run.octets + b"\x00")
    run.load(1)
    run.case("the IV of version 4 is that of version 3, and what one end of either secures the other releases")
    for here in (3, 4):
        run.fresh(replace(SHARING, version=here, owner=1))
        sent = run.secure(1, 9, C, 0, desk=1)
        assert sent[7:19] == bytes.fromhex("000000090000000000000040")
        for there in (3, 4):
            run.fresh(replace(SHARING, version=there, owner=1, direction=2))
            assert run.check(1, sent, 0, desk=1) == C[5:]
            run.check(1, sent, 8, desk=0)


def asked_of(image):
    """What desks ask: a name, who may (a desk; 0 for the key office alone, 3 for all), the answer then, and otherwise."""
    entries = read_image(image)
    sent = secured_frame(entries[2], 3, tm(b"data"), 64 * entries[2].mark + 64)
    yield 1, ("secure", 1, 9, C), 0, 4
    yield 2, ("secure", 1, 20, tc(9, b"data", channel=6)), 0, 4
    yield 2, ("check", 3, sent), 0, 4
    yield 3, ("secure", 1, 10, C), 4, 4
    yield 3, ("secure", 1, 9, C + b"\x00"), 3, 3
    for e, owner in zip(entries, (1, 2, 2)):
        for tag in (STATUS, READ_NUMBER, STOP):
            yield owner, ("manage", tlv(tag, two(e.spi))), 0, 14
        for octets in (tlv(EXPIRE, two(e.spi)), rekey_of(e.spi, 7), start_of(e), tlv(SET_WINDOW, two(e.spi) + two(9))):
            yield owner, ("manage", octets), 15, 14
        yield owner, ("manage", tlv(SET_NUMBER, two(e.spi) + number_field(64 * e.mark + 64))), 0, 14
        yield owner, ("manage", tlv(SET_NUMBER, two(e.spi) + number_field(64 * e.mark + 63))), 16, 14
        yield 3, ("manage", tlv(STATUS, two(e.spi) + b"\x00")), 13, 13
    yield 3, ("manage", tlv(STATUS, two(8))), 14, 14
    yield 3, ("manage", tlv(PING)), 0, 0
    yield 3, ("manage", b""), 13, 13
    yield 3, ("manage", tlv(PING | 128)), 13, 13
    yield 0, ("manage", tlv(ACTIVATION, two(263))), 0, 19
    yield 0, ("manage", tlv(ACTIVATION, two(8))), 17, 19
    yield 0, ("manage", tlv(DEACTIVATION, two(7))), 18, 19
    yield 0, ("manage", tlv(INVENTORY, b"\x00\x00\xff\xff")), 0, 19
    for tag in OF_KEYS:
        for octets in (bytes([tag]), bytes([tag, 0]), tlv(tag), tlv(tag, b"\x00"), tlv(tag, bytes(3)), tlv(tag, bytes(16)), bytes([tag, 0, 2, 0])):
            yield 0, ("manage", octets), 13, 19


def desks(run):
    image = image_of(*THREE, keys=THREE_KEYS)
    for desk in DESKS:
        run.case("desk %d: what it sees, and what it may ask" % desk)
        for owner, (call, *words), seen, unseen in asked_of(image):
            answer = 19 if desk > 2 else seen if desk == OFFICE or owner in (desk, 3) else unseen
            run.image(image)
            run.load()
            getattr(run, call)(*words, answer, desk=desk)
    run.case("2 before 19 and before what a desk sees, and 1 before 2")
    for desk in DESKS:
        for owner, (call, *words), _, _ in asked_of(image):
            if owner in (0, 1):
                run.image(image)
                run.number(2, 64)
                getattr(run, call)(*words, 2, desk=desk)
                run.image(image[:-1])
                getattr(run, call)(*words, 1, desk=desk)
    run.case("versions 1 to 3: all is desk 1's and the key office's, and nothing desk 2's")
    for version in (1, 2, 3):
        for desk, answer in ((0, 0), (1, 0), (2, 4), (3, 19), (255, 19)):
            run.fresh(replace(B, version=version))
            run.secure(1, 9, C, answer, desk=desk)
            run.manage(tlv(STATUS, two(9)), 14 if desk == 2 else answer, desk=desk)
            run.manage(tlv(INVENTORY, b"\x00\x00\xff\xff"), 0 if desk == 0 else 19, desk=desk)
            run.fresh(replace(RECEIVING, version=version))
            run.check(1, numbered(replace(B, version=version), 64), answer, desk=desk)
    run.case("what desk 2 is answered does not change with desk 1's part")
    for changed in (dict(state=1), dict(window=1), dict(mark=5), dict(channel=6), dict(service=2), dict(direction=2), dict(state=0, key_id=99)):
        run.fresh(replace(THREE[0], **changed), *THREE[1:], keys=THREE_KEYS)
        run.secure(1, 20, tc(9, b"data", channel=6), 0, desk=2)
        run.secure(1, 9, C, 4, desk=2)
        for tag in (STATUS, READ_NUMBER, STOP, EXPIRE):
            run.manage(tlv(tag, two(9)), 14, desk=2)
        run.manage(tlv(READ_NUMBER, two(20)), 0, desk=2)
        run.manage(tlv(STATUS, two(30)), 0, desk=2)


def guest_link(run):
    run.case("a guest's pass: it stops, expires, rekeys and starts its own; the key office brings the key; what is left after each loads")
    run.fresh(*THREE, keys=THREE_KEYS)
    frame = tc(9, b"data", channel=6)
    steps = [(2, tlv(STOP, two(20)), 0), (2, tlv(EXPIRE, two(20)), 0), (2, rekey_of(20, 263), 18), (2, tlv(ACTIVATION, two(263)), 19)]
    steps += [(0, tlv(ACTIVATION, two(263)), 0), (1, rekey_of(20, 263), 14), (2, rekey_of(20, 263), 0), (2, start_of(THREE[1]), 0)]
    steps += [(0, tlv(DEACTIVATION, two(7)), 18), (2, tlv(STOP, two(9)), 14), (0, tlv(STOP, two(9)), 0), (0, tlv(DEACTIVATION, two(7)), 18)]
    steps += [(0, tlv(STOP, two(30)), 0), (0, tlv(DEACTIVATION, two(7)), 0), (1, start_of(THREE[0]), 18)]
    for desk, octets, answer in steps:
        run.manage(octets, answer, desk=desk)
    run.secure(1, 20, frame, 0, desk=2)
    run.load()
    run.secure(1, 20, frame, 0, desk=2, stores=1)
    run.secure(1, 20, frame, 4, desk=1)
    run.case("from version 3 to version 4: an owner behind each body; the numbers go on")
    before = [replace(SHARING, mark=3), replace(SHARING, spi=20, channel=6, mark=70)]
    run.fresh(*before)
    run.secure(1, 9, C, 0, desk=1)
    run.secure(1, 20, frame, 0, desk=1)
    last, old = list(run.numbers), run.octets
    bodies = [old[at : at + 22] + bytes([owner]) for at, owner in zip(positions_of(2, 3), (1, 2))]
    contents = b"".join(two(spi) + two(at) for spi, at in zip((9, 20, KEY_PART), positions_of(2, 4)))
    run.image(bytes([4, 2]) + contents + b"".join(bodies) + old[at_keys(old) :])
    assert read_image(run.octets) is not None
    run.secure(1, 9, C, 0, desk=1)
    run.secure(1, 20, frame, 4, desk=1)
    run.secure(1, 20, frame, 0, desk=2)
    assert run.numbers[:2] == [n + 1 for n in last[:2]]


def sends_in_a_row(run):
    run.case("sends in a row: a store at 64, at 128, and at none between them")
    run.fresh(B)
    for n in range(64, 130):
        run.secure(1, 9, C, 0, stores=1 if n in (64, 128) else 0)


def longest(run):
    run.case("the longest frames of each kind and service, and what is longer by one")
    for kind, ocf in ((1, b""), (2, b""), (3, b""), (3, b"ocf."), (4, b"")):
        for service in (1, 2):
            here = Entry(300, service, kind, 1, map=9 if kind == 2 else 0, mask=MASKS[kind])
            most = LARGEST[kind] - SECURITY[service] - 16 - HEADER[kind] - len(ocf)
            run.fresh(here)
            run.secure(kind, 300, clear(kind, bytes(most + 1), ocf), 11)
            sent = run.secure(kind, 300, clear(kind, bytes(most), ocf), 0)
            assert len(sent) == LARGEST[kind]
            run.fresh(replace(here, direction=2))
            run.check(kind, sent, 0)


def note_commands(run):
    run.case("fresh notes: a dump of no event, an erase that leaves none and room for 256, an alarm reset; a value gives 13")
    run.fresh(B)
    for tag, size in ((DUMP, 3), (ERASE, 7), (ALARM_RESET, 0)):
        for desk in DESKS:
            may = desk == OFFICE or (desk <= 2 and tag == ALARM_RESET)
            run.manage(tlv(tag), 0 if may else 19, room=size, desk=desk)
            run.manage(tlv(tag, SPI_9), 13 if may else 19, room=size, desk=desk)
        if size:
            run.manage(tlv(tag), 6, room=size - 1)


def main():
    run, rng = Module(), random.Random(1)
    for run.desk in (1, OFFICE):
        run.case("under desk %d" % run.desk)
        cases_a_to_h(run)
        cases_i_to_o(run)
    slips(run, rng)
    old_numbers(run)
    image_refusals(run)
    three_entries(run)
    frame_refusals(run)
    aos_fields(run)
    channel_sets(run)
    check_fields(run)
    secondary_headers(run)
    stamped_check_fields(run)
    entry_refusals(run)
    identifier_bits(run)
    orders(run)
    command_states(run)
    command_forms(run)
    command_values(run)
    command_channels(run)
    command_orders(run)
    managed_link(run)
    key_images(run)
    key_frames(run)
    shared_keys(run)
    key_commands(run)
    inventories(run)
    key_use(run)
    to_version_3(run)
    owned_images(run)
    desks(run)
    guest_link(run)
    sends_in_a_row(run)
    longest(run)
    note_commands(run)
    here = os.path.join(os.path.dirname(os.path.abspath(__file__)), "..", "tests", "link_cases")
    for name, lines in (("calls.txt", run.lines), ("answers.txt", run.expected)):
        with open(os.path.join(here, name), "w") as file:
            file.write("\n".join(lines) + "\n")


argparse.ArgumentParser(description=__doc__, formatter_class=argparse.RawDescriptionHelpFormatter).parse_args()
try:
    from cryptography.hazmat.primitives.ciphers.aead import AESGCM
    from cryptography.hazmat.primitives.ciphers.algorithms import AES
    from cryptography.hazmat.primitives.cmac import CMAC
except ImportError:
    sys.exit("tools/link_cases.py: the Python package `cryptography` is missing: pip install cryptography")
main()
