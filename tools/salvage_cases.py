#!/usr/bin/env python3
"""Makes the inputs and the expected results of crates/salvage and crates/salvage_cases, their files stdin and stdout.

The rules are read off document 02 (request 12), and those of images off document 01 and requests 2 and 5, here, and not off the code:

  python3 tools/salvage_cases.py
"""
import argparse
import os
import random

from listing_cases import body_ok, entry, fields_of, gray, image, listing, wholes


def two(data, at):
    return int.from_bytes(data[at : at + 2], "big")


def salvage(x):
    """The image and the lines; of a refused input no image."""
    if len(x) < 2 or len(x) > 1794 or x[0] not in (1, 2) or x[1] > 32:
        return b"", "refused 1\n"
    k, kept = x[1], {}
    places = [2 + 4 * k + 52 * t for t in range(k)]
    for i in range(k):
        if 2 + 4 * i + 4 > len(x):
            continue
        spi, position = two(x, 2 + 4 * i), two(x, 4 + 4 * i)
        if not 1 <= spi <= 65534 or spi in [s for s, _ in kept.values()]:
            continue
        if position not in places or position + 52 > len(x) or position in [p for _, p in kept.values()]:
            continue
        if body_ok(x[0], fields_of(x[position : position + 52])):
            kept[i] = (spi, position)
    order = sorted(kept, key=lambda i: kept[i][0])
    c = len(order)
    new = bytes([x[0], c])
    for j, i in enumerate(order):
        new += kept[i][0].to_bytes(2, "big") + (2 + 4 * c + 52 * j).to_bytes(2, "big")
    for i in order:
        new += x[kept[i][1] : kept[i][1] + 52]
    lines = ""
    for i in range(k):
        if i not in kept:
            lines += "dropped %d\n" % i
        elif order.index(i) != i or 2 + 4 * c + 52 * order.index(i) != kept[i][1]:
            lines += "moved %d\n" % i
    return new, lines


# ---- the cases


def flipped(data, bits):
    octets = bytearray(data)
    for bit in bits:
        octets[bit // 8] ^= 0x80 >> bit % 8
    return bytes(octets)


def two_entries(**changes):
    return image([entry(spi=4, code=0x13, key=7), entry(**dict(dict(spi=9, direction=2, code=0x0480, key=8), **changes))])


def contents(spis, positions, version=1):
    """Two bodies that differ, under these SPIs and positions."""
    whole = image([entry(spi=spis[0], code=0x13), entry(spi=spis[1], direction=2, code=0x0480)], version=version, positions=positions)
    return whole


def shuffled(rng, k, version=1):
    """The entries of the contents in another order, each with its position; kinds, states and marks of every sort."""
    kinds = [entry(spi=5 + 3 * i, kind=1 + i % 4, channel=1 + i % 7, service=1 + i % 2, state=i % 3, code=gray(rng.randrange(2**26))) for i in range(k)]
    whole = image(kinds, version=version)
    order = rng.sample(range(k), k)
    return whole[:2] + b"".join(whole[2 + 4 * i : 6 + 4 * i] for i in order) + whole[2 + 4 * k :]


def refusals():
    full = image([entry(spi=1 + i) for i in range(32)])
    yield "no octets", b""
    yield "one octet", b"\x01"
    yield "version 0", b"\x00\x00"
    yield "version 3", b"\x03\x00"
    yield "version 255", image([entry()], version=255)
    yield "count 33", b"\x01\x21"
    yield "count 255", b"\x02\xff"
    yield "1,795 octets", full + b"\x00"
    yield "1,850 octets", image([entry(spi=1 + i) for i in range(33)])
    yield "1,795 octets and no entry", b"\x01\x00" + bytes(1793)


def curated():
    pair = two_entries()
    yield "a count with nothing behind it", b"\x01\x02"
    yield "a count with half an entry behind it", b"\x01\x02\x00\x04\x00"
    yield "no entry, 1,794 octets", b"\x01\x00" + bytes(1792)
    yield "one octet more", pair + b"\xaa"
    yield "as many octets more as are read", pair + bytes(1794 - len(pair))
    yield "contents exchanged", contents((9, 4), (62, 10))
    yield "positions exchanged", contents((4, 9), (62, 10))
    yield "SPIs exchanged", contents((9, 4), (10, 62))
    yield "equal SPIs", contents((4, 4), (10, 62))
    yield "equal SPIs, the later body first", contents((4, 4), (62, 10))
    yield "equal positions", contents((4, 9), (62, 62))
    yield "equal SPIs and positions", contents((4, 4), (62, 62))
    for spi in (0, 1, 65534, 65535):
        yield "SPI %d first" % spi, contents((spi, 9), (10, 62))
        yield "SPI %d last" % spi, contents((4, spi), (10, 62))
    for position in (0, 2, 9, 11, 61, 63, 114, 65535):
        yield "position %d" % position, contents((4, 9), (10, position))
    yield "the place of one body more", image([entry(spi=4)], positions=[58]) + bytes(52)
    for n in (2, 5, 6, 9, 10, 11, 61, 62, 63, 113):
        yield "cut to %d octets" % n, pair[:n]
    for n in (0, 1, 3, 15, 28, 32):
        yield "count %d in place of 2" % n, pair[:1] + bytes([n]) + pair[2:]
    many = image([entry(spi=1 + i, code=gray(i)) for i in range(17)])
    yield "count off by 13, places that coincide", many[:1] + bytes([4]) + many[2:]
    yield "bodies exchanged", pair[:10] + pair[62:] + pair[10:62]
    yield "version 2, contents exchanged", contents((9, 4), (62, 10), version=2)
    yield "a set read as a channel", flipped(image([entry(kind=3, channel=16), entry(spi=10)], version=2), [6, 7])
    yield "a channel read as a set", flipped(image([entry(kind=3, channel=0), entry(spi=10)]), [6, 7])
    for name, value in (("service", 3), ("kind", 5), ("direction", 0), ("state", 3), ("spacecraft", 1024), ("channel", 64)):
        yield "%s %d in the second body" % (name, value), two_entries(**{name: value})
    for name, value in (("map", 1), ("window", 0), ("window", 1025), ("mask", 1)):
        yield "%s %d in the second body" % (name, value), two_entries(**{name: value})
    for window in (0, 1025):
        yield "window %d in the second body, keyed" % window, two_entries(window=window, state=1)
    yield "a mark of 2^26", image([entry(spi=4, code=gray(2**26)), entry(spi=9)])


def random_cases(rng):
    """Images that were damaged: one to thirty-two bits changed, contents shuffled, cut and lengthened."""
    for n in range(120):
        k, version = rng.choice([2, 3, 5, 9, 32]), 1 + n % 2
        x = shuffled(rng, k, version)
        if n % 3:
            x = flipped(x, rng.sample(range(8 * (2 + 4 * k)), rng.choice([1, 2, 4, 8])))
        if n % 5 == 0:
            x = flipped(x, rng.sample(range(8 * len(x)), 32))
        if n % 7 == 0:
            x = x[: rng.randrange(len(x))]
        if n % 11 == 0:
            x = (x + bytes(rng.randrange(200)))[:1794]
        yield "random %d" % n, x


def cases():
    yield from wholes()
    yield from refusals()
    yield from curated()
    one = image([entry(code=0x13, key=7)])
    for bit in range(8 * len(one)):
        yield "bit %d of one entry" % bit, flipped(one, [bit])
    pair = two_entries()
    for bit in range(8 * 10):
        yield "bit %d of the contents of two" % bit, flipped(pair, [bit])
    rng = random.Random(12)
    for k in (2, 3, 9, 32):
        yield "shuffled contents of %d" % k, shuffled(rng, k)
    yield from random_cases(rng)


def main():
    root = os.path.join(os.path.dirname(os.path.abspath(__file__)), "..", "crates")

    def put(crate, name, data):
        with open(os.path.join(root, crate, name), "wb") as f:
            f.write(data)

    for name, data in wholes():
        assert salvage(data) == (data, ""), name
    for name, data in refusals():
        assert salvage(data) == (b"", "refused 1\n"), name
    made = list(cases())
    for name, data in made:
        new, lines = salvage(data)
        assert not new or listing(new) != "refused 1\n", name
    assert max(len(salvage(data)[1]) for _, data in made) > 300
    put("salvage_cases", "stdin", "".join("# %s\n%s\n" % (name, data.hex()) for name, data in made).encode())
    put("salvage_cases", "stdout", "".join("# %s\n%s%s\n" % (name, salvage(data)[1], salvage(data)[0].hex()) for name, data in made).encode())
    damaged = contents((9, 4), (62, 10))
    put("salvage", "stdin", damaged)
    put("salvage", "stdout", salvage(damaged)[0])


if __name__ == "__main__":
    argparse.ArgumentParser(description=__doc__, formatter_class=argparse.RawDescriptionHelpFormatter).parse_args()
    main()
