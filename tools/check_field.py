"""The frame error control field of CCSDS 232.0 and 132.0, for the scripts that make cases: by long division of bits, with no table."""


def check_field(octets):
    """The field of these octets: their bits, preset with ones and moved up by 16, modulo x^16 + x^12 + x^5 + 1."""
    bits = [int(b) for x in octets for b in format(x, "08b")] + [0] * 16
    for i in range(16):
        bits[i] ^= 1
    for i in range(len(bits) - 16):
        if bits[i]:
            for power in (16, 12, 5, 0):
                bits[i + 16 - power] ^= 1
    return int("".join(str(b) for b in bits[-16:]), 2).to_bytes(2, "big")
