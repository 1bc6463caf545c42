#!/usr/bin/env python3
"""Makes the data of crates/aes_vectors, cmac_vectors and gcm_vectors that comes from NIST's published files.

  python3 tools/make_vectors.py FOLDER

FOLDER has the files as they were published: ECB*256.rsp and gcmEncryptExtIV256.rsp of the validation suites (of the
latter the entries with an IV of 96 bits and a tag of 128), and the AES-256 examples of SP 800-38B. Each gives a file with
a line for a vector, in hex, in the order of the publication:

  ECB*256.txt              KEY BLOCK RESULT      a line for each block of a message; the [ENCRYPT] section, then what the [DECRYPT]
                                                 section, read backwards, has besides
  SP80038B.txt             KEY MESSAGE MAC
  gcmEncryptExtIV256.txt   KEY IV PLAINTEXT ADDITIONAL CIPHERTEXT TAG

FIPS197A3.txt and FIPS197C3.txt are typed from the appendices of FIPS 197, and GCM13to16.txt from the test cases of the
GCM specification; this script leaves them alone.
"""
import argparse
import pathlib
import re
import sys

CRATES = pathlib.Path(__file__).resolve().parent.parent / "crates"
BLOCK = 32  # digits of a block
ECB = ["ECBGFSbox256", "ECBKeySbox256", "ECBVarTxt256", "ECBVarKey256", "ECBMMT256"]


def records(text, names):
    """What stands behind the given names, record by record; every record must have them all, in this order."""
    found = re.findall("".join(rf"{name} = ?([0-9a-f]*)\n" for name in names), text)
    if len(found) != len(re.findall(r"(?im)^count = ", text)):
        sys.exit("a record is not of the form " + ", ".join(names))
    return found


def blocks(record):
    """The lines of a message of whole blocks."""
    key, plain, secret = record
    if len(plain) % BLOCK != 0 or len(plain) != len(secret):
        sys.exit("a message is not of whole blocks: " + plain)
    for at in range(0, len(plain), BLOCK):
        yield (key, plain[at:at + BLOCK], secret[at:at + BLOCK])


def write(program, name, made):
    (CRATES / program / "data" / f"{name}.txt").write_text("".join(" ".join(line) + "\n" for line in made))
    print(f"{name}: {len(made)}")


def main(folder):
    def read(name):
        return (folder / name).read_text().replace("\r\n", "\n") + "\n"

    for name in ECB:
        encrypt, decrypt = read(f"{name}.rsp").split("[ENCRYPT]")[1].split("[DECRYPT]")
        messages = records(encrypt, ["KEY", "PLAINTEXT", "CIPHERTEXT"])
        messages += [(key, plain, secret) for key, secret, plain in records(decrypt, ["KEY", "CIPHERTEXT", "PLAINTEXT"])]
        write("aes_vectors", name, [line for message in dict.fromkeys(messages) for line in blocks(message)])
    write("cmac_vectors", "SP80038B", records(read("nist-800-38b-aes256.txt"), ["KEY", "MESSAGE", "OUTPUT"]))
    entries = records(read("gcmEncryptExtIV256-iv96-tag128.rsp"), ["Key", "IV", "PT", "AAD", "CT", "Tag"])
    write("gcm_vectors", "gcmEncryptExtIV256", entries)


parser = argparse.ArgumentParser(description=__doc__, formatter_class=argparse.RawDescriptionHelpFormatter)
parser.add_argument("folder", metavar="FOLDER", type=pathlib.Path)
main(parser.parse_args().folder)
