#!/usr/bin/env python3
"""passed.py IN OUT: whether the file OUT has what `dumpcap pass` has to pass on of IN, in its order, and nothing else. It prints how
many blocks were passed on.

IN is a little-endian pcapng file of one section, in which no description is repeated (draft-ietf-opsawg-pcapng). Blocks of name
resolution (type 4), decryption secrets (10) and custom blocks that may be copied (0xBAD) are compared byte for byte, of packets the
interface, time, lengths and captured bytes, of descriptions link type and snap length. With `passed.py --make OUT` it writes a file
that has a block of each of these types before, between and behind two packets, and such as may not be passed on."""
import os
import struct
import sys

sys.dont_write_bytecode = True
sys.path.insert(0, os.path.join(os.path.dirname(os.path.dirname(os.path.abspath(__file__))), "bench"))
import base

DESCRIPTION, PACKET, PASSED = 1, 6, (4, 0x0A, 0xBAD)


def blocks(text):
    """The type and the bytes of each block behind the section header."""
    at = 0
    while at < len(text):
        kind, total = struct.unpack_from("<II", text, at)
        if at:
            yield kind, text[at:at + total]
        at += total


def facts(text):
    """What is compared, block by block."""
    for kind, block in blocks(text):
        if kind in PASSED:
            yield kind, block
        elif kind == PACKET:
            captured = struct.unpack_from("<I", block, 20)[0]
            yield kind, block[8:28 + captured]
        elif kind == DESCRIPTION:
            yield kind, block[8:16]


def sample():
    """A file with blocks of each kind."""
    names = base.block(4, struct.pack("<HH4s", 1, 16, bytes([192, 0, 2, 1])) + b"example.org\0" + bytes(4))
    secrets = base.block(0x0A, struct.pack("<II", 0x544C534B, 9) + b"# no keys")
    custom = base.block(0xBAD, struct.pack("<I", 32473) + b"copy")
    others = base.block(0x40000BAD, struct.pack("<I", 32473) + b"no copy!") + base.block(0x80000001, b"unknown ")
    packets = [base.packet_block(k, base.body_of(k), 64) for k in range(60, 62)]
    yield base.section() + base.description() + names + secrets + others
    yield packets[0] + custom + names + packets[1] + secrets + others + custom


def main():
    """Compares, or makes the sample."""
    if sys.argv[1] == "--make":
        with open(sys.argv[2], "wb") as file:
            file.write(b"".join(sample()))
        return
    texts = [open(name, "rb").read() for name in sys.argv[1:3]]
    if texts[1][:28] != base.section():
        sys.exit("no section header as the output has it")
    wanted, found = (list(facts(text)) for text in texts)
    if len(list(blocks(texts[1]))) != len(found):
        sys.exit("a block that isn't passed on")
    for k, (one, other) in enumerate(zip(wanted, found)):
        if one != other:
            sys.exit(f"block {k} behind the section header: type {other[0]} where {one[0]} is wanted, or other bytes")
    if len(wanted) != len(found):
        sys.exit(f"{len(found)} blocks where {len(wanted)} are wanted")
    print(sum(kind in PASSED for kind, _ in found))


main()
