#!/usr/bin/env python3
"""expected.py NAME IN OUT: whether OUT is the pcapng file that a capture of the classic pcap stream IN from the source NAME has to be.

The file is spelled here from the formats alone (draft-ietf-opsawg-pcap, draft-ietf-opsawg-pcapng, docs/formats.md): a section header,
an interface description, an enhanced packet block for each whole packet record, and one statistics block. The statistics' time is
that of the capture, so it is taken from OUT."""
import os
import struct
import sys

sys.dont_write_bytecode = True
sys.path.insert(0, os.path.join(os.path.dirname(os.path.dirname(os.path.abspath(__file__))), "bench"))
import base

name, source, output = sys.argv[1], open(sys.argv[2], "rb").read(), open(sys.argv[3], "rb").read()
order = next(o for o in "<>" if struct.unpack(o + "I", source[:4])[0] in base.MAGICS)
resolution, units = base.MAGICS[struct.unpack(order + "I", source[:4])[0]]
snap, link = struct.unpack(order + "II", source[16:24])
wanted = base.section()
options = base.option(2, name.encode()) + base.option(9, bytes([resolution])) + base.option(0, b"")
wanted += base.description(link & 0xFFFF, snap, options)
at, packets = 24, 0
while len(source) - at >= 16:
    seconds, fraction, captured, original = struct.unpack(order + "IIII", source[at:at + 16])
    if len(source) - at - 16 < captured:
        break
    wanted += base.packet_block(seconds * units + fraction, source[at + 16:at + 16 + captured], original)
    at, packets = at + 16 + captured, packets + 1
counts = b"".join(base.option(code, struct.pack("<Q", count)) for code, count in ((4, packets), (5, 0), (8, packets)))
moment = output[len(wanted) + 12:len(wanted) + 20]
wanted += base.block(5, struct.pack("<I", 0) + moment + counts + base.option(0, b""))
if output != wanted:
    sys.exit(f"{sys.argv[3]}: not the file of {packets} packets: {len(output)} bytes, wanted {len(wanted)}")
