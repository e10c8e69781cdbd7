#!/usr/bin/env python3
"""big_endian.py IN: the packets of a little-endian classic pcap file as big-endian pcapng (draft-ietf-opsawg-pcapng), on standard output."""
import os
import struct
import sys

sys.dont_write_bytecode = True
sys.path.insert(0, os.path.join(os.path.dirname(os.path.dirname(os.path.abspath(__file__))), "bench"))
import base

source = open(sys.argv[1], "rb").read()
snap, link = struct.unpack("<II", source[16:24])
out = base.section(">") + base.description(link, snap, order=">")
at = 24
while at < len(source):
    seconds, micros, captured, original = struct.unpack("<IIII", source[at:at + 16])
    out += base.packet_block(seconds * 1_000_000 + micros, source[at + 16:at + 16 + captured], original, order=">")
    at += 16 + captured
sys.stdout.buffer.write(out)
