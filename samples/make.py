#!/usr/bin/env python3
"""Writes ping.pcap: two ARP and four ICMP packets of a ping between two hosts, as a little-endian microsecond
classic pcap file (draft-ietf-opsawg-pcap, sections 4 and 5). It is the same at each run."""
import os
import struct

HOST, PEER = bytes.fromhex("020000000001"), bytes.fromhex("020000000002")
HOST_IP, PEER_IP = bytes([192, 0, 2, 1]), bytes([192, 0, 2, 2])
START = 1_700_000_000


def checksum(data):
    total = sum(struct.unpack(f">{len(data) // 2}H", data))
    while total >> 16:
        total = (total & 0xFFFF) + (total >> 16)
    return ~total & 0xFFFF


def ethernet(target, source, kind, payload):
    return (target + source + struct.pack(">H", kind) + payload).ljust(60, b"\0")


def arp(operation, sender, sender_ip, target, target_ip):
    fields = struct.pack(">HHBBH", 1, 0x0800, 6, 4, operation) + sender + sender_ip + target + target_ip
    return ethernet(b"\xff" * 6 if operation == 1 else target, sender, 0x0806, fields)


def ping(kind, sequence, source, source_ip, target, target_ip):
    echo = struct.pack(">BBHHH", kind, 0, 0, 0x4C54, sequence) + bytes(range(0x10, 0x38))
    echo = echo[:2] + struct.pack(">H", checksum(echo)) + echo[4:]
    header = struct.pack(">BBHHHBBH", 0x45, 0, 20 + len(echo), sequence, 0, 64, 1, 0) + source_ip + target_ip
    header = header[:10] + struct.pack(">H", checksum(header)) + header[12:]
    return ethernet(target, source, 0x0800, header + echo)


def main():
    packets = [
        (0, arp(1, HOST, HOST_IP, bytes(6), PEER_IP)),
        (310, arp(2, PEER, PEER_IP, HOST, HOST_IP)),
        (402, ping(8, 1, HOST, HOST_IP, PEER, PEER_IP)),
        (655, ping(0, 1, PEER, PEER_IP, HOST, HOST_IP)),
        (1_000_871, ping(8, 2, HOST, HOST_IP, PEER, PEER_IP)),
        (1_001_120, ping(0, 2, PEER, PEER_IP, HOST, HOST_IP)),
    ]
    with open(os.path.join(os.path.dirname(os.path.abspath(__file__)), "ping.pcap"), "wb") as out:
        out.write(struct.pack("<IHHIIII", 0xA1B2C3D4, 2, 4, 0, 0, 262144, 1))
        for micros, body in packets:
            seconds, fraction = divmod(micros, 1_000_000)
            out.write(struct.pack("<IIII", START + seconds, fraction, len(body), len(body)) + body)


if __name__ == "__main__":
    main()
