#!/usr/bin/env python3
"""secrets.py FOLDER: makes a capture of one TLS session, FOLDER/tls.pcap, and the keys of that session, FOLDER/tls.keys.

Both ends of the session run here, over buffers in memory; the client asks for /in-the-clear-only-with-keys. What they said to each
other is put into Ethernet, IPv4 and TCP without checksums. It needs the command openssl for a certificate."""
import os
import ssl
import struct
import subprocess
import sys

sys.dont_write_bytecode = True
sys.path.insert(0, os.path.join(os.path.dirname(os.path.dirname(os.path.abspath(__file__))), "bench"))
import base

folder = sys.argv[1]
REQUEST = b"GET /in-the-clear-only-with-keys HTTP/1.1\r\nHost: example.org\r\n\r\n"
ANSWER = b"HTTP/1.1 200 OK\r\nContent-Length: 0\r\n\r\n"
CLIENT, SERVER = (bytes([192, 0, 2, 1]), 40000), (bytes([192, 0, 2, 2]), 443)
SYN, ACK, PUSH = 2, 16, 8


class End:
    """One end of the session, which reads and writes in memory."""

    def __init__(self, context, is_server):
        self.incoming, self.outgoing = ssl.MemoryBIO(), ssl.MemoryBIO()
        self.end = context.wrap_bio(self.incoming, self.outgoing, server_side=is_server)

    def attempt(self, call):
        """Calls, and says whether it came to its end."""
        try:
            call()
            return True
        except ssl.SSLWantReadError:
            return False


def contexts():
    """What the client and the server go by."""
    key, certificate = os.path.join(folder, "key.pem"), os.path.join(folder, "certificate.pem")
    words = ["openssl", "req", "-x509", "-newkey", "rsa:2048", "-nodes", "-keyout", key, "-out", certificate, "-subj", "/CN=example.org"]
    subprocess.run(words, check=True, stderr=subprocess.DEVNULL)
    client = ssl.SSLContext(ssl.PROTOCOL_TLS_CLIENT)
    client.check_hostname, client.verify_mode = False, ssl.CERT_NONE
    client.keylog_filename = os.path.join(folder, "tls.keys")
    server = ssl.SSLContext(ssl.PROTOCOL_TLS_SERVER)
    server.load_cert_chain(certificate, key)
    return client, server


def session():
    """What is said, piece by piece: whether by the client, and the bytes."""
    client_context, server_context = contexts()
    client, server = End(client_context, False), End(server_context, True)
    said = []

    def exchange():
        for speaker, listener in ((client, server), (server, client)):
            piece = speaker.outgoing.read()
            if piece:
                said.append((speaker is client, piece))
                listener.incoming.write(piece)

    done = [False, False]
    while not all(done):
        for k, end in enumerate((client, server)):
            done[k] = done[k] or end.attempt(end.end.do_handshake)
        exchange()
    client.end.write(REQUEST)
    exchange()
    server.end.read(4096)
    server.end.write(ANSWER)
    exchange()
    return said


def frame(source, target, number, seen, flags, payload=b""):
    """An Ethernet frame with a TCP segment."""
    tcp = struct.pack(">HHIIBBHHH", source[1], target[1], number, seen, 5 << 4, flags, 65535, 0, 0) + payload
    ip = struct.pack(">BBHHHBBH4s4s", 0x45, 0, 20 + len(tcp), 0, 0, 64, 6, 0, source[0], target[0])
    return bytes(5) + b"\2" + bytes(5) + b"\1" + b"\x08\0" + ip + tcp


def frames(said):
    """The handshake of TCP, and what is said in segments of at most 1,400 bytes."""
    yield frame(CLIENT, SERVER, 0, 0, SYN)
    yield frame(SERVER, CLIENT, 0, 1, SYN | ACK)
    yield frame(CLIENT, SERVER, 1, 1, ACK)
    numbers = {True: 1, False: 1}
    for by_client, piece in said:
        ends = (CLIENT, SERVER) if by_client else (SERVER, CLIENT)
        for at in range(0, len(piece), 1400):
            part = piece[at:at + 1400]
            yield frame(*ends, numbers[by_client], numbers[not by_client], ACK | PUSH, part)
            numbers[by_client] += len(part)


with open(os.path.join(folder, "tls.pcap"), "wb") as file:
    file.write(base.classic_head())
    for k, bytes_of_frame in enumerate(frames(session())):
        file.write(base.classic_packet(1_600_000_000, k, bytes_of_frame))
