#!/usr/bin/env bash
# Follows a file that grows: a writer appends blocks to a pcapng file and says messages into a FIFO, and the lines of
# ./dumpcap follow have to come before it goes on. File and messages are spelled here from docs/formats.md alone.
# It is run by hand. DUMPCAP=PATH or --program PATH runs another program than ./dumpcap.
set -u
top=$(cd "$(dirname "$0")/.." && pwd)
if ! command -v python3 >/dev/null; then
    echo "skipped: python3 is not installed"
    exit 0
fi
program=${DUMPCAP:-$top/dumpcap}
if [ "${1-}" = --program ]; then
    program=$2
fi
"$program" check /dev/null >/dev/null 2>&1 # builds the program where it is missing
exec python3 - "$program" "$top/bench" <<'PYTHON'
import os, select, subprocess, sys, tempfile

program = sys.argv[1]
sys.dont_write_bytecode = True
sys.path.insert(0, sys.argv[2])
import base

failed = 0
SECTION = base.section()
DESCRIPTION = base.description()


def packet(number):
    captured = bytes([number % 256]) * (number % 300)
    return base.packet_block(number, captured, 1500)


def message(kind, body):
    return kind + len(body).to_bytes(3, "big") + body


def file_message(name):
    return message(b"F", name.encode() + b"\0")


def count_message(count):
    return message(b"P", b"%d\0" % count)


def line_of(number):
    return "packet 0 %d 1500" % (number % 300)


class Follower:
    """The program, which reads its messages from a FIFO."""

    def __init__(self, folder):
        fifo = os.path.join(folder, "messages")
        os.mkfifo(fifo)
        self.program = subprocess.Popen([program, "follow", fifo], stdout=subprocess.PIPE, stderr=subprocess.PIPE)
        self.messages = open(fifo, "wb", buffering=0)
        self.rest = b""

    def say(self, text):
        self.messages.write(text)

    def lines(self, count, seconds=10):
        """The next lines, which have to come while the program runs on."""
        while self.rest.count(b"\n") < count:
            ready, _, _ = select.select([self.program.stdout], [], [], seconds)
            if not ready:
                return None
            more = os.read(self.program.stdout.fileno(), 65536)
            if not more:
                return None
            self.rest += more
        parts = self.rest.split(b"\n", count)
        self.rest = parts[count]
        return [part.decode() for part in parts[:count]]

    def end(self):
        """All further lines, and the exit."""
        self.messages.close()
        out, err = self.program.communicate(timeout=20)
        return (self.rest + out).decode(), self.program.returncode, err.decode()


def verdict(name, good, why=""):
    global failed
    if good:
        print("ok: " + name)
    else:
        failed += 1
        print("FAILED: %s: %s" % (name, why))


with tempfile.TemporaryDirectory() as folder:
    path = os.path.join(folder, "grows.pcapng")
    follower = Follower(folder)
    with open(path, "wb", buffering=0) as file:
        file.write(SECTION)
        follower.say(file_message(path))
        got = follower.lines(1)
        verdict("the file's name", got == ["file " + path], got)
        file.write(DESCRIPTION)
        wrong = None
        for number in range(1, 1001):
            text = packet(number)
            file.write(text[: number % len(text)])  # the block is torn for a while
            file.write(text[number % len(text) :])
            follower.say(count_message(1))
            got = follower.lines(1)
            if got != [line_of(number)]:
                wrong = (number, got)
                break
        verdict("1,000 packets, each line while the file grows", wrong is None, wrong)
        # many packets at once, in one message
        for number in range(1001, 51001):
            file.write(packet(number))
        follower.say(count_message(50000))
        got = follower.lines(50000, 60)
        verdict("50,000 packets of one message", got == [line_of(n) for n in range(1001, 51001)], got and got[:3])
    second = os.path.join(folder, "next.pcapng")
    with open(second, "wb", buffering=0) as file:
        file.write(SECTION + DESCRIPTION + packet(7) + packet(8))
        follower.say(file_message(second) + count_message(1))
        got = follower.lines(2)
        verdict("the next file", got == ["file " + second, line_of(7)], got)
        follower.say(message(b"D", b"3:eth0\0"))
        got = follower.lines(1)
        verdict("drops", got == ["drops 3 eth0"], got)
        inner = message(b"E", b"output failed\0") + message(b"E", b"o\0")
        follower.say(message(b"E", inner) + message(b"Q", b"unknown"))
        got = follower.lines(1)
        verdict("an error", got == ["error output failed: o"], got)
        rest, status, err = follower.end()
        verdict("the end", (rest, status, err) == ("", 0, ""), (rest, status, err))

for name, said, wanted, status in [
    ("behind", lambda p: file_message(p) + count_message(2), "fault behind at %d\n" % len(SECTION + DESCRIPTION + packet(5)), 8),
    ("gone", lambda p: file_message(p + ".x") + count_message(1), None, 8),
    ("no file", lambda p: count_message(1), "fault no file\n", 8),
    ("cut message", lambda p: file_message(p)[:-1], "fault cut message\n", 8),
]:
    with tempfile.TemporaryDirectory() as folder:
        path = os.path.join(folder, "one.pcapng")
        with open(path, "wb") as file:
            file.write(SECTION + DESCRIPTION + packet(5))
        follower = Follower(folder)
        follower.say(said(path))
        rest, code, err = follower.end()
        last = "fault gone %s.x\n" % path if wanted is None else wanted
        verdict("fault: " + name, rest.endswith(last) and code == status, (rest, code, err))

done = subprocess.run([program, "follow", "/nonexistent/messages"], capture_output=True)
verdict("no messages", (done.stdout, done.returncode) == (b"source /nonexistent/messages: open failed\n", 2), done)
sys.exit(1 if failed else 0)
PYTHON
