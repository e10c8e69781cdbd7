#!/usr/bin/env python3
"""steady.py: a ring that is followed while it is written, and a slow source for many minutes.

Part r feeds one FIFO at full speed by cat into a ring of three files that switches many times, with `dumpcap follow` beside it on the
capture's messages: it prints both exits, the packets that follow saw, the files that were named, the packets in the files that are
kept, and follow's last words. A follower that is several files behind a small ring ends with exit 8, and the capture then loses its
reader and ends with 4; at the default size of files that isn't expected, but it may be seen with smaller ones, and where other programs
keep the processors from the follower. Part s writes single packets into one FIFO at 1,000 a second for ten minutes: it prints the
capture's memory (VmRSS) after the first ten seconds, at half the time and at the end, its processor time from the first to the last of
these as a share of one processor, and whether all packets stand in the file. It is run by hand."""
import glob
import os
import subprocess
import sys
import time

sys.dont_write_bytecode = True
import base


def follow_beside(options, stream, folder):
    """Runs a ring and its follower: both exits, the seconds, and the lines of the follower."""
    fifo, = base.make_fifos(folder, 1)
    ring = ["-b", "files:3", "-b", f"filesize:{options.filesize}", "--sync"]
    words = base.capture_words(options.program, [fifo], os.path.join(folder, "ring.pcapng"), *ring)
    started = time.monotonic()
    children = base.feed([stream], [fifo])
    try:
        with open(os.path.join(folder, "lines"), "w+b") as lines:
            capture = subprocess.Popen(words, stderr=subprocess.PIPE)
            children.append(capture)
            follower = subprocess.Popen([options.program, "follow", "-"], stdin=capture.stderr, stdout=lines)
            children.append(follower)
            capture.stderr.close()
            exits = capture.wait(600), follower.wait(600)
            seconds = time.monotonic() - started
            lines.seek(0)
            return *exits, seconds, lines.read().decode(errors="replace").splitlines()
    finally:
        base.stop(children)


def ring(options, folder):
    """Part r; says whether all is well."""
    stream = os.path.join(folder, "in")
    base.write_classic(stream, options.packets)
    capture, follower, seconds, lines = follow_beside(options, stream, folder)
    seen = sum(line.startswith("packet ") for line in lines)
    named = sum(line.startswith("file ") for line in lines)
    kept = glob.glob(os.path.join(folder, "ring_*.pcapng"))
    fine = (capture, follower, seen) == (0, 0, options.packets) and 1 <= len(kept) <= 3
    print(f"r. A ring of 3 files of {options.filesize:,} kB: {options.packets:,} packets sent, {seen:,} seen by follow in {seconds:.2f} s, "
          f"{seen / seconds:,.0f} a second")
    print(f"{'ok' if fine else 'FAILED'}: capture's exit {capture}, follow's exit {follower}; follow saw {seen:,} packets in "
          f"{named} files; {len(kept)} files are kept, with {base.packets_of(*kept):,} packets")
    others = [line for line in lines if not line.startswith(("packet ", "file "))]
    for line in others[-3:]:
        print(f"follow says: {line}")
    print(flush=True)
    return fine


class Pace:
    """Writes single packets into a FIFO, so many a second."""

    def __init__(self, writer, rate):
        self.writer, self.rate, self.sent = writer, rate, 0
        self.body, self.started = base.body_of(64), time.monotonic()

    def go_on(self, seconds):
        """Writes on until so many seconds from the start, each packet at its time or as soon as may be."""
        while self.sent < seconds * self.rate:
            early = self.started + self.sent / self.rate - time.monotonic()
            if early > 0:
                time.sleep(early)
            os.write(self.writer, base.classic_packet(self.sent // self.rate, self.sent % self.rate * 1_000_000 // self.rate, self.body))
            self.sent += 1


def look(child):
    """Memory in MB, processor time so far, and the moment."""
    return base.field_of(child.pid, "VmRSS"), base.ticks_of(child.pid), time.monotonic()


def paced(options, folder):
    """Part s; says whether all is well."""
    fifo, = base.make_fifos(folder, 1)
    out = os.path.join(folder, "out")
    with open(os.path.join(folder, "report"), "w+b") as report:
        child = subprocess.Popen(base.capture_words(options.program, [fifo], out), stderr=report)
        try:
            writer = base.open_writer(fifo)
            os.write(writer, base.classic_head())
            pace = Pace(writer, options.rate)
            looks = []
            for seconds in (min(10, options.seconds / 4), options.seconds / 2, options.seconds):
                pace.go_on(seconds)
                looks.append(look(child))
            os.close(writer)
            status = child.wait(60)
            report.seek(0)
            told = base.counts(report.read().decode())
        finally:
            base.stop([child])
    found, first, last = base.packets_of(out), looks[0], looks[-1]
    fine = status == 0 and found == pace.sent and told == [found, found, 0, 0]
    memory = ", ".join(f"{megabytes:.2f} MB after {moment - pace.started:.1f} s" for megabytes, _, moment in looks)
    share = 100 * (last[1] - first[1]) / (last[2] - first[2])
    print(f"s. One FIFO at {options.rate:,} packets a second: memory {memory}; {share:.2f} % of one processor from the first to the last of these")
    print(f"{'ok' if fine else 'FAILED'}: exit {status}, {found:,} of {pace.sent:,} packets in the file; "
          f"received, written, dropped and flushed {told}\n", flush=True)
    return fine


def main():
    """Reads the words and runs the parts that they ask for."""
    parser = base.parser_of(__doc__)
    parser.add_argument("--parts", default="rs", help="letters of parts (rs)")
    parser.add_argument("--packets", type=int, default=1_000_000, help="packets of part r (1000000)")
    parser.add_argument("--filesize", type=int, default=12_000, help="kB of a file of part r (12000)")
    parser.add_argument("--seconds", type=float, default=600, help="how long part s lasts (600)")
    parser.add_argument("--rate", type=int, default=1000, help="packets a second of part s (1000)")
    options = base.options_of(parser)
    print(f"{base.machine()}\n", flush=True)
    with base.work_folder() as folder:
        parts = {"r": ring, "s": paced}
        fine = [parts[letter](options, folder) for letter in options.parts]
    sys.exit(not all(fine))


main()
