#!/usr/bin/env python3
"""table.py: how fast captures from FIFOs are that cat feeds at full speed, beside other tools, in a table for each part.

Part a has one FIFO of 64-byte packets through this dumpcap, Wireshark's, tcpdump, editcap and cat; b one of 1500-byte packets; c a
pcapng source beside a classic one; d several FIFOs that have the packets together; e small queues; f a pcapng FIFO through `pass`,
beside editcap, a capture and cat; g a ring of a hundred files through `join`, beside mergecap, and beside `check` of each file and one
cat of all. Each line is the best of several runs, in which the tools of a part take turns: packets sent a second, packets a second that
stand in the output, processor time of all threads of the tool (not of the feeding cat) for each packet sent, its most memory, packets
sent that aren't in the output, what its report says of them, and the packets a second in the output as a ratio to this dumpcap's in the
part. Each output is counted: where this dumpcap's hasn't all packets, or its exit isn't 0, the line says so and the script ends with 1.
The files are in memory. It is run by hand."""
import os
import subprocess
import sys

sys.dont_write_bytecode = True
import base

HEAD = ["", "sent/s", "in the output/s", "µs a packet", "MB", "lost", "dropped", "flushed", "ratio", "notes"]


class Line:
    """A tool on some FIFOs, and the best of its runs."""

    def __init__(self, name, words, stream, sources, packets, ours=False, copies=False):
        self.name, self.words, self.stream, self.sources = name, words, stream, sources
        self.packets, self.ours, self.copies = packets, ours, copies
        self.best, self.faults = None, []

    def run(self, folder):
        """Runs the tool once, and keeps the run where it is the best so far."""
        out = os.path.join(folder, "out")
        base.remove(out)
        fifos = base.make_fifos(folder, self.sources)
        with open(out if self.copies else os.devnull, "wb") as output:
            run = base.measured(self.words(fifos, out), [self.stream] * self.sources, fifos, folder, output)
        found = base.packets_of(out)
        base.remove(out)
        if self.ours and (found != self.packets or run.exit):
            self.faults.append(f"FAILED: {found} of {self.packets} in the file, exit {run.exit}")
        if self.best is None or found / run.seconds > self.rate():
            self.best, self.found = run, found

    def rate(self):
        """Packets a second that stand in the output."""
        return self.found / self.best.seconds

    def row(self, first):
        """The words of the table's line. The first line of this dumpcap is what ratios are to."""
        best, lost = self.best, base.lost_by(self.best.words) or ("", "")
        notes = self.faults[:1] or [f"exit {best.exit}"] * (best.exit != 0)
        numbers = [f"{self.packets / best.seconds:,.0f}", f"{self.rate():,.0f}", f"{best.spent / self.packets * 1e6:.2f}", f"{best.memory:.1f}"]
        losses = [f"{self.packets - self.found:,}", *(f"{count:,}" if count != "" else "" for count in lost)]
        return [self.name, *numbers, *losses, f"{self.rate() / first.rate():.2f}" if first.found else "", ", ".join(notes)]


def measure(title, lines, runs, folder):
    """Runs the lines in turn and prints their table; says whether all is well."""
    for _ in range(runs):
        for line in lines:
            line.run(folder)
    first = next(line for line in lines if line.ours)
    print(f"{title}; best of {runs}")
    rows = [line.row(first) for line in lines]
    shown = len(HEAD) if any(row[-1] for row in rows) else len(HEAD) - 1
    base.table(HEAD[:shown], [row[:shown] for row in rows])
    return not any(line.faults for line in lines)


class Parts:
    """The parts of the measurement, each a method of its letter."""

    def __init__(self, options, folder):
        self.options, self.folder = options, folder
        self.tools = base.installed("dumpcap", "tcpdump", "editcap", "mergecap", "cat")

    def ours(self, name, stream, sources, packets, *more):
        """A line of this dumpcap."""
        words = lambda fifos, out: base.capture_words(self.options.program, fifos, out, *more)
        return Line(name, words, stream, sources, packets, ours=True)

    def others(self, stream, packets, *names):
        """Lines of other tools on one FIFO, of those that are installed."""
        words = {
            "dumpcap": lambda fifos, out: base.capture_words("dumpcap", fifos, out, "-q"),
            "tcpdump": lambda fifos, out: ["tcpdump", "-r", fifos[0], "-w", out],
            "editcap": lambda fifos, out: ["editcap", fifos[0], out],
            "cat": lambda fifos, out: ["cat", fifos[0]],
        }
        spoken = {"dumpcap": "Wireshark's dumpcap -q", "tcpdump": "tcpdump -r FIFO -w OUT", "editcap": "editcap FIFO OUT", "cat": "cat FIFO > OUT"}
        return [Line(spoken[name], words[name], stream, 1, packets, copies=name == "cat") for name in names if name in self.tools]

    def measure(self, title, lines):
        """Runs the lines of a part and prints them."""
        return measure(title, lines, self.options.runs, self.folder)

    def stream(self, packets, length=64, write=base.write_classic):
        """A stream in the folder; one of another name replaces it."""
        name = os.path.join(self.folder, "in")
        write(name, packets, length)
        return name

    def a(self):
        """One source of small packets."""
        packets = self.options.packets
        stream = self.stream(packets)
        lines = [self.ours("this dumpcap", stream, 1, packets), *self.others(stream, packets, "dumpcap", "tcpdump", "editcap", "cat")]
        return self.measure(f"a. One FIFO, {packets:,} packets of 64 bytes", lines)

    def b(self):
        """One source of large packets."""
        packets = self.options.large
        stream = self.stream(packets, 1500)
        lines = [self.ours("this dumpcap", stream, 1, packets), *self.others(stream, packets, "dumpcap", "tcpdump", "cat")]
        return self.measure(f"b. One FIFO, {packets:,} packets of 1500 bytes", lines)

    def c(self):
        """A pcapng source beside a classic one."""
        packets, lines = self.options.packets, []
        for kind, write in (("classic pcap", base.write_classic), ("pcapng", base.write_pcapng)):
            stream = os.path.join(self.folder, f"in-{kind[0]}-{kind[-1]}")
            write(stream, packets)
            lines.append(self.ours(f"this dumpcap, {kind}", stream, 1, packets))
            for line in self.others(stream, packets, "dumpcap"):
                line.name += f", {kind}"
                lines.append(line)
        fine = self.measure(f"c. One FIFO, {packets:,} packets of 64 bytes, by the format of the source", lines)
        for stream in {line.stream for line in lines}:
            base.remove(stream)
        return fine

    def d(self):
        """Several sources, each with its share of the packets."""
        fine = True
        for sources in self.options.fifos:
            share = self.options.packets // sources
            stream, packets = self.stream(share), share * sources
            lines = [self.ours("this dumpcap", stream, sources, packets)]
            if "dumpcap" in self.tools:
                words = lambda fifos, out: base.capture_words("dumpcap", fifos, out, "-q")
                lines.append(Line("Wireshark's dumpcap -q", words, stream, sources, packets))
            fine &= self.measure(f"d. FIFOs: {sources}, with {packets:,} packets of 64 bytes in all", lines)
        return fine

    def e(self):
        """Small queues, beside the default one."""
        fine = True
        for sources, limits in ((1, ("-N 1", "-N 10", "-N 100", "-C 100")), (8, ("-N 10",)), (64, ("-N 1",))):
            share = self.options.few // sources
            stream, packets = self.stream(share), share * sources
            lines = [self.ours("this dumpcap", stream, sources, packets)]
            lines += [self.ours(f"this dumpcap {limit}", stream, sources, packets, *limit.split()) for limit in limits]
            fine &= self.measure(f"e. Small queues, FIFOs: {sources}, with {packets:,} packets of 64 bytes in all (-C in bytes)", lines)
        return fine

    def f(self):
        """A pcapng source that is passed on."""
        packets = self.options.packets
        stream = self.stream(packets, write=base.write_pcapng)
        words = lambda fifos, out: [self.options.program, "pass", fifos[0], out]
        lines = [Line("this dumpcap pass", words, stream, 1, packets, ours=True), *self.others(stream, packets, "editcap", "cat")]
        lines.append(self.ours("this dumpcap, a capture", stream, 1, packets))
        return self.measure(f"f. One pcapng FIFO, {packets:,} packets of 64 bytes, passed on", lines)

    def g(self):
        """The files of a ring, joined."""
        files = self.ring(self.options.joined)
        packets, program = base.packets_of(*files), self.options.program
        most = max(map(os.path.getsize, files)) / 1e6
        print(f"the ring's largest file has {most:.1f} MB", flush=True)
        each = 'program=$0; for name; do "$program" check "$name" >/dev/null || exit 1; done; cat "$@"'
        lines = [Line("this dumpcap join", lambda _, out: [program, "join", out, *files], None, 0, packets, ours=True)]
        if "mergecap" in self.tools:
            lines.append(Line("mergecap -a -w OUT", lambda _, out: ["mergecap", "-a", "-w", out, *files], None, 0, packets))
        lines.append(Line("check of each, cat of all", lambda _, out: ["sh", "-c", each, program, *files], None, 0, packets, copies=True))
        fine = self.measure(f"g. {len(files)} files of a ring with {packets:,} packets of 64 bytes, joined", lines)
        for name in files:
            base.remove(name)
        return fine

    def ring(self, packets):
        """The names of a hundred files, in order, with so many packets together, as this dumpcap captures them."""
        stream, words = self.stream(packets), ["-b", f"packets:{packets // 100}"]
        done = subprocess.run(base.capture_words(self.options.program, [stream], os.path.join(self.folder, "ring"), *words), stderr=subprocess.DEVNULL)
        files = sorted(os.path.join(self.folder, name) for name in os.listdir(self.folder) if name.startswith("ring_"))
        if done.returncode or not files:
            sys.exit(f"table.py: no ring was made, exit {done.returncode}")
        return files


def main():
    """Reads the words and runs the parts that they ask for."""
    parser = base.parser_of(__doc__)
    parser.add_argument("--parts", default="abcdefg", help="letters of parts (abcdefg)")
    parser.add_argument("--packets", type=int, default=2_000_000, help="64-byte packets of parts a, c, d and f (2000000)")
    parser.add_argument("--joined", type=int, default=1_000_000, help="64-byte packets of part g (1000000)")
    parser.add_argument("--large", type=int, default=400_000, help="1500-byte packets of part b (400000)")
    parser.add_argument("--few", type=int, default=200_000, help="packets of part e (200000)")
    parser.add_argument("--runs", type=int, default=3, help="runs of each line, of which the best counts (3)")
    numbers = lambda text: [int(word) for word in text.split(",")]
    parser.add_argument("--fifos", default=[1, 2, 8, 64], type=numbers, help="numbers of FIFOs of part d (1,2,8,64)")
    options = base.options_of(parser)
    print(f"{base.machine()}\n")
    with base.work_folder() as folder:
        parts = Parts(options, folder)
        fine = [getattr(parts, letter)() for letter in options.parts]
    sys.exit(not all(fine))


main()
