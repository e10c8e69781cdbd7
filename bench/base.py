"""base.py: what the measuring scripts of this folder, and some of those in interop, have in common.

Where the program lies, streams of packets in classic pcap and pcapng, the packets that a file has, the counts that a report tells, a
folder in memory with FIFOs, and a command run on FIFOs that cat feeds at full speed, with its seconds, its processor time, its most
memory, its exit and its words. It measures nothing and prints nothing by itself."""
import argparse
import collections
import contextlib
import errno
import mmap
import os
import re
import shutil
import signal
import statistics
import struct
import subprocess
import sys
import tempfile
import threading
import time

top = os.path.dirname(os.path.dirname(os.path.abspath(__file__)))
built = os.path.join(top, "crates", "dumpcap", "out", "dumpcap")
MAGICS = {0xA1B2C3D4: (6, 1_000_000), 0xA1B23C4D: (9, 1_000_000_000)}
ROUND = 8192

Measured = collections.namedtuple("Measured", "seconds spent user system memory exit words")


def parser_of(text):
    """The parser of a script's words, with the option that says where the program lies."""
    parser = argparse.ArgumentParser(description=text, formatter_class=argparse.RawDescriptionHelpFormatter)
    program = os.environ.get("DUMPCAP", built)
    parser.add_argument("--program", default=program, metavar="PATH", help="the program; else the one that DUMPCAP names, or the built one")
    return parser


def options_of(parser):
    """The script's words. Without a program the script ends here."""
    options = parser.parse_args()
    require(options.program)
    options.program = os.path.abspath(options.program)
    return options


def require(program):
    """Ends the script where the program isn't built."""
    if not os.path.exists(program):
        sys.exit(f"{os.path.basename(sys.argv[0])}: {program} isn't there; run ./dumpcap once, which builds it")


def installed(*tools):
    """Those of the tools that are installed. A line tells each other one."""
    for tool in tools:
        if not shutil.which(tool):
            print(f"skipped: {tool} isn't installed", flush=True)
    return [tool for tool in tools if shutil.which(tool)]


def padded(text):
    """The text with zero bytes behind it up to a multiple of four."""
    return text + bytes(-len(text) % 4)


def block(kind, body, order="<"):
    """A pcapng block."""
    body = padded(body)
    length = struct.pack(order + "I", len(body) + 12)
    return struct.pack(order + "I", kind) + length + body + length


def option(code, text, order="<"):
    """An option of a pcapng block."""
    return struct.pack(order + "HH", code, len(text)) + padded(text)


def section(order="<"):
    """A section header of unknown length."""
    return block(0x0A0D0D0A, struct.pack(order + "IHHq", 0x1A2B3C4D, 1, 0, -1), order)


def description(link=1, snap=262144, options=b"", order="<"):
    """An interface description."""
    return block(1, struct.pack(order + "HHI", link, 0, snap) + options, order)


def packet_block(stamp, captured, original, interface=0, order="<"):
    """An enhanced packet block with these captured bytes."""
    head = struct.pack(order + "IIIII", interface, stamp >> 32, stamp & 0xFFFFFFFF, len(captured), original)
    return block(6, head + captured, order)


def classic_head(order="<"):
    """The file header of a classic pcap stream with times in microseconds."""
    return struct.pack(order + "IHHIIII", 0xA1B2C3D4, 2, 4, 0, 0, 262144, 1)


def classic_packet(seconds, micros, captured, order="<"):
    """A packet record of a classic pcap stream."""
    return struct.pack(order + "IIII", seconds, micros, len(captured), len(captured)) + captured


def body_of(length):
    """The captured bytes of each generated packet."""
    return bytes(k % 256 for k in range(length))


def write_rounds(file, units, place, packets, order):
    """Writes the units over and over, so many in all, with the number of the round in the four bytes at the place in each."""
    size = len(units) // ROUND
    for number in range(-(-packets // ROUND)):
        for k, byte in enumerate(struct.pack(order + "I", number)):
            units[place + k::size] = bytes([byte]) * ROUND
        file.write(memoryview(units)[:min(packets - number * ROUND, ROUND) * size])


def write_classic(name, packets, length=64):
    """A classic pcap stream of so many packets of this length, with rising times."""
    body = body_of(length)
    units = bytearray(b"".join(classic_packet(0, k, body) for k in range(ROUND)))
    with open(name, "wb") as file:
        file.write(classic_head())
        write_rounds(file, units, 0, packets, "<")


def write_pcapng(name, packets, length=64, order="<"):
    """A pcapng stream of so many packets of this length, with rising times, in either byte order."""
    body = body_of(length)
    units = bytearray(b"".join(packet_block(k, body, length, order=order) for k in range(ROUND)))
    with open(name, "wb") as file:
        file.write(section(order) + description(order=order))
        write_rounds(file, units, 12, packets, order)


def alike(text, at, size, key):
    """How many records from the place on have this size and the first one's bytes at the places of the key: 4096, or else 1."""
    end = at + 4096 * size
    same = end <= len(text) and all(text[at + k:end:size] == text[at + k:at + k + 1] * 4096 for k in key)
    return 4096 if same else 1


def blocks_of(text):
    """How many whole blocks of each kind a little-endian pcapng text begins with."""
    found, at, before = collections.Counter(), 0, 0
    while len(text) - at >= 12:
        kind, total = struct.unpack_from("<II", text, at)
        if total < 12 or total > len(text) - at:
            break
        count = alike(text, at, total, range(8)) if total == before else 1
        found[kind] += count
        at, before = at + count * total, total
    return found


def records_in(text):
    """How many whole packet records a little-endian classic pcap text has."""
    found, at, before = 0, 24, 0
    while len(text) - at >= 16:
        total = 16 + struct.unpack_from("<I", text, at + 8)[0]
        if total > len(text) - at:
            break
        count = alike(text, at, total, range(8, 12)) if total == before else 1
        found += count
        at, before = at + count * total, total
    return found


def packets_in(text):
    """How many whole packets a text has: the packet blocks of a pcapng one, or the records of a classic one."""
    classic = len(text) >= 24 and struct.unpack_from("<I", text)[0] in MAGICS
    return records_in(text) if classic else blocks_of(text)[6]


def packets_of(*names):
    """How many whole packets these files have in all. One that isn't there has none."""
    found = 0
    for name in names:
        if os.path.exists(name) and os.path.getsize(name):
            with open(name, "rb") as file, mmap.mmap(file.fileno(), 0, access=mmap.ACCESS_READ) as text:
                found += packets_in(text)
    return found


def counts(report):
    """Received, written, dropped and flushed of all interfaces of a report; None where it has no line of one."""
    lines = re.findall(r"^interface \d+ .*: received (\d+) written (\d+) dropped (\d+) flushed (\d+)$", report, re.M)
    return [sum(map(int, column)) for column in zip(*lines)] if lines else None


def lost_by(report):
    """Dropped and flushed by a report of this dumpcap or of Wireshark's; None where it tells neither."""
    told = counts(report)
    if told:
        return told[2], told[3]
    lines = re.findall(r"^Packets received/dropped on interface .*: \d+/(\d+) \(.*flushed:(\d+)", report, re.M)
    return tuple(sum(map(int, column)) for column in zip(*lines)) if lines else None


@contextlib.contextmanager
def work_folder():
    """A folder in memory, which is removed at the end."""
    place = "/dev/shm" if os.path.isdir("/dev/shm") else None
    folder = tempfile.mkdtemp(prefix="dumpcap-bench.", dir=place)
    try:
        yield folder
    finally:
        shutil.rmtree(folder)


def make_fifos(folder, count):
    """So many new FIFOs."""
    names = [os.path.join(folder, f"f{k}") for k in range(count)]
    for name in names:
        remove(name)
        os.mkfifo(name)
    return names


def remove(name):
    """Removes a file where it is there."""
    if os.path.lexists(name):
        os.remove(name)


def capture_words(program, fifos, out, *more):
    """The words of a capture of these FIFOs; those of Wireshark's dumpcap are the same."""
    return [program, *(word for name in fifos for word in ("-i", name)), "-w", out, *more]


def field_of(process, word):
    """A line of kB of a process's status in /proc, such as VmHWM or VmRSS, in MB; 0 where the process is gone."""
    try:
        with open(f"/proc/{process}/status") as status:
            return max((int(line.split()[1]) for line in status if line.startswith(word + ":")), default=0) / 1024
    except (OSError, ProcessLookupError):
        return 0


def ticks_of(process):
    """The processor time of all threads of a process so far, in seconds, by its stat in /proc."""
    with open(f"/proc/{process}/stat") as stat:
        words = stat.read().rpartition(")")[2].split()
    return (int(words[11]) + int(words[12])) / os.sysconf("SC_CLK_TCK")


class Watch(threading.Thread):
    """Looks at a process's most memory until told to end, and kills it at a limit of seconds."""

    def __init__(self, child, limit):
        super().__init__(daemon=True)
        self.child, self.end = child, time.monotonic() + limit
        self.memory, self.done = 0, threading.Event()

    def run(self):
        """Looks every few milliseconds."""
        while not self.done.wait(0.003):
            self.memory = max(self.memory, field_of(self.child.pid, "VmHWM"))
            if time.monotonic() > self.end:
                with contextlib.suppress(ProcessLookupError):
                    os.kill(self.child.pid, signal.SIGKILL)


def waited(child, watch):
    """Waits for the child: its exit, and its own use of the processors."""
    _, status, usage = os.wait4(child.pid, 0)
    child.returncode = os.waitstatus_to_exitcode(status)
    watch.done.set()
    return child.returncode, usage


def feed(streams, fifos):
    """A cat for each FIFO, which waits for a reader and then writes the stream at full speed."""
    words = ["sh", "-c", 'exec cat "$0" >"$1"']
    return [subprocess.Popen([*words, stream, fifo], stderr=subprocess.DEVNULL) for stream, fifo in zip(streams, fifos)]


def open_writer(fifo, seconds=10):
    """The writing end of a FIFO, once it has a reader; without one the script ends here after some seconds."""
    end = time.monotonic() + seconds
    while True:
        try:
            writer = os.open(fifo, os.O_WRONLY | os.O_NONBLOCK)
            os.set_blocking(writer, True)
            return writer
        except OSError as error:
            if error.errno != errno.ENXIO or time.monotonic() > end:
                sys.exit(f"{os.path.basename(sys.argv[0])}: {fifo} has no reader")
        time.sleep(0.001)


def stop(children):
    """Kills what is still running of these, and waits for them."""
    for child in children:
        child.kill()
        child.wait()


def measured(command, streams, fifos, folder, output=subprocess.DEVNULL, limit=600):
    """Runs the command on the FIFOs, each fed by a cat, and measures it. The output is where its standard output goes."""
    feeders = feed(streams, fifos)
    try:
        with open(os.path.join(folder, "words"), "w+b") as words:
            started = time.monotonic()
            child = subprocess.Popen(command, stdin=subprocess.DEVNULL, stdout=output, stderr=words)
            try:
                watch = Watch(child, limit)
                watch.start()
                status, usage = waited(child, watch)
                seconds = time.monotonic() - started
            finally:
                stop([child])
            words.seek(0)
            text = words.read().decode(errors="replace")
    finally:
        stop(feeders)
    return Measured(seconds, usage.ru_utime + usage.ru_stime, usage.ru_utime, usage.ru_stime, watch.memory, status, text)


def table(head, rows):
    """Prints rows of words under a head, in columns, as a table of Markdown."""
    widths = [max(len(row[k]) for row in [head, *rows]) for k in range(len(head))]
    rules = ["-" * widths[0], *("-" * (width - 1) + ":" for width in widths[1:])]
    for row in [head, rules, *rows]:
        print("|", " | ".join([row[0].ljust(widths[0]), *(word.rjust(width) for word, width in zip(row[1:], widths[1:]))]), "|")
    print(flush=True)


def spread(values, unit):
    """Least, median and most of the values."""
    return f"least {min(values):.2f}, median {statistics.median(values):.2f}, most {max(values):.2f} {unit}"


def machine():
    """The processors' model and number, by /proc/cpuinfo."""
    model, number = "unknown processor", os.cpu_count()
    with contextlib.suppress(OSError):
        with open("/proc/cpuinfo") as file:
            lines = [line.partition(":") for line in file]
        models = [value.strip() for name, _, value in lines if name.strip() == "model name"]
        model = models[0] if models else model
        number = sum(name.strip() == "processor" for name, _, _ in lines) or number
    return f"{model}, {number} processors"
