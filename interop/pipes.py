#!/usr/bin/env python3
"""pipes.py [--late SECONDS]: captures on real pipes and processes.

Ctrl-C of a pipeline at a terminal, through the start script, through a shell that ignores SIGINT, and of the bare program; producers
that are killed inside a packet and between two; a FIFO whose writer comes SECONDS late (10) beside one that gives packets at once; and
64 FIFOs of which 60 end at once and 4 go on. Each finished file has the numbered packets of its producers, each once and in order, and
is opened by `dumpcap check`, and by capinfos and tshark where they are installed. DUMPCAP names another program than the built one. It
is run by hand."""
import argparse
import os
import pty
import re
import shlex
import shutil
import signal
import struct
import subprocess
import sys
import tempfile
import time

top = os.path.dirname(os.path.dirname(os.path.abspath(__file__)))
program = os.path.abspath(os.environ.get("DUMPCAP", os.path.join(top, "crates", "dumpcap", "out", "dumpcap")))
results = {"ok": 0, "FAILED": 0, "skipped": 0}
children = []
HEAD = struct.pack("<IHHIIII", 0xA1B2C3D4, 2, 4, 0, 0, 262144, 1)

# Writes packets, numbered by their times, until a SIGINT comes, and then how many were written whole into the file of its argument.
STEADY = """
import os, signal, struct, sys, time
ended = []
signal.signal(signal.SIGINT, lambda *_: ended.append(1))
os.write(1, struct.pack("<IHHIIII", 0xA1B2C3D4, 2, 4, 0, 0, 262144, 1))
count = 0
try:
    while not ended:
        os.write(1, struct.pack("<IIII", 0, count, 64, 64))
        os.write(1, bytes(64))
        count += 1
        time.sleep(0.0005)
except BrokenPipeError:
    pass
open(sys.argv[1], "w").write(str(count))
"""


def say(how, name, words=""):
    results[how] += 1
    print(f"{how}: {name}{': ' if words else ''}{words}", flush=True)


def verdict(name, faults, words):
    say("FAILED" if faults else "ok", name, "; ".join([*faults, words]))


def record(number):
    """A packet record of classic pcap whose time is its number."""
    return struct.pack("<IIII", 0, number, 64, 64) + bytes(64)


def block(kind, body):
    length = struct.pack("<I", 12 + len(body))
    return struct.pack("<I", kind) + length + body + length


def packets_of(path):
    """The numbers of the whole packet blocks of each interface of a pcapng file."""
    with open(path, "rb") as file:
        text = file.read()
    at, found = 0, {}
    while len(text) - at >= 12:
        kind, total = struct.unpack_from("<II", text, at)
        if total < 12 or total > len(text) - at:
            break
        if kind == 6:
            interface, _, low = struct.unpack_from("<III", text, at + 8)
            found.setdefault(interface, []).append(low)
        at += total
    return found


def tool(words):
    done = subprocess.run(words, stdout=subprocess.PIPE, stderr=subprocess.STDOUT, timeout=60, text=True, errors="replace")
    return done.returncode, done.stdout


def opened(path, count):
    """What is wrong with a finished file that has to have so many packets, by the tools and by check."""
    faults = []
    status, said = tool([program, "check", path])
    if status != 0 or f"packets {count}\n" not in said:
        faults.append(f"check: exit {status}, {said.strip()!r}")
    if shutil.which("capinfos"):
        status, said = tool(["capinfos", "-Mc", path])
        if status != 0 or not re.search(rf"^Number of packets: *{count}$", said, re.M):
            faults.append(f"capinfos: exit {status}, {said.strip()!r}")
    if shutil.which("tshark"):
        status, said = tool(["tshark", "-n", "-r", path, "-T", "fields", "-e", "frame.number"])
        if status != 0 or sum(line.isdigit() for line in said.splitlines()) != count:
            faults.append(f"tshark: exit {status}, {said.strip()[-200:]!r}")
    return faults


def told(report, name, count):
    """Whether the report says that so many packets of the source were received, and all of them written."""
    line = rf"^interface \d+ {re.escape(name)}: received {count} written {count} dropped 0 flushed 0$"
    return [] if re.search(line, report, re.M) else [f"no line of {count} packets of {name} in {report!r}"]


def text_of(path):
    with open(path) as file:
        return file.read()


def at_terminal(command, seconds):
    """Runs a command of a shell at a terminal of its own, and types Ctrl-C after so long. It has a minute to end then."""
    child, terminal = pty.fork()
    if child == 0:
        signal.signal(signal.SIGINT, signal.SIG_DFL)
        os.execvp("bash", ["bash", "-c", command])
    time.sleep(seconds)
    os.write(terminal, b"\x03")
    until = time.monotonic() + 60
    while os.waitpid(child, os.WNOHANG)[0] == 0 and time.monotonic() < until:
        time.sleep(0.01)
    os.close(terminal)  # which hangs up what still runs


def start_script(work):
    """A tree with the start script and the program, where nothing is to be built."""
    tree = os.path.join(work, "tree")
    os.makedirs(os.path.join(tree, "crates", "dumpcap", "out"))
    shutil.copy(os.path.join(top, "dumpcap"), tree)
    shutil.copy(program, os.path.join(tree, "crates", "dumpcap", "out", "dumpcap"))
    return os.path.join(tree, "dumpcap")


def pipeline(work, name, consumer):
    """The exits of producer and consumer, how many packets were written, the output, and the report."""
    at = {what: os.path.join(work, f"{name}.{what}") for what in ("count", "exits", "out", "report", "producer")}
    with open(at["producer"], "w") as file:
        file.write(STEADY)
    quoted = {what: shlex.quote(path) for what, path in at.items()}
    producer = f"{shlex.quote(sys.executable)} {quoted['producer']} {quoted['count']}"
    capture = consumer.format(words=f"-i - -w {quoted['out']} 2>{quoted['report']}")
    at_terminal(f"trap : INT; {producer} | {capture}; echo \"${{PIPESTATUS[*]}}\" >{quoted['exits']}", 1.5)
    return text_of(at["exits"]).split(), int(text_of(at["count"])), at["out"], text_of(at["report"])


def interrupted(work):
    bare = shlex.quote(program)
    kept = {"start script": shlex.quote(start_script(work)) + " {words}", "shell that ignores SIGINT": f"(trap '' INT; exec {bare} {{words}})"}
    for name, consumer in kept.items():
        exits, count, out, report = pipeline(work, name.split()[0], consumer)
        faults = [] if exits == ["0", "0"] and count else [f"exits {exits}, wanted 0 and 0"]
        faults += [] if packets_of(out) == {0: list(range(count))} else ["not the packets that the producer wrote"]
        faults += told(report, "-", count) + opened(out, count)
        faults += ["a line of a source that ended early"] if "\nsource " in "\n" + report else []
        verdict(f"Ctrl-C, {name}", faults, f"{count} packets written whole by the producer")
    exits, count, out, report = pipeline(work, "bare", bare + " {words}")
    status, said = tool([program, "check", out])
    faults = [] if exits[1:] == ["130"] and not report else [f"exits {exits}, report {report!r}, wanted the end by SIGINT"]
    faults += [] if status == 7 else ["check finds a whole file"]
    verdict("Ctrl-C, bare program", faults, f"ended by SIGINT; check: {said.strip()}")


def killed(work, name, text, whole, status, how):
    """A producer that writes a text and is killed: so many packets, this exit, and the source's ending in the report."""
    out = os.path.join(work, "killed.pcapng")
    child = subprocess.Popen([program, "-i", "-", "-w", out], stdin=subprocess.PIPE, stderr=subprocess.PIPE)
    children.append(child)
    writer = "import os, sys, time; os.write(1, bytes.fromhex(sys.stdin.read())); os.close(2); time.sleep(600)"
    producer = subprocess.Popen([sys.executable, "-c", writer], stdin=subprocess.PIPE, stdout=child.stdin, stderr=subprocess.PIPE)
    child.stdin.close()
    child.stdin = None
    producer.stdin.write(text.hex().encode())
    producer.stdin.close()
    producer.stderr.read()  # ends once all is in the pipe
    time.sleep(0.3)
    producer.send_signal(signal.SIGKILL)
    producer.wait()
    report = child.communicate(timeout=60)[1].decode()
    ending = re.findall(r"^source -: (.*)$", report, re.M)
    faults = [] if producer.returncode == -signal.SIGKILL else ["the producer wasn't killed"]
    faults += [] if child.returncode == status else [f"exit {child.returncode}, wanted {status}"]
    faults += [] if ending == how else [f"the source's ending is {ending}, wanted {how}"]
    faults += [] if packets_of(out).get(0, []) == list(range(whole)) else ["not the whole packets"]
    faults += (told(report, "-", whole) if len(text) > 24 else []) + opened(out, whole)
    verdict(f"producer killed {name}", faults, f"exit {child.returncode}, {whole} packets, {', '.join(ending) or 'no line of the source'}")


def all_killed(work):
    packets = HEAD + b"".join(map(record, range(100)))
    blocks = block(0x0A0D0D0A, struct.pack("<IHHq", 0x1A2B3C4D, 1, 0, -1)) + block(1, struct.pack("<HHI", 1, 0, 262144))
    blocks += b"".join(block(6, struct.pack("<IIIII", 0, 0, k, 64, 64) + bytes(64)) for k in range(100))
    killed(work, "inside a packet", packets + record(100)[:50], 100, 2, [f"cut at {len(packets)}"])
    killed(work, "inside a record header", packets + record(100)[:7], 100, 2, [f"cut at {len(packets)}"])
    killed(work, "inside a pcapng block", blocks + block(6, bytes(84))[:50], 100, 2, [f"cut at {len(blocks)}"])
    killed(work, "inside the file header", HEAD[:11], 0, 2, ["cut at 0"])
    killed(work, "between two packets", packets, 100, 0, [])


def fifos(work, name, count):
    paths = [os.path.join(work, f"{name}{k}") for k in range(count)]
    for path in paths:
        os.mkfifo(path)
    return paths


def capture(paths, out):
    words = [word for path in paths for word in ("-i", path)]
    children.append(subprocess.Popen([program, *words, "-w", out], stderr=subprocess.PIPE, text=True))
    return children[-1]


def writer_of(path):
    """Opens a FIFO for writing once it has a reader, for which ten seconds are given."""
    until = time.monotonic() + 10
    while True:
        try:
            end = os.open(path, os.O_WRONLY | os.O_NONBLOCK)
            os.set_blocking(end, True)
            return open(end, "wb", buffering=0)
        except OSError:
            if time.monotonic() > until:
                raise
            time.sleep(0.01)


def finished(child, paths, out, counts):
    """Ends a capture: its exit, its report, and each source's packets in the file. Interfaces are numbered as they come."""
    report = child.communicate(timeout=60)[1]
    faults = [] if child.returncode == 0 else [f"exit {child.returncode}: {report!r}"]
    found = packets_of(out)
    for path, count in zip(paths, counts):
        faults += told(report, path, count)
        number = re.search(rf"^interface (\d+) {re.escape(path)}:", report, re.M)
        if number and found.get(int(number.group(1)), []) != list(range(count)):
            faults.append(f"not the packets of {path}")
    return faults + opened(out, sum(counts))


def late(work, seconds):
    paths, out = fifos(work, "late", 2), os.path.join(work, "late.pcapng")
    child = capture(paths, out)
    prompt = writer_of(paths[1])
    began = time.monotonic()
    prompt.write(HEAD + b"".join(map(record, range(100))))
    while time.monotonic() - began < 2 and not (os.path.exists(out) and packets_of(out) == {0: list(range(100))}):
        time.sleep(0.01)
    took = time.monotonic() - began
    faults = [] if took < 2 else ["the prompt packets aren't in the file after two seconds"]
    time.sleep(max(0, seconds - took))
    with writer_of(paths[0]) as slow:
        slow.write(HEAD + b"".join(map(record, range(70))))
    with prompt:
        prompt.write(b"".join(map(record, range(100, 130))))
    verdict(f"a writer {seconds} s late", faults + finished(child, paths, out, [70, 130]), f"the prompt packets were in the file after {took:.2f} s")


def used(child):
    """The processor time of all threads of a process, in seconds."""
    with open(f"/proc/{child.pid}/stat") as file:
        fields = file.read().rsplit(")", 1)[1].split()
    return (int(fields[11]) + int(fields[12])) / os.sysconf("SC_CLK_TCK")


def most_end(work, seconds=4):
    """60 of 64 sources end at once, and 4 give a packet each 20 ms. A tenth of a processor is allowed for these."""
    paths, out = fifos(work, "many", 64), os.path.join(work, "many.pcapng")
    child = capture(paths, out)
    for path in paths[4:]:
        with writer_of(path) as short:
            short.write(HEAD + b"".join(map(record, range(20))))
    going = [writer_of(path) for path in paths[:4]]
    for writer in going:
        writer.write(HEAD)
    time.sleep(0.5)
    began, before, count = time.monotonic(), used(child), 0
    while time.monotonic() - began < seconds:
        for writer in going:
            writer.write(record(count))
        count += 1
        time.sleep(0.02)
    spent, passed = used(child) - before, time.monotonic() - began
    for writer in going:
        writer.close()
    faults = [] if spent < passed / 10 else ["too much processor time"]
    faults += finished(child, paths, out, [count] * 4 + [20] * 60)
    verdict("60 of 64 sources end at once", faults, f"{spent:.2f} s of processor time in the {passed:.1f} s with 4 sources and {4 * count} packets")


def attempt(part, work):
    """One part. A call of it that fails, as where the program ended before its sources, is a failure of the part."""
    try:
        part(work)
    except (OSError, ValueError, subprocess.TimeoutExpired) as error:
        say("FAILED", "a part that couldn't go on", error)


def main():
    words = argparse.ArgumentParser(description=__doc__.splitlines()[0])
    words.add_argument("--late", type=float, default=10, metavar="SECONDS")
    seconds = words.parse_args().late
    if not os.path.exists(program):
        sys.exit("pipes.py: the program isn't built; run ./dumpcap once")
    for name in ("capinfos", "tshark"):
        if not shutil.which(name):
            say("skipped", name, "not installed, so the files are not opened with it")
    work = tempfile.mkdtemp(prefix="dumpcap-pipes.")
    try:
        for part in (interrupted, all_killed, lambda work: late(work, seconds), most_end):
            attempt(part, work)
    finally:
        for child in children:
            child.kill()
        shutil.rmtree(work)
    print(", ".join(f"{count} {how}" for how, count in results.items()))
    sys.exit(results["FAILED"] > 0)


main()
