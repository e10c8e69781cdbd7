#!/usr/bin/env python3
"""idle.py: what a capture costs while its sources are quiet, and how soon a packet that comes then stands in the file.

FIFOs are held open by writers that have sent a file header and nothing else. It prints the capture's processor time over some seconds,
as a share of one processor, by its stat in /proc, whose clock has steps of 10 ms; then, for single packets on the FIFOs in turn, each
behind a silence, the least, median and most milliseconds from the write into the FIFO until the block stands in the output, whose size
is looked at every 0.2 ms. At the end SIGINT is sent where the program handles it, and else the FIFOs are closed; the exit has to be 0,
and all packets have to be in the file. It is run by hand."""
import os
import signal
import subprocess
import sys
import time

sys.dont_write_bytecode = True
import base

BODY = base.body_of(64)
BLOCK = len(base.packet_block(0, BODY, len(BODY)))


def begin(program, fifos, out, report):
    """The capture, with SIGINT's default action."""
    words = base.capture_words(program, fifos, out)
    return subprocess.Popen(words, stderr=report, preexec_fn=lambda: signal.signal(signal.SIGINT, signal.SIG_DFL))


def open_writers(fifos):
    """A writer of each FIFO, which has sent a file header."""
    writers = [base.open_writer(fifo) for fifo in fifos]
    for writer in writers:
        os.write(writer, base.classic_head())
    return writers


def idle_share(child, seconds):
    """The capture's processor time over the seconds, and the seconds that went by."""
    before, started = base.ticks_of(child.pid), time.monotonic()
    time.sleep(seconds)
    return base.ticks_of(child.pid) - before, time.monotonic() - started


def until_written(writer, number, out, limit=30):
    """Milliseconds from the write of a packet until the output has grown by its block; None where it doesn't."""
    wanted = os.stat(out).st_size + BLOCK
    started = time.monotonic()
    os.write(writer, base.classic_packet(number, 0, BODY))
    while os.stat(out).st_size < wanted:
        if time.monotonic() - started > limit:
            return None
        time.sleep(0.0002)
    return (time.monotonic() - started) * 1000


def single_packets(options, writers, out):
    """Sends the single packets and prints how soon they were written; says whether all were."""
    times = []
    for number in range(options.packets):
        time.sleep(options.silence)
        times.append(until_written(writers[number % len(writers)], number, out))
    late = times.count(None)
    times = [value for value in times if value is not None]
    if times:
        print(f"{len(times)} packets, each behind {options.silence:g} s of silence, are in the file after: "
              f"{base.spread(times, 'ms')}", flush=True)
    if late:
        print(f"FAILED: {late} packets weren't in the file after 30 s")
    return not late


def handles_interrupt(child):
    """Whether the process catches SIGINT, by its status in /proc."""
    with open(f"/proc/{child.pid}/status") as status:
        caught = next(int(line.split()[1], 16) for line in status if line.startswith("SigCgt:"))
    return bool(caught >> (signal.SIGINT - 1) & 1)


def end(child, writers):
    """Ends the capture: the exit, and by what."""
    caught = handles_interrupt(child)
    if caught:
        child.send_signal(signal.SIGINT)
        try:
            child.wait(10)
        except subprocess.TimeoutExpired:
            print("FAILED: it runs on 10 seconds behind SIGINT")
    for writer in writers:
        os.close(writer)
    return child.wait(30), "by SIGINT" if caught else "by closing the FIFOs, since this program doesn't handle SIGINT"


def judge(child, writers, sent, out, report):
    """Ends the capture, and says whether exit and packets are those wanted."""
    status, how = end(child, writers)
    report.seek(0)
    told, found = base.counts(report.read().decode()), base.packets_of(out)
    fine = status == 0 and found == sent and told is not None and told[:2] == [sent, sent]
    print(f"{'ok' if fine else 'FAILED'}: ended {how}: exit {status}, {found} of {sent} packets in the file; "
          f"received, written, dropped and flushed {told}")
    return fine


def measure(options, folder):
    """Runs the capture and prints what was measured; says whether all is well."""
    fifos, out = base.make_fifos(folder, options.fifos), os.path.join(folder, "out")
    with open(os.path.join(folder, "report"), "w+b") as report:
        child = begin(options.program, fifos, out, report)
        try:
            writers = open_writers(fifos)
            time.sleep(1)
            spent, seconds = idle_share(child, options.seconds)
            print(f"{options.fifos} quiet FIFOs: {spent:.2f} s of processor time in {seconds:.1f} s, "
                  f"{100 * spent / seconds:.2f} % of one processor", flush=True)
            soon = single_packets(options, writers, out)
            return judge(child, writers, options.packets, out, report) and soon
        finally:
            base.stop([child])


def main():
    """Reads the words and measures."""
    parser = base.parser_of(__doc__)
    parser.add_argument("--fifos", type=int, default=8, help="quiet FIFOs (8)")
    parser.add_argument("--seconds", type=float, default=10, help="how long the quiet capture is watched (10)")
    parser.add_argument("--packets", type=int, default=20, help="single packets (20)")
    parser.add_argument("--silence", type=float, default=1, help="seconds before each packet (1)")
    options = base.options_of(parser)
    print(base.machine())
    with base.work_folder() as folder:
        sys.exit(not measure(options, folder))


main()
