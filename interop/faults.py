#!/usr/bin/env python3
"""faults.py: what a capture says where the outside fails, against what stands in its files.

Full disks at several fill levels (one file, and a ring), a full device, a folder that is removed under a ring, a closed standard error,
an output pipe whose reader goes away, and memory that is limited in steps. In each report received is written, dropped and flushed
together, and written is the number of whole packet blocks of the files. It is run by hand; the full disks want root, and are else
skipped."""
import os
import re
import resource
import shutil
import subprocess
import sys
import tempfile
import threading
import time

sys.dont_write_bytecode = True
sys.path.insert(0, os.path.join(os.path.dirname(os.path.dirname(os.path.abspath(__file__))), "bench"))
import base

results = {"ok": 0, "FAILED": 0, "skipped": 0}


def say(how, name, words=""):
    results[how] += 1
    print(f"{how}: {name}{': ' if words else ''}{words}", flush=True)


def stream(packets, length=64):
    """A classic pcap stream of so many packets."""
    body = base.body_of(length)
    return base.classic_head() + b"".join(base.classic_packet(k, 0, body) for k in range(packets))


def run(words, source, **more):
    more.setdefault("stdout", subprocess.DEVNULL)
    done = subprocess.run([program, "-i", "-", *words], input=source, stderr=subprocess.PIPE, timeout=120, **more)
    return done.returncode, done.stderr.decode()


def judge(name, status, wanted, report, files):
    """files: how many whole packet blocks the files have; None where nobody can count them."""
    told = base.counts(report)
    if status not in wanted:
        return say("FAILED", name, f"exit {status}, wanted {wanted}: {report!r}")
    if told is None:
        return say("FAILED" if report else "ok", name, f"exit {status}, no report")
    received, written, dropped, flushed = told
    fits = received == written + dropped + flushed and files in (None, written)
    failed = "output: write failed" in report
    say("ok" if fits and failed == (status == 3) else "FAILED", name,
        f"exit {status}, received {received}, written {written}, dropped {dropped}, flushed {flushed}; in the files {files}")


def full_disks(work, source):
    if os.geteuid() != 0:
        return say("skipped", "full disks", "a file system in memory wants root")
    disk = os.path.join(work, "disk")
    os.mkdir(disk)
    for size in (4, 64, 68, 200, 512, 1024, 1800):
        for name, words in (("one file", []), ("ring", ["-b", "filesize:50"]), ("ring with messages", ["-b", "filesize:50", "--sync"])):
            if subprocess.run(["mount", "-t", "tmpfs", "-o", f"size={size}k", "tmpfs", disk]).returncode:
                return say("skipped", "full disks", "mount failed")
            try:
                status, report = run(["-w", os.path.join(disk, "o"), *words], source)
                files = base.packets_of(*(os.path.join(disk, file) for file in os.listdir(disk)))
                if "--sync" in words:
                    says = "output failed" in report
                    say("ok" if status == 3 and says else "FAILED", f"disk of {size} KiB, {name}", f"exit {status}; in the files {files}")
                else:
                    judge(f"disk of {size} KiB, {name}", status, [3], report, files)
            finally:
                subprocess.run(["umount", disk])


def removed_folder(work):
    """The folder goes between two files of a ring."""
    folder = os.path.join(work, "gone")
    os.mkdir(folder)
    source = stream(1000)
    child = subprocess.Popen([program, "-i", "-", "-w", os.path.join(folder, "o"), "-b", "packets:100"], stdin=subprocess.PIPE, stderr=subprocess.PIPE)
    child.stdin.write(source[: 24 + 80 * 250])
    child.stdin.flush()
    time.sleep(0.5)
    shutil.rmtree(folder)
    _, report = child.communicate(source[24 + 80 * 250:], timeout=60)
    report = report.decode()
    made = re.search(r"^files (\d+)$", report, re.M)
    judge("folder removed under a ring", child.returncode, [3], report, 100 * int(made.group(1)) if made else None)


def gone_reader():
    source = stream(200_000)
    read, write = os.pipe()
    child = subprocess.Popen([program, "-i", "-", "-w", "-"], stdin=subprocess.PIPE, stdout=write, stderr=subprocess.PIPE)
    os.close(write)
    def feed():
        try:
            child.stdin.write(source)
            child.stdin.close()
        except OSError:
            pass

    feeder = threading.Thread(target=feed)
    feeder.start()
    os.read(read, 1000)
    os.close(read)
    report = child.stderr.read().decode()
    child.wait(60)
    feeder.join()
    judge("reader of the output goes away", child.returncode, [3], report, None)


def little_memory(work, source):
    exits = {}
    for megabytes in list(range(4, 40, 2)) + [64, 128, 256]:
        out = os.path.join(work, "limited")
        if os.path.exists(out):
            os.remove(out)
        limit = megabytes << 20
        try:
            status, report = run(["-w", out], source, preexec_fn=lambda: resource.setrlimit(resource.RLIMIT_AS, (limit, limit)))
        except subprocess.TimeoutExpired:
            say("FAILED", f"{megabytes} MB of memory", "no end")
            continue
        told = base.counts(report)
        files = base.packets_of(out)
        fits = status in (0, 5) or status > 5 and not report and files == 0 or status < 0 and files == 0
        if told is not None:
            fits = fits and told[0] == sum(told[1:]) and told[1] == files
        exits[megabytes] = status
        if not fits:
            say("FAILED", f"{megabytes} MB of memory", f"exit {status}, told {told}, in the file {files}: {report!r}")
    say("ok", "limited memory", "exits by MB: " + ", ".join(f"{m}: {s}" for m, s in exits.items()))


def main():
    global program
    program = base.options_of(base.parser_of(__doc__)).program
    work = tempfile.mkdtemp(prefix="dumpcap-faults.")
    source = stream(20_000)
    try:
        full_disks(work, source)
        status, report = run(["-w", "/dev/full"], source)
        judge("full device", status, [3], report, 0)
        removed_folder(work)
        gone_reader()
        closed = subprocess.run(["sh", "-c", f'exec "{program}" -i - -w "{work}/closed" 2>&-'], input=source)
        files = base.packets_of(os.path.join(work, "closed"))
        say("ok" if closed.returncode == 4 and files == 20_000 else "FAILED", "standard error closed", f"exit {closed.returncode}; in the file {files}")
        little_memory(work, source)
    finally:
        shutil.rmtree(work)
    print(", ".join(f"{count} {how}" for how, count in results.items()))
    sys.exit(results["FAILED"] > 0)


main()
