#!/usr/bin/env python3
"""Times opening a log of about 100 MB, beside one read of its file, and appending, beside writes of the disk that are synced.

usage: bench/opening.py [PROGRAM ..]    several programs, as of two versions, are timed on the same logs, which the first makes
"""
import os
import pathlib
import shutil
import subprocess
import sys
import tempfile
import time

BUILT = pathlib.Path(__file__).resolve().parent.parent / "crates/transport_cli/out/transport_cli"
LINE = b"x" * 70 + b"\r\n"
# A load's name, its messages and the lines of each.
LOADS = [("1 KiB messages", 33000, 14), ("16 KiB messages", 3000, 227), ("1 MiB messages", 48, 14400)]
RUNS = 5
APPENDS = 500


def session(program, folder, text):
    """Runs a session in a folder, and gives its seconds and what it answered."""
    begin = time.perf_counter()
    run = subprocess.run([program, "session"], input=text, capture_output=True, cwd=folder)
    return time.perf_counter() - begin, run.stdout


def messages(count, lines):
    text = [b"EHLO bench\r\n"]
    for n in range(count):
        text.append(b"MAIL FROM:<ann@example.com>\r\nRCPT TO:<bob@example.com>\r\nDATA\r\n")
        text.append(b"Message-Id: <%d@bench>\r\n\r\n" % n + LINE * lines + b".\r\n")
    return b"".join(text) + b"QUIT\r\n"


def best(timed):
    """The least of several runs: the machine may be doing other work."""
    return min(timed() for _ in range(RUNS))


def read_once(log):
    begin = time.perf_counter()
    subprocess.run(["cat", log], stdout=subprocess.DEVNULL, check=True)
    return time.perf_counter() - begin


def openings(programs, folder):
    print(f"{'opening the log of':<28} {'octets':>10} {'seconds':>9} {'MB/s':>8} {'cat':>6}")
    for name, count, lines in LOADS:
        work = tempfile.mkdtemp(dir=folder)
        _, answers = session(programs[0], work, messages(count, lines))
        made = answers.count(b"250 Accepted")
        log = pathlib.Path(work, "hub/queue.log")
        size = log.stat().st_size
        cat = best(lambda: read_once(log))
        print(f"{f'{made} {name}, cat':<28} {size:>10} {cat:>9.3f} {size / cat / 1e6:>8.0f} {1:>6.1f}")
        for program in programs:
            seconds = best(lambda: session(program, work, b"QUIT\r\n")[0])
            print(f"{'  ' + pathlib.Path(program).name:<28} {size:>10} {seconds:>9.3f} {size / seconds / 1e6:>8.0f} {seconds / cat:>6.1f}")
        shutil.rmtree(work)


def synced(folder, count):
    """So many writes of 512 octets, each synced."""
    begin = time.perf_counter()
    subprocess.run(
        ["dd", "if=/dev/zero", f"of={folder}/copy", "bs=512", f"count={count}", "oflag=dsync", "status=none"], check=True
    )
    return time.perf_counter() - begin


def appends(programs, folder, where):
    # A message to one recipient makes three entries and one item. Each is written in two steps that are synced.
    steps = 4 * APPENDS
    print(f"\n{'an append, ' + where:<40} {'steps':>7} {'seconds':>9} {'us each':>9}")
    seconds = synced(folder, 2 * steps)
    print(f"{'dd, two synced writes':<40} {steps:>7} {seconds:>9.3f} {seconds / steps * 1e6:>9.1f}")
    for program in programs:
        work = tempfile.mkdtemp(dir=folder)
        seconds, answers = session(program, work, messages(APPENDS, 14))
        made = 4 * answers.count(b"250 Accepted")
        print(f"{pathlib.Path(program).name:<40} {made:>7} {seconds:>9.3f} {seconds / made * 1e6:>9.1f}")
        shutil.rmtree(work)


def main():
    programs = [str(pathlib.Path(it).resolve()) for it in sys.argv[1:] or [BUILT]]
    for program in programs:
        if not os.access(program, os.X_OK):
            sys.exit("bench: build the program first: ./yeqorchi session < examples/first.smtp")
    memory = "/dev/shm" if os.path.isdir("/dev/shm") else None
    with tempfile.TemporaryDirectory(dir=memory) as folder:
        openings(programs, folder)
        if memory:
            appends(programs, folder, "where syncs cost nothing")
    with tempfile.TemporaryDirectory() as folder:
        appends(programs, folder, "on the disk")


main()
