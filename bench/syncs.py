#!/usr/bin/env python3
"""Counts how often the proved program waits for the disk, and prints a table: messages, syncs, and what a message takes.

Each load is run twice: under strace, which counts the calls of fsync and fdatasync before and behind the last reply, and
without it, for the time. A client that pipelines gives all at once, and another waits for each reply.

usage: bench/syncs.py [PROGRAM ..]    several programs, as of two versions, one below the other
"""
import os
import pathlib
import re
import select
import shutil
import subprocess
import sys
import tempfile
import time

BUILT = pathlib.Path(__file__).resolve().parent.parent / "crates/transport_cli/out/transport_cli"
SYNC = re.compile(rb"\b(fsync|fdatasync)\(")
RUNS = 3
# A load's name, its messages, the recipients of each, and whether its client waits for replies.
LOADS = [
    ("no message", 0, 1, True),
    ("1 message", 1, 1, True),
    ("1 message, pipelined", 1, 1, False),
    ("1 message to 10", 1, 10, False),
    ("10 messages", 10, 1, True),
    ("10 messages, pipelined", 10, 1, False),
    ("100 messages", 100, 1, True),
    ("100 messages, pipelined", 100, 1, False),
    ("100 messages to 10, pipelined", 100, 10, False),
]


def pieces(messages, recipients):
    """What a client says, in pieces that each have one reply."""
    yield b"HELO bench\r\n"
    for n in range(messages):
        yield b"MAIL FROM:<ann@example.com>\r\n"
        yield from (b"RCPT TO:<bob%d@example.com>\r\n" % place for place in range(recipients))
        yield b"DATA\r\n"
        yield b"Message-Id: <%d@bench>\r\n\r\n%b.\r\n" % (n, b"Hello\r\n" * 100)
    yield b"QUIT\r\n"


def speak(process, said, waits):
    """Gives all at once, or each piece when the replies to those before it were read."""
    told, given = b"", 0
    ends = [sum(map(len, said[:place])) for place in range(len(said) + 1)] if waits else []
    text = b"".join(said)
    os.set_blocking(process.stdin.fileno(), False)
    while True:
        most = ends[min(told.count(b"\n"), len(said))] if waits else len(text)
        givers = [process.stdin] if given < most else []
        can_read, can_give, _ = select.select([process.stdout], givers, [])
        if can_give:
            given += os.write(process.stdin.fileno(), text[given:most])
        if can_read:
            more = os.read(process.stdout.fileno(), 65536)
            if not more:
                return told
            told += more


def run(words, said, waits):
    """The seconds of a session in a folder that has had one, and what it was told."""
    with tempfile.TemporaryDirectory() as folder:
        subprocess.run([words[-2], "session"], input=b"", stdout=subprocess.DEVNULL, cwd=folder, check=True)
        begin = time.perf_counter()
        with subprocess.Popen(words, stdin=subprocess.PIPE, stdout=subprocess.PIPE, cwd=folder, bufsize=0) as process:
            told = speak(process, said, waits)
        took = time.perf_counter() - begin
    if process.returncode != 0:
        sys.exit(f"bench: status {process.returncode}, told {told[-200:]!r}")
    return took, told


def counted(program, said, waits):
    """The syncs before the last reply, and behind it."""
    with tempfile.NamedTemporaryFile() as trace:
        run(["strace", "-f", "-e", "trace=fsync,fdatasync,write", "-o", trace.name, program, "session"], said, waits)
        before, _, behind = trace.read().partition(b"221 hub.invalid closing")
    return len(SYNC.findall(before)), len(SYNC.findall(behind))


def row(program, name, messages, recipients, waits):
    said = list(pieces(messages, recipients))
    before, behind = counted(program, said, waits)
    took, told = min(run([program, "session"], said, waits) for _ in range(RUNS))
    if told.count(b"250 Accepted ") != messages:
        sys.exit(f"bench: told {told[-200:]!r}")
    syncs = before + behind
    each = f"{syncs / messages:>8.2f}" if messages else " " * 8
    print(f"{name:<32} {before:>8} {behind:>8} {syncs:>8} {each} {took:>9.4f}", flush=True)


def main():
    programs = [str(pathlib.Path(it).resolve()) for it in sys.argv[1:] or [BUILT]]
    if not shutil.which("strace"):
        print("bench: no strace, so syncs aren't counted")
        return
    for program in programs:
        if not os.access(program, os.X_OK):
            sys.exit("bench: build the program first: ./yeqorchi session < examples/first.smtp")
        print(f"{pathlib.Path(program).name:<32} {'to 221':>8} {'behind':>8} {'syncs':>8} {'each':>8} {'seconds':>9}")
        for load in LOADS:
            row(program, *load)


main()
