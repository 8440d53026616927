#!/usr/bin/env python3
"""Tells the most memory that the program takes: for sessions that take messages, and for opening the logs that they leave.

usage: bench/memory.py [PROGRAM ..]
"""
import os
import pathlib
import subprocess
import sys
import tempfile

BUILT = pathlib.Path(__file__).resolve().parent.parent / "crates/transport_cli/out/transport_cli"
LINE = b"x" * 70 + b"\r\n"
# A load's name, its messages, the lines of each and the recipients of each.
LOADS = [
    ("no message", 0, 0, 1),
    ("33,000 of 1 KiB to 1", 33000, 14, 1),
    ("3,000 of 16 KiB to 1", 3000, 227, 1),
    ("48 of 1 MiB to 1", 48, 14400, 1),
    ("1 of 1 MiB to 1", 1, 14400, 1),
    ("1 of 1 MiB to 1,000", 1, 14400, 1000),
]


def messages(count, lines, recipients):
    yield b"EHLO bench\r\n"
    for n in range(count):
        yield b"MAIL FROM:<ann@example.com>\r\n"
        for k in range(recipients):
            yield b"RCPT TO:<bob%d@example.com>\r\n" % k
        yield b"DATA\r\nMessage-Id: <%d@bench>\r\n\r\n" % n
        for _ in range(lines):
            yield LINE
        yield b".\r\n"
    yield b"QUIT\r\n"


def peak(program, folder, text):
    """Runs a session, and gives how many messages it accepted and the most octets that it held."""
    with tempfile.TemporaryFile() as said, tempfile.TemporaryFile() as told:
        # The system counts what this process holds as the child's own, so it never holds the whole text.
        said.writelines(text)
        said.seek(0)
        child = subprocess.Popen([program, "session"], stdin=said, stdout=told, cwd=folder)
        _, status, used = os.wait4(child.pid, 0)
        child.returncode = os.waitstatus_to_exitcode(status)
        told.seek(0)
        return sum(line.startswith(b"250 Accepted") for line in told), used.ru_maxrss * 1024


def main():
    programs = [pathlib.Path(p).resolve() for p in sys.argv[1:]] or [BUILT]
    print(f"{'messages':<24} {'log, MB':>8} {'session, MB':>12} {'opening, MB':>12}")
    for program in programs:
        for name, count, lines, recipients in LOADS:
            with tempfile.TemporaryDirectory() as work:
                accepted, taking = peak(program, work, messages(count, lines, recipients))
                if accepted != count:
                    sys.exit(f"memory: {name}: not all were accepted")
                _, opening = peak(program, work, [b"QUIT\r\n"])
                size = pathlib.Path(work, "hub/queue.log").stat().st_size
                print(f"{name:<24} {size / 1e6:>8.1f} {taking / 1e6:>12.1f} {opening / 1e6:>12.1f}")


if __name__ == "__main__":
    main()
