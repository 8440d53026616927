#!/usr/bin/env python3
"""Times messages to organisations of many objects: to one mailbox, and to a group of moderated members whose senders a
bypass group lets through.

The organisation is written into a log of its own, as the entry that the hub writes. Each time is the least of several
sessions with many messages, less that of the same session with none, for each message.
"""
import os
import pathlib
import struct
import subprocess
import sys
import tempfile
import time

PROGRAM = pathlib.Path(__file__).resolve().parent.parent / "crates/transport_cli/out/transport_cli"
HEADER = b"key,kind,members,owners,moderated,moderators,bypass,tell\r\nexample.com,domain,,,no,,,always\r\n"
OBJECTS = 20_000
MEMBERS = 1000
RUNS = 3


def record(payload):
    return b"\1" + struct.pack("<Q", len(payload)) + payload


def log_of(directory):
    """A log with one entry, by which this organisation comes into force. It has no rules."""
    texts = b"".join(struct.pack("<Q", len(text)) + text for text in (directory, b""))
    return b"MAILHUB1" + record(b"\1" + texts) + b"\0"


def messages(recipient, count):
    text = [b"HELO bench\r\n"]
    for n in range(count):
        text.append(b"MAIL FROM:<m0@example.com>\r\nRCPT TO:<" + recipient + b">\r\nDATA\r\n")
        text.append(b"Message-Id: <%d@bench>\r\n\r\nHello\r\n.\r\n" % n)
    return b"".join(text) + b"QUIT\r\n"


def session(folder, directory, recipient, count):
    """The least seconds of sessions that begin with this organisation."""
    took = []
    for _ in range(RUNS):
        with tempfile.TemporaryDirectory(dir=folder) as work:
            os.mkdir(f"{work}/hub")
            pathlib.Path(work, "hub/queue.log").write_bytes(log_of(directory))
            begin = time.perf_counter()
            run = subprocess.run([PROGRAM, "session"], input=messages(recipient, count), capture_output=True, cwd=work)
            took.append(time.perf_counter() - begin)
            accepted = run.stdout.count(b"250 Accepted")
            if accepted != count or run.returncode != 0:
                sys.exit(f"bench: status {run.returncode}, accepted {accepted} of {count}: {run.stdout[-200:]!r}")
    return min(took)


def each(folder, name, directory, recipient, count):
    took = max(session(folder, directory, recipient, count) - session(folder, directory, recipient, 0), 0)
    print(f"{name:<44} {count:>8} {took / count * 1e3:>9.2f}")


def key(n):
    return b"m%d@example.com" % n


def mailboxes(count, rest):
    return HEADER + b"".join(key(n) + b",mailbox,,," + rest + b"\r\n" for n in range(count))


def to_one(folder):
    for count in (1, OBJECTS):
        each(folder, f"one mailbox of {count}", mailboxes(count, b"no,,,always"), b"m0@example.com", 500)
    guarded = mailboxes(OBJECTS - 2, b"yes,mia@example.com,,always") + b"mia@example.com,mailbox,,,no,,,always\r\n"
    open_one = b"open@example.com,mailbox,,,no,,,always\r\n"
    each(folder, f"one mailbox, {OBJECTS - 2} moderated beside it", guarded + open_one, b"open@example.com", 500)


def crowd(moderated, bypass):
    """A group of members, and a bypass group of all others. The sender is the last of a group in it."""
    others = range(MEMBERS + 1, OBJECTS - 4)
    rows = [HEADER, key(0), b",mailbox,,,no,,,always\r\n", b"mia@example.com,mailbox,,,no,,,always\r\n"]
    for n in range(1, MEMBERS + 1):
        rows.append(key(n) + b",mailbox,,," + (b"yes,mia@example.com," + bypass if moderated else b"no,,") + b",always\r\n")
    rows += [key(n) + b",mailbox,,,no,,,always\r\n" for n in others]
    rows.append(b"all@example.com,group," + b" ".join(key(n) for n in range(1, MEMBERS + 1)) + b",,no,,,always\r\n")
    rows.append(b"office@example.com,group," + b" ".join(key(n) for n in others) + b" last@example.com,,no,,,always\r\n")
    rows.append(b"last@example.com,group,m0@example.com,,no,,,always\r\n")
    return b"".join(rows)


def to_many(folder):
    for name, moderated, bypass in (
        ("nothing moderated", False, b""),
        ("all moderated, the sender bypasses", True, b"m0@example.com"),
        ("all moderated, one bypass group", True, b"office@example.com"),
    ):
        each(folder, f"a group of {MEMBERS}, {name}", crowd(moderated, bypass), b"all@example.com", 5)


def main():
    if not os.access(PROGRAM, os.X_OK):
        sys.exit("bench: build the program first: ./yeqorchi session < examples/first.smtp")
    memory = "/dev/shm" if os.path.isdir("/dev/shm") else None
    with tempfile.TemporaryDirectory(dir=memory) as folder:
        print(f"{'messages to':<44} {'messages':>8} {'ms each':>9}")
        to_one(folder)
        to_many(folder)


main()
