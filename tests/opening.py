#!/usr/bin/env python3
"""Runs the proved program again and again on one folder.

What an earlier run accepted is known to a later one, and a file that is no log of the hub's is told by status 6 and
left as it was: a good log is cut at each place, and changed at each octet. Two programs in one folder run one after the
other.
"""
import pathlib
import select
import subprocess
import sys
import tempfile

ROOT = pathlib.Path(__file__).resolve().parent.parent
PROGRAM = ROOT / "crates/transport_cli/out/transport_cli"
GREETING = b"220 hub.invalid mail hub ready\r\n"
NOT_A_LOG = 6


def message(name, to):
    """What a client says, and what it is told but for the last reply."""
    content = b"Message-Id: <%s@example.com>\r\n\r\nHello\r\n" % name
    recipients = b"".join(b"RCPT TO:<%s@example.com>\r\n" % key for key in to)
    sent = b"MAIL FROM:<ann@example.com>\r\n" + recipients + b"DATA\r\n" + content + b".\r\n"
    return sent, b"250 OK\r\n" * (1 + len(to)) + b"354 End data with a dot line\r\n"


class Folder:
    """A folder in which the program runs, and the log and the shelf that it keeps there."""

    def __init__(self, path):
        self.path = pathlib.Path(path)
        self.log = self.path / "hub/queue.log"

    def run(self, sent=b""):
        return subprocess.run([PROGRAM, "session"], input=sent, capture_output=True, cwd=self.path, timeout=60)

    def items(self):
        shelf = self.path / "hub/shelf"
        return sorted(str(item.relative_to(shelf)) for item in shelf.glob("*/*"))


def later_runs(folder):
    """Numbers go on from run to run, and a message that is sent again is told its first number."""
    told = []
    for name, to in ((b"m1", [b"bob"]), (b"m1", [b"bob"]), (b"m2", [b"bob", b"cyn"]), (b"m1", [b"cyn"]), (b"m2", [b"bob", b"cyn"])):
        sent, replies = message(name, to)
        run = folder.run(b"HELO c\r\n" + sent)
        begin = GREETING + b"250 hub.invalid\r\n" + replies
        told.append(run.stdout[len(begin):] if run.stdout.startswith(begin) and run.returncode == 0 else run)
    wanted = [b"250 Accepted %d\r\n" % number for number in (1, 1, 2, 3, 2)]
    items = [f"{key}@example.com/{name}.eml" for key, name in (("bob", "1-0-0"), ("bob", "2-0-0"), ("cyn", "2-0-1"), ("cyn", "3-0-0"))]
    return [f"later runs: told {told}"] * (told != wanted) + [f"later runs: {folder.items()}"] * (folder.items() != items)


def one_at_a_time(folder, log):
    """A program waits until the one before it in its folder has ended, and then goes on with what that one left."""
    def start():
        return subprocess.Popen([PROGRAM, "session"], stdin=subprocess.PIPE, stdout=subprocess.PIPE, cwd=folder.path)

    folder.log.write_bytes(log)
    first = start()
    greeting = first.stdout.readline()
    second = start()
    sent, replies = message(b"m4", [b"cyn"])
    second.stdin.write(b"HELO c\r\n" + sent)
    second.stdin.flush()
    if greeting != GREETING or select.select([second.stdout], [], [], 1)[0]:
        yield "one at a time: the second program didn't wait"
    sent_before, told_before = message(b"m3", [b"bob"])
    for program, sent, replies, number in ((first, sent_before, told_before, 4), (second, b"", replies, 5)):
        told, _ = program.communicate((b"HELO c\r\n" + sent) if sent else b"", timeout=60)
        wanted = b"250 hub.invalid\r\n" + replies + b"250 Accepted %d\r\n" % number
        if not told.endswith(wanted) or program.returncode != 0:
            yield f"one at a time: told {told!r}, status {program.returncode}"


def behind_the_gate(folder, log):
    """What lies behind the closed gate is ignored."""
    sent, replies = message(b"m2", [b"bob", b"cyn"])
    folder.log.write_bytes(log + b"\x01garbage" * 9)
    run = folder.run(b"HELO c\r\n" + sent)
    if run.stdout != GREETING + b"250 hub.invalid\r\n" + replies + b"250 Accepted 2\r\n":
        yield f"behind the gate: {run}"


def opened(folder, log, name):
    """A file is read as a log, or refused and left as it was."""
    folder.log.write_bytes(log)
    run = folder.run()
    if run.returncode == NOT_A_LOG:
        if run.stdout != b"" or folder.log.read_bytes() != log:
            yield f"{name}: status 6, but told {run.stdout!r} or changed the file"
    elif run.returncode != 0 or run.stdout != GREETING:
        yield f"{name}: {run}"


def cut(folder, log):
    """A log that is cut short has lost its closed gate. Of at most nine octets it is a new log."""
    for size in range(len(log)):
        yield from opened(folder, log[:size], f"cut to {size}")
        folder.log.write_bytes(log[:size])
        if (folder.run().returncode == 0) != (size <= 9):
            yield f"cut to {size}: another status"


def changed(folder, log):
    """A log with one octet changed."""
    for at in range(len(log)):
        for octet in {log[at] ^ 1, log[at] ^ 0x80, 0, 1, 255} - {log[at]}:
            yield from opened(folder, log[:at] + bytes([octet]) + log[at + 1:], f"octet {at} as {octet}")


def main():
    if not PROGRAM.exists():
        sys.exit(f"opening: {PROGRAM.relative_to(ROOT)} isn't built")
    with tempfile.TemporaryDirectory() as path:
        folder = Folder(path)
        failures = later_runs(folder)
        log = folder.log.read_bytes()
        for check in (behind_the_gate, one_at_a_time, cut, changed):
            failures += check(folder, log)
    for failure in failures:
        print(f"opening: {failure}")
    print(f"opening: {'all as wanted' if not failures else f'{len(failures)} failed'}")
    sys.exit(1 if failures else 0)


main()
