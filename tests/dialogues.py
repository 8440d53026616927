#!/usr/bin/env python3
"""Holds whole dialogues with the proved program, and compares each reply to the octet.

Each file of tests/dialogues has lines that begin with "C: " (what the client says) and "S: " (what it is told), in
the order of each side. A "$" at the end of a client's line stands behind blanks, and isn't sent.
"""
import pathlib
import subprocess
import sys
import tempfile

ROOT = pathlib.Path(__file__).resolve().parent.parent
PROGRAM = ROOT / "crates/transport_cli/out/transport_cli"
GREETING = b"220 hub.invalid mail hub ready\r\n"
STARTED = b"250 hub.invalid\r\n250 OK\r\n250 OK\r\n354 End data with a dot line\r\n"
START = b"HELO c\r\nMAIL FROM:<>\r\nRCPT TO:<bob@example.com>\r\nDATA\r\n"


def transcripts():
    """Each stored dialogue: its name, what is sent, what is told, and the exit status."""
    for path in sorted((ROOT / "tests/dialogues").glob("*.txt")):
        sides = {"C: ": b"", "S: ": b""}
        for line in path.read_text().split("\n")[:-1]:
            words = line[3:]
            if line.startswith("C: ") and words.endswith("$"):
                words = words[:-1]
            sides[line[:3]] += words.encode() + b"\r\n"
        yield path.stem, sides["C: "], sides["S: "], 0


def recipients():
    """A transaction has at most 1,000 recipients, and those stay."""
    sent = b"HELO c\r\nMAIL FROM:<>\r\n" + b"RCPT TO:<bob@example.com>\r\n" * 1001
    told = GREETING + b"250 hub.invalid\r\n250 OK\r\n" + b"250 OK\r\n" * 1000 + b"452 Too many recipients\r\n"
    return "recipients", sent + b"DATA\r\nA: b\r\n\r\n.\r\n", told + b"354 End data with a dot line\r\n250 Accepted 1\r\n", 0


def long_lines():
    """Command lines of 1,022 to 1,026 octets with their CR LF (RFC 5321 section 4.5.3.1.4 asks for 512)."""
    sent, told = b"", GREETING
    for size in range(1022, 1027):
        sent += b"NOOP".ljust(size - 2) + b"\r\n"
        told += b"250 OK\r\n" if size <= 1024 else b"500 Line too long\r\n"
    return "long lines", sent, told, 0


def contents():
    """A content of exactly the limit, and one of an octet more."""
    for more, reply in ((0, b"250 Accepted 1\r\n"), (1, b"552 Message too large\r\n")):
        body = b"A: b\r\n\r\n" + b"x" * (1048566 + more) + b"\r\n.\r\n"
        yield f"content and {more}", START + body, GREETING + STARTED + reply, 0


def unreadable():
    """Contents that are no message: without an empty line, and with lines that are no field. The session goes on."""
    begun, go = b"250 OK\r\n250 OK\r\n", b"354 End data with a dot line\r\n"
    sent, told = b"HELO c\r\n", GREETING + b"250 hub.invalid\r\n"
    for content, fault in ((b"a: b\r\n", 1), (b"no header\r\n", 2), (b": x\r\n\r\n", 2), (b"", 1)):
        sent += b"MAIL FROM:<>\r\nRCPT TO:<bob@example.com>\r\nDATA\r\n" + content + b".\r\n"
        told += begun + go + b"554 Message can't be read: fault %d\r\n" % fault
    return "unreadable contents", sent, told, 0


def repeats():
    """A message that is sent three times in one go, and then to one recipient more."""
    content = b"DATA\r\nMessage-Id: <m1@example.com>\r\n\r\nHello\r\n.\r\n"
    one = b"MAIL FROM:<ann@example.com>\r\nRCPT TO:<bob@example.com>\r\n"
    two = one + b"RCPT TO:<cyn@example.com>\r\n"
    begun, go = b"250 OK\r\n250 OK\r\n", b"354 End data with a dot line\r\n"
    sent = b"HELO c\r\n" + (one + content) * 3 + two + content
    told = GREETING + b"250 hub.invalid\r\n" + (begun + go + b"250 Accepted 1\r\n") * 3
    return "repeats", sent, told + begun + b"250 OK\r\n" + go + b"250 Accepted 2\r\n", 0


def ends():
    """Inputs that end inside a line or a content, and those that don't."""
    yield "no input", b"", GREETING, 0
    yield "a line", b"HELO c\r\n", GREETING + b"250 hub.invalid\r\n", 0
    yield "no line's end", b"HELO c", GREETING, 7
    yield "a CR", b"HELO c\r\n\r", GREETING + b"250 hub.invalid\r\n", 7
    yield "an LF", b"HELO c\n", GREETING, 7
    yield "no content", START, GREETING + STARTED, 7
    yield "a part of a dot line", START + b"QUIT\r\n.\r", GREETING + STARTED, 7


def other_words():
    """How often words that are no command aren't answered with the usage line, or leave something in the folder."""
    usage = b"usage: transport_cli session|turn [--workers N]|admin|check|make N [--workers W]\n"
    failed = 0
    for words in ([], ["turn", "--workers", "17"], ["session", "session"]):
        with tempfile.TemporaryDirectory() as folder:
            run = subprocess.run([PROGRAM, *words], input=b"", capture_output=True, cwd=folder, timeout=60)
            left = list(pathlib.Path(folder).iterdir())
        if (run.stdout, run.returncode, left) != (usage, 1, []):
            failed += 1
            print(f"dialogues: {words}: {run}, left {left}")
    return failed


def empty_log():
    """How often a session without a message leaves another log than one without an entry."""
    with tempfile.TemporaryDirectory() as folder:
        subprocess.run([PROGRAM, "session"], input=b"HELO c", capture_output=True, cwd=folder, timeout=60)
        subprocess.run([PROGRAM, "session"], input=b"", capture_output=True, cwd=folder, timeout=60)
        log = pathlib.Path(folder, "hub/queue.log").read_bytes()
    if log != b"MAILHUB1\0":
        print(f"dialogues: the log without an entry is {log!r}")
    return int(log != b"MAILHUB1\0")


def main():
    if not PROGRAM.exists():
        sys.exit(f"dialogues: {PROGRAM.relative_to(ROOT)} isn't built")
    failed = other_words() + empty_log()
    for name, sent, told, status in [*transcripts(), recipients(), long_lines(), unreadable(), repeats(), *contents(), *ends()]:
        with tempfile.TemporaryDirectory() as folder:
            run = subprocess.run([PROGRAM, "session"], input=sent, capture_output=True, cwd=folder, timeout=60)
        if run.stdout != told or run.returncode != status:
            failed += 1
            at = next((i for i, (a, b) in enumerate(zip(run.stdout, told)) if a != b), min(len(run.stdout), len(told)))
            print(f"dialogues: {name}: status {run.returncode}, wanted {status}; replies differ at octet {at}:")
            print(f"  told   {run.stdout[at:at + 80]!r}\n  wanted {told[at:at + 80]!r}")
    print(f"dialogues: {'all as wanted' if not failed else f'{failed} failed'}")
    sys.exit(1 if failed else 0)


main()
