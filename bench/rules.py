#!/usr/bin/env python3
"""Times planning by an organisation's rules: conditions on a body of 1 MiB, a group of 2,000 under 100 rules, and the same
group under 100 journal rules.

The organisation is written into a log of its own, as the entry that the hub writes. Each time is the least of several
sessions with one message, less that of the same session where no rule is there.
"""
import os
import pathlib
import struct
import subprocess
import sys
import tempfile
import time

PROGRAM = pathlib.Path(__file__).resolve().parent.parent / "crates/transport_cli/out/transport_cli"
HEADER = b"key,kind,members,owners,moderated,moderators,bypass,tell\r\n"
LINE = b"lorem ipsum dolor sit amet, consectetur adipiscing elit, sed do eiusmod\r\n"
TO_ALL = LINE * 140
MOST_OCTETS = 1_048_576
RUNS = 3
LEAVES = 2000
RULES = 100


def record(payload):
    return b"\1" + struct.pack("<Q", len(payload)) + payload


def log_of(directory, rules):
    """A log with one entry, by which this organisation comes into force."""
    texts = b"".join(struct.pack("<Q", len(text)) + text for text in (directory, rules))
    return b"MAILHUB1" + record(b"\1" + texts) + b"\0"


def message(recipient, body):
    return (
        b"HELO bench\r\nMAIL FROM:<ann@example.com>\r\nRCPT TO:<" + recipient + b">\r\nDATA\r\n"
        b"Message-Id: <1@bench>\r\nSubject: Plan\r\n\r\n" + body + b".\r\nQUIT\r\n"
    )


def session(folder, directory, rules, text):
    """The least seconds and the most memory in octets of sessions that begin with this organisation."""
    took = []
    most = 0
    for _ in range(RUNS):
        with tempfile.TemporaryDirectory(dir=folder) as work:
            os.mkdir(f"{work}/hub")
            pathlib.Path(work, "hub/queue.log").write_bytes(log_of(directory, rules))
            begin = time.perf_counter()
            run = subprocess.Popen([PROGRAM, "session"], stdin=subprocess.PIPE, stdout=subprocess.PIPE, cwd=work)
            run.stdin.write(text)
            run.stdin.close()
            answers = run.stdout.read()
            _, status, usage = os.wait4(run.pid, 0)
            run.returncode = os.waitstatus_to_exitcode(status)
            took.append(time.perf_counter() - begin)
            most = max(most, usage.ru_maxrss * 1024)
            if b"250 Accepted 1" not in answers or run.returncode != 0:
                sys.exit(f"bench: status {run.returncode}, answered {answers[-200:]!r}")
    return min(took), most


def rule(name, when, do):
    return f'[[rule]]\nname = "{name}"\nwhen = [{when}]\ndo = [{do}]\n'


def words_rules(count, words):
    """Rules with so many words each, none of which stands in the body."""
    values = ", ".join(f'"nowhere{n:03d}"' for n in range(words))
    return "".join(
        rule(n, f'{{test = "subject-or-body-words", values = [{values}]}}', '{act = "prepend-subject", text = "x"}')
        for n in range(count)
    ).encode()


def conditions(folder):
    body = LINE * ((MOST_OCTETS - 100) // len(LINE))
    directory = HEADER + b"example.com,domain,,,no,,,always\r\nbob@example.com,mailbox,,,no,,,always\r\n"
    text = message(b"bob@example.com", body)
    none, _ = session(folder, directory, b"", text)
    print(f"{'rules on a body of 1 MiB':<28} {'seconds':>9} {'ms each':>9} {'MB/s':>8} {'of one':>7}")
    one = None
    for count, words in ((1, 1), (RULES, 1), (RULES, 10), (RULES, 100)):
        took = max(session(folder, directory, words_rules(count, words), text)[0] - none, 1e-9)
        each = took / count
        one = one or each
        print(f"{f'{count} with {words} words':<28} {took:>9.3f} {each * 1e3:>9.2f} {len(body) / each / 1e6:>8.0f} {each / one:>7.2f}")


def crowd():
    keys = [f"m{n}@example.com".encode() for n in range(LEAVES)]
    rows = b"".join(key + b",mailbox,,,no,,,always\r\n" for key in keys)
    return HEADER + b"example.com,domain,,,no,,,always\r\n" + rows + b"all@example.com,group," + b" ".join(keys) + b",,no,,,always\r\n"


def a_second(took):
    """Leaves a second, or `-` where the time is lost among the others."""
    return f"{LEAVES / took:>9.0f}" if took >= 0.001 else f"{'-':>9}"


def fates(folder, directory, text, none, most):
    octets = len(TO_ALL)
    print(f"\n{f'{LEAVES} leaves, {octets} octets':<28} {'seconds':>9} {'fates/s':>9} {'texts MB':>9} {'memory MB':>10}")
    print(f"{'no rules, with all else':<28} {none:>9.3f} {a_second(none)} {octets / 1e6:>9.2f} {most / 1e6:>10.0f}")
    outside = '{test = "recipient-scope", values = ["outside"]}'
    books = [
        ("100 rules, none applies", "".join(rule(n, outside, '{act = "prepend-subject", text = "x"}') for n in range(RULES)), 1),
        ("100 rules that all apply", "".join(rule(n, "", f'{{act = "set-field", field = "X-{n}", text = "y"}}') for n in range(RULES)), 1),
        (
            "100 rules for one leaf each",
            "".join(
                rule(n, f'{{test = "recipient-is", values = ["m{n}@example.com"]}}', f'{{act = "prepend-subject", text = "{n} "}}')
                for n in range(RULES)
            ),
            RULES + 1,
        ),
    ]
    for name, book, texts in books:
        took, most = session(folder, directory, book.encode(), text)
        took = max(took - none, 1e-9)
        print(f"{name:<28} {took:>9.3f} {a_second(took)} {texts * octets / 1e6:>9.2f} {most / 1e6:>10.0f}")


def journal_rules(count, mailboxes, recipient):
    """Journal rules that take all, or all with a recipient, for so many mailboxes."""
    who = f'recipient = "{recipient}"\n' if recipient else ""
    return "".join(
        f'[[journal]]\nname = "{n}"\nscope = "global"\n{who}mailbox = "j{n % mailboxes}@example.net"\n' for n in range(count)
    ).encode()


def journaled(folder, directory, text, none):
    print(f"\n{f'{LEAVES} leaves, journal rules':<28} {'seconds':>9} {'leaves/s':>9} {'memory MB':>10}")
    for name, count, mailboxes, recipient in (
        ("1 for all", 1, 1, None),
        ("100 for all, 1 mailbox", RULES, 1, None),
        ("100 for all, 100 mailboxes", RULES, RULES, None),
        ("100 for the group, 1 mailbox", RULES, 1, "all@example.com"),
        ("100 for one leaf, 1 mailbox", RULES, 1, "m7@example.com"),
    ):
        took, most = session(folder, directory, journal_rules(count, mailboxes, recipient), text)
        took = max(took - none, 1e-9)
        print(f"{name:<28} {took:>9.3f} {a_second(took)} {most / 1e6:>10.0f}")


def main():
    if not os.access(PROGRAM, os.X_OK):
        sys.exit("bench: build the program first: ./yeqorchi session < examples/first.smtp")
    memory = "/dev/shm" if os.path.isdir("/dev/shm") else None
    with tempfile.TemporaryDirectory(dir=memory) as folder:
        conditions(folder)
        directory, text = crowd(), message(b"all@example.com", TO_ALL)
        none, most = session(folder, directory, b"", text)
        fates(folder, directory, text, none, most)
        journaled(folder, directory, text, none)


if __name__ == "__main__":
    main()
