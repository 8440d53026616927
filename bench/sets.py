#!/usr/bin/env python3
"""Times 100 rules on one message to 2,000 recipients, in sets of recipients and for each recipient alone.

The first table is of the rules alone, without mail around them. The program of the organisation's rows runs them over one
input in three ways: in sets, as the hub does (the row `run`); for each recipient alone, by the plain fold that is the
rules' definition (`run-alone`); and for a single recipient. Each time is the least of several runs, less that of a run
that reads the same directory, rules and message and judges nobody. Memory is the most that the program held.

The second table is of whole sessions: the hub takes the message for a group of the 2,000, plans and delivers it. Nothing is
taken off there; the line without rules tells what all else costs.

usage: bench/sets.py [rules|sessions]
"""
import os
import pathlib
import subprocess
import sys
import tempfile
import time

sys.dont_write_bytecode = True
from rules import HEADER, LEAVES, LINE, PROGRAM, RULES, message, rule, session

ROWS = PROGRAM.parent.parent.parent / "organisation_rows/out/organisation_rows"
RUNS = 3
SIZES = [("1 KiB", 1 << 10), ("1 MiB", (1 << 20) - 100)]
# The groups of those whose number has this bit, which part the recipients into 2, 16 and all.
BITS = 11
HEAD = b"Message-Id: <1@bench>\r\nSubject: Plan\r\n\r\n"


def key(n):
    return f"m{n}@example.com"


def group(name, members):
    return f"{name}@example.com,group,{' '.join(members)},,no,,,always\r\n"


def directory():
    rows = ["example.com,domain,,,no,,,always\r\n"] + [f"{key(n)},mailbox,,,no,,,always\r\n" for n in range(LEAVES)]
    groups = [group(f"bit{b}", [key(n) for n in range(LEAVES) if n >> b & 1]) for b in range(BITS)]
    return "".join(rows + groups) + group("all", map(key, range(LEAVES)))


def for_all(places):
    return "".join(rule(n, "", f'{{act = "set-field", field = "X-{n}", text = "y"}}') for n in places)


def parting(bits):
    """Rules that part the recipients by so many groups, and then rules for all."""
    return "".join(
        rule(b, f'{{test = "recipient-in-group", values = ["bit{b}@example.com"]}}', f'{{act = "set-field", field = "X-{b}", text = "y"}}')
        for b in range(bits)
    ) + for_all(range(bits, RULES))


def books():
    """Names, rule books and how many versions of the message each makes."""
    outside = '{test = "recipient-scope", values = ["outside"]}'
    nobody = "".join(rule(n, outside, '{act = "prepend-subject", text = "x"}') for n in range(RULES))
    return [
        ("no rules", "", 1),
        ("for nobody", nobody, 1),
        ("for all", for_all(range(RULES)), 1),
        ("parting them in 2", parting(1), 2),
        ("parting them in 16", parting(4), 16),
        ("parting them in 2,000", parting(BITS), LEAVES),
    ]


def body(octets):
    return LINE * ((octets - len(HEAD)) // len(LINE))


def rows(folder, book, octets, asked):
    """The rows of an organisation, its rules and a message, and behind them the row that is asked, if any."""
    mail = (HEAD + body(octets)).decode().replace("\r\n", "\\r\\n")
    lines = ["directory", directory().replace("\r\n", "\n").rstrip("\n"), "end", "rules", book.rstrip("\n"), "end", "mail " + mail, asked]
    path = pathlib.Path(folder, "rows")
    path.write_text("\n".join(lines) + "\n")
    return path


def judged(folder, book, octets, asked, versions):
    """The least seconds and the most memory in octets of runs of the rows, and whether all answered."""
    path = rows(folder, book, octets, asked)
    took = []
    most = 0
    for _ in range(RUNS):
        told = pathlib.Path(folder, "told")
        with path.open("rb") as said, told.open("wb") as out:
            begin = time.perf_counter()
            run = subprocess.Popen([ROWS], stdin=said, stdout=out)
            _, status, used = os.wait4(run.pid, 0)
            took.append(time.perf_counter() - begin)
            run.returncode = os.waitstatus_to_exitcode(status)
        most = max(most, used.ru_maxrss * 1024)
        answer = told.read_bytes()
        texts = answer.count(b"\n  ")
        if run.returncode != 0 or answer.count(b" -> ok\n") != 2 or (asked and texts != versions):
            sys.exit(f"bench: status {run.returncode}, {texts} of {versions} texts: {answer[:300]!r}")
    return min(took), most


def time_rules(folder):
    print(f"{'the rules alone':<14} {'':<22} {'in sets':^19} {'each alone':^19} {'one recipient':>13}")
    print(f"{'message':<14} {'100 rules':<22} {'seconds':>9} {'MB':>9} {'seconds':>9} {'MB':>9} {'seconds':>13}")
    everyone = ",".join(map(key, range(LEAVES)))
    for size, octets in SIZES:
        for name, book, versions in books():
            none, _ = judged(folder, book, octets, "", 0)
            sets, most = judged(folder, book, octets, "run - - " + everyone, versions)
            alone, held = judged(folder, book, octets, "run-alone - - " + everyone, versions)
            one, _ = judged(folder, book, octets, "run - - " + key(LEAVES - 1), 1)
            print(f"{size:<14} {name:<22} {sets - none:>9.3f} {most / 1e6:>9.0f} {alone - none:>9.3f} {held / 1e6:>9.0f} {one - none:>13.4f}")


def time_sessions(folder):
    print(f"\n{'whole sessions':<14} {'100 rules':<22} {'seconds':>9} {'MB':>9}")
    for size, octets in SIZES:
        for name, book, _ in books():
            text = message(b"all@example.com", body(octets))
            took, most = session(folder, HEADER + directory().encode(), book.encode(), text)
            print(f"{size:<14} {name:<22} {took:>9.3f} {most / 1e6:>9.0f}")


def main():
    wanted = sys.argv[1:] or ["rules", "sessions"]
    memory = "/dev/shm" if os.path.isdir("/dev/shm") else None
    with tempfile.TemporaryDirectory(dir=memory) as folder:
        for name, program, times in (("rules", ROWS, time_rules), ("sessions", PROGRAM, time_sessions)):
            if name in wanted:
                if not os.access(program, os.X_OK):
                    sys.exit(f"bench: {program} isn't built: run `rt ci`")
                times(folder)


main()
