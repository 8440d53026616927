#!/usr/bin/env python3
"""Times the check of organisations of several sizes, beside plain passes of Python's csv and tomllib over the same text."""
import csv
import io
import pathlib
import subprocess
import sys
import time
import tomllib

PROGRAM = pathlib.Path(__file__).resolve().parent.parent / "crates/transport_cli/out/transport_cli"
HEADER = "key,kind,members,owners,moderated,moderators,bypass,tell\n"


def organisation(objects):
    """Half of the objects are mailboxes, and half are groups of 20 of them."""
    half = objects // 2
    lines = [f"u{n}@example.com,mailbox,,,no,,,always\n" for n in range(half)]
    for n in range(half):
        members = " ".join(f"u{(n * 20 + k) % half}@example.com" for k in range(20))
        lines.append(f"g{n}@example.com,group,{members},,no,,,always\n")
    return HEADER + "".join(lines)


def rules(count, words):
    """Rules with a term of so many words each."""
    values = ", ".join(f'"word{n:05d}"' for n in range(words))
    return "".join(
        f'[[rule]]\nname = "r{n}"\nwhen = [{{test = "subject-words", values = [{values}]}}]\n'
        'do = [{act = "prepend-subject", text = "x"}]\n'
        for n in range(count))


def checked(text):
    """The seconds that a check of the text takes."""
    begin = time.perf_counter()
    run = subprocess.run([PROGRAM, "check"], input=text.encode(), capture_output=True)
    took = time.perf_counter() - begin
    if run.stdout != b"ok\n":
        sys.exit(f"bench: told {run.stdout!r}")
    return took


def passed(read):
    """The seconds that a plain pass takes."""
    begin = time.perf_counter()
    read()
    return time.perf_counter() - begin


def main():
    if not PROGRAM.exists():
        sys.exit("bench: build the program first: ./yeqorchi session < examples/first.smtp")
    print(f"{'objects':>8} {'entries':>8} {'octets':>10} {'check s':>9} {'csv s':>9}")
    for objects in (200, 2000, 20000):
        text = organisation(objects)
        plain = passed(lambda: sum(len(row) for row in csv.reader(io.StringIO(text))))
        print(f"{objects:>8} {objects * 10:>8} {len(text):>10} {checked(text):>9.3f} {plain:>9.3f}")
    print(f"{'rules':>8} {'words':>8} {'octets':>10} {'check s':>9} {'toml s':>9}")
    for count, words in ((10, 1), (100, 10), (100, 100)):
        text = rules(count, words)
        plain = passed(lambda: tomllib.loads(text))
        print(f"{count:>8} {count * words:>8} {len(text):>10} {checked(HEADER + '%%' + chr(10) + text):>9.3f} {plain:>9.3f}")


main()
