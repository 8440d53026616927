#!/usr/bin/env python3
"""Has the proved program check organisations, and compares what it prints and its exit status."""
import pathlib
import subprocess
import sys
import tempfile

ROOT = pathlib.Path(__file__).resolve().parent.parent
PROGRAM = ROOT / "crates/transport_cli/out/transport_cli"
HEADER = b"key,kind,members,owners,moderated,moderators,bypass,tell\n"
DOMAIN = b"example.com,domain,,,no,,,always\n"
BOB = b"bob@example.com,mailbox,,,no,,,always\n"
GROUP = b"staff@example.com,group,bob@example.com,,no,,,always\n"
OK, BAD, TOO_LONG = 0, 9, 11


def mailboxes(count):
    return b"".join(b"u%d@example.com,mailbox,,,no,,,always\n" % number for number in range(count))


def example():
    """The text of the example organisation, directory and rules."""
    folder = ROOT / "examples/organisation"
    return (folder / "directory.csv").read_bytes() + b"%%\n" + (folder / "rules.toml").read_bytes()


def rule(parts, do=b'[{act = "reject", code = "5.7.1", text = "x"}]'):
    return b'[[rule]]\nname = "a"\n' + parts + b"do = " + do + b"\n"


def journal(parts):
    return b'[[journal]]\nname = "j"\nscope = "global"\n' + parts + b"\n"


def rule_cases():
    """Cases of rules over bob, the group staff and the domain example.com."""
    def fault(number, place=0):
        return b"rules fault %d at %d\n" % (number, place), BAD

    good = b"ok\n", OK
    words = b'when = [{test = "subject-words", values = [%s]}]\n'
    yield "no TOML", b"x", *fault(1)
    yield "a key besides rule and journal", b"rules = []\n", *fault(1)
    yield "a rule that is one table", b'[rule]\nname = "a"\n', *fault(1)
    yield "rules in an array", b"rule = []\njournal = []\n", *good
    yield "a rule without a name", b"[[rule]]\n", *fault(3)
    yield "100 rules", rule(b"") * 100, *good
    yield "101 rules", rule(b"") * 101, *fault(7)
    yield "101 journal rules behind a bad rule", b"[[rule]]\n" + journal(b'mailbox = "bob@example.com"') * 101, *fault(7)
    yield "5.7.2", rule(b"", b'[{act = "reject", code = "5.7.2", text = "x"}]'), *fault(5)
    yield "5.7.899", rule(b"", b'[{act = "reject", code = "5.7.899", text = "x"}]'), *fault(5)
    yield "5.7.900", rule(b"", b'[{act = "reject", code = "5.7.900", text = "x"}]'), *good
    yield "5.7.1000", rule(b"", b'[{act = "reject", code = "5.7.1000", text = "x"}]'), *fault(5)
    yield "a code and a text that are wrong", rule(b"", b'[{act = "reject", code = "5.7.2", text = ""}]'), *fault(3)
    yield "a code that is a number", rule(b"", b'[{act = "reject", code = 571, text = "x"}]'), *fault(3)
    yield "a date before 1970", rule(b'from = "1969-12-31T23:59:59Z"\n'), *fault(6)
    yield "a fraction before 1970", rule(b'until = "1969-12-31T23:59:59.9Z"\n'), *fault(6)
    yield "the first moment of 1970", rule(b'from = "1970-01-01T00:00:00Z"\n'), *good
    yield "a date without quotes", rule(b"from = 2026-03-01T00:00:00Z\n"), *fault(6)
    yield "a date and a code that are wrong", rule(b'from = "1969-12-31T23:59:59Z"\n', b'[{act = "reject", code = "5.7.2", text = "x"}]'), *fault(6)
    yield "a word of 256 octets", rule(words % (b'"' + b"x" * 256 + b'"')), *good
    yield "a word of 257 octets", rule(words % (b'"' + b"x" * 257 + b'"')), *fault(2)
    yield "100 words", rule(words % b", ".join([b'"x"'] * 100)), *good
    yield "101 words", rule(words % b", ".join([b'"x"'] * 101)), *fault(2)
    yield "16 terms", rule(b"when = [" + b", ".join([b'{test = "field-present", field = "X"}'] * 16) + b"]\n"), *good
    yield "17 terms", rule(b"when = [" + b", ".join([b'{test = "field-present", field = "X"}'] * 17) + b"]\n"), *fault(2)
    yield "a term with a key too many", rule(b'when = [{test = "field-present", field = "X", values = ["x"]}]\n'), *fault(2)
    yield "a group", rule(b'when = [{test = "sender-in-group", values = ["Staff@Example.com"]}]\n'), *good
    yield "a mailbox as group", rule(b'when = [{test = "sender-in-group", values = ["bob@example.com"]}]\n'), *fault(4)
    yield "a mailbox as group beside no key", rule(b'when = [{test = "sender-in-group", values = ["bob@example.com", "x"]}]\n'), *fault(2)
    yield "a bad exception and no action", b'[[rule]]\nname = "a"\nunless = [{}]\ndo = []\n', *fault(2)
    yield "no action", rule(b"", b"[]"), *fault(3)
    yield "a copy to a group", rule(b"", b'[{act = "copy", to = "staff@example.com"}]'), *fault(4)
    yield "a copy to nobody inside", rule(b"", b'[{act = "copy", to = "ann@example.com"}]'), *fault(4)
    yield "a copy outside", rule(b"", b'[{act = "copy", to = "ann@example.net"}]'), *good
    yield "a redirect that isn't last", rule(b"", b'[{act = "redirect", to = "bob@example.com"}, {act = "remove-field", field = "X"}]'), *fault(3)
    yield "a moderator twice", rule(b"", b'[{act = "approve", by = ["bob@example.com", "BOB@example.com"]}]'), *fault(3)
    yield "the second rule", rule(b"") + rule(b"", b"1"), *fault(3, 1)
    yield "a rule that isn't enabled", rule(b"enabled = false\n", b"1"), *fault(3)
    yield "a journal rule behind two rules", rule(b"") * 2 + journal(b'mailbox = "staff@example.com"'), *fault(4, 2)
    yield "a journal rule without a mailbox", journal(b""), *fault(3)
    yield "a journal recipient that is no object", journal(b'mailbox = "bob@example.com"\nrecipient = "x@example.net"'), *fault(4)
    yield "a journal rule for a group", journal(b'mailbox = "bob@example.com"\nrecipient = "staff@example.com"'), *good
    yield "a comment of 1,048,576 octets", b"#" * 1048576, *good
    yield "a comment of one octet more", b"#" * 1048577, *fault(1)


def cases():
    """Each case: its name, the text, the line that is wanted, and the exit status."""
    yield "the example", (ROOT / "examples/organisation/directory.csv").read_bytes(), b"ok\n", OK
    yield "the header alone", HEADER, b"ok\n", OK
    forwards = HEADER.replace(b"tell", b"tell,forward,keep")
    yield "the header of forwards alone", forwards, b"ok\n", OK
    yield "a forward to no object", forwards + b"bob@example.com,mailbox,,,no,,,always,nix@example.com,no\n", b"directory fault 3 at 2\n", BAD
    yield "a mailbox that keeps and doesn't forward", forwards + b"bob@example.com,mailbox,,,no,,,always,,yes\n", b"directory fault 1 at 2\n", BAD
    yield "a forward to itself", forwards + b"bob@example.com,mailbox,,,no,,,always,BOB@example.com,yes\n", b"ok\n", OK
    yield "eight fields behind the header of forwards", forwards + BOB, b"directory fault 1 at 2\n", BAD
    yield "lines that end with CR LF", (HEADER + BOB).replace(b"\n", b"\r\n"), b"ok\n", OK
    yield "quoted fields", HEADER + b'"bob@example.com","mailbox",,,no,,,"always"\n', b"ok\n", OK
    yield "rules that are empty", HEADER + BOB + b"%%\n", b"ok\n", OK
    yield "the example with its rules", example(), b"ok\n", OK
    for name, rules, line, status in rule_cases():
        yield name, HEADER + DOMAIN + BOB + GROUP + b"%%\n" + rules, line, status
    yield "no text", b"", b"directory fault 1 at 1\n", BAD
    yield "another header", HEADER.upper() + BOB, b"directory fault 1 at 1\n", BAD
    yield "octets that are no UTF-8", HEADER + BOB + b"\xff@example.com,mailbox,,,no,,,always\n", b"directory fault 1 at 3\n", BAD
    yield "a key twice in a list", HEADER + BOB + b"g@example.com,group,bob@example.com Bob@Example.com,,no,,,always\n", b"directory fault 1 at 3\n", BAD
    yield "a key twice", HEADER + BOB + BOB, b"directory fault 2 at 3\n", BAD
    yield "an unknown member", HEADER + b"staff@example.com,group,nobody@example.com,,no,,,always\n", b"directory fault 3 at 2\n", BAD
    yield "a group as moderator", HEADER + b"g@example.com,group,,,yes,g@example.com,,always\n", b"directory fault 3 at 2\n", BAD
    yield "no moderators", HEADER + b"g@example.com,group,,,yes,,,always\n", b"directory fault 4 at 2\n", BAD
    yield "a fault of form behind an unknown member", HEADER + b"g@example.com,group,x@y,,no,,,always\nx\n", b"directory fault 1 at 3\n", BAD
    yield "20,000 objects", HEADER + mailboxes(20000), b"ok\n", OK
    yield "one object more", HEADER + mailboxes(20001), b"directory fault 5 at 20002\n", BAD
    yield "a text that is too long", HEADER + b"x" * (33554432 - len(HEADER)), b"", TOO_LONG


def main():
    if not PROGRAM.exists():
        sys.exit(f"checks: {PROGRAM.relative_to(ROOT)} isn't built")
    failed = 0
    for name, text, line, status in cases():
        with tempfile.TemporaryDirectory() as folder:
            run = subprocess.run([PROGRAM, "check"], input=text, capture_output=True, cwd=folder, timeout=60)
            left = list(pathlib.Path(folder).iterdir())
        if (run.stdout, run.returncode, left) != (line, status, []):
            failed += 1
            print(f"checks: {name}: status {run.returncode}, wanted {status}; told {run.stdout!r}, wanted {line!r}; left {left}")
    print(f"checks: {'all as wanted' if not failed else f'{failed} failed'}")
    sys.exit(1 if failed else 0)


main()
