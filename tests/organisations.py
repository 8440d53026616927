#!/usr/bin/env python3
"""Sends mail through the proved program in folders whose log begins with an organisation, and looks into the shelf.

The entries by which the organisation comes into force, a moderator decides and time passes are written here, octet for
octet.
"""
import pathlib
import struct
import subprocess
import sys
import tempfile
import time

ROOT = pathlib.Path(__file__).resolve().parent.parent
PROGRAM = ROOT / "crates/transport_cli/out/transport_cli"
EXAMPLE = ROOT / "examples/organisation"


def record(payload):
    return b"\1" + struct.pack("<Q", len(payload)) + payload


def organised(directory, rules):
    texts = b"".join(struct.pack("<Q", len(text)) + text for text in (directory, rules))
    return record(b"\1" + texts)


def decided(approval, key, verdict, moment):
    """The record of a decision on the approval of this submission, release and gate."""
    return record(b"\4" + struct.pack("<QIIQ", *approval, len(key)) + key + struct.pack("<BQ", verdict, moment))


def turned(moment):
    return record(b"\5" + struct.pack("<Q", moment))


def append(folder, entry):
    """Writes a record over the closed gate at the end of the log, and a closed gate behind it."""
    path = pathlib.Path(folder, "hub/queue.log")
    log = path.read_bytes()
    assert log[-1] == 0
    path.write_bytes(log[:-1] + entry + b"\0")


def spoken(folder, said):
    return subprocess.run([PROGRAM, "session"], input=said, capture_output=True, cwd=folder, timeout=60)


def session(folder, sender, recipients, content):
    """Runs a session that sends one message."""
    envelope = b"MAIL FROM:<%s>\r\n" % sender + b"".join(b"RCPT TO:<%s>\r\n" % key for key in recipients)
    return spoken(folder, b"HELO c\r\n" + envelope + b"DATA\r\n" + content + b".\r\nQUIT\r\n")


def shelf(folder):
    """The items of each folder, by folder and name."""
    root = pathlib.Path(folder, "hub/shelf")
    return {str(path.relative_to(root)): path.read_bytes() for path in sorted(root.glob("*/*"))}


def sent_in(log, sender, recipients, content):
    with tempfile.TemporaryDirectory() as folder:
        pathlib.Path(folder, "hub").mkdir()
        pathlib.Path(folder, "hub/queue.log").write_bytes(log)
        run = session(folder, sender, recipients, content)
        return run, shelf(folder)


def a_bad_organisation():
    """A log whose organisation doesn't read is none from its record on, and is left as it was."""
    log = b"MAILHUB1" + organised(b"no directory", b"") + b"\0"
    with tempfile.TemporaryDirectory() as folder:
        path = pathlib.Path(folder, "hub/queue.log")
        path.parent.mkdir()
        path.write_bytes(log)
        run = session(folder, b"ann@example.com", [b"bob@example.com"], b"a: b\r\n\r\n")
        return [] if run.returncode == 6 and run.stdout == b"" and path.read_bytes() == log else [f"a bad organisation: {run}"]


def example_log():
    return b"MAILHUB1" + organised((EXAMPLE / "directory.csv").read_bytes(), (EXAMPLE / "rules.toml").read_bytes()) + b"\0"


def reports(text, lines, original):
    """Whether a report lists these targets, and encloses this message."""
    parts = text.split(b"--=_hub_0\r\n")
    if len(parts) != 3 or not text.startswith(b"X-Hub-Journal-Report: "):
        return False
    listed = [line for line in parts[1].split(b"\r\n") if line.startswith(b"Recipient: ")]
    enclosed = b"\r\n\r\n" + original + b"\r\n--=_hub_0--\r\n"
    return listed == [b"Recipient: " + line for line in lines] and parts[2].endswith(enclosed)


def by_the_example():
    """The example organisation: mail from outside is marked, what leaves carries a disclaimer, mia gets reports of both, and
    staff is a group."""
    log = example_log()
    content = b"Message-Id: <m@example.net>\r\nSubject: Plan\r\n\r\nHello\r\n"
    run, items = sent_in(log, b"eve@example.net", [b"bob@example.com"], content)
    marked = content.replace(b"Plan", b"[outside] Plan")
    wanted = {"bob@example.com/1-0-0.eml": marked}
    report = items.pop("mia@example.com/1-0-1.eml", b"")
    faults = [] if run.returncode == 0 and items == wanted else [f"from outside: {run} {items}"]
    faults += [] if reports(report, [b"bob@example.com"], content) else [f"from outside, reported: {report}"]
    run, items = sent_in(log, b"ann@example.com", [b"bob@example.com", b"eve@example.net"], content)
    wanted = {
        "bob@example.com/1-0-0.eml": content,
        "eve@example.net/1-0-1.eml": content + b"This mail is meant for its recipients alone.\r\n",
    }
    report = items.pop("mia@example.com/1-0-2.eml", b"")
    faults += [] if reports(report, [b"bob@example.com", b"eve@example.net"], content) else [f"to outside, reported: {report}"]
    return faults + ([] if run.returncode == 0 and items == wanted else [f"to outside: {run} {items}"])


MODERATED = b"Message-Id: <m@example.com>\r\nSubject: Plan\r\n\r\nHello\r\n"


def behind_a_gate(sender, entry):
    """What there is beside mia's request, once this entry is behind mail to the moderated group sub."""
    with tempfile.TemporaryDirectory() as folder:
        pathlib.Path(folder, "hub").mkdir()
        pathlib.Path(folder, "hub/queue.log").write_bytes(example_log())
        runs = [session(folder, sender, [b"sub@example.com"], MODERATED)]
        held = set(shelf(folder))
        append(folder, entry)
        runs.append(spoken(folder, b"QUIT\r\n"))
        items = shelf(folder)
    faults = [f"{sender} {entry}: {run}" for run in runs if run.returncode != 0]
    if held != {"mia@example.com/1-0-0.eml"} or items.pop("mia@example.com/1-0-0.eml", None) is None:
        faults.append(f"{sender}: held {held}")
    return items, faults


def moderated():
    """Mail to sub waits for mia: it goes to its members when she approves, and else those inside who sent it are told."""
    faults = []
    soon, late = int(time.time()) + 60, int(time.time()) + 172_860
    both = {
        "cyn@example.com/1-1-0.eml": MODERATED,
        "zed@example.org/1-1-1.eml": MODERATED + b"This mail is meant for its recipients alone.\r\n",
    }
    items, seen = behind_a_gate(b"ann@example.com", decided((1, 0, 0), b"mia@example.com", 0, soon))
    report = items.pop("mia@example.com/1-1-2.eml", b"")
    members = [b"cyn@example.com via sub@example.com", b"zed@example.org via sub@example.com"]
    faults += [] if reports(report, members, MODERATED) else [f"approved, reported: {report}"]
    faults += seen + ([] if items == both else [f"approved: {items}"])
    told = "ann@example.com/1-0-0-g.eml"
    for entry, line in (
        (decided((1, 0, 0), b"mia@example.com", 1, soon), b"was refused by mia@example.com."),
        (turned(late), b"ran out at "),
    ):
        items, seen = behind_a_gate(b"ann@example.com", entry)
        wanted = b"\r\nApproval 1-0-0 for object sub@example.com " + line
        faults += seen + ([] if set(items) == {told} and wanted in items[told] else [f"{line}: {items}"])
        items, seen = behind_a_gate(b"eve@example.net", entry)
        faults += seen + ([] if items == {} else [f"told outside: {items}"])
    return faults


def strangers_decision():
    """A decision that isn't a moderator's is no entry: the log is refused from its record on, and left as it was."""
    with tempfile.TemporaryDirectory() as folder:
        pathlib.Path(folder, "hub").mkdir()
        path = pathlib.Path(folder, "hub/queue.log")
        path.write_bytes(example_log())
        session(folder, b"ann@example.com", [b"sub@example.com"], MODERATED)
        append(folder, decided((1, 0, 0), b"bob@example.com", 0, int(time.time()) + 60))
        log = path.read_bytes()
        run = spoken(folder, b"QUIT\r\n")
        return [] if run.returncode == 6 and path.read_bytes() == log else [f"a stranger's decision: {run}"]


def main():
    if not PROGRAM.exists():
        sys.exit(f"organisations: {PROGRAM.relative_to(ROOT)} isn't built")
    failures = a_bad_organisation() + by_the_example() + moderated() + strangers_decision()
    for failure in failures:
        print(f"organisations: {failure}")
    print(f"organisations: {'all as wanted' if not failures else f'{len(failures)} failed'}")
    sys.exit(1 if failures else 0)


main()
