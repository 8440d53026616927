#!/usr/bin/env python3
"""What a run of the gate from nothing costs, crate by crate.

    bench/gate.py              runs `rt ci --anew` in a clone of what is committed (an hour and more), and prints a table:
                               processor seconds and peak memory of each crate's library, tests and edits, and the chain
                               of libraries that takes longest
    bench/gate.py CRATE ..     checks these crates from nothing and prints the functions that take longest

The processor seconds are sampled from the running provers, so they are right to about a second a prover. Another load on
the machine makes the wall times longer, and the processor times somewhat.
"""
import collections
import os
import pathlib
import re
import subprocess
import sys
import tempfile
import time

ROOT = pathlib.Path(__file__).resolve().parent.parent
TICKS = os.sysconf("SC_CLK_TCK")
PAGE = os.sysconf("SC_PAGE_SIZE")
KINDS = ("library", "tests", "edits")


def crates():
    """Each crate of the repository with those of it that it stands on."""
    lines = (line.split("#")[0] for line in (ROOT / "crates.txt").read_text().splitlines())
    found = {head.split()[0]: rest.split() for head, _, rest in (line.partition(":") for line in lines) if head.strip()}
    return {name: [below for below in on if below in found] for name, on in found.items()}


def cloned(into):
    subprocess.run(["git", "clone", "-q", ROOT, into], check=True)
    return pathlib.Path(into)


class Sampler:
    """The processor time and the memory of the provers that one session of processes runs."""

    def __init__(self, session):
        self.session = session
        self.seen = {}

    def look(self):
        for entry in os.scandir("/proc"):
            if entry.name.isdigit():
                try:
                    self.look_at(entry.name)
                except (OSError, ValueError, IndexError):
                    pass  # it has ended meanwhile

    def look_at(self, pid):
        fields = pathlib.Path(f"/proc/{pid}/stat").read_text().rpartition(")")[2].split()
        if int(fields[3]) != self.session:
            return
        words = pathlib.Path(f"/proc/{pid}/cmdline").read_bytes().decode(errors="replace").split("\0")
        if "--crate-name" not in words:
            return
        name = words[words.index("--crate-name") + 1]
        is_edit = "rt-edit" in os.readlink(f"/proc/{pid}/cwd")
        kind = "edits" if is_edit else "tests" if "--test" in words else "library"
        # its own alone: a check forks copies of itself, which are seen here too
        ticks = sum(int(it) for it in fields[11:13])
        memory = int(fields[21]) * PAGE
        key = pid, fields[19]
        _, _, _, before = self.seen.get(key, (name, kind, 0, 0))
        self.seen[key] = name, kind, ticks / TICKS, max(before, memory)

    def totals(self):
        spent, peak = collections.Counter(), collections.Counter()
        for name, kind, seconds, memory in self.seen.values():
            spent[name, kind] += seconds
            peak[name, kind] = max(peak[name, kind], memory)
        return spent, peak


def longest_chain(on, spent):
    """The chain of crates, each standing on the one before, whose libraries take longest, and its seconds."""
    best = {}

    def chain(name):
        if name not in best:
            below = max((chain(it) for it in on[name]), default=(0, []))
            best[name] = below[0] + spent[name, "library"], below[1] + [name]
        return best[name]

    return max(chain(name) for name in on)


def whole():
    on = crates()
    with tempfile.TemporaryDirectory() as room:
        clone = cloned(f"{room}/clone")
        begin = time.time()
        with open(f"{room}/log", "w") as log:
            run = subprocess.Popen(["rt", "ci", "--anew"], cwd=clone, stdout=log, stderr=log, start_new_session=True)
            sampler = Sampler(run.pid)
            while run.poll() is None:
                sampler.look()
                time.sleep(0.5)
        last = pathlib.Path(f"{room}/log").read_text().splitlines()[-1:]
        wall = time.time() - begin
    spent, peak = sampler.totals()
    print("| Crate | Library s | MB | Tests s | MB | Edits s | MB |\n|---|---|---|---|---|---|---|")
    for name in on:
        cells = (f"{spent[name, kind]:.0f} | {peak[name, kind] >> 20}" for kind in KINDS)
        print(f"| `{name}` | {' | '.join(cells)} |")
    sums = {kind: sum(spent[name, kind] for name in on) for kind in KINDS}
    print(f"| all | {sums['library']:.0f} | | {sums['tests']:.0f} | | {sums['edits']:.0f} | |\n")
    seconds, chain = longest_chain(on, spent)
    print(f"{sum(sums.values()) / 60:.0f} processor minutes, {wall / 60:.0f} minutes on {os.cpu_count()} processors; {last[0] if last else 'no output'}")
    print(f"the longest chain: {' > '.join(chain)}: {seconds / 60:.0f} processor minutes")
    return run.returncode


def slowest(name, count=12):
    """The functions of a crate that a check from nothing takes longest over, with the seconds between its lines."""
    with tempfile.TemporaryDirectory() as room:
        clone = cloned(f"{room}/clone")
        command = ["rt", "check", "--jobs", "1"]
        run = subprocess.Popen(command, cwd=clone / "crates" / name, stdout=subprocess.PIPE, stderr=subprocess.STDOUT, text=True)
        took, before = [], time.time()
        for line in run.stdout:
            now = time.time()
            checked = re.match(rf"checked ({name}::\S+),", line)
            if checked:
                took.append((now - before, checked[1]))
            before = now
        run.wait()
    for seconds, function in sorted(took, reverse=True)[:count]:
        print(f"{seconds:8.1f} s  {function}")
    return run.returncode


def main():
    names = sys.argv[1:]
    unknown = [name for name in names if name not in crates()]
    if unknown:
        sys.exit(f"bench: {unknown[0]} is no crate of crates.txt")
    sys.exit(max(map(slowest, names)) if names else whole())


main()
