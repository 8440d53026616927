#!/usr/bin/env python3
"""Holds that a crate cites of a lower crate's proofs only what that crate offers, in its proofs/Offered.antt."""
import pathlib
import re
import sys

CRATES = pathlib.Path(__file__).resolve().parent.parent / "crates"
CITED = re.compile(r"\bRattle\.(\w+)\.proofs\.(\w+)")


def beyond():
    """What is cited past what is offered, and where."""
    names = {it.name for it in CRATES.iterdir()}
    for folder in sorted(CRATES.iterdir()):
        for part in ("src", "specs", "proofs"):
            for file in sorted((folder / part).rglob("*")):
                if file.suffix in (".rt", ".antt"):
                    for crate, module in CITED.findall(file.read_text()):
                        if crate in names - {folder.name} and module != "Offered":
                            yield f"{file.relative_to(CRATES)} cites the module {module} of {crate}'s proofs"


def main():
    found = list(beyond())
    for line in found:
        print(f"layers: {line}")
    print("layers: all as wanted" if not found else f"layers: {len(found)} citations past what is offered")
    sys.exit(1 if found else 0)


main()
