#!/usr/bin/env python3
"""Says whether what reads and judges printed reports stands on a crate that solves or makes preconditions.

    bench/replay_base.py [FILE]     FILE is the list of crates (crates.txt)

Status 1 where it does; the crates are named.
"""
import os
import sys

HERE = os.path.dirname(os.path.dirname(os.path.abspath(__file__)))
JUDGES = ["report_read", "report_replay"]
FORBIDDEN = {"cdcl", "cdcl_tables", "ea_decide", "obligation_decide", "pruned_decide", "lean_decide", "lrat_check",
             "clause_form", "rml_wp", "witness"}


def crates(path):
    """Gives the crates below each crate."""
    below = {}
    with open(path, encoding="utf-8") as lines:
        for line in lines:
            name, colon, rest = line.partition(":")
            if colon and not line.startswith("#"):
                below[name.strip()] = rest.split()
    return below


def main():
    below = crates(sys.argv[1] if len(sys.argv) > 1 else f"{HERE}/crates.txt")
    seen, todo = set(), list(JUDGES)
    while todo:
        crate = todo.pop()
        if crate not in seen:
            seen.add(crate)
            todo += below.get(crate, [])
    wrong = sorted(seen & FORBIDDEN)
    standing = ", ".join(sorted(seen - set(JUDGES)))
    print("report_read and report_replay", "stand on " + ", ".join(wrong) if wrong else
          f"stand on no solver and no precondition: {standing}")
    return 1 if wrong else 0


if __name__ == "__main__":
    sys.exit(main())
