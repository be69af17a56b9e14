#!/usr/bin/env python3
"""Runs the program on models and prints, as a table for bench/README.md, what it says and what that costs.

    bench/examples.py [FILE ..] [-- WORD ..]    each file of examples/, or these; IVYCHECK is the program (the one that
                                                ./ivycheck runs)

The words go behind `check FILE`, as `--conflicts 1000000`. Goals are counted by a goal that there is not. Time is that
of the process on its processor, memory its greatest; both are of one run, so other work on the machine shows. The
status is 1 where a file has no verdict.
"""
import os
import re
import subprocess
import sys
import tempfile

from program import examples, program, split


def run(words):
    """Gives what a program prints, with its seconds and the megabytes of its peak."""
    with tempfile.TemporaryFile("w+") as out, tempfile.TemporaryFile("w+") as err:
        child = subprocess.Popen(words, stdout=out, stderr=err)
        _, _, used = os.wait4(child.pid, 0)
        out.seek(0)
        err.seek(0)
        return out.read(), err.read(), used.ru_utime + used.ru_stime, used.ru_maxrss / 1024


def goals(file):
    """Gives how many goals a model has."""
    found = re.search(r"there are (\d+) goals", run([program(), "emit", file, "1000000000", "cnf"])[1])
    return found[1] if found else "?"


def main():
    files, words = split(sys.argv[1:])
    print("| File | Verdict | Goals | Seconds | Megabytes |\n|---|---|---|---|---|")
    lacks = False
    for file in files or examples():
        out, err, seconds, megabytes = run([program(), "check", file, *words])
        said = re.search(r"verdict: (.*)", out)
        lacks = lacks or not said
        verdict = said[1] if said else err.strip()
        name = os.path.basename(file)
        print(f"| `{name}` | {verdict} | {goals(file)} | {seconds:.2f} | {megabytes:.0f} |", flush=True)
    sys.exit(1 if lacks else 0)


if __name__ == "__main__":
    main()
