#!/usr/bin/env python3
"""Writes rows on each proper prefix of each file of examples/, for crates/rows/data/prefixes.txt; or replays each
proper prefix of the reports of those files.

    bench/prefixes.py [NAME ..] >crates/rows/data/prefixes.txt    all files, or these; IVYCHECK is the program (the one
                                                                  that ./ivycheck runs)
    bench/prefixes.py --reports [--step N] [NAME ..]              each prefix, or each Nth, of what `check` prints

A row says how many of the runs on the prefixes end with each status. The numbers are those of the program that is run:
a change of them is to be looked at before it is written down. The limits are small, so that nothing is decided that
takes time: what is shown is that each prefix is answered.

A report that is cut off is none: `replay` has to name the line where it ends (P1, with the status 4), and the whole
report is confirmed. What is answered otherwise is printed; the last line is `N prefixes of M reports, D differ`, and
the status is 1 where one differs. It takes the processors that it may run on (all, or those of `taskset`).
"""
import argparse
import collections
import os
import subprocess
import sys
import tempfile
from concurrent.futures import ThreadPoolExecutor

from program import HERE, examples, lanes, program

WORDS = ["--terms", "12", "--ground", "2000", "--conflicts", "10"]


def written(folder, name, text):
    """Writes a file, and gives its path."""
    path = f"{folder}/{name}"
    with open(path, "wb") as out:
        out.write(text)
    return path


def write_rows(names, folder, pool):
    """Prints a row for each of these files."""
    print("# Each proper prefix of each file of examples/, written by bench/prefixes.py.")
    print("# The format is that of rows.txt.")
    for name in names:
        with open(f"{HERE}/examples/{name}", "rb") as file:
            text = file.read()

        def status(end):
            path = written(folder, f"{name}.{end}", text[:end])
            ended = subprocess.run([program(), "check", path, *WORDS], capture_output=True).returncode
            os.remove(path)
            return ended

        counts = collections.Counter(pool.map(status, range(len(text))))
        said = ", ".join(f"{status}: {count}" for status, count in sorted(counts.items()))
        words = "".join(f"word {word}\n" for word in ["check", f"examples/{name}", *WORDS])
        print(f"\nrow each prefix of {name}\n{words}on-disk\neach-prefix examples/{name} {said}", flush=True)


def replayed(model, path):
    """Gives the status of `replay`, and what it says on both streams."""
    ran = subprocess.run([program(), "replay", model, path], capture_output=True)
    return ran.returncode, (ran.stdout + ran.stderr).decode()


def wanted(report, end):
    """Gives what `replay` has to answer to the first bytes of a report, so many of them."""
    if end == len(report):
        return 0, f"executions {report.count(b': fails')}\nverdict: confirmed\n"
    line = report.count(b"\n", 0, end) + 1
    return 4, f"P1 at line {line}: unexpected line\n"


def replay_prefixes(names, step, folder, pool):
    """Replays each prefix of the report of each of these files, and gives whether all is as wanted."""
    tried, differ = 0, 0
    for name in names:
        model = f"{HERE}/examples/{name}"
        report = subprocess.run([program(), "check", model], capture_output=True).stdout

        def answer(end):
            path = written(folder, f"{name}.{end}", report[:end])
            told = replayed(model, path)
            os.remove(path)
            return told

        ends = [*range(0, len(report), step), len(report)]
        for end, told in zip(ends, pool.map(answer, ends)):
            if told != wanted(report, end):
                differ += 1
                print(f"{name}: the first {end} of {len(report)} bytes: told {told}, wanted {wanted(report, end)}")
        tried += len(ends) - 1
    print(f"{tried} prefixes of {len(names)} reports, {differ} differ")
    return not differ


def main():
    words = argparse.ArgumentParser(description=__doc__, formatter_class=argparse.RawDescriptionHelpFormatter)
    words.add_argument("--reports", action="store_true")
    words.add_argument("--step", type=int, default=1, metavar="N")
    words.add_argument("names", nargs="*", metavar="NAME")
    asked = words.parse_args()
    names = asked.names or [os.path.basename(path) for path in examples()]
    with tempfile.TemporaryDirectory() as folder, ThreadPoolExecutor(lanes()) as pool:
        if asked.reports:
            return 0 if replay_prefixes(names, asked.step, folder, pool) else 1
        write_rows(names, folder, pool)
    return 0


if __name__ == "__main__":
    sys.exit(main())
