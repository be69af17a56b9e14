#!/usr/bin/env python3
"""Replays a long report: a counterexample with full tables, of so many megabytes.

    bench/long_report.py [MEGABYTES [SECONDS]]    256 megabytes, the most that is read; IVYCHECK is the program

Prints the report's bytes, the seconds, and the memory as a multiple of the bytes. The status is 1 where the report is
not confirmed, where a minute (or SECONDS) is not enough, or where more than twice its bytes of memory are taken; 2 where
the words are others, or the program cannot be run.
"""
import io
import os
import resource
import subprocess
import sys
import tempfile
import time

from program import program, stop

MODEL = """sort a
relation r(a, a)
relation p
init { p := false }
action t { p := true }
conjecture c: ~p
"""
MOST = 268_435_456


def report(size, out, is_full=True, takes=""):
    """Writes a report whose structures have so many elements, all tuples in the relation or none; what havocs take."""
    out.write("axioms: consistent\ninit abort: holds\ninit c: holds\naction t abort: holds\naction t c: fails\n"
              f"  path 1 of 1\n  least: yes\n  before\n    sort a {size}\n")
    for truth, behind in (("false", f"  havoc:{takes}\n  after\n"), ("true", "  values:\n")):
        out.write("    relation r:")
        for x in range(size if is_full else 0):
            out.write("".join(f" ({x},{y})" for y in range(size)))
        out.write(f"\n    relation p: {truth}\n{behind}")
    out.write("final abort: holds\nverdict: not inductive\n")


def text(size, *more):
    """Gives such a report."""
    out = io.StringIO()
    report(size, out, *more)
    return out.getvalue()


def length(size):
    """Gives how many bytes the tables of such a report take."""
    digits = sum(len(str(x)) for x in range(size))
    return 2 * (size * size * 4 + 2 * size * digits)


def replay(room, limit):
    """Gives what the program says of the report, and whether it is that it is confirmed."""
    command = [program(), "replay", f"{room}/model", f"{room}/report"]
    try:
        ran = subprocess.run(command, capture_output=True, text=True, errors="replace", timeout=limit)
    except subprocess.TimeoutExpired:
        return f"no answer in {limit:g} s", False
    except OSError as why:
        stop(why)
    told = (ran.stdout + ran.stderr).strip().replace("\n", ", ")
    if ran.returncode:
        told += f", status {ran.returncode}"
    return told or "nothing", not ran.returncode and ran.stdout == "executions 1\nverdict: confirmed\n"


def read_words(words):
    """Gives how many bytes the report may have, and how many seconds its replay."""
    try:
        megabytes, seconds = (*map(float, words), *(256, 60)[len(words):])
        if not (megabytes > 0 and 0 < seconds < 1e6):
            raise ValueError
    except ValueError:
        stop(__doc__)
    return min(int(min(megabytes, 256) * 2 ** 20), MOST), seconds


def main():
    most, limit = read_words(sys.argv[1:])
    size = 1
    while length(size + 1) + 400 <= most:
        size += 1
    with tempfile.TemporaryDirectory() as room:
        with open(f"{room}/model", "w", encoding="ascii") as out:
            out.write(MODEL)
        with open(f"{room}/report", "w", encoding="ascii") as out:
            report(size, out)
        count = os.path.getsize(f"{room}/report")
        begin = time.monotonic()
        told, is_confirmed = replay(room, limit)
        seconds = time.monotonic() - begin
    memory = resource.getrusage(resource.RUSAGE_CHILDREN).ru_maxrss * 1024
    print(f"{count} bytes, {size} elements: {told}; {seconds:.2f} s, memory {memory / count:.2f} times the bytes")
    return 0 if is_confirmed and seconds < limit and memory < 2 * count + 2 ** 24 else 1


if __name__ == "__main__":
    sys.exit(main())
