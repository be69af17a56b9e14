#!/usr/bin/env python3
"""Times the way from sentences to clauses, on the goal of each file that has the most clauses.

    bench/ground.py FILE ..    IVYCHECK is the program (the one that ./ivycheck runs)

The ground size of the goal, that is the counted nodes and axioms, is the least `--ground G` with which `emit FILE GOAL
cnf` gives clauses; with G - 1 the same run ends before any ground term is made. The difference of the two, the least
user and system time of seven runs each and the peak of memory, is the way from the sentence to clauses in memory and,
since `emit` does that too, to their text. Printed are nodes and axioms a second of that time, bytes of memory a clause,
and the bytes of text, which are written at some 300 MB a second.
"""
import os
import subprocess
import sys

from program import program


def run(words):
    """The status, the seconds and the peak in bytes of a run."""
    with open(os.devnull, "w") as nothing:
        child = subprocess.Popen(words, stdout=nothing, stderr=nothing)
        _, status, used = os.wait4(child.pid, 0)
    return os.waitstatus_to_exitcode(status), used.ru_utime + used.ru_stime, used.ru_maxrss * 1024


def least(words):
    """The least seconds and the least peak of seven runs."""
    runs = [run(words) for _ in range(7)]
    return min(seconds for _, seconds, _ in runs), min(peak for _, _, peak in runs)


class Goal:
    """A goal's clauses, as `emit` writes them."""

    def __init__(self, file, number):
        self.words = [program(), "emit", file, str(number), "cnf"]
        self.number = number

    def clauses(self):
        """How many clauses there are, and the bytes of their text; none where there is no such goal."""
        count, size = None, 0
        made = subprocess.Popen(self.with_ground(50_000_000), stdout=subprocess.PIPE, stderr=subprocess.DEVNULL)
        # Line by line, since a child's peak counts what this process had when it began.
        for line in made.stdout:
            size += len(line)
            if count is None and line.startswith(b"p cnf "):
                count = int(line.split()[3])
        made.wait()
        return None if count is None else (count, size)

    def with_ground(self, size):
        """The command with this limit of the ground size."""
        return self.words + ["--terms", "100000", "--ground", str(size)]

    def ground_size(self):
        """The least limit with which there are clauses."""
        low, high = 1, 50_000_000
        while low < high:
            middle = (low + high) // 2
            if run(self.with_ground(middle))[0] == 0:
                high = middle
            else:
                low = middle + 1
        return low


def largest(file):
    """The goal with the most clauses, with their number and the bytes of their text, or None where there is no goal."""
    best, number = None, 1
    while (clauses := Goal(file, number).clauses()) is not None:
        if best is None or clauses > best[1]:
            best = (Goal(file, number), clauses)
        number += 1
    return best


def main():
    print("| Goal | Ground size | Clauses | Text | Seconds | Million nodes a second | Bytes a clause |")
    print("|---|---|---|---|---|---|---|")
    for file in sys.argv[1:]:
        found = largest(file)
        if not found:
            sys.exit(f"ground.py: {file}: there is no goal")
        goal, (clauses, text) = found
        size = goal.ground_size()
        seconds, peak = least(goal.with_ground(size))
        before, without = least(goal.with_ground(size - 1))
        took = max(seconds - before, 1e-6)
        name = f"`{os.path.basename(file)}` {goal.number}"
        made = f"{size:,} | {clauses:,} | {text / 1e6:.1f} MB"
        speed = f"{took:.3f} | {size / took / 1e6:.1f} | {(peak - without) / clauses:.0f}"
        print(f"| {name} | {made} | {speed} |", flush=True)


if __name__ == "__main__":
    main()
