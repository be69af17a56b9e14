#!/usr/bin/env python3
"""Decides the goals of models by minisat, and holds to that what `ivycheck` says of them.

    bench/goals.py [--conflicts N] [--most K] FILE ..    IVYCHECK is the program (the one that ./ivycheck runs)

For each file each goal's clauses (`emit FILE GOAL cnf`) go to `minisat -no-pre`. Then what is said of the goals is
compared: by each `emit FILE GOAL lrat` (0 where it holds, 1 where it fails), and by the report of `check`: each group
has to hold where all its goals do, and else to fail at the first path whose goal does; and the verdict has to be so.
Which goals are a group's is read off the text's blocks. A file of over K goals (200) is passed over, by name.

Printed are, for each file, the goals, how many hold, and the processor seconds and peak megabytes of `check`, of all
`emit .. cnf`, of all `emit .. lrat` and of all runs of minisat; then whatever is not as minisat has it. The status is 1
where that is something, or a file has no goals since it has a fault or cannot be read. It needs minisat.
"""
import argparse
import os
import re
import subprocess
import sys
import tempfile

import rml
from program import program


class Sum:
    """Seconds in all, and the greatest memory."""

    def __init__(self):
        self.seconds, self.megabytes = 0.0, 0.0

    def run(self, words, into=None):
        """Runs a program, and gives its status and what it says on both streams; the first may go to a file."""
        with tempfile.TemporaryFile("w+") as out, tempfile.TemporaryFile("w+") as err:
            child = subprocess.Popen(words, stdout=into or out, stderr=err)
            _, status, used = os.wait4(child.pid, 0)
            self.seconds += used.ru_utime + used.ru_stime
            self.megabytes = max(self.megabytes, used.ru_maxrss / 1024)
            out.seek(0)
            err.seek(0)
            return os.waitstatus_to_exitcode(status), out.read(), err.read()

    def __str__(self):
        return f"{self.seconds:.2f} s, {self.megabytes:.0f} MB"


def groups(model):
    """Gives for each group of the report its head, how many paths its block has, and the paths of its goals."""
    for stage, paths in model.stages():
        aborting = [k for k, path in enumerate(paths, 1) if path and path[-1] == ("abort",)]
        others = [k for k in range(1, len(paths) + 1) if k not in aborting]
        yield f"{stage} abort", len(paths), aborting
        for name, _ in model.conjectures if stage != "final" else []:
            yield f"{stage} {name}", len(paths), others


def wanted(text, fails):
    """Gives the report's lines on groups and the verdict, where these goals fail and all others hold."""
    number, lines = 0, []
    for head, paths, own in groups(rml.read(text)):
        failing = [path for k, path in enumerate(own, number + 1) if k in fails]
        number += len(own)
        lines.append(f"{head}: fails, path {failing[0]} of {paths}" if failing else f"{head}: holds")
    return number, [*lines, f"verdict: {'not inductive' if fails else 'inductive'}"]


def said(report):
    """Gives these lines as a report has them."""
    joined = re.sub(r": fails\n  path (\d+ of \d+)\n", r": fails, path \1\n", report)
    return [it for it in joined.splitlines() if re.match(r"\S", it) and not it.startswith("axioms: ")]


def decided(file, goal, limits, cnf, lrat, minisat):
    """Gives the statuses of both on a goal, and what `emit` says."""
    with tempfile.NamedTemporaryFile("w+") as clauses:
        status, _, err = cnf.run([program(), "emit", file, str(goal), "cnf", *limits], clauses)
        ours = lrat.run([program(), "emit", file, str(goal), "lrat", *limits])[0]
        theirs = minisat.run(["minisat", "-no-pre", "-verb=0", clauses.name])[0] if status == 0 else None
        return ours, theirs, err.strip()


def compare(file, limits, most):
    """Compares on the goals of a file, and gives how much is not as minisat has it."""
    name = os.path.basename(file)
    status, _, err = Sum().run([program(), "emit", file, "1000000000", "cnf"])
    found = re.fullmatch(r"there are (\d+) goals\n", err)
    if not found:
        print(f"{name}: no goals: status {status} {err.strip()}")
        return 1
    goals = int(found[1])
    if goals > most:
        print(f"{name}: {goals} goals, passed over")
        return 0
    check, cnf, lrat, minisat = Sum(), Sum(), Sum(), Sum()
    status, report, _ = check.run([program(), "check", file, *limits])
    told, theirs_fail, holds = [], set(), 0
    for goal in range(1, goals + 1):
        ours, theirs, err = decided(file, goal, limits, cnf, lrat, minisat)
        # minisat ends with 10 where there is a model, and with 20 where there is none
        holds += theirs == 20
        theirs_fail |= {goal} if theirs == 10 else set()
        if (ours, theirs) not in ((0, 20), (1, 10)):
            told.append(f"  goal {goal}: emit ended with {ours}, minisat with {theirs} {err}")
    with open(file, encoding="latin-1") as text:
        count, lines = wanted(text.read(), theirs_fail)
    if count != goals:
        told.append(f"  emit has {goals} goals, the blocks of the text {count}")
    for line, by_minisat in zip([*said(report), *[""] * len(lines)], lines):
        if line != by_minisat:
            told.append(f"  check says '{line}', by minisat it is '{by_minisat}'")
    if status != (1 if theirs_fail else 0):
        told.append(f"  check ended with {status}")
    print(f"{name}: {goals} goals, {holds} hold")
    print(f"  check {check}; emit cnf {cnf}; emit lrat {lrat}; minisat {minisat}")
    print("\n".join(told), end="\n" if told else "", flush=True)
    return len(told)


def main():
    words = argparse.ArgumentParser(description=__doc__, formatter_class=argparse.RawDescriptionHelpFormatter)
    words.add_argument("--conflicts", default="1000000")
    words.add_argument("--most", type=int, default=200)
    words.add_argument("files", nargs="+")
    given = words.parse_args()
    told = [compare(file, ["--conflicts", given.conflicts], given.most) for file in given.files]
    sys.exit(1 if any(told) else 0)


if __name__ == "__main__":
    main()
