#!/usr/bin/env python3
"""Proves the goals of models by somebody else's solver: bench/proofs.py [--most N] FILE ..

For each goal of each file its clauses (`emit FILE GOAL cnf`) go to cadical; where it answers that they have no model,
its proof is turned into a log (`drat.py`), which `ivycheck lrat` has to accept over those clauses. So the goal holds,
whatever the solver, the script and the program's own solver do (docs/SCALE.md). A goal of over N clauses (200,000) is
passed over, and counted. Printed is a line for each file; the status is 1 where a log is refused or cannot be made.
IVYCHECK is the program (the one that ./ivycheck runs). It needs cadical.
"""
import argparse
import os
import re
import subprocess
import sys
import tempfile

import drat
from program import program


def run(words, into=None):
    return subprocess.run(words, stdout=into or subprocess.PIPE, stderr=subprocess.PIPE, text=True)


def proved(file, goal, most, room):
    """Gives what comes of a goal: `accepted`, `a model`, `passed over`, or what is wrong."""
    cnf, proof, log = (f"{room}/goal.{it}" for it in ("cnf", "drat", "lrat"))
    with open(cnf, "w") as out:
        emitted = run([program(), "emit", file, str(goal), "cnf"], out)
    if emitted.returncode == 3:
        return "passed over"
    if emitted.returncode:
        return f"emit ended with {emitted.returncode}: {emitted.stderr.strip()}"
    with open(cnf) as it:
        if int(it.readline().split()[3]) > most:
            return "passed over"
    answer = run(["cadical", "-q", "--no-binary", cnf, proof]).returncode
    if answer != 20:
        return "a model" if answer == 10 else f"cadical ended with {answer}"
    try:
        with open(cnf) as it, open(proof) as steps, open(log, "w") as out:
            for line in drat.log_of(drat.read_cnf(it.read()), drat.read_proof(steps)):
                print(line, file=out)
    except ValueError as why:
        return str(why)
    judged = run([program(), "lrat", cnf, log])
    if judged.stdout == "verdict: refuted\n":
        return "accepted"
    return f"lrat says {(judged.stdout + judged.stderr).strip()}"


def main():
    words = argparse.ArgumentParser(description=__doc__, formatter_class=argparse.RawDescriptionHelpFormatter)
    words.add_argument("--most", type=int, default=200_000)
    words.add_argument("files", nargs="+")
    given = words.parse_args()
    wrong = 0
    for file in given.files:
        said = run([program(), "emit", file, "1000000000", "cnf"]).stderr
        counted = re.fullmatch(r"there are (\d+) goals\n", said) or sys.exit(f"proofs.py: {file}: {said.strip()}")
        goals = int(counted[1])
        with tempfile.TemporaryDirectory() as room:
            ends = [proved(file, goal, given.most, room) for goal in range(1, goals + 1)]
        counted = {it: ends.count(it) for it in ("accepted", "a model", "passed over")}
        wrong += goals - sum(counted.values())
        print(f"{os.path.basename(file)}: {goals} goals, {counted['accepted']} proved by cadical, "
              f"{counted['a model']} have a model, {counted['passed over']} passed over", flush=True)
        for goal, end in enumerate(ends, 1):
            if end not in counted:
                print(f"  goal {goal}: {end}")
    sys.exit(wrong > 0)


if __name__ == "__main__":
    main()
