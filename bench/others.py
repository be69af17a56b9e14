#!/usr/bin/env python3
"""Gives the logs that `emit FILE GOAL lrat` writes to a checker of others: that of ACL2 (Cruz-Filipe, Heule, Hunt,
Kaufmann, Schneider-Kamp, "Efficient Certified RAT Verification", CADE 2017), which is proved in ACL2.

    bench/others.py FILE .. [-- WORD ..]    needs `apt-get install acl2 acl2-books`; IVYCHECK is the program (the one
                                            that ./ivycheck runs), and the words (--conflicts 1000000) stand behind
                                            `emit FILE GOAL lrat`

It prints for each file how many goals it has, how many hold, and how many of their logs the checker takes; and then,
that it tells, how many it takes of the same logs with the first hint of each log's last line left out. The status is 1
where a log is not taken, or one with a hint less is, or a file has no goals since it has a fault or cannot be read.
"""
import os
import re
import subprocess
import sys
import tempfile

from program import program, split

BOOK = "projects/sat/lrat/list-based/run"


def emit(file, goal, what, words):
    return subprocess.run([program(), "emit", file, str(goal), what, *words], capture_output=True, text=True)


def without_a_hint(log):
    """The log, its last addition without its first hint."""
    lines = log.splitlines()
    last = max(k for k, line in enumerate(lines) if " d " not in line)
    clause, hints = re.fullmatch(r"(\d+ (?:-?[1-9]\d* )*0) (.*)", lines[last]).groups()
    return "\n".join(lines[:last] + [f"{clause} {' '.join(hints.split()[1:])}"]) + "\n"


def taken(folder, pairs):
    """How many of these pairs of files ACL2's checker takes."""
    calls = "".join(f'(lrat::verify-lrat-proof "{cnf}" "{log}")\n' for cnf, log in pairs)
    script = f'(include-book "{BOOK}" :dir :system)\n{calls}(quit)\n'
    said = subprocess.run(["acl2"], input=script, capture_output=True, text=True, cwd=folder).stdout
    return len(re.findall(r"^ T$", said, re.M))


def main():
    files, words = split(sys.argv[1:])
    words, wrong = words or ["--conflicts", "1000000"], False
    print("| File | Goals | Hold | Logs taken | With a hint less |\n|---|---|---|---|---|")
    for file in files:
        found = re.fullmatch(r"there are (\d+) goals\n", emit(file, 1000000000, "cnf", []).stderr)
        if not found:
            sys.exit(f"others.py: {file}: no goals")
        goals = int(found[1])
        with tempfile.TemporaryDirectory() as folder:
            whole, damaged = [], []
            for goal in range(1, goals + 1):
                log = emit(file, goal, "lrat", words)
                if log.returncode != 0:
                    continue
                names = [f"{goal}.cnf", f"{goal}.lrat", f"{goal}-damaged.lrat"]
                texts = [emit(file, goal, "cnf", words).stdout, log.stdout, without_a_hint(log.stdout)]
                for name, text in zip(names, texts):
                    with open(f"{folder}/{name}", "w") as out:
                        out.write(text)
                whole.append(names[:2])
                damaged.append([names[0], names[2]])
            right, less = taken(folder, whole), taken(folder, damaged)
            wrong = wrong or right != len(whole) or less > 0
            print(f"| `{os.path.basename(file)}` | {goals} | {len(whole)} | {right} | {less} |", flush=True)
    sys.exit(1 if wrong else 0)


if __name__ == "__main__":
    main()
