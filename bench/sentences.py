#!/usr/bin/env python3
"""Times the way from goals to sentences: preconditions, normal forms, Skolem constants, and the counts of their ground
terms. `check FILE --terms 1 --ground 1` makes them for each goal, and decides none that has more than one ground term.

    bench/sentences.py [FILE ..]    each file of examples/, or these; IVYCHECK is the program (the one that ./ivycheck
                                    runs)

User and system time of the whole process, the least of five runs; beside it that of reading alone, which is the time of
`emit FILE 1000000000 cnf` (there is no such goal). The last line is a path of 900 updates under axioms of 1,091 nodes.
"""
import os
import subprocess
import sys
import tempfile

from program import examples, program


def seconds(words):
    """The least time of five runs."""
    best = float("inf")
    for _ in range(5):
        child = subprocess.Popen(words, stdout=subprocess.DEVNULL, stderr=subprocess.DEVNULL)
        _, _, used = os.wait4(child.pid, 0)
        best = min(best, used.ru_utime + used.ru_stime)
    return best


def long_path():
    """900 times `p := p`, and axioms of 1,091 nodes in all: ten, each of a conjunction of 36 equations. The
    precondition then has 982,801 nodes, which is within the limit."""
    equations = " & ".join(["u = v"] * 36)
    axioms = "".join(f"axiom x{i}: {equations}\n" for i in range(10))
    return ("sort a\nrelation p\nvariable u : a\nvariable v : a\n" + axioms + "action t {" + "p := p; " * 900
            + "}\nconjecture c: p\n")


def main():
    whole, reading = 0.0, 0.0
    print("| File | All sentences | Reading alone |\n|---|---|---|")
    with tempfile.TemporaryDirectory() as folder:
        path = f"{folder}/path.rml"
        with open(path, "w") as out:
            out.write(long_path())
        files = sys.argv[1:] or examples()
        for file in files + [path]:
            made = seconds([program(), "check", file, "--terms", "1", "--ground", "1"])
            read = seconds([program(), "emit", file, "1000000000", "cnf"])
            if file != path:
                whole, reading = whole + made, reading + read
            name = "900 updates" if file == path else f"`{os.path.basename(file)}`"
            print(f"| {name} | {made:.4f} s | {read:.4f} s |", flush=True)
    print(f"| all but the last | {whole:.3f} s | {reading:.3f} s |")


if __name__ == "__main__":
    main()
