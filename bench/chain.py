#!/usr/bin/env python3
"""Writes a CNF and a refutation of it: a chain of implications over N variables, and a log that walks it
in stretches of STEP hints, TIMES times.

    chain.py N STEP TIMES CNF LOG
"""
import sys


def write_cnf(path, n):
    with open(path, "w") as out:
        out.write(f"p cnf {n} {n + 1}\n1 0\n")
        for variable in range(1, n):
            out.write(f"-{variable} {variable + 1} 0\n")
        out.write(f"-{n} 0\n")


def hints(above, below):
    """The clauses that lead from `above` down to `below`, the nearest first."""
    return " ".join(str(variable + 1) for variable in range(above - 1, below - 1, -1))


def write_log(path, n, step, times):
    next_id = n + 2
    with open(path, "w") as out:
        for _ in range(times):
            known, known_id = 1, 1
            for variable in range(1 + step, n + 1, step):
                out.write(f"{next_id} {variable} 0 {hints(variable, known)} {known_id} 0\n")
                known, known_id = variable, next_id
                next_id += 1
        out.write(f"{next_id} 0 {n + 1} {hints(n, known)} {known_id} 0\n")


def main():
    n, step, times = (int(word) for word in sys.argv[1:4])
    write_cnf(sys.argv[4], n)
    write_log(sys.argv[5], n, step, times)


if __name__ == "__main__":
    main()
