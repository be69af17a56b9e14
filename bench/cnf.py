#!/usr/bin/env python3
"""Writes a formula in DIMACS CNF: `pigeons HOLES`, `random SEED VARIABLES RATIO`, `chain CLAUSES`, or `copies FILE N`
of a formula that unit propagation refutes."""
import collections
import random
import sys


def pigeons(holes):
    """One pigeon more than holes, no two in one hole."""
    at = lambda pigeon, hole: pigeon * holes + hole + 1
    clauses = [[at(p, h) for h in range(holes)] for p in range(holes + 1)]
    for h in range(holes):
        for p in range(holes + 1):
            clauses += [[-at(p, h), -at(q, h)] for q in range(p + 1, holes + 1)]
    return (holes + 1) * holes, clauses


def random_3sat(seed, variables, ratio):
    """Clauses of three different variables, so many for each variable."""
    source = random.Random(seed)
    clauses = []
    for _ in range(round(variables * ratio)):
        names = source.sample(range(1, variables + 1), 3)
        clauses.append([name if source.random() < 0.5 else -name for name in names])
    return variables, clauses


def chain(count):
    """Implications one behind the other, refuted by unit propagation alone."""
    clauses = [[1]] + [[-v, v + 1] for v in range(1, count - 1)] + [[-(count - 1)]]
    return count - 1, clauses


def read(file):
    """The variables and the clauses of a file without comments."""
    with open(file) as text:
        variables = int(next(text).split()[2])
        return variables, [[int(word) for word in line.split()[:-1]] for line in text]


def false_clause(clauses):
    """The number of a clause that unit propagation makes false, if there is one."""
    meets = collections.defaultdict(list)
    for number, clause in enumerate(clauses):
        for literal in clause:
            meets[-literal].append(number)
    left, true = [len(clause) for clause in clauses], set()
    todo = [clause[0] for clause in clauses if len(clause) == 1]
    while todo:
        literal = todo.pop()
        if literal in true:
            continue
        true.add(literal)
        for number in meets[literal]:
            left[number] -= 1
            open_ones = [x for x in clauses[number] if -x not in true] if left[number] <= 1 else None
            if open_ones == []:
                return number
            if open_ones and len(open_ones) == 1 and open_ones[0] not in true:
                todo.append(open_ones[0])
    return None


def copies(file, count):
    """Copies of a formula that propagation refutes, each over variables of its own. All but the last lack the clauses
    that propagation makes false, so it goes through all of them before it ends in the last one."""
    variables, clauses = read(file)
    quiet = clauses
    while (number := false_clause(quiet)) is not None:
        quiet = quiet[:number] + quiet[number + 1 :]
    moved = lambda literal, by: literal + by if literal > 0 else literal - by
    made = [
        [moved(literal, copy * variables) for literal in clause]
        for copy in range(count)
        for clause in (clauses if copy == count - 1 else quiet)
    ]
    return count * variables, made


def main():
    kind, *words = sys.argv[1:]
    if kind == "pigeons":
        variables, clauses = pigeons(int(words[0]))
    elif kind == "random":
        variables, clauses = random_3sat(int(words[0]), int(words[1]), float(words[2]))
    elif kind == "copies":
        variables, clauses = copies(words[0], int(words[1]))
    else:
        variables, clauses = chain(int(words[0]))
    print("p cnf", variables, len(clauses))
    for clause in clauses:
        print(*clause, 0)


main()
