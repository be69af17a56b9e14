#!/usr/bin/env python3
"""Turns a solver's proof into a log that `ivycheck lrat` reads: bench/drat.py FILE.cnf FILE.drat >FILE.lrat

DRAT proofs (text, as `cadical --no-binary` writes them) name the clauses that were learnt; LRAT logs name for each also
the clauses from which unit propagation draws it. Each learnt clause is refuted here by propagation, as far as a clause
without literals, and the clauses that were used are its hints, in the order in which they became unit. Deletions are
passed over, since a clause that stays does no harm. A clause that propagation does not draw (a resolution asymmetric
tautology) is told, and the status is 1.
"""
import sys


def read_cnf(text):
    words = [word for line in text.splitlines() if not line.startswith(("c", "p")) for word in line.split()]
    clauses, clause = [], []
    for word in words:
        if word == "0":
            clauses.append(clause)
            clause = []
        else:
            clause.append(int(word))
    return clauses


def read_proof(lines):
    """Gives the clauses that are learnt."""
    for line in lines:
        if line[:1] not in ("d", "c", ""):
            yield [int(word) for word in line.split()[:-1]]


class Drawing:
    """Clauses with two watched literals each, what is true of them alone, and the clause that made it so."""

    def __init__(self):
        self.clauses, self.watches = [], {}
        self.true, self.reason, self.trail, self.done = {}, {}, [], 0

    def set(self, literal, reason):
        self.true[literal], self.reason[literal] = len(self.trail), reason
        self.trail.append(literal)

    def undo(self, length):
        for literal in self.trail[length:]:
            del self.true[literal], self.reason[literal]
        del self.trail[length:]
        self.done = length

    def add(self, clause):
        """Adds a clause, and gives its number where all its literals are false."""
        number = len(self.clauses)
        clause = sorted(set(clause), key=lambda literal: -literal in self.true)
        self.clauses.append(clause)
        for literal in clause[:2]:
            self.watches.setdefault(literal, []).append(number)
        if not clause or -clause[0] in self.true:
            return number
        if (len(clause) == 1 or -clause[1] in self.true) and clause[0] not in self.true:
            self.set(clause[0], number)
        return None

    def propagate(self):
        """Sets what follows, and gives the number of a clause that is false, if there is one."""
        while self.done < len(self.trail):
            false = -self.trail[self.done]
            self.done += 1
            visited, kept = self.watches.get(false, []), []
            for at, number in enumerate(visited):
                clause = self.clauses[number]
                if clause[0] == false and len(clause) > 1:
                    clause[0], clause[1] = clause[1], clause[0]
                other = clause[0]
                if other in self.true and other != false:
                    kept.append(number)
                    continue
                place = next((i for i in range(2, len(clause)) if -clause[i] not in self.true), None)
                if place is not None:
                    clause[1], clause[place] = clause[place], clause[1]
                    self.watches.setdefault(clause[1], []).append(number)
                    continue
                kept.append(number)
                if -other in self.true:
                    self.watches[false] = kept + visited[at + 1:]
                    return number
                self.set(other, number)
            self.watches[false] = kept
        return None

    def hints(self, conflict, assumed, but=None):
        """Gives the clauses that lead to the one that is false, in order; the assumed literals need none."""
        wanted = {-literal for literal in self.clauses[conflict] if literal != but} - assumed
        found = [conflict]
        for literal in reversed(self.trail):
            if literal in wanted:
                number = self.reason[literal]
                found.append(number)
                wanted |= {-other for other in self.clauses[number] if other != literal} - assumed
        return found[::-1]

    def drawn(self, clause):
        """Gives the hints of a clause, or None where propagation does not draw it."""
        before, assumed = len(self.trail), {-literal for literal in clause}
        hints = None
        for literal in clause:
            if literal in self.true and self.true[literal] < before:
                hints = self.hints(self.reason[literal], assumed, literal)
                break
            if -literal not in self.true:
                self.set(-literal, None)
        if hints is None:
            conflict = self.propagate()
            hints = None if conflict is None else self.hints(conflict, assumed)
        self.undo(before)
        return hints


def log_of(clauses, learnt):
    """Gives the lines of the log, the last of which has no literals; or raises ValueError with a clause not drawn."""
    drawing, conflict = Drawing(), None
    for clause in clauses:
        if any(-literal in clause for literal in clause):
            drawing.clauses.append(clause)
        elif conflict is None:
            conflict = drawing.add(clause)
        else:
            drawing.clauses.append(clause)
    conflict = drawing.propagate() if conflict is None else conflict
    for clause in learnt:
        if conflict is not None or not clause:
            break
        hints = drawing.drawn(clause)
        if hints is None:
            raise ValueError(f"not drawn by propagation: {clause}")
        yield line(len(drawing.clauses) + 1, clause, hints)
        conflict = drawing.add(clause)
        conflict = drawing.propagate() if conflict is None else conflict
    if conflict is None:
        raise ValueError("the proof ends before a clause without literals")
    yield line(len(drawing.clauses) + 1, [], drawing.hints(conflict, set()))


def line(number, clause, hints):
    return " ".join(map(str, [number, *clause, 0, *(hint + 1 for hint in hints), 0]))


def main():
    cnf, drat = sys.argv[1:]
    with open(cnf) as it:
        clauses = read_cnf(it.read())
    try:
        with open(drat) as it:
            for text in log_of(clauses, read_proof(it)):
                print(text)
    except ValueError as why:
        sys.exit(f"drat.py: {why}")


if __name__ == "__main__":
    main()
