#!/usr/bin/env python3
"""Decides the goals of a model by z3, each as one quantified formula, and prints a line for each group as `check` does.

    bench/z3_goals.py FILE [MILLISECONDS]     the limit for one goal (default 60000)

The formula of a goal says that the axioms and, but for init, the conjectures hold, that the path can be taken, and that
it aborts or ends where the conjecture is false. Symbols that an update changes are read through it. Its last line is
`verdict: ..`; the status is 0 where all goals hold, 1 where one fails, 3 where one is left open, and 2 where there is no
verdict: without z3, without a text of a model, or where z3 ends otherwise. For `bench/README.md`: the time of this whole process beside that of `check`. It needs z3's Python interface (Debian: python3-z3).
"""
import sys

import rml
from program import stop

try:
    import z3
except ImportError:
    stop("no z3 for Python here")


class State:
    """What each symbol means, and what must be so to come here."""

    def __init__(self, model):
        self.model, self.count = model, 0
        self.sorts = {name: z3.DeclareSort(name) for name in model.sorts}
        self.means, self.asked = {}, []
        for name, sorts in model.relations.items():
            self.means[name] = z3.Function(name, *map(self.sorts.get, sorts), z3.BoolSort())
        for name, (sorts, into) in model.functions.items():
            self.means[name] = z3.Function(name, *map(self.sorts.get, sorts), self.sorts[into])

    def fresh(self, sort):
        self.count += 1
        return z3.Const(f"#{self.count}", self.sorts[sort])

    def value(self, e, env):
        word = e[0]
        if word in ("rel", "app"):
            return self.means[e[1]](*[self.value(t, env) for t in e[2]])
        if word == "bound":
            return env[e[1]]
        if word == "true" or word == "false":
            return z3.BoolVal(word == "true")
        if word in ("and", "or"):
            return (z3.And if word == "and" else z3.Or)([self.value(p, env) for p in e[1]])
        if word in ("forall", "exists"):
            bound = [(x, self.fresh(sort)) for x, sort in e[1]]
            quantifier = z3.ForAll if word == "forall" else z3.Exists
            return quantifier([c for _, c in bound], self.value(e[2], env | dict(bound)))
        parts = [self.value(p, env) for p in e[1:]]
        if word == "not":
            return z3.Not(parts[0])
        if word == "implies":
            return z3.Implies(*parts)
        return z3.If(*parts) if word == "ite" else parts[0] == parts[1]

    def ask(self, sentences):
        self.asked += [self.value(p, {}) for _, p in sentences]

    def step(self, primitive):
        if primitive[0] == "assume":
            self.asked.append(self.value(primitive[1], {}))
        elif primitive[0] == "set":
            self.update(*primitive[1:])
        elif primitive[0] == "havoc":
            self.means = self.means | {primitive[1]: self.anything(primitive[1])}
            self.ask(self.model.axioms)

    def anything(self, symbol):
        """A meaning of which nothing is known."""
        if symbol in self.model.functions:
            one = self.fresh(self.model.functions[symbol][1])
            return lambda: one
        self.count += 1
        sorts = map(self.sorts.get, self.model.relations[symbol])
        return z3.Function(f"#{self.count}", *sorts, z3.BoolSort())

    def update(self, name, names, side):
        old = State.__new__(State)
        old.__dict__ = self.__dict__.copy()

        def new(*args):
            old.count = self.count
            it = old.value(side, dict(zip(names, args)))
            self.count = old.count
            return it

        self.means = self.means | {name: new}
        self.ask(self.model.axioms)


def decide(model, stage, path, c, limit):
    state = State(model)
    state.ask(model.axioms)
    if stage != "init":
        state.ask(model.conjectures)
    for primitive in path:
        state.step(primitive)
    solver = z3.Solver()
    solver.set("timeout", limit)
    solver.add(*state.asked)
    if c is not None:
        solver.add(z3.Not(state.value(c, {})))
    return {"unsat": "holds", "sat": "fails"}.get(str(solver.check()), "undecided")


def main(words):
    if len(words) not in (1, 2):
        stop(__doc__)
    with open(words[0], encoding="latin-1") as it:
        model = rml.read(it.read())
    limit, groups = int((words[1:] or ["60000"])[0]), {}
    for stage, _, path, name, c in model.goals():
        groups.setdefault(f"{stage} {name or 'abort'}", []).append(decide(model, stage, path, c, limit))
    found = {head: next((it for it in ("fails", "undecided") if it in all_), "holds") for head, all_ in groups.items()}
    for head, it in found.items():
        print(f"{head}: {it}")
    for verdict, it, status in (("not inductive", "fails", 1), ("undecided", "undecided", 3), ("inductive", None, 0)):
        if it is None or it in found.values():
            print(f"verdict: {verdict}")
            return status


if __name__ == "__main__":
    try:
        sys.exit(main(sys.argv[1:]))
    except Exception as why:  # (a trace would end with 1, the status of a goal that fails)
        stop(f"{' '.join(sys.argv[1:])}: {type(why).__name__} {why}")
