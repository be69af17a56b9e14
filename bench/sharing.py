#!/usr/bin/env python3
"""Counts how much of what `check` builds is shared: the nodes of the refuting sentences of a model's goals as trees, and
how many of these are different as subtrees, within one sentence and over all sentences of the model.

    bench/sharing.py [FILE ..]      each file of examples/, or these

A refuting sentence is the axioms, the conjectures unless the goal is of init, and the negation of the path's
precondition; behind each step that changes a symbol all axioms are premises. It is made here by itself, from the text,
in one pool for the model: so a tree of any size takes what its different parts take.
"""
import sys

from program import examples, stop
from rml import read



class Pool:
    """Formulas and terms as tuples of a word, a name or number, and the numbers of their parts; each stands once."""

    def __init__(self):
        self.number, self.shapes, self.sizes = {}, [], []

    def add(self, word, name=None, parts=()):
        shape = word, name, tuple(parts)
        if shape not in self.number:
            self.number[shape] = len(self.shapes)
            self.shapes.append(shape)
            self.sizes.append(1 + sum(self.sizes[part] for part in parts))
        return self.number[shape]

    def tree(self, e, names):
        """The node of an expression whose bound names, nearest last, are these."""
        word = e[0]
        if word == "bound":
            return self.add("bound", names[::-1].index(e[1]))
        if word in ("forall", "exists"):
            node = self.tree(e[2], names + [x for x, _ in e[1]])
            for _, sort in reversed(e[1]):
                node = self.add(word, sort, [node])
            return node
        if word in ("rel", "app"):
            return self.add(word, e[1], [self.tree(t, names) for t in e[2]])
        parts = e[1] if word in ("and", "or") else e[1:]
        return self.add(word, None, [self.tree(part, names) for part in parts])

    def built_again(self, node, depth, change, known):
        """The node with `change` at each of its parts; change answers None where the part stays what it is."""
        if (node, depth) not in known:
            word, name, parts = self.shapes[node]
            below = depth + (word in ("forall", "exists"))
            again = [self.built_again(part, below, change, known) for part in parts]
            changed = change(word, name, again, depth)
            known[node, depth] = self.add(word, name, again) if changed is None else changed
        return known[node, depth]

    def shifted(self, node, by):
        return self.built_again(node, 0, lambda word, i, _, d: self.add(word, i + by)
                                if word == "bound" and i >= d else None, {}) if by else node

    def with_arguments(self, side, args):
        """The right side of an update at these arguments, which stand for its parameters."""
        count = len(args)

        def change(word, i, _, depth):
            if word == "bound" and i >= depth:
                return self.shifted(args[count - 1 - (i - depth)], depth)
            return None
        return self.built_again(side, 0, change, {})

    def reached(self, roots):
        """How many nodes these have, each once."""
        seen, left = set(), list(roots)
        while left:
            node = left.pop()
            if node not in seen:
                seen.add(node)
                left += self.shapes[node][2]
        return len(seen)


def back(pool, model, axioms, step, rest):
    """The precondition of a step, before a rest that has this precondition."""
    word = step[0]
    if word == "abort":
        return pool.add("false")
    if word == "assume":
        return pool.add("implies", None, [pool.tree(step[1], []), rest])
    symbol, lawful = step[1], pool.add("implies", None, [axioms, rest])
    if word == "set":
        side = pool.tree(step[3], list(step[2]))
        return pool.built_again(lawful, 0, lambda w, name, parts, _: pool.with_arguments(side, parts)
                                if w in ("rel", "app") and name == symbol else None, {})
    if symbol in model.relations:
        return pool.built_again(lawful, 0, lambda w, name, parts, _: pool.add("rel", (symbol, rest), parts)
                                if w == "rel" and name == symbol else None, {})
    body = pool.built_again(lawful, 0, lambda w, name, _, depth: pool.add("bound", depth)
                            if w == "app" and name == symbol else None, {})
    return pool.add("forall", model.functions[symbol][1], [body])


def sentences(pool, model):
    """The refuting sentence of each goal."""
    axioms = pool.add("and", None, [pool.tree(e, []) for _, e in model.axioms])
    held = pool.add("and", None, [pool.tree(e, []) for _, e in model.conjectures])
    for stage, _, path, _, target in model.goals():
        node = pool.tree(target or ("true",), [])
        for step in reversed(path):
            node = back(pool, model, axioms, step, node)
        yield pool.add("and", None, [axioms, *([] if stage == "init" else [held]), pool.add("not", None, [node])])


def main():
    print("| File | Goals | Nodes of the trees | of the largest | Different, each sentence | all sentences |")
    print("|---|---|---|---|---|---|")
    for path in sys.argv[1:] or examples():
        try:
            with open(path) as it:
                model = read(it.read())
        except (OSError, ValueError) as why:
            stop(f"{path}: {why}")
        pool = Pool()
        roots = list(sentences(pool, model))
        sizes = [pool.sizes[root] for root in roots]
        apart = sum(pool.reached([root]) for root in roots)
        print(f"| `{path.rpartition('/')[2]}` | {len(roots)} | {sum(sizes)} | {max(sizes, default=0)} | {apart} |"
              f" {pool.reached(roots)} |")


if __name__ == "__main__":
    main()
