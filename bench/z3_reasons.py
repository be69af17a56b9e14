#!/usr/bin/env python3
"""Finds by z3 which conjectures carry each group of a model, and what fails without each of them.

    bench/z3_reasons.py FILE [MILLISECONDS]     the limit for one goal (default 60000)

The lists are found in the same order: no conjecture, the group's own, all; then one after another is left out. Each
line below a group names a conjecture of its list, and the first path that fails, or that z3 leaves open, without it. It
needs z3's Python interface (Debian: python3-z3).
"""
import copy
import sys

import rml
import z3_goals
from program import stop


def first_lack(model, goals, held, limit):
    """The first path that fails where these conjectures are held, else the first that is left open, else nothing."""
    holding, left_open = copy.copy(model), None
    holding.conjectures = [it for it in model.conjectures if it[0] in held]
    for stage, number, path, c in goals:
        answer = z3_goals.decide(holding, stage, path, c, limit)
        if answer == "fails":
            return f"path {number} fails"
        if answer == "undecided":
            left_open = left_open or f"path {number} is left open"
    return left_open


def carried(model, goals, own, limit):
    """The list, with what is lacking without each; or what is lacking where all are held."""
    names = [name for name, _ in model.conjectures]
    tried = ([], [own] if own else [], names)
    held = next((it for it in tried if not first_lack(model, goals, it, limit)), None)
    if held is None:
        return None, first_lack(model, goals, names, limit)
    for name in list(held):
        fewer = [it for it in held if it != name]
        held = held if first_lack(model, goals, fewer, limit) else fewer
    return [(name, first_lack(model, goals, [it for it in held if it != name], limit)) for name in held], None


def main(words):
    if len(words) not in (1, 2):
        stop(__doc__)
    with open(words[0], encoding="latin-1") as it:
        model = rml.read(it.read())
    limit, groups = int((words[1:] or ["60000"])[0]), {}
    for stage, number, path, name, c in model.goals():
        groups.setdefault((stage, name), []).append((stage, number, path, c))
    for stage in ["init", *dict.fromkeys(it for it, _ in groups if it not in ("init", "final")), "final"]:
        for name in [None] if stage == "final" else [None, *[name for name, _ in model.conjectures]]:
            needs, lack = carried(model, groups.get((stage, name), []), name, limit)
            head = f"  {stage} {name or 'abort'}: carried by"
            none = "nothing, with all held " + lack if needs is None else "no conjecture"
            print(head if needs else f"{head} {none}")
            for need, without in needs or []:
                print(f"    {need}, without which {without}")


if __name__ == "__main__":
    main(sys.argv[1:])
