#!/usr/bin/env python3
"""Times `houdini` on models with random conjectures added, beside `check` on what it keeps.

    bench/houdini.py [COUNT [SEED]] [FILE ..]   20 from seed 1 for each file, examples/ without a file; IVYCHECK is the
                                                program (the one that ./ivycheck runs)
    bench/houdini.py COUNT SEED FILE --text     prints the model with the conjectures, and runs nothing

A random conjecture is a clause of one to three literals under `forall`: relations at names of their sorts, or two names
of one sort that are equal, each as it is or negated. They stand at random places among those of the file. The answer is
the file with the kept conjectures alone. Seconds are those of the process on its processor. The status is 1 where a
verdict is missing, or where `check` says of the answer that a conjecture fails.
"""
import os
import random
import re
import sys
import tempfile

import rml
from examples import run
from program import examples, program

VARIABLES = "ABCDEFGH"


def literal(pick, model, bound):
    """One literal; the names that it binds go to `bound`, by their sort."""

    def name(sort):
        known = [x for x, s in bound.items() if s == sort]
        if known and (pick.random() < 0.6 or len(bound) == 4):
            return pick.choice(known)
        if len(bound) == len(VARIABLES):
            return None
        bound[VARIABLES[len(bound)]] = sort
        return list(bound)[-1]

    sign = pick.choice(["", "~"])
    if pick.random() < 0.15 and model.sorts:
        sort = pick.choice(model.sorts)
        return f"{sign}({name(sort)} = {name(sort)})"
    relation, sorts = pick.choice(list(model.relations.items()))
    names = [name(sort) for sort in sorts]
    return f"{sign}{relation}({', '.join(names)})" if names else f"{sign}{relation}"


def conjecture(pick, model, number):
    bound = {}
    clause = " | ".join(literal(pick, model, bound) for _ in range(pick.choice([1, 2, 2, 3])))
    head = ", ".join(f"{x}:{sort}" for x, sort in bound.items())
    return f"conjecture random_{number}: " + (f"forall {head}. {clause}" if head else clause)


def with_random(text, count, seed):
    """The model's text with so many random conjectures among its own."""
    pick, model = random.Random(seed), rml.read(text)
    items = re.split(r"(?m)^(?=conjecture\b)", text.rstrip("\n"))
    for number in range(count):
        items.insert(pick.randrange(1, len(items) + 1), conjecture(pick, model, number))
    return "\n".join(item.rstrip("\n") for item in items) + "\n"


def kept_alone(text, kept):
    """The text without the conjectures that are not kept."""
    items = re.split(r"(?m)^(?=conjecture\b)", text)
    named = [(item, re.match(r"conjecture\s+(\w+)", item)) for item in items]
    return "".join(item for item, name in named if name is None or name[1] in kept)


def timed(word, text):
    with tempfile.NamedTemporaryFile("w", suffix=".rml", encoding="latin-1") as file:
        file.write(text)
        file.flush()
        out, err, seconds, _ = run([program(), word, file.name])
    said = re.search(r"verdict: (.*)", out)
    return out, said[1] if said else err.strip(), seconds, said is not None


def main(words):
    numbers = [int(word) for word in words if word.isdigit()]
    files = [word for word in words if not word.isdigit() and word != "--text"] or examples()
    count, seed = (numbers + [20, 1][len(numbers):])[:2]
    lacks = False
    if "--text" not in words:
        print("| File | Added | Dropped | `houdini` | `check` on the answer | Times |\n|---|---|---|---|---|---|")
    for file in files:
        with open(file, encoding="latin-1") as it:
            text = it.read()
        if "conjecture" not in text:
            continue
        text = with_random(text, count, seed)
        if "--text" in words:
            print(text, end="")
            continue
        out, verdict, found, told = timed("houdini", text)
        dropped = len(re.findall(r"(?m)^drop ", out))
        kept = set(re.findall(r"(?m)^keep (\w+)", out))
        _, answer, checked, also_told = timed("check", kept_alone(text, kept))
        lacks = lacks or not told or not also_told or answer == "not inductive" and verdict == "greatest"
        times = f"{found / checked:.1f}" if checked >= 0.01 else ""
        name = os.path.basename(file)
        print(f"| `{name}` | {count} | {dropped} | {found:.2f} | {checked:.2f} | {times} |", flush=True)
    return 1 if lacks else 0


if __name__ == "__main__":
    sys.exit(main(sys.argv[1:]))
