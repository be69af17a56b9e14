#!/usr/bin/env python3
"""Tells how deep the walks along a formula go on the stack: the deepest text that a stack of 512 KB takes, and the
smallest stack that takes the deepest.

    bench/depths.py [--stack KB] [--jobs N] [TITLE ..]

Each text is legal and has a formula that is as deep as its number says; no formula may be over 1,000 deep, and each
text stands for one way to make one: definitions of definitions, updates of updates, and parentheses, which the grammar
allows 99 deep. It is given to each command of both programs (those of IVYCHECK and IVYVIEW, else of ./ivycheck and
./ivyview), and answered where output and status are those under 64 MB of stack. TITLE takes the texts whose title has
these words. Prints a line for each text and command; the status is 1 where the deepest is not answered with 8 MB, which
the system gives.
"""
import argparse
import resource
import subprocess
import sys
import tempfile
from concurrent.futures import ThreadPoolExecutor

from program import lanes, program

HEAD = "rml 2\nsort a\nrelation p\nrelation q\nrelation r(a)\nvariable v:a\n"
# What is answered at once: what is decided is not deep.
LIMITS = ["--terms", "1", "--ground", "1"]
COMMANDS = [("ivycheck", "check", LIMITS), ("ivycheck", "bmc", [*LIMITS, "--steps", "1"]),
            ("ivycheck", "houdini", LIMITS), ("ivycheck", "replay", []),
            ("ivyview", "check", [*LIMITS, "--lean"]), ("ivyview", "why", LIMITS)]
AMPLE, USUAL = 64 << 10, 8 << 10


def defined(step):
    """Definitions of definitions; each step is over the name before."""
    def text(depth):
        return (HEAD + "define d0 := p\n" + "".join(f"define d{i + 1} := {step(f'd{i}')}\n" for i in range(depth - 2))
                + f"action t {{ q := p }}\nconjecture c: d{depth - 2}\n")
    return text


def updated(depth):
    return HEAD + "action t {" + "p := p & q;" * (depth - 2) + "}\nconjecture c: p\n"


def parenthesised(depth):
    return HEAD + "action t { q := p }\nconjecture c: " + "(~" * depth + "p" + ")" * depth + "\n"


def conditional(depth):
    return HEAD + "action t { q := p }\nconjecture c: " + "ite(p," * depth + "v" + ",v)" * depth + " = v\n"


# Title, text by depth, greatest depth.
TEXTS = [("conjunctions of definitions", defined(lambda name: f"{name} & q"), 990),
         ("equivalences of definitions", defined(lambda name: f"q <-> {name}"), 20),
         ("negations of definitions", defined(lambda name: f"~{name}"), 990),
         ("implications of definitions", defined(lambda name: f"{name} -> q"), 490),
         ("updates of what was updated", updated, 900),
         ("parentheses", parenthesised, 49),
         ("conditional terms", conditional, 90)]


def answer(words, stack):
    """Gives status and output of a run with a stack of so many kilobytes."""
    def held():
        resource.setrlimit(resource.RLIMIT_STACK, (stack << 10, stack << 10))
    done = subprocess.run(words, capture_output=True, preexec_fn=held)
    return done.returncode, done.stdout


def greatest(low, high, holds):
    """Gives the greatest number from `low` to `high` for which `holds`, which no number behind it does; or None."""
    if not holds(low):
        return None
    while low < high:
        middle = (low + high + 1) // 2
        low, high = (middle, high) if holds(middle) else (low, middle - 1)
    return low


def line(title, text, most, command, stack):
    """Gives the cells of a text and a command, and whether 8 MB were enough."""
    name, word, behind = command
    with tempfile.TemporaryDirectory() as folder:
        def words(depth):
            with open(f"{folder}/m.rml", "w") as out:
                out.write(text(depth))
            with open(f"{folder}/m.out", "w") as out:
                out.write("axioms: consistent\n")
            files = [f"{folder}/m.rml", f"{folder}/m.out"][:2 if word == "replay" else 1]
            return [program(name), word, *files, *behind]

        def is_answered(depth, kilobytes):
            called = words(depth)
            ample = answer(called, AMPLE)
            assert ample[0] >= 0, (title, called, ample)
            return answer(called, kilobytes) == ample

        deepest = greatest(2, most, lambda depth: is_answered(depth, stack))
        # (a stack that is too small by one kilobyte is the greatest that fails)
        fails = greatest(16, USUAL, lambda kilobytes: not is_answered(most, kilobytes))
        least = 16 if fails is None else fails + 1
        status = answer(words(most), AMPLE)[0]
    is_enough = least <= USUAL
    wanted = least if is_enough else f"over {USUAL}"
    return [title, most, f"{name} {word}", status, deepest or "none", wanted], is_enough


def main():
    parser = argparse.ArgumentParser(description=__doc__, formatter_class=argparse.RawDescriptionHelpFormatter)
    parser.add_argument("--stack", type=int, default=512)
    parser.add_argument("--jobs", type=int, default=lanes())
    parser.add_argument("titles", nargs="*", metavar="TITLE")
    asked = parser.parse_args()
    texts = [it for it in TEXTS if not asked.titles or any(words in it[0] for words in asked.titles)]
    program("ivycheck"), program("ivyview")
    print(f"| Text | Depth | Command | Status | Deepest at {asked.stack} KB | Least stack, KB |")
    print("|---|---|---|---|---|---|")
    enough = True
    with ThreadPoolExecutor(asked.jobs) as runner:
        for cells, is_enough in runner.map(lambda it: line(*it, asked.stack),
                                           [(*text, command) for text in texts for command in COMMANDS]):
            print("| " + " | ".join(map(str, cells)) + " |", flush=True)
            enough = enough and is_enough
    sys.exit(0 if enough else 1)


if __name__ == "__main__":
    main()
