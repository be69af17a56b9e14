#!/usr/bin/env python3
"""Holds the answers of a program to those of another one, on random texts.

    bench/same_answers.py OTHER [COUNT [SEED]]    IVYCHECK is the program (the one that ./ivycheck runs); 20000 texts
                                                  from seed 1

A text is a random small model (`models.py`), as it stands or with one to three tokens left out, doubled, exchanged or
put in from another place or from the words of the language; so it is mostly faulty, each time otherwise. Models of
format 2 go without their first line, so that their forms stand where they are faults. Both programs `check` the text,
under limits under which nothing takes time; status and both streams must be the same. So a release that takes more of
the language is held to the one before: what has no `rml 2` is answered as it was. The last line says how many texts
were compared, how many of them had which status, and how many differ; the status is 1 where one differs.
"""
import multiprocessing
import os
import random
import re
import subprocess
import sys
import tempfile
from collections import Counter

from models import Maker
from program import program

LIMITS = ["--terms", "6", "--ground", "400", "--conflicts", "10"]
WORDS = ("sort relation function variable axiom conjecture init action final define rml assume assert abort skip if else "
         "choose or insert remove put forall exists true false ite 1 2 x a b p * = ~= := -> <-> & | ~ ( ) { } , . ; :"
         ).split()


def pieces(text):
    """Splits a text into tokens and what stands between them."""
    return re.findall(r"[A-Za-z0-9_]+|[ \n]+|<->|->|:=|~=|.", text)


def changed(text, pick):
    """Gives the text with some tokens changed."""
    found = pieces(text)
    for _ in range(pick.choice([0, 1, 1, 1, 2, 3])):
        at = pick.randrange(len(found))
        what = pick.choice(["out", "twice", "exchange", "other", "word"])
        if what == "out":
            found[at] = ""
        elif what == "twice":
            found[at] += " " + found[at]
        elif what == "exchange":
            other = pick.randrange(len(found))
            found[at], found[other] = found[other], found[at]
        else:
            found[at] = pick.choice(found if what == "other" else WORDS)
    return "".join(found)


def text_of(seed):
    """Gives a random text that has no `rml 2`."""
    pick = random.Random(f"a text of seed {seed}")
    text = changed(Maker(seed).text().removeprefix("rml 2\n"), pick)
    return re.sub(r"\brml(\s+)0*2\b", r"rml\g<1>1", text)


def answer(name, path):
    ran = subprocess.run([name, "check", path, *LIMITS], capture_output=True)
    return ran.returncode, ran.stdout, ran.stderr


def compared(job):
    """Gives the status of a text, and the text with both answers where they differ."""
    seed, other = job
    text = text_of(seed)
    with tempfile.NamedTemporaryFile("w", suffix=".rml") as it:
        it.write(text)
        it.flush()
        here, there = answer(program(), it.name), answer(other, it.name)
    return here[0], None if here == there else f"text {seed}:\n{text}\nhere {here}\nthere {there}"


def main():
    if len(sys.argv) not in (2, 3, 4):
        sys.exit(__doc__)
    other, (count, first) = os.path.abspath(sys.argv[1]), [*map(int, sys.argv[2:]), *[20000, 1][len(sys.argv) - 2:]]
    program()
    statuses, differ = Counter(), 0
    with multiprocessing.Pool() as pool:
        jobs = ((seed, other) for seed in range(first, first + count))
        for status, told in pool.imap(compared, jobs, chunksize=16):
            statuses[status] += 1
            differ += told is not None
            if told:
                print(told)
    said = ", ".join(f"{status}: {many}" for status, many in sorted(statuses.items()))
    print(f"{count} texts, by status {said}; {differ} differ")
    return 1 if differ else 0


if __name__ == "__main__":
    sys.exit(main())
