#!/usr/bin/env python3
"""Holds `replay` to a judge in Python, on the reports of `check` and on reports that were changed.

    bench/replays.py [--step N] [FILE ..]    IVYCHECK is the program; the files of examples/ that have a failing group

Of each model the report of `check` must be confirmed. Then each byte of it (each Nth) is changed in turn: it is left
out, doubled, made another letter or digit, a blank, and a line feed; each line is left out and doubled; and each truth,
number and tuple is another, or left out. What `replay` says of the changed report, its status, its code and its line,
must be what the judge says.

The judge reads a report line by line, by the grammar of reports and the model's own lists (`rml.py`), and follows its
executions with the code that judges `check` (`models.py`). It knows nothing of the program's way. The last line says
how many reports were confirmed, denied and not read, and how many differ; the status is 1 where one differs.
"""
import argparse
import itertools
import re
import subprocess
import sys
import tempfile
from collections import Counter

import rml
from models import world_of
from program import examples, program

MOST, MOST_SIZE = 2 ** 64 - 1, 100_000
CODES = {1: "unexpected line", 2: "axiom is false", 3: "conjecture is false", 4: "blocked", 5: "wrong end",
         6: "not broken", 7: "wrong verdict"}


class Unexpected(Exception):
    """The line is one that no printed report of the model has behind those before it."""


def number(word, most=MOST):
    if not re.fullmatch(r"0|[1-9][0-9]*", word) or int(word) > most:
        raise Unexpected
    return int(word)


def behind(line, word):
    if not line.startswith(word):
        raise Unexpected
    return line[len(word):]


def cause(words, kinds=("terms", "ground", "conflicts")):
    if len(words) != 2 or words[0] not in kinds:
        raise Unexpected
    number(words[1])


class Report:
    """A printed report of a model, read line by line."""

    def __init__(self, model, text):
        self.model, self.left, self.at = model, text.split("\n"), 0
        self.whole = len(self.left) - 1
        self.paths_of = dict(model.stages())
        self.executions, self.verdict = [], None
        self.answers = []
        self.read()

    def next(self):
        self.at += 1
        if self.at > self.whole:
            raise Unexpected
        return self.left[self.at - 1]

    def read(self):
        said = behind(self.next(), "axioms: ")
        if said not in ("consistent", "inconsistent"):
            cause(behind(said, "undecided ").split(" "))
        for stage, paths in self.model.stages():
            self.group(stage, None, None)
            if stage != "final":
                for name, conjecture in self.model.conjectures:
                    self.group(stage, name, conjecture)
        self.verdict = behind(self.next(), "verdict: ")
        if self.verdict not in ("inductive", "not inductive", "undecided"):
            raise Unexpected
        self.verdict_line = self.at
        self.at += 1
        if self.left[self.at - 1:] != [""]:
            raise Unexpected

    def group(self, stage, name, conjecture):
        paths = self.paths_of[stage]
        goals = [n for n, path in enumerate(paths, 1) if rml.aborts(path) == (name is None)]
        said = behind(self.next(), f"{stage} {name or 'abort'}: ")
        if said == "holds":
            self.answers.append("holds")
        elif said == "fails":
            if not goals:
                raise Unexpected
            self.answers.append("fails")
            self.block(stage, name, conjecture, paths, goals)
        else:
            words = behind(said, "undecided path ").split(" ")
            if number(words[0]) not in goals:
                raise Unexpected
            if words[1:] != ["formula"]:
                cause(words[1:])
            self.answers.append("undecided")

    def block(self, stage, name, conjecture, paths, goals):
        words = behind(self.next(), "  path ").split(" ")
        if len(words) != 3 or number(words[0]) not in goals or words[1] != "of" or number(words[2]) != len(paths):
            raise Unexpected
        path = paths[int(words[0]) - 1]
        self.least(behind(self.next(), "  least: "))
        if self.next() != "  before":
            raise Unexpected
        before_line, sizes = self.at, []
        for sort in self.model.sorts:
            sizes.append(number(behind(self.next(), f"    sort {sort} "), MOST_SIZE))
            if not sizes[-1]:
                raise Unexpected
        world = world_of(self.model, tuple(sizes))
        before, _ = self.tables(world)
        entries = self.entries([p[1] for p in path if p[0] == "havoc"], world)
        shown = {"stage": stage, "path": path, "world": world, "before": before, "before_line": before_line,
                 "havoc": entries, "havoc_line": self.at, "conjecture": conjecture, "after": None}
        if name is None:
            if self.next() != "  aborts":
                raise Unexpected
        else:
            if self.next() != "  after":
                raise Unexpected
            shown["after"], shown["lines"] = self.tables(world)
            shown["values"] = self.elements("  values:", leading(conjecture), world)
            shown["values_line"] = self.at
        self.executions.append(shown)

    def least(self, said):
        if said == "yes":
            return
        words = behind(said, "stopped ").split(" ")
        if words[0] == "relation" and len(words) == 5 and words[1] in self.model.relations:
            words = words[1:]
        elif words[0] not in self.model.sorts:
            raise Unexpected
        if len(words) != 4:
            raise Unexpected
        number(words[1])
        cause(words[2:])

    def entries(self, symbols, world):
        """Gives the words behind `havoc:`, one for each of these symbols."""
        words = self.words(behind(self.next(), "  havoc:"))
        if len(words) != len(symbols):
            raise Unexpected
        for symbol, word in zip(symbols, words):
            sorts, into = world.takes[symbol]
            if into:
                self.element(word, into, world)
            elif sorts:
                self.set(word, symbol, world)
            else:
                self.one_of(word, "true", "false")
        return words

    def set(self, word, symbol, world):
        """Tuples in braces, with nothing between them, each once and in order."""
        told = re.findall(r"\([^()]*\)", word)
        if word != "{" + "".join(told) + "}":
            raise Unexpected
        self.in_order([self.tuple(t) for t in told], symbol, world)

    def in_order(self, tuples, symbol, world):
        if tuples != sorted(set(tuples)) or not set(tuples) <= set(world.tuples(symbol)):
            raise Unexpected

    def elements(self, word, sorts, world):
        words = self.words(behind(self.next(), word))
        if len(words) != len(sorts):
            raise Unexpected
        found = [number(x) for x in words]
        if any(x >= world.sizes[sort] for x, sort in zip(found, sorts)):
            raise Unexpected
        return found

    def tables(self, world):
        """Gives the structure, and the line of each symbol's table."""
        s, lines = {}, {}
        for r, sorts in self.model.relations.items():
            s[r], lines[r] = self.relation(world, r, sorts), self.at
        for f, (sorts, into) in self.model.functions.items():
            s[f], lines[f] = self.function(world, f, sorts, into), self.at
        return world.packed(s), lines

    def relation(self, world, r, sorts):
        line = self.next()
        if not sorts:
            told = self.one_of(behind(line, f"    relation {r}: "), "true", "false")
            return {(): told == "true"}
        told = [self.tuple(word) for word in self.words(behind(line, f"    relation {r}:"))]
        self.in_order(told, r, world)
        return {t: t in set(told) for t in world.tuples(r)}

    def function(self, world, f, sorts, into):
        line = self.next()
        if not sorts:
            return {(): self.element(behind(line, f"    variable {f}: "), into, world)}
        pairs = [word.split("->") for word in self.words(behind(line, f"    function {f}:"))]
        if any(len(pair) != 2 for pair in pairs) or [self.tuple(t) for t, _ in pairs] != world.tuples(f):
            raise Unexpected
        return {self.tuple(t): self.element(x, into, world) for t, x in pairs}

    def one_of(self, word, *words):
        if word not in words:
            raise Unexpected
        return word

    def words(self, rest):
        words = rest.split(" ")
        if words[0]:
            raise Unexpected
        return words[1:]

    def tuple(self, word):
        if word[:1] != "(" or word[-1:] != ")":
            raise Unexpected
        return tuple(number(x) for x in word[1:-1].split(","))

    def element(self, word, sort, world):
        found = number(word)
        if found >= world.sizes[sort]:
            raise Unexpected
        return found


def leading(conjecture):
    """Gives the sorts of the leading run of quantifiers."""
    sorts = []
    while conjecture[0] == "forall":
        sorts += [sort for _, sort in conjecture[1]]
        conjecture = conjecture[2]
    return sorts


def demands(model, shown):
    """Gives what an execution does not meet, as (line, code)."""
    world = shown["world"]
    if not world.holds(model.axioms, shown["before"]):
        yield shown["before_line"], 2
    if shown["stage"] != "init" and not world.holds(model.conjectures, shown["before"]):
        yield shown["before_line"], 3
    ends = world.ends(shown["path"], {shown["before"]}, list(shown["havoc"]))
    if not ends:
        yield shown["havoc_line"], 4
    elif shown["after"] is not None:
        end = ends.pop()
        for symbol, line in shown["lines"].items():
            if (end ^ shown["after"]) & world.mask[symbol]:
                yield line, 5
        if not world.is_false(shown["conjecture"], shown["values"], end):
            yield shown["values_line"], 6


def verdict_of(answers):
    if all(answer == "holds" for answer in answers):
        return "inductive"
    return "not inductive" if "fails" in answers else "undecided"


def judged(model, text):
    """Gives the status and the text that the judge wants."""
    report = Report.__new__(Report)
    try:
        report.__init__(model, text)
    except Unexpected:
        return 4, f"P1 at line {report.at}: {CODES[1]}\n"
    found = list(itertools.chain.from_iterable(demands(model, shown) for shown in report.executions))
    if report.verdict != verdict_of(report.answers):
        found.append((report.verdict_line, 7))
    if found:
        line, code = min(found)
        return 1, f"P{code} at line {line}: {CODES[code]}\n"
    return 0, f"executions {len(report.executions)}\nverdict: confirmed\n"


def changed(text, step):
    """Gives reports with one byte or one line changed."""
    for at in range(0, len(text), step):
        byte = text[at]
        for new in {"", byte * 2, "\n", " ", "1", "0", "a", chr(ord(byte) ^ 1)} - {byte}:
            yield text[:at] + new + text[at + 1:]
    lines = text.splitlines(keepends=True)
    for at, line in enumerate(lines):
        for new in ("", line * 2, *reworded(line)):
            yield "".join(lines[:at]) + new + "".join(lines[at + 1:])


def reworded(line):
    """Gives the line with another word, truth or number, a tuple less, and a tuple more."""
    for old, new in (("true", "false"), ("false", "true"), ("not inductive", "inductive"), ("fails", "holds"),
                     ("not inductive", "undecided"), ("before", "after"), ("after", "before")):
        if old in line:
            yield line.replace(old, new)
    for it in re.finditer(r"[0-9]+", line):
        for new in {"0", "1", "2"} - {it.group()}:
            yield line[:it.start()] + new + line[it.end():]
    for it in re.finditer(r" \([0-9,]*\)", line):
        yield line[:it.start()] + line[it.end():]
    for new in (" (0)", " (1)", " (0,0)", " (0,1)", " (1,0)", " (1,1)"):
        for at in {line.find(":") + 1, len(line) - 1}:
            if line.startswith("    relation "):
                yield line[:at] + new + line[at:]


def replayed(path, text, room):
    with open(f"{room}/report", "w", encoding="latin-1") as it:
        it.write(text)
    ran = subprocess.run([program(), "replay", path, f"{room}/report"], capture_output=True, text=True)
    return ran.returncode, ran.stdout + ran.stderr


def main():
    words = argparse.ArgumentParser(description=__doc__.split("\n")[0])
    words.add_argument("--step", type=int, default=1)
    words.add_argument("files", nargs="*")
    asked = words.parse_args()
    tallies, differ = Counter(), 0
    with tempfile.TemporaryDirectory() as room:
        for path in asked.files or examples():
            model = rml.read(open(path, encoding="ascii").read())
            ran = subprocess.run([program(), "check", path], capture_output=True, text=True)
            if ran.returncode not in (0, 1, 3):
                sys.exit(f"{path}: {ran.stderr.strip()}")
            texts = [ran.stdout]
            if ran.returncode == 1:
                texts += changed(ran.stdout, asked.step)
            for n, text in enumerate(texts):
                wanted, told = judged(model, text), replayed(path, text, room)
                tallies[{0: "confirmed", 1: "denied", 4: "not read"}.get(told[0], "failed")] += 1
                if wanted != told or (n == 0 and wanted[0] != 0):
                    differ += 1
                    print(f"{path}: wanted {wanted}, told {told}, of\n{text}")
    print(", ".join(f"{tallies[word]} {word}" for word in ("confirmed", "denied", "not read", "failed")),
          f"; {differ} differ", sep="")
    return 1 if differ else 0


if __name__ == "__main__":
    sys.exit(main())
