#!/usr/bin/env python3
"""Holds the JSON that `ivyview` writes to the text that `ivycheck` prints.

    bench/json_report.py [--steps K] [FILE ..]    IVYVIEW and IVYCHECK are the programs; the files of examples/

Of each model `check`, `houdini` and `bmc --steps 2` are run by both. The text is read line by line, the other by
Python's `json`, and both are brought to one form: the verdict, the groups in order, the answers, the paths, the tables
before and after, what havocs take, and the values. Each difference is named. What stands under "branches" is told by
`ivyview` alone, and not compared. The last line says how many files were compared and how many differ; the status is 1
where one differs.
"""
import argparse
import json
import os
import re
import subprocess
import sys

import rml
from program import examples, program, stop

COMMANDS = ("check", "houdini", "bmc")


def named(kind, name):
    return {"kind": kind, "name": name}


def cause(words):
    return {"kind": words[0]} if len(words) == 1 else {"kind": words[0], "number": int(words[1])}


class Text:
    """What a command prints, read line by line."""

    def __init__(self, model, text):
        self.model, self.left = model, text.split("\n")
        self.paths = dict(model.stages())

    def at(self, *words):
        """Whether the next line begins with one of these."""
        return self.left[0].startswith(words)

    def next(self, word=""):
        line = self.left.pop(0)
        if not line.startswith(word):
            raise ValueError(f"{line!r} where {word!r} was to be")
        return line[len(word):]

    def head(self, said):
        """Gives the stage, as the text names it, and the members of the head."""
        block, about = said.rsplit(" ", 1)
        stage = named("action", block[len("action "):]) if block.startswith("action ") else {"kind": block}
        return block, {"stage": stage,
                       "about": {"kind": "abort"} if about == "abort" else named("conjecture", about)}

    def numbers(self, word):
        return [int(n) for n in self.next(word).split()]

    def tables(self):
        """Gives the relations and the functions."""
        relations, functions = [], []
        while self.at("    relation "):
            name, said = re.match(r"(.*?):(.*)", self.next("    relation ")).groups()
            tuples = {" true": [[]], " false": []}.get(said)
            relations.append({"name": name, "tuples": self.tuples(said) if tuples is None else tuples})
        while self.at("    function ", "    variable "):
            name, said = re.match(r"    \w+ (.*?):(.*)", self.next()).groups()
            if "->" not in said:
                functions.append({"name": name, "values": [{"at": [], "is": int(said)}]})
            else:
                functions.append({"name": name, "values": [{"at": self.tuples(a)[0], "is": int(x)} for a, x in
                                                           (pair.split("->") for pair in said.split())]})
        return {"relations": relations, "functions": functions}

    def tuples(self, said):
        return [[int(n) for n in found.split(",")] for found in re.findall(r"\(([0-9,]*)\)", said)]

    def before(self):
        self.next("  before")
        sorts = []
        while self.at("    sort "):
            name, size = self.next("    sort ").split(" ")
            sorts.append({"name": name, "size": int(size)})
        return {"sorts": sorts, **self.tables()}

    def takes(self, block, path):
        """The havocs of a path of the model, with the elements and tables that the line gives."""
        symbols = [p[1] for p in self.paths[block][path - 1] if p[0] == "havoc"]
        return [self.taken(symbol, word) for symbol, word in zip(symbols, self.next("  havoc:").split(), strict=True)]

    def taken(self, symbol, word):
        if symbol in self.model.relations:
            return {"relation": symbol, "tuples": {"true": [[]], "false": []}.get(word) or self.tuples(word)}
        return {"variable": symbol, "element": int(word)}

    def end(self, sorts):
        """The structure in which a path ends, or none."""
        if self.at("  aborts"):
            self.next()
            return None
        self.next("  after")
        return {"sorts": sorts, **self.tables()}

    def execution(self, block, path):
        before = self.before()
        takes, after = self.takes(block, path), self.end(before["sorts"])
        return {"before": before, "takes": takes, "after": after,
                "values": [] if after is None else self.numbers("  values:")}

    def shown(self, block):
        """The members of a block of `check`, and of `houdini`, which has no line on what is least."""
        path, paths = (int(n) for n in self.next("  path ").split(" of "))
        told = {"path": path, "paths": paths}
        if self.at("  least: "):
            told["least"] = self.least(self.next("  least: "))
        return {**told, "execution": self.execution(block, path)}

    def least(self, said):
        if said == "yes":
            return True
        words = said.split(" ")[1:]
        kind = "sort"
        if len(words) > 2 and words[0] == "relation" and not words[1].isdigit():
            kind, words = "relation", words[1:]
        return {"at": named(kind, words[0]), "size": int(words[1]), "cause": cause(words[2:])}

    def check(self):
        words = self.next("axioms: ").split(" ")
        axioms = {"answer": words[0], **({"cause": cause(words[1:])} if words[1:] else {})}
        groups = []
        while not self.at("verdict: "):
            said, answer = self.next().split(": ")
            block, told = self.head(said)
            words = answer.split(" ")
            told["answer"] = words[0]
            if words[0] == "undecided":
                told.update(path=int(words[2]), cause=cause(words[3:]))
            elif words[0] == "fails":
                told.update(self.shown(block))
            groups.append(told)
        return {"command": "check", "verdict": self.next("verdict: "), "axioms": axioms, "groups": groups}

    def houdini(self):
        held = [name for name, _ in self.model.conjectures]
        dropped, unsettled = [], None
        while self.at("drop "):
            name, said = self.next("drop ").split(": ")
            block, told = self.head(said)
            dropped.append({"conjecture": name, "held": list(held), **told, **self.shown(block)})
            held.remove(name)
        kept = []
        while self.at("keep "):
            kept.append(self.next("keep "))
        if self.at("undecided "):
            said, left = self.next("undecided ").split(" path ")
            words = left.split(" ")
            unsettled = {**self.head(said)[1], "path": int(words[0]), "cause": cause(words[1:])}
        return {"command": "houdini", "verdict": self.next("verdict: "), "dropped": dropped, "kept": kept,
                "open": unsettled}

    def run(self):
        start, parts, values = self.before(), [], []
        while self.left[0].startswith(("  init path", "  action ", "  final path")):
            block, path, paths = re.fullmatch(r"  (.*) path (\d+) of (\d+)", self.next()).groups()
            stage = named("action", block[len("action "):]) if block.startswith("action ") else {"kind": block}
            parts.append({"stage": stage, "path": int(path), "paths": int(paths),
                          "takes": self.takes(block, int(path)), "end": self.end(start["sorts"])})
        if self.at("  values:"):
            values = self.numbers("  values:")
        return {"start": start, "parts": parts, "values": values}

    def bmc(self):
        lengths = []
        while self.at("steps "):
            steps, said = self.next("steps ").split(": ")
            told, words = {"steps": int(steps)}, said.split(" ")
            if words[0] == "safe":
                told["answer"] = "safe"
            elif words[0] == "undecided":
                told.update(answer="undecided", cause=cause(words[1:]))
            else:
                about = {"kind": "abort"} if words[0] == "abort" else named("conjecture", words[1])
                told.update(answer="broken", about=about, **self.run())
            lengths.append(told)
        return {"command": "bmc", "verdict": self.next("verdict: "), "lengths": lengths}


def differences(text, view, where=""):
    """Names where two outcomes differ. What the text has must be in the other; "branches" and "file" are its own."""
    if isinstance(text, dict) and isinstance(view, dict):
        for name in sorted(set(text) | set(view) - {"branches", "file"}):
            if name not in view or name not in text:
                yield f"{where}.{name}: only in the {'text' if name in text else 'JSON'}"
            else:
                yield from differences(text[name], view[name], f"{where}.{name}")
    elif isinstance(text, list) and isinstance(view, list):
        if len(text) != len(view):
            yield f"{where}: {len(text)} in the text, {len(view)} in the JSON"
        for n, (a, b) in enumerate(zip(text, view)):
            yield from differences(a, b, f"{where}[{n}]")
    elif type(text) is not type(view) or text != view:
        yield f"{where}: {text!r} in the text, {view!r} in the JSON"


def fault(said):
    """The fault of a model's text, from its line."""
    found = re.fullmatch(r"(F\d+) at (\d+):(\d+): (.*)\n", said)
    if not found:
        return said
    return {"code": found[1], "line": int(found[2]), "column": int(found[3]), "text": found[4]}


def compared(path, command, words):
    """Names the differences of one command on one file."""
    text = subprocess.run([program(), command, path, *words], capture_output=True, text=True)
    view = subprocess.run([program("ivyview"), command, path, *words, "--json"], capture_output=True, text=True)
    try:
        told = json.loads(view.stdout)
    except ValueError as why:
        return [f"no JSON: {why}"]
    if text.returncode not in (0, 1, 3):
        return list(differences(fault(text.stderr), told.get("fault"), ".fault"))
    model = rml.read(open(path, encoding="ascii").read())
    found = list(differences(getattr(Text(model, text.stdout), command)(), told))
    if not view.stdout.endswith("\n") or view.stdout.count("\n") != 1:
        found.append("the JSON is not one line")
    return found


def main():
    words = argparse.ArgumentParser(description=__doc__.split("\n")[0])
    words.add_argument("--steps", default="2")
    words.add_argument("files", nargs="*")
    asked = words.parse_args()
    files, differ = asked.files or examples(), 0
    for path in files:
        found = [f"{command}{said}" if said[:1] == "." else f"{command}: {said}" for command in COMMANDS
                 for said in compared(path, command, ["--steps", asked.steps] if command == "bmc" else [])]
        differ += bool(found)
        for said in found:
            print(f"{path}: {said}", flush=True)
    print(f"{len(files)} files, {differ} differ")
    return 1 if differ else 0


if __name__ == "__main__":
    sys.exit(main())
