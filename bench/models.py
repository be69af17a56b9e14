#!/usr/bin/env python3
"""Holds `check`, `houdini`, `bmc`, `replay`, and of ivyview `check --lean` and `why`, to brute force: random small
models, and every structure of up to three elements a sort.

    bench/models.py [COUNT [SEED]]      IVYCHECK and IVYVIEW are the programs (those that ./ivycheck and ./ivyview run);
                                        1000 models from seed 1

The judge knows nothing of the program's way: no precondition, no clause. It makes every structure of every size that
has at most 20,000 structures, keeps those that satisfy the axioms (and, but for init, the conjectures), and follows
each path of each block from each, element by element; where two come to the same structure, it is followed once. Of each
group it asks:

- where `check` says `holds`, that no structure it made is a counterexample;
- where it says `fails`, that the printed structure may stand before the block, that the path with the printed elements
  ends in the printed structure, where the conjecture is false at the printed values, or that it aborts; that no path
  before it fails; that no structure with lexicographically smaller sizes fails on it; and, behind `least: yes`, that
  none of the same sizes has a lexicographically smaller list of numbers of true tuples.

Of what `houdini` finds it asks that each drop shows an execution that breaks the dropped conjecture from a structure
that satisfies those held at that time, and, where the verdict is `greatest`, that no structure it made breaks the kept
ones.

Of what `bmc` says of the runs with at most two actions it asks that no run through structures it made (of sizes that
have at most 1,000) aborts or breaks a conjecture at a length that is called safe, and that each shown run, followed
part by part, is one of the model and does what it is said to do.

Each report of `check` must be confirmed by `replay`, with as many executions as groups fail; `bench/replays.py` asks
the same of reports that were changed.

Of `ivyview check --lean` it asks what it asks of `check`, where two gigabytes are enough for it. Of `ivyview why` it
asks of each group that is carried that no structure it made is a counterexample where the named conjectures hold, and
that without any one of them the shown execution is one; of a group that is not, that the shown execution is one where
all conjectures hold; and that those are called idle that carry no group but their own.

The last line says how many groups held, failed and were left open, how many of the failing ones had their sizes among
those that were made, how many conjectures were dropped, how many lengths were safe and broken, how many groups held by
lean counts and how many models wanted more memory there, how many groups were carried by how many conjectures, and how
many models differ. The status is 1 where one differs;
such a model is printed. It takes the processors that it may run on (all, or those of `taskset`).
"""
import functools
import itertools
import json
import math
import multiprocessing
import random
import re
import resource
import subprocess
import sys
import tempfile
from collections import Counter

import rml
from program import lanes, program

MOST = 20_000

# The memory that a run of the program may take, in bytes.
MEMORY = 2 << 30

# Runs are followed through the structures of sizes that have at most so many, up to so many actions.
MOST_OF_RUNS, STEPS = 1_000, 2


# -- The generator ------------------------------------------------------------

class Maker:
    """Writes a random model that keeps to the rules of the language: of format 1 for odd seeds, of format 2 for even."""

    def __init__(self, seed):
        self.random = random.Random(seed)
        pick = self.random
        self.format = 1 if seed % 2 else 2
        self.listed, self.derived, self.definitions = {}, {}, []
        self.sorts = ["a", "b"][:pick.choice([1, 1, 2])]
        self.relations = {f"r{i}": [pick.choice(self.sorts) for _ in range(pick.choice([0, 1, 1, 1, 2]))]
                          for i in range(pick.choice([1, 2, 2, 3]))}
        self.functions = {"f": (["a"], "b")} if len(self.sorts) == 2 and pick.random() < 0.5 else {}
        self.variables = {f"v{i}": pick.choice(self.sorts) for i in range(pick.choice([0, 1, 1, 2]))}
        if self.format == 2:
            self.list_and_define()

    def list_and_define(self):
        pick = self.random
        if pick.random() < 0.5:
            sort = pick.choice(self.sorts)
            self.listed = {f"{sort}{i}": sort for i in range(pick.choice([1, 2, 2, 3]))}
        for d in ["d0", "d1"][:pick.choice([0, 1, 1, 2])]:
            env = dict(zip(["K", "L"], [pick.choice(self.sorts) for _ in range(pick.choice([0, 1, 2]))]))
            binders = ", ".join(f"{x}:{sort}" for x, sort in env.items())
            self.definitions.append(f"define {d}" + (f"({binders})" if env else "") + f" := {self.matrix(env)}")
            self.derived[d] = list(env.values())

    def term(self, sort, env, deep=1):
        pick = self.random
        found = [x for x, s in [*env.items(), *self.variables.items(), *self.listed.items()] if s == sort]
        if deep and pick.random() < 0.1 and found:
            return f"ite({self.matrix(env, 0)}, {pick.choice(found)}, {pick.choice(found)})"
        for f, (sorts, into) in self.functions.items():
            if into == sort and (not found or pick.random() < 0.4):
                args = [self.term(s, env, 0) for s in sorts]
                if None not in args:
                    return f"{f}({', '.join(args)})"
        return pick.choice(found) if found else None

    def atom(self, env):
        pick = self.random
        for _ in range(6):
            if pick.random() < 0.3:
                sort = pick.choice(self.sorts)
                sides = [self.term(sort, env), self.term(sort, env)]
                if None not in sides:
                    return f"{sides[0]} {pick.choice(['=', '~='])} {sides[1]}"
            else:
                read = self.relations | self.derived
                r = pick.choice(list(read))
                args = [self.term(s, env) for s in read[r]]
                if None not in args:
                    return pick.choice(["", "~"]) + (f"{r}({', '.join(args)})" if args else r)
        return pick.choice(["true", "false"])

    def matrix(self, env, deep=2):
        pick = self.random
        if deep == 0 or pick.random() < 0.35:
            return self.atom(env)
        sign = pick.choice(["&", "|", "->", "<->", "&", "|"])
        return f"({self.matrix(env, deep - 1)} {sign} {self.matrix(env, deep - 1)})"

    def bound(self, word, names, inside, env):
        sorts = {x: self.random.choice(self.sorts) for x in names}
        binders = ", ".join(f"{x}:{s}" for x, s in sorts.items())
        return f"{word} {binders}. {inside(env | sorts)}"

    def universal(self, most):
        names = ["X", "Y", "Z"][:self.random.randint(0, most)]
        return self.bound("forall", names, self.matrix, {}) if names else self.matrix({})

    def exists_forall(self):
        if self.random.random() < 0.3:
            return self.bound("exists", ["W"], lambda env: self.bound("forall", ["X"], self.matrix, env), {})
        return self.either()

    def either(self):
        if self.random.random() < 0.4:
            return self.bound(self.random.choice(["exists", "forall"]), ["X"], self.matrix, {})
        return self.matrix({})

    def command(self, deep):
        pick = self.random
        what = pick.choice(["assume", "set", "set", "insert", "remove", "havoc", "if", "choose", "put", "assert"])
        if what == "assume":
            return f"assume {self.exists_forall()}"
        if what == "assert":
            return f"assert {self.either()}" if pick.random() < 0.4 else "skip"
        if what in ("if", "choose") and deep:
            blocks = self.block(deep - 1), self.block(deep - 1)
            if what == "if":
                return f"if {self.either()} {blocks[0]}" + (f" else {blocks[1]}" if pick.random() < 0.5 else "")
            return f"choose {blocks[0]} or {blocks[1]}"
        if what == "havoc" and self.format == 2 and pick.random() < 0.6:
            return f"{self.head(pick.choice(list(self.relations)))} := *"
        if what == "havoc" and self.variables:
            return f"{pick.choice(list(self.variables))} := *"
        if what == "put" and self.functions:
            args = self.term("a", {}, 0), self.term("b", {}, 0)
            return f"put f({args[0]}) = {args[1]}" if None not in args else "skip"
        if what in ("insert", "remove"):
            r = pick.choice(list(self.relations))
            args = [self.term(s, {}) for s in self.relations[r]]
            if None not in args:
                return f"{what} {r}" + (f"({', '.join(args)})" if args else "")
            return "skip"
        return self.update()

    def update(self):
        pick = self.random
        if self.variables and pick.random() < 0.3:
            v, sort = pick.choice(list(self.variables.items()))
            return f"{v} := {self.term(sort, {})}"
        r = pick.choice(list(self.relations))
        return f"{self.head(r)} := {self.matrix(dict(zip(['P', 'Q'], self.relations[r])))}"

    def head(self, r):
        names = ["P", "Q"][:len(self.relations[r])]
        return f"{r}({', '.join(names)})" if names else r

    def block(self, deep, most=3):
        count = self.random.randint(0 if deep == 0 else 1, most)
        return "{ " + "; ".join(self.command(deep) for _ in range(count)) + " }"

    def text(self):
        lines = ["rml 2"] * (self.format == 2)
        for sort in self.sorts:
            names = [x for x, s in self.listed.items() if s == sort]
            lines.append(f"sort {sort}" + (f" = {{ {', '.join(names)} }}" if names else ""))
        lines += [f"relation {r}" + (f"({', '.join(sorts)})" if sorts else "") for r, sorts in self.relations.items()]
        lines += [f"function {f} : {', '.join(sorts)} -> {into}" for f, (sorts, into) in self.functions.items()]
        lines += [f"variable {v} : {sort}" for v, sort in self.variables.items()]
        lines += self.definitions
        lines += [f"axiom ax: {self.exists_forall()}"] * (self.random.random() < 0.3)
        lines += [f"init {self.block(1)}"]
        lines += [f"action act{i} {self.block(1)}" for i in range(self.random.choice([1, 1, 2]))]
        lines += [f"final {self.block(1)}"] * (self.random.random() < 0.2)
        lines += [f"conjecture c{i}: {self.universal(2)}" for i in range(self.random.choice([1, 1, 2]))]
        return "\n".join(lines) + "\n"


# -- The judge ----------------------------------------------------------------

class World:
    """The structures of a model with these sizes. A structure is a number: each tuple of a symbol has bits of its own,
    which are the value there, an element or 1 for true."""

    def __init__(self, model, sizes):
        self.model, self.sizes = model, dict(zip(model.sorts, sizes))
        self.takes = {r: (sorts, None) for r, sorts in model.relations.items()} | model.functions
        self.length = {symbol: math.prod(self.sizes[s] for s in sorts) for symbol, (sorts, _) in self.takes.items()}
        self.width = {symbol: (len(self.values(symbol)) - 1).bit_length() for symbol in self.takes}
        self.first, self.mask, self.made, count = {}, {}, {}, 0
        for symbol in self.takes:
            bits = self.width[symbol] * self.length[symbol]
            self.first[symbol], self.mask[symbol] = count, (1 << bits) - 1 << count
            count += bits

    def tuples(self, symbol):
        return list(itertools.product(*(range(self.sizes[s]) for s in self.takes[symbol][0])))

    def values(self, symbol):
        into = self.takes[symbol][1]
        return range(self.sizes[into] if into else 2)

    def count(self):
        found = 1
        for symbol in self.takes:
            found *= len(self.values(symbol)) ** self.length[symbol]
            if found > MOST:
                return found
        return found

    def bits(self, symbol, values):
        """Gives the bits of a symbol with these values, in the order of its tuples."""
        return sum(value << self.first[symbol] + self.width[symbol] * i for i, value in enumerate(values))

    def tables(self, symbol):
        """Gives the bits of every table of a symbol."""
        return [self.bits(symbol, values)
                for values in itertools.product(self.values(symbol), repeat=self.length[symbol])]

    @functools.cached_property
    def lawful(self):
        """Every structure in which the axioms hold."""
        found = [0]
        for symbol in self.takes:
            tables = self.tables(symbol)
            found = [s | table for s in found for table in tables]
        return list(filter(self.is_lawful, found))

    @functools.cached_property
    def is_lawful(self):
        """The function that tells whether the axioms hold in a structure."""
        return self.function(("and", [p for _, p in self.model.axioms]))

    def place(self, symbol, args):
        """Gives Python's text of where the bits of a symbol begin at arguments of these texts."""
        index = "0"
        for sort, arg in zip(self.takes[symbol][0], args):
            index = f"({index} * {self.sizes[sort]} + {arg})"
        return f"({self.first[symbol]} + {self.width[symbol]} * {index})"

    def code(self, e):
        """Gives Python's text of an expression over a structure `s`; bound names are variables."""
        word = e[0]
        if word in ("rel", "app"):
            return f"(s >> {self.place(e[1], map(self.code, e[2]))} & {(1 << self.width[e[1]]) - 1})"
        if word == "bound":
            return name_of(e[1])
        if word in ("true", "false"):
            return word.title()
        if word in ("and", "or"):
            return "(" + f" {word} ".join(map(self.code, e[1])) + ")" if e[1] else str(word == "and")
        if word in ("forall", "exists"):
            return f"{'all' if word == 'forall' else 'any'}({self.code(e[2])} {self.loops(e[1])})"
        parts = [self.code(p) for p in e[1:]]
        if word == "not":
            return f"(not {parts[0]})"
        if word == "implies":
            return f"(not {parts[0]} or {parts[1]})"
        if word == "ite":
            return f"({parts[1]} if {parts[0]} else {parts[2]})"
        return f"({parts[0]} == {parts[1]})"

    def loops(self, binders):
        return " ".join(f"for {name_of(x)} in range({self.sizes[sort]})" for x, sort in binders)

    def function(self, e, names=()):
        """Gives an expression as a function of a structure, and of elements for these bound names."""
        return self.made_of((e, names), lambda: self.code(e), names)

    def setting(self, symbol, names, side):
        """Gives the function from a structure to that where the table of a symbol is what this says of its tuples."""
        return self.made_of((symbol, names, side), lambda: f"s & {~self.mask[symbol]} | sum([{self.code(side)} << "
                            f"{self.place(symbol, map(name_of, names))} "
                            f"{self.loops(zip(names, self.takes[symbol][0]))}])")

    def made_of(self, what, code, names=()):
        key = repr(what)
        if key not in self.made:
            self.made[key] = eval(f"lambda {', '.join(['s', *map(name_of, names)])}: {code()}")
        return self.made[key]

    def holds(self, sentences, s):
        return all(self.function(p)(s) for _, p in sentences)

    def steps(self, primitive, states, entries=None):
        """Gives the structures behind a primitive that does not abort, from these; a havoc takes an entry, or any."""
        if primitive[0] == "assume":
            return set(filter(self.function(primitive[1]), states))
        if primitive[0] == "set":
            found = set(map(self.setting(*primitive[1:]), states))
        else:
            symbol = primitive[1]
            tables = self.tables(symbol) if entries is None else [self.table(symbol, entries.pop(0))]
            found = {s | table for s in {s & ~self.mask[symbol] for s in states} for table in tables}
        return set(filter(self.is_lawful, found))

    def ends(self, path, states, entries=None):
        """Gives the structures where the path ends from these, and None for an abort; havocs take entries, or any."""
        for primitive in path:
            if not states:
                break
            if primitive[0] == "abort":
                return {None}
            states = self.steps(primitive, states, entries)
        return set(states)

    def breaker(self, path, known):
        """Gives the function from a structure to what the path breaks from there: the names of the conjectures that are
        false at one of its ends, or `abort`. It keeps what it gave, and `known` keeps the functions of what is left of
        paths: so each structure is followed once from each place of a path."""
        key = tuple(map(id, path))
        if key not in known:
            known[key] = functools.cache(self.new_breaker(path, known))
        return known[key]

    def new_breaker(self, path, known):
        if not path:
            tests = [(name, self.function(c)) for name, c in self.model.conjectures]
            return lambda s: frozenset([name for name, is_true in tests if not is_true(s)])
        word, *about = path[0]
        if word == "abort":
            return lambda s: frozenset(["abort"])
        rest, nothing, is_lawful = self.breaker(path[1:], known), frozenset(), self.is_lawful
        if word == "assume":
            is_true = self.function(*about)
            return lambda s: rest(s) if is_true(s) else nothing
        if word == "set":
            setting = self.setting(*about)
            return lambda s: rest(new) if is_lawful(new := setting(s)) else nothing
        tables, others = self.tables(*about), ~self.mask[about[0]]
        of_others = functools.cache(lambda s: nothing.union(*{rest(s | t) for t in tables if is_lawful(s | t)}))
        return lambda s: of_others(s & others)

    def tally(self, s):
        return [(s & self.mask[r]).bit_count() for r in self.model.relations]

    def packed(self, tables):
        """Gives the structure of tables, dictionaries from tuples to values."""
        if tables.keys() != self.takes.keys():
            raise ValueError(f"tables of {list(tables)}")
        return sum(self.packed_table(symbol, table) for symbol, table in tables.items())

    def packed_table(self, symbol, table):
        """Gives the bits of a table."""
        tuples, values = self.tuples(symbol), self.values(symbol)
        if table.keys() != set(tuples) or any(value not in values for value in table.values()):
            raise ValueError(f"no table of {symbol}: {table}")
        return self.bits(symbol, [table[t] for t in tuples])

    def no_tuples(self, relation):
        """Gives the table of a relation that is true nowhere."""
        return dict.fromkeys(self.tuples(relation), False)

    def table(self, symbol, entry):
        """Gives the bits of the table of a symbol that a printed entry of a havoc is: an element, a truth value or
        tuples."""
        sorts, into = self.takes[symbol]
        if into or not sorts:
            return self.packed_table(symbol, {(): int(entry) if into else entry == "true"})
        told = {tuple(map(int, t.split(","))) for t in re.findall(r"\(([\d,]*)\)", entry)}
        return self.packed_table(symbol, self.no_tuples(symbol) | dict.fromkeys(told, True))

    def read(self, lines):
        """Gives the structure of printed tables."""
        tables = {}
        for line in lines:
            kind, name, rest = re.match(r"(\w+) (\w+):(.*)", line).groups()
            if kind == "variable":
                tables[name] = {(): int(rest)}
            elif kind == "relation" and not self.takes[name][0]:
                tables[name] = {(): rest.strip() == "true"}
            else:
                pairs = re.findall(r"\(([\d,]*)\)(?:->(\d+))?", rest)
                told = {tuple(map(int, t.split(","))): int(x) if x else True for t, x in pairs}
                tables[name] = self.no_tuples(name) | told if kind == "relation" else told
        return self.packed(tables)

    def is_false(self, conjecture, values, s):
        """Whether what stands behind the leading foralls of a conjecture is false of these values of theirs."""
        binders = []
        while conjecture[0] == "forall":
            binders += conjecture[1]
            conjecture = conjecture[2]
        if any(value not in range(self.sizes[sort]) for value, (_, sort) in zip(values, binders)):
            raise ValueError(f"values that are no elements: {values}")
        return len(binders) == len(values) and not self.function(conjecture, [x for x, _ in binders])(s, *values)


def name_of(bound):
    return "x_" + bound.replace("@", "at")


@functools.lru_cache(maxsize=32)
def world_of(model, sizes):
    """Gives the world of a model with these sizes, made once."""
    return World(model, sizes)


class Found:
    """The counterexamples of a model's goals, whatever is held: of each goal, by stage, path and conjecture, the least
    numbers of tuples, by the conjectures that are true before and by the sizes; and which sizes were made."""

    def __init__(self, model):
        self.model, self.goals, self.made = model, {}, []
        for sizes in itertools.product((1, 2, 3), repeat=len(model.sorts)):
            world = world_of(model, sizes)
            if world.count() <= MOST:
                self.made.append(sizes)
                self.put(world, sizes)

    def put(self, world, sizes):
        """Puts what each path breaks from each structure that satisfies the axioms."""
        known = {}
        false = world.breaker([], known)
        told = sorted([(world.tally(s), s, false(s)) for s in world.lawful], reverse=True)
        for stage, paths in self.model.stages():
            for number, path in enumerate(paths, 1):
                broken = world.breaker(path, known)
                # of equal keys the last is taken, and it has the least numbers
                for (names, before), tally in {(broken(s), before): tally for tally, s, before in told}.items():
                    key = frozenset(name for name, _ in self.model.conjectures if name not in before), sizes
                    for name in names & {"abort"} if stage == "final" else names:
                        least = self.goals.setdefault((stage, number, name), {})
                        least[key] = min(least.get(key, tally), tally)

    def failing(self, stage, name, held):
        """Gives for each path of a group that fails where conjectures of these names are held (not of init) the least
        numbers of tuples by sizes."""
        found = {}
        for number in range(1, len(dict(self.model.stages())[stage]) + 1):
            for (true, sizes), tally in self.goals.get((stage, number, name), {}).items():
                if stage == "init" or true.issuperset(held):
                    least = found.setdefault(number, {})
                    least[sizes] = min(least.get(sizes, tally), tally)
        return found


# -- The report ---------------------------------------------------------------

def groups_of(model, report):
    """Gives each group as (stage, conjecture or abort, answer, what is shown)."""
    groups = []
    for line in report.splitlines():
        if line.startswith(" "):
            groups[-1][3].append(line.strip())
        elif not line.startswith(("axioms:", "verdict:")):
            head, _, answer = line.partition(": ")
            stage, _, name = head.rpartition(" ")
            groups.append((stage, name, answer, []))
    return [(*group, Shown(model, lines) if lines else None) for *group, lines in groups]


def viewed_groups(model, told):
    """The same of the JSON value of `check`."""
    return [(*head_of(group), group["answer"], Viewed(model, group) if "execution" in group else None)
            for group in told["groups"]]


def head_of(group):
    """Gives stage and conjecture or abort of a group in JSON, as a report has them."""
    stage, about = group["stage"], group["about"]
    return " ".join([stage["kind"], *stage.get("name", "").split()]), about.get("name", "abort")


class Shown:
    """A printed counterexample."""

    def __init__(self, model, lines):
        self.model = model
        self.path = int(lines[0].split()[1])
        self.is_least = lines[1] == "least: yes"
        at = next(i for i, line in enumerate(lines) if line.startswith("havoc:"))
        before = lines[lines.index("before") + 1:at]
        self.sizes = tuple(int(line.split()[2]) for line in before if line.startswith("sort "))
        self.world = world_of(model, self.sizes)
        self.before = self.world.read([line for line in before if not line.startswith("sort ")])
        self.havoc = lines[at].split()[1:]
        self.aborts = lines[at + 1] == "aborts"
        self.after = None if self.aborts else self.world.read(lines[at + 2:-1])
        self.values = [] if self.aborts else [int(x) for x in lines[-1].split()[1:]]

    def faults(self, stage, name, path, held):
        """Gives what is wrong with it as a counterexample where these conjectures are held, if something is."""
        world = self.world
        if not world.holds(self.model.axioms, self.before):
            yield "an axiom is false before"
        if stage != "init" and not world.holds(held, self.before):
            yield "a conjecture is false before"
        if world.ends(path, {self.before}, list(self.havoc)) != {self.after}:
            yield "the path does not end as printed"
        elif not self.aborts:
            if not world.is_false(dict(self.model.conjectures)[name], self.values, self.after):
                yield "the conjecture is true at the printed values"


class Viewed(Shown):
    """A counterexample in JSON, of a group or of what a group lacks."""

    def __init__(self, model, told):
        shown = told["execution"]
        self.model, self.path, self.is_least = model, told["path"], told.get("least") is True
        self.sizes = tuple(sort["size"] for sort in shown["before"]["sorts"])
        self.world = world_of(model, self.sizes)
        self.before = self.tables(shown["before"])
        self.havoc = [self.entry(havoc) for havoc in shown["takes"]]
        self.aborts = shown["after"] is None
        self.after = None if self.aborts else self.tables(shown["after"])
        self.values = shown["values"]

    def tables(self, told):
        s = {r["name"]: self.world.no_tuples(r["name"]) | {tuple(t): True for t in r["tuples"]}
             for r in told["relations"]}
        s |= {f["name"]: {tuple(x["at"]): x["is"] for x in f["values"]} for f in told["functions"]}
        return self.world.packed(s)

    def entry(self, havoc):
        """Gives what a havoc takes as a report has it."""
        if "variable" in havoc:
            return str(havoc["element"])
        if not self.world.takes[havoc["relation"]][0]:
            return "true" if havoc["tuples"] else "false"
        return "{" + "".join(f"({','.join(map(str, t))})" for t in havoc["tuples"]) + "}"


class Run:
    """A printed run: parts of (stage, number of the path, how many paths, entries, structure behind it or None)."""

    def __init__(self, model, lines):
        self.model, self.values = model, []
        heads = [i for i, line in enumerate(lines) if re.search(r" path \d+ of \d+$", line)]
        before = lines[1:heads[0]]
        self.sizes = tuple(int(line.split()[2]) for line in before if line.startswith("sort "))
        self.world = world_of(model, self.sizes)
        self.before = self.world.read([line for line in before if not line.startswith("sort ")])
        if lines[-1].startswith("values:"):
            self.values = [int(x) for x in lines.pop().split()[1:]]
        self.parts = []
        for at, to in zip(heads, [*heads[1:], len(lines)]):
            stage, number, count = re.match(r"(.*) path (\d+) of (\d+)$", lines[at]).groups()
            entries = lines[at + 1].split()[1:]
            after = None if lines[at + 2] == "aborts" else self.world.read(lines[at + 3:to])
            self.parts.append((stage, int(number), int(count), entries, after))

    def faults(self, length, what):
        """Gives what is wrong with it as a run of so many actions that does this, if something is."""
        world, s, paths_of = self.world, self.before, dict(self.model.stages())
        stages = [part[0] for part in self.parts]
        if stages[:1] != ["init"] or sum(x.startswith("action ") for x in stages) != length:
            yield f"the parts are {stages}"
        if not world.holds(self.model.axioms, s):
            yield "an axiom is false before"
        for stage, number, count, entries, after in self.parts:
            paths = paths_of[stage]
            if s is None or count != len(paths) or world.ends(paths[number - 1], {s}, entries) != {after}:
                yield f"{stage} does not end as printed"
            s = after
        if what == "abort":
            if s is not None:
                yield "it does not abort"
        elif s is None or not world.is_false(dict(self.model.conjectures)[what], self.values, s):
            yield "the conjecture is true at the printed values"


def broken_lengths(model):
    """Gives for each number of actions by what its runs are broken, through structures of small sizes."""
    found = [set() for _ in range(STEPS + 1)]
    for sizes in itertools.product((1, 2, 3), repeat=len(model.sorts)):
        world = world_of(model, sizes)
        if world.count() <= MOST_OF_RUNS:
            false = world.breaker([], {})
            states = behind(world, model.init, world.lawful, found[0])
            for length in range(STEPS + 1):
                found[length].update(*map(false, states))
                behind(world, model.final, states, found[length])
                if length < STEPS:
                    paths = [path for _, paths in model.actions for path in paths]
                    states = behind(world, paths, states, found[length + 1])
    return found


def behind(world, paths, states, found):
    """Gives the structures behind these paths; an abort is put into what was found."""
    ends = set().union(*(world.ends(path, states) for path in paths))
    if None in ends:
        found.add("abort")
    return ends - {None}


def bounded_differences(model, told, tallies):
    """Gives what of `bmc`'s answer brute force denies."""
    found, lengths = broken_lengths(model), []
    for line in told.splitlines():
        if line.startswith(" "):
            lengths[-1][1].append(line.strip())
        elif line.startswith("steps "):
            lengths.append((line.partition(": ")[2], []))
    for length, (answer, lines) in enumerate(lengths):
        tallies["safe lengths" if answer == "safe" else "broken lengths" if lines else "open lengths"] += 1
        if answer == "safe" and found[length]:
            yield f"steps {length}: safe, and broken by {', '.join(sorted(found[length]))}"
        elif lines:
            for fault in Run(model, lines).faults(length, answer.removeprefix("breaks ")):
                yield f"steps {length}: {answer}: {fault}"


def differences(found, groups, tallies, way=""):
    """Gives what of these groups brute force denies."""
    model, held = found.model, [name for name, _ in found.model.conjectures]
    paths_of = dict(model.stages())
    for stage, name, answer, shown in groups:
        failing = found.failing(stage, name, held)
        tallies[way + answer.split()[0]] += 1
        if answer == "holds" and failing:
            yield f"{way}{stage} {name} holds, and fails on path {min(failing)}: {failing}"
        if answer != "fails":
            continue
        for fault in shown.faults(stage, name, paths_of[stage][shown.path - 1], model.conjectures):
            yield f"{way}{stage} {name}: {fault}"
        if min(failing, default=shown.path) < shown.path:
            yield f"{way}{stage} {name}: path {min(failing)} fails before path {shown.path}"
        least = failing.get(shown.path, {})
        if least and min(least) < shown.sizes and shown.is_least:
            yield f"{way}{stage} {name}: sizes {min(least)} fail too"
        if shown.sizes in found.made:
            tallies[way + "compared"] += 1
            if shown.sizes not in least:
                yield f"{way}{stage} {name}: no structure of sizes {shown.sizes} fails"
            elif shown.is_least and least[shown.sizes] != shown.world.tally(shown.before):
                yield f"{way}{stage} {name}: {least[shown.sizes]} tuples are enough"


def reason_differences(found, told, tallies):
    """Gives what of the JSON value of `why` brute force denies."""
    names, heads, carrying = [name for name, _ in found.model.conjectures], [], set()
    for reason in told["groups"]:
        stage, name = head_of(reason)
        heads.append((stage, name))
        if not reason["carried"]:
            yield from lack_differences(found.model, stage, name, names, reason["lack"], tallies)
            continue
        needs = [need["conjecture"] for need in reason["needs"]]
        carrying.update(set(needs) - {name})
        tallies["carried"] += 1
        tallies["needs"] += len(needs)
        if needs != [c for c in names if c in needs]:
            yield f"why {stage} {name}: {needs} are not in the order of the file"
        failing = found.failing(stage, name, needs)
        if failing:
            yield f"why {stage} {name}: by {needs}, and fails on path {min(failing)}: {failing}"
        for need in reason["needs"]:
            others = [c for c in needs if c != need["conjecture"]]
            yield from lack_differences(found.model, stage, name, others, need["without"], tallies)
    if heads != [(stage, name) for stage, _ in found.model.stages()
                 for name in ["abort", *names * (stage != "final")]]:
        yield f"why: the groups are {heads}"
    idle = "idle" if all(reason["carried"] for reason in told["groups"]) else "idle_so_far"
    if told.get(idle) != [c for c in names if c not in carrying]:
        yield f"why: {idle} is {told.get(idle)}, and {sorted(carrying)} carry a group"


def lack_differences(model, stage, name, held, lack, tallies):
    """Gives what is wrong with what a group is said to lack where conjectures of these names are held."""
    tallies["lacks" if lack["answer"] == "fails" else "open lacks"] += 1
    if lack["answer"] == "fails":
        shown = Viewed(model, lack)
        sentences = [(other, c) for other, c in model.conjectures if other in held]
        for fault in shown.faults(stage, name, dict(model.stages())[stage][shown.path - 1], sentences):
            yield f"why {stage} {name}, where {held} are held: {fault}"
    elif lack["answer"] != "undecided":
        yield f"why {stage} {name}: it lacks {lack}"


def found_differences(found, told, tallies):
    """Gives what of `houdini`'s answer brute force denies."""
    model, blocks, kept = found.model, [], []
    held = list(model.conjectures)
    for line in told.splitlines():
        if line.startswith(" "):
            blocks[-1][2].append(line.strip())
        elif line.startswith("drop "):
            name, _, head = line[5:].partition(": ")
            blocks.append((name, head, []))
        elif line.startswith("keep "):
            kept.append(line[5:])
    for name, head, lines in blocks:
        tallies["dropped"] += 1
        stage = head.removesuffix(f" {name}")
        shown = Shown(model, lines)
        for fault in shown.faults(stage, name, dict(model.stages())[stage][shown.path - 1], held):
            yield f"drop {name}: {fault}"
        held = [(other, c) for other, c in held if other != name]
    if [name for name, _ in held] != kept:
        yield f"kept are {kept}, and not dropped {[name for name, _ in held]}"
    if told.endswith("verdict: greatest\n"):
        for stage, _ in model.stages():
            for name in kept:
                for number in found.failing(stage, name, kept):
                    yield f"kept are {kept}, and path {number} of {stage} breaks {name}"


def answer(command, text, *options, report=None, name="ivycheck"):
    with tempfile.NamedTemporaryFile("w", suffix=".rml") as it, tempfile.NamedTemporaryFile("w") as other:
        it.write(text)
        it.flush()
        other.write(report or "")
        other.flush()
        files = [it.name] if report is None else [it.name, other.name]
        ran = subprocess.run([program(name), command, *files, *options], capture_output=True, text=True,
                             preexec_fn=lambda: resource.setrlimit(resource.RLIMIT_AS, (MEMORY, MEMORY)))
    if ran.returncode == 7:
        raise MemoryError
    if ran.returncode not in (0, 1, 3):
        raise ValueError(f"status {ran.returncode}: {(ran.stdout + ran.stderr).strip()}")
    return ran.stdout


def lean_differences(found, model, text, tallies):
    """Gives what differs by lean counts, which set no limit to what is asked of memory."""
    try:
        lean = json.loads(answer("check", text, "--lean", "--json", name="ivyview"))
    except MemoryError:
        tallies["lean: no memory"] += 1
        return []
    return differences(found, viewed_groups(model, lean), tallies, "lean: ")


def judged(seed):
    """Gives what differs of the model of a seed, with its text, and the tallies of its groups."""
    text, tallies, told = Maker(seed).text(), Counter(), []
    try:
        model = rml.read(text)
        report, found = answer("check", text), Found(model)
        told.extend(differences(found, groups_of(model, report), tallies))
        replayed = answer("replay", text, report=report)
        if replayed != f"executions {report.count(': fails')}\nverdict: confirmed\n":
            told.append(f"replay: {replayed}")
        told.extend(found_differences(found, answer("houdini", text), tallies))
        told.extend(bounded_differences(model, answer("bmc", text, "--steps", str(STEPS)), tallies))
        told.extend(lean_differences(found, model, text, tallies))
        why = json.loads(answer("why", text, "--json", name="ivyview"))
        told.extend(reason_differences(found, why, tallies))
    except (KeyError, IndexError, TypeError, ValueError, StopIteration, AttributeError, MemoryError) as fault:
        told.append(f"the answer cannot be read: {fault!r}")
    return [f"model {seed}:", *told, text] if told else [], tallies


def main():
    count, first = [int(word) for word in sys.argv[1:]] + [1000, 1][len(sys.argv) - 1:]
    program()
    program("ivyview")
    tallies, differ = Counter(), 0
    with multiprocessing.Pool(lanes()) as pool:
        for told, more in pool.imap(judged, range(first, first + count)):
            tallies += more
            differ += bool(told)
            print(*told, sep="\n", end="\n" if told else "")
    print(f"{count} models: {tallies['holds']} groups hold, {tallies['fails']} fail ({tallies['compared']} of them "
          f"compared by size), {tallies['undecided']} are left open, {tallies['dropped']} conjectures are dropped, "
          f"{tallies['safe lengths']} lengths are safe, {tallies['broken lengths']} broken; by lean counts "
          f"{tallies['lean: holds']} groups hold, {tallies['lean: fails']} fail, {tallies['lean: no memory']} models "
          f"want memory; {tallies['carried']} are carried, by "
          f"{tallies['needs']} conjectures, and {tallies['lacks']} lacks are shown; {differ} models differ")
    sys.exit(differ > 0)


if __name__ == "__main__":
    main()
