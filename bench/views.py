#!/usr/bin/env python3
"""Writes rows of `ivyview`, for crates/rows/data/views.txt: each outcome in each form, to the byte.

    bench/views.py >crates/rows/data/views.txt    IVYVIEW is the program, the one that ./ivyview runs if none is named

What comes out is what the program prints, read by a person before it is handed in: that a text is equal to its
definition is proved, and how it reads is seen here. The cases are the table below, each with the name of its outcome.
"""
import pathlib
import subprocess
import tempfile

from program import program

LOCK = """sort client
sort server
relation free(server)
relation holds(client, server)
variable c : client
variable s : server
init { free(S) := true; holds(C, S) := false }
action take { c := *; s := *; assume free(s); insert holds(c, s); remove free(s) }
conjecture one_holder: forall A:client, B:client, S:server. holds(A, S) & holds(B, S) -> A = B
"""
FIXED = LOCK + "conjecture held_not_free: forall C:client, S:server. holds(C, S) -> ~free(S)\n"
# a lock that is given away twice
TWICE = LOCK.replace("; remove free(s)", "")
# a path through two branches and an assertion
BRANCHES = """relation ready
relation sent
init { ready := false; sent := false }
action go {
  if ready { sent := true }
  else { choose { ready := true } or { assert ready } }
}
conjecture never_sent: ~sent
"""
# functions, and a relation of three arguments
TABLES = """sort node
sort value
relation link(node, node, value)
relation marked(node)
function next : node -> value
variable n : node
variable v : value
init { link(X, Y, Z) := false; marked(X) := false }
action join { n := *; v := *; insert link(n, n, v); put next(n) = v; insert marked(n) }
conjecture no_loop: forall X:node, Y:value. ~link(X, X, Y)
"""
NOTHING = "relation p\naxiom yes: p\naxiom no: ~p\ninit { skip }\n"
OPEN = """sort node
relation le(node, node)
variable n : node
axiom refl: forall X:node. le(X, X)
axiom trans: forall X:node, Y:node, Z:node. le(X, Y) & le(Y, Z) -> le(X, Z)
init { skip }
action move { n := *; assume le(n, n) }
conjecture all: forall X:node, Y:node, Z:node. le(X, Y) & le(Y, Z) & le(Z, X) -> le(Y, X)
"""
# four pigeons in three holes
PIGEONS = "".join(f"relation {p}{h}\n" for p in "abcd" for h in "123") + "".join(
    f"axiom p{p}: {p}1 | {p}2 | {p}3\n" for p in "abcd") + "".join(
    f"axiom h{p}{q}{h}: ~{p}{h} | ~{q}{h}\n" for h in "123" for p in "abcd" for q in "abcd" if p < q) + (
    "init { skip }\nconjecture c: a1\n")
# format 2: a listed sort, a derived relation, and a relation that becomes anything
NETWORK = """rml 2
sort node
sort kind = { ask, grant }
relation sent(kind, node)
relation up
define busy(N:node) := sent(ask, N) | sent(grant, N)
init { sent(K, N) := false; up := false }
action lose { sent(K, N) := *; up := * }
conjecture idle: forall N:node. ~busy(N)
"""
# a derived relation that is true before a step and not behind it, one of no arguments, and one of two
WAITING = """rml 2
sort node
relation asked(node)
relation held(node)
variable n : node
define waits(N:node) := asked(N) & ~held(N)
define before(X:node, Y:node) := held(X) & waits(Y)
define quiet := ~asked(n)
init { asked(N) := false; held(N) := false }
action grant { n := *; assume waits(n); insert held(n) }
conjecture alone: forall X:node, Y:node. held(X) & held(Y) -> X = Y
"""
# a goal whose ground size is above the most that may be asked for
WIDE = """sort s
relation p(s, s)
init { p(A, B) := false }
action go { skip }
conjecture wide:
  forall A:s, B:s, C:s, D:s, E:s, F:s, G:s, H:s. p(A, B) & p(C, D) & p(E, F) & p(G, H) -> p(A, D) & p(E, H)
"""
USELESS = FIXED + "conjecture twice: forall C:client, S:server. free(S) -> ~holds(C, S)\n"
FAULTS = [
    ("a byte that is none of the language's", "relation p\naxiom a: p ! p\n", "fault"),
    ("unequal as elsewhere", "sort s\nvariable x : s\nvariable y : s\ninit { assume x != y }\n", "fault"),
    ("`and` as in TLA+", "relation p\nrelation q\naxiom a: p /\\ q\n", "fault"),
    ("`else if`", "relation p\ninit { if p { skip } else if p { skip } }\n", "fault"),
    ("no `;` between two commands", "relation p\nrelation q\ninit { p := true\n  q := true }\n", "fault"),
    ("a quantifier without sorts", "sort s\nrelation p(s)\nconjecture c: forall X. p(X)\n", "fault"),
    ("a quantifier as an operand", "sort s\nrelation p(s)\nrelation q\nconjecture c: q & forall X:s. p(X)\n", "fault"),
    ("an invariant by another name", "relation p\ninvariant c: p\n", "fault"),
    ("an action with parameters", "sort s\nrelation p(s)\naction a(x:s) { insert p(x) }\n", "fault"),
    ("a quantifier of TLA+", "sort s\nrelation p(s)\naxiom a: \\A x \\in s : p(x)\n", "fault"),
    ("a set of TLA+", "relation p\naction a { p := q \\cup r }\n", "fault"),
    ("a tuple of TLA+", "relation r\naxiom a: <<x>> \\in r\n", "fault"),
    ("a prime", "relation p\naction a { p' := true }\n", "fault"),
    ("a function applied by brackets", "sort s\nfunction f : s -> s\naxiom a: f[x] = x\n", "fault"),
    ("what stays as it is", "relation q\naction a { UNCHANGED q }\n", "fault"),
    ("a branch of TLA+", "relation p\naction a { IF p THEN skip }\n", "fault"),
    ("the beginning of TLA+", "relation p\nInit == p\n", "fault"),
    ("an update written as an equation", "sort s\nfunction f : s -> s\nvariable n : s\naction a { f(n) = n }\n",
     "fault"),
    ("a text that ends too early", "relation p\ninit { p := true", "fault"),
    ("levels without end", "relation p\naxiom a: " + "(" * 300 + "p" + ")" * 300 + "\n", "fault"),
    ("a name that is not declared", "relation p\ninit { q := true }\n", "fault"),
    ("truth as in TLA+", "relation p\naxiom a: p | FALSE\n", "fault"),
    ("formulas that are compared by `=`", "relation p\nrelation q\naxiom a: p = q\n", "fault"),
    ("a relation that is set to any", "relation p\naction a { p := * }\n", "fault"),
    ("a variable in the place of a new name", "sort s\nrelation r(s)\nvariable n : s\naction a { r(n) := true }\n",
     "fault"),
    ("functions that lead round", "sort s\nsort t\nfunction f : s -> t\nfunction g : t -> s\n", "fault"),
    ("an axiom that is not exists-forall",
     "sort s\nsort t\nrelation r(s, t)\naxiom a: forall X:s. exists Y:t. r(X, Y)\n", "fault"),
    ("more paths than are followed", "relation p\naction a { " + "; ".join(["if p { skip }"] * 13) + " }\n", "fault"),
    ("a sort that is another's", "sort s\nsort t\nvariable x : s\nvariable y : t\naxiom a: x = y\n", "fault"),
    ("a format that there is not", "rml 3\nrelation p\n", "fault"),
    ("a definition in a file of format 1", "relation p\ndefine d := p\n", "fault"),
    ("a name of a listed sort that is set", "rml 2\nsort s = { a, b }\naction t { a := b }\n", "fault"),
    ("a definition that is too large", "rml 2\nrelation p\ndefine d0 := p\n" + "".join(
        f"define d{k + 1} := d{k} <-> d{k}\n" for k in range(16)), "fault"),
    ("a quantifier that may not stand there", "sort s\nrelation p(s)\nconjecture c: exists X:s. p(X)\n"
     "action a { assume forall Y:s. exists X:s. X = Y }\n", "fault"),
]


def check(title, words, files, outcome, **more):
    return {"title": title, "words": words, "files": files, "outcome": outcome, **more}


def cases():
    yield check("help", ["--help"], {}, "words")
    yield check("help comes before all else", ["check", "--dot", "--json", "--help"], {}, "words")
    yield check("the version", ["--version"], {}, "words")
    yield check("no words", [], {}, "words")
    yield check("a question that is none", ["prove", "model"], {"model": FIXED}, "words")
    yield check("two forms at once", ["check", "model", "--dot", "--json"], {"model": FIXED}, "words")
    yield check("no pictures of reasons", ["why", "model", "--dot"], {"model": FIXED}, "words")
    yield check("no lean counts of a replay", ["replay", "model", "report", "--lean"], {"model": FIXED, "report": ""},
                "words")
    for word, text in (("lock", LOCK), ("fixed", FIXED), ("branches", BRANCHES), ("tables", TABLES),
                       ("nothing", NOTHING), ("network", NETWORK),
                       ("waiting", WAITING)):
        for form in ([], ["--dot"], ["--json"]):
            yield check(" ".join(["check", word, *form]), ["check", f"{word}.rml", *form], {f"{word}.rml": text},
                        "checked")
    for option in ("--terms", "--ground"):
        yield check(f"check open, {option}", ["check", "open.rml", option, "1"], {"open.rml": OPEN}, "checked")
    yield check("check with few conflicts", ["check", "pigeons.rml", "--conflicts", "1"], {"pigeons.rml": PIGEONS},
                "checked")
    for terms, what in (("7", "sort"), ("8", "relation")):
        yield check(f"a {what} that may be smaller", ["check", "lock.rml", "--terms", terms], {"lock.rml": LOCK},
                    "checked")
    yield check("check open, above the most", ["check", "wide.rml"], {"wide.rml": WIDE}, "checked")
    yield check("check open, above the most, as a value", ["check", "wide.rml", "--json"], {"wide.rml": WIDE},
                "checked")
    yield check("check open as a value", ["check", "open.rml", "--json", "--ground", "1"], {"open.rml": OPEN},
                "checked")
    yield check("limits on whole counts", ["check", "fixed.rml", "--ground", "300"], {"fixed.rml": FIXED}, "checked")
    yield check("limits on lean counts", ["check", "fixed.rml", "--ground", "300", "--lean"], {"fixed.rml": FIXED},
                "checked")
    for word, text in (("lock", LOCK), ("fixed", FIXED), ("branches", BRANCHES)):
        for form in ([], ["--dot"], ["--json"]):
            yield check(" ".join(["houdini", word, *form]), ["houdini", f"{word}.rml", *form], {f"{word}.rml": text},
                        "found")
    yield check("houdini open", ["houdini", "open.rml", "--ground", "1"], {"open.rml": OPEN}, "found")
    yield check("houdini open as a value", ["houdini", "open.rml", "--ground", "1", "--json"], {"open.rml": OPEN},
                "found")
    yield check("houdini network", ["houdini", "network.rml"], {"network.rml": NETWORK}, "found")
    yield check("houdini waiting", ["houdini", "waiting.rml"], {"waiting.rml": WAITING}, "found")
    for word, text in (("lock", LOCK), ("twice", TWICE), ("branches", BRANCHES), ("network", NETWORK),
                       ("waiting", WAITING)):
        for form in ([], ["--dot"], ["--json"]):
            yield check(" ".join(["bmc", word, *form]), ["bmc", f"{word}.rml", "--steps", "2", *form],
                        {f"{word}.rml": text}, "bounded")
    yield check("bmc open", ["bmc", "open.rml", "--steps", "1", "--ground", "1"], {"open.rml": OPEN}, "bounded")
    yield check("bmc open as a value", ["bmc", "open.rml", "--steps", "1", "--ground", "1", "--json"],
                {"open.rml": OPEN}, "bounded")
    for word, text in (("lock", LOCK), ("fixed", FIXED), ("useless", USELESS), ("branches", BRANCHES)):
        for form in ([], ["--json"]):
            yield check(" ".join(["why", word, *form]), ["why", f"{word}.rml", *form], {f"{word}.rml": text}, "reasons")
    yield check("why open", ["why", "open.rml", "--ground", "1"], {"open.rml": OPEN}, "reasons")
    yield check("why open as a value", ["why", "open.rml", "--ground", "1", "--json"], {"open.rml": OPEN}, "reasons")
    right = REPORT
    for title, report, outcome in (("a right report", right, "replayed"),
                                   ("a wrong verdict", right.replace("not inductive", "inductive"), "replayed"),
                                   ("a report that is none", "holds\n", "unread")):
        for form in ([], ["--json"]):
            yield check(" ".join(["replay:", title, *form]), ["replay", "flip.rml", "report", *form],
                        {"flip.rml": FLIP, "report": report}, outcome)
    yield check("replay of a faulty model", ["replay", "model", "report"], {"model": "relation\n", "report": right},
                "fault")
    yield check("replay of a faulty model as a value", ["replay", "model", "report", "--json"],
                {"model": "relation\n", "report": right}, "fault")
    for title, text, outcome in FAULTS:
        yield check(title, ["check", "model.rml"], {"model.rml": text}, outcome)
    for command in (["houdini", "model.rml"], ["bmc", "model.rml", "--steps", "1"], ["why", "model.rml"]):
        for form in ([], ["--json"]):
            yield check(" ".join(["a fault by", command[0], *form]), [*command, *form], {"model.rml": "relation p(\n"},
                        "fault")
    yield check("a fault as a value", ["check", "model.rml", "--json"], {"model.rml": FAULTS[1][1]}, "fault")
    yield check("a fault where a picture is wanted", ["check", "model.rml", "--dot"], {"model.rml": FAULTS[1][1]},
                "fault")
    yield check("a load that fails", ["check", "model.rml"], {"model.rml": FIXED}, "read fault",
                lines=["load-fails 1"], status=5, out="", err="cannot read the file\n", loads=(0, 0))
    yield check("a file that is not there", ["why", "model.rml"], {}, "read fault",
                status=5, out="", err="cannot read the file\n", loads=(0, 0))


FLIP = "relation p\ninit { p := false }\naction a { p := true }\nconjecture c: ~p\n"
REPORT = """axioms: consistent
init abort: holds
init c: holds
action a abort: holds
action a c: fails
  path 1 of 1
  least: yes
  before
    relation p: false
  havoc:
  after
    relation p: true
  values:
final abort: holds
verdict: not inductive
"""


def pieces(text):
    """The lines of a text in the form of the rows."""
    lines = text.split("\n")
    for line in lines[:-1]:
        yield f"|{line}"
    if lines[-1]:
        yield "+" + lines[-1]


def row(case, ran):
    status, out, err = ran
    files = case["files"]
    yield f"row {case['title']}"
    yield from (f"word {word}" for word in case["words"])
    for name, text in files.items():
        yield f"file {name}"
        yield from pieces(text)
    yield from case.get("lines", [])
    yield f"status {status}"
    yield f"outcome {case['outcome']}"
    yield "written all"
    if case["outcome"] == "words":
        loads = 0, 0
    elif "loads" in case:
        loads = case["loads"]
    else:
        sizes = [len(text) for text in files.values()]
        loads = sizes[0], sizes[1] if len(sizes) > 1 else 0
    yield f"loads {loads[0]} {loads[1]}"
    if out:
        yield "out"
        yield from pieces(out)
    if err:
        yield "err"
        yield from pieces(err)


def run(viewer, case):
    if "status" in case:
        return case["status"], case["out"], case["err"]
    with tempfile.TemporaryDirectory() as room:
        for name, text in case["files"].items():
            (pathlib.Path(room) / name).write_text(text)
        done = subprocess.run([viewer, *case["words"]], cwd=room, capture_output=True, stdin=subprocess.DEVNULL,
                              check=False)
    return done.returncode, done.stdout.decode(), done.stderr.decode()


def main():
    viewer = program("ivyview")
    print("# Rows of `ivyview`: each outcome in each form, written by bench/views.py. The format is that of rows.txt.")
    for case in cases():
        print()
        print("\n".join(row(case, run(viewer, case))))


if __name__ == "__main__":
    main()
