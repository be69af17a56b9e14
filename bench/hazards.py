#!/usr/bin/env python3
"""Runs a command on legal texts that are hard for it, each at full and at half size.

    bench/hazards.py [--scale S] [--command NAME] [--view] [TITLE ..] [-- WORD ..]

The command is `check`, or NAME; the program is that of IVYCHECK (the one that ./ivycheck runs), with --view that of
IVYVIEW. Each model has at most 1 MiB, times S (1); TITLE takes those whose title has these words. The words go behind
`check FILE`; without any they are `--terms 1 --ground 1`, so that the time is that of reading, of the paths and of the
sentences, and nothing is decided (`bmc` has `--steps 1`, too). `replay` has the models with a report that ends behind
its first line, and reports of its own. A run has at most a minute. The stack is held to 512 KB, but to the usual 8 MB
where a formula is deep, and for `bmc`, which makes the formulas of paths that `check` passes over where there are no
conjectures; so `bmc` has no texts of many paths.

Time and memory should be at most double at double size, and below a second and a gigabyte; where the number of paths
times their lengths is more, or that of pairs of names, or of cells of tables that a report does not list, the language
makes it so (docs/LANGUAGE.md), and the line has a note. The status is 1 where a run ends by a signal, or at half size
otherwise than at full size, or where a line without a note has more (a tenth of a second and 8 MB are not looked at).
"""
import argparse
import os
import resource
import signal
import subprocess
import sys
import tempfile
from concurrent.futures import ProcessPoolExecutor

import long_report
from program import program, split

HEAD = "sort a\nrelation p\nrelation q\n"
TWO = "rml 2\nrelation p\n"
PATHS = "paths times lengths"
DEPTH = "deep"
CELLS, BOUND = "cells of tables", "elements by quantifiers"
LIMITS = ["--terms", "1", "--ground", "1"]
WORDS = {"check": LIMITS, "houdini": LIMITS, "why": LIMITS, "bmc": [*LIMITS, "--steps", "1"], "replay": []}


def nested(levels):
    """Blocks inside one another, round one update."""
    return "choose{" * levels + "p:=q" + "}" * levels


def conditional(levels):
    """A conditional term inside another, in its second part."""
    return "ite(p," * levels + "v" + ",v)" * levels


def binders(names):
    """A universal sentence's head, over these names."""
    return "axiom c:forall " + ",".join(f"{name}:a" for name in names) + "."


def texts(scale):
    """Gives title, text and what is more than the text, if something is."""
    def many(count):
        return int(count * scale)

    long = "x" * 60
    sorts = many(495)
    chain = conditional(99)
    yield ("updates, then choices of one branch", HEAD + "action t {" + "p:=q;" * many(105000)
           + "choose{};" * many(55000) + "}\n", "")
    yield ("choices of one branch, each round an update", HEAD + "action t {"
           + "choose{p:=q};" * many(70000) + "}\n", "")
    yield ("a long assumption before choices", HEAD + "action t {assume q" + "&q" * many(250000) + ";"
           + "choose{};" * many(55000) + "}\n", "")
    yield ("4,096 paths and a long tail of updates", HEAD + "action t {"
           + "if p{};" * 12 + "p:=q;" * many(200000) + "}\n", PATHS)
    yield ("4,096 paths and a long assumption", HEAD + "action t {" + "if p{};" * 12 + "assume q" + "&q" * many(500000)
           + "}\n", PATHS)
    yield ("990 actions of 4,096 paths", HEAD
           + "".join(f"action t{i}{{" + "if p{};" * 12 + "}\n" for i in range(many(990))), PATHS)
    yield ("500,000 names under 99 binders", HEAD + binders(f"x{i:02d}" for i in range(99)) + "p" + "&p" * many(500000)
           + "\n", "")
    yield ("long names under 99 binders of long names", f"sort a\nrelation {long}rrrr\n"
           + binders(f"{long}{i:04d}" for i in range(99)) + f"{long}rrrr" + f"&{long}rrrr" * many(15000) + "\n", "")
    yield ("functions in the worst order", "".join(f"sort s{i}\n" for i in range(sorts + 1))
           + "".join(f"function f{i}:s{i + 1}->s{i}\n" for i in range(sorts)), "")
    yield ("functions on a cycle", "".join(f"sort s{i}\n" for i in range(sorts + 1))
           + "".join(f"function f{i}:s{i + 1}->s{i}\n" for i in range(sorts)) + f"function g:s0->s{sorts}\n", "")
    yield ("assertions", HEAD + "action t {" + "assert p;" * min(4095, many(9000)) + "}\n", PATHS)
    yield ("conditional terms as sides of an equation", "sort a\nrelation p\nvariable v:a\naxiom c:p"
           + ("&" + chain + "=v") * many(1040000 // (len(chain) + 3)) + "\n", "")
    yield ("blocks inside one another", HEAD + "action t{" + ";".join([nested(99)] * many(1155)) + "}\n", "")
    yield "900 updates before a conjecture", HEAD + "action t {" + "p:=q;" * many(900) + "}\nconjecture c: p\n", DEPTH
    yield from texts_of_format_2(many)


def texts_of_format_2(many):
    yield ("definitions, each twice the one before", TWO + "define d0 := p\n"
           + "".join(f"define d{i + 1} := d{i} <-> d{i}\n" for i in range(max(many(990), 20))), "")
    yield ("definitions, each the one before", TWO + "define d0 := p\n"
           + "".join(f"define d{i + 1} := d{i}\n" for i in range(many(990))) + f"axiom c: d{many(990)}\n", "")
    yield ("definitions, each deeper than the one before", TWO + "define d0 := p\n"
           + "".join(f"define d{i + 1} := d{i} & p\n" for i in range(many(990))) + f"conjecture c: d{many(990)}\n",
           DEPTH)
    yield ("one definition at 20,000 uses", TWO + "define d := p & ~p\naxiom c: d" + " & d" * many(20000) + "\n", "")
    yield ("relation havocs on 4,096 paths", "rml 2\n" + HEAD + "relation r(a)\naction t {" + "if p{};" * 12
           + "r(x):=*;" * many(500) + "}\n", PATHS)
    yield ("900 names of a sort, no two for one element", "rml 2\nsort a = { "
           + ", ".join(f"n{i}" for i in range(many(900))) + " }\n", "names by names")


def reports(scale):
    """Gives title, model, report and what is more than the report, if something is."""
    def many(count):
        return int(count * scale)

    size, havocs = many(1100 ** 2), "; r(x, y) := *" * many(400)
    yield "a report of many megabytes", long_report.MODEL, long_report.text(int(size ** 0.5)), ""
    yield "a report with sizes of 100,000", long_report.MODEL, long_report.text(100_000, False), ""
    yield ("a report that lists no tuples", long_report.MODEL, long_report.text(int((4 * size) ** 0.5), False), CELLS)
    yield ("400 havocs that take no tuples", "rml 2\n" + long_report.MODEL.replace("p := true", "p := true" + havocs),
           long_report.text(60, False, " {}" * many(400)), "")
    yield ("two quantifiers over 3,000 elements", long_report.MODEL + "axiom x: forall X:a, Y:a. X = Y | X ~= Y\n",
           long_report.text(int(many(3000 ** 2) ** 0.5), False), BOUND)
    names = range(many(900))
    yield ("numbers of twenty digits", HEAD + "".join(f"action a{i} {{ abort }}\n" for i in names),
           "axioms: consistent\ninit abort: holds\n"
           + "".join(f"action a{i} abort: undecided path 1 ground {2 ** 64 - 1}\n" for i in names)
           + "final abort: holds\nverdict: undecided\n", "")
    yield ("a number of a million digits", HEAD + "action a { abort }\n", "axioms: consistent\ninit abort: holds\n"
           "action a abort: undecided path 1 ground " + "9" * many(10 ** 6), "")
    yield "a line without an end", HEAD, "axioms: consistent" + "x" * many(30 * 10 ** 6), ""


def cases(command, scale):
    """Gives title, texts of the files and note of each case."""
    behind = ["axioms: consistent\n"] if command == "replay" else []
    for title, text, note in texts(scale):
        assert len(text) <= 1 << 20, title
        if command != "bmc" or note != PATHS:
            yield title, [text, *behind], note
    if command == "replay":
        for title, model, report, note in reports(scale):
            yield title, [model, report], note


def put(texts_of_files, folder):
    """Writes the files, and gives their names."""
    names = [f"{folder}/text.rml", f"{folder}/report"][:len(texts_of_files)]
    for name, text in zip(names, texts_of_files):
        with open(name, "w") as out:
            out.write(text)
    return names


def run(words, stack):
    """Gives the status, the seconds and the megabytes of the peak, with a stack of so many kilobytes."""
    def held():
        resource.setrlimit(resource.RLIMIT_STACK, (stack << 10, stack << 10))
        resource.setrlimit(resource.RLIMIT_CPU, (60, 61))
    child = subprocess.Popen(words, stdout=subprocess.DEVNULL, stderr=subprocess.DEVNULL, preexec_fn=held)
    _, status, used = os.wait4(child.pid, 0)
    return os.waitstatus_to_exitcode(status), used.ru_utime + used.ru_stime, used.ru_maxrss / 1024


def fault(whole, half, note):
    """Gives what is wrong with the runs at full and at half size, or nothing."""
    (status, seconds, megabytes), (at_half, less, fewer) = whole, half
    if status == -signal.SIGXCPU:
        return "more than a minute"
    if status < 0 or at_half != status:
        return f"status {at_half} at half size"
    if note:
        return ""
    if seconds > 2 * less + 0.1 or megabytes > 2 * fewer + 8:
        return "more than double"
    return "more than a second or a gigabyte" if seconds > 1 or megabytes > 1024 else ""


def main():
    own, words = split(sys.argv[1:])
    parser = argparse.ArgumentParser(description=__doc__, formatter_class=argparse.RawDescriptionHelpFormatter)
    parser.add_argument("--scale", type=float, default=1.0)
    parser.add_argument("--command", choices=list(WORDS), default="check")
    parser.add_argument("--view", action="store_true")
    parser.add_argument("titles", nargs="*", metavar="TITLE")
    asked, wrong = parser.parse_args(own), False
    given = words or WORDS[asked.command]
    called = [program("ivyview" if asked.view else "ivycheck"), asked.command]
    print("| Text | Bytes | Status | Seconds | at half size | MB | at half size | Note |")
    print("|---|---|---|---|---|---|---|---|")
    with tempfile.TemporaryDirectory() as folder, ProcessPoolExecutor(1) as runner:
        # (it begins before the texts are made, or their memory would count as the program's)
        runner.submit(int).result()
        sizes = [cases(asked.command, scale) for scale in (asked.scale, asked.scale / 2)]
        for (title, *whole), (_, *half) in zip(*sizes):
            if not asked.titles or any(it in title for it in asked.titles):
                stack = 8192 if asked.command == "bmc" or whole[1] == DEPTH else 512
                cells = [runner.submit(run, [*called, *put(files, folder), *given], stack).result()
                         for files, _ in (whole, half)]
                (status, seconds, megabytes), (_, less, fewer) = cells
                told = fault(*cells, whole[1])
                wrong = wrong or told
                print(f"| {title} | {sum(map(len, whole[0]))} | {status} | {seconds:.2f} | {less:.2f} "
                      f"| {megabytes:.0f} | {fewer:.0f} | {', '.join(filter(None, [whole[1], told]))} |", flush=True)
    sys.exit(1 if wrong else 0)


if __name__ == "__main__":
    main()
