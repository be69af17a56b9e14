#!/usr/bin/env python3
"""Refuses the growths of the programs in turn: each run ends with status 7 and nothing on standard output, or as with
ample memory.

    bench/growths.py [--steps N] [TITLE ..]    IVYCHECK and IVYVIEW are the programs (those that ./ivycheck and
                                               ./ivyview run)

A library that is loaded before the C library's counts the calls of its allocator (malloc, calloc, realloc and the
aligned ones), and refuses the Nth of them and no other; N goes from 1 to the last that a run with ample memory makes
(in steps of a fiftieth, past N of them, 2000). Behind that each text is run with its address space held to 2 to 200 MB;
a limit under which the system's loader does not get the program into memory is passed over, and no other is: a crash is
told. The models are those of the rows of `ivyview` (views.py), and a few of its own; TITLE takes the runs whose title
has these words. The status is 1 where a run ended otherwise than so. It takes the processors that it may run on (all,
or those of `taskset`). Needs a C compiler.
"""
import argparse
import os
import resource
import subprocess
import sys
import tempfile
from concurrent.futures import ThreadPoolExecutor

import long_report
from program import HERE, lanes, program
from views import BRANCHES, FLIP, LOCK, NETWORK, REPORT, TWICE, USELESS

REFUSER = r"""
#include <errno.h>
#include <fcntl.h>
#include <stdio.h>
#include <stdlib.h>
#include <unistd.h>
void *__libc_malloc(size_t), *__libc_realloc(void *, size_t), *__libc_calloc(size_t, size_t);
void *__libc_memalign(size_t, size_t);
static long count, refused = -1, started;
__attribute__((constructor)) static void start(void) {
    const char *word = getenv("REFUSED");
    refused = word ? atol(word) : -1;
    started = 1;
}
__attribute__((destructor)) static void stop(void) {
    const char *name = getenv("COUNTED");
    started = 0;
    if (name) {
        char text[32];
        int length = snprintf(text, sizeof text, "%ld\n", count), file = open(name, O_WRONLY | O_CREAT | O_TRUNC, 0600);
        if (file < 0 || write(file, text, length) != length) _exit(99);
        close(file);
    }
}
static int is_refused(void) {
    if (!started || ++count != refused) return 0;
    errno = ENOMEM;
    return 1;
}
void *malloc(size_t n) { return is_refused() ? 0 : __libc_malloc(n); }
void *calloc(size_t m, size_t n) { return is_refused() ? 0 : __libc_calloc(m, n); }
void *realloc(void *p, size_t n) { return is_refused() ? 0 : __libc_realloc(p, n); }
void *aligned_alloc(size_t a, size_t n) { return is_refused() ? 0 : __libc_memalign(a, n); }
void *memalign(size_t a, size_t n) { return is_refused() ? 0 : __libc_memalign(a, n); }
int posix_memalign(void **p, size_t a, size_t n) {
    void *made = is_refused() ? 0 : __libc_memalign(a, n);
    if (made) *p = made;
    return made ? 0 : ENOMEM;
}
"""

BROKEN = "relation p\ninit { p := false }\naction a { p := true }\nconjecture c: ~p\n"

WITH_A_FUNCTION = """sort a
sort b
function f : a -> b
variable v : a
variable u : b
conjecture c: f(v) = u
"""

FORMULA = "p cnf 2 4\n1 2 0\n-1 2 0\n1 -2 0\n-1 -2 0\n"

REFUTATION = "5 1 0 1 3 0\n6 0 5 2 4 0\n"


def texts(folder):
    """Writes the files, and gives each run as its title, the program's name and its words."""
    def put(name, text):
        path = os.path.join(folder, name)
        with open(path, "w") as out:
            out.write(text)
        return path

    ring, network = f"{HERE}/examples/ring_leader.rml", put("network.rml", NETWORK)
    flip, right = put("flip.rml", FLIP), put("right", REPORT)
    for title, *words in [
            ("a conjecture that breaks", "check", put("broken.rml", BROKEN)),
            ("a function and two variables", "check", put("function.rml", WITH_A_FUNCTION)),
            ("the ring", "check", ring),
            ("the log of a goal of the ring", "emit", ring, "19", "lrat"),
            ("a log that refutes", "lrat", put("f.cnf", FORMULA), put("f.lrat", REFUTATION)),
            ("a sample", "sample", "3"),
            ("a network of format 2", "check", network),
            ("runs of a network", "bmc", network, "--steps", "2"),
            ("runs of a lock", "bmc", put("twice.rml", TWICE), "--steps", "2"),
            ("runs of the ring", "bmc", ring, "--steps", "2"),
            ("what is kept of a network", "houdini", network),
            ("what is kept of a lock", "houdini", put("lock.rml", LOCK)),
            ("a right report", "replay", flip, right),
            ("a wrong report", "replay", flip, put("wrong", REPORT.replace("p: true", "p: false"))),
            ("a report of a network", "replay", network, put("report", printed("check", network))),
            ("a long report", "replay", put("long.rml", long_report.MODEL), put("long", long_report.text(200)))]:
        yield title, "ivycheck", words
    yield from views(folder, put)


def views(folder, put):
    """Gives the runs of `ivyview`: each command in each form."""
    files = {name: put(f"seen-{name}.rml", text) for name, text in (
        ("lock", LOCK), ("network", NETWORK), ("branches", BRANCHES), ("useless", USELESS), ("fault", "relation p(\n"))}
    seen = [("check", "lock", ["", "--lean"]), ("check", "network", ["", "--dot", "--json"]),
            ("bmc", "branches", ["", "--dot", "--json"]), ("bmc", "network", ["", "--json"]),
            ("houdini", "lock", ["", "--dot", "--json"]), ("why", "useless", ["", "--json"]),
            ("check", "fault", ["", "--json"])]
    for command, model, forms in seen:
        for form in forms:
            words = [command, files[model], *["--steps", "2"] * (command == "bmc"), *form.split()]
            yield f"view: {' '.join([command, model, *form.split()])}", "ivyview", words
    yield "view: why the ring", "ivyview", ["why", f"{HERE}/examples/ring_leader.rml"]
    yield "view: nothing on standard input", "ivyview", ["check", "-"]
    for form in ([], ["--json"]):
        yield " ".join(["view: replay", *form]), "ivyview", ["replay", f"{folder}/flip.rml", f"{folder}/right", *form]


def printed(*words):
    return run([program(), *words])[1].decode()


def run(words, environment=None, space=None):
    """Gives status, standard output and standard error of a run."""
    def held():
        if space:
            resource.setrlimit(resource.RLIMIT_AS, (space, space))
    done = subprocess.run(words, capture_output=True, env=environment, preexec_fn=held, stdin=subprocess.DEVNULL)
    return done.returncode, done.stdout, done.stderr


def is_as_wanted(ended, ample):
    return ended == ample or (ended[0] == 7 and not ended[1])


def growths_of(library, words, folder):
    """Gives how many growths a run with ample memory makes."""
    counted = os.path.join(folder, "counted")
    run(words, {**os.environ, "LD_PRELOAD": library, "COUNTED": counted})
    if not os.path.exists(counted) or os.path.getsize(counted) < 2:
        sys.exit("growths.py: the growths of this program cannot be counted: "
                 "it takes memory by no call of the C library")
    with open(counted) as it:
        count = int(it.read())
    os.remove(counted)
    return count or sys.exit("growths.py: this program makes no growth that could be refused")


def refuse_in_turn(library, words, ample, limit, folder):
    """Gives how many growths were refused, how many runs ended with status 7, and those that ended otherwise."""
    def one(number):
        return number, run(words, {**os.environ, "LD_PRELOAD": library, "REFUSED": str(number)})

    count = growths_of(library, words, folder)
    numbers, number = [], 1
    while number <= count:
        numbers.append(number)
        number += 1 if number < limit else max(1, number // 50)
    with ThreadPoolExecutor(lanes()) as pool:
        done = list(pool.map(one, numbers))
    spent = sum(ended[0] == 7 for _, ended in done)
    return len(numbers), spent, [(at, ended[0]) for at, ended in done if not is_as_wanted(ended, ample)]


def is_loaded(path, space):
    """Gives whether the system's loader gets the program and its libraries into so much memory, without running it."""
    return run([path], {**os.environ, "LD_TRACE_LOADED_OBJECTS": "1"}, space)[0] == 0


def hold_space(words, ample):
    """The same under limits of the address space, in megabytes."""
    spent, wrong = [], []
    for megabytes in [2, 3, 4, 6, 8, 10, 12, 15, 20, 25, 30, 40, 50, 60, 80, 100, 130, 160, 200]:
        if not is_loaded(words[0], megabytes << 20):
            continue
        ended = run(words, space=megabytes << 20)
        if ended[0] == 7:
            spent.append(megabytes)
        if not is_as_wanted(ended, ample):
            wrong.append((megabytes, ended[0]))
    return spent, wrong


def main():
    words = argparse.ArgumentParser(description=__doc__, formatter_class=argparse.RawDescriptionHelpFormatter)
    words.add_argument("--steps", type=int, default=2000, metavar="N")
    words.add_argument("titles", nargs="*", metavar="TITLE")
    given, found = words.parse_args(), False
    with tempfile.TemporaryDirectory() as folder:
        source, library = f"{folder}/refuser.c", f"{folder}/refuser.so"
        with open(source, "w") as out:
            out.write(REFUSER)
        subprocess.run(["cc", "-O1", "-shared", "-fPIC", "-fno-builtin", "-o", library, source], check=True)
        print("| Run | Growths refused | Status 7 | Otherwise | Status 7 at, in MB | Otherwise |")
        print("|---|---|---|---|---|---|")
        for title, name, arguments in texts(folder):
            if given.titles and not any(it in title for it in given.titles):
                continue
            called = [program(name), *arguments]
            ample = run(called)
            tried, spent, wrong = refuse_in_turn(library, called, ample, given.steps, folder)
            small, odd = hold_space(called, ample)
            span = f"{small[0]} to {small[-1]}" if small else "none"
            print(f"| {title} | {tried} | {spent} | {wrong or 'none'} | {span} | {odd or 'none'} |", flush=True)
            found = found or wrong or odd
    sys.exit(1 if found else 0)


if __name__ == "__main__":
    main()
