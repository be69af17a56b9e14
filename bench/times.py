#!/usr/bin/env python3
"""Tells where a crate's check takes its time, by when it wrote each module.

    bench/times.py [--most N] [--root FOLDER] CRATE     the N (25) slowest functions, with the seconds of their modules

What a check proves it keeps as files in crates/NAME/out/incremental, one a module, each written as the module is
checked; so at one job the time between two files is what the second took. It needs a check from nothing: remove that
folder, and run `rt check --jobs 1`. A module that was first needed by a function counts for that function.
"""
import argparse
import collections
import os
import re
import sys

HERE = os.path.dirname(os.path.dirname(os.path.abspath(__file__)))


def modules_of(root, crate):
    """Gives the modules that the check of a crate wrote, with the time of each, in their order."""
    found = []
    for at, folders, names in os.walk(f"{root}/crates/{crate}/out/incremental"):
        folders[:] = [it for it in folders if it != "records"]
        found += [(os.stat(f"{at}/{it}").st_mtime, it[:-6]) for it in names if it.endswith(".oantt")]
    return sorted(found)


def seconds_of(crate, modules):
    """Gives the seconds of each function's modules by their kind (`Lts`, its steps; `Proof`; `Reads` ..)."""
    functions = collections.defaultdict(collections.Counter)
    for (before, _), (when, name) in zip(modules, modules[1:]):
        function, _, kind = re.sub(rf"^Rattle-{crate}(-specs|-proofs)?\.?", "", name).rpartition(".")
        functions[function][kind.split("-")[0]] += when - before
    return functions


def main():
    words = argparse.ArgumentParser(description=__doc__, formatter_class=argparse.RawDescriptionHelpFormatter)
    words.add_argument("--most", type=int, default=25)
    words.add_argument("--root", default=HERE)
    words.add_argument("crate")
    given = words.parse_args()
    modules = modules_of(given.root, given.crate)
    if not modules:
        print(f"no check left modules of {given.crate}", file=sys.stderr)
        return 1
    functions = seconds_of(given.crate, modules)
    kinds = sum(functions.values(), collections.Counter())
    print(f"{len(modules)} modules, {modules[-1][0] - modules[0][0]:.1f} s from the first to the last:",
          ", ".join(f"{kind} {took:.1f}" for kind, took in kinds.most_common(8)))
    for function, of in sorted(functions.items(), key=lambda it: -it[1].total())[:given.most]:
        print(f"{of.total():6.1f}  {function}: ", ", ".join(f"{kind} {took:.1f}" for kind, took in of.most_common(4)))
    return 0


if __name__ == "__main__":
    sys.exit(main())
