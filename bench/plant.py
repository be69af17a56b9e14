#!/usr/bin/env python3
"""`rt plant` in a crate that the gate proved: its first check, that of the whole crate, is read off the gate's log.

    bench/plant.py LOG [WORD ..]        in the crate's folder, over libraries that bench/lay.py laid; WORDs are rt plant's
"""
import importlib.machinery
import os
import re
import shutil
import sys
import types


def main(log, words):
    """Plants in the crate of this folder."""
    name = os.path.basename(os.getcwd())
    with open(log, errors="replace") as it:
        said = re.findall(rf"^== {name}\n(.*?)^rt: {name} proved$", it.read(), re.M | re.S)
    if not said:
        sys.exit(f"{log} has no proof of {name}")

    path = os.path.join(os.path.dirname(os.path.realpath(shutil.which("rt") or "rt")), "rt-plant")
    made = types.ModuleType("rt_plant")
    made.__file__ = path
    importlib.machinery.SourceFileLoader("rt_plant", path).exec_module(made)

    def check(*_):
        print("\n" + said[-1] + f"\ncrate {name}: ")
        return 0

    made.rt.main = check
    sys.exit(made.main(*words))


if __name__ == "__main__":
    if len(sys.argv) < 2:
        sys.exit(__doc__.strip())
    main(sys.argv[1], sys.argv[2:])
