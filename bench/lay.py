#!/usr/bin/env python3
"""Lays what `rt ci` kept on this machine into a clone, so that `rt check` there begins over libraries that are proved.

    bench/lay.py CLONE [NAME ..]        lays the libraries below the crates of these names, or of all crates

`rt check` takes what another check kept, and never what the gate kept: without this it proves each library below anew.
What is laid serves work alone; no verdict of the gate rests on it. Prints the crates of which nothing is kept. Some
kits keep nothing of what `rt ci` passed: the script then says so, and ends with status 2.
"""
import importlib.machinery
import importlib.util
import os
import shutil
import sys

from program import stop


def kit():
    """Gives the kit's own `rt`, as a module."""
    if not shutil.which("rt"):
        stop("there is no rt on the PATH")
    loader = importlib.machinery.SourceFileLoader("rt_of_kit", os.path.realpath(shutil.which("rt")))
    made = importlib.util.module_from_spec(importlib.util.spec_from_loader("rt_of_kit", loader))
    loader.exec_module(made)
    return made


def main(clone, names):
    """Lays the libraries below these crates, lowest first."""
    rt = kit()
    if not hasattr(rt, "Kept"):
        print("this kit keeps nothing of what rt ci passed, so there is nothing to lay", file=sys.stderr)
        sys.exit(2)
    os.chdir(clone)
    root = os.getcwd()
    rt.Crate.cuts_libraries = True
    rt.Crate.allowed = rt.handles_of(root)
    every = rt.crates_of(root)
    wanted = {low.name for it in every if not names or it.name in names for low in it.below()}
    crates = [it for it in every if it.name in wanted and not it.is_program]
    kept, lacking = rt.Kept(crates), set()
    # (nothing is taken out of what the gate kept, whatever is found here)
    kept.drop = lambda path: None
    for crate in crates:
        below = {it.name for it in crate.below()}
        made, own = f"{crate.folder}/out/rlib", f"{crate.folder}/out/own"
        if os.path.isdir(made):
            os.replace(made, own)
        is_laid = not below & lacking and kept.give(crate, False, kept.key(crate))
        if os.path.isdir(own):
            # (what the clone made itself stays where the gate kept nothing)
            shutil.rmtree(own) if is_laid else os.replace(own, made)
        if not is_laid:
            lacking.add(crate.name)
            continue
        with open(f"{crate.folder}/out/rlib/stamp", "w") as it:
            it.write(crate.stamp())
        kept.is_built(crate)
    print(f"{len(crates) - len(lacking)} of {len(crates)} libraries are laid")
    if lacking:
        print("lacking:", *sorted(lacking))


if __name__ == "__main__":
    if len(sys.argv) < 2:
        sys.exit(__doc__.strip())
    main(sys.argv[1], sys.argv[2:])
