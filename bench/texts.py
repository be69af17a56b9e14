#!/usr/bin/env python3
"""Asks of the texts what `rt ci` asks before it proves them, in a minute and with nothing built.

    bench/texts.py [FOLDER]     the crates of the tree in FOLDER (this one): layout, words that hide others, links, files
                                that no check reads

The gate asks the layout of a crate only behind its proof. The last line is `N crates, M bad`; the status is 1 where one
is, and 2 where the kit is missing, or FOLDER is no tree of crates.
"""
import contextlib
import io
import os
import sys

import lay
from program import stop

HERE = os.path.dirname(os.path.dirname(os.path.abspath(__file__)))


def faults(rt, crate, every):
    """Gives what the gate would say of a crate's texts."""
    said = io.StringIO()
    with contextlib.redirect_stderr(said), contextlib.redirect_stdout(said):
        for ask in (
            lambda: rt.rtlib.stop_on_links(crate.folder),
            lambda: rt.rtlib.stop_on_unread(crate.folder, every),
            lambda: rt.rtlib.stop_on_text(crate, "verdict"),
            lambda: rt.stop_on_words(crate),
        ):
            before = said.tell()
            try:
                ask()
            except SystemExit as ended:
                # (what a program below it says goes elsewhere)
                if ended.code and said.tell() == before:
                    said.write(f"the kit ends with {ended.code}\n")
            except UnicodeError as why:
                said.write(f"{why}\n")
    return said.getvalue() + layout(rt, crate)


def layout(rt, crate):
    """Gives what the layout of a crate's files is blamed for."""
    with open(os.devnull, "w", encoding="ascii") as nowhere:
        try:
            ended = rt.rtlib.fmt(crate.folder, "--check", nowhere)
        except SystemExit as stopped:
            ended = stopped.code
    return {0: "", 1: "rt fmt would lay it out otherwise\n"}.get(ended, f"rt fmt ends with {ended}\n")


def main(root):
    rt = lay.kit()
    try:
        os.chdir(root)
    except OSError as why:
        stop(why)
    rt.Crate.allowed = rt.handles_of(os.getcwd())
    every = rt.crates_of(os.getcwd())
    bad = 0
    for crate in every:
        found = faults(rt, crate, every)
        if found:
            bad += 1
            print(f"{crate.name}: {found}", end="")
    if not every:
        stop(f"{root} has no crates")
    print(f"{len(every)} crates, {bad} bad")
    return 1 if bad else 0


if __name__ == "__main__":
    sys.exit(main(sys.argv[1] if len(sys.argv) > 1 else HERE))
