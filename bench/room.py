#!/usr/bin/env python3
"""Lists the functions whose proofs hold the largest steps: where a crate's check takes its time.

    bench/room.py [--most N] [--root FOLDER] [CRATE ..]    the crates that `rt check` left proofs of, or these

What a check proved it keeps as files in crates/NAME/out/incremental, and the steps of a function's body are its module
`Lts`. Most have 0.1 to 3 MB. One that holds the drop of a struct of structs of lists, since such a value ends in place,
has 11 MB for one such end and 25 for two, and takes minutes (docs/PROOFS.md, "Time"). Sizes are those of the last
check; a function that is gone since may still be listed. Printed are the N (20) largest.
"""
import argparse
import os
import re
import sys

HERE = os.path.dirname(os.path.dirname(os.path.abspath(__file__)))
STEPS = re.compile(r"Rattle-(\w+)-proofs\.(.+?)\.Lts(?:-([^.]+))?\.oantt$")


def steps_of(root, crate):
    """Gives the bytes of the steps of each function of a crate."""
    found = {}
    for at, folders, names in os.walk(f"{root}/crates/{crate}/out/incremental"):
        folders[:] = [it for it in folders if it != "records"]
        for name in names:
            of = STEPS.match(name)
            if of and of[1] == crate:
                function = f"{of[2]}, {of[3]}" if of[3] else of[2]
                found[function] = max(os.path.getsize(f"{at}/{name}"), found.get(function, 0))
    return found


def main():
    words = argparse.ArgumentParser(description=__doc__, formatter_class=argparse.RawDescriptionHelpFormatter)
    words.add_argument("--most", type=int, default=20)
    words.add_argument("--root", default=HERE)
    words.add_argument("crates", nargs="*")
    given = words.parse_args()
    crates = given.crates or sorted(os.listdir(f"{given.root}/crates"))
    found = [(size, crate, function) for crate in crates for function, size in steps_of(given.root, crate).items()]
    if not found:
        sys.exit("room.py: no check has left proofs of these crates here: run `rt check` first")
    print("| MB | Crate | Function |\n|---|---|---|")
    for size, crate, function in sorted(found, reverse=True)[:given.most]:
        print(f"| {size / 1e6:.1f} | `{crate}` | `{function}` |")


if __name__ == "__main__":
    main()
