#!/usr/bin/env python3
"""Looks whether each must-fail edit can be applied, and tries those that the gate does not.

    bench/edits.py [FOLDER]             whether each edit of the tree in FOLDER (this one) can be applied
    bench/edits.py --try NAME ..        tries all edits of these crates, in a copy of this tree

An edit is a wrong body, and the prover has to refuse its crate with it. The gate tries those of must-fail/ whose names
end in .edit; those that end in .md are tried by hand, when their crate or one below it changes. The gate counts an edit
for nothing whose old line does not stand exactly once in its file, and passes: such an edit shows no more that a wrong
body is refused. This script names each such edit, and each that changes nothing. Its last line is `N edits, M cannot be
applied`; the status is 1 where one cannot. `--try` says what `rt must-fail` says, which first proves what stands below
the crates: an hour and more on a machine where nothing is built.
"""
import glob
import os
import shutil
import subprocess
import sys
import tempfile

HERE = os.path.dirname(os.path.dirname(os.path.abspath(__file__)))


def faults(crate, text):
    """Gives why an edit of a crate cannot be applied, if it cannot."""
    file, old = None, None
    for line in text.splitlines():
        word, _, rest = line.partition(": ")
        if word == "file":
            path = f"{crate}/{rest}"
            file = open(path).read().splitlines() if os.path.isfile(path) else None
            if file is None:
                yield f"there is no {rest}"
        elif word == "old":
            old = rest
            count = sum(line.count(rest) for line in file or [])
            if file is not None and count != 1:
                yield f"it stands {count} times: {rest}"
        elif word == "new" and rest == old:
            yield f"the same: {rest}"
    if old is None:
        yield "it has no old line"


def look(root):
    """Says which edits cannot be applied; the answer is whether one cannot."""
    edits = sorted(path for end in ("edit", "md") for path in glob.glob(f"{root}/crates/*/must-fail/*.{end}"))
    lost = 0
    for path in edits:
        crate = os.path.dirname(os.path.dirname(path))
        with open(path) as it:
            told = list(faults(crate, it.read()))
        lost += bool(told)
        for why in told:
            print(f"{os.path.relpath(path, root)}: {why}")
    print(f"{len(edits)} edits, {lost} cannot be applied")
    return lost > 0


def try_all(names):
    """Tries all edits of the crates, those of the gate and the others; the answer is whether one is not refused."""
    with tempfile.TemporaryDirectory() as room:
        for part in ("crates.txt", "HANDLES"):
            shutil.copy(f"{HERE}/{part}", room)
        shutil.copytree(f"{HERE}/crates", f"{room}/crates", ignore=shutil.ignore_patterns("out"))
        for name in names:
            for path in glob.glob(f"{room}/crates/{name}/must-fail/*.md"):
                os.rename(path, path.removesuffix("md") + "edit")
        return subprocess.run(["rt", "must-fail", *names], cwd=room).returncode


def main():
    if sys.argv[1:2] == ["--try"]:
        missing = [name for name in sys.argv[2:] if not os.path.isdir(f"{HERE}/crates/{name}/must-fail")]
        if missing or not sys.argv[2:]:
            sys.exit(f"edits.py: no edits of {', '.join(missing) or 'no crate'}")
        sys.exit(try_all(sys.argv[2:]))
    sys.exit(look(sys.argv[1] if len(sys.argv) > 1 else HERE))


if __name__ == "__main__":
    main()
