#!/usr/bin/env python3
"""Proves crates as `rt ci` does, and keeps what passed: for kits that keep nothing, and for work alone.

    bench/keep.py prove [NAME ..]   proves these crates, or all, and those below them, side by side; runs the programs
    bench/keep.py edits [NAME ..]   the same, and tries the must-fail edits of these crates that end in `.edit`
    bench/keep.py lay [NAME ..]     lays the libraries below these crates into this tree: `rt check` begins over them
    bench/keep.py rt WORD ..        the kit's own `rt` with these words, quicker
        KEPT    the folder of what is kept (rattle-kept among the temporary files)
        RT_JOBS how many processors are taken (all)

It is called at the top of a tree. A crate is known by the sum of its text, of the crates below it and of the kit, so
what one clone proved serves every other. The last line is `N passed, M failed`; what a crate's proof said stands in
KEPT/said/NAME. No verdict of the gate rests on any of it: `rt ci` proves everything anew.

Such a kit finds the crates below a crate, and its sum, by going all ways down to each of them: a minute and more for a
crate at the top, and twice for each library. Here both are found once.
"""
import copy
import hashlib
import importlib.machinery
import importlib.util
import os
import shutil
import subprocess
import sys
import tempfile
import threading
import time

KEPT = os.environ.get("KEPT") or os.path.join(tempfile.gettempdir(), "rattle-kept")


def kit():
    """Gives the kit's own `rt`, as a module in which what is found of a crate is found once."""
    loader = importlib.machinery.SourceFileLoader("rt_of_kit", os.path.realpath(shutil.which("rt") or "rt"))
    made = importlib.util.module_from_spec(importlib.util.spec_from_loader("rt_of_kit", loader))
    loader.exec_module(made)
    if hasattr(made, "Kept"):
        print("this kit keeps what rt ci passed: call rt ci NAME, and bench/lay.py", file=sys.stderr)
        sys.exit(2)
    crate, lock = made.rtlib.Crate, threading.RLock()
    find_sum, sums, lower = crate.stamp, {}, {}

    def below(self):
        with lock:
            if self.folder not in lower:
                every = [it for dep in self.deps for it in [*below(dep), dep]]
                lower[self.folder] = list({it.folder: it for it in every}.values())
            return [*lower[self.folder]]

    def stamp(self):
        with lock:
            if self.folder not in sums:
                sums[self.folder] = find_sum(self)
            return sums[self.folder]

    crate.below, crate.stamp = below, stamp
    return made


RT = kit()


def folder_of(crate):
    """Where what was proved of this very text is kept."""
    return f"{KEPT}/{crate.name}-{hashlib.sha256(crate.stamp().encode()).hexdigest()}"


def made_of(crate):
    """What of a crate's folder out/ is kept."""
    ends = RT.BACKENDS.values()
    return [f"{crate.name}{it}" for it in ends] if crate.is_program else ["rlib"]


def link(at, to):
    if os.path.lexists(to):
        shutil.rmtree(to) if os.path.isdir(to) else os.remove(to)
    subprocess.run(["cp", "-al", at, to], check=True)


def lay(crate):
    """Gives the crate what is kept of it; answers whether that is there."""
    if not os.path.isdir(folder_of(crate)):
        return False
    os.makedirs(f"{crate.folder}/out", exist_ok=True)
    for name in os.listdir(folder_of(crate)):
        link(f"{folder_of(crate)}/{name}", f"{crate.folder}/out/{name}")
    if not crate.is_program:
        # by this sum `rt check` sees that the library is of the text
        with open(f"{crate.folder}/out/rlib/stamp", "w") as it:
            it.write(crate.stamp())
    return True


def keep(crate):
    part = f"{folder_of(crate)}.part"
    shutil.rmtree(part, ignore_errors=True)
    os.makedirs(part)
    for name in made_of(crate):
        if os.path.exists(f"{crate.folder}/out/{name}"):
            link(f"{crate.folder}/out/{name}", f"{part}/{name}")
    os.rename(part, folder_of(crate))


def refused(crate):
    """Why the crate's text is refused before it is proved, if it is."""
    try:
        RT.rtlib.stop_on_links(crate.folder)
        RT.rtlib.stop_on_text(crate, "verdict")
        RT.stop_on_words(crate)
    except SystemExit:
        return "its text is refused"
    return "rt fmt lays it out otherwise" if RT.rtlib.fmt(crate.folder, "--check", crate.out) else None


def prove(crate, given, jobs):
    """Proves a crate as `rt ci` does, or takes what is kept; answers whether it is proved."""
    lacking = [it.name for it in crate.below() if not given[it.name, "proof"]]
    if lacking:
        RT.say(f"{crate.name} NOT PROVED: its library {lacking[0]} failed")
    if lacking or lay(crate):
        return not lacking
    begun, status = time.time(), 1
    proved = copy.copy(crate)
    with open(f"{KEPT}/said/{crate.name}", "w+", errors="replace") as proved.out:
        try:
            os.makedirs(f"{crate.folder}/out", exist_ok=True)
            why = refused(proved)
            if why:
                RT.say(why, proved.out)
            else:
                status = proved.ci(["--jobs", str(jobs)], False)
        except SystemExit:
            pass
        RT.say(f"{crate.name} {'NOT PROVED' if status else 'proved'}", proved.out)
    if not status:
        keep(crate)
        lay(crate)
    ended = "proved" if not status else f"NOT PROVED: see {KEPT}/said/{crate.name}"
    RT.say(f"{crate.name} {ended} ({time.time() - begun:.0f} s)")
    return not status


def try_edits(crate, given):
    """Tries the must-fail edits of a crate that is proved; answers those that are not refused."""
    edits = RT.edits_of(crate)[0] if given[crate.name, "proof"] else []
    tried = RT.must_fail_all(crate, edits, ["--jobs", "1"])
    for _, text in tried:
        RT.say(text)
    return [text for is_refused, text in tried if not is_refused]


def all_of(names):
    """The crates of these names, or all, and those below them, lowest first."""
    RT.rtlib.stop = RT.stop
    RT.rtlib.Crate = RT.Crate
    RT.Crate.cuts_libraries = True
    RT.Crate.allowed = RT.handles_of(os.getcwd())
    every = RT.rtlib.crates_below(os.getcwd())
    wanted = {low.name for it in every if not names or it.name in names for low in [*it.below(), it]}
    return sorted((it for it in every if it.name in wanted), key=lambda it: len(it.below()))


def work(names, has_edits):
    os.makedirs(f"{KEPT}/said", exist_ok=True)
    RT.rtlib.guarded()
    crates, tasks = all_of(names), {}
    for crate in crates:
        needs, lines = RT.need(crate), crate.count(rb"\n")
        waits = [(it.name, "proof") for it in crate.below()]
        tasks[crate.name, "proof"] = (waits, lines, needs, lambda given, jobs, it=crate: prove(it, given, jobs))
        if has_edits and (not names or crate.name in names):
            behind = [(crate.name, "proof")]
            tasks[crate.name, "edits"] = (behind, lines, needs, lambda given, jobs, it=crate: try_edits(it, given))
    given = RT.in_lanes(tasks)
    failed = [it.name for it in crates if not given[it.name, "proof"]]
    failed += [text for key in tasks if key[1] == "edits" for text in given[key]]
    for crate in crates:
        if crate.is_program and given[crate.name, "proof"]:
            ends = [it for it in RT.BACKENDS.values() if os.path.isfile(f"{crate.folder}/out/{crate.name}{it}")]
            failed += [f"{crate.name}{it} (run)" for it in ends if not RT.run(crate, False, it)]
    for it in failed:
        RT.say(f"FAILED: {it}")
    print(f"{len(tasks) - len(failed)} passed, {len(failed)} failed")
    return 1 if failed else 0


def main(verb, words):
    if verb == "rt":
        return RT.main(words)
    if verb not in ("prove", "edits", "lay") or not os.path.isfile("crates.txt"):
        print(__doc__.strip(), file=sys.stderr)
        return 2
    if verb != "lay":
        return work(words, verb == "edits")
    lacking = [it.name for it in all_of(words) if it.name not in words and not it.is_program and not lay(it)]
    print("lacking:", *lacking or ["none"])
    return 0


if __name__ == "__main__":
    sys.exit(main((sys.argv[1:2] or [""])[0], sys.argv[2:]))
