#!/usr/bin/env python3
"""Runs the merge gate, and writes docs/GATE.md: what each crate cost in it.

    bench/gate.py [WORD ..]             runs `rt ci WORD ..` in this folder, as `--anew`, and writes docs/GATE.md
    bench/gate.py --pid PID             watches an `rt ci` that runs already, till it ends
    bench/gate.py --of FILE ..          writes docs/GATE.md from what such watches kept
        --log FILE      what the gate says goes to FILE (gate.log among the temporary files)
        --keep FILE     what was seen goes to FILE, every ten seconds (gate-PID.json among the temporary files)
        --table FILE    the page (docs/GATE.md)

The gate prints no times, so its processes are watched. Each `rattle` that it starts names its crate on the command
line. It works in the crate's folder for the crate's own proof and, with --test, for the proof with its tests; and in a
copy of it for the must-fail edits and the check that these begin with. The kernel counts the processor time of each,
and of what it forks. A look four times a second loses at most the last quarter of a second of each process; the page
says how much of all processor time was seen. Running tests and programs takes seconds, and is not shown.

Where a gate ran in parts, each part is watched by itself and `--of` puts them together: of the proofs and of the tests
of a crate the last that ended counts, of its edits all that ended, and only those of the crate's present text over the
present text of the crates below it. A crate that no part has of this text is shown by the last of another, with a mark,
and one that no part has at all by the page that stood there.
"""
import argparse
import contextlib
import hashlib
import json
import os
import re
import subprocess
import sys
import tempfile
import textwrap
import time

HERE = os.path.dirname(os.path.dirname(os.path.abspath(__file__)))
KINDS = ("proofs", "tests", "edits")
FOLDERS = ("src", "specs", "proofs")
INTERVAL = 0.25
# What the gate says of a crate, or of some of its edits, that an earlier run passed.
KEPT = r"rt: (\w+ is kept|\w+: \d+ of its \d+ must-fail edits were tried by an earlier run)"
TICKS = os.sysconf("SC_CLK_TCK")


def text_of(path):
    with contextlib.suppress(OSError), open(path, errors="replace") as it:
        return it.read()
    return ""


def processes():
    """Gives each process's start, its parent, and its seconds with those of the children that it has waited for."""
    found = {}
    for name in filter(str.isdigit, os.listdir("/proc")):
        # behind the command's name in parentheses, which may hold anything: the state, the parent ..
        fields = text_of(f"/proc/{name}/stat").rpartition(")")[2].split()
        if len(fields) > 19:
            found[int(name)] = int(fields[19]), int(fields[1]), sum(map(int, fields[11:15])) / TICKS
    return found


def task_of(pid):
    """Gives the crate that a `rattle` works on, and the kind of its work, or None for another process."""
    words = text_of(f"/proc/{pid}/cmdline").split("\0")
    with contextlib.suppress(OSError):
        if "--crate-name" in words:
            folder = os.path.basename(os.readlink(f"/proc/{pid}/cwd"))
            kind = "edits" if folder.startswith("rt-edit-") else "tests" if "--test" in words else "proofs"
            return words[words.index("--crate-name") + 1], kind
    return None


class Watch:
    """The processor time of the tasks below a process: the last that was seen of each."""

    def __init__(self, pid):
        self.pid, self.start = pid, processes().get(pid, (None,))[0]
        self.tasks, self.seconds, self.running = {}, {}, set()
        self.whole, self.loads = 0, []

    def look(self):
        """Looks once, and gives whether the process is still there."""
        found = processes()
        if found.get(self.pid, (None,))[0] != self.start:
            return False
        below = {}
        for pid, (_, parent, _) in found.items():
            below.setdefault(parent, []).append(pid)

        def whole(pid):
            return found[pid][2] + sum(map(whole, below.get(pid, [])))

        self.whole, self.running = max(self.whole, whole(self.pid)), set()
        left = list(below.get(self.pid, []))
        while left:
            pid = left.pop()
            one = pid, found[pid][0]
            # (a process that is about to end shows no command line any more)
            task = self.tasks.get(one) or task_of(pid)
            if task:
                self.running.add(one)
                self.tasks[one] = task
                self.seconds[one] = max(whole(pid), self.seconds.get(one, 0))
            else:
                left += below.get(pid, [])
        return True

    def costs(self):
        """Gives the seconds of the tasks that ended, and of all, by crate and kind."""
        ended, every = {}, {}
        for one, task in self.tasks.items():
            every[task] = every.get(task, 0) + self.seconds[one]
            if one not in self.running:
                ended[task] = ended.get(task, 0) + self.seconds[one]
        return ended, every


def below(root):
    """Gives the crates by name, in the order of crates.txt, each with those of the repository that it stands on."""
    lines = re.findall(r"^([a-z]\w*)[^:\n]*:(.*)$", text_of(f"{root}/crates.txt"), re.M)
    names = {name for name, _ in lines}
    return {name: [it for it in rest.split() if it in names] for name, rest in lines}


def sums(root):
    """Gives for each crate a sum of its text and of that of the crates below it."""
    of, made = below(root), {}

    def sum_of(crate):
        if crate not in made:
            it = hashlib.sha256(repr([sum_of(low) for low in of[crate]]).encode())
            for folder in FOLDERS:
                for at, folders, names in os.walk(f"{root}/crates/{crate}/{folder}"):
                    folders.sort()
                    for name in sorted(names):
                        it.update(f"{os.path.relpath(f'{at}/{name}', root)}\n{text_of(f'{at}/{name}')}".encode())
            made[crate] = it.hexdigest()
        return made[crate]

    return {crate: sum_of(crate) for crate in of}


def machine():
    found = re.search(r"^model name\s*:\s*(.*)$", text_of("/proc/cpuinfo"), re.M)
    return re.sub(r"\s+", " ", found[1]) if found else "an unknown processor"


def seen(watch, begun, texts, said):
    """Gives what a watch saw so far, as it is kept."""
    ended, every = watch.costs()
    return {
        "version": subprocess.run(["rt", "version"], capture_output=True, text=True).stdout.strip(),
        "date": time.strftime("%d %B %Y").lstrip("0"),
        "machine": machine(),
        "processors": len(os.sched_getaffinity(0)),
        "minutes": (time.monotonic() - begun) / 60,
        "load": sum(watch.loads) / max(1, len(watch.loads)),
        "whole": watch.whole,
        "seen": sum(every.values()),
        "sums": texts,
        "costs": [[crate, kind, seconds] for (crate, kind), seconds in ended.items()],
        "kept": sorted({re.match(KEPT, it)[1] for it in said if re.match(KEPT, it)}),
        "said": said[-1] if said and re.match(r"\d+ passed, \d+ failed", said[-1]) else "",
    }


def watched(pid, keep, log, is_over):
    """Watches a gate till it ends, and keeps what it saw."""
    watch, begun, looks = Watch(pid), time.monotonic(), 0
    texts = sums(f"/proc/{pid}/cwd")
    while not is_over() and watch.look():
        looks += 1
        if looks % 40 == 1:
            texts = texts or sums(f"/proc/{pid}/cwd")
            watch.loads.append(os.getloadavg()[0])
            write(keep, seen(watch, begun, texts, text_of(log).splitlines()))
        time.sleep(INTERVAL)
    watch.running = set()
    found = seen(watch, begun, texts, text_of(log).splitlines())
    write(keep, found)
    return found


def write(file, found):
    with open(f"{file}.new", "w") as out:
        json.dump(found, out, indent=1)
    os.replace(f"{file}.new", file)


def merged(runs, texts):
    """Gives the seconds by crate and kind, and the crates whose figures are of another text."""
    costs, marked = {}, set()
    for is_present in (False, True):
        own = {}
        for run in runs:
            for crate, kind, seconds in run["costs"]:
                if (run["sums"].get(crate) == texts.get(crate)) == is_present and crate in texts:
                    more = own.get((crate, kind), 0) if kind == "edits" and is_present else 0
                    own[crate, kind] = more + seconds
        costs.update(own)
        marked = {crate for crate, _ in own} if not is_present else marked - {crate for crate, _ in own}
    return costs, marked


def lines_in(crate, folder):
    """Counts the lines of the texts in a folder of a crate."""
    found = [f"{at}/{name}" for at, _, names in os.walk(f"{HERE}/crates/{crate}/{folder}") for name in names]
    return sum(text_of(it).count("\n") for it in found)


def edits_of(crate):
    folder = f"{HERE}/crates/{crate}/must-fail"
    return sum(it.endswith(".edit") for it in os.listdir(folder)) if os.path.isdir(folder) else 0


def minutes(costs, crate, kind):
    return f"{costs[crate, kind] / 60:.1f}" if (crate, kind) in costs else ""


def standing(file):
    """Gives the seconds of proofs that the page as it stands shows of each crate."""
    rows = re.findall(r"^\| `(\w+)`[ *]*\|(?:[^|]*\|){3} *([\d.]+) *\|", text_of(file), re.M)
    return {(crate, "proofs"): float(took) * 60 for crate, took in rows}


def runs_of(file):
    """Gives the lines of the page as it stands that tell of runs, at most the last ten runs."""
    return [line for run in re.findall(r"^- .*(?:\n  .*)*", text_of(file), re.M)[-10:] for line in run.split("\n")]


def table(costs, marked):
    """Gives the rows, and their sums."""
    yield "| Crate | src | specs | proofs | proofs, min | tests, min | edits | edits, min |"
    yield "|---|---|---|---|---|---|---|---|"
    whole, crates = [0] * 3, list(below(HERE))
    for crate in crates:
        lines = [lines_in(crate, it) for it in FOLDERS]
        whole = [a + b for a, b in zip(whole, lines)]
        proofs, tests, edits = (minutes(costs, crate, it) for it in KINDS)
        name = f"`{crate}`{' *' if crate in marked else ''}"
        yield f"| {' | '.join(map(str, [name, *lines, proofs, tests, edits_of(crate), edits]))} |"
    totals = [f"{sum(took for (_, kind), took in costs.items() if kind == it) / 60:.1f}" for it in KINDS]
    count = sum(map(edits_of, crates))
    yield f"| {' | '.join(map(str, ['all', *whole, totals[0], totals[1], count, totals[2]]))} |"


def wrapped(text):
    return textwrap.wrap(text, 120, subsequent_indent="  " if text.startswith("- ") else "", break_on_hyphens=False)


def page(runs, before, earlier):
    """Gives the lines of the page. Where no run saw a crate's proofs it has what stood there, and the runs of that."""
    costs, marked = merged(runs, sums(HERE))
    marked |= {key[0] for key in before if key not in costs}
    costs = before | costs
    yield "# What the gate costs"
    yield ""
    yield from wrapped("Written whole by `bench/gate.py`, from runs of `rt ci` or `bench/keep.py` that it watched: "
                       "lines of text, must-fail edits, and processor minutes of each crate's proofs, of its proofs "
                       "with tests, and of its edits with the check that they begin with. Processor time goes up with "
                       "the load: on processors that were busy, times are up to twice those on quiet ones.")
    yield ""
    for run in runs:
        kept = f" Taken from earlier runs, so without time here: {len(run['kept'])} crates and sets of edits."
        yield from wrapped(
            f"- {run['date']}, `{run['version']}`, {run['machine']}, {run['processors']} processors, mean load "
            f"{run['load']:.1f}: {run['minutes']:.0f} minutes, {run['whole'] / 60:.1f} processor minutes, of which "
            f"{run['seen'] / 60:.1f} were seen by crate{'; ' + run['said'] if run['said'] else ''}."
            f"{kept if run['kept'] else ''}")
    if len(runs) > 1:
        yield ""
        yield "Of a crate's proofs and tests the last that ended counts, of its edits all of the present text."
    if marked:
        yield ""
        yield "With `*`: figures of an earlier text of the crate or of one below it, or of an earlier page."
    if marked and earlier:
        yield from ["", "Earlier pages were made of:", "", *earlier]
    yield ""
    yield from table(costs, marked)


def put_page(file, runs):
    lines = list(page(runs, standing(file), runs_of(file)))
    with open(file, "w") as out:
        out.write("\n".join(lines) + "\n")
    print(f"gate.py: wrote {file}", file=sys.stderr)


def main():
    parser = argparse.ArgumentParser(description=__doc__, formatter_class=argparse.RawDescriptionHelpFormatter,
                                     allow_abbrev=False)
    parser.add_argument("--pid", type=int)
    parser.add_argument("--of", nargs="+", metavar="FILE")
    parser.add_argument("--log", metavar="FILE")
    parser.add_argument("--keep", metavar="FILE")
    parser.add_argument("--table", default=f"{HERE}/docs/GATE.md", metavar="FILE")
    given, words = parser.parse_known_args()
    room = tempfile.gettempdir()
    if given.of:
        return put_page(given.table, [json.loads(text_of(it)) for it in given.of])
    log = given.log or f"{room}/gate.log"
    if given.pid:
        keep = given.keep or f"{room}/gate-{given.pid}.json"
        print(f"gate.py: what is seen goes to {keep}", file=sys.stderr)
        watched(given.pid, keep, given.log or os.devnull, lambda: False)
        return 0
    print(f"gate.py: the log is {log}", file=sys.stderr)
    with open(log, "w") as out:
        gate = subprocess.Popen(["rt", "ci", *words], stdin=subprocess.DEVNULL, stdout=out, stderr=out)
        found = watched(gate.pid, given.keep or f"{room}/gate-{gate.pid}.json", log, lambda: gate.poll() is not None)
    put_page(given.table, [found])
    print("\n".join(text_of(log).splitlines()[-1:]))
    return gate.returncode


if __name__ == "__main__":
    sys.exit(main())
