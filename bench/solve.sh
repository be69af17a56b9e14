#!/bin/bash
# Times `cdcl::solve` beside minisat on the same formulas, reading the file included, and counts what it learns:
# bench/solve.sh [FILE.cnf ..]
# With no file: pigeon holes 6 and 7, five random 3-SAT formulas of 150 variables, a chain of 100,000 clauses.
# REPEAT (9) is how often each is run; the least processor time counts.
# WORK is where the program is proved and built, in a copy of the crates that it stands on; with none that is a folder
# of its own. Needs `rt` and minisat.
set -e
here=$(cd "$(dirname "$0")" && pwd)
work=${WORK:-$(mktemp -d)}
[ -n "$WORK" ] || trap 'rm -r "$work"' EXIT
repeat=${REPEAT:-9}

"$here/part.sh" "$work" cdcl
echo 'solve_file: cdcl lrat_log cnf_base base' >>"$work/crates.txt"
mkdir -p "$work/crates/solve_file/src"
cat >"$work/crates/solve_file/src/main.rt" <<'END'
//! Reads a formula from the file that the first argument names, or from standard input, and says what `solve` answers
//! under the budget of the second argument.
#![tactic(auto)]

use cdcl::{Solved, solve};
use cnf_base::read_cnf;
use std::io::Read;
use std::{env, fs, io};

const BUDGET: u64 = 1_000_000;

fn read_some<R: Read>(reader: &mut R, into: &mut Vec<u8>) -> io::Result<usize> {
    let mut buffer = [0u8; 32768];
    let count = reader.read(&mut buffer)?;
    into.extend_from_slice(&buffer[..count])?;
    Ok(count)
}

fn read_whole<R: Read>(reader: &mut R, into: &mut Vec<u8>) -> io::Result<()> {
    for _ in 0..u64::MAX {
        if read_some(reader, into)? == 0 {
            break;
        }
    }
    Ok(())
}

fn main(rt: HostRuntime) -> io::Result<()> {
    let mut text = Vec::new(rt.alloc());
    let mut words = env::args(&rt)?.skip(1);
    match words.next() {
        Some(name) => read_whole(&mut fs::open(&rt, name.as_str())?, &mut text)?,
        None => read_whole(&mut rt.stdin(), &mut text)?,
    }
    let read = read_cnf(rt.alloc(), text.as_slice());
    drop(text);
    let Ok(cnf) = read else {
        return println!(rt; "no formula");
    };
    if cnf.clauses().len() > 1_000_000_000 || cnf.variables() > 2_147_483_647 {
        return println!(rt; "too large");
    }
    let budget = match words.next() {
        Some(word) => word.as_str().parse().unwrap_or(BUDGET).min(BUDGET),
        None => BUDGET,
    };
    match solve(rt.alloc(), &cnf, budget) {
        Ok(Solved::Sat(values)) => println!(rt; "satisfied {}", values.len()),
        Ok(Solved::Unsat(log)) => println!(rt; "refuted {}", log.lines().len()),
        Ok(Solved::Spent(log)) => println!(rt; "spent {}", log.lines().len()),
        Err(_) => println!(rt; "no memory"),
    }
}
END
(cd "$work/crates/solve_file" && rt run >"$work/built" 2>&1 </dev/null) || {
    tail -40 "$work/built"
    exit 1
}
program=$work/crates/solve_file/out/solve_file

if [ $# = 0 ]; then
    set -- "$work/pigeons-6.cnf" "$work/pigeons-7.cnf"
    python3 "$here/cnf.py" pigeons 6 >"$1"
    python3 "$here/cnf.py" pigeons 7 >"$2"
    for seed in 1 2 3 4 5; do
        python3 "$here/cnf.py" random $seed 150 4.2 >"$work/random-$seed.cnf"
        set -- "$@" "$work/random-$seed.cnf"
    done
    python3 "$here/cnf.py" chain 100000 >"$work/chain.cnf"
    set -- "$@" "$work/chain.cnf"
fi
python3 - "$program" "$repeat" "$@" <<'END'
import os, re, resource, subprocess, sys

program, repeat, *files = sys.argv[1:]


def timed(words):
    """The least processor time (user and system) of some runs, and what the last one printed."""
    least = 9e9
    for _ in range(int(repeat)):
        before = resource.getrusage(resource.RUSAGE_CHILDREN)
        out = subprocess.run(words, capture_output=True, text=True).stdout
        after = resource.getrusage(resource.RUSAGE_CHILDREN)
        least = min(least, after.ru_utime - before.ru_utime + after.ru_stime - before.ru_stime)
    return least, out


def additions(file):
    """The least budget under which the solver gets to an end."""
    low, high = 0, 1_000_000
    while low < high:
        middle = min((low + high) // 2, 2 * low + 100)
        out = subprocess.run([program, file, str(middle)], capture_output=True, text=True).stdout
        low, high = (middle + 1, high) if out.startswith("spent") else (low, middle)
    return low


print(f"{'formula':16} {'answer':>10} {'additions':>9} {'seconds':>8}   {'conflicts':>9} {'seconds':>8} {'ratio':>6}")
for file in files:
    ours, out = timed([program, file])
    theirs, said = timed(["minisat", "-no-pre", file, "/dev/null"])
    conflicts = re.search(r"conflicts\s*:\s*(\d+)", said)
    conflicts = conflicts[1] if conflicts else "-"
    name, answer = os.path.basename(file), out.split()[0]
    print(f"{name:16} {answer:>10} {additions(file):9} {ours:8.4f}   {conflicts:>9} {theirs:8.4f} {ours / theirs:6.2f}")
END
