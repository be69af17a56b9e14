#!/bin/bash
# Times the checking of logs of 1 and 10 million hints, from their two texts, beside a plain checker in C.
#   bench/lrat.sh [TIMES ..]            times the command `lrat` of the program that IVYCHECK names (the one that
#                                       ./ivycheck runs)
#   bench/lrat.sh library [TIMES ..]    times a small program of the library's calls, which is proved and built in
#                                       a copy of the crates that it stands on (minutes)
# A log has 100,000 hints, so many TIMES (10 and 100). Times of the whole process, three of each: `real` hangs on what
# else runs, so compare `user` and `sys`. Each has to take the log, or the script ends with 1.
set -e
cd "$(dirname "$0")"
kind=program
[ "$1" != library ] || { kind=library && shift; }
[ $# != 0 ] || set -- 10 100
work=$(mktemp -d)
trap 'rm -r "$work"' EXIT
"${CC:-cc}" -O2 -o "$work/plain_lrat" plain_lrat.c

build_library_program() {
    ./part.sh "$work/copy" lrat_check
    echo "lrat_time: lrat_check lrat_log cnf_base base" >>"$work/copy/crates.txt"
    mkdir -p "$work/copy/crates/lrat_time/src"
    cat >"$work/copy/crates/lrat_time/src/main.rt" <<'END'
//! Times the library.
#![tactic(auto)]
ghost use Rattle.std.specs.Prelude.{length};
ghost use Rattle.lrat_log.specs.Logs.{IsLogOver};

use cnf_base::{Cnf, read_cnf};
use lrat_check::check_owned;
use lrat_log::{Log, read_log};
use std::time::Instant;
use std::{env, fs, io};

fn checked(rt: &HostRuntime, cnf: Cnf, log: Log) -> io::Result<()>
    requires { IsLogOver cnf.variables (length cnf.clauses) log }
{
    let start = Instant::now(rt)?;
    let answer = check_owned(rt.alloc(), cnf, log);
    let time = start.elapsed(rt)?;
    let Ok(checker) = answer else {
        return println!(rt; "refused");
    };
    println!(rt; "check_owned {} us, refuted {}", time.as_micros(), checker.is_refuted())
}

fn log_read(rt: &HostRuntime, cnf: Cnf, text: &[u8]) -> io::Result<()> {
    let start = Instant::now(rt)?;
    let answer = read_log(rt.alloc(), text, cnf.variables() as u64, cnf.clauses().len() as u64);
    let time = start.elapsed(rt)?;
    let Ok(log) = answer else {
        return println!(rt; "log fault");
    };
    println!(rt; "read_log {} us", time.as_micros())?;
    checked(rt, cnf, log)
}

fn both_read(rt: &HostRuntime, cnf_text: &[u8], log_text: &[u8]) -> io::Result<()> {
    let start = Instant::now(rt)?;
    let answer = read_cnf(rt.alloc(), cnf_text);
    let time = start.elapsed(rt)?;
    let Ok(cnf) = answer else {
        return println!(rt; "cnf fault");
    };
    println!(rt; "read_cnf {} us", time.as_micros())?;
    log_read(rt, cnf, log_text)
}

fn main(rt: HostRuntime) -> io::Result<()> {
    let mut words = env::args(&rt)?;
    let Some(_) = words.next() else {
        return Ok(());
    };
    let Some(cnf) = words.next() else {
        return Ok(());
    };
    let Some(log) = words.next() else {
        return Ok(());
    };
    let cnf_text = fs::read(&rt, &cnf)?;
    let log_text = fs::read(&rt, &log)?;
    both_read(&rt, cnf_text.as_slice(), log_text.as_slice())
}
END
    (cd "$work/copy/crates/lrat_time" && rt run >"$work/build.log" 2>&1) || { tail "$work/build.log"; exit 1; }
}

checker() {
    if [ "$kind" = library ]; then
        "$work/copy/crates/lrat_time/out/lrat_time" "$@"
    else
        "$program" lrat "$@"
    fi
}

three_times() {
    for _ in 1 2 3; do
        time "$@" "$work/chain.cnf" "$work/chain.lrat" | tee "$work/said"
        grep -qE '^verdict: refuted|refuted true' "$work/said" || { echo "$* does not take the log" >&2 && exit 1; }
    done
}

if [ "$kind" = library ]; then build_library_program; else program=$(./program.py); fi
for times in "$@"; do
    ./chain.py 100000 50 "$times" "$work/chain.cnf" "$work/chain.lrat"
    ls -l "$work/chain.cnf" "$work/chain.lrat"
    three_times "$work/plain_lrat"
    three_times checker
done
