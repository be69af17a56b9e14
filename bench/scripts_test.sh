#!/bin/bash
# Runs each script of this folder on a small input, and on cases that are easy to get wrong: bench/scripts_test.sh
#
# IVYCHECK is the program (the one that ./ivycheck runs; with none, what needs one is skipped), and IVYVIEW the one for
# a person (the one that ./ivyview runs). Where an answer of the program has to be wrong, or one that it seldom gives, a
# stand-in gives it; stand-ins for `rt` and minisat are there too. A tool that is missing is named, and what needs it is
# skipped. The last line is `N passed, M failed`.
here=$(cd "$(dirname "$0")/.." && pwd)
room=$(mktemp -d)
trap 'rm -rf "$room"' EXIT
export FAKE="$room/fake" PYTHONDONTWRITEBYTECODE=1
mkdir -p "$room/bin" "$FAKE"
program=$("$here/bench/program.py" 2>/dev/null)
viewer=$("$here/bench/program.py" ivyview 2>/dev/null)
passed=0
failed=0
skipped=0
cd "$room" || exit 1

expect() {
    title=$1
    shift
    if "$@"; then
        passed=$((passed + 1))
    else
        failed=$((failed + 1))
        echo "FAILED: $title: $*"
        head -n 20 "$room/out" "$room/err" | sed 's/^/    /'
    fi
}

# Whether a tool is there; else what needs it is skipped.
has() {
    ! command -v "$1" >/dev/null || return 0
    skipped=$((skipped + 1))
    echo "skipped, since there is no $1: $2"
    return 1
}

bench() {
    name=$1
    shift
    "$here/bench/$name" "$@" >"$room/out" 2>"$room/err" </dev/null
    status=$?
}

ended() { [ "$status" = "$1" ]; }
wrote() { grep -qF -- "$1" "$room/out"; }
wrote_line() { grep -qxF -- "$1" "$room/out"; }
wrote_no() { ! wrote "$1"; }
said() { grep -qF -- "$1" "$room/err"; }
last_is() { [ "$(tail -n 1 "$room/out")" = "$1" ]; }
first_is() { [ "$(head -n 1 "$room/out")" = "$1" ]; }

# A stand-in for the program. `answers` has a line for each goal: `holds`, or what `emit .. lrat` says of it behind its
# number, or `ends` with a status; `report` is what `check` writes, `ends` its status; `refuses` has `lrat` refuse.
cat >"$room/bin/stand-in" <<'END'
#!/bin/sh
echo "$*" >>"$FAKE/calls"
goals=$(wc -l <"$FAKE/answers")
answer=$(sed -n "$3p" "$FAKE/answers" 2>/dev/null)
case $1,$4,$answer in
    check,*)
        [ ! -e "$FAKE/fault" ] || { echo 'F1 at 1:1: bad byte' >&2 && exit 4; }
        cp "$2" "$FAKE/checked" && cat "$FAKE/report" && exit "$(cat "$FAKE/ends")"
        ;;
    lrat,*) [ ! -e "$FAKE/refuses" ] && echo 'verdict: refuted' ;;
    emit,*,ends*) exit "${answer#ends }" ;;
    emit,*)
        [ ! -e "$FAKE/fault" ] || { echo 'F1 at 1:1: bad byte' >&2 && exit 4; }
        [ "$3" -le "$goals" ] || { echo "there are $goals goals" >&2 && exit 4; }
        case $4,$answer in
            cnf,holds) printf 'p cnf 1 2\n1 0\n-1 0\n' ;;
            cnf,*) printf 'p cnf 1 1\n1 0\n' ;;
            lrat,holds) echo '3 0 1 2 0' ;;
            *) echo "goal $3 $answer" >&2 && case $answer in fails) exit 1 ;; *) exit 3 ;; esac ;;
        esac
        ;;
esac
END
# It finds a model unless there is a clause of the literal -1.
printf '#!/bin/sh\nfor file; do :; done\n! grep -q "^-1 0" "$file" || exit 20\nexit 10\n' >"$room/bin/minisat-stand-in"
chmod +x "$room"/bin/*

# begin ANSWER ..: what the stand-in says of the goals; its report is that of a model whose one action breaks `c`.
begin() {
    rm -rf "$FAKE" && mkdir "$FAKE" && : >"$FAKE/calls"
    printf '%s\n' "$@" >"$FAKE/answers"
    cat >"$FAKE/report" <<'END'
axioms: consistent
init abort: holds
init c: holds
action a abort: holds
action a c: fails
  path 1 of 1
  least: yes
final abort: holds
verdict: not inductive
END
    echo 1 >"$FAKE/ends"
}

stand_in() { IVYCHECK=$room/bin/stand-in bench "$@"; }
cat >"$room/model.rml" <<'END'
sort s axiom all: forall X:s. X = X    # init of nothing
relation p init { p := false } variable v
: s action a { if p { p := true }; assert p } conjecture c: ~p
axiom last: v = v
END

# --- program.py

IVYCHECK=$room/none bench program.py
expect 'a program that is not there is told' said 'no program stands there'
expect 'a program that is not there is told' ended 2

# --- spread.sh

begin holds holds holds
export WORK=$room/work
stand_in spread.sh model.rml 2
expect 'spread: all goals hold' last_is 'verdict: inductive'
expect 'spread: all goals hold' ended 0
begin holds 'undecided conflicts 5' holds
stand_in spread.sh model.rml 2
expect 'spread: a folder that was used before does not answer' last_is 'verdict: undecided'
expect 'spread: its status is that of the verdict' ended 3
expect 'spread: a goal that is left open is told' wrote_line 'goal 2 undecided conflicts 5'
expect 'spread: so is how many hold' wrote_line '2 of 3 goals hold, each by a log that was checked'
begin holds fails 'undecided conflicts 5'
stand_in spread.sh model.rml 2
expect 'spread: a goal that fails settles the verdict' last_is 'verdict: not inductive'
expect 'spread: its status is that of the verdict' ended 1
unset WORK
begin holds holds
touch "$FAKE/refuses"
stand_in spread.sh model.rml
expect 'spread: logs that are not taken give no verdict' last_is 'no verdict: not every goal has an answer'
expect 'spread: logs that are not taken give no verdict' ended 5
begin holds 'ends 7'
stand_in spread.sh model.rml
expect 'spread: a call that ends early gives no verdict' ended 5
expect 'spread: a call that ends early is told' wrote 'goal 2 has no answer: status 7'
begin holds holds
mkdir -p "$room/the GOAL" && cp "$room/model.rml" "$room/the GOAL/GOAL.rml"
stand_in spread.sh "$room/the GOAL/GOAL.rml" 1 --conflicts 7
expect 'spread: a path with GOAL in it is the path' last_is 'verdict: inductive'
expect 'spread: options go to each call' grep -qxF "emit $room/the GOAL/GOAL.rml 2 lrat --conflicts 7" "$FAKE/calls"
expect 'spread: the axioms come first' first_is 'axioms: consistent'
cat >"$room/axioms" <<'END'
sort s axiom all: forall X:s. X = X    
relation p variable v
: s 
axiom last: v = v
END
expect 'spread: they are judged without blocks and conjectures' diff "$room/axioms" "$FAKE/checked"
begin && : >"$FAKE/answers"
stand_in spread.sh model.rml
expect 'spread: a model without goals is inductive' last_is 'verdict: inductive'
begin && touch "$FAKE/fault"
stand_in spread.sh model.rml
expect 'spread: a fault is told as check tells it' said 'F1 at 1:1: bad byte'
expect 'spread: a fault is told as check tells it' ended 4
begin holds
mkdir -p "$room/repo/bench" && cp "$here/bench/spread.sh" "$room/repo/bench/"
cat >"$room/repo/ivycheck" <<'END'
#!/bin/sh
[ "$1" = --which ] || { touch "$FAKE/asked" && exit; }
[ ! -e "$FAKE/built" ] || { echo "$FAKE/../bin/stand-in" && exit; }
echo 'ivycheck: no program here' >&2
exit 1
END
chmod +x "$room/repo/ivycheck"
spread_here() {
    env -u IVYCHECK "$room/repo/bench/spread.sh" model.rml >"$room/out" 2>"$room/err"
    status=$?
}
spread_here
expect 'spread: where there is no program it is said' said 'ivycheck: no program here'
expect 'spread: where there is no program there is no verdict' ended 5
expect 'spread: and none is built' [ ! -e "$FAKE/asked" ]
touch "$FAKE/built"
spread_here
expect 'spread: what was built answers' last_is 'verdict: inductive'

# --- the recipe of docs/SCALE.md

if has make 'the recipe of docs/SCALE.md'; then
    begin holds fails
    mkdir -p "$room/make" && ln -sf "$room/bin/stand-in" "$room/make/ivycheck"
    sed -n '/^```make$/,/^```$/{/^```/!p}' "$here/docs/SCALE.md" | sed "s|FILE|$room/model.rml|" >"$room/make/Makefile"
    decided() { grep -c "emit $room/model.rml $1 lrat" "$FAKE/calls"; }
    for time in first second; do
        PATH=$room/make:$PATH make -k -C "$room/make" 1.lrat 2.lrat >"$room/out" 2>"$room/err"
        expect "make: a goal that fails is told the $time time" [ $? = 2 ]
    done
    expect 'make: a goal that holds is decided once' [ "$(decided 1)" = 1 ]
    expect 'make: one that fails is decided each time' [ "$(decided 2)" = 2 ]
    expect 'make: one that fails has no log' [ ! -e "$room/make/2.lrat" ]
fi

# --- goals.py, with a stand-in for minisat

mkdir -p "$room/tools" && cp "$room/bin/minisat-stand-in" "$room/tools/minisat"
cat >"$room/breaks.rml" <<'END'
relation p
init { p := false }
action a { p := true }
conjecture c: ~p
END
with_minisat() { PATH=$room/tools:$PATH stand_in goals.py "$@"; }
begin holds fails
with_minisat breaks.rml
expect 'goals: all is as minisat has it' ended 0
expect 'goals: how many goals hold' wrote 'breaks.rml: 2 goals, 1 hold'
begin holds fails
sed -i 's/^action a c: fails/action a c: holds/; /^  /d; s/not inductive/inductive/' "$FAKE/report"
echo 0 >"$FAKE/ends"
with_minisat breaks.rml
expect 'goals: a report that says otherwise is told' \
    wrote "check says 'action a c: holds', by minisat it is 'action a c: fails"
expect 'goals: a report that says otherwise is told' ended 1
begin holds holds
with_minisat breaks.rml
expect 'goals: so is one that fails what holds' \
    wrote "check says 'verdict: not inductive', by minisat it is 'verdict: inductive'"
begin holds fails holds
with_minisat breaks.rml
expect 'goals: other goals than those of the text are told' wrote 'emit has 3 goals, the blocks of the text 2'
begin && touch "$FAKE/fault"
with_minisat breaks.rml
expect 'goals: a file with a fault is told' wrote 'breaks.rml: no goals: status 4 F1 at 1:1: bad byte'
expect 'goals: a file with a fault is told' ended 1

# --- growths.py, on small programs that do not heed what is refused

if has cc 'growths.py and lrat.sh'; then
    grower() {
        cat >"$room/grower.c" <<END
#include <stdio.h>
#include <stdlib.h>
#include <string.h>
#include <sys/mman.h>
int main(void) {
    char *p, *q = 0;
    for (int i = 0; i < 5; i++) {
        if (!(p = malloc(100))) return 7;
        p = $1(p, 5, 40);
        if (!(p = realloc(p, 3000))) return 7;
        q = p;
    }
    p = mmap(0, 60 << 20, PROT_READ | PROT_WRITE, MAP_PRIVATE | MAP_ANONYMOUS, -1, 0);
    if (p == MAP_FAILED) $2;
    memset(p, 1, 60 << 20);
    return puts("done") < 0 || q == p;
}
END
        sed -i '1i static inline char *heeds(char *, int, int), *crashes(char *, int, int);' "$room/grower.c"
        cat >>"$room/grower.c" <<'END'
static inline char *heeds(char *old, int m, int n) {
    char *p = calloc(m, n);
    if (!p) exit(7);
    return free(old), p;
}
static inline char *crashes(char *old, int m, int n) {
    char *p = calloc(m, n);
    *(volatile char *)p = 1;
    return free(old), p;
}
END
        cc -O1 -fno-builtin -w -o "$room/grower" "$room/grower.c" && IVYCHECK=$room/grower bench growths.py 'a sample'
    }
    grower heeds 'return 7'
    expect 'growths: a program that heeds each' ended 0
    # (the last is that of the buffer of its standard output)
    expect 'growths: no run counts that has no growth' wrote '| a sample | 16 | 15 | none |'
    grower crashes 'return 7'
    expect 'growths: a calloc is refused too' wrote '-11'
    expect 'growths: a calloc is refused too' ended 1
    IVYCHECK=$room/grower IVYVIEW=$room/grower bench growths.py --steps 5 'view: replay --json'
    expect 'growths: so is one of ivyview' wrote '| view: replay --json | 16 | 10 | [(2, -11), '
    grower heeds '*(volatile char *)0 = 1'
    expect 'growths: a crash under a limit of memory is told' wrote '(40, -11)'
    expect 'growths: a crash under a limit of memory is told' ended 1
fi

# --- outside.sh

printf '#!/bin/sh\ntrap "" PIPE\necho "verdict: inductive" 2>/dev/null\nexit 0\n' >"$room/bin/heedless"
chmod +x "$room/bin/heedless"
IVYCHECK=$room/bin/heedless IVYVIEW=$room/bin/heedless bench outside.sh 'ivycheck replay' 'ivyview why'
expect 'outside: a program that heeds no pipe is told' wrote_line \
    'ivycheck replay: standard output is a pipe that nobody reads: status 0, expected 5, differs'
expect 'outside: so is one that answers where a file fails' wrote_line \
    'ivyview why --json: the file is a folder: status 0, expected 5, with an answer, said otherwise, differs'
expect 'outside: and ends it' ended 1
expect 'outside: cases that are not asked for are left out' wrote_no 'ivycheck check'

# --- hazards.py, on stand-ins that cannot do with a text at full size

printf '#!/bin/sh\n[ "$(wc -c <"$2")" -lt 500 ] || kill -SEGV $$\n' >"$room/bin/crasher"
cat >"$room/bin/cuber" <<'END'
#!/usr/bin/env python3
import os, sys
for _ in range(os.path.getsize(sys.argv[2]) ** 3 // 300000):
    pass
END
chmod +x "$room/bin/crasher" "$room/bin/cuber"
IVYCHECK=$room/bin/crasher bench hazards.py --scale 0.001 'blocks inside one another'
expect 'hazards: a crash is told' wrote '| status 0 at half size |'
expect 'hazards: and ends it' ended 1
IVYVIEW=$room/bin/cuber bench hazards.py --scale 0.02 --view --command bmc 'blocks inside one another'
expect 'hazards: more than double is told' wrote ' | more than double |'
expect 'hazards: and ends it' ended 1

# --- depths.py, on a stand-in that wants more stack than the system gives

printf '#!/bin/bash\n[ "$(ulimit -s)" -gt 9000 ] || kill -SEGV $$\n' >"$room/bin/deep"
chmod +x "$room/bin/deep"
IVYCHECK=$room/bin/deep IVYVIEW=$room/bin/deep bench depths.py parentheses
expect 'depths: no depth is taken' wrote '| parentheses | 49 | ivycheck check | 0 | none | over 8192 |'
expect 'depths: and ends it' ended 1

# --- gate.py, solve.sh, lrat.sh and room.py, with a stand-in for rt

cat >"$room/tools/rt" <<'END'
#!/bin/sh
echo "$*" >>"$FAKE/rt"
case $1 in
    version) echo a kit ;;
    ci) sleep 0.3 && echo 'rt: base is kept: an earlier run' && echo '7 passed, 0 failed' ;;
    run)
        cp ../../crates.txt "$FAKE/crates.txt"
        find ../.. -name out -type d >"$FAKE/outs"
        mkdir -p out
        printf '#!/bin/sh\necho refuted true\n' >"out/$(basename "$PWD")"
        chmod +x "out/$(basename "$PWD")"
        ;;
esac
END
chmod +x "$room/tools/rt"
with_tools() { PATH=$room/tools:$PATH bench "$@"; }
begin
with_tools gate.py --anew --log "$room/gate.log" --keep "$room/gate.json" --table "$room/GATE.md"
expect 'gate: --anew goes to the gate' grep -qx 'ci --anew' "$FAKE/rt"
expect 'gate: it ends as the gate' ended 0
expect 'gate: the page names the run' grep -q 'a kit.*processors, mean load' "$room/GATE.md"
expect 'gate: the page has a line for each crate' grep -q '^| `ivy_run` | [0-9]' "$room/GATE.md"
with_tools gate.py --of "$room/gate.json" "$room/gate.json" --table "$room/both.md"
expect 'gate: watches are put together' [ "$(grep -c 'mean load' "$room/both.md")" = 2 ]
sleep 2 &
with_tools gate.py --pid $! --keep "$room/watched.json"
expect 'gate: a run that is under way is watched till it ends' grep -q '"whole"' "$room/watched.json"

begin
printf 'p cnf 1 2\n1 0\n-1 0\n' >"$room/small.cnf"
REPEAT=1 with_tools solve.sh "$room/small.cnf"
expect 'solve: a line for the formula' wrote 'small.cnf           refuted'
lists_as_here() {
    while read -r line; do
        grep -qxF "$line" "$here/crates.txt" || case $line in solve_file:* | lrat_time:*) ;; *) return 1 ;; esac
    done <"$FAKE/crates.txt"
}
expect 'solve: the crates are those of this repository' lists_as_here

if command -v cc >/dev/null; then
    begin
    mkdir -p "$here/crates/base/out"
    with_tools lrat.sh library 1
    expect 'lrat: the library is timed' ended 0
    expect 'lrat: the crates are those of this repository' lists_as_here
    expect 'lrat: nothing is copied that was built' [ ! -s "$FAKE/outs" ]
    printf '#!/bin/sh\necho "verdict: not refuted"\n' >"$room/bin/denies" && chmod +x "$room/bin/denies"
    IVYCHECK=$room/bin/denies bench lrat.sh 1
    expect 'lrat: a log that is not taken is told' said 'does not take the log'
    expect 'lrat: a log that is not taken is told' ended 1
fi

mkdir -p "$room/proved/crates/low/out/incremental/of"
head -c 3000000 /dev/zero >"$room/proved/crates/low/out/incremental/of/Rattle-low-proofs.main.Large.f.Lts.oantt"
head -c 9000 /dev/zero >"$room/proved/crates/low/out/incremental/of/Rattle-low-proofs.main.g.Lts.oantt"
head -c 9000000 /dev/zero >"$room/proved/crates/low/out/incremental/of/Rattle-low-proofs.main.g.Kinds.oantt"
bench room.py --root "$room/proved" low
expect 'room: the function of the largest steps stands first' \
    grep -qxF '| 3.0 | `low` | `main.Large.f` |' <(sed -n 3p "$room/out")
bench room.py --root "$room/proved" none
expect 'room: where nothing was proved it says so' ended 1

touch -d '2026-01-01 00:00:01' "$room/proved/crates/low/out/incremental/of/Rattle-low-proofs.main.g.Lts.oantt"
touch -d '2026-01-01 00:00:02' "$room/proved/crates/low/out/incremental/of/Rattle-low-proofs.main.g.Kinds.oantt"
touch -d '2026-01-01 00:00:05' "$room/proved/crates/low/out/incremental/of/Rattle-low-proofs.main.Large.f.Lts.oantt"
bench times.py --root "$room/proved" low
expect 'times: the slowest function stands first' \
    grep -qxF '   3.0  main.Large.f:  Lts 3.0' <(sed -n 2p "$room/out")
bench times.py --root "$room/proved" none
expect 'times: where nothing was proved it says so' ended 1
mkdir -p "$room/no_tree"
bench lay.py "$room/no_tree"
expect 'lay: a folder that is no tree, or a kit that keeps nothing' ended 2
bench keep.py prove base
expect 'keep: a folder that is no tree, or a kit that keeps by itself' ended 2
echo 'rt: low proved' >"$room/no_log"
bench plant.py "$room/no_log"
expect 'plant: a log without a proof of the crate' said 'has no proof of'

# --- texts.py, on a stand-in for the kit, and on the kit

# Runs with no other tools on the PATH than these and Python: with_few 'TOOL ..' NAME WORD ..
with_few() {
    rm -rf "$room/few" && mkdir "$room/few"
    for tool in $1; do ln -s "$(command -v "$tool")" "$room/few/$tool"; done
    ln -s "$(python3 -c 'import sys; print(sys.executable)')" "$room/few/python3"
    shift
    PATH=$room/few bench "$@"
}

# It blames a crate without a word where there is a file `silent`, and has the layout's status from a file `fmt`.
mkdir -p "$room/kit" "$room/texts/one" "$room/texts/two"
cat >"$room/kit/rt" <<'END'
#!/usr/bin/env python3
import os, sys
class rtlib:
    def stop_on_links(folder):
        sys.exit(2 if os.path.exists(f"{folder}/silent") else None)
    def fmt(folder, flag, out):
        return int(open(f"{folder}/fmt").read()) if os.path.exists(f"{folder}/fmt") else 0
    stop_on_unread = stop_on_text = lambda *words: None
class Crate:
    def __init__(self, name):
        self.folder = self.name = name
def stop_on_words(crate): pass
def handles_of(root): return ()
def crates_of(root): return [Crate(name) for name in sorted(os.listdir(root))]
END
chmod +x "$room/kit/rt"
texts() { PATH=$room/kit:$PATH bench texts.py "$@"; }
texts texts
expect 'texts: none is bad' last_is '2 crates, 0 bad'
expect 'texts: none is bad' ended 0
touch texts/one/silent
texts texts
expect 'texts: one that is blamed without a word is told' wrote_line 'one: the kit ends with 2'
expect 'texts: and ends it' ended 1
rm texts/one/silent && echo 1 >texts/two/fmt
texts texts
expect 'texts: so is another layout' wrote_line 'two: rt fmt would lay it out otherwise'
expect 'texts: and ends it' ended 1
echo -9 >texts/two/fmt
texts texts
expect 'texts: and a layout that has no answer' wrote_line 'two: rt fmt ends with -9'
texts no_folder
expect 'texts: a folder that is not there' ended 2
mkdir -p no_crates
texts no_crates
expect 'texts: a folder without crates' ended 2
with_few '' texts.py texts
expect 'texts: without rt' ended 2
expect 'texts: without rt' said 'texts.py: there is no rt on the PATH'
expect 'texts: it says so in one line' [ "$(wc -l <"$room/err")" = 1 ]
if has rt 'texts.py on the kit'; then
    mkdir -p tiny/crates/low/src && echo low: >tiny/crates.txt
    printf '//! A.\npub fn f( ) -> u8 {\n    1\n}\n' >tiny/crates/low/src/lib.rt
    bench texts.py tiny
    expect 'texts: the kit blames a layout' last_is '1 crates, 1 bad'
    expect 'texts: the kit blames a layout' ended 1
fi

# --- pictures.sh, z3_goals.py and long_report.py, on what fails

# A viewer that writes the file `shows` and ends with `status`; a `dot` that takes what has `->`.
mkdir -p "$room/draws"
printf '#!/bin/sh\ncat "$FAKE/shows"\nexit "$(cat "$FAKE/status")"\n' >"$room/bin/shower"
printf '#!/bin/sh\ngrep -q -e "->" "$4" && cp "$4" "$3" || { echo "bad graph" >&2 && exit 1; }\n' >"$room/draws/dot"
chmod +x "$room/bin/shower" "$room/draws/dot"
shows() { begin && printf "$1" >"$FAKE/shows" && echo "$2" >"$FAKE/status"; }
draws() { PATH=$room/draws:$PATH IVYVIEW=$room/bin/shower bench pictures.sh model.rml; }
shows 'digraph a { b -> c }\n' 1
draws
expect 'pictures: a graph of each answer' last_is '3 graphs drawn, 0 not'
expect 'pictures: a graph of each answer' ended 0
shows 'digraph a { b -> c }\ndigraph d { }\n' 1
draws
expect 'pictures: one of two that is not taken is told' wrote_line 'model-check, graph 2: bad graph'
expect 'pictures: and ends it' ended 1
shows '' 4
draws
expect 'pictures: a model without an answer is told' wrote 'model-bmc: no answer: status 4'
expect 'pictures: and ends it' ended 1
shows '' 1
draws
expect 'pictures: so is an answer without the graph that it speaks of' last_is '0 graphs drawn, 3 not'
shows '' 0
draws
expect 'pictures: what shows nothing needs none' ended 0
shows 'not inductive\ndigraph a { b -> c }\n' 1
draws
expect 'pictures: what is no graph is told' wrote_line 'model-check: this is no graph'
expect 'pictures: and ends it' ended 1
PICTURES=$room/no_folder draws
expect 'pictures: no folder for the drawings' ended 2
IVYVIEW=$room/bin/shower with_few 'sh dirname mktemp awk rm' pictures.sh model.rml
expect 'pictures: without Graphviz' said 'pictures.sh: there is no dot'
expect 'pictures: without Graphviz' ended 2

# A z3 that knows no terms, and answers each goal with what the file `z3` says.
mkdir -p "$room/with_z3" "$room/no_z3"
echo 'raise ImportError("none")' >"$room/no_z3/z3.py"
cat >"$room/with_z3/z3.py" <<'END'
import os
class It:
    def __init__(self, *words): pass
    def __call__(self, *words): return It()
    def __eq__(self, other): return It()
class Solver:
    def set(self, *words): pass
    add = set
    def check(self):
        with open(os.environ["FAKE"] + "/z3", encoding="ascii") as it:
            answer = it.read().strip()
        if answer == "ends":
            raise MemoryError("z3 has none")
        return answer
def __getattr__(name): return It()
END
z3_says() {
    begin && echo "$1" >"$FAKE/z3"
    shift
    PYTHONPATH=$room/with_z3 bench z3_goals.py "$@"
}
z3_says unsat breaks.rml
expect 'z3_goals: all hold' last_is 'verdict: inductive'
expect 'z3_goals: all hold' ended 0
z3_says sat breaks.rml
expect 'z3_goals: one fails' ended 1
z3_says unknown breaks.rml
expect 'z3_goals: one is left open' ended 3
z3_says ends breaks.rml
expect 'z3_goals: a z3 that fails is no answer' ended 2
expect 'z3_goals: a z3 that fails is no answer' wrote_no 'verdict'
expect 'z3_goals: it is told in one line' [ "$(wc -l <"$room/err")" = 1 ]
z3_says unsat no_file.rml
expect 'z3_goals: nor is a file that is not there' ended 2
printf 'relation p init { p ? }\n' >no_model.rml
z3_says unsat no_model.rml
expect 'z3_goals: nor a text that is no model' ended 2
z3_says unsat
expect 'z3_goals: nor no words' ended 2
PYTHONPATH=$room/no_z3 bench z3_goals.py breaks.rml
expect 'z3_goals: without z3' ended 2
expect 'z3_goals: without z3' said 'z3_goals.py: no z3 for Python here'
PYTHONPATH=$room/no_z3 bench z3_reasons.py breaks.rml
expect 'z3_reasons: without z3' ended 2

# replies SCRIPT [WORD ..]: long_report.py with these words on such a program.
replies() {
    printf '#!/bin/sh\n%s\n' "$1" >"$room/bin/replier" && chmod +x "$room/bin/replier"
    shift
    IVYCHECK=$room/bin/replier bench long_report.py 0.01 "$@"
}
replies 'printf "executions 1\nverdict: confirmed\n"'
expect 'long_report: a report that is confirmed' ended 0
replies 'exit 0'
expect 'long_report: nothing said is nothing confirmed' ended 1
expect 'long_report: nothing said is nothing confirmed' wrote ' elements: nothing; '
replies 'printf "executions 0\nverdict: confirmed\n"'
expect 'long_report: nor is another execution' ended 1
replies 'printf "executions 1\nverdict: confirmed\n"; exit 1'
expect 'long_report: nor is what ends otherwise' wrote ', status 1; '
expect 'long_report: nor is what ends otherwise' ended 1
replies 'exec sleep 9' 1
expect 'long_report: what takes too long is ended' wrote 'no answer in 1 s'
expect 'long_report: what takes too long is ended' ended 1
replies 'python3 -c "bytearray(60 << 20)"; printf "executions 1\nverdict: confirmed\n"'
expect 'long_report: too much memory' ended 1
replies 'exit 0' many
expect 'long_report: words that are none of its own' ended 2
IVYCHECK=$room/none bench long_report.py 1
expect 'long_report: without the program' ended 2

# --- formulas and models

bench cnf.py pigeons 2
expect 'cnf: pigeons' first_is 'p cnf 6 9'
bench chain.py 4 2 1 chain.cnf chain.lrat
expect 'chain: a log of its formula' diff chain.lrat <(printf '6 3 0 3 2 1 0\n7 0 5 4 6 0\n')
bench names.py
expect 'names: a model of the greatest size' [ "$(wc -c <"$room/out")" = 1048576 ]

printf 'relation p\ninit { p := false }\nconjecture c: ~p\n' >share.rml
bench sharing.py share.rml
expect 'sharing: a sentence of seven nodes, two of which are the same' last_is '| `share.rml` | 1 | 7 | 7 | 6 | 6 |'
printf 'relation p\ninit { p ? }\n' >share.rml
bench sharing.py share.rml
expect 'sharing: a text that is none' ended 2
expect 'sharing: which' said 'share.rml: bad byte at'
bench sharing.py none.rml
expect 'sharing: a file that is not there' ended 2

bench edits.py
expect 'edits: each can be applied' ended 0
mkdir -p tree/crates/c/src tree/crates/c/must-fail
printf 'let a = 1;\nlet b = 1;\n' >tree/crates/c/src/lib.rt
printf 'file: src/lib.rt\nold: let a = 1;\nnew: let a = 2;\n' >tree/crates/c/must-fail/right.edit
bench edits.py "$room/tree"
expect 'edits: one that can be applied' last_is '1 edits, 0 cannot be applied'
printf 'file: src/lib.rt\nold: = 1;\nnew: = 2;\n' >tree/crates/c/must-fail/twice.edit
printf 'file: src/lib.rt\nold: let c = 1;\nnew: let c = 2;\n' >tree/crates/c/must-fail/gone.edit
printf 'file: src/gone.rt\nold: let a = 1;\nnew: let a = 2;\n' >tree/crates/c/must-fail/no_file.edit
bench edits.py "$room/tree"
expect 'edits: a line that stands twice' wrote 'twice.edit: it stands 2 times: = 1;'
expect 'edits: a line that is gone' wrote 'gone.edit: it stands 0 times: let c = 1;'
expect 'edits: a file that is gone' wrote 'no_file.edit: there is no src/gone.rt'
expect 'edits: they are counted' last_is '4 edits, 3 cannot be applied'
expect 'edits: one cannot' ended 1
mkdir -p rt-bin
printf '#!/bin/sh\n[ "$*" = "must-fail base" ] && ls crates/base/must-fail\n' >rt-bin/rt
chmod +x rt-bin/rt
PATH=$room/rt-bin:$PATH bench edits.py --try base
expect 'edits: those that the gate leaves out are tried too' wrote_line never_empty.edit
expect 'edits: what rt says is the answer' ended 0
bench edits.py --try no_crate
expect 'edits: of no crate none is tried' said 'no edits of no_crate'
expect 'edits: of no crate none is tried' ended 1

printf 'p cnf 2 4\n1 2 0\n1 -2 0\n-1 2 0\n-1 -2 0\n' >square.cnf
printf 'd 1 2 0\n1 0\n0\n' >square.drat
bench drat.py square.cnf square.drat
expect 'drat: a log' diff "$room/out" <(printf '5 1 0 1 2 0\n6 0 5 3 4 0\n')
printf '2 0\n' >square.drat
bench drat.py square.cnf square.drat
expect 'drat: what is refuted already needs no more' ended 0
printf 'p cnf 2 1\n1 2 0\n' >open.cnf
printf '1 0\n' >open.drat
bench drat.py open.cnf open.drat
expect 'drat: a clause that is not drawn is told' said 'not drawn by propagation: [1]'
expect 'drat: and ends it' ended 1
printf '' >open.drat
bench drat.py open.cnf open.drat
expect 'drat: a proof without an end is told' said 'the proof ends before a clause without literals'

bench samples.py
expect 'samples: the rows that stand there' diff "$room/out" "$here/crates/rows/data/samples.txt"

# --- trust.py, also on a tree of links to this one in which one thing is changed

bench trust.py --check
expect 'trust: docs/TRUST.md and the numbers in README.md are of these sources' ended 0
tree=$room/tree
make_tree() {
    rm -rf "$tree" && mkdir -p "$tree/crates" "$tree/docs"
    ln -s "$here"/crates/* "$tree/crates/"
    cp "$here/crates.txt" "$here/README.md" "$tree/" && cp "$here/docs/TRUST.md" "$tree/docs/"
    rm "$tree/crates/rml_command" && mkdir "$tree/crates/rml_command"
    cp -r "$here/crates/rml_command/specs" "$here/crates/rml_command/src" "$tree/crates/rml_command/"
}
make_tree
echo '-- a comment' >>"$tree/crates/rml_command/specs/Runs.antt"
bench trust.py --check "$tree"
expect 'trust: a comment is no part of a definition' ended 0
sed -i '/^| `Safe`/s/ [0-9]* |$/ 1 |/' "$tree/docs/TRUST.md"
bench trust.py --check "$tree"
expect 'trust: an altered page is told' last_is 'docs/TRUST.md: not of these sources; run bench/trust.py'
expect 'trust: and ends it' ended 1
make_tree
sed -i 's/^\(- \*How much that is\*.* stand \)[0-9,]* /\11 /' "$tree/README.md"
bench trust.py --check "$tree"
expect 'trust: so is another number in README.md' last_is 'README.md: not of these sources; run bench/trust.py'
make_tree
sed -i 's/^  pub never_breaks .*/&\n  pub more : More/' "$tree/crates/rml_command/specs/Runs.antt"
printf '\nabbrev pub More : Type 0\nMore = Unit {0}\n' >>"$tree/crates/rml_command/specs/Runs.antt"
bench trust.py --check "$tree"
expect 'trust: a definition more under `Safe` is told' wrote 'docs/TRUST.md'
expect 'trust: and ends it' ended 1
bench trust.py --of rml_command/Runs/Safe
expect 'trust: what is cited two pages on' wrote_line \
    'fol_formula/specs/Truth.antt truth by fol_formula/specs/Sentences.antt is_true'
expect 'trust: not what the page of a definition imports for another' wrote_no 'Fragments'
bench trust.py --of rml_houdini/Greatest/IsDrop
expect 'trust: a type in a field of the same name' wrote 'rml_command/src/goal.rt About by '

if python3 -c 'import z3' 2>/dev/null; then
    bench z3_goals.py "$here/examples/flag.rml"
    expect 'z3_goals: the group that fails' wrote_line 'action raise down: fails'
    expect 'z3_goals: its status is that of the verdict' ended 1
    bench z3_reasons.py "$here/examples/lock_server.rml"
    expect 'z3_reasons: a conjecture that carries a group' wrote_line '    linked_down, without which path 1 fails'
else
    skipped=$((skipped + 1))
    echo "skipped, since there is no z3 for Python: z3_goals.py, z3_reasons.py"
fi

bench ivycheck_test.sh
expect 'the script ivycheck' ended 0
cat "$room/out"

# --- the program itself

examples=$here/examples
if [ -z "$program" ]; then
    skipped=$((skipped + 1))
    echo 'skipped, since there is no program of these sources: what runs it'
else
    export IVYCHECK=$program
    bench examples.py "$examples/flag.rml" "$examples/quiet.rml" -- --conflicts 9
    expect 'examples: a line each' wrote '| `flag.rml` | not inductive | 2 |'
    expect 'examples: a line each' wrote '| `quiet.rml` | inductive | 2 |'
    expect 'examples: each has a verdict' ended 0
    bench examples.py "$room/none.rml"
    expect 'examples: a file without a verdict is told' ended 1
    bench houdini.py 3 1 "$examples/lock_server.rml"
    expect 'houdini: a line' wrote '| `lock_server.rml` | 3 | '
    expect 'houdini: its answer is inductive' ended 0
    bench ground.py "$examples/lock_server.rml"
    expect 'ground: a line' wrote '| `lock_server.rml` '
    bench sentences.py "$examples/flag.rml"
    expect 'sentences: a line each' wrote '| 900 updates |'
    for command in check bmc houdini replay; do
        bench hazards.py --scale 0.02 --command $command
        expect "hazards: no run of $command ends by a signal" ended 0
    done
    bench outside.sh ivycheck
    expect 'outside: each case of ivycheck' ended 0
    bench prefixes.py flag.rml
    expect 'prefixes: as its row has it' \
        grep -qxF "$(grep '^each-prefix' "$room/out")" "$here/crates/rows/data/prefixes.txt"
    bench prefixes.py --reports flag.rml
    expect 'prefixes: no report that is cut off is confirmed' last_is '259 prefixes of 1 reports, 0 differ'
    # `believer` confirms whatever it is given.
    printf '#!/bin/sh\n[ "$1" = replay ] || exec "%s" "$@"\nprintf "executions 1\\nverdict: confirmed\\n"\n' \
        "$program" >"$room/bin/believer"
    chmod +x "$room/bin/believer"
    IVYCHECK=$room/bin/believer bench prefixes.py --reports --step 100 flag.rml
    expect 'prefixes: one that is confirmed is told' last_is '3 prefixes of 1 reports, 3 differ'
    expect 'prefixes: and ends it' ended 1
    "$here/bench/names.py" >"$room/names.rml"
    "$program" check "$room/names.rml" >"$room/out" 2>"$room/err"
    expect 'names: its model is read' wrote 'verdict: '
    "$program" lrat chain.cnf chain.lrat >"$room/out" 2>"$room/err"
    expect 'chain: its log is taken' last_is 'verdict: refuted'
    for name in flag quiet lock_server lock_server-weak peterson_flat-weak; do
        "$program" check "$examples/$name.rml" >"$room/report"
        wanted=$?
        bench spread.sh "$examples/$name.rml" 4
        expect "spread: the verdict of $name" last_is "$(tail -n 1 "$room/report")"
        expect "spread: the axioms of $name" first_is "$(head -n 1 "$room/report")"
        expect "spread: the status of $name" ended "$wanted"
    done
    bench ../editors/test.py
    expect 'editors: colours are of the words and signs of the language' ended 0
    bench same_answers.py "$program" 40
    expect 'same_answers: a program answers as itself' ended 0
    printf '#!/bin/bash\n"%s" "$@" | sed s/holds/fails/\nexit "${PIPESTATUS[0]}"\n' "$program" >"$room/bin/liar"
    bench same_answers.py "$room/bin/liar" 40
    expect 'same_answers: another answer is told' ended 1
    awk '/^```/ { on = 0 } /^rml 2$/ { on = 1 } on' "$here/docs/LANGUAGE.md" >"$room/format2.rml"
    "$program" check "$room/format2.rml" >"$room/out" 2>"$room/err"
    expect 'LANGUAGE: its model of format 2 is inductive' last_is 'verdict: inductive'
    bench replay_base.py
    expect 'replay_base: no solver stands below the judge' ended 0
    sed 's/^report_replay: /&cdcl /' "$here/crates.txt" >crates.txt
    bench replay_base.py crates.txt
    expect 'replay_base: one that stands there is told' wrote ' stand on cdcl'
    bench replays.py --step 9 "$examples/flag.rml" "$examples/lock_server-weak.rml"
    expect 'replays: none differs' ended 0
    # `lie`, and `replays.py` has to see it.
    lie_of_reports() {
        printf '#!/bin/bash\n"%s" "$@" | %s\nexit "${PIPESTATUS[0]}"\n' "$program" "$1" >"$room/bin/liar"
        chmod +x "$room/bin/liar"
        IVYCHECK=$room/bin/liar bench replays.py --step 200 "$examples/flag.rml"
    }
    lie_of_reports "sed 's/^P5 at line .*/executions 1/'"
    expect 'replays: a wrong end that is confirmed is told' wrote "P5 at line 12: wrong end"
    bench long_report.py 1
    expect 'long_report: a megabyte is confirmed' ended 0
    if command -v cc >/dev/null; then
        bench growths.py --steps 20 'a log that refutes' 'a network of format 2' 'runs of a network' 'a right report'
        expect 'growths: a log, a network, its runs, and a report' ended 0
        bench lrat.sh 1
        expect 'lrat: a log of 100,000 hints' ended 0
    fi
    if has minisat 'goals.py on the program'; then
        bench goals.py "$examples/flag.rml" "$examples/lock_server-bug.rml" "$examples/peterson_flat-weak.rml"
        expect 'goals: as minisat has it' ended 0
    fi
    bench drat.py square.cnf <(printf '1 0\n')
    cp "$room/out" square.lrat
    "$program" lrat square.cnf square.lrat >"$room/out" 2>"$room/err"
    expect 'drat: its log is taken' last_is 'verdict: refuted'
    if has cadical 'proofs.py on the program'; then
        bench proofs.py "$examples/flag.rml" "$examples/lock_server.rml"
        expect 'proofs: each goal that holds is proved' wrote_line \
            'lock_server.rml: 6 goals, 6 proved by cadical, 0 have a model, 0 passed over'
        expect 'proofs: no log is refused' ended 0
        printf '#!/bin/sh\n[ "$1" != lrat ] || { echo "C2 at 1: refused" >&2; exit 4; }\nexec "%s" "$@"\n' \
            "$program" >"$room/bin/refuser"
        chmod +x "$room/bin/refuser"
        IVYCHECK=$room/bin/refuser bench proofs.py "$examples/flag.rml"
        expect 'proofs: a log that is refused is told' wrote '  goal 1: lrat says C2 at 1: refused'
        expect 'proofs: and ends it' ended 1
    fi
    if has acl2 'others.py'; then
        bench others.py "$examples/lock_server.rml"
        expect 'others: as ACL2 has it' ended 0
    fi
fi

# --- the program for a person

# It answers as the other does but for one change of what it writes: `view_liar FILTER`.
view_liar() {
    printf '#!/bin/bash\n"%s" "$@" | %s\nexit "${PIPESTATUS[0]}"\n' "$viewer" "$1" >"$room/bin/view-liar"
    chmod +x "$room/bin/view-liar"
}

if [ -z "$program" ] || [ -z "$viewer" ]; then
    skipped=$((skipped + 1))
    echo 'skipped, since there is no ivyview of these sources: what runs it'
else
    export IVYVIEW=$viewer
    bench depths.py parentheses
    expect 'depths: a line each' wrote '| parentheses | 49 | ivyview why | 3 | 49 | '
    expect 'depths: 8 MB are enough' ended 0
    bench views.py
    expect 'views: the rows that stand there' diff "$room/out" "$here/crates/rows/data/views.txt"
    if command -v cc >/dev/null; then
        bench growths.py --steps 10 'view: check network --json' 'view: why useless' 'view: replay'
        expect 'growths: what is shown of a network, of reasons, and of a report' ended 0
    fi
    bench hazards.py --scale 0.02 --view --command why -- --terms 1 --ground 1 --json
    expect 'hazards: no run of ivyview ends by a signal' ended 0
    bench outside.sh ivyview
    expect 'outside: each case of ivyview' ended 0
    bench models.py 50
    expect 'models: none of fifty differs' ended 0
    # `lie` has the program's reports pass through a filter: `models.py` has to see what it changes.
    lie() {
        printf '#!/bin/bash\nset -o pipefail\n"%s" "$@" | %s\n' "$program" "$1" >"$room/bin/liar"
        chmod +x "$room/bin/liar"
        IVYCHECK=$room/bin/liar bench models.py 8
    }
    lie "sed '/^  /d; s/fails/holds/'"
    expect 'models: what fails and is said to hold is told' wrote ' holds, and fails on path '
    lie "sed 's/^\(    relation [a-z0-9]*:\)$/\1 (0)/'"
    expect 'models: a tuple too many is told' wrote ' tuples are enough'
    lie "sed '/^steps/s/: breaks .*/: safe/'"
    expect 'models: a length that is broken and called safe is told' wrote ': safe, and broken by '
    lie "sed 's/^  values: 0/  values: 1/'"
    expect 'models: values that are no elements are told' wrote 'the answer cannot be read: '
    # (so what `ivyview` says in JSON)
    cat >"$room/bin/needless" <<'END'
#!/usr/bin/env python3
import json, sys
told = json.load(sys.stdin)
for group in told["groups"]:
    if "needs" in group:
        group["needs"] = []
print(json.dumps(told))
END
    chmod +x "$room/bin/needless"
    view_lie() {
        view_liar "$1"
        IVYVIEW=$room/bin/view-liar bench models.py 6
    }
    view_lie "sed '/\"check\"/s/\"answer\":\"fails\"/\"answer\":\"holds\"/g'"
    expect 'models: what fails by lean counts and is said to hold is told' wrote 'lean: init c1 holds, and fails on '
    view_lie "$room/bin/needless"
    expect 'models: a group that is carried by less is told' wrote ': by [], and fails on path '
    expect 'models: and ends it' ended 1
    bench tutorial.py
    expect 'tutorial: each command prints what the page shows' ended 0
    sed 's/^verdict: .*/verdict: unknown/; s/^not inductive.*/unknown/' "$here/docs/TUTORIAL.md" >"$room/page.md"
    bench tutorial.py "$room/page.md"
    expect 'tutorial: a page that shows something else is told' ended 1
    for name in flag lock_server-weak peterson_flat-weak lock_server-bug; do
        bench json_report.py "$examples/$name.rml"
        expect "json_report: the value of $name says what the report does" ended 0
    done
    view_liar "sed 's/\"element\":0/\"element\":1/'"
    IVYVIEW=$room/bin/view-liar bench json_report.py "$examples/lock_server-weak.rml"
    expect 'json_report: another element is told' wrote 'element: 0 in the text, 1 in the JSON'
    expect 'json_report: and ends it' ended 1
    if has dot 'the pictures of examples'; then
        bench pictures.sh
        expect 'pictures: Graphviz takes each' ended 0
        view_liar "sed 's/->/-/'"
        IVYVIEW=$room/bin/view-liar bench pictures.sh "$examples/lock_server-weak.rml"
        expect 'pictures: one that it does not take is told' ended 1
    fi
fi

echo "$skipped skipped"
echo "$passed passed, $failed failed"
[ "$failed" = 0 ]
