#!/bin/sh
# Decides the goals of a model side by side: bench/spread.sh FILE [PROCESSES [WORD ..]]
#
# Each goal is a call `emit FILE GOAL lrat WORD ..`; the log of one that holds is checked again by `lrat` against the
# clauses of `emit FILE GOAL cnf`. Printed are the axioms' line of `check`, each goal that fails or is left open, how
# many hold, and the verdict that follows, with the status that `check` has for it. Where a goal has no answer (its
# log is not taken, say, or a call is killed) the verdict is not told, and the status is 5. A text that has no goals
# goes to `check` as it is.
#
# IVYCHECK is the program that is run (the one that ./ivycheck runs; where there is none that is said, and the status
# is 5). WORK is the folder for clauses and logs (one that goes at the end).
here=$(cd "$(dirname "$0")/.." && pwd) || exit 5
[ $# != 0 ] || { echo 'usage: bench/spread.sh FILE [PROCESSES [WORD ..]]' >&2; exit 2; }
program=$IVYCHECK
[ -n "$program" ] || program=$("$here/ivycheck" --which 2>/dev/null) || {
    "$here/ivycheck" --which >/dev/null
    exit 5
}
file=$1
processes=${2:-$(nproc)}
[ $# -lt 2 ] || shift
shift
work=${WORK:-$(mktemp -d)}
[ -n "$WORK" ] || trap 'rm -r "$work"' EXIT
mkdir -p "$work" || exit 5

"$program" emit "$file" 1000000000 cnf >"$work/none" 2>"$work/goals"
goals=$(sed -n 's/^there are \([0-9]*\) goals$/\1/p' "$work/goals")
[ -n "$goals" ] || { "$program" check "$file" "$@"; exit; }

# The axioms stand in a model of their own: the text without its blocks and conjectures, whose words can be no names.
LC_ALL=C awk '
    {
        left = $0
        sub(/#.*/, "", left)
        line = ""
        while (match(left, /[A-Za-z0-9_]+/)) {
            if (!skips) line = line substr(left, 1, RSTART - 1)
            word = substr(left, RSTART, RLENGTH)
            if (word ~ /^(sort|relation|define|function|variable|axiom)$/) skips = 0
            if (word ~ /^(conjecture|init|action|final)$/) skips = 1
            if (!skips) line = line word
            left = substr(left, RSTART + RLENGTH)
        }
        print line (skips ? "" : left)
    }' "$file" >"$work/axioms.rml"
"$program" check "$work/axioms.rml" "$@" 2>&1 | head -n 1

# One goal, the last of the words: prints its number and holds, fails, undecided with its cause, or that it has no
# answer.
one='
program=$1 file=$2 work=$3
shift 3
turns=$#
while [ $turns -gt 1 ]; do
    set -- "$@" "$1"
    shift
    turns=$((turns - 1))
done
goal=$1
shift
"$program" emit "$file" "$goal" lrat "$@" >"$work/$goal.lrat" 2>"$work/$goal.err"
status=$?
case $status in
    0)
        "$program" emit "$file" "$goal" cnf "$@" >"$work/$goal.cnf" 2>"$work/$goal.err" &&
            "$program" lrat "$work/$goal.cnf" "$work/$goal.lrat" >"$work/$goal.said" 2>"$work/$goal.err" &&
            echo "goal $goal holds" || echo "goal $goal has no answer: its log is not taken"
        ;;
    1 | 3) cat "$work/$goal.err" ;;
    *) echo "goal $goal has no answer: status $status $(cat "$work/$goal.err")" ;;
esac
'
seq "$goals" | xargs -r -P "$processes" -n 1 sh -c "$one" sh "$program" "$file" "$work" "$@" >"$work/all"
grep -v 'holds$' "$work/all" | sort -k 2 -n
count() { grep -c "$1" "$work/all"; }
holding=$(count '^goal [0-9]* holds$')
failing=$(count '^goal [0-9]* fails$')
open=$(count '^goal [0-9]* undecided ')
echo "$holding of $goals goals hold, each by a log that was checked"
if [ $((holding + failing + open)) != "$goals" ]; then
    echo 'no verdict: not every goal has an answer'
    exit 5
elif [ "$holding" = "$goals" ]; then
    echo 'verdict: inductive'
elif [ "$failing" != 0 ]; then
    echo 'verdict: not inductive'
    exit 1
else
    echo 'verdict: undecided'
    exit 3
fi
