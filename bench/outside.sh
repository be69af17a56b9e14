#!/bin/bash
# What the programs answer where the world outside fails: bench/outside.sh [WORD ..]
#
# IVYCHECK and IVYVIEW are the programs that are run (those that ./ivycheck and ./ivyview run; without an ivyview its
# cases are left out); WORD takes the cases in whose title it stands. Each line is a case with the status that it ended
# with and the one that is expected: 5 where a file cannot be read or a text cannot be written, 4 where a text is too
# long or has a fault. Where no answer is due nothing is written on standard output, and where a file fails just the
# line that says so on standard error. The last line is `N cases, M differ`. Run it as a user that is not root, or the
# files without rights are left out.
here=$(cd "$(dirname "$0")/.." && pwd)
program=$("$here/bench/program.py") || exit 2
viewer=$("$here/bench/program.py" ivyview 2>/dev/null) || echo 'left out, since there is no ivyview: its cases'
asked=("$@")
work=$(mktemp -d)
trap 'rm -rf "$work"' EXIT
cases=0
differ=0

# tell TITLE EXPECTED STATUS [NOTE]
tell() {
    local note=$4
    [ "$2" = "$3" ] || note="$note, differs"
    cases=$((cases + 1))
    [ -z "$note" ] || differ=$((differ + 1))
    echo "$1: status $3, expected $2$note"
}

# Whether the cases of this title are asked for.
is_asked() {
    local word
    for word in "${asked[@]}"; do
        case $1 in *"$word"*) return 0 ;; esac
    done
    [ ${#asked[@]} = 0 ]
}

# with FILE WORD ..: sets `words` to the words, with the file in the place of @
with() {
    local file=$1 word
    shift
    words=()
    for word; do
        [ "$word" != @ ] || word=$file
        words+=("$word")
    done
}

# ended TITLE EXPECTED [LINE]: tells the last run, whose streams are in out and err. Where no answer is due there is
# none on standard output, and this line on standard error.
ended() {
    local status=$? wrong=
    [ "$2" -lt 4 ] || [ ! -s "$work/out" ] || wrong=', with an answer'
    [ -z "$3" ] || [ "$(cat "$work/err")" = "$3" ] || wrong="$wrong, said otherwise"
    tell "$1" "$2" $status "$wrong"
}

# streams NAME WORD ..: what is due on standard output cannot be written there
streams() {
    local name=$1
    shift
    is_asked "$name" || return
    "$@" >/dev/full 2>/dev/null
    tell "$name: standard output is a full device" 5 $?
    "$@" >&- 2>/dev/null
    tell "$name: standard output is closed" 5 $?
    "$@" 1<"$good" 2>/dev/null
    tell "$name: standard output is open for reading alone" 5 $?
    "$@" >&9 2>/dev/null
    tell "$name: standard output is a pipe that nobody reads" 5 $?
}

# complaints NAME WORD ..: what is due on standard error cannot be written there
complaints() {
    local name=$1
    shift
    is_asked "$name" || return
    "$@" 2>/dev/full >"$work/out"
    ended "$name: standard error is a full device" 5
    "$@" 2>&- >"$work/out"
    ended "$name: standard error is closed" 5
    "$@" 2>&9 >"$work/out"
    ended "$name: standard error is a pipe that nobody reads" 5
}

# files NAME WORD ..: the file in the place of @ cannot be read
files() {
    local name=$1 title file
    shift
    is_asked "$name" || return
    while IFS='|' read -r title file; do
        with "$file" "$@"
        "${words[@]}" >"$work/out" 2>"$work/err" </dev/null
        ended "$name: $title" 5 'cannot read the file'
    done <"$work/unreadable"
}

# endless NAME WORD ..: the file in the place of @ has no end
endless() {
    local name=$1
    shift
    is_asked "$name" || return
    with /dev/zero "$@"
    "${words[@]}" >"$work/out" 2>"$work/err"
    ended "$name: the file has no end" 4 'the file is too long'
}

# input NAME EMPTY WORD ..: - stands in the place of @, and standard input fails; EMPTY is the status where it is empty
input() {
    local name=$1 empty=$2
    shift 2
    is_asked "$name" || return
    with - "$@"
    "${words[@]}" >"$work/out" 2>"$work/err" <&-
    ended "$name: standard input is closed" 5 'cannot read the file'
    "${words[@]}" >"$work/out" 2>"$work/err" <"$work"
    ended "$name: standard input is a folder" 5 'cannot read the file'
    "${words[@]}" >"$work/out" 2>"$work/err" 0>>"$work/written"
    ended "$name: standard input is open for writing alone" 5 'cannot read the file'
    "${words[@]}" >"$work/out" 2>"$work/err" </dev/null
    tell "$name: standard input is empty" "$empty" $?
}

# pipe NAME FILE WORD ..: in the place of @ stands a pipe with the whole file, which is answered as the file itself
pipe() {
    local name=$1 file=$2 writer wanted
    shift 2
    is_asked "$name" || return
    with "$file" "$@"
    "${words[@]}" >/dev/null 2>&1
    wanted=$?
    cat "$file" >"$work/fifo" &
    writer=$!
    with "$work/fifo" "$@"
    "${words[@]}" >"$work/out" 2>"$work/err"
    ended "$name: the file is a pipe with a whole text" $wanted
    # (it waits for a reader, where the program read nothing)
    kill "$writer" 2>/dev/null
}

# left NAME WORD ..: what is due on standard output is more than a pipe holds, and its reader goes away
left() {
    local name=$1
    shift
    is_asked "$name" || return
    "$@" 2>/dev/null | head -c 10 >/dev/null
    tell "$name: the reader of standard output goes away" 5 "${PIPESTATUS[0]}"
}

# of_a_model NAME WORD ..: a command with a model in the place of @
of_a_model() {
    local name=$1
    shift
    with "$good" "$@"
    streams "$name" "${words[@]}"
    with "$work/fault.rml" "$@"
    case " $* " in
        *' --json '*) streams "$name of a fault" "${words[@]}" ;;
        *) complaints "$name of a fault" "${words[@]}" ;;
    esac
    files "$name" "$@"
    endless "$name" "$@"
    pipe "$name" "$good" "$@"
}

good=$work/good.rml
report=$work/report
# (it has a counterexample, so that there is a picture)
printf 'relation p\naction a { p := true }\nconjecture c: ~p\n' >"$good"
printf 'relation p$\n' >"$work/fault.rml"
"$program" check "$good" >"$report"
printf 'p cnf 1 2\n1 0\n-1 0\n' >"$work/f.cnf"
printf '3 0 1 2 0\n' >"$work/f.lrat"
ln -s loop "$work/loop"
cat >"$work/unreadable" <<END
the file is a folder|$work
there is no such file|$work/none.rml
a file stands where a folder should|$good/none
the name is empty|
the name is longer than names may be|$work/$(printf 'n%.0s' {1..300})
the file is a link to itself|$work/loop
a read of the file fails|/proc/self/mem
END
if [ "$(id -u)" != 0 ]; then
    cp "$good" "$work/closed.rml" && chmod 0 "$work/closed.rml"
    echo "the file may not be read|$work/closed.rml" >>"$work/unreadable"
fi
# What is written on 9 is read by nobody: the other end of this pipe is closed.
mkfifo "$work/unread" "$work/fifo"
exec 8<>"$work/unread" 9>"$work/unread" 8>&-

# --- ivycheck

of_a_model 'ivycheck check' "$program" check @
of_a_model 'ivycheck bmc' "$program" bmc @ --steps 1
of_a_model 'ivycheck houdini' "$program" houdini @
of_a_model 'ivycheck emit' "$program" emit @ 1 cnf
of_a_model 'ivycheck replay' "$program" replay @ "$report"
name='ivycheck replay, the report'
complaints "$name" "$program" replay "$good" "$good"
files "$name" "$program" replay "$good" @
endless "$name" "$program" replay "$good" @
pipe "$name" "$report" "$program" replay "$good" @
name='ivycheck lrat, the formula'
streams "$name" "$program" lrat "$work/f.cnf" "$work/f.lrat"
complaints "$name" "$program" lrat "$good" "$work/f.lrat"
files "$name" "$program" lrat @ "$work/f.lrat"
name='ivycheck lrat, the log'
complaints "$name" "$program" lrat "$work/f.cnf" "$good"
files "$name" "$program" lrat "$work/f.cnf" @
streams 'ivycheck sample' "$program" sample 1
complaints 'ivycheck without words' "$program"
name='ivycheck emit, a long answer'
long=$here/examples/ring_leader.rml
left "$name" "$program" emit "$long" 25 cnf
if is_asked "$name"; then
    # (where that signal is not ignored, it ends the program, as it ends others)
    ( trap '' XFSZ; ulimit -f 1; exec "$program" emit "$long" 25 cnf >"$work/written" 2>/dev/null )
    tell "$name: standard output is a file that may not grow" 5 $?
fi

# A file that grows by blanks while it is read: each front of it is the same model, until it is too long.
if is_asked 'ivycheck check'; then
    cp "$good" "$work/growing.rml"
    ( i=0; while [ $i -lt 2000 ]; do printf '          \n' >>"$work/growing.rml"; i=$((i + 1)); done ) &
    grower=$!
    worst=1
    for _ in 1 2 3 4 5 6 7 8 9 10; do
        "$program" check "$work/growing.rml" >/dev/null 2>&1
        status=$?
        [ $status = 1 ] || worst=$status
    done
    wait $grower
    tell 'ivycheck check: the file grows while it is read' 1 $worst
fi

# --- ivyview

if [ -n "$viewer" ]; then
    for form in '' ' --json' ' --dot' ' --lean' ' --lean --json'; do
        # (the options are parted at the blanks)
        of_a_model "ivyview check$form" "$viewer" check @ $form
        of_a_model "ivyview bmc$form" "$viewer" bmc --steps 1 @ $form
        of_a_model "ivyview houdini$form" "$viewer" houdini @ $form
        case $form in '' | ' --json')
            of_a_model "ivyview why$form" "$viewer" why @ $form
            of_a_model "ivyview replay$form" "$viewer" replay @ "$report" $form
            files "ivyview replay$form, the report" "$viewer" replay "$good" @ $form
            input "ivyview check$form" 0 "$viewer" check @ $form
            input "ivyview replay$form" 4 "$viewer" replay @ "$report" $form
            ;;
        esac
    done
    endless 'ivyview replay, the report' "$viewer" replay "$good" @
    complaints 'ivyview replay, the report' "$viewer" replay "$good" "$good"
    pipe 'ivyview replay, the report' "$report" "$viewer" replay "$good" @
    input 'ivyview bmc' 0 "$viewer" bmc @ --steps 1
    input 'ivyview houdini' 0 "$viewer" houdini @
    input 'ivyview why' 0 "$viewer" why @
    input 'ivyview replay, the report' 4 "$viewer" replay "$good" @
    left 'ivyview why --json, a long answer' "$viewer" why "$here/examples/two_phase_commit-bug.rml" --json
    streams 'ivyview --help' "$viewer" --help
    complaints 'ivyview without words' "$viewer"
fi

echo "$cases cases, $differ differ"
[ $differ = 0 ]
