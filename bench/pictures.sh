#!/bin/sh
# Draws what `ivyview` shows of models, by Graphviz: bench/pictures.sh [FILE ..]
#
# Of each model (those of examples/) what `check`, `houdini` and `bmc --steps 2` find is written with `--dot`, and each
# graph drawn by itself: Graphviz 2.42 now and then crashes where a file has several. PICTURES names a folder for the
# drawings (none is kept). IVYVIEW is the program. The last line says how many graphs were drawn; the status is 1 where
# one was not, or where a model has no answer, and 2 where a tool or that folder is missing.
here=$(cd "$(dirname "$0")/.." && pwd) || exit 1
viewer=$("$here/bench/program.py" ivyview) || exit 2
stop() {
    echo "pictures.sh: $*" >&2
    exit 2
}
for tool in dot awk; do
    command -v "$tool" >/dev/null || stop "there is no $tool"
done
[ -z "$PICTURES" ] || [ -d "$PICTURES" ] || stop "PICTURES names $PICTURES, which is no folder"
room=$(mktemp -d) || exit 1
trap 'rm -rf "$room"' EXIT
[ $# -gt 0 ] || set -- "$here"/examples/*.rml
drawn=0
failed=0

# fail WHAT WHY: counts what was not drawn.
fail() {
    failed=$((failed + 1))
    echo "$1: $2"
}

# Draws a graph, and keeps the drawing where that is asked for.
draw_one() {
    dot -Tsvg -o "$room/picture" "$1" 2>"$room/said" && [ ! -s "$room/said" ] && [ -s "$room/picture" ] || return
    [ -z "$PICTURES" ] || cp "$room/picture" "$PICTURES/$2.svg" 2>"$room/said"
}

# Parts what stands in a file into its graphs; fails where something else stands there.
part() {
    awk -v room="$room" '/^digraph/ { n++ } !n { exit 1 } { print >(room "/" n ".dot") }' "$1"
}

# draw NAME WORD ..: the graphs of one answer. A run that ends without one fails as a graph does; one that says of a
# model that it is not as it should be shows where.
draw() {
    name=$1
    shift
    "$viewer" "$@" --dot >"$room/answer" 2>"$room/said"
    status=$?
    case $status in
        0 | 1 | 3) ;;
        *) fail "$name" "no answer: status $status $(head -n 1 "$room/said")" && return ;;
    esac
    part "$room/answer" || fail "$name" 'this is no graph'
    [ "$status" != 1 ] || [ -s "$room/answer" ] || fail "$name" 'no graph'
    for graph in "$room"/*.dot; do
        [ -f "$graph" ] || continue
        number=$(basename "$graph" .dot)
        if draw_one "$graph" "$name-$number"; then
            drawn=$((drawn + 1))
        else
            fail "$name, graph $number" "$(head -n 1 "$room/said")"
        fi
        rm "$graph"
    done
}

for file; do
    base=$(basename "$file" .rml)
    draw "$base-check" check "$file"
    draw "$base-houdini" houdini "$file"
    draw "$base-bmc" bmc "$file" --steps 2
done
echo "$drawn graphs drawn, $failed not"
[ "$failed" = 0 ]
