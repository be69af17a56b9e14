#!/bin/sh
# Copies crates and those below them to a folder, as a repository of its own: bench/part.sh FOLDER CRATE ..
#
# What is copied are their files and their lines of crates.txt, and not what was built or proved of them (crates/*/out),
# which is gigabytes. A copy that stands there already is renewed, and what was proved in it stays.
here=$(cd "$(dirname "$0")/.." && pwd) || exit 1
to=$1
shift
awk -v wanted="$*" '
    /^[a-z]/ { split($0, halves, ":"); split(halves[1], words, " "); below[words[1]] = halves[2]; line[words[1]] = $0 }
    function visit(crate, names, count, i) {
        if (!(crate in below) || crate in seen) return
        seen[crate] = 1
        count = split(below[crate], names, " ")
        for (i = 1; i <= count; i++) visit(names[i])
        print line[crate]
    }
    END { count = split(wanted, names, " "); for (i = 1; i <= count; i++) visit(names[i]) }
' "$here/crates.txt" >"$to.crates" || exit 1
mkdir -p "$to/crates" && mv "$to.crates" "$to/crates.txt" || exit 1
sed 's/[ :].*//' "$to/crates.txt" | while read -r crate; do
    mkdir -p "$to/crates/$crate" || exit 1
    for part in src specs proofs; do
        rm -rf "$to/crates/$crate/$part"
        [ ! -d "$here/crates/$crate/$part" ] || cp -a "$here/crates/$crate/$part" "$to/crates/$crate/" || exit 1
    done
done
