#!/bin/sh
# The released programs, release/ivycheck and release/ivyview, and their sums.
#   bench/release.sh [CRATES]             makes them from the programs that `rt ci` built in this checkout, or
#                                         in CRATES, the folder crates/ of another one
#   bench/release.sh --check [CRATES]     fails where they are not of these sources and of this kit, or where a released
#                                         program is not to the byte the one that `rt ci` built in this checkout
# So a change of the sources brings its release with it: `rt ci`, then this, then `.ci/run`, which checks it.
# (a folder's name may end in line feeds, which `$(..)` would take off)
root=$(cd -- "$(dirname -- "$0")/.." && printf %sx "$PWD") || exit 1
root=${root%x}
release=$root/release
check=
[ "$1" != --check ] || { check=yes && shift; }
crates=${1:-$root/crates}

give_up() {
    echo "release.sh: $*" >&2
    exit 1
}

sum_of() {
    sha256sum <"$1" | cut -c 1-64
}

# The file with the sums of a program.
sums_of() {
    [ "$1" = ivycheck ] && echo SUMS || echo "SUMS-$1"
}

# A program that is released has to be of the sources, the kit and the bytes that its sums name.
check_one() {
    for file in "$1" "$file_of_sums" README.md; do
        [ -f "$release/$file" ] || give_up "release/$file is not there"
    done
    [ -x "$release/$1" ] || give_up "release/$1 has no right to be run"
    cmp "$program" "$release/$1" || give_up "release/$1 is not the program that was built: bench/release.sh"
    [ "$(cat "$release/$file_of_sums")" = "$sums" ] || {
        echo "$sums" | diff - "$release/$file_of_sums" >&2
        give_up "release/$file_of_sums is not of these sources, this kit and this program: bench/release.sh"
    }
}

release_one() {
    "$program" check /dev/null | grep -qx 'verdict: inductive\|inductive' ||
        give_up "$program does not answer as it should"
    mkdir -p "$release" && cp "$program" "$release/new" && chmod 755 "$release/new" ||
        give_up "cannot write to $release"
    mv "$release/new" "$release/$1" && echo "$sums" >"$release/$file_of_sums" || give_up "cannot write to $release"
    echo "$sums"
}

version=$(rt version) || give_up "there is no working command rt on the PATH"
for name in ivycheck ivyview; do
    grep -q "^$name:" "$root/crates.txt" || continue
    program=$crates/$name/out/$name
    [ -f "$program" ] || give_up "there is no program $program: run rt ci first"
    file_of_sums=$(sums_of "$name")
    sources=$("$root/$name" --sum) && [ -n "$sources" ] || give_up "./$name does not say the sum of its sources"
    sums=$(printf 'sources: %s\nkit: %s\nprogram: %s' "$sources" "$version" "$(sum_of "$program")")
    if [ -n "$check" ]; then
        check_one "$name"
    else
        release_one "$name"
    fi
done
[ -z "$check" ] || echo "release/ is of these sources, and the very programs that were built"
