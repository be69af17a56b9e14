#!/bin/sh
# Shows when the script `ivycheck` builds, what it runs and what it says. The last line is `N passed, M failed`.
#
# It works in a small repository of its own, with a stand-in for `rt` that "builds" a shell program out of the sources.
# The stand-in waits while a file `hold` names the crate that it is at, fails where a file `fail` names it, and notes
# each call, so that each case is brought about, and does not hang on chance. bench/release.sh, which makes what is
# released, is tried here too.
here=$(cd "$(dirname "$0")/.." && pwd)
room=$(mktemp -d)
trap 'rm -rf "$room"' EXIT
repo=$room/repo
PATH=$room/bin:$PATH
export FAKE="$room/fake" PATH
passed=0
failed=0

expect() {
    title=$1
    shift
    if "$@"; then
        passed=$((passed + 1))
    else
        failed=$((failed + 1))
        echo "FAILED: $title: $*"
        sed 's/^/    /' "$room/out" "$room/err"
    fi
}

# A repository whose program stands on `low` and not on `other`. The program writes its sources and its words, and ends
# with the status that stands in the file that it is given.
begin() {
    rm -rf "$repo" "$FAKE" "$room/work"
    mkdir -p "$repo/crates/low/src" "$repo/crates/low/specs" "$repo/crates/other/src" "$repo/crates/ivycheck/src"
    mkdir -p "$FAKE" "$room/work" "$room/bin"
    mkdir -p "$repo/bench"
    cp "$here/ivycheck" "$repo/"
    cp "$here/bench/release.sh" "$repo/bench/"
    printf '# a comment\nother: low\nivycheck: low\nlow:\n' >"$repo/crates.txt"
    echo one >"$repo/crates/low/src/lib.rt"
    echo more >"$repo/crates/low/specs/More.antt"
    echo main >"$repo/crates/ivycheck/src/main.rt"
    echo other >"$repo/crates/other/src/lib.rt"
    echo kit-1 >"$FAKE/version"
    : >"$FAKE/calls"
    echo 0 >"$room/work/model"
    echo 3 >"$room/work/open model"
    cd "$room/work" || exit
    make_rt
}

make_rt() {
    cat >"$room/bin/rt" <<'RT'
#!/bin/sh
crate=$(basename "$PWD")
is_at() { [ "$(cat "$FAKE/$1" 2>/dev/null)" = "$crate" ]; }
[ "$1" = version ] || echo "$1 $crate" >>"$FAKE/calls"
case $1 in
    version) echo >>"$FAKE/versions" && cat "$FAKE/version" ;;
    try) shift 2 && printf 'tried' && printf ' <%s>' "$@" && exit 4 ;;
    lib | run)
        echo $$ >"$FAKE/pid"
        mkdir -p out
        sources=$(cat ../low/src/* ../low/specs/* src/* | tr '\n' ' ')
        # the program of a link that is under way is half of one
        [ "$1" = lib ] || printf '#!/bin/sh\necho half of a program\nexit 9\n' >out/ivycheck
        [ "$1" = lib ] || chmod +x out/ivycheck
        while is_at hold; do touch "$FAKE/held" && sleep 0.05; done
        ! is_at fail || { echo "rt: $crate NOT PROVED" && exit 1; }
        [ "$1" = lib ] || cat >out/ivycheck <<PROGRAM
#!/bin/sh
PATH=/usr/bin:/bin
printf '%s' "$sources"
printf '<%s> ' "\$@"
printf '\\nverdict: inductive\\n'
status=\$(cat "\$2") 2>/dev/null
exit "\${status:-0}"
PROGRAM
        ;;
esac
RT
    chmod +x "$room/bin/rt"
}

run() {
    "$repo/ivycheck" "$@" >"$room/out" 2>"$room/err"
    status=$?
}

# The same in the background; its number is $!, and what it writes goes to files of that name.
run_as() {
    name=$1
    shift
    "$repo/ivycheck" "$@" >"$room/$name" 2>"$room/$name.err" &
}

hold() {
    rm -f "$FAKE/held"
    echo "$1" >"$FAKE/hold"
}

wait_for() {
    for _ in $(seq 200); do
        ! "$@" || return 0
        sleep 0.05
    done
    failed=$((failed + 1))
    echo "FAILED: waited in vain: $*"
}

let_go() { rm -f "$FAKE/hold"; }
held() { [ -e "$FAKE/held" ]; }
ended() { [ "$status" = "$1" ]; }
wrote() { grep -qF -- "$1" "$room/out"; }
wrote_nothing() { [ ! -s "$room/out" ]; }
said() { grep -qF -- "$1" "$room/err"; }
said_once() { [ "$(wc -l <"$room/err")" = 1 ] && said "$1"; }
builds() { [ "$(grep -c '^run' "$FAKE/calls")" = "$1" ]; }
asks_no_rt() { [ ! -s "$FAKE/calls" ] && [ ! -e "$FAKE/versions" ]; }
programs() { [ "$(find "$repo/.ivycheck" -name 'ivycheck-*' 2>/dev/null | wc -l)" = "$1" ]; }
without_rt() { mv "$room/bin/rt" "$room/rt" && plain=$PATH && PATH=/usr/bin:/bin; }
with_rt() { PATH=$plain && mv "$room/rt" "$room/bin/rt"; }
edit() { echo "$1" >"$repo/crates/low/src/lib.rt"; }

# A program of the sources as they stand is released, and nothing is built.
release() {
    (cd "$repo/crates/ivycheck" && rt run) && "$repo/bench/release.sh" >"$room/out" 2>"$room/err"
    status=$?
    echo a page >"$repo/release/README.md"
    rm -rf "$repo"/crates/*/out "$repo/.ivycheck" "$FAKE/versions"
    : >"$FAKE/calls"
}

begin
run check model
expect 'no call builds unasked' ended 70
expect 'no call builds unasked' builds 0
expect 'no call builds unasked' wrote_nothing
expect 'it says what to call, and what that costs' said "$repo/ivycheck --prove proves and builds one: an hour or more"
expect 'in two lines' [ "$(wc -l <"$room/err")" = 2 ]
run --prove check model
expect 'the word --prove builds and runs' ended 0
expect 'the word --prove builds and runs' wrote 'one more main <check> <model> '
expect 'a build is announced with what it costs' said 'an hour or more on 4 processors, 6 GB of memory, 11 GB of disk'
expect 'a build names its log' said "$repo/.ivycheck/build.log"
expect 'a build says how far it is' said '1 of 2: low'
expect 'a build says how far it is' said '2 of 2: ivycheck'
run check model
expect 'what was built is said once' said_once 'this is the program that was proved and built here'
run check 'open model'
expect 'a later call does not build' builds 1
expect 'it says nothing of its own' [ ! -s "$room/err" ]
expect 'words and status are handed on as they are' wrote '<check> <open model> '
expect 'words and status are handed on as they are' ended 3
echo 'echo what another rt builds' >"$repo/crates/ivycheck/out/ivycheck"
run check model
expect 'nothing is run from out/' wrote 'one more main'
ln -s "$repo/ivycheck" "$room/work/link"
(cd / && "$room/work/link" check "$room/work/model" >"$room/out")
expect 'a link to the script serves, from any folder' wrote 'one more main'

# What was built is of other sources now, and is not run; what is built then is.
is_seen() {
    run check model
    expect "$1: no older program runs" ended 70
    run --prove check model
    expect "$1: it is built" wrote "$2"
}

edit two
is_seen 'an edited source' 'two more main'
edit old && touch -d 2001-01-01 "$repo/crates/low/src/lib.rt"
is_seen 'a source with an older time' 'old more main'
rm "$repo/crates/low/specs/More.antt"
is_seen 'a removed file' 'old main'
mv "$repo/crates/low/src/lib.rt" "$repo/crates/low/src/named.rt"
is_seen 'a new name' 'old main'
echo 'top: low' >>"$repo/crates.txt"
is_seen 'a new list of crates' 'old main'
echo kit-2 >"$FAKE/version"
is_seen 'another kit' 'old main'
echo changed >"$repo/crates/other/src/lib.rt"
run check model
expect 'a crate that the program does not stand on is left alone' wrote 'old main'
expect 'one program is kept' programs 1

begin
release
source=$repo/crates/low/src
touch "$source/.lib.rt.swp" "$source/lib.rt~" "$source/#lib.rt#" "$source/4913" && ln -s none "$source/.#lib.rt"
mkdir "$source/.backups" && echo 'words of mine' >"$repo/crates/low/specs/notes.txt"
run check model
expect "an editor's files beside a source do not make it another" ended 0
expect "an editor's files beside a source do not make it another" wrote 'one more main'
echo more >"$source/more.rt"
run check model
expect 'a new source does' ended 70

begin
hold ivycheck
run_as first --prove check model
wait_for held
edit two
let_go
wait $!
status=$? && mv "$room/first" "$room/out" && mv "$room/first.err" "$room/err"
expect 'a source that was edited during the build is not taken as built' ended 70
expect 'a source that was edited during the build is told' said 'a source was touched during the build'
expect 'a source that was edited during the build leaves no program' programs 0
run --prove check model
expect 'the next call builds it' wrote 'two more main'
edit three
hold low
run_as first --prove check model
wait_for held
edit four
edit three
let_go
wait $!
expect 'nor is one that was edited and put back' [ $? = 70 ]
hold low
run_as first --prove check model
wait_for held
rm -r "$repo/crates/low/specs"
let_go
wait $!
expect 'nor is one whose folder was removed' [ $? = 70 ]

begin
hold low
run_as first --prove check model
wait_for held
first=$!
run_as second --prove check model
second=$!
wait_for grep -q waiting "$room/second.err"
let_go
wait $first && wait $second
expect 'of two first calls both answer' grep -q 'one more main' "$room/first" "$room/second"
expect 'of two first calls the second waits until the first has built' builds 2
expect 'and there is one program then' programs 1

begin
run --prove check model
edit two
hold ivycheck
run_as first --prove check model
wait_for held
kill -9 $! "$(cat "$FAKE/pid")"
wait $! 2>/dev/null
let_go
expect 'half a program is there' grep -q half "$repo/crates/ivycheck/out/ivycheck"
edit one
run check model
expect 'a build that is killed leaves the old program working' wrote 'one more main'
expect 'a build that is killed leaves the old program working' builds 2
edit two
run --prove check model
expect 'a build that was killed leaves no lock, and its sources are built' wrote 'two more main'
edit three
hold ivycheck
run_as first --prove check model
wait_for held
kill -9 $!
wait $! 2>/dev/null
run_as second --prove check model
wait_for grep -q waiting "$room/second.err"
let_go
wait $!
expect 'an rt that outlives the script is waited for' grep -q 'three more main' "$room/second"

begin
without_rt
run --prove check model
expect 'without rt it says so' said 'there is no working command rt on the PATH'
expect 'without rt it says so' ended 70
run --first-look check model
expect 'nor is there a first look' ended 70
with_rt
run --prove check model
without_rt
run check model
expect 'without rt a program of just these sources is run' wrote 'one more main'
edit two
run check model
expect 'without rt no other program is run' ended 70
expect 'without rt what is there is kept' programs 1
with_rt

begin
run --prove check model
edit two
echo low >"$FAKE/fail"
run --prove check model
expect 'a build that fails gives 70' ended 70
expect 'a build that fails names the crate' said 'low could not be proved or built'
expect 'a build that fails runs no old program' wrote_nothing
edit one
run check model
expect 'the old program serves its own sources' wrote 'one more main'
echo ivycheck >"$FAKE/fail"
edit two
run --prove check model
expect 'a program that is not linked gives 70' ended 70
expect 'a program that is not linked leaves half of one, which is not run' wrote_nothing

begin
is_usage() {
    run "$@"
    ended 2 && wrote_nothing && said_once 'usage: ivycheck check FILE' && [ ! -s "$FAKE/calls" ]
}
expect 'no words are no command line' is_usage
expect 'an unknown command' is_usage prove model
expect 'help is an unknown command' is_usage --help
expect 'no file' is_usage check
expect 'two files' is_usage check model model
expect 'one file for lrat' is_usage lrat model
expect 'one file for replay' is_usage replay model
expect 'emit without its last word' is_usage emit model 1
expect 'emit with a word too many' is_usage emit model 1 cnf lrat
expect 'a sample without its number' is_usage sample
expect 'bounded runs without their bound' is_usage bmc model
expect 'a first look at no command line' is_usage --first-look check
expect 'the usage line is that of the program' grep -qxF "    $(cat "$room/err")" "$here/docs/FORMATS.md"
run --prove
run check model --help
expect 'a word that may be an option is left to the program' wrote '<check> <model> <--help> '
run check model --terms 40 --conflicts 9
expect 'options are left to the program' wrote '<check> <model> <--terms> <40> <--conflicts> <9> '
run emit model 3 lrat
expect 'so is the goal of emit' wrote '<emit> <model> <3> <lrat> '
run sample 4
expect 'and the size of a sample' wrote '<sample> <4> '
run bmc model --steps 3
expect 'and the bound of runs' wrote '<bmc> <model> <--steps> <3> '
run prove "$(printf '\377')"
expect 'and so is what may be no text' wrote 'main <prove> '

begin
touch "$room/work/cnf" "$room/work/400"
run --first-look check model
expect 'a first look runs the code by rt try' wrote "tried <check> <$room/work/model>"
expect 'a first look says that nothing is proved, and how slow it is' \
    said_once '300 times slower than the program, and nothing'
expect 'a first look ends with the status' ended 4
run --first-look check --terms 400 model --ground=400 --conflicts 400
expect 'a value of an option is no file' \
    wrote "<check> <--terms> <400> <$room/work/model> <--ground=400> <--conflicts> <400>"
run --first-look bmc --steps 400 model
expect 'a bound of runs is no file' wrote "<bmc> <--steps> <400> <$room/work/model>"
run --first-look emit model 400 cnf
expect 'a goal and what of it are no files' wrote "<emit> <$room/work/model> <400> <cnf>"
run --first-look lrat cnf 400
expect 'of lrat both words are' wrote "<lrat> <$room/work/cnf> <$room/work/400>"
run --first-look check -- -y
expect 'behind -- a word is a file' wrote "<check> <--> <$room/work/-y>"
run --first-look check -
expect 'a lone - is a file' wrote "<check> <$room/work/->"
run --first-look replay model report
expect 'of replay too' wrote "<replay> <$room/work/model> <$room/work/report>"
run --first-look lrat /dev/null ''
expect 'a path from the root stays, and so does an empty word' wrote '<lrat> </dev/null> <>'
run --first-look sample 400
expect 'the number of a sample is no file' wrote '<sample> <400>'
expect 'a first look builds nothing' builds 0

begin
release
expect 'a release names the sums' wrote "sources: $("$repo/ivycheck" --sum)"
expect 'a release names the kit' wrote 'kit: kit-1'
run check 'open model'
expect 'a released program of these sources runs' wrote 'one more main <check> <open model> '
expect 'a released program of these sources runs' ended 3
expect 'the first time it says which program runs' said_once 'this is the released program'
expect 'and by what kit it was built' said 'proved and built by kit-1'
expect 'no rt is asked for a released program' asks_no_rt
run check model
expect 'the second time it says nothing' [ ! -s "$room/err" ]
run --which
expect 'it says any time which program runs' said_once 'this is the released program'
expect 'and where it stands' wrote "$repo/release/ivycheck"
expect 'and ends with 0' ended 0
without_rt
run check model
expect 'without rt a released program runs' wrote 'one more main <check> <model> '
with_rt
rm -r "$repo/.ivycheck" && touch "$repo/.ivycheck"
run check model
expect 'where nothing can be noted a released program runs too' wrote 'one more main <check> <model> '
expect 'and says each time which it is' said_once 'this is the released program'
rm "$repo/.ivycheck"

# Runs `check model` with a release that must not be run: first without `rt`, and then with it.
is_refused() {
    without_rt
    run check model
    with_rt
    expect "$1: it is not run" ended 70
    expect "$1: nothing is answered" wrote_nothing
    expect "$1: it says so" said "$2"
    run --which
    expect "$1: no program is there" ended 1
    expect "$1: no program is there" wrote_nothing
    expect "$1: it says what to call" said "$repo/ivycheck --prove proves and builds one"
    expect "$1: nothing is built unasked" builds 0
    run --prove check model
    expect "$1: the program is built anew" wrote "$3"
    expect "$1: the program is built anew" builds 1
}

tampered() { release && echo '# one line more' >>"$repo/release/ivycheck"; }
other_sum() { release && sed -i "s/^$1: .*/$1: 00/" "$repo/release/SUMS"; }
wrong_library() {
    release
    printf '#!/bin/sh\necho no library >&2\nexit 1\n' >"$repo/release/ivycheck"
    sed -i "s/^program: .*/program: $(sha256sum <"$repo/release/ivycheck" | cut -c 1-64)/" "$repo/release/SUMS"
}

begin
tampered
is_refused 'a tampered program' 'it is not the program that release/SUMS names' 'one more main <check>'
begin
other_sum program
is_refused 'another sum of the program' 'it is not the program that release/SUMS names' 'one more main <check>'
begin
other_sum sources
is_refused 'another sum of the sources' 'it is of other sources' 'one more main <check>'
begin
release && edit two
is_refused 'a changed source' 'it is of other sources' 'two more main <check>'
begin
release && echo 'top: low' >>"$repo/crates.txt"
is_refused 'a changed list of crates' 'it is of other sources' 'one more main <check>'
begin
release && rm "$repo/crates/low/specs/More.antt"
is_refused 'a removed source' 'it is of other sources' 'one main <check>'
begin
release && rm "$repo/release/SUMS"
is_refused 'a release without sums' 'it is not there' 'one more main <check>'
begin
release && rm "$repo/release/ivycheck"
is_refused 'a release without its program' 'it is not there' 'one more main <check>'
begin
release && chmod 644 "$repo/release/ivycheck"
is_refused 'a program without the right to be run' 'it has no right to be run' 'one more main <check>'
begin
wrong_library
is_refused 'a program that does not run on this system' 'it does not run on this system' 'one more main <check>'
begin
release && edit two && run --prove check model
run check model
expect 'what was built here goes first' wrote 'two more main'
edit one
run check model
expect 'the released program serves its own sources' wrote 'one more main'
expect 'it is said again when another program runs' said_once 'this is the released program'
expect 'it is said again when another program runs' builds 1

begin
release
run --prove check 'open model'
expect 'on demand the program is built beside a released one' builds 1
expect 'and runs' wrote 'one more main <check> <open model> '
expect 'and runs' ended 3
expect 'the same program is told' said 'the released program is the same, to the byte'
run --which
expect 'from then on it is the one that runs' said 'this is the program that was proved and built here'
expect 'from then on it is the one that runs' wrote "$repo/.ivycheck/ivycheck-"
run --prove
expect 'without words that is all' ended 0
expect 'without words that is all' wrote_nothing
expect 'it is proved and built again each time' builds 2
run --prove prove model
expect 'words that are no command line are told first' ended 2
begin
tampered
run --prove
expect 'another program is told' said 'the released program is another: it is not the one that release/SUMS names'
expect 'another program is told' ended 1
begin
wrong_library && echo kit-2 >"$FAKE/version"
run --prove
expect 'another kit is told' said 'it was built by kit-1, and this one by kit-2'
begin
release && edit two
run --prove check model
expect 'other sources are told' said 'the released program is another: it is of other sources'
begin
run --prove
expect 'no release is told' said 'there is no released program to compare with'
begin
wrong_library
run --prove
expect 'another program of the same sums is told by its first byte' said 'of the same sources by the same kit: '
expect 'another program of the same sums is told by its first byte' said 'differ: byte '
begin
without_rt
run --prove check model
with_rt
expect 'without rt there is no proof' ended 70

# What lies in .ivycheck/ runs only with the sums that it had when it was built.
plant() { printf '#!/bin/sh\necho planted\n' >"$1" && chmod +x "$1"; }
built() { find "$repo/.ivycheck" -name 'ivycheck-*'; }
is_not_run() {
    run check model
    expect "$1: it is not run" ended 70
    expect "$1: it is not run" wrote_nothing
    expect "$1: it says so" said "the program that lies in .ivycheck/ is not run: $2"
    run --which
    expect "$1: it is none that runs" ended 1
    run --prove check model
    expect "$1: it is proved and built again" wrote 'one more main'
    run check model
    expect "$1: from then on what was built runs" wrote 'one more main'
    expect "$1: nothing else is left there" programs 1
}

prove() {
    begin
    run --prove check model
    file=$(built)
    sums=$repo/.ivycheck/sums-${file##*/}
}

prove
rm "$file" "$sums" && plant "$file"
is_not_run 'a program that was planted' 'no sums lie beside it'
prove
plant "$file"
is_not_run 'one that was planted over what was built' 'it has not the sum that it had when it was built'
prove
head -c 20 "$file" >"$room/half" && cat "$room/half" >"$file"
is_not_run 'half of a program' 'it has not the sum'
prove
sed -i 's/^sources: ./sources: x/' "$sums"
is_not_run 'sums of other sources' 'its sums are those of other sources'
prove
mv "$file" "$room/work/away" && ln -s "$room/work/away" "$file"
is_not_run 'a link to the very program' 'it is a link'
expect 'what it led to is left alone' grep -q more "$room/work/away"
prove
mv "$sums" "$room/work/away" && ln -s "$room/work/away" "$sums"
is_not_run 'a link to its sums' 'no sums lie beside it'
expect 'what it led to is left alone' grep -q kit-1 "$room/work/away"
prove
rm "$file" && mkdir "$file" && touch "$file/within"
is_not_run 'a folder' 'it is a link, or in a folder that is one, or no file'
prove
rm "$file" && mkdir "$room/work/elsewhere" && ln -s "$room/work/elsewhere" "$file"
is_not_run 'a link to a folder' 'it is a link'
expect 'nothing is put where it led' [ -z "$(ls "$room/work/elsewhere")" ]
prove
chmod 644 "$file"
is_not_run 'a program without the right to be run' 'it has no right to be run'

begin
release && run --prove && plant "$(built)"
run check model
expect 'a released program runs in the place of one that is not run' wrote 'one more main'
expect 'and it is said why' said 'the program that lies in .ivycheck/ is not run: it has not the sum'

prove
mv "$repo/.ivycheck" "$room/work/away" && ln -s "$room/work/away" "$repo/.ivycheck"
run check model
expect 'nothing runs from a folder that is a link' ended 70
expect 'nothing runs from a folder that is a link' said 'in a folder that is one'
run --prove check model
expect 'nor is one written to' ended 70
expect 'nor is one written to' said_once "$repo/.ivycheck is a link, and links are not followed there"

begin
release
mkdir "$repo/.ivycheck" && echo mine >"$room/work/mine"
for name in build.log begun new said-ivycheck; do ln -s "$room/work/mine" "$repo/.ivycheck/$name"; done
run check model
expect 'what runs is said past a link' said_once 'this is the released program'
run --prove check model
expect 'a build runs past links' wrote 'one more main'
expect 'and none is written through' grep -qx mine "$room/work/mine"
ln -sf "$room/work/mine" "$repo/.ivycheck/lock"
run --prove check model
expect 'a lock that is a link is told' said_once "$repo/.ivycheck/lock is a link, or no file: remove it"
expect 'a lock that is a link is told' ended 70

# The folder of the clone has any name, and the program is called by its own. A program that shows how it is called is
# `cat` on /proc/self/cmdline; a file `check` gives the answer that is asked of it first.
lf='
'
is_called_as() { [ "$(tail -n 1 "$room/out" | tr '\0' '|')" = "$1|check|/proc/self/cmdline|" ]; }
call_in() {
    begin
    release
    cp "$(command -v cat)" "$repo/release/ivycheck"
    sed -i "s/^program: .*/program: $(sha256sum <"$repo/release/ivycheck" | cut -c 1-64)/" "$repo/release/SUMS"
    echo 'verdict: inductive' >"$room/work/check"
    mv "$repo" "$room/work/$2" && repo=$room/work/$2
    run check /proc/self/cmdline
    expect "$1: the program runs" ended 0
    expect "$1: it is called by its own name" is_called_as "${3:-ivycheck}"
    run --prove check model
    expect "$1: it is proved and built too" wrote 'one more main <check> <model>'
    "$repo/bench/release.sh" --check >"$room/out" 2>"$room/err"
    expect "$1: the release is looked at too" said 'is not the program that was built'
    repo=$room/repo
}

call_in 'a folder whose name is no UTF-8' "$(printf 'name\377')"
call_in 'a folder whose name ends in line feeds' "name$lf$lf"
call_in 'a folder that PATH cannot name' "$(printf '50%%:name\377')" /proc/self/fd/8
call_in 'a folder whose name begins with -' '-n a=b'

# `ivyview` is a link, and so may be what leads to it.
begin
ln -s ivycheck "$repo/ivyview"
called_as() { "$1" check model 2>&1 | grep -q "^$2: "; }
ln -s "$repo/ivyview" iv
ln -s iv i,v
mkdir -p over && ln -s ../i,v over/v
ln -s "$repo/ivycheck" ic
ln -s "$repo/ivyview" ivycheck
expect 'a link to ivyview is ivyview' called_as ./iv ivyview
expect 'and a link to that link' called_as ./i,v ivyview
expect 'from another folder too' called_as over/v ivyview
expect 'a link to ivycheck is ivycheck' called_as ./ic ivycheck
expect 'of two names the first counts' called_as ./ivycheck ivycheck

# Tools that are not there are named in one line.
lack() {
    mkdir -p "$room/few"
    rm -f "$room/few"/*
    for tool in sh readlink sha256sum awk find sort cut sed grep cat flock cmp cp mv rm mkdir wc rt; do
        case " $1 " in *" $tool "*) ;; *) ln -s "$(command -v "$tool")" "$room/few/$tool" ;; esac
    done
    shift
    plain=$PATH
    PATH=$room/few
    run "$@"
    PATH=$plain
}
begin
release
lack '' check model
expect 'these tools are enough' wrote 'one more main'
rm -r "$repo/.ivycheck"
lack 'sha256sum' check model
expect 'a tool that is not there is named' said_once 'ivycheck: this needs what is not on the PATH: sha256sum'
expect 'a tool that is not there is named' ended 70
lack 'readlink awk' --which
expect 'so are two' said_once 'this needs what is not on the PATH: readlink awk'
lack 'flock' --prove
expect 'so is one that a build takes' said_once 'this needs what is not on the PATH: flock'
lack 'flock' check model
expect 'and a build alone' wrote 'one more main'
lack 'rt' --prove
expect 'so is rt' said_once 'there is no working command rt on the PATH'
rm "$repo/crates.txt"
run check model
expect 'a clone without its list of crates is told in one line' said_once 'there is no crates.txt to be read in'
expect 'a clone without its list of crates is told in one line' ended 70
begin
broken_sum() { printf '#!/bin/sh\nexit 1\n' >"$room/bin/sha256sum" && chmod +x "$room/bin/sha256sum"; }
release && broken_sum
run check model
rm "$room/bin/sha256sum"
expect 'sources that cannot all be read have no sum' said_once 'cannot all be read'
expect 'sources that cannot all be read have no sum' ended 70

is_checked() { "$repo/bench/release.sh" --check >"$room/out" 2>"$room/err"; }
is_no_release() { ! is_checked && said "$1"; }
built_by_rt() { (cd "$repo/crates/ivycheck" && rt run); }

begin
release && built_by_rt
expect 'a release of these sources and this program is taken' is_checked
echo '# one line more' >>"$repo/crates/ivycheck/out/ivycheck"
expect 'one that is another than what was built is not' is_no_release 'is not the program that was built'
built_by_rt && echo kit-2 >"$FAKE/version"
expect 'nor one of another kit' is_no_release 'is not of these sources, this kit and this program'
echo kit-1 >"$FAKE/version" && echo '# a comment' >>"$repo/crates.txt"
expect 'nor one of other sources' is_no_release 'is not of these sources, this kit and this program'
begin
tampered && built_by_rt
expect 'nor a tampered one' is_no_release 'is not the program that was built'
begin
release && built_by_rt && rm "$repo/release/README.md"
expect 'nor one without its page' is_no_release 'release/README.md is not there'
begin
release && expect 'nor where nothing was built' is_no_release 'there is no program'

echo "$passed passed, $failed failed"
[ "$failed" = 0 ]
