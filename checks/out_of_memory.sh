#!/usr/bin/env bash
# Shows what the program does where the allocator refuses, which no test can show: a test has no allocator that does.
# `rt try` builds the program with an allocator that refuses one request, counted from the start, and runs it with the third
# example over a copy of the store that the first one leaves. Where that is a request for the words, or one of the opening for its own
# tables, the program ends with status 3 and its text, and answers no line. Where it is one of a line, which only a list of
# keys or names makes, this line is answered `error memory`, the later ones as ever, and the status is 0. Where it is one for the
# path of the folder or of a file, a call of the disk has failed: this is a disk fault, status 4, in the opening too. In each case the store is there
# afterwards, with what was committed. checks/each_request.sh refuses every request of a run, where a C compiler is there.
#
# It prints a line for each case, and ends with 0 only where all went as they should. The numbers of the requests for the words and for the
# path are the program's own: where a change of the reading of the words moves them, a case fails, and its number is to be found again. Opening makes
# some hundreds of requests behind these. The last case has a script with a thousand lists more, which ask for memory one behind another, so that its number
# is one of theirs however many opening makes: one of the lists is refused, and the case finds which.
#
# Each case builds the program anew. Where a C compiler is there, checks/each_request.sh refuses these requests and all others in less time, so
# this says so and is skipped, but for the word --always.
set -u
if [ "${1:-}" != --always ] && { command -v cc || command -v clang || command -v gcc; } >/dev/null; then
    echo "out of memory: skipped: a C compiler is there, so checks/each_request.sh refuses these requests and all others"
    exit 0
fi
top="$(cd "$(dirname "$(readlink -f "${BASH_SOURCE[0]}")")/.." && pwd)"
program="$top/crates/sg_main/out/sg_main"
if ! [ -x "$program" ]; then
    echo "out of memory: FAILED: $program isn't built"
    exit 1
fi
work="$(mktemp -d)"
trap 'rm -rf "$work"' EXIT
failures=0
lists=1000
cp "$top/examples/third.txt" "$work/script"
cp "$top/examples/third.txt" "$work/script-of-lists"
for _ in $(seq "$lists"); do echo "v keys h"; done >>"$work/script-of-lists"
"$program" init "$work/store" >"$work/made" </dev/null || exit 1
"$program" run "$work/store" <"$top/examples/first.txt" >"$work/made" || exit 1

# Runs the program on this script with this request refused, and leaves what it gave in $work: replies-N, said-N and the folder
# store-N. Standard error has the program's text, and then how `rt try` saw the run end.
run_refusing() {
    local script="$1" request="$2"
    cp -r "$work/store" "$work/store-$request"
    (cd "$top/crates/sg_main" && rt try --fail-alloc "$request" -- run "$work/store-$request" <"$work/$script") \
        >"$work/replies-$request" 2>"$work/said-$request"
}

# What the store answers afterwards of what the first example committed.
items_after() {
    "$program" run "$work/store-$1" <"$top/examples/second.txt" 2>&1
}

# The program's status, or nothing where it didn't end.
status_of_run() {
    sed -n 's/^run=ended status=\([0-9]*\) .*/\1/p' "$work/said-$1"
}

# Compares one thing that a run gave with what it should be.
compare() {
    local what="$1" given="$2" expected="$3"
    [ "$given" = "$expected" ] && return 0
    printf '  %s: expected:\n%s\n  given:\n%s\n' "$what" "$expected" "$given"
    return 1
}

# Judges the run with this request refused: its status, its text, its replies, and what the store has afterwards.
judge() {
    local name="$1" request="$2" status="$3" text="$4" replies="$5" verdict=ok
    compare status "$(status_of_run "$request")" "$status" || verdict=FAILED
    compare text "$(grep '^stasis: ' "$work/said-$request")" "$text" || verdict=FAILED
    compare replies "$(cat "$work/replies-$request")" "$replies" || verdict=FAILED
    compare items "$(items_after "$request")" "ok
ok xyz
error out-of-range" || verdict=FAILED
    if [ "$verdict" = FAILED ]; then
        cat "$work/said-$request"
        failures=$((failures + 1))
    fi
    echo "out of memory, $name (request $request): $verdict"
}

# What the lines of the third example are answered, with the names behind the last one, and then so many lists of keys.
replies_of() {
    printf '%s\n' ok ok ok "busy t" ok "ok new" ok "ok xyz" ok ok "ok 1 k" "ok 2 a h"
    for _ in $(seq "$1"); do echo "ok 1 k"; done
}

# Puts in the place of the one list behind the example's lines that was refused what such a list answers. Fails where none was.
put_back_list() {
    local refused
    refused="$(grep -nx "error memory" "$work/replies-$1" | cut -d : -f 1)"
    [[ "$refused" =~ ^[0-9]+$ ]] && [ "$refused" -gt 12 ] && sed -i "${refused}s/.*/ok 1 k/" "$work/replies-$1"
}

# The first two are requests for the words and for reading them, the third that for the folder's path, the fourth one of the opening,
# and the last one is in the midst of the lists.
words=2 reading=60 path=115 opening=300 list=1200
for request in $words $reading $path $opening; do
    run_refusing script "$request" &
done
run_refusing script-of-lists $list &
wait
put_back_list $list || {
    echo "  no list is answered error memory, or two are"
    failures=$((failures + 1))
}

judge "at the words" $words 3 "stasis: out of memory" ""
judge "at the reading of the words" $reading 3 "stasis: out of memory" ""
judge "at the folder's path" $path 4 "stasis: disk fault" ""
judge "in the opening" $opening 3 "stasis: out of memory" ""
judge "in a line that lists keys" $list 0 "" "$(replies_of "$lists")"
[ "$failures" -eq 0 ]
