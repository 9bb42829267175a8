#!/usr/bin/env bash
# Shows that two programs on one folder don't destroy each other's commits: the one that has the folder keeps it to its
# end, and the other ends with the fault of the disk, status 4, has read and written nothing, and acknowledged nothing.
#
# First in a fixed order, with a program that waits for its next line while another runs, and with one that makes a store while
# another does. Then many pairs that are started at once, over new stores and over old ones:
# each pair ends with one store that holds all that was acknowledged, and nothing of a program that was refused.
#
# It runs the program that the gate or ./stasis has built, prints a line for each case, and ends with 0 only where all
# went as they should. The word: how many pairs of each kind are started (40).
set -u
top="$(cd "$(dirname "$(readlink -f "${BASH_SOURCE[0]}")")/.." && pwd)"
program="$top/crates/sg_main/out/sg_main"
pairs="${1:-40}"
if ! [ -x "$program" ]; then
    echo "two programs: FAILED: $program isn't built"
    exit 1
fi
work="$(mktemp -d)"
trap 'rm -rf "$work"' EXIT
failures=0

# Five commits, each of one more item of the array of this name.
commits_of() {
    local name="$1" item
    echo "x begin"
    echo "x make array $name 2"
    for item in 10 11 12 13 14; do
        [ "$item" = 10 ] || echo "x begin"
        echo "x push $name $item"
        echo "x commit"
    done
}

# What reads these items.
reads_of() {
    local name="$1" index
    echo "x begin"
    for index in 0 1 2 3 4; do
        echo "x get $name $index"
    done
}

all_done="$(printf 'ok\nok\nok 0\nok\nok\nok 1\nok\nok\nok 2\nok\nok\nok 3\nok\nok\nok 4\nok')"
all_there="$(printf 'ok\nok 10\nok 11\nok 12\nok 13\nok 14')"
none_there="$(printf 'ok\nerror no-object\nerror no-object\nerror no-object\nerror no-object\nerror no-object')"

# Compares one thing with what it should be.
compare() {
    local what="$1" given="$2" expected="$3"
    [ "$given" = "$expected" ] && return 0
    printf '  %s: expected:\n%s\n  given:\n%s\n' "$what" "$expected" "$given"
    return 1
}

# What the store answers of the items of this name.
items_in() {
    reads_of "$2" | "$program" run "$1" 2>&1
}

# Says how a case went, and counts a failure.
report() {
    [ "$2" = ok ] || failures=$((failures + 1))
    echo "two programs, $1: $2"
}

# Makes a store in a folder.
make_store() {
    "$program" init "$1" >"$work/replies" 2>"$work/said" </dev/null
}

# Starts a program that waits for lines on 3 and answers on 4.
start_waiting() {
    rm -f "$work/lines" "$work/answers"
    mkfifo "$work/lines" "$work/answers"
    "$program" run "$1" <"$work/lines" >"$work/answers" 2>"$work/said-waiting" &
    waiting=$!
    exec 3>"$work/lines" 4<"$work/answers"
}

# Gives the waiting program a line, and compares its answer.
ask() {
    local answer
    echo "$1" >&3
    read -r -t 20 answer <&4
    compare "answer to $1" "$answer" "$2"
}

# Ends the waiting program, and compares its status.
end_waiting() {
    exec 3>&-
    wait "$waiting"
    local status=$?
    exec 4<&-
    compare "status of the waiting one" "$status" "$1"
}

# A program that has opened a store keeps it: one that only reads, or only looks at the objects, is refused, and later finds what was committed.
one_waits_on_a_store() {
    local store="$work/held" status word
    make_store "$store"
    commits_of a | "$program" run "$store" >"$work/replies"
    start_waiting "$store"
    ask "x begin" ok || return 1
    reads_of a | "$program" run "$store" >"$work/replies" 2>"$work/said"
    status=$?
    compare status "$status" 4 || return 1
    compare replies "$(cat "$work/replies" "$work/said")" "stasis: disk fault" || return 1
    for word in dump check; do
        "$program" "$word" "$store" >"$work/replies" 2>"$work/said" </dev/null
        status=$?
        compare "status of $word" "$status" 4 || return 1
        compare "what $word says" "$(cat "$work/replies" "$work/said")" "stasis: disk fault" || return 1
    done
    ask "x set a 0 20" ok || return 1
    ask "x commit" ok || return 1
    end_waiting 0 || return 1
    compare items "$(items_in "$store" a)" "${all_there/10/20}"
}

# Of two that make a store at once in one folder, one is refused, or finds that there is a store: and what is left is one.
two_make_a_store() {
    local store="$work/unmade" first second
    "$program" init "$store" >"$work/replies-a" 2>"$work/said-a" </dev/null &
    first=$!
    "$program" init "$store" >"$work/replies-b" 2>"$work/said-b" </dev/null &
    second=$!
    wait "$first"
    first=$?
    wait "$second"
    second=$?
    case "$first $second" in
    "0 4" | "4 0" | "0 10" | "10 0") ;;
    *)
        compare statuses "$first and $second" "0, and 4 or 10"
        return 1
        ;;
    esac
    commits_of a | "$program" run "$store" >"$work/replies"
    compare replies "$(cat "$work/replies")" "$all_done"
}

# Judges one program of a pair: by its status all of its commits were acknowledged, or none of them.
judge_one() {
    local store="$1" name="$2" status="$3"
    case "$status" in
    0)
        compare "replies of $name" "$(cat "$work/replies-$name")" "$all_done" || return 1
        compare "items of $name" "$(items_in "$store" "$name")" "$all_there"
        ;;
    4)
        compare "text of $name" "$(cat "$work/said-$name")" "stasis: disk fault" || return 1
        compare "items of $name" "$(items_in "$store" "$name")" "$none_there"
        ;;
    *)
        compare "status of $name" "$status" "0 or 4"
        ;;
    esac
}

# Starts two programs at once on this folder, and judges the store that they leave.
try_pair() {
    local store="$1" first second
    "$program" run "$store" <"$work/script-a" >"$work/replies-a" 2>"$work/said-a" &
    first=$!
    "$program" run "$store" <"$work/script-b" >"$work/replies-b" 2>"$work/said-b" &
    second=$!
    wait "$first"
    first=$?
    wait "$second"
    second=$?
    [ "$first" -eq 0 ] && [ "$second" -eq 0 ] || refused=$((refused + 1))
    if [ "$first" -ne 0 ] && [ "$second" -ne 0 ]; then
        compare "statuses" "$first and $second" "one 0 at least"
        return 1
    fi
    judge_one "$store" a "$first" && judge_one "$store" b "$second"
}

# Tries many pairs over copies of this store.
try_pairs() {
    local kind="$1" verdict=ok refused=0 number
    for ((number = 0; number < pairs; number++)); do
        rm -rf "$work/store"
        cp -r "$work/$kind" "$work/store"
        try_pair "$work/store" || verdict=FAILED
        compare "items from before" "$(items_in "$work/store" old)" "$2" || verdict=FAILED
    done
    report "$pairs pairs on copies of the $kind store, $refused with one refused" "$verdict"
}

verdict=ok
one_waits_on_a_store || verdict=FAILED
report "one that waits on a store" "$verdict"
verdict=ok
two_make_a_store || verdict=FAILED
report "two that make a store" "$verdict"
make_store "$work/new"
cp -r "$work/new" "$work/old"
commits_of old | "$program" run "$work/old" >"$work/replies"
commits_of a >"$work/script-a"
commits_of b >"$work/script-b"
try_pairs new "$none_there"
try_pairs old "$all_there"
[ "$failures" -eq 0 ]
