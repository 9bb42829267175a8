#!/usr/bin/env bash
# Shows that no store is lost where the program begins without a standard stream: the system gives the numbers of
# closed streams to the files that a program opens next, and a store's file under number 1 would get the replies.
#
# Each of the three streams is closed, alone and with others, over a new store and over one that was written to, for the
# program and for ./stasis. A closed standard input is the read fault, status 5, a closed standard output the write
# fault, status 6, and a closed standard error changes nothing but that nothing is said there. A store then still answers, with
# what was committed before and nothing else. A look at its objects reads no standard input, and so takes no harm where that is closed.
#
# It runs the program that the gate or ./stasis has built, prints a line for each case, and ends with 0 only where all
# went as they should.
set -u
top="$(cd "$(dirname "$(readlink -f "${BASH_SOURCE[0]}")")/.." && pwd)"
program="$top/crates/sg_main/out/sg_main"
if ! [ -x "$program" ]; then
    echo "closed streams: FAILED: $program isn't built"
    exit 1
fi
work="$(mktemp -d)"
trap 'rm -rf "$work"' EXIT
failures=0
made="ok
ok
ok 0
ok
ok xyz
ok"
answers="ok
ok xyz
error out-of-range"
none="ok
error no-object
error no-object"
objects="array a 3 1
 0 xyz
objects 1"
sum="objects 1 items 1 entries 0 bytes 0 sum 363"

# Runs a command without the streams of these numbers, and leaves its replies and what it said in $work.
run_without() {
    local numbers="$1"
    shift
    (
        for number in $numbers; do
            case "$number" in
            0) exec <&- ;;
            1) exec >&- ;;
            2) exec 2>&- ;;
            esac
        done
        exec "$@"
    ) <"$work/script" >"$work/replies" 2>"$work/said"
}

# The status that a run without these streams has.
status_without() {
    case " $1 " in
    *" 0 "*) echo 5 ;;
    *" 1 "*) echo 6 ;;
    *) echo 0 ;;
    esac
}

# What a run without these streams says.
text_without() {
    case " $1 " in
    *" 2 "*) ;;
    *" 0 "*) echo "stasis: read fault" ;;
    *" 1 "*) echo "stasis: write fault" ;;
    esac
}

# Compares one thing that a run gave with what it should be.
compare() {
    local what="$1" given="$2" expected="$3"
    [ "$given" = "$expected" ] && return 0
    printf '  %s: expected:\n%s\n  given:\n%s\n' "$what" "$expected" "$given"
    return 1
}

# Judges a run that has ended with this status: its status, its text and its replies.
judge_run() {
    local numbers="$1" status="$2" expected="$3"
    [ "$(status_without "$numbers")" -eq 0 ] || expected=""
    compare status "$status" "$(status_without "$numbers")" || return 1
    compare text "$(cat "$work/said")" "$(text_without "$numbers")" || return 1
    compare replies "$(cat "$work/replies")" "$expected"
}

# A run of the first example over a copy of a new store. What a run that met a fault did has no commit.
try_new() {
    local numbers="$1" expected="$answers"
    cp "$top/examples/first.txt" "$work/script"
    rm -rf "$work/store"
    cp -r "$work/new" "$work/store"
    run_without "$numbers" "$2" run "$work/store"
    judge_run "$numbers" $? "$made" || return 1
    [ "$(status_without "$numbers")" -eq 0 ] || expected="$none"
    compare "later replies" "$("$program" run "$work/store" <"$top/examples/second.txt")" "$expected"
}

# A run of the second example over a copy of the store that the first one wrote to. It still answers.
try_old() {
    local numbers="$1"
    cp "$top/examples/second.txt" "$work/script"
    rm -rf "$work/store"
    cp -r "$work/old" "$work/store"
    run_without "$numbers" "$2" run "$work/store"
    judge_run "$numbers" $? "$answers" || return 1
    compare "later replies" "$("$program" run "$work/store" <"$top/examples/second.txt")" "$answers"
}

# A look at the objects of a copy of the store that the first example wrote to, by one of the two words for that. It still answers.
try_look() {
    local numbers="$1" look="$3" status expected="$4" text="" wanted=0
    case " $numbers " in
    *" 1 "*)
        wanted=6
        expected=""
        [[ " $numbers " = *" 2 "* ]] || text="stasis: write fault"
        ;;
    esac
    : >"$work/script"
    rm -rf "$work/store"
    cp -r "$work/old" "$work/store"
    run_without "$numbers" "$2" "$look" "$work/store"
    status=$?
    compare "status of $look" "$status" "$wanted" || return 1
    compare "text of $look" "$(cat "$work/said")" "$text" || return 1
    compare "what $look writes" "$(cat "$work/replies")" "$expected" || return 1
    compare "later replies" "$("$program" run "$work/store" <"$top/examples/second.txt")" "$answers"
}

# Tries these streams closed, in each way.
try_without() {
    local numbers="$1" verdict=ok
    for command in "$program" "$top/stasis"; do
        try_new "$numbers" "$command" || verdict=FAILED
        try_old "$numbers" "$command" || verdict=FAILED
        try_look "$numbers" "$command" dump "$objects" || verdict=FAILED
        try_look "$numbers" "$command" check "$sum" || verdict=FAILED
    done
    [ "$verdict" = ok ] || failures=$((failures + 1))
    echo "without the streams ${numbers// /, }: status $(status_without "$numbers"): $verdict"
}

"$program" init "$work/new" >"$work/replies" 2>"$work/said" </dev/null || failures=1
cp -r "$work/new" "$work/old"
"$program" run "$work/old" <"$top/examples/first.txt" >"$work/replies" 2>"$work/said" || failures=1
for numbers in "0" "1" "2" "0 1" "0 2" "1 2" "0 1 2"; do
    try_without "$numbers"
done
[ "$failures" -eq 0 ]
