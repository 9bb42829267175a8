#!/usr/bin/env bash
# Refuses each request for memory of whole runs of the program, one in each run, and looks at what was answered and at what the store has afterwards.
#
# The program gets its memory from the C library. A small library that is written and compiled here stands before that, counts the requests
# and refuses the one with the number that it is told. The runs are these, each over a copy of its store, with one request refused that is the
# first, then the second, and so on up to a run in which none is left to be refused:
#
#   lines     a script that makes an array, a blob and a table in three commits, aborts a change, and lists the keys and the names;
#   reopen    the same two lists over a store whose last run was ended in the middle, so that opening has changes to take back;
#   dump      the objects of the same store, written;
#   check     what they come to;
#   init      a new store in a folder that isn't there;
#   gen       a workload.
#
# A run ends with status 3 and its text, or with status 4 and its text where a path had no memory, and has answered no line; or with
# status 0, and then one of its lists, and nothing else, is answered `error memory`, or all is as ever, where the program could do without. The store
# opens afterwards with what was acknowledged: with all three commits where the status is 0, and with what it had before where no line was
# answered. A `dump` or a `check` ends so too, and has written a front of its text, all of it with status 0. After an `init` the folder has a store, or one can
# be made there.
#
# It wants a C compiler; where none is there it says so and is skipped. It prints a line for each kind of run, and ends with 0 only where all went as
# they should. The word: how many runs at a time (as many as there are processors).
set -u
top="$(cd "$(dirname "$(readlink -f "${BASH_SOURCE[0]}")")/.." && pwd)"
program="$top/crates/sg_main/out/sg_main"
jobs="${1:-$(nproc)}"
if ! [ -x "$program" ]; then
    echo "each request: FAILED: $program isn't built"
    exit 1
fi
compiler="$(command -v cc || command -v clang || command -v gcc)" || {
    echo "each request: skipped: no C compiler is there"
    exit 0
}
work="$(mktemp -d)"
trap 'rm -rf "$work"' EXIT

# What stands before the C library. It says on standard error that it has refused.
cat >"$work/refuse.c" <<'CODE'
#include <errno.h>
#include <stddef.h>
#include <stdlib.h>
#include <unistd.h>

void *__libc_malloc(size_t size);
void *__libc_realloc(void *held, size_t size);

static unsigned long asked, refused;

__attribute__((constructor)) static void begin(void) {
    const char *number = getenv("REFUSED_REQUEST");
    refused = number == NULL ? 0 : strtoul(number, NULL, 10);
    asked = 0;
}

static int is_refused(void) {
    static const char said[] = "a request was refused\n";
    if (++asked != refused) return 0;
    if (write(2, said, sizeof said - 1) < 0) _exit(99);
    errno = ENOMEM;
    return 1;
}

void *malloc(size_t size) { return is_refused() ? NULL : __libc_malloc(size); }

void *realloc(void *held, size_t size) { return is_refused() ? NULL : __libc_realloc(held, size); }
CODE
"$compiler" -shared -fPIC -O1 -o "$work/refuse.so" "$work/refuse.c" || exit 1

cat >"$work/lines" <<'LINES'
t begin
t make array a 1
t push a x:00
t commit
u begin
u make blob b
u write b 0 hello
u commit
v begin
v make table t
v put t a x:
v put t b x:c3a9
v put t c x:783a79
v commit
w begin
w push a x:01
w abort
s begin
s keys t
s list
LINES
printf '%s\n' ok ok 'ok 0' ok ok ok ok ok ok ok 'ok new' 'ok new' 'ok new' ok ok 'ok 1' ok ok 'ok 3 a b c' 'ok 3 a b t' >"$work/lines-replies"
printf '%s\n' 's begin' 's keys t' 's list' >"$work/reopen"
printf '%s\n' ok 'ok 3 a b c' 'ok 3 a b t' >"$work/reopen-replies"

# What reads all objects, what it is answered where they are there, and where there is none.
printf '%s\n' 's begin' 's list' 's len a' 's get a 0' 's len b' 's read b 0 5' 's keys t' 's find t a' 's find t b' 's find t c' >"$work/look"
printf '%s\n' ok 'ok 3 a b t' 'ok 1' 'ok x:00' 'ok 5' 'ok hello' 'ok 3 a b c' 'ok x:' 'ok x:c3a9' 'ok x:783a79' >"$work/all"
printf '%s\n' ok 'ok 0' 'error no-object' 'error no-object' 'error no-object' 'error no-object' 'error no-object' 'error no-object' \
    'error no-object' 'error no-object' >"$work/nothing"

# Says what is wrong with the run of this number, and ends it.
wrong() {
    echo "  $1: $2" >"$at/wrong"
    exit
}

# What the store in the folder answers to a look.
looks_as() {
    "$program" run "$at/store" <"$work/look" >"$at/looked" 2>&1 || wrong "$number" "the store doesn't open afterwards: $(tail -n 1 "$at/looked")"
    cmp -s "$at/looked" "$work/$1" || wrong "$number" "the store has afterwards: $(tr '\n' ',' <"$at/looked")"
}

# Whether the replies are as ever.
is_as_ever() {
    cmp -s "$work/$kind-replies" "$at/replies"
}

# Whether the replies are those of the script, but for one list that is answered `error memory`.
is_list_refused() {
    local differing
    differing="$(diff "$work/$kind-replies" "$at/replies")"
    [ "$(grep -c '^>' <<<"$differing")" -eq 1 ] && grep -qx '> error memory' <<<"$differing" && grep -qx '< ok 3 a b [ct]' <<<"$differing"
}

# Leaves in $outcome how a run with status 0 answered.
judge_replies() {
    outcome="as ever"
    is_as_ever && return
    outcome="error memory"
    is_list_refused || wrong "$number" "status 0, and these replies: $(tr '\n' ',' <"$at/replies")"
}

# Judges a run over a store by its status, its text and its replies, and leaves of which kind the answer was in $outcome.
judge_run() {
    case "$status $text" in
    "0 ")
        judge_replies
        looks_as all
        ;;
    "3 stasis: out of memory" | "4 stasis: disk fault")
        [ -s "$at/replies" ] && wrong "$number" "status $status, and these replies: $(tr '\n' ',' <"$at/replies")"
        outcome="status $status"
        looks_as "$before"
        ;;
    *) wrong "$number" "status $status, and this text: $text" ;;
    esac
}

# Judges a look at the objects of a store.
judge_look() {
    case "$status $text" in
    "0 ")
        is_as_ever || wrong "$number" "status 0, and it writes: $(tr '\n' ',' <"$at/replies")"
        outcome="as ever"
        ;;
    "3 stasis: out of memory" | "4 stasis: disk fault")
        cmp -s -n "$(stat -c %s "$at/replies")" "$work/$kind-replies" "$at/replies" || wrong "$number" "status $status, and it writes: $(tr '\n' ',' <"$at/replies")"
        outcome="status $status"
        ;;
    *) wrong "$number" "status $status, and this text: $text" ;;
    esac
    looks_as all
}

# Judges the making of a store. Where it isn't there, it can be made.
judge_init() {
    case "$status $text" in
    "0 ")
        is_as_ever || wrong "$number" "status 0, and it says $(cat "$at/replies")"
        outcome="as ever"
        ;;
    "3 stasis: out of memory" | "4 stasis: disk fault")
        [ -s "$at/replies" ] && wrong "$number" "status $status, and it says $(cat "$at/replies")"
        outcome="status $status"
        ;;
    *) wrong "$number" "status $status, and this text: $text" ;;
    esac
    "$program" init "$at/store" </dev/null >"$at/again" 2>&1
    case "$? $(cat "$at/again")" in
    "0 ok" | "10 stasis: store exists") ;;
    *) wrong "$number" "no store can be made afterwards: $(cat "$at/again")" ;;
    esac
    looks_as nothing
}

# Judges a workload.
judge_gen() {
    case "$status $text" in
    "0 ")
        is_as_ever || wrong "$number" "status 0, and it writes $(wc -l <"$at/replies") lines"
        outcome="as ever"
        ;;
    "3 stasis: out of memory")
        [ -s "$at/replies" ] && wrong "$number" "status 3, and it writes $(wc -l <"$at/replies") lines"
        outcome="status 3"
        ;;
    *) wrong "$number" "status $status, and this text: $text" ;;
    esac
}

# Runs the program with the request of this number refused, and judges it. Leaves `end` where none was refused, and else how it was answered.
run_refusing() {
    local status text outcome=""
    at="$work/$kind.$number"
    mkdir "$at"
    [ -z "$before" ] || cp -r "$work/$kind-store" "$at/store"
    case "$kind" in
    init) set -- init "$at/store" ;;
    gen) set -- gen 7 20 ;;
    dump | check) set -- "$kind" "$at/store" ;;
    *) set -- run "$at/store" ;;
    esac
    LD_PRELOAD="$work/refuse.so" REFUSED_REQUEST="$number" "$program" "$@" <"$work/$kind" >"$at/replies" 2>"$at/said"
    status=$?
    if ! grep -qx "a request was refused" "$at/said"; then
        outcome=end
        is_as_ever || wrong "$number" "without a refusal it answers: $(tr '\n' ',' <"$at/replies")"
    else
        text="$(grep -vx "a request was refused" "$at/said")"
        case "$kind" in
        init) judge_init ;;
        gen) judge_gen ;;
        dump | check) judge_look ;;
        *) judge_run ;;
        esac
    fi
    echo "$outcome" >"$work/$kind.$number.outcome"
    rm -rf "$at"
}

# Refuses each request of one kind of run. The word behind: what its store shows before, or nothing where it has none.
refuse_each() {
    local kind="$1" before="$2" number=0 first
    while ! grep -qsx end "$work/$kind".*.outcome && ! compgen -G "$work/$kind.*/wrong" >/dev/null; do
        first=$((number + 1))
        while [ "$number" -lt $((first + jobs - 1)) ]; do
            number=$((number + 1))
            (run_refusing) &
        done
        wait
    done
    if compgen -G "$work/$kind.*/wrong" >/dev/null; then
        cat "$work/$kind".*/wrong
        echo "each request, $kind: FAILED"
        failures=$((failures + 1))
        return
    fi
    echo "each request, $kind: ok: $(cat "$work/$kind".*.outcome | grep -vx end | sort | uniq -c | sed 's/^ *//' | paste -sd ',' | sed 's/,/, /g')"
    [ "$(cat "$work/$kind".*.outcome | grep -cvx end)" -gt 0 ] || failures=$((failures + 1))
}

# Ends a run over the store of `reopen` by a signal, once the log has a change of each object by a transaction that is live.
end_in_the_middle() {
    local answer running
    mkfifo "$work/to" "$work/from"
    "$program" run "$work/reopen-store" <"$work/to" >"$work/from" &
    running=$!
    exec 3>"$work/to" 4<"$work/from"
    printf '%s\n' 'x begin' 'x push a x:02' 'x write b 3 xyz' 'x put t d v' 'x del t a' 'x drop b' 'y begin' 'y commit' >&3
    for _ in 1 2 3 4 5 6 7 8; do
        read -r -t 60 answer <&4 || return 1
    done
    kill -9 "$running"
    wait "$running" 2>/dev/null
    exec 3>&- 4<&-
    [ "$answer" = ok ]
}

failures=0
: >"$work/init"
: >"$work/gen"
: >"$work/dump"
: >"$work/check"
printf '%s\n' 'array a 1 1' ' 0 x:00' 'blob b 5' ' 0 x:68656c6c6f' 'table t 3' ' a x:' ' b x:c3a9' ' c x:783a79' 'objects 3' >"$work/dump-replies"
echo 'objects 3 items 1 entries 3 bytes 5 sum 1489' >"$work/check-replies"
echo ok >"$work/init-replies"
"$program" gen 7 20 >"$work/gen-replies" || exit 1
"$program" init "$work/lines-store" <"$work/init" >"$work/made" || exit 1
cp -r "$work/lines-store" "$work/reopen-store"
"$program" run "$work/reopen-store" <"$work/lines" >"$work/made" || exit 1
end_in_the_middle || exit 1
cp -r "$work/reopen-store" "$work/dump-store"
cp -r "$work/reopen-store" "$work/check-store"
refuse_each gen ""
refuse_each init ""
refuse_each lines nothing
refuse_each reopen all
refuse_each dump all
refuse_each check all
[ "$failures" -eq 0 ]
