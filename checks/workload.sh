#!/usr/bin/env bash
# Shows that two runs of one drawn workload do the same: a script of 20,000 lines, by three transactions over an array, a table and a blob, over a new store of 4,096
# pages and 16 bands of which 32 pages and 4 bands are in memory at a time.
#
# Both runs end with status 0 and write the same replies, one to each line. Afterwards the two stores have the same objects by `dump`, `check` ends with
# status 0 and says of both what another program adds up from that text, and the home areas and logs are the same bytes.
#
# It runs the program that the gate or ./stasis has built, prints a line for each case, and ends with 0 only where all went as they should.
set -u
top="$(cd "$(dirname "$(readlink -f "${BASH_SOURCE[0]}")")/.." && pwd)"
program="$top/crates/sg_main/out/sg_main"
if ! [ -x "$program" ]; then
    echo "workload: FAILED: $program isn't built"
    exit 1
fi
work="$(mktemp -d)"
trap 'rm -rf "$work"' EXIT
failures=0

# Says how a case went, and counts a failure.
report() {
    [ "$2" = ok ] || failures=$((failures + 1))
    echo "workload, $1: $2"
}

# Runs the program's words, with standard input from the first file and the replies to the second. Whatever it says or ends with but 0 is a failure.
runs() {
    local from="$1" to="$2"
    shift 2
    "$program" "$@" <"$from" >"$to" 2>"$work/said" && ! [ -s "$work/said" ] && return 0
    echo "  $1: status $?, and it says $(cat "$work/said")"
    return 1
}

# Makes a store and runs the workload over it, and writes what is there afterwards.
run_workload() {
    local store="$work/store-$1"
    runs /dev/null "$work/made" init "$store" --geometry "$work/sizes" || return 1
    runs "$work/script" "$work/replies-$1" run "$store" || return 1
    runs /dev/null "$work/objects-$1" dump "$store" || return 1
    runs /dev/null "$work/sum-$1" check "$store"
}

# Whether both runs left the same under this name, a file or a folder of files.
are_same() {
    diff -rq "$work/$1-a" "$work/$1-b"
}

# Adds up the text of objects: the bytes of items, of keys and values, and of blobs.
sum_of() {
    awk '
        function bytes_of(word,    i, sum) {
            sum = 0
            if (word ~ /^x:/)
                for (i = 3; i < length(word); i += 2)
                    sum += 16 * (index(digits, substr(word, i, 1)) - 1) + index(digits, substr(word, i + 1, 1)) - 1
            else
                for (i = 1; i <= length(word); i++) sum += code[substr(word, i, 1)]
            return sum
        }

        BEGIN {
            digits = "0123456789abcdef"
            for (i = 32; i < 127; i++) code[sprintf("%c", i)] = i
        }

        $1 == "array" && !/^ / { kind = $1; objects++; items += $4 }
        $1 == "table" && !/^ / { kind = $1; objects++; entries += $3 }
        $1 == "blob" && !/^ / { kind = $1; objects++; bytes += $3 }
        /^ / {
            if (kind == "table") sum += bytes_of($1)
            sum += bytes_of($2)
        }
        END { printf "objects %d items %d entries %d bytes %d sum %d\n", objects, items, entries, bytes, sum }
    ' "$1"
}

printf '%s\n' 'pages = 4096' 'bands = 16' 'frames = 32' 'windows = 4' >"$work/sizes"
verdict=ok
runs /dev/null "$work/script" gen 7 20000 || verdict=FAILED
for name in a b; do
    run_workload "$name" || verdict=FAILED
done
report "two runs" "$verdict"

verdict=ok
are_same replies || verdict=FAILED
[ "$(wc -l <"$work/replies-a")" -eq "$(wc -l <"$work/script")" ] || verdict=FAILED
report "$(wc -l <"$work/replies-a") replies" "$verdict"

verdict=ok
are_same objects || verdict=FAILED
are_same sum || verdict=FAILED
[ "$(cat "$work/sum-a")" = "$(sum_of "$work/objects-a")" ] || verdict=FAILED
report "$(cat "$work/sum-a")" "$verdict"

verdict=ok
are_same store || verdict=FAILED
report "the files of the stores" "$verdict"
[ "$failures" -eq 0 ]
