#!/usr/bin/env bash
# Measures what the merge gate takes, crate by crate, in minutes of processor, and writes it into bench/gate.txt: what a crate's proof takes,
# its tests, how many edits it has and what these take, with the kit and the date. A row stands until its crate is measured again. With
# --at the rows are printed alone.
#
#   bench/gate.sh [--at COMMIT] [NAME..]
#
# It runs `rt ci` once, on all processors, over a copy of the files as they stand, or as they stood at the commit: over all crates, or over
# those that are named and those below them. So what is measured is what the gate does: each crate's proof; where a crate has tests in it, its
# proof once more together with them; a check of the crate over which its must-fail edits are tried, and the edits. The tests of a crate
# of tests are its second column too. What rt itself takes beside the prover, and the tests' runs, are in no row; they are in the last line that it prints.
#
# It measures from nothing, whatever was kept on this machine (bench/kit.sh). The times are those of user and system of all processes of the prover.
# A machine whose processors others use too makes each minute count as more than one: compare only what one machine measured.
set -u
top="$(cd "$(dirname "$(readlink -f "${BASH_SOURCE[0]}")")/.." && pwd)"
# shellcheck source=bench/kit.sh
. "$top/bench/kit.sh"
room="$(mktemp -d)"
copy="$room/copy"
trap 'rm -rf "$room"' EXIT
export GATE_TIMES="$room/times"

# Has each call of the prover write down what it took.
note_calls() {
    local rattle="$room/rattle/bin/rattle" real
    real="$(readlink -f "$rattle")"
    rm "$rattle"
    # shellcheck disable=SC2016
    printf '#!/bin/sh\nexec /usr/bin/time -a -o "$GATE_TIMES" -f "%%U %%S %%C" %s "$@"\n' "$real" >"$rattle"
    chmod +x "$rattle"
}

# The files that are measured.
lay_files() {
    mkdir -p "$copy"
    if [ -n "$commit" ]; then
        git -C "$top" archive "$commit" | tar -x -C "$copy"
    else
        (cd "$top" && git ls-files -z | xargs -0 cp --parents -t "$copy")
    fi
}

# The crates of crates.txt in that folder, in its order.
crate_names() {
    sed -n 's/^\([a-z0-9_]*\)[^#]*:.*/\1/p' "$1/crates.txt"
}

# Adds up what the calls of the prover took, and prints a row for each crate that was measured.
add_up() {
    awk -v names="$(crate_names "$copy" | tr '\n' ' ')" -v kit="$(rt version | cut -d ' ' -f 1)" -v date="$(date -u +%F)" '
        function minutes(seconds) {
            return seconds > 0 ? sprintf("%.1f", seconds / 60) : "-"
        }
        !/^[0-9.]+ [0-9.]+ / { next }
        !/ --crate-name / { next }
        { crate = $0; sub(/.* --crate-name /, "", crate); sub(/ .*/, "", crate); seen[crate] = 1; taken = $1 + $2 }
        / --incremental [^ ]*\/seed( |$)/ { edits[crate] += taken; next }
        / --incremental / { edits[crate] += taken; tried[crate]++; next }
        / --test / { tests[crate] += taken; next }
        { proof[crate] += taken }
        END {
            count = split(names, order, " ")
            for (i = 1; i <= count; i++) {
                crate = order[i]
                if (!(crate in seen)) continue
                printf "%-20s %6s %6s %6d %6s  %-15s %s\n", crate, minutes(proof[crate]), minutes(tests[crate]), tried[crate], minutes(edits[crate]), kit, date
            }
        }' "$GATE_TIMES"
}

# Puts the rows that were measured in the place of the older ones of these crates. The rows stand in the order of crates.txt, and those of
# crates that are gone go.
put_rows() {
    local table="$top/bench/gate.txt" crate row
    grep '^#' "$table" >"$room/table"
    for crate in $(crate_names "$top"); do
        row="$(grep "^$crate " "$room/rows" || grep "^$crate " "$table")" && echo "$row" >>"$room/table"
    done
    cp "$room/table" "$table"
}

commit=""
if [ "${1:-}" = --at ]; then
    commit="$2"
    shift 2
fi
lay_kit "$room"
note_calls
lay_files || exit 1
: >"$GATE_TIMES"
(cd "$copy" && /usr/bin/time -o "$room/whole" -f '%U %S' "$room/rattle/bin/rt" ci "$@") >"$room/said" 2>&1
status=$?
tail -n 1 "$room/said"
add_up | tee "$room/rows"
awk '{ printf "All of it took %.1f minutes.\n", ($1 + $2) / 60 }' "$room/whole"
if [ -z "$commit" ] && [ "$status" -eq 0 ]; then put_rows; fi
exit "$status"
