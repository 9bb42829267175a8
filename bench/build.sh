#!/usr/bin/env bash
# Measures how long the proved build of the program takes from nothing: crate by crate, as `rt run` does it by itself, and side by side,
# as `./stasis` does it. It prints a row for each, with the minutes on the clock and those of the processors.
#
#   bench/build.sh
#
# Both run one after the other, over copies of the files as they stand, with as many jobs as there are processors (RT_JOBS says fewer for the
# second way), and take nothing that was kept on this machine (bench/kit.sh). On a machine whose processors others use too the clock says more than the
# build needs: compare the two rows of one run alone.
set -u
top="$(cd "$(dirname "$(readlink -f "${BASH_SOURCE[0]}")")/.." && pwd)"
# shellcheck source=bench/kit.sh
. "$top/bench/kit.sh"
room="$(mktemp -d)"
trap 'rm -rf "$room"' EXIT

# Builds the program in a copy of the files, by a kit in which nothing is kept, and prints what the build took.
measure() {
    local way="$1"
    shift
    lay_kit "$room/$way"
    mkdir -p "$room/$way/copy"
    (cd "$top" && git ls-files -z | xargs -0 cp --parents -t "$room/$way/copy")
    mkdir -p "$room/$way/copy/crates/sg_main/out"
    (cd "$room/$way/copy/crates/sg_main" && PATH="$room/$way/rattle/bin:$PATH" /usr/bin/time -o "$room/$way/took" -f '%e %U %S' "$@") \
        </dev/null >"$room/$way/said" 2>&1
    if ! [ -x "$room/$way/copy/crates/sg_main/out/sg_main" ]; then
        tail -n 5 "$room/$way/said"
        echo "$way: not built"
        exit 1
    fi
    tail -n 1 "$room/$way/took" | awk -v way="$way" '{ printf "| %s | %.1f | %.1f |\n", way, $1 / 60, ($2 + $3) / 60 }'
    rm -rf "${room:?}/$way"
}

echo "| build from nothing | minutes | of processor |"
echo "|---|---|---|"
measure one_by_one rt run
measure side_by_side ../../tools/build.py sg_main "$room/side_by_side/log"
