#!/usr/bin/env bash
# Measures Stasis beside SQLite, LMDB and Berkeley DB, on the same scripts in one run: commits of one change with syncs and without, one great transaction,
# finds, data that exceed the memory for pages ten times, and openings after a crash by the length of the log. It prints a table, whose columns are parted by
# tabs; `plot.py` makes drawings and the rows of docs/PERFORMANCE.md of it.
#
# The other libraries are run by small programs in C (peers/), which read the same lines as `stasis run` and write the same replies, one by one; that the
# replies are the same is looked at. It wants python3, cc, and the headers of the three libraries, which no other part of the repository does:
#
#   apt-get install libsqlite3-dev liblmdb-dev libdb-dev strace      # strace counts the syncs; without it they aren't counted
#
#   bench/peers.sh [PROGRAM]      PROGRAM is a program `stasis` that is built; without it the one of this repository, which is built where it must
#
# What is synced stands where TMPDIR says, which has to be a disk, and what costs no sync in /dev/shm.
set -eu
here="$(cd "$(dirname "$(readlink -f "${BASH_SOURCE[0]}")")" && pwd)"
disk="$(mktemp -d)"
memory="$(mktemp -d -p /dev/shm)"
trap 'rm -rf "$disk" "$memory"' EXIT

# Builds the program where it must, outside of what is measured.
program="${1:-$here/../crates/sg_main/out/sg_main}"
if [ $# -eq 0 ]; then "$here/../stasis" build >&2; fi
for peer in sqlite:sqlite3 lmdb:lmdb berkeley:db; do
    cc -std=gnu11 -O2 -Wall -Wextra -o "$disk/${peer%:*}" "$here/peers/script.c" "$here/peers/${peer%:*}.c" "-l${peer#*:}"
done
python3 "$here/peers/measure.py" "$program" "$disk" "$memory"
