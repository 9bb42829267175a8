#!/usr/bin/env bash
# Looks how long the log of a store under load gets, with the lines `flush`, `checkpoint` and `truncate` behind each so many commits, and without them. Each
# commit puts one of 1,000 keys with 100 bytes into a table. It prints for both how many bytes the log's files took at most, looked at behind each so many
# commits, how many the last time, and the commits in a second by the processor's time.
#
# The words: how many commits there are (20,000 where none is given), and behind how many the three lines come (1,000).
set -eu
top="$(cd "$(dirname "$(readlink -f "${BASH_SOURCE[0]}")")/.." && pwd)"
commits="${1:-20000}"
every="${2:-1000}"
for number in "$commits" "$every"; do
    if ! [[ "$number" =~ ^[1-9][0-9]{0,6}$ ]]; then
        echo "bound.sh: $number is no number from 1 to 9999999" >&2
        exit 2
    fi
done
folder="$(mktemp -d)"
trap 'rm -rf "$folder"' EXIT

# Builds the program where it must, outside of what is measured.
"$top/stasis" build 2>"$folder/said" || {
    cat "$folder/said" >&2
    exit 1
}

python3 - "$top/crates/sg_main/out/sg_main" "$folder" "$commits" "$every" <<'PYTHON'
import os, subprocess, sys

program, folder, commits, every = sys.argv[1], sys.argv[2], int(sys.argv[3]), int(sys.argv[4])
UPKEEP = "flush\ncheckpoint\ntruncate\n"


def ask(process, text):
    """Sends lines, a few hundred at a time, and takes their replies, which are all `ok`."""
    lines = text.encode().splitlines(keepends=True)
    for first in range(0, len(lines), 300):
        part = lines[first : first + 300]
        process.stdin.write(b"".join(part))
        process.stdin.flush()
        for _ in part:
            assert process.stdout.readline().startswith(b"ok")


def log_bytes(store):
    """The bytes of both of the log's files."""
    return sum(os.path.getsize(f"{store}/{name}") for name in ("log0", "log1") if os.path.exists(f"{store}/{name}"))


def measure(name, upkeep):
    """A run over a new store, with these lines behind each so many commits."""
    store = f"{folder}/{name}"
    subprocess.run([program, "init", store], stdin=subprocess.DEVNULL, stdout=subprocess.DEVNULL, check=True)
    process = subprocess.Popen([program, "run", store], stdin=subprocess.PIPE, stdout=subprocess.PIPE)
    ask(process, "t begin\nt make table h\nt commit\n")
    most = last = 0
    for first in range(0, commits, every):
        numbers = range(first, min(first + every, commits))
        ask(process, "".join(f"t begin\nt put h k{number % 1000} {number:0100d}\nt commit\n" for number in numbers))
        most = max(most, log_bytes(store))
        ask(process, upkeep)
        last = log_bytes(store)
        most = max(most, last)
    process.stdin.close()
    _, status, used = os.wait4(process.pid, 0)
    assert status == 0
    rate = commits / (used.ru_utime + used.ru_stime)
    print(f"{name:8} {commits} commits: at most {most} bytes of log, at last {last}; {rate:.0f} commits a second by the processor", flush=True)


print(f"flush, checkpoint and truncate behind each {every} commits, and without them", flush=True)
measure("cut", UPKEEP)
measure("growing", "")
PYTHON
