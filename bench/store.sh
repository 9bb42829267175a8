#!/usr/bin/env bash
# Measures transactions that put one key of a table each, in a store whose pages all have room in memory and in one whose pages exceed the 256 frames
# about ten times. It prints for each the transactions in a second, by the clock and by the processor's time, the bytes that one writes to files, and how many
# of these are the log's.
#
# The keys are drawn. A value has 1,000 letters, so that a page has at most four entries: 160 keys want 40 pages at least, and 11,000 keys 2,750. What an opening
# and the end of a run take by themselves is measured before, over the same copy of the store, and taken off; bytes that go home at the end of the
# run are counted.
#
# The words: how many transactions a run has (2,000 where none is given), and how many rounds there are (3), of which the medians are printed. The stores
# stand where TMPDIR says: with TMPDIR=/dev/shm a sync costs least.
set -eu
top="$(cd "$(dirname "$(readlink -f "${BASH_SOURCE[0]}")")/.." && pwd)"
transactions="${1:-2000}"
rounds="${2:-3}"
for number in "$transactions" "$rounds"; do
    if ! [[ "$number" =~ ^[1-9][0-9]{0,6}$ ]]; then
        echo "store.sh: $number is no number from 1 to 9999999" >&2
        exit 2
    fi
done
folder="$(mktemp -d)"
trap 'rm -rf "$folder"' EXIT

# Builds the program where it must, outside of what is measured.
"$top/stasis" build 2>"$folder/said" || {
    cat "$folder/said" >&2
    exit 1
}

python3 - "$top/crates/sg_main/out/sg_main" "$folder" "$transactions" "$rounds" <<'PYTHON'
import os, random, shutil, statistics, subprocess, sys, time

program, folder, transactions, rounds = sys.argv[1], sys.argv[2], int(sys.argv[3]), int(sys.argv[4])
LETTERS = 1000


def write_first(path, keys):
    """A script that makes the table with so many keys, a hundred in a transaction."""
    with open(path, "w") as script:
        script.write("t begin\nt make table h\n")
        for key in range(keys):
            if key % 100 == 99:
                script.write("t commit\nt begin\n")
            script.write(f"t put h k{key} {'a' * LETTERS}\n")
        script.write("t commit\n")


def write_script(path, keys, drawn):
    """A script of transactions that put one drawn key each."""
    with open(path, "w") as script:
        for number in range(transactions):
            letter = chr(ord("b") + number % 25)
            script.write(f"t begin\nt put h k{drawn.randrange(keys)} {letter * LETTERS}\nt commit\n")


def run(store, script):
    """The seconds of a run by the clock and by the processor, and the bytes that it wrote to files. All replies are `ok`, with or without a word."""
    with open(script, "rb") as lines, open(f"{folder}/replies", "wb") as replies:
        start = time.monotonic()
        process = subprocess.Popen([program, "run", store], stdin=lines, stdout=replies)
        os.waitid(os.P_PID, process.pid, os.WEXITED | os.WNOWAIT)
        seconds = time.monotonic() - start
        with open(f"/proc/{process.pid}/io") as counts:
            written = next(int(line.split()[1]) for line in counts if line.startswith("wchar:"))
        _, status, used = os.wait4(process.pid, 0)
        process.returncode = status
    assert status == 0
    with open(f"{folder}/replies", "rb") as replies:
        assert all(line.startswith(b"ok") for line in replies)
    return seconds, used.ru_utime + used.ru_stime, written - os.path.getsize(f"{folder}/replies")


def copy_store(number):
    """A copy of the store, with its holes."""
    store = f"{folder}/store{number}"
    subprocess.run(["cp", "-r", "--sparse=always", f"{folder}/first", store], check=True)
    return store


open(f"{folder}/nothing", "w").close()
for keys in (160, 11_000):
    shutil.rmtree(f"{folder}/first", ignore_errors=True)
    subprocess.run([program, "init", f"{folder}/first"], stdin=subprocess.DEVNULL, stdout=subprocess.DEVNULL, check=True)
    write_first(f"{folder}/script", keys)
    run(f"{folder}/first", f"{folder}/script")
    log = os.path.getsize(f"{folder}/first/log0")
    write_script(f"{folder}/script", keys, random.Random(keys))
    rows = []
    for number in range(rounds):
        store = copy_store(number)
        bare = run(store, f"{folder}/nothing")
        seconds, processor, written = (all_of - part for all_of, part in zip(run(store, f"{folder}/script"), bare))
        grown = os.path.getsize(f"{store}/log0") - log
        rows.append((transactions / seconds, transactions / processor, written / transactions, grown / transactions))
        shutil.rmtree(store)
    clock, processor, written, logged = (statistics.median(column) for column in zip(*rows))
    print(f"{keys} keys: {clock:.0f} transactions a second by the clock, {processor:.0f} by the processor; {written:.0f} bytes written a transaction, {logged:.0f} of them log")
PYTHON
