#!/usr/bin/env bash
# Opens stores over logs of growing length, and prints for each how long that takes and the greatest memory that the
# program used, which is the system's own account of it. Beside that: how many records of the log come to a second of it, and how many times as long it
# takes as reading the same files does. The first word: how many commits the shortest log has (2,000
# where none is given); each later log has twice as many as the one before it. The other words: which kinds of logs, and without one all.
#
# There are six kinds of logs, each of commits of one line. The program writes them itself. It comes to its end, and so makes a checkpoint and writes all
# pages home, but where it is killed:
#   set      each line sets one item of an array. Such a commit has five records
#   push     each line pushes an item of 256 bytes
#   put      each line puts a new key with 100 bytes into a table
#   left     as set, and behind that a program that is killed leaves a transaction of a thousand lines, which the opening undoes
#   bare     as set, and the program is killed before its end, so that the log has no checkpoint
#   marked   as bare, with the lines `flush` and `checkpoint` behind the commits
set -eu
top="$(cd "$(dirname "$(readlink -f "${BASH_SOURCE[0]}")")/.." && pwd)"
commits="${1:-2000}"
kinds=("${@:2}")
[ "${#kinds[@]}" -gt 0 ] || kinds=(set push put left bare marked)
if ! [[ "$commits" =~ ^[1-9][0-9]{0,5}$ ]]; then
    echo "opening.sh: $commits is no number from 1 to 999999" >&2
    exit 2
fi
for kind in "${kinds[@]}"; do
    case "$kind" in
    set | push | put | left | bare | marked) ;;
    *)
        echo "opening.sh: there are no logs of the kind $kind" >&2
        exit 2
        ;;
    esac
done
folder="$(mktemp -d)"
trap 'rm -rf "$folder"' EXIT

# Builds the program where it must, outside of what is measured.
"$top/stasis" build 2>"$folder/said" || {
    cat "$folder/said" >&2
    exit 1
}

python3 - "$top/crates/sg_main/out/sg_main" "$folder" "$commits" "${kinds[@]}" <<'PYTHON'
import os, signal, subprocess, sys, time

program, folder, least, kinds = sys.argv[1], sys.argv[2], int(sys.argv[3]), sys.argv[4:]


def line_of(kind, number):
    """The line of this number."""
    if kind == "push":
        return f"t push a {number:0256d}"
    if kind == "put":
        return f"t put h k{number} {number:0100d}"
    return f"t set a 0 {number:08d}"


def write_script(kind, commits):
    """A script that makes the objects, and then commits so many lines."""
    size = 256 if kind == "push" else 8
    with open(f"{folder}/script", "w") as script:
        script.write(f"t begin\nt make array a {size}\nt make table h\nt push a {0:0{size}d}\nt commit\n")
        for number in range(commits):
            script.write(f"t begin\n{line_of(kind, number)}\nt commit\n")
        if kind == "marked":
            script.write("flush\ncheckpoint\n")


def run_whole(store):
    """The script runs over the store, and the program comes to its end."""
    with open(f"{folder}/script", "rb") as script, open(f"{folder}/replies", "wb") as replies:
        subprocess.run([program, "run", store], stdin=script, stdout=replies, check=True)


def run_killed(store):
    """The script runs over the store, and the program is killed behind its last reply, while it waits for the script's end."""
    with open(f"{folder}/script", "rb") as script:
        text = script.read()
    with open(f"{folder}/replies", "wb") as replies:
        process = subprocess.Popen([program, "run", store], stdin=subprocess.PIPE, stdout=replies)
        process.stdin.write(text)
        process.stdin.flush()
        lines = text.count(b"\n")
        while True:
            time.sleep(0.1)
            with open(f"{folder}/replies", "rb") as written:
                if written.read().count(b"\n") == lines:
                    break
        process.send_signal(signal.SIGKILL)
        process.wait()


def make_store(kind, commits, store):
    """A store over which the script has run."""
    subprocess.run([program, "init", store], stdin=subprocess.DEVNULL, stdout=subprocess.DEVNULL, check=True)
    write_script(kind, commits)
    if kind in ("bare", "marked"):
        run_killed(store)
    else:
        run_whole(store)
    with open(f"{folder}/replies", "rb") as replies:
        assert all(line.startswith(b"ok") for line in replies)


def leave_one(store):
    """Leaves a transaction of a thousand lines in the store: another one's commit makes its records durable, and the program is ended."""
    lines = ["t begin"] + [f"t set a 0 {number:08d}" for number in range(1000)] + ["u begin", "u commit"]
    process = subprocess.Popen([program, "run", store], stdin=subprocess.PIPE, stdout=subprocess.PIPE)
    process.stdin.write("".join(line + "\n" for line in lines).encode())
    process.stdin.flush()
    for line in lines:
        assert process.stdout.readline() == b"ok\n", line
    process.send_signal(signal.SIGKILL)
    process.wait()


def opened(store):
    """Runs one line over the store, and answers the status, the seconds to its reply and the greatest memory in KiB."""
    start = time.monotonic()
    process = subprocess.Popen([program, "run", store], stdin=subprocess.PIPE, stdout=subprocess.PIPE)
    process.stdin.write(b"t begin\n")
    process.stdin.flush()
    # Behind its reply the program waits for the script's end. Its account is read then.
    reply = process.stdout.readline()
    seconds = time.monotonic() - start
    with open(f"/proc/{process.pid}/status") as account:
        memory = next((int(line.split()[1]) for line in account if line.startswith("VmHWM:")), 0)
    process.stdin.close()
    process.wait()
    return process.returncode if reply == b"ok\n" else f"{process.returncode} without a reply", seconds, memory


def record_count(store):
    """How many records the log has: its listing has a line for each behind the first."""
    listing = subprocess.run([program, "log", store], stdin=subprocess.DEVNULL, stdout=subprocess.PIPE, check=True)
    return listing.stdout.count(b"\n") - 1


def seconds_to_read(store):
    """The seconds that reading all bytes of the store's files takes, of five times the least."""
    least_time = None
    for _ in range(5):
        start = time.monotonic()
        for name in ("home", "log0", "log1"):
            if os.path.exists(f"{store}/{name}"):
                with open(f"{store}/{name}", "rb", buffering=0) as file:
                    while file.read(1 << 20):
                        pass
        seconds = time.monotonic() - start
        least_time = seconds if least_time is None else min(least_time, seconds)
    return least_time


for kind in kinds:
    for times in [1, 2, 4, 8]:
        store = f"{folder}/{kind}-{times}"
        make_store(kind, least * times, store)
        if kind == "left":
            leave_one(store)
        size = os.path.getsize(f"{store}/log0")
        records, reading = record_count(store), seconds_to_read(store)
        status, seconds, memory = opened(store)
        print(
            f"{kind:6} {least * times:7} commits {size:9} bytes: status {status}, {seconds:.3f} seconds, {memory} KiB;"
            f" {records} records, {records / seconds:.0f} a second; {seconds / reading:.1f} times as long as reading the files",
            flush=True,
        )
PYTHON
