#!/usr/bin/env bash
# Times commits against what two syncs of a small file take: the floor, which no commit of two syncs can pass. A commit
# pushes one item of 128 bytes; the floor does the calls of a force on a file beside it, which are a write behind the file's end,
# a sync of the data, a write of one byte, and a sync of the data. The stores and the files are made before the clock starts; a run
# opens its store and writes its pages home at the end, too. Both are done in turn, for some rounds, over folders
# of the moment. It prints the commits in a second of both, as the median and as the best of the rounds, and
# their ratios.
#
# The words: how many commits a round has (500 where none is given), how many rounds there are (9), and the folder that
# the folders of the moment are made in (the system's own).
set -eu
top="$(cd "$(dirname "$(readlink -f "${BASH_SOURCE[0]}")")/.." && pwd)"
commits="${1:-500}"
rounds="${2:-9}"
for number in "$commits" "$rounds"; do
    if ! [[ "$number" =~ ^[1-9][0-9]{0,6}$ ]]; then
        echo "commits.sh: $number is no number from 1 to 9999999" >&2
        exit 2
    fi
done
folder="$(mktemp -d ${3:+-p "$3"})"
trap 'rm -rf "$folder"' EXIT

# Builds the program where it must, outside of what is measured.
"$top/stasis" build 2>"$folder/said" || {
    cat "$folder/said" >&2
    exit 1
}

python3 - "$top/crates/sg_main/out/sg_main" "$folder" "$commits" "$rounds" <<'PYTHON'
import os, statistics, subprocess, sys, time

program, folder, commits, rounds = sys.argv[1], sys.argv[2], int(sys.argv[3]), int(sys.argv[4])
with open(f"{folder}/script", "w") as script:
    for number in range(commits):
        script.write("t begin\n")
        if number == 0:
            script.write("t make array a 128\n")
        script.write(f"t push a {number:0128d}\nt commit\n")


def time_commits(store, to="/dev/null"):
    """The seconds that a run of the script takes over a new store."""
    subprocess.run([program, "init", store], stdin=subprocess.DEVNULL, stdout=subprocess.DEVNULL, check=True)
    with open(f"{folder}/script", "rb") as script, open(to, "wb") as replies:
        start = time.monotonic()
        subprocess.run([program, "run", store], stdin=script, stdout=replies, check=True)
        return time.monotonic() - start


def sync_folder(path):
    """Makes durable what names the folder contains."""
    opened = os.open(path, os.O_RDONLY)
    os.fsync(opened)
    os.close(opened)


def time_syncs(path, size):
    """The seconds that as many times two writes and two syncs of a file in a new folder take, of which the first writes so
    many bytes."""
    body, gate = bytes(size), b"\1"
    os.mkdir(path)
    sync_folder(folder)
    file = os.open(f"{path}/file", os.O_RDWR | os.O_CREAT | os.O_EXCL, 0o666)
    sync_folder(path)
    start = time.monotonic()
    for number in range(commits):
        os.pwrite(file, body, number * size + 1)
        os.fdatasync(file)
        os.pwrite(file, gate, number * size)
        os.fdatasync(file)
    seconds = time.monotonic() - start
    os.close(file)
    return seconds


# The first run warms the folder up, and tells how many bytes a commit writes. Its replies are looked at; those of the
# others go nowhere, as the floor has none.
time_commits(f"{folder}/first", f"{folder}/replies")
with open(f"{folder}/replies") as replies:
    assert all(line.startswith("ok") for line in replies)
size = os.path.getsize(f"{folder}/first/log0") // commits
done, floor = [], []
for number in range(rounds):
    # By turns the floor is done second and first.
    if number % 2 == 1:
        floor.append(commits / time_syncs(f"{folder}/floor{number}", size))
    done.append(commits / time_commits(f"{folder}/store{number}"))
    if number % 2 == 0:
        floor.append(commits / time_syncs(f"{folder}/floor{number}", size))
print(f"{commits} commits of about {size} bytes of log each, {rounds} rounds")
for name, of in (("median", statistics.median), ("best", max)):
    print(f"{name}: {of(done):.0f} commits a second, the floor {of(floor):.0f}, ratio {of(done) / of(floor):.3f}")
print(f"median of the rounds' own ratios: {statistics.median(a / b for a, b in zip(done, floor)):.3f}")
PYTHON
