#!/usr/bin/env bash
# Runs lines through the program over new stores in folders of the moment, and prints how many it does in a second
# and the greatest memory that it used.
#
# The words: how many lines (100,000 where none is given), how many of them a transaction has (100), how
# many bytes a line pushes (0: a push, a get, a set and a get by turns), how many rounds there are (1), and
# other builds of the program, whose runs of the same script stand among its own. With several rounds the
# median and the best are printed, and for another build how many times its lines a second the program does,
# by the clock and by the processor's time, which other work on the machine changes less.
#
# So `bench/lines.sh 50000 50000 128 9 OTHER` compares one transaction of pushes of 128 bytes. The folders and the
# replies stand where TMPDIR says: with TMPDIR=/dev/shm a write and a sync of the log cost least, and what is compared
# is mostly the program. Where transactions hold what they touch, one of them can push about 4,000 items.
set -eu
top="$(cd "$(dirname "$(readlink -f "${BASH_SOURCE[0]}")")/.." && pwd)"
folder="$(mktemp -d)"
trap 'rm -rf "$folder"' EXIT

# Builds the program where it must, outside of what is measured.
"$top/stasis" build || exit 1

python3 - "$folder" "$top/crates/sg_main/out/sg_main" "$@" <<'PYTHON'
import resource, statistics, subprocess, sys, time

folder, program = sys.argv[1:3]
lines, each, size, rounds = (int(word) for word in (sys.argv[3:7] + ["100000", "100", "0", "1"][len(sys.argv[3:7]):]))
builds = [program] + sys.argv[7:]


def line_of(place, items, turn):
    """A line of a transaction, and whether it pushes an item."""
    if size > 0:
        return f"t push a {items:0{size}d}", True
    if items == 0 or turn % 4 == 0:
        return f"t push a {items:08d}", True
    if turn % 4 == 2:
        return f"t set a {turn * 7919 % items} {turn:08d}", False
    return f"t get a {turn * 104729 % items}", False


def write_script(path):
    """A transaction each `each` lines: begin, the lines, commit. The first makes the array."""
    with open(path, "w") as script:
        script.write(f"t begin\nt make array a {size or 8}\n")
        items = turn = 0
        for done in range(2, lines - 1):
            if done % each == each - 1:
                script.write("t commit\n")
            elif done % each == 0:
                script.write("t begin\n")
            else:
                line, is_push = line_of(done % each, items, turn)
                script.write(line + "\n")
                items += is_push
                turn += 1
        script.write("t commit\n")


def most_memory(process, least):
    """The greatest memory that the process has used so far, in KiB, or `least` once it has ended."""
    with open(f"/proc/{process.pid}/status") as status:
        for line in status:
            if line.startswith("VmHWM:"):
                return max(least, int(line.split()[1]))
    return least


def processor_time():
    """The processor's time of the runs that have ended."""
    used = resource.getrusage(resource.RUSAGE_CHILDREN)
    return used.ru_utime + used.ru_stime


def run(build, number):
    """The seconds of a run over a new store, by the clock and by the processor, its greatest memory, its status and its
    replies that are errors."""
    store = f"{folder}/store{number}"
    subprocess.run([build, "init", store], stdin=subprocess.DEVNULL, stdout=subprocess.DEVNULL, check=True)
    memory, before = 0, processor_time()
    with open(folder + "/script", "rb") as script, open(folder + "/replies", "wb") as replies:
        start = time.monotonic()
        process = subprocess.Popen([build, "run", store], stdin=script, stdout=replies)
    # The files are the program's alone now: the system takes a lock for each write to one that two processes have open.
    while process.poll() is None:
        memory = most_memory(process, memory)
        time.sleep(0.002)
    seconds = time.monotonic() - start
    with open(folder + "/replies", "rb") as replies:
        errors = sum(1 for line in replies if line.startswith(b"error"))
    return seconds, processor_time() - before, memory, process.returncode, errors


write_script(folder + "/script")
clock = {build: [] for build in builds}
processor = {build: [] for build in builds}
for number in range(rounds):
    for build in builds:
        seconds, used, memory, status, errors = run(build, f"{number}-{builds.index(build)}")
        clock[build].append(seconds)
        processor[build].append(used)
        if build == program and number == 0:
            print(f"status {status}, {lines} lines, {errors} answered with an error")
            print(f"{seconds:.3f} seconds, {lines / seconds:.0f} lines a second")
            print(f"{memory} KiB at most")
if rounds > 1 or len(builds) > 1:
    for kind, times in (("clock", clock), ("processor", processor)):
        middle = {build: statistics.median(times[build]) for build in builds}
        best = {build: min(times[build]) for build in builds}
        for build in builds:
            print(f"{kind}: {build}: median {lines / middle[build]:.0f} lines a second, best {lines / best[build]:.0f}")
        for build in builds[1:]:
            print(f"{kind}: {middle[build] / middle[program]:.2f} times {build} by the median, {best[build] / best[program]:.2f} by the best")
PYTHON
