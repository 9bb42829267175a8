#!/usr/bin/env python3
"""Measures stores side by side on the same scripts, and prints a table. `peers.sh` calls it.

    measure.py PROGRAM DISK MEMORY      the program `stasis`, and two folders: one on a disk, in which the other programs are, and one in memory
"""
import os
import random
import shutil
import statistics
import subprocess
import sys
import time

STASIS, DISK, MEMORY = sys.argv[1:4]
NAMES = ["stasis", "sqlite", "lmdb", "berkeley"]
ROUNDS = 3
# Memory for pages, in bytes: what all data fit into, and what they exceed ten times.
AMPLE, SCARCE = 16 << 20, 1 << 20
# How many parts a transaction of Stasis may hold is limited, to 4,096.
GREAT = 4000
# What the programs beside Stasis are told where a crash is to leave all that a log has.
WITHOUT_CHECKPOINTS = {**os.environ, "WITHOUT_CHECKPOINTS": "1"}


def command(name, store, cache):
    """What runs a script over the store. A new store of Stasis is made, with frames for so much memory."""
    if name != "stasis":
        return [f"{DISK}/{name}", store, str(cache)]
    if not os.path.exists(store):
        with open(f"{DISK}/sizes", "w") as sizes:
            sizes.write(f"pages = 32768\nframes = {cache // 4096}\n")
        subprocess.run([STASIS, "init", store, "--geometry", f"{DISK}/sizes"], stdin=subprocess.DEVNULL, stdout=subprocess.DEVNULL, check=True)
    return [STASIS, "run", store]


def is_answered(reply):
    return reply.startswith(b"ok") or reply == b"none\n"


def run(name, store, script, cache):
    """The seconds of a run by the clock and by the processor, the bytes that it wrote to files, and its replies with those to puts cut short."""
    words = command(name, store, cache)
    with open(script, "rb") as lines, open(f"{MEMORY}/replies", "wb") as replies:
        start = time.monotonic()
        process = subprocess.Popen(words, stdin=lines, stdout=replies)
        os.waitid(os.P_PID, process.pid, os.WEXITED | os.WNOWAIT)
        seconds = time.monotonic() - start
        with open(f"/proc/{process.pid}/io") as counts:
            written = next(int(line.split()[1]) for line in counts if line.startswith("wchar:"))
        _, status, used = os.wait4(process.pid, 0)
        process.returncode = status
    with open(f"{MEMORY}/replies", "rb") as replies:
        lines = replies.read()
    assert status == 0, (name, status)
    written -= len(lines)
    lines = [b"ok\n" if line in (b"ok new\n", b"ok replaced\n") else line for line in lines.splitlines(True)]
    assert all(map(is_answered, lines)), name
    return seconds, used.ru_utime + used.ru_stime, written, lines


def measure(first, script, operations, cache, place):
    """For each store the medians of operations a second by the clock and by the processor, and of bytes written for each. The store is made by the first
    script, and what opening and closing a copy take by themselves is taken off."""
    found = {name: [] for name in NAMES}
    nothing = write_script([])
    for name in NAMES:
        run(name, f"{place}/first-{name}", first, cache)
    for number in range(ROUNDS):
        replies = set()
        for name in NAMES[number:] + NAMES[:number]:
            store = f"{place}/copy"
            subprocess.run(["cp", "-r", "--sparse=always", f"{place}/first-{name}", store], check=True)
            bare = run(name, store, nothing, cache)
            done = run(name, store, script, cache)
            shutil.rmtree(store)
            replies.add(b"".join(done[3]))
            seconds, processor, written = (max(all_of - part, 1e-6) for all_of, part in zip(done[:3], bare[:3]))
            found[name].append((operations / seconds, operations / processor, written / operations))
        assert len(replies) == 1, "the replies differ"
    for name in NAMES:
        shutil.rmtree(f"{place}/first-{name}")
    return {name: [statistics.median(column) for column in zip(*rows)] for name, rows in found.items()}


def write_script(lines):
    path = f"{MEMORY}/script{random.getrandbits(64)}"
    with open(path, "w") as script:
        script.writelines(f"{line}\n" for line in lines)
    return path


def key(number):
    return f"k{number:08d}"


def puts(keys, letters):
    """The lines of transactions that put one key each."""
    for number, it in enumerate(keys):
        yield from ("t begin", f"t put h {key(it)} {chr(ord('b') + number % 25) * letters}", "t commit")


def filled(keys, letters):
    """The lines that make a table of so many keys, a hundred in a transaction."""
    yield from ("t begin", "t make table h", "t commit")
    for begin in range(0, keys, 100):
        yield "t begin"
        yield from (f"t put h {key(it)} {'a' * letters}" for it in range(begin, min(begin + 100, keys)))
        yield "t commit"


def finds(keys):
    """The lines of transactions that find as many keys as one may hold."""
    for begin in range(0, len(keys), GREAT):
        yield "t begin"
        yield from (f"t find h {key(it)}" for it in keys[begin : begin + GREAT])
        yield "t commit"


def show(what, unit, values, digits=0):
    print("\t".join([what, unit, *(f"{values[name]:.{digits}f}" for name in NAMES)]), flush=True)


def show_rates(what, rates, by_clock):
    show(what, "a second by the clock" if by_clock else "a second by the processor", {name: row[0 if by_clock else 1] for name, row in rates.items()})


def measure_rates():
    drawn = random.Random(1)
    small = write_script(filled(4000, 100))
    commits = [drawn.randrange(4000) for _ in range(20_000)]
    synced = measure(small, write_script(puts(commits[:300], 100)), 300, AMPLE, DISK)
    show_rates("commits of one put, synced", synced, True)
    show("bytes written by such a commit", "bytes", {name: row[2] for name, row in synced.items()})
    show("syncs of such a commit", "syncs", {name: count_syncs(name, small, commits[:100]) for name in NAMES}, 1)
    show_rates("commits of one put, without the cost of syncs", measure(small, write_script(puts(commits, 100)), len(commits), AMPLE, MEMORY), False)
    great = ["t begin", *(f"t put h {key(it)} {'b' * 100}" for it in range(GREAT)), "t commit"]
    rates = measure(write_script(filled(0, 0)), write_script(great), GREAT, AMPLE, DISK)
    show_rates("puts of one transaction of 4,000, synced", rates, True)
    show_rates("puts of one transaction of 4,000, synced", rates, False)
    show_rates("finds, data within the memory", measure(small, write_script(finds([drawn.randrange(4000) for _ in range(80_000)])), 80_000, AMPLE, MEMORY), False)
    large = write_script(filled(11_000, 1000))
    keys = [drawn.randrange(11_000) for _ in range(20_000)]
    rates = measure(large, write_script(puts(keys[:4000], 1000)), 4000, SCARCE, MEMORY)
    show_rates("commits of one put, data ten times the memory", rates, False)
    show("bytes written by such a commit, data ten times the memory", "bytes", {name: row[2] for name, row in rates.items()})
    show_rates("finds, data ten times the memory", measure(large, write_script(finds(keys)), len(keys), SCARCE, MEMORY), False)


def count_syncs(name, first, keys):
    """How many syncs a commit of one put makes: those of a run, without those of opening and closing."""
    if not shutil.which("strace"):
        return float("nan")
    counts = []
    for script in (write_script([]), write_script(puts(keys, 100))):
        store, counted = f"{DISK}/synced", f"{DISK}/counted"
        run(name, store, first, AMPLE)
        with open(script) as lines:
            trace = ["strace", "-f", "-y", "-o", counted, "-e", "trace=fsync,fdatasync,msync,pwrite64"]
            subprocess.run([*trace, *command(name, store, AMPLE)], stdin=lines, stdout=subprocess.DEVNULL, check=True)
        with open(counted) as calls:
            counts.append(sum("sync(" in call for call in calls))
        shutil.rmtree(store)
    return (counts[1] - counts[0]) / len(keys)


def crash(name, store, script, cache):
    """Runs the script over a new store, and kills the program once it has answered all lines."""
    words = command(name, store, cache)
    with open(script, "rb") as lines:
        text = lines.read()
    with open(f"{MEMORY}/replies", "wb") as replies:
        process = subprocess.Popen(words, stdin=subprocess.PIPE, stdout=replies, env=WITHOUT_CHECKPOINTS)
    process.stdin.write(text)
    process.stdin.flush()
    answered = 0
    with open(f"{MEMORY}/replies", "rb") as replies:
        while answered < text.count(b"\n"):
            time.sleep(0.05)
            answered += replies.read().count(b"\n")
    process.kill()
    process.communicate()
    with open(f"{MEMORY}/replies", "rb") as replies:
        assert all(map(is_answered, replies)), name


def opening(name, store, last, cache):
    """The seconds by the clock and by the processor until a program that is begun over the store has answered where the last key is."""
    words = command(name, store, cache)
    start = time.monotonic()
    process = subprocess.Popen(words, stdin=subprocess.PIPE, stdout=subprocess.PIPE, env=WITHOUT_CHECKPOINTS)
    process.stdin.write(f"s begin\ns find h {key(last)}\n".encode())
    process.stdin.flush()
    replies = [process.stdout.readline() for _ in range(2)]
    seconds = time.monotonic() - start
    with open(f"/proc/{process.pid}/schedstat") as counts:
        processor = int(counts.read().split()[0]) / 1e9
    process.kill()
    process.communicate()
    assert replies[0] == b"ok\n" and replies[1].startswith(b"ok "), (name, replies)
    return seconds, processor


def measure_openings():
    for commits, checkpointed in ((1000, False), (4000, False), (16_000, False), (64_000, False), (16_000, True)):
        script = write_script([*filled(0, 0), *puts((number % 4000 for number in range(commits)), 100), *(["flush", "checkpoint"] if checkpointed else [])])
        seconds = {}
        for name in NAMES:
            crash(name, f"{MEMORY}/crashed", script, AMPLE)
            times = []
            for _ in range(ROUNDS):
                subprocess.run(["cp", "-r", "--sparse=always", f"{MEMORY}/crashed", f"{MEMORY}/copy"], check=True)
                times.append(opening(name, f"{MEMORY}/copy", (commits - 1) % 4000, AMPLE))
                shutil.rmtree(f"{MEMORY}/copy")
            seconds[name] = [1000 * statistics.median(column) for column in zip(*times)]
            shutil.rmtree(f"{MEMORY}/crashed")
        what = f"opening behind {commits} commits" + (", a flush and a checkpoint" if checkpointed else "")
        show(what, "milliseconds by the processor", {name: row[1] for name, row in seconds.items()}, 1)
        show(what, "milliseconds by the clock", {name: row[0] for name, row in seconds.items()}, 1)


def machine():
    with open("/proc/cpuinfo") as file:
        model = next(line.split(": ")[1].strip() for line in file if line.startswith("model name"))
    load = " ".join(f"{it:.1f}" for it in os.getloadavg())
    return f"{os.cpu_count()} processors, {model}, load {load}, {time.strftime('%Y-%m-%d', time.gmtime())}"


if __name__ == "__main__":
    print(f"# {machine()}")
    print("\t".join(["measure", "unit", *NAMES]))
    measure_rates()
    measure_openings()
