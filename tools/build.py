#!/usr/bin/env python3
"""Proves the crates of a program side by side, and builds it.

    tools/build.py PROGRAM LOG

One rt at a time works on a crate and on those that it stands on, where these lie in one copy of the repository. So each crate is proved in
a copy of its own, with the crates below it and the libraries that were made of them, and the library that comes of it goes back to
this copy. Crates are proved side by side as memory allows, first the one that the longest chain of others waits for, and each with as
many jobs as there are processors (RT_JOBS, where that is set). Of each one that is proved a line on standard error says how many are left.
What rt says goes to the file LOG. The status is 0 where the program is built.
"""
import contextlib
import fcntl
import os
import shutil
import signal
import subprocess
import sys
import tempfile
from concurrent.futures import FIRST_COMPLETED, ThreadPoolExecutor, wait

TOP = os.path.dirname(os.path.dirname(os.path.realpath(__file__)))
# What a crate is proved from.
SOURCES = ("src", "specs", "proofs")
# What a proof leaves in a crate's out/: its library, and the work that the next one begins with.
MADE = ("rlib", "incremental")
# The memory that a proof with four jobs takes at most, in bytes.
NEED = 3_000_000_000


def say(text):
    print(f"stasis: {text}", file=sys.stderr, flush=True)


def read_crates():
    """Returns the line of each crate in crates.txt, and the crates of crates.txt that it stands on."""
    lines, uses = {}, {}
    with open(f"{TOP}/crates.txt", encoding="utf-8") as file:
        for line in file:
            named, _, libraries = line.partition("#")[0].partition(":")
            if named.strip():
                name = named.split()[0]
                lines[name], uses[name] = line, libraries.replace(",", " ").split()
    return lines, {name: [it for it in libraries if it in lines] for name, libraries in uses.items()}


def crates_below(name, uses):
    """Returns the crates that one stands on, directly or not."""
    found = set()
    left = list(uses[name])
    while left:
        crate = left.pop()
        if crate not in found:
            found.add(crate)
            left += uses[crate]
    return found


def length_of_chains(crates, uses):
    """Returns for each crate the bytes of the longest chain of crates that begins with it, each of which waits for the one before."""

    def size(crate):
        files = [f"{at}/{name}" for part in SOURCES for at, _, names in os.walk(f"{TOP}/crates/{crate}/{part}") for name in names]
        return sum(map(os.path.getsize, files))

    chains = {}

    def chain(crate):
        if crate not in chains:
            chains[crate] = size(crate) + max((chain(it) for it in crates if crate in uses[it]), default=0)
        return chains[crate]

    return {crate: chain(crate) for crate in crates}


def free_memory():
    """Returns the memory that is free, in bytes, also under the limit of a control group."""
    with open("/proc/meminfo", encoding="utf-8") as file:
        found = [1024 * int(line.split()[1]) for line in file if line.startswith("MemAvailable:")]
    with contextlib.suppress(OSError, ValueError):
        with open("/sys/fs/cgroup/memory.max", encoding="utf-8") as most, open("/sys/fs/cgroup/memory.current", encoding="utf-8") as now:
            found.append(int(most.read()) - int(now.read()))
    return min(found)


def link(one, other):
    """Gives a file that was made a second name: rt puts a new file in the place of such a one, and writes into none."""
    try:
        os.link(one, other)
    except OSError:
        shutil.copy2(one, other)


@contextlib.contextmanager
def locked(folder):
    """Keeps other commands out of a crate, as rt does."""
    held = os.open(folder, os.O_RDONLY)
    try:
        fcntl.flock(held, fcntl.LOCK_EX)
        yield
    finally:
        os.close(held)


class Build:
    """The build of a program. Its calls of rt end with it."""

    def __init__(self, program, log):
        self.program, self.log = program, log
        self.lines, self.uses = read_crates()
        self.crates = crates_below(program, self.uses)
        self.running, self.has_ended = set(), False
        processors = len(os.sched_getaffinity(0))
        jobs = os.environ.get("RT_JOBS", "")
        self.jobs = str(max(int(jobs), 1) if jobs.isdigit() else processors)
        self.at_once = max(1, min(int(self.jobs), free_memory() // NEED))

    def lay(self, crate, tree):
        """Makes a copy of the crate, of those below it, and of what was made of these."""
        names = [*crates_below(crate, self.uses), crate]
        os.makedirs(f"{tree}/crates")
        with open(f"{tree}/crates.txt", "w", encoding="utf-8") as file:
            file.writelines(self.lines[name] for name in names)
        if os.path.isfile(f"{TOP}/HANDLES"):
            shutil.copy2(f"{TOP}/HANDLES", tree)
        for name in names:
            here, there = f"{TOP}/crates/{name}", f"{tree}/crates/{name}"
            for part in SOURCES:
                if os.path.isdir(f"{here}/{part}"):
                    shutil.copytree(f"{here}/{part}", f"{there}/{part}")
            with locked(here):
                for part in MADE if name == crate else MADE[:1]:
                    if os.path.isdir(f"{here}/out/{part}"):
                        shutil.copytree(f"{here}/out/{part}", f"{there}/out/{part}", copy_function=link)

    def take_back(self, crate, tree):
        """Moves what was made of the crate to its own folder."""
        here, there = f"{TOP}/crates/{crate}", f"{tree}/crates/{crate}"
        os.makedirs(f"{here}/out", exist_ok=True)
        with locked(here):
            for part in MADE:
                if os.path.isdir(f"{there}/out/{part}"):
                    shutil.rmtree(f"{here}/out/{part}", ignore_errors=True)
                    shutil.move(f"{there}/out/{part}", f"{here}/out/{part}")

    def call(self, folder, *words):
        """Calls rt in the folder, and returns its status and what it said."""
        if self.has_ended:
            return 1, ""
        how = {"stdin": subprocess.DEVNULL, "stdout": subprocess.PIPE, "stderr": subprocess.STDOUT, "errors": "replace"}
        with subprocess.Popen(["rt", *words, "--jobs", self.jobs], cwd=folder, **how) as rt:
            self.running.add(rt)
            said, _ = rt.communicate()
            self.running.discard(rt)
        self.log.write(f"== {os.path.basename(folder)}\n{said}")
        self.log.flush()
        return rt.returncode, said

    def prove(self, crate, room):
        """Proves a crate whose libraries are made, and makes its own. Returns whether it did, and whether there was something to prove."""
        tree = f"{room}/{crate}"
        self.lay(crate, tree)
        status, said = self.call(f"{tree}/crates/{crate}", "lib")
        if status == 0:
            self.take_back(crate, tree)
        shutil.rmtree(tree, ignore_errors=True)
        return status == 0, "logic=proved " in said

    def prove_all(self, room):
        """Proves the crates below the program side by side. Returns whether all were proved."""
        chains = length_of_chains(self.crates, self.uses)
        left, running, done = sorted(self.crates, key=lambda it: -chains[it]), {}, set()
        with ThreadPoolExecutor(self.at_once) as pool:
            while len(done) < len(self.crates):
                ready = [it for it in left if done.issuperset(self.uses[it])]
                for crate in ready[: self.at_once - len(running)]:
                    left.remove(crate)
                    running[pool.submit(self.prove, crate, room)] = crate
                for it in wait(running, return_when=FIRST_COMPLETED).done:
                    crate = running.pop(it)
                    is_made, is_new = it.result()
                    if not is_made:
                        say(f"not proved: {crate}")
                        self.end()
                        return False
                    done.add(crate)
                    say(f"{'proved' if is_new else 'kept'} {crate}, {len(self.crates) + 1 - len(done)} left")
        return True

    def whole(self):
        """Builds the program over the libraries. It is run without words, and so touches no folder."""
        with tempfile.TemporaryDirectory(prefix="stasis-build-") as room:
            if not self.prove_all(room):
                return False
        folder = f"{TOP}/crates/{self.program}"
        _, said = self.call(folder, "run")
        is_made = os.path.isfile(f"{folder}/out/{self.program}")
        say(f"proved {self.program}, 0 left" if is_made else f"not proved: {self.program}")
        return is_made

    def end(self):
        """Ends the calls of rt, and lets none begin."""
        self.has_ended = True
        for rt in [*self.running]:
            with contextlib.suppress(ProcessLookupError):
                rt.terminate()


def main(program, log):
    # Two builds of one copy go one after the other.
    with locked(f"{TOP}/crates"), open(log, "w", encoding="utf-8") as file:
        build = Build(program, file)

        def stop(number, _):
            build.end()
            sys.exit(128 + number)

        for number in (signal.SIGINT, signal.SIGTERM, signal.SIGHUP):
            signal.signal(number, stop)
        return 0 if build.whole() else 1


if __name__ == "__main__":
    sys.exit(main(*sys.argv[1:]))
