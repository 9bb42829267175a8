#!/usr/bin/env bash
# Times aborts of transactions of ten lines over a store with 1,000 items and over one with 1,000,000. The lines set six items,
# push two and pop two. They are done twice: each ten in a transaction of their own, which aborts, and all of them in one
# transaction, which aborts once the clock has stopped. What the first takes more is what the begins and aborts take.
# The program reads the lines from a pipe, and the store has its items before the clock starts. The clock is the
# processor's time of the program, which other work on the machine changes less. It prints the microseconds that ten lines take with
# their begin and abort, that they take alone, and the difference, as the median and as the best of the rounds.
#
# The words: how many transactions a round has (1,000 where none is given), how many rounds there are (9), and another build of
# the program, whose times stand below its own. It wants python3 and Linux's /proc.
set -eu
top="$(cd "$(dirname "$(readlink -f "${BASH_SOURCE[0]}")")/.." && pwd)"
transactions="${1:-1000}"
rounds="${2:-9}"
for number in "$transactions" "$rounds"; do
    if ! [[ "$number" =~ ^[1-9][0-9]{0,6}$ ]]; then
        echo "aborts.sh: $number is no number from 1 to 9999999" >&2
        exit 2
    fi
done
folder="$(mktemp -d)"
trap 'rm -rf "$folder"' EXIT

# Builds the program where it must, outside of what is measured.
"$top/stasis" build 2>"$folder/said" || {
    cat "$folder/said" >&2
    exit 1
}

python3 - "$folder" "$transactions" "$rounds" "$top/crates/sg_main/out/sg_main" ${3:+"$3"} <<'PYTHON'
import statistics, subprocess, sys, threading

folder, transactions, rounds, builds = sys.argv[1], int(sys.argv[2]), int(sys.argv[3]), sys.argv[4:]


class Program:
    """The program over a new store, which is told lines and asked for their replies."""

    def __init__(self, build, store):
        subprocess.run([build, "init", store], stdin=subprocess.DEVNULL, stdout=subprocess.DEVNULL, check=True)
        self.process = subprocess.Popen([build, "run", store], stdin=subprocess.PIPE, stdout=subprocess.PIPE)

    def used(self):
        """The microseconds that the program has had of a processor."""
        with open(f"/proc/{self.process.pid}/schedstat") as schedstat:
            return int(schedstat.read().split()[0]) / 1000

    def tell(self, lines):
        """The microseconds of a processor until all these lines were answered, each of them `ok` and maybe more."""
        text = "".join(line + "\n" for line in lines).encode()

        def write():
            self.process.stdin.write(text)
            self.process.stdin.flush()

        start = self.used()
        writer = threading.Thread(target=write)
        writer.start()
        for line in lines:
            reply = self.process.stdout.readline()
            assert reply.startswith(b"ok"), (line, reply)
        writer.join()
        return self.used() - start

    def close(self):
        self.process.stdin.close()
        assert self.process.wait() == 0


def ten_lines(items):
    """Ten lines that change an array of so many items."""
    places = [(place * 7919 + 11) % items for place in range(6)]
    return [f"t set a {place} changed!" for place in places] + ["t push a 12345678", "t push a 87654321", "t pop a", "t pop a"]


def measure(build, items, number):
    """For each round the microseconds of a transaction with its begin and abort, and of its lines alone."""
    program = Program(build, f"{folder}/store{number}")
    program.tell(["t begin", "t make array a 8", "t commit"])
    for first in range(0, items, 4000):
        program.tell(["t begin"] + [f"t push a {item:08d}" for item in range(first, min(first + 4000, items))] + ["t commit"])
    lines, each = ten_lines(items), []
    for _ in range(rounds):
        aborted = program.tell((["t begin"] + lines + ["t abort"]) * transactions)
        program.tell(["t begin"])
        alone = program.tell(lines * transactions)
        program.tell(["t abort"])
        each.append((aborted / transactions, alone / transactions))
    program.close()
    return each


for build in builds:
    for number, items in enumerate((1000, 1000000)):
        each = measure(build, items, f"{builds.index(build)}-{number}")
        for name, of in (("median", statistics.median), ("best", min)):
            aborted, alone, more = of(a for a, _ in each), of(b for _, b in each), of(a - b for a, b in each)
            print(f"{items} items, {name}: {aborted:.1f} microseconds with begin and abort, {alone:.1f} the lines alone, {more:.1f} more")
PYTHON
