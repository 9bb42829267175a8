#!/usr/bin/env bash
# Times `replay` of `sg_redo`, then `replay_all` by 1, 2 and 4 threads, and beside them a plain loop in C that copies the same
# bytes on one thread: 1,024,000 records of 50 bytes over 256 pages, page by page, of which each sets the 8 bytes of a slot. It
# prints the records in a second of each, as the median and as the best of the rounds, and the ratios to the plain loop.
#
# The Rattle program of this benchmark stands in this file, and is proved and built in a folder of the moment over the
# repository's crates, with what was proved of them, so that the merge gate has nothing to do with it. The crates are to be checked before (`rt check` in
# each, or `.ci/run`).
#
# The words: how many rounds there are (9).
set -eu
top="$(cd "$(dirname "$(readlink -f "${BASH_SOURCE[0]}")")/.." && pwd)"
rounds="${1:-9}"
if ! [[ "$rounds" =~ ^[1-9][0-9]{0,3}$ ]]; then
    echo "replay.sh: $rounds is no number from 1 to 9999" >&2
    exit 2
fi
folder="$(mktemp -d)"
trap 'rm -rf "$folder"' EXIT
bench="$folder/crates/replay_bench"
mkdir -p "$bench/src" "$bench/proofs/run" "$bench/proofs/main"
below="sg_base sg_record sg_bits sg_segment sg_slotted sg_frames sg_ops sg_step sg_action sg_redo"
for crate in $below; do
    cp -R "$top/crates/$crate" "$folder/crates/"
    grep "^$crate:" "$top/crates.txt" >> "$folder/crates.txt"
done
echo "replay_bench may_abort=2: sg_base sg_frames sg_ops sg_record sg_redo sg_segment" >> "$folder/crates.txt"
cp "$top/HANDLES" "$folder"

cat > "$bench/src/main.rt" <<'RATTLE'
//! Times `replay`, or by a word `replay_all` in so many threads, over 256 pages and 1,024,000 records, each of which sets the 8 bytes
//! of one of a page's slots. It prints the number of records and the nanoseconds that they took.
#![tactic(auto)]
ghost use Rattle.std.specs.Prelude.{◌≡◌, ◌≤◌, ◌<◌, ◌+◌, ◌*◌, ℕ, [], IfOk, IsTrue, length, vec_len, vec_capacity};
ghost use Rattle.std.specs.List.{All};
ghost use Rattle.sg_frames.specs.Held.{IsHere, NoneLent};
ghost use Rattle.sg_ops.specs.Table.{table_of};
ghost use Rattle.sg_redo.specs.Units.{Lies, AreKnown};

use sg_base::{PAGE_SIZE, PageOp, Steps};
use sg_frames::{Frames, Place as Spot};
use sg_ops::Ops;
use sg_redo::{Place, Unit, apply_page, are_known, replay, replay_all};
use sg_segment::Dirty;
use std::alloc::{AllocError, Global};
use std::env;
use std::io;
use std::marker::Brand;
use std::process::Abort;
use std::rt::Clock;
use std::sync::ledger::{Blank, Ledger};
use std::thread::Threads;
use std::time::Instant;

const PAGES: u32 = 256;

// How many records each page has.
const EACH: u32 = 4_000;

const RECORDS: usize = 1_024_000;

// The record of transaction 5 that sets slot 0 of a page from 8 bytes to 8 others.
const RECORD: [u8; 50] = [
    2, 50, 0, 0, 0, 5, 0, 0, 0, 0, 0, 0, 0, 26, 0, 0, 0, 0, 0, 0, 0, 7, 0, 0, 0, 4, 0, 0, 0, 0, 8,
    0, 8, 0, 1, 2, 3, 4, 5, 6, 7, 8, 8, 7, 6, 5, 4, 3, 2, 1,
];

// The text of the log: the record again and again.
fn text(alloc: Global) -> Result<Vec<u8>, AllocError> {
    let mut text = Vec::new(alloc);
    for _ in 0..RECORDS {
        text.extend_from_slice(&RECORD)?;
    }
    Ok(text)
}

// The places, page by page. The records of all pages stand in the text by turns.
fn places(alloc: Global) -> Result<Vec<Place>, AllocError> {
    let mut places = Vec::new(alloc);
    for unit in 0..PAGES {
        for turn in 0..EACH {
            let number = u64::from(turn) * 256 + u64::from(unit);
            places.push(Place {
                unit,
                lsn: 100 + 50 * number,
                at: 50 * number,
            })?;
        }
    }
    Ok(places)
}

// A page with one slot of 8 bytes.
fn page(ops: &Ops) -> [u8; PAGE_SIZE] {
    let mut page = [0; PAGE_SIZE];
    apply_page(&mut page, 1, &PageOp::Format { kind: 4 }, ops);
    let put = PageOp::Put {
        slot: 0,
        bytes: b"12345678",
    };
    apply_page(&mut page, 2, &put, ops);
    page
}

// How many threads the word says, if there is one.
fn threads_of(rt: &HostRuntime) -> io::Result<Option<usize>> {
    let words: Vec<String> = env::args(rt)?.skip(1).collect(rt.alloc())?;
    let words: &[String] = words.as_slice();
    match words {
        [word] => match word.as_str() {
            "1" => Ok(Some(1)),
            "2" => Ok(Some(2)),
            "4" => Ok(Some(4)),
            _ => Ok(None),
        },
        _ => Ok(None),
    }
}

// Replays all records, in so many threads where a number is given.
fn repeat<R: Threads + Sync, L: Ledger>(
    rt: &R,
    threads: Option<usize>,
    units: &mut [Unit],
    places: &[Place],
    text: &[u8],
    ops: &Ops,
    steps: &mut Steps<L>,
)
    requires lie { All (λ u. Lies places.now u) units.old }
    requires known { AreKnown (table_of record_meaning range_meaning ops.now) text.now places.now }
{
    match threads {
        Some(count) if count > 0 => replay_all(rt, count, units, places, text, ops, steps),
        _ => replay(units, places, text, ops, steps),
    }
}

// Times the replay of all records, and ends the program.
fn run<R: Print + Clock + Abort + Threads + Sync, L: Ledger>(
    rt: &R,
    threads: Option<usize>,
    mut frames: Frames,
    mut units: Vec<Unit>,
    places: &[Place],
    text: &[u8],
    ops: &Ops,
    blank: Blank,
) -> !
    requires frames { length frames.pages ≡ 256 }
    requires none_lent { NoneLent frames }
    requires units { vec_len units ≡ 0 }
    requires room { 256 ≤ vec_capacity units }
    requires places { length places.now ≡ RECORDS }
    requires name { blank.name ≡ L.name }
    requires parts { blank.parts ≡ L.parts }
    requires some { 0 < L.parts }
{
    let mut steps = Steps::<L>::open(blank);
    let page = page(ops);
    'lend: for number in 0..PAGES {
        let mut loan = frames.take(number);
        loan.bytes_mut().copy_from_slice(&page);
        units.push_reserved(Unit {
            number,
            loan,
            dirty: Dirty::new(),
            since: None,
            first: number * EACH,
            count: EACH,
        });
    }
    if !are_known(places, text, ops) {
        rt.exit(1);
    }
    let Ok(start) = Instant::now(rt) else {
        rt.exit(2)
    };
    repeat(rt, threads, &mut units, places, text, ops, &mut steps);
    let Ok(took) = start.elapsed(rt) else {
        rt.exit(2)
    };
    let nanoseconds = took.as_nanos();
    let _printed = println!(rt; "{RECORDS} {nanoseconds}");
    rt.exit(0)
}

fn main(rt: HostRuntime) {
    let alloc = rt.alloc();
    let Ok(ops) = Ops::new(alloc) else {
        rt.exit(3)
    };
    let Ok(text) = text(alloc) else {
        rt.exit(3)
    };
    let Ok(places) = places(alloc) else {
        rt.exit(3)
    };
    if places.len() != RECORDS {
        rt.exit(3);
    }
    let Ok(units) = Vec::with_capacity(alloc, 256) else {
        rt.exit(3)
    };
    let Ok(frames) = Frames::new(alloc, PAGES, 1) else {
        rt.exit(3)
    };
    let Ok(threads) = threads_of(&rt) else {
        rt.exit(3)
    };
    run::<HostRuntime, Brand>(&rt, threads, frames, units, &places, &text, &ops, Blank::new(1))
}
RATTLE

cat > "$bench/proofs/run/Invariants.antt" <<'ANTT'
use Rattle.std.proofs.Common.{◌≡◌, ◌<◌, ◌≤◌, ◌+◌, ℕ, length, slice_index_or, vec_len, vec_capacity}
use Rattle.sg_frames.specs.declared.place.Place.TheVariants.{Page}
use Rattle.sg_frames.specs.Held.{IsHere}
use Rattle.replay_bench.proofs.run.Given as goal

-- the page frames from this one on are here, and the units before it lie in the places
abbrev pub invariant-lend : goal.invariant-lend
invariant-lend g l = record {
  here : (j : ℕ) → l.number ≤ j → j < 256 → IsHere l.frames (Page j);
  count : vec_len l.units ≡ l.number;
  room : 256 ≤ vec_capacity l.units;
  lie : (k : ℕ) (d : _) → k < l.number → (slice_index_or l.units.items k d).first + (slice_index_or l.units.items k d).count ≤ 1024000;
}
ANTT

cat > "$bench/proofs/main/Invariants.antt" <<'ANTT'
use Rattle.replay_bench.proofs.main.Given as goal

abbrev pub ghosts-run : goal.ghosts-run
ghosts-run g a = record { name = a.blank.name; parts = a.blank.parts }
ANTT

cat > "$folder/copy.c" <<'C'
// The same bytes as the program of Rattle replays, copied to the same places by a plain loop.
#include <stdint.h>
#include <stdio.h>
#include <stdlib.h>
#include <string.h>
#include <time.h>

enum { PAGES = 256, EACH = 4000, RECORDS = PAGES * EACH, SIZE = 50, PAGE = 4096 };

struct place {
    uint32_t unit;
    uint64_t lsn;
    uint64_t at;
};

int main(void) {
    uint8_t *text = malloc((size_t)RECORDS * SIZE);
    struct place *places = malloc(sizeof(struct place) * RECORDS);
    uint8_t *pages = calloc(PAGES, PAGE);
    if (!text || !places || !pages) return 3;
    for (size_t i = 0; i < (size_t)RECORDS * SIZE; i++) text[i] = (uint8_t)i;
    for (size_t unit = 0, next = 0; unit < PAGES; unit++)
        for (size_t turn = 0; turn < EACH; turn++, next++) {
            uint64_t at = SIZE * (turn * PAGES + unit);
            places[next] = (struct place){ (uint32_t)unit, 100 + at, at };
        }
    struct timespec start, end;
    clock_gettime(CLOCK_MONOTONIC, &start);
    for (size_t i = 0; i < RECORDS; i++)
        memcpy(pages + (size_t)places[i].unit * PAGE + PAGE - 8, text + places[i].at + SIZE - 8, 8);
    clock_gettime(CLOCK_MONOTONIC, &end);
    unsigned sum = 0;
    for (size_t i = 0; i < (size_t)PAGES * PAGE; i++) sum += pages[i];
    printf("%d %lld %u\n", RECORDS, (end.tv_sec - start.tv_sec) * 1000000000LL + (end.tv_nsec - start.tv_nsec), sum);
    return 0;
}
C

(cd "$bench" && rt run >"$folder/said" 2>&1) || { cat "$folder/said" >&2; exit 1; }
cc -O2 -o "$folder/copy" "$folder/copy.c"

python3 - "$bench/out/replay_bench" "$folder/copy" "$rounds" <<'PYTHON'
import statistics, subprocess, sys


def rate(*words):
    """Records in a second, by what the program prints."""
    records, nanoseconds = subprocess.run(words, capture_output=True, text=True, check=True).stdout.split()[:2]
    return int(records) * 1e9 / int(nanoseconds)


rounds = [("replay", (sys.argv[1],))]
rounds += [(f"replay_all, {n} threads", (sys.argv[1], n)) for n in ("1", "2", "4")]
rounds += [("plain copies", (sys.argv[2],))]
rates = {name: [] for name, _ in rounds}
for _ in range(int(sys.argv[3])):
    for name, words in rounds:
        rates[name].append(rate(*words))
copies = rates["plain copies"]
for name, found in rates.items():
    ratio = statistics.median(found) / statistics.median(copies)
    print(f"{name}: {statistics.median(found):,.0f} records a second, best {max(found):,.0f}; by plain copies {ratio:.4f}")
PYTHON
