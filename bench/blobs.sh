#!/usr/bin/env bash
# Times `write`, `read` and `paint` of `sg_blob` over pages and bands in memory, and beside them memcpy in C: a blob of
# 16,384,000 bytes, gone through 40 times in calls of 65,536 bytes. It prints the megabytes in a second of each, as the
# median and as the best of the rounds, and their ratios to memcpy's.
#
# The program stands in this file. It is written into a copy of the crates that it stands on, proved there, and built. The
# crates are to be checked before (`rt check` in each, or `.ci/run`). It wants python3 and cc.
#
# The words: how many rounds there are (9).
set -eu
top="$(cd "$(dirname "$(readlink -f "${BASH_SOURCE[0]}")")/.." && pwd)"
rounds="${1:-9}"
if ! [[ "$rounds" =~ ^[1-9][0-9]{0,3}$ ]]; then
    echo "blobs.sh: $rounds is no number from 1 to 9999" >&2
    exit 2
fi
folder="$(mktemp -d)"
trap 'rm -rf "$folder"' EXIT
bench="$folder/crates/blobs_bench"
mkdir -p "$bench/src"
for part in make_blob write_through read_through paint_through write_rounds read_rounds paint_rounds; do
    mkdir -p "$bench/proofs/$part"
done
for crate in sg_base sg_ops sg_bits sg_alloc sg_slotted sg_step sg_space sg_blob; do
    cp -R "$top/crates/$crate" "$folder/crates/"
    grep "^$crate:" "$top/crates.txt" >>"$folder/crates.txt"
done
echo 'blobs_bench: sg_base sg_ops sg_space sg_blob' >>"$folder/crates.txt"
cp "$top/HANDLES" "$folder"

cat >"$bench/proofs/Lib.antt" <<'RATTLE'
mod Sizes
RATTLE

cat >"$bench/proofs/Sizes.antt" <<'RATTLE'
-- A blob that keeps its length.
use Rattle.std.proofs.Common.{◌≡◌, ℕ, ◌+◌, ◌-◌, ◌*◌, ◌≤◌, List, [], length, ap, subst, sym, ◌∙◌, arith}
use Rattle.std.proofs.Math.Seq.{take-nil}
use Rattle.std.proofs.lemmas.List.{length-replicate}
use Rattle.sg_base.proofs.Overwriting.{length-overwritten}
use Rattle.sg_blob.specs.Blob.{Blob, IsBlob}
use Rattle.sg_blob.specs.Calls.{HasBlob, DidIf, CanWriteAt, HasBandsFor, IsPlaced, IsPaintedAt, IsResized, Made, empty_blob, resized}
use Rattle.sg_ops.proofs.Rendering.{length-rendered}
use Rattle.sg_ops.specs.Table.{Table, range_at, rendered}
use Rattle.sg_space.specs.View.{View, OnlyReads}

abbrev pub HasSize : View → ℕ → ℕ → Type 0
HasSize v root size = HasBlob v root (λ b. length b.bytes ≡ size)

-- bytes within a blob may be written, where an action may take and open anything
pub can_write_at : (v : View) (root at count size : ℕ) (b : Blob) → IsBlob v.space.pages.at v.space.bands.at root b → length b.bytes ≡ size → at + count ≤ size → v.MayTake → ((n : ℕ) → v.MayHave root n) → CanWriteAt v root at count b
can_write_at v root at count size b is long within opens may =
    let below : length b.bytes ≤ b.peak = is.raw.below_peak in
    let least : b.peak ≤ 32768 * length b.bands = is.least in
    record { from = omega arith; bands = record { free = omega arith; may_take = λ _. opens; may_fill = λ lt n le. may n } }

pub can_write : (v : View) (root at count size : ℕ) → v.Told → HasSize v root size → at + count ≤ size → v.MayTake → ((n : ℕ) → v.MayHave root n) → HasBlob v root (CanWriteAt v root at count)
can_write v root at count size told h within opens may = λ _. let x = h told in (x.0, x.1, can_write_at v root at count size x.0 x.1 x.2 within opens may)

pub written : (v w : View) (root at size : ℕ) (bytes : List ℕ) → DidIf v w root (CanWriteAt v root at (length bytes)) (IsPlaced at bytes) → v.Told → HasSize v root size → at + length bytes ≤ size → v.MayTake → ((n : ℕ) → v.MayHave root n) → HasSize w root size
written v w root at size bytes did told h within opens may = λ _.
    let x = h told in
    let t = did.turns told x.0 x.1 (can_write_at v root at (length bytes) size x.0 x.1 x.2 within opens may) in
    let long : length x.0.bytes ≡ size = x.2 in
    (t.0, t.1.blob, ap (λ (l : List ℕ). length l) t.2.bytes ∙ length-overwritten x.0.bytes at bytes (omega arith) ∙ x.2)

pub can_read : (v : View) (root at count size : ℕ) → v.Told → HasSize v root size → at + count ≤ size → HasBlob v root (λ b. at + count ≤ length b.bytes)
can_read v root at count size told h within = λ _. let x = h told in let long : length x.0.bytes ≡ size = x.2 in (x.0, x.1, omega arith)

pub only_read : (v w : View) (root size : ℕ) → OnlyReads v w → v.Told → v.Shows → HasSize v root size → HasSize w root size
only_read v w root size reads told shows h = λ _.
    let x = h told in
    (x.0, subst (λ (s : _). IsBlob s.pages.at s.bands.at root x.0) (sym (reads.same shows)) x.1, x.2)

pub painted : (t : Table) (v w : View) (root at count code size : ℕ) (arg : List ℕ) → DidIf v w root (λ b. at + count ≤ length b.bytes) (IsPaintedAt t at count code arg) → v.Told → HasSize v root size → at + count ≤ size → HasSize w root size
painted t v w root at count code size arg did told h within = λ _.
    let x = h told in
    let long : length x.0.bytes ≡ size = x.2 in
    let r = did.turns told x.0 x.1 (omega arith) in
    let many : length (rendered (range_at t code) arg at count) ≡ count = length-rendered (range_at t code) arg at count in
    (r.0, r.1.blob, ap (λ (l : List ℕ). length l) r.2.bytes ∙ length-overwritten x.0.bytes at (rendered (range_at t code) arg at count) (omega arith) ∙ x.2)

-- a new blob may be made longer
can_resize : (v w : View) (root size : ℕ) → w.space.bands.free ≡ v.space.bands.free → size ≤ 16384000 → 500 ≤ v.space.bands.free → w.MayTake → ((n : ℕ) → w.MayHave root n) → HasBandsFor w root size empty_blob
can_resize v w root size same small free opens may = record { free = omega arith; may_take = λ lt. opens; may_fill = λ lt n le. may n }

pub may_resize : (v w : View) (root size : ℕ) → Made v w root → v.Told → size ≤ 16384000 → 500 ≤ v.space.bands.free → w.MayTake → ((n : ℕ) → w.MayHave root n) → HasBlob w root (HasBandsFor w root size)
may_resize v w root size made told small free opens may = λ _.
    let done = made.done told in
    (empty_blob, done.blob, can_resize v w root size (ap (λ (u : _). u.free) done.bands) small free opens may)

length-resized : (size : ℕ) → length (resized size []) ≡ size
length-resized size =
    rw take-nil (length-replicate (size - 0) 0 ∙ omega arith)

pub resized_is : (v w u : View) (root size : ℕ) → Made v w root → v.Told → w.Told → size ≤ 16384000 → 500 ≤ v.space.bands.free → w.MayTake → ((n : ℕ) → w.MayHave root n) → DidIf w u root (HasBandsFor w root size) (IsResized size) → HasSize u root size
resized_is v w u root size made told told' small free opens may did = λ _.
    let done = made.done told in
    let t = did.turns told' empty_blob done.blob (can_resize v w root size (ap (λ (u : _). u.free) done.bands) small free opens may) in
    (t.0, t.1.blob, ap (λ (l : List ℕ). length l) t.2.bytes ∙ length-resized size)
RATTLE

cat >"$bench/proofs/make_blob/Answers.antt" <<'RATTLE'
use Rattle.blobs_bench.proofs.Sizes.{may_resize, resized_is}
use Rattle.blobs_bench.proofs.make_blob.Goals as goal

pub set_len-requires-clause-there : goal.set_len-requires-clause-there
set_len-requires-clause-there g c = may_resize _ _ c.in_ok-root.root.0 c.args.size c.in_ok-root.ensures.did tt c.requires.small c.requires.bands tt (λ n. tt)

pub returns : goal.returns
returns g c = resized_is _ _ _ c.in_ok-root.root.0 c.args.size c.in_ok-root.ensures.did tt tt c.requires.small c.requires.bands tt (λ n. tt) c.in_ok-set_len.ensures.did
RATTLE

cat >"$bench/proofs/paint_rounds/Invariants.antt" <<'RATTLE'
use Rattle.sg_space.specs.Memory.{memory_view}
use Rattle.blobs_bench.proofs.Sizes.{HasSize}
use Rattle.blobs_bench.proofs.paint_rounds.Given as goal

abbrev pub invariant-rounds : goal.invariant-rounds
invariant-rounds g l = HasSize (memory_view l.space) l.root.0 l.size
RATTLE

cat >"$bench/proofs/paint_through/Answers.antt" <<'RATTLE'
use Rattle.std.proofs.Common.{◌+◌, ◌*◌, ◌≤◌, arith}
use Rattle.sg_space.specs.Memory.{memory_view}
use Rattle.blobs_bench.proofs.Sizes.{can_read, painted}
use Rattle.blobs_bench.proofs.paint_through.Goals as goal

pub paint-requires-clause-there : goal.paint-requires-clause-there
paint-requires-clause-there g c =
    let within : c.pieces.k * 65536 + 65536 ≤ c.args.size = omega arith in
    can_read (memory_view c.pieces.space) c.args.root.0 _ _ c.args.size tt c.pieces.invariant within

pub pieces-preserved : goal.pieces-preserved
pieces-preserved g c =
    let within : c.pieces.k * 65536 + 65536 ≤ c.args.size = omega arith in
    painted _ _ _ c.args.root.0 _ _ _ c.args.size _ c.in_ok-paint.ensures.did tt c.pieces.invariant within
RATTLE

cat >"$bench/proofs/paint_through/Invariants.antt" <<'RATTLE'
use Rattle.sg_space.specs.Memory.{memory_view}
use Rattle.blobs_bench.proofs.Sizes.{HasSize}
use Rattle.blobs_bench.proofs.paint_through.Given as goal

abbrev pub invariant-pieces : goal.invariant-pieces
invariant-pieces g l = HasSize (memory_view l.space) l.root.0 l.size
RATTLE

cat >"$bench/proofs/read_rounds/Invariants.antt" <<'RATTLE'
use Rattle.sg_space.specs.Memory.{memory_view}
use Rattle.blobs_bench.proofs.Sizes.{HasSize}
use Rattle.blobs_bench.proofs.read_rounds.Given as goal

abbrev pub invariant-rounds : goal.invariant-rounds
invariant-rounds l = HasSize (memory_view l.space) l.root.0 l.size
RATTLE

cat >"$bench/proofs/read_through/Answers.antt" <<'RATTLE'
use Rattle.std.proofs.Common.{◌+◌, ◌*◌, ◌≤◌, length, arith}
use Rattle.sg_space.specs.Memory.{memory_view}
use Rattle.blobs_bench.proofs.Sizes.{can_read, only_read}
use Rattle.blobs_bench.proofs.read_through.Goals as goal

pub read-requires : goal.read-requires
read-requires c =
    let within : c.pieces.k * 65536 + length c.pieces.into ≤ c.args.size = omega arith in
    can_read (memory_view c.pieces.space) c.args.root.0 _ _ c.args.size tt c.pieces.invariant within

pub pieces-preserved : goal.pieces-preserved
pieces-preserved c = only_read _ _ c.args.root.0 c.args.size c.in_ok-read.ensures.kept tt tt c.pieces.invariant
RATTLE

cat >"$bench/proofs/read_through/Invariants.antt" <<'RATTLE'
use Rattle.sg_space.specs.Memory.{memory_view}
use Rattle.blobs_bench.proofs.Sizes.{HasSize}
use Rattle.blobs_bench.proofs.read_through.Given as goal

abbrev pub invariant-pieces : goal.invariant-pieces
invariant-pieces l = HasSize (memory_view l.space) l.root.0 l.size
RATTLE

cat >"$bench/proofs/write_rounds/Invariants.antt" <<'RATTLE'
use Rattle.sg_space.specs.Memory.{memory_view}
use Rattle.blobs_bench.proofs.Sizes.{HasSize}
use Rattle.blobs_bench.proofs.write_rounds.Given as goal

abbrev pub invariant-rounds : goal.invariant-rounds
invariant-rounds g l = HasSize (memory_view l.space) l.root.0 l.size
RATTLE

cat >"$bench/proofs/write_through/Answers.antt" <<'RATTLE'
use Rattle.std.proofs.Common.{◌+◌, ◌*◌, ◌≤◌, length, arith}
use Rattle.blobs_bench.proofs.Sizes.{can_write, written}
use Rattle.blobs_bench.proofs.write_through.Goals as goal

pub write-requires-clause-there : goal.write-requires-clause-there
write-requires-clause-there g c =
    let piece = c.requires.piece in
    let within : c.pieces.k * 65536 + length c.args.bytes.now ≤ c.args.size = omega arith in
    can_write _ c.args.root.0 _ _ c.args.size tt c.pieces.invariant within tt (λ n. tt)

pub pieces-preserved : goal.pieces-preserved
pieces-preserved g c =
    let piece = c.requires.piece in
    let within : c.pieces.k * 65536 + length c.args.bytes.now ≤ c.args.size = omega arith in
    written _ _ c.args.root.0 _ c.args.size c.args.bytes.now c.in_ok-write.ensures.did tt c.pieces.invariant within tt (λ n. tt)
RATTLE

cat >"$bench/proofs/write_through/Invariants.antt" <<'RATTLE'
use Rattle.sg_space.specs.Memory.{memory_view}
use Rattle.blobs_bench.proofs.Sizes.{HasSize}
use Rattle.blobs_bench.proofs.write_through.Given as goal

abbrev pub invariant-pieces : goal.invariant-pieces
invariant-pieces g l = HasSize (memory_view l.space) l.root.0 l.size
RATTLE

cat >"$bench/src/main.rt" <<'RATTLE'
//! Times the bytes of a blob over pages and bands in memory.
#![tactic(auto)]

ghost use Rattle.std.specs.Prelude.{◌≡◌, ◌≤◌, ◌<◌, IsSome, IsTrue, OnOk, IfOk, length};
ghost use Rattle.sg_blob.specs.Calls.{HasBlob};
ghost use Rattle.sg_ops.specs.Table.{table_of, range_at};
ghost use Rattle.sg_space.specs.Memory.{memory_view};

use sg_base::PageNo;
use sg_blob::{make, paint, read, set_len, write};
use sg_ops::Ops;
use sg_space::{MemSpace, PageSpace, SpaceFault};
use std::io;
use std::time::Instant;

// How many bytes the blob has, and how many a call writes, reads or paints.
const SIZE: u32 = 16_384_000;

const PIECE: u32 = 65_536;

const ROUNDS: u32 = 40;

// The range operation that counts up from its argument.
const RAMP: u16 = 2;

// Makes a blob of this length.
fn make_blob(space: &mut MemSpace, ops: &Ops, size: u32) -> Result<PageNo, SpaceFault>
    requires small { size ≤ 16384000 }
    requires page { 0 < (memory_view space.old).space.pages.free }
    requires bands { 500 ≤ (memory_view space.old).space.bands.free }
    ensures { IfOk result (λ root. HasBlob (memory_view space.new) root.0 (λ b. length b.bytes ≡ size)) }
{
    let root = make(space, ops)?;
    set_len(space, ops, root, size)?;
    Ok(root)
}

fn write_through(
    space: &mut MemSpace,
    ops: &Ops,
    root: PageNo,
    size: u32,
    bytes: &[u8],
) -> Result<(), SpaceFault>
    requires small { size ≤ 16384000 }
    requires piece { length bytes.now ≡ PIECE }
    requires blob { HasBlob (memory_view space.old) root.0 (λ b. length b.bytes ≡ size) }
    ensures { OnOk result (HasBlob (memory_view space.new) root.0 (λ b. length b.bytes ≡ size)) }
{
    'pieces: for k in 0..size / PIECE {
        write(space, ops, root, k * PIECE, bytes)?;
    }
    Ok(())
}

fn read_through(
    space: &mut MemSpace,
    root: PageNo,
    size: u32,
    into: &mut [u8],
) -> Result<(), SpaceFault>
    requires small { size ≤ 16384000 }
    requires piece { length into.old ≡ PIECE }
    requires blob { HasBlob (memory_view space.old) root.0 (λ b. length b.bytes ≡ size) }
    ensures { OnOk result (HasBlob (memory_view space.new) root.0 (λ b. length b.bytes ≡ size)) }
{
    'pieces: for k in 0..size / PIECE {
        read(space, root, k * PIECE, into)?;
    }
    Ok(())
}

fn paint_through(space: &mut MemSpace, ops: &Ops, root: PageNo, size: u32) -> Result<(), SpaceFault>
    requires small { size ≤ 16384000 }
    requires known { IsSome (range_at (table_of record_meaning range_meaning ops.now) RAMP) }
    requires blob { HasBlob (memory_view space.old) root.0 (λ b. length b.bytes ≡ size) }
    ensures { OnOk result (HasBlob (memory_view space.new) root.0 (λ b. length b.bytes ≡ size)) }
{
    'pieces: for k in 0..size / PIECE {
        paint(space, ops, root, k * PIECE, PIECE, RAMP, &[7])?;
    }
    Ok(())
}

fn told(rt: &HostRuntime, what: &str, start: Instant) -> io::Result<()> {
    let nanoseconds = start.elapsed(rt)?.as_nanos();
    let bytes = SIZE as u64 * ROUNDS as u64;
    println!(rt; "{what} {bytes} {nanoseconds}")
}

// Goes through the blob again and again, and answers whether nothing failed.
fn write_rounds(space: &mut MemSpace, ops: &Ops, root: PageNo, size: u32, bytes: &[u8]) -> bool
    requires small { size ≤ 16384000 }
    requires piece { length bytes.now ≡ PIECE }
    requires blob { HasBlob (memory_view space.old) root.0 (λ b. length b.bytes ≡ size) }
    ensures { IsTrue result → HasBlob (memory_view space.new) root.0 (λ b. length b.bytes ≡ size) }
{
    'rounds: for _ in 0..ROUNDS {
        if write_through(space, ops, root, size, bytes).is_err() {
            return false;
        }
    }
    true
}

fn read_rounds(space: &mut MemSpace, root: PageNo, size: u32, into: &mut [u8]) -> bool
    requires small { size ≤ 16384000 }
    requires piece { length into.old ≡ PIECE }
    requires blob { HasBlob (memory_view space.old) root.0 (λ b. length b.bytes ≡ size) }
    ensures { IsTrue result → HasBlob (memory_view space.new) root.0 (λ b. length b.bytes ≡ size) }
{
    'rounds: for _ in 0..ROUNDS {
        if read_through(space, root, size, into).is_err() {
            return false;
        }
    }
    true
}

fn paint_rounds(space: &mut MemSpace, ops: &Ops, root: PageNo, size: u32) -> bool
    requires small { size ≤ 16384000 }
    requires known { IsSome (range_at (table_of record_meaning range_meaning ops.now) RAMP) }
    requires blob { HasBlob (memory_view space.old) root.0 (λ b. length b.bytes ≡ size) }
{
    'rounds: for _ in 0..ROUNDS {
        if paint_through(space, ops, root, size).is_err() {
            return false;
        }
    }
    true
}

// Times the three.
fn time(
    rt: &HostRuntime,
    space: &mut MemSpace,
    ops: &Ops,
    piece: &mut [u8],
    size: u32,
) -> io::Result<()>
    requires small { size ≤ 16384000 }
    requires piece { length piece.old ≡ PIECE }
    requires page { 0 < (memory_view space.old).space.pages.free }
    requires bands { 500 ≤ (memory_view space.old).space.bands.free }
    requires known { IsSome (range_at (table_of record_meaning range_meaning ops.now) RAMP) }
{
    let Ok(root) = make_blob(space, ops, size) else {
        return println!(rt; "no blob");
    };
    let start = Instant::now(rt)?;
    if !write_rounds(space, ops, root, size, piece) {
        return println!(rt; "a write failed");
    }
    told(rt, "write", start)?;
    let start = Instant::now(rt)?;
    if !read_rounds(space, root, size, piece) {
        return println!(rt; "a read failed");
    }
    told(rt, "read", start)?;
    let start = Instant::now(rt)?;
    if !paint_rounds(space, ops, root, size) {
        return println!(rt; "a painting failed");
    }
    told(rt, "paint", start)
}

fn main(rt: HostRuntime) -> io::Result<()> {
    let alloc = rt.alloc();
    let (Ok(mut space), Ok(ops), Ok(mut piece)) = (
        MemSpace::new(alloc, 2, 502),
        Ops::shipped(alloc),
        vec![in alloc; 5u8; PIECE as usize],
    ) else {
        return println!(rt; "no memory");
    };
    if space.free_pages() == 0 || space.free_bands() < 500 || !ops.has_range(RAMP) {
        return println!(rt; "no room");
    }
    time(&rt, &mut space, &ops, piece.as_mut_slice(), SIZE)
}
RATTLE

cat >"$folder/copy.c" <<'C'
// As many bytes, in pieces as large, between the same sizes of memory, by memcpy.
#include <stdio.h>
#include <stdlib.h>
#include <string.h>
#include <time.h>

enum { SIZE = 16384000, PIECE = 65536, ROUNDS = 40 };

static long long since(struct timespec start) {
    struct timespec end;
    clock_gettime(CLOCK_MONOTONIC, &end);
    return (end.tv_sec - start.tv_sec) * 1000000000LL + (end.tv_nsec - start.tv_nsec);
}

int main(void) {
    char *blob = malloc(SIZE), *piece = malloc(PIECE);
    struct timespec start;
    if (!blob || !piece) return 3;
    memset(blob, 1, SIZE);
    memset(piece, 5, PIECE);
    clock_gettime(CLOCK_MONOTONIC, &start);
    for (int r = 0; r < ROUNDS; r++)
        for (int at = 0; at < SIZE; at += PIECE) {
            memcpy(blob + at, piece, PIECE);
            __asm__ volatile("" ::: "memory");
        }
    printf("write %lld %lld\n", (long long)SIZE * ROUNDS, since(start));
    clock_gettime(CLOCK_MONOTONIC, &start);
    for (int r = 0; r < ROUNDS; r++)
        for (int at = 0; at < SIZE; at += PIECE) {
            memcpy(piece, blob + at, PIECE);
            __asm__ volatile("" ::: "memory");
        }
    printf("read %lld %lld\n", (long long)SIZE * ROUNDS, since(start));
    return 0;
}
C

(cd "$bench" && rt run >"$folder/said" 2>&1) || { cat "$folder/said" >&2; exit 1; }
cc -O2 -o "$folder/copy" "$folder/copy.c"

python3 - "$bench/out/blobs_bench" "$folder/copy" "$rounds" <<'PYTHON'
import statistics, subprocess, sys


def rates(program):
    """Megabytes in a second of each thing that is timed, by what the program prints."""
    said = subprocess.run([program], capture_output=True, text=True, check=True).stdout
    rows = [line.split() for line in said.splitlines()]
    return {what: int(count) * 1e3 / int(nanoseconds) for what, count, nanoseconds in rows}


runs = [(rates(sys.argv[1]), rates(sys.argv[2])) for _ in range(int(sys.argv[3]))]
for what, beside in (("write", "write"), ("read", "read"), ("paint", "write")):
    blob, copy = [run[0][what] for run in runs], [run[1][beside] for run in runs]
    print(
        f"{what}: {statistics.median(blob):,.0f} MB a second, best {max(blob):,.0f}; "
        f"memcpy {statistics.median(copy):,.0f}, best {max(copy):,.0f}; "
        f"ratio {statistics.median(blob) / statistics.median(copy):.3f}, best {max(blob) / max(copy):.3f}"
    )
PYTHON
