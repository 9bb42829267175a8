#!/usr/bin/env bash
# Prints how many pages a second the buffer manager gives over a folder, in the temporary folder of the system: of pages that
# are in a frame (hits), of pages that have to be read into the frame of a clean page (misses), and of pages whose frame holds
# a changed page, which goes home first, through the double-write area and behind a force of the log (changed misses). The
# store has 16,384 pages, 64 MB, and the pool 1,024 frames. The hits go to drawn pages; the misses go through the store in its
# order, which is longer than the frames, so that each of them misses.
# The program is written here, into a copy of the crates that it stands on, `sg_folder` among them, proved
# there, and built. The crates are to be checked before (`rt check` in each, or `.ci/run`).
set -eu
top="$(cd "$(dirname "$(readlink -f "${BASH_SOURCE[0]}")")/.." && pwd)"
folder="$(mktemp -d)"
trap 'rm -rf "$folder"' EXIT
bench="$folder/crates/pool_bench"
mkdir -p "$bench/src"
libraries='base bits record segment slotted frames disk folder log gate ops step action redo window pool'
for name in $libraries; do
    cp -R "$top/crates/sg_$name" "$folder/crates/"
done
grep -E "^sg_(${libraries// /|}):" "$top/crates.txt" >"$folder/crates.txt"
echo 'pool_bench: sg_base sg_disk sg_folder sg_gate sg_log sg_ops sg_record sg_pool' >>"$folder/crates.txt"
cp "$top/HANDLES" "$folder"

cat >"$bench/src/main.rt" <<'PROGRAM'
//! What hits and misses of the buffer manager cost over a folder.
#![tactic(auto)]

use sg_base::{Lsn, PageNo, PageOp, TxnId};
use sg_disk::{Area, Disk};
use sg_folder::FolderDisk;
use sg_gate::{Super, page_start};
use sg_log::Log;
use sg_ops::Ops;
use sg_pool::Pool;
use sg_record::Rec;
use std::io;
use std::time::Instant;

const PAGES: u32 = 16_384;

const FRAMES: u32 = 1_024;

const STORE: Super = Super {
    sequence: 1,
    pages: PAGES,
    bands: 8,
    frames: FRAMES,
    windows: 4,
    log: 0,
    base: 0,
};

// A record of 21 bytes, for the sake of its number.
const RECORD: Rec<'static> = Rec::Begin {
    txn: TxnId(5),
    prev: 0,
};

// A pool with its disk and log.
struct Bench<D: Disk + Drop> {
    disk: D,
    log: Log,
    ops: Ops,
    pool: Pool,
}

impl<D: Disk + Drop> Bench<D> {
    // Whether the page was given.
    fn get(&mut self, p: u32) -> bool {
        p < self.pool.pages() && self.pool.page(&mut self.disk, &mut self.log, PageNo(p)).is_ok()
    }

    // How many of so many drawn pages below the number were given.
    fn draw(&mut self, count: u32, below: u32) -> u32 {
        let mut done = 0u32;
        let mut seed = 54u32;
        for _turn in 0..count {
            seed = seed.wrapping_mul(1_664_525).wrapping_add(1_013_904_223);
            if self.get((seed >> 4).checked_rem(below).unwrap_or(0)) {
                done = done.saturating_add(1);
            }
        }
        done
    }

    // How many of so many pages were given, from this one on in their order.
    fn walk(&mut self, from: u32, count: u32) -> u32 {
        let mut done = 0u32;
        for turn in 0..count {
            if self.get(from.wrapping_add(turn) & 16_383) {
                done = done.saturating_add(1);
            }
        }
        done
    }

    // Whether the page was changed.
    fn change(&mut self, p: u32) -> bool {
        let Ok(lsn) = self.log.append(&mut self.disk, &RECORD) else {
            return false;
        };
        self.format(p, lsn)
    }

    fn format(&mut self, p: u32, lsn: Lsn) -> bool {
        let op = PageOp::Format { kind: 1 };
        p < self.pool.pages()
            && self
                .pool
                .change_page(&mut self.disk, &mut self.log, PageNo(p), lsn, &op, &self.ops)
                .is_ok()
    }

    // How many of so many pages were changed, from this one on in their order.
    fn change_all(&mut self, from: u32, count: u32) -> u32 {
        let mut done = 0u32;
        for turn in 0..count {
            if self.change(from.wrapping_add(turn) & 16_383) {
                done = done.saturating_add(1);
            }
        }
        done
    }

    fn end(self) {
        let Bench {
            disk: _,
            log: _,
            ops: _,
            pool,
        } = self;
        pool.end();
    }
}

// Whether all pages were written, as zeros, and synced.
fn fill<D: Disk>(disk: &mut D) -> bool {
    let zeros = [0; 4_096];
    for p in 0..PAGES {
        if p < 1_048_576 && disk.write_at(Area::Home, page_start(PageNo(p)), &zeros).is_err() {
            return false;
        }
    }
    disk.sync(Area::Home).is_ok()
}

fn told(rt: &HostRuntime, what: &str, done: u32, start: Instant) -> io::Result<()> {
    let all = start.elapsed(rt)?.as_nanos();
    let each = all.checked_div(u128::from(done)).unwrap_or(0);
    let rate = 1_000_000_000u128.checked_div(each).unwrap_or(0);
    println!(rt; "{done} {what}: {each} ns each, {rate} a second")
}

fn measure<D: Disk + Drop>(rt: &HostRuntime, bench: &mut Bench<D>) -> io::Result<()> {
    bench.walk(0, FRAMES);
    let start = Instant::now(rt)?;
    let done = bench.draw(2_000_000, FRAMES);
    told(rt, "hits", done, start)?;
    let start = Instant::now(rt)?;
    let done = bench.walk(FRAMES, 200_000);
    told(rt, "misses", done, start)?;
    bench.change_all(0, FRAMES);
    let start = Instant::now(rt)?;
    let done = bench.change_all(FRAMES, 500);
    told(rt, "changed misses", done, start)
}

fn main(rt: HostRuntime) -> io::Result<()> {
    let mut disk = FolderDisk::new(&rt, "store");
    if !fill(&mut disk) {
        return println!(rt; "the folder can't be written to");
    }
    let (Ok(log), Ok(ops)) = (
        Log::attach(rt.alloc(), &mut disk, Area::Log0, 0),
        Ops::shipped(rt.alloc()),
    ) else {
        return println!(rt; "no log, or no memory");
    };
    let Ok(pool) = Pool::new(rt.alloc(), &STORE) else {
        return println!(rt; "no memory");
    };
    let mut bench = Bench {
        disk,
        log,
        ops,
        pool,
    };
    let answer = measure(&rt, &mut bench);
    bench.end();
    answer
}
PROGRAM

cd "$bench"
rt run
