#!/usr/bin/env bash
# Prints how many changes a second the page engine makes over a folder, in the temporary folder of the system, each with its
# record: 8 bytes in one page that is in a frame; 8 bytes in pages in turn, of 4,096 through 1,024 frames, so that each page
# goes home before it is changed again; 8 bytes in bands in turn, of 4 that are in windows; and in turn of 16 through 4
# windows. Beside each it prints what a plain program does a second that writes the same 8 bytes to the same places
# of a file by pwrite, without a log and without a sync. The records are read from their bytes, one a change.
#
# The store is made by the crates themselves: zeros and a superblock, without an opening. The program is written here, into a copy of the crates that it stands on,
# `sg_folder` among them, proved there, and built. The crates are to be checked before (`rt check` in each, or `.ci/run`).
# It wants cc.
set -eu
top="$(cd "$(dirname "$(readlink -f "${BASH_SOURCE[0]}")")/.." && pwd)"
folder="$(mktemp -d)"
trap 'rm -rf "$folder"' EXIT
bench="$folder/crates/engine_bench"
mkdir -p "$bench/src"
libraries='base bits record segment slotted frames disk folder log gate ops step action redo window pool engine'
for name in $libraries; do
    cp -R "$top/crates/sg_$name" "$folder/crates/"
done
grep -E "^sg_(${libraries// /|}):" "$top/crates.txt" >"$folder/crates.txt"
echo 'engine_bench: sg_base sg_disk sg_folder sg_gate sg_log sg_ops sg_record sg_redo sg_pool sg_engine' >>"$folder/crates.txt"
cp "$top/HANDLES" "$folder"

cat >"$bench/src/main.rt" <<'PROGRAM'
//! What changes of pages and bands with their records cost over a folder.
#![tactic(auto)]

use sg_base::PageNo;
use sg_disk::{Area, Disk};
use sg_engine::Engine;
use sg_folder::FolderDisk;
use sg_gate::{Super, page_start, renew};
use sg_log::Log;
use sg_ops::Ops;
use sg_pool::Pool;
use sg_record::{Rec, decode};
use std::io;
use std::time::Instant;

const PAGES: u32 = 4_096;

const STORE: Super = Super {
    sequence: 1,
    pages: PAGES,
    bands: 16,
    frames: 1_024,
    windows: 4,
    log: 0,
    base: 0,
};

// A page is formatted, 8 bytes are put into its slot 0, they are set, and 8 bytes of a band are written. The number of
// the page or band stands from byte 21 on.
const FORMAT: [u8; 36] = [
    2, 36, 0, 0, 0, 5, 0, 0, 0, 0, 0, 0, 0, 26, 0, 0, 0, 0, 0, 0, 0, 0, 0, 0, 0, 1, 0, 0, 0, 0, 1,
    0, 1, 0, 0, 1,
];

const PUT: [u8; 42] = [
    2, 42, 0, 0, 0, 5, 0, 0, 0, 0, 0, 0, 0, 26, 0, 0, 0, 0, 0, 0, 0, 0, 0, 0, 0, 2, 0, 0, 0, 0, 0,
    0, 8, 0, 1, 2, 3, 4, 5, 6, 7, 8,
];

const SET: [u8; 50] = [
    2, 50, 0, 0, 0, 5, 0, 0, 0, 0, 0, 0, 0, 26, 0, 0, 0, 0, 0, 0, 0, 0, 0, 0, 0, 4, 0, 0, 0, 0, 8,
    0, 8, 0, 1, 2, 3, 4, 5, 6, 7, 8, 8, 7, 6, 5, 4, 3, 2, 1,
];

const WRITE: [u8; 49] = [
    3, 49, 0, 0, 0, 5, 0, 0, 0, 0, 0, 0, 0, 26, 0, 0, 0, 0, 0, 0, 0, 0, 0, 0, 0, 232, 3, 0, 0, 8, 0,
    0, 0, 0, 0, 0, 0, 0, 0, 0, 0, 1, 2, 3, 4, 5, 6, 7, 8,
];

// An engine and the operations that its records name.
struct Bench<D: Disk + Drop> {
    engine: Engine<D>,
    ops: Ops,
}

impl<D: Disk + Drop> Bench<D> {
    // Whether the first record of the text was done.
    fn change(&mut self, text: &[u8]) -> bool {
        match decode(text) {
            Ok((Rec::Page { txn, prev, change }, _)) => {
                change.page.0 < self.engine.pages()
                    && self.engine.log_page(txn, prev, change, &self.ops).is_ok()
            }
            Ok((Rec::SegWrite { txn, prev, change }, _)) => {
                change.band.0 < self.engine.bands()
                    && self.engine.log_write(txn, prev, change).is_ok()
            }
            _ => false,
        }
    }

    // The same of another page or band.
    fn change_at(&mut self, text: &[u8], unit: u32) -> bool {
        let mut bytes = [0; 50];
        if text.len() < 25 || text.len() > 50 {
            return false;
        }
        let record = &mut bytes[..text.len()];
        record.copy_from_slice(text);
        record[21..25].copy_from_slice(&unit.to_le_bytes());
        self.change(record)
    }

    // How many changes of so many were done, of units in turn.
    fn walk(&mut self, text: &[u8], count: u32, units: u32) -> u32 {
        let mut done = 0u32;
        for turn in 0..count {
            if self.change_at(text, turn.checked_rem(units).unwrap_or(0)) {
                done = done.saturating_add(1);
            }
        }
        done
    }
}

// Whether the superblock and all pages were written, as zeros, and synced.
fn fill<D: Disk>(disk: &mut D) -> bool {
    let zeros = [0; 4_096];
    for p in 0..PAGES {
        if p < 1_048_576 && disk.write_at(Area::Home, page_start(PageNo(p)), &zeros).is_err() {
            return false;
        }
    }
    disk.sync(Area::Home).is_ok() && renew(disk, &STORE).is_ok()
}

fn told(rt: &HostRuntime, what: &str, done: u32, start: Instant) -> io::Result<()> {
    let all = start.elapsed(rt)?.as_nanos();
    let each = all.checked_div(u128::from(done)).unwrap_or(0);
    let rate = 1_000_000_000u128.checked_div(each).unwrap_or(0);
    println!(rt; "{done} {what}: {each} ns each, {rate} a second")
}

fn measure<D: Disk + Drop>(rt: &HostRuntime, bench: &mut Bench<D>) -> io::Result<()> {
    bench.walk(&FORMAT, PAGES, PAGES);
    bench.walk(&PUT, PAGES, PAGES);
    let start = Instant::now(rt)?;
    let done = bench.walk(&SET, 1_000_000, 1);
    told(rt, "changes of one page", done, start)?;
    let start = Instant::now(rt)?;
    let done = bench.walk(&SET, 20_000, PAGES);
    told(rt, "changes of pages in turn, four times the frames", done, start)?;
    let start = Instant::now(rt)?;
    let done = bench.walk(&WRITE, 1_000_000, 4);
    told(rt, "changes of bands in windows", done, start)?;
    let start = Instant::now(rt)?;
    let done = bench.walk(&WRITE, 2_000, 16);
    told(rt, "changes of bands in turn, four times the windows", done, start)
}

fn main(rt: HostRuntime) -> io::Result<()> {
    let mut disk = FolderDisk::new(&rt, "store");
    if !fill(&mut disk) {
        return println!(rt; "the folder can't be written to");
    }
    let (Ok(log), Ok(ops)) = (
        Log::attach(rt.alloc(), &mut disk, Area::Log0, 0),
        Ops::shipped(rt.alloc()),
    ) else {
        return println!(rt; "no log, or no memory");
    };
    let Ok(pool) = Pool::new(rt.alloc(), &STORE) else {
        return println!(rt; "no memory");
    };
    let mut bench = Bench {
        engine: Engine::of_parts(disk, log, pool),
        ops,
    };
    let answer = measure(&rt, &mut bench);
    let Bench { engine, ops: _ } = bench;
    drop(engine.into_disk());
    answer
}
PROGRAM

cat >"$folder/plain.c" <<'C'
// The same 8 bytes at the same places of a file, one pwrite each.
#include <fcntl.h>
#include <stdint.h>
#include <stdio.h>
#include <time.h>
#include <unistd.h>

enum { HOMES = 143360, PAGE = 4096, PAGES = 4096, BAND = 32768 };

static const uint8_t bytes[8] = { 8, 7, 6, 5, 4, 3, 2, 1 };

static int write_all(int file, const char *what, long count, long units, off_t first, off_t each, off_t at) {
    struct timespec start, end;
    clock_gettime(CLOCK_MONOTONIC, &start);
    for (long turn = 0; turn < count; turn++)
        if (pwrite(file, bytes, sizeof bytes, first + turn % units * each + at) != sizeof bytes) return 1;
    clock_gettime(CLOCK_MONOTONIC, &end);
    double taken = (end.tv_sec - start.tv_sec) * 1e9 + (end.tv_nsec - start.tv_nsec);
    printf("plain: %ld %s: %.0f ns each, %.0f a second\n", count, what, taken / count, count * 1e9 / taken);
    return 0;
}

int main(void) {
    int file = open("plain", O_RDWR | O_CREAT | O_TRUNC, 0600);
    if (file < 0) return 1;
    static const uint8_t zeros[PAGE];
    for (long p = 0; p < PAGES; p++)
        if (pwrite(file, zeros, PAGE, HOMES + (off_t)p * PAGE) != PAGE) return 1;
    if (fsync(file)) return 1;
    off_t bands = HOMES + (off_t)PAGES * PAGE;
    return write_all(file, "changes of one page", 1000000, 1, HOMES, PAGE, PAGE - 8)
        || write_all(file, "changes of pages in turn", 20000, PAGES, HOMES, PAGE, PAGE - 8)
        || write_all(file, "changes of 4 bands", 1000000, 4, bands, BAND, 1000)
        || write_all(file, "changes of 16 bands", 2000, 16, bands, BAND, 1000);
}
C
cc -O2 -o "$folder/plain_writes" "$folder/plain.c"

cd "$bench"
rt run
cd "$folder"
./plain_writes
