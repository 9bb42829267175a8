#!/usr/bin/env bash
# Prints what a taking and a freeing of a page cost with so many pages taken: a million pairs of `free_page` and `take_page` each,
# on the maps of 1,048,576 pages with 1,000 of them taken, half of them, and all. The page that is freed is drawn from those that
# are taken, and is the least free one then, so that the taking has to find it. Then the same on a space in memory of 65,536
# pages, which also writes the head of each page that it takes: there the memory over which the taken pages lie shows, from
# 4 MB with 1,000 of them to 256 MB with all. The program is written here, into a copy of the crates that it stands on, proved
# there, and built. The crates are to be checked before (`rt check` in each, or `.ci/run`).
set -eu
top="$(cd "$(dirname "$(readlink -f "${BASH_SOURCE[0]}")")/.." && pwd)"
folder="$(mktemp -d)"
trap 'rm -rf "$folder"' EXIT
mkdir -p "$folder/crates/space_bench/src"
for crate in sg_base sg_ops sg_bits sg_alloc sg_slotted sg_step sg_space; do
    cp -R "$top/crates/$crate" "$folder/crates/"
done
grep -E '^sg_(base|ops|bits|alloc|slotted|step|space):' "$top/crates.txt" >"$folder/crates.txt"
echo 'space_bench: sg_base sg_alloc sg_space' >>"$folder/crates.txt"

cat >"$folder/crates/space_bench/src/main.rt" <<'PROGRAM'
//! What a taking and a freeing of a page cost.
#![tactic(auto)]

ghost use Rattle.std.specs.Prelude.{◌<◌};

use sg_alloc::Maps;
use sg_base::PageNo;
use sg_space::{MemSpace, PageSpace};
use std::io;
use std::time::Instant;

const PAIRS: u64 = 1_000_000;

fn told(rt: &HostRuntime, what: &str, taken: u32, pairs: u64, start: Instant) -> io::Result<()> {
    let each = start.elapsed(rt)?.as_nanos() / u128::from(pairs.max(1));
    println!(rt; "{what}, {taken} taken: {each} ns")
}

// A page below the count, drawn by the number of the turn.
fn drawn(turn: u64, count: u32) -> PageNo
    requires some { 0 < count }
    requires turn { turn < PAIRS }
{
    PageNo((turn * 7_919 % 1_000_003 * 65_537 % count as u64) as u32)
}

fn take(maps: &mut Maps) -> bool {
    if maps.free_pages() == 0 {
        return false;
    }
    maps.take_page();
    true
}

fn free(maps: &mut Maps, p: PageNo) -> bool {
    if maps.page_taken(p) != Some(true) {
        return false;
    }
    maps.free_page(p);
    true
}

// Takes pages up to this count, and then frees and takes again and again.
fn on_maps(rt: &HostRuntime, pages: u32, taken: u32) -> io::Result<()>
    requires { 0 < taken }
{
    let Ok(mut maps) = Maps::new(rt.alloc(), pages, 1) else {
        return println!(rt; "no memory");
    };
    let start = Instant::now(rt)?;
    for _ in 0..taken {
        if !take(&mut maps) {
            return println!(rt; "too many");
        }
    }
    told(rt, "maps: taking the next", taken, u64::from(taken), start)?;
    let start = Instant::now(rt)?;
    for turn in 0..PAIRS {
        if !free(&mut maps, drawn(turn, taken)) || !take(&mut maps) {
            return println!(rt; "a page that is taken isn't");
        }
    }
    told(rt, "maps: freeing one and taking it", taken, PAIRS, start)
}

fn take_of(space: &mut MemSpace) -> bool {
    space.free_pages() > 0 && space.take_page(3).is_ok()
}

fn free_of(space: &mut MemSpace, p: PageNo) -> bool {
    space.has_page(p) && space.free_page(p).is_ok()
}

// The same on a space in memory, which has taken page 0.
fn on_space(rt: &HostRuntime, taken: u32) -> io::Result<()>
    requires { 0 < taken }
{
    let Ok(mut space) = MemSpace::new(rt.alloc(), 65_536, 2) else {
        return println!(rt; "no memory");
    };
    for _ in 1..taken {
        if !take_of(&mut space) {
            return println!(rt; "too many");
        }
    }
    let start = Instant::now(rt)?;
    for turn in 0..PAIRS {
        if !free_of(&mut space, drawn(turn, taken)) || !take_of(&mut space) {
            return println!(rt; "a page that is taken isn't");
        }
    }
    told(rt, "space: freeing one and taking it", taken, PAIRS, start)
}

fn main(rt: HostRuntime) -> io::Result<()> {
    for taken in [1_000, 524_288, 1_048_576] {
        on_maps(&rt, 1_048_576, taken)?;
    }
    for taken in [1_000, 32_768, 65_536] {
        on_space(&rt, taken)?;
    }
    Ok(())
}
PROGRAM

cd "$folder/crates/space_bench"
rt run
