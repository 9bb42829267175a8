#!/usr/bin/env bash
# Prints what a push and a get of an array cost, in a space in memory, at 1,000 items up to 1,000,000. An item has 8 bytes. The
# gets go to the places in their order, and to drawn places, which miss the processor's caches where the pages don't fit them.
# The program is written here, into a copy of the crates that it stands on, proved there, and built. The crates are to be
# checked before (`rt check` in each, or `.ci/run`).
set -eu
top="$(cd "$(dirname "$(readlink -f "${BASH_SOURCE[0]}")")/.." && pwd)"
folder="$(mktemp -d)"
trap 'rm -rf "$folder"' EXIT
mkdir -p "$folder/crates/arrays_bench/src"
libraries='base bits ops slotted alloc step space array'
for name in $libraries; do
    cp -R "$top/crates/sg_$name" "$folder/crates/"
done
grep -E "^sg_(${libraries// /|}):" "$top/crates.txt" >"$folder/crates.txt"
echo 'arrays_bench: sg_base sg_ops sg_space sg_array' >>"$folder/crates.txt"

cat >"$folder/crates/arrays_bench/src/main.rt" <<'PROGRAM'
//! What a push and a get of an array cost.
#![tactic(auto)]

use sg_base::PageNo;
use sg_ops::Ops;
use sg_space::{Guarded, MemSpace};
use std::io;
use std::time::Instant;

const GETS: u32 = 1_000_000;

// How many calls were answered.
fn push_all(space: &mut Guarded, ops: &Ops, root: PageNo, count: u32) -> u32 {
    let mut done = 0u32;
    for i in 0..count {
        if sg_array::push(space, ops, root, &u64::from(i).to_le_bytes()).is_ok() {
            done = done.saturating_add(1);
        }
    }
    done
}

fn get_all(space: &mut Guarded, root: PageNo, count: u32, drawn: bool) -> u32 {
    let mut done = 0u32;
    let mut seed = 54u32;
    let mut item = [0; 8];
    for turn in 0..GETS {
        seed = seed.wrapping_mul(1_664_525).wrapping_add(1_013_904_223);
        let place = if drawn { seed >> 4 } else { turn };
        let i = place.checked_rem(count).unwrap_or(0);
        if sg_array::get(space, root, i, &mut item).is_ok() && item == u64::from(i).to_le_bytes() {
            done = done.saturating_add(1);
        }
    }
    done
}

fn told(rt: &HostRuntime, what: &str, count: u32, done: u32, start: Instant) -> io::Result<()> {
    let all = start.elapsed(rt)?.as_nanos();
    let each = all.checked_div(u128::from(done)).unwrap_or(0);
    let rate = 1_000_000_000u128.checked_div(each).unwrap_or(0);
    println!(rt; "{count} items: {done} {what}, {each} ns each, {rate} a second")
}

fn measure(rt: &HostRuntime, count: u32) -> io::Result<()> {
    let (Ok(space), Ok(ops)) = (MemSpace::new(rt.alloc(), 4096, 2), Ops::shipped(rt.alloc())) else {
        return Ok(());
    };
    let mut space = Guarded::new(space);
    let Ok(root) = sg_array::make(&mut space, &ops, 8) else {
        return Ok(());
    };
    let start = Instant::now(rt)?;
    let done = push_all(&mut space, &ops, root, count);
    told(rt, "pushes", count, done, start)?;
    let start = Instant::now(rt)?;
    let done = get_all(&mut space, root, count, false);
    told(rt, "gets in order", count, done, start)?;
    let start = Instant::now(rt)?;
    let done = get_all(&mut space, root, count, true);
    told(rt, "gets at drawn places", count, done, start)
}

fn main(rt: HostRuntime) -> io::Result<()> {
    measure(&rt, 1_000)?;
    measure(&rt, 10_000)?;
    measure(&rt, 100_000)?;
    measure(&rt, 1_000_000)
}
PROGRAM

cd "$folder/crates/arrays_bench"
rt run
