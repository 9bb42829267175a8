#!/usr/bin/env bash
# Prints what a put and a find of a hash table cost, in a space in memory, and how many pages the table has then, at 1,000 keys up to 1,000,000.
# A key has 4 bytes and a value 8. The finds are of drawn keys. The program is written here, into a copy of the crates that it stands on, proved
# there, and built. The crates are to be checked before (`rt check` in each, or `.ci/run`).
set -eu
top="$(cd "$(dirname "$(readlink -f "${BASH_SOURCE[0]}")")/.." && pwd)"
folder="$(mktemp -d)"
trap 'rm -rf "$folder"' EXIT
mkdir -p "$folder/crates/hash_bench/src"
libraries='base bits ops slotted alloc step space linear array bucket hash'
for name in $libraries; do
    cp -R "$top/crates/sg_$name" "$folder/crates/"
done
grep -E "^sg_(${libraries// /|}):" "$top/crates.txt" >"$folder/crates.txt"
echo 'hash_bench: sg_base sg_ops sg_space sg_hash' >>"$folder/crates.txt"

cat >"$folder/crates/hash_bench/src/main.rt" <<'PROGRAM'
//! What a put and a find of a hash table cost.
#![tactic(auto)]

use sg_base::PageNo;
use sg_ops::Ops;
use sg_space::{Guarded, MemSpace, PageSpace};
use std::io;
use std::time::Instant;

const FINDS: u32 = 1_000_000;

// How many calls were answered.
fn put_all(space: &mut Guarded, ops: &Ops, root: PageNo, count: u32) -> u32 {
    let mut done = 0u32;
    for i in 0..count {
        if sg_hash::put(space, ops, root, &i.to_le_bytes(), &[7; 8], true).is_ok() {
            done = done.saturating_add(1);
        }
    }
    done
}

fn find_all(space: &mut Guarded, root: PageNo, count: u32) -> u32 {
    let mut done = 0u32;
    let mut seed = 54u32;
    let mut value = [0; 1_024];
    for _ in 0..FINDS {
        seed = seed.wrapping_mul(1_664_525).wrapping_add(1_013_904_223);
        let i = (seed >> 4).checked_rem(count).unwrap_or(0);
        if let Ok(Some(8)) = sg_hash::find(space, root, &i.to_le_bytes(), &mut value) {
            done = done.saturating_add(1);
        }
    }
    done
}

fn told(rt: &HostRuntime, what: &str, count: u32, done: u32, start: Instant) -> io::Result<()> {
    let all = start.elapsed(rt)?.as_nanos();
    let each = all.checked_div(u128::from(done)).unwrap_or(0);
    let rate = 1_000_000_000u128.checked_div(each).unwrap_or(0);
    println!(rt; "{count} keys: {done} {what}, {each} ns each, {rate} a second")
}

fn measure(rt: &HostRuntime, count: u32) -> io::Result<()> {
    let (Ok(space), Ok(ops)) = (MemSpace::new(rt.alloc(), 65_536, 2), Ops::shipped(rt.alloc())) else {
        return Ok(());
    };
    let mut space = Guarded::new(space);
    let Ok(root) = sg_hash::make(&mut space, &ops) else {
        return Ok(());
    };
    let free = space.free_pages();
    let start = Instant::now(rt)?;
    let done = put_all(&mut space, &ops, root, count);
    told(rt, "puts", count, done, start)?;
    let pages = free.saturating_sub(space.free_pages());
    println!(rt; "{count} keys: {pages} pages more")?;
    let start = Instant::now(rt)?;
    let done = find_all(&mut space, root, count);
    told(rt, "finds", count, done, start)
}

fn main(rt: HostRuntime) -> io::Result<()> {
    measure(&rt, 1_000)?;
    measure(&rt, 10_000)?;
    measure(&rt, 100_000)?;
    measure(&rt, 1_000_000)
}
PROGRAM

cd "$folder/crates/hash_bench"
rt run
