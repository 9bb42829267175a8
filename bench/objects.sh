#!/usr/bin/env bash
# Prints how many verbs a second are done to objects in a space in memory (sg_objects), and beside that how many to plain objects in memory
# (sg_plain): items of 8 bytes pushed, set and read, entries of 4 bytes and 8 put and found, 100 bytes of a blob written and read. Each is done
# 100,000 times, at drawn places. The words: how many times, where it isn't 100,000. The program is written here, into a copy of the crates
# that it stands on, proved there, and built. The crates are to be checked before (`rt check` in each, or `.ci/run`).
set -eu
top="$(cd "$(dirname "$(readlink -f "${BASH_SOURCE[0]}")")/.." && pwd)"
count="${1:-100000}"
if ! [[ "$count" =~ ^[1-9][0-9]{0,6}$ ]]; then
    echo "objects.sh: $count is no number from 1 to 9999999" >&2
    exit 2
fi
folder="$(mktemp -d)"
trap 'rm -rf "$folder"' EXIT
mkdir -p "$folder/crates/objects_bench/src"
libraries='base bits ops serial record slotted alloc step space action recovery blob array catalog linear bucket hash model reading contents before reach names bands chains once tables walk objects plain'
for name in $libraries; do
    cp -R "$top/crates/sg_$name" "$folder/crates/"
done
grep -E "^sg_(${libraries// /|}):" "$top/crates.txt" >"$folder/crates.txt"
echo 'objects_bench: sg_base sg_ops sg_model sg_space sg_objects sg_plain' >>"$folder/crates.txt"

cat >"$folder/crates/objects_bench/src/main.rt" <<PROGRAM
//! What verbs cost on objects of a space, and on plain ones.
#![tactic(auto)]

use sg_base::{Name, TxnId};
use sg_model::Op;
use sg_objects::perform;
use sg_ops::Ops;
use sg_plain::Objects;
use sg_space::{Guarded, MemSpace, UndoNote};
use std::alloc::Global;
use std::io;
use std::time::Instant;

const COUNT: u32 = $count;

PROGRAM
cat >>"$folder/crates/objects_bench/src/main.rt" <<'PROGRAM'
#[derive(Clone, Copy)]
enum Kind {
    Push,
    Set,
    Get,
    Put,
    Find,
    Write,
    Read,
}

// The objects that the verbs are done to.
#[derive(Clone, Copy)]
struct Names {
    array: Name,
    table: Name,
    blob: Name,
}

// The verb of a drawn number.
fn verb<'a>(kind: Kind, names: &Names, drawn: u32, key: &'a [u8; 4], bytes: &'a [u8; 100]) -> Op<'a> {
    let index = u64::from(drawn);
    let at = u64::from(drawn % 900_000);
    match kind {
        Kind::Push => Op::Push { name: names.array, value: &bytes[..8] },
        Kind::Set => Op::Set { name: names.array, index, value: &bytes[..8] },
        Kind::Get => Op::Get { name: names.array, index },
        Kind::Put => Op::Put { name: names.table, key, value: &bytes[..8] },
        Kind::Find => Op::Find { name: names.table, key },
        Kind::Write => Op::Write { name: names.blob, at, bytes },
        Kind::Read => Op::Read { name: names.blob, at, count: 100 },
    }
}

fn next(seed: u32) -> u32 {
    seed.wrapping_mul(1_664_525).wrapping_add(1_013_904_223)
}

fn drawn_below(seed: u32) -> u32 {
    (seed >> 4).checked_rem(COUNT).unwrap_or(0)
}

// How many verbs were accepted by objects of a space.
fn all_in_space(space: &mut Guarded, ops: &Ops, kind: Kind, names: &Names, into: &mut [u8; 8192]) -> u32 {
    let mut done = 0u32;
    let mut seed = 54u32;
    for _ in 0..COUNT {
        seed = next(seed);
        let drawn = drawn_below(seed);
        let mut note = UndoNote::new();
        let key = drawn.to_le_bytes();
        let op = verb(kind, names, drawn, &key, &[7; 100]);
        if perform(space, ops, TxnId(7), &op, into, &mut note).is_ok() {
            done = done.saturating_add(1);
        }
    }
    done
}

// The same of plain objects.
fn all_in_plain(plain: &mut Objects, alloc: Global, ops: &Ops, kind: Kind, names: &Names, into: &mut [u8; 8192]) -> u32 {
    let mut done = 0u32;
    let mut seed = 54u32;
    for _ in 0..COUNT {
        seed = next(seed);
        let drawn = drawn_below(seed);
        let key = drawn.to_le_bytes();
        let op = verb(kind, names, drawn, &key, &[7; 100]);
        if let Ok(Ok(_)) = plain.apply(alloc, ops, &op, into) {
            done = done.saturating_add(1);
        }
    }
    done
}

fn told(rt: &HostRuntime, what: &str, done: u32, start: Instant) -> io::Result<()> {
    let all = start.elapsed(rt)?.as_nanos();
    let each = all.checked_div(u128::from(COUNT)).unwrap_or(0);
    let rate = 1_000_000_000u128.checked_div(each).unwrap_or(0);
    println!(rt; "{what}: {done} accepted, {each} ns each, {rate} a second")
}

fn make_all(space: &mut Guarded, plain: &mut Objects, alloc: Global, ops: &Ops, names: &Names, into: &mut [u8; 8192]) {
    let all = [
        Op::MakeArray { name: names.array, size: 8 },
        Op::MakeTable { name: names.table },
        Op::MakeBlob { name: names.blob },
        Op::Size { name: names.blob, length: 1_000_000 },
    ];
    for op in &all {
        let mut note = UndoNote::new();
        let _ = perform(space, ops, TxnId(7), op, into, &mut note);
        let _ = plain.apply(alloc, ops, op, into);
    }
}

fn measure(rt: &HostRuntime, space: &mut Guarded, ops: &Ops, names: &Names) -> io::Result<()> {
    let mut plain = Objects::empty(rt.alloc());
    let mut into = [0; 8192];
    make_all(space, &mut plain, rt.alloc(), ops, names, &mut into);
    let kinds = [
        ("push", Kind::Push),
        ("set", Kind::Set),
        ("get", Kind::Get),
        ("put", Kind::Put),
        ("find", Kind::Find),
        ("write", Kind::Write),
        ("read", Kind::Read),
    ];
    for (what, kind) in &kinds {
        println!(rt; "{what}")?;
        let start = Instant::now(rt)?;
        let done = all_in_space(space, ops, *kind, names, &mut into);
        told(rt, "    in a space", done, start)?;
        let start = Instant::now(rt)?;
        let done = all_in_plain(&mut plain, rt.alloc(), ops, *kind, names, &mut into);
        told(rt, "    plain", done, start)?;
    }
    Ok(())
}

fn main(rt: HostRuntime) -> io::Result<()> {
    let (Ok(space), Ok(ops)) = (MemSpace::new(rt.alloc(), 65_536, 64), Ops::shipped(rt.alloc())) else {
        return Ok(());
    };
    let (Some(array), Some(table), Some(blob)) = (Name::new(b"a"), Name::new(b"h"), Name::new(b"b")) else {
        return Ok(());
    };
    let mut space = Guarded::new(space);
    let names = Names { array, table, blob };
    measure(&rt, &mut space, &ops, &names)
}
PROGRAM

cd "$folder/crates/objects_bench"
rt run
