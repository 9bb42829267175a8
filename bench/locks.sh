#!/usr/bin/env bash
# Prints what a line's locks cost with so many pairs held: ten, and 4,000. One transaction holds them, items of one
# array or whole objects, and asks again and again for what a set of an item or a make of an object touches, held
# already or new; another does a short transaction beside it. The program is written here, into a copy of the crates
# that it stands on, proved there, and built. The crates are to be checked before (`rt check` in each, or `.ci/run`).
set -eu
top="$(cd "$(dirname "$(readlink -f "${BASH_SOURCE[0]}")")/.." && pwd)"
folder="$(mktemp -d)"
trap 'rm -rf "$folder"' EXIT
mkdir -p "$folder/crates/locks_bench/src"
for crate in sg_base sg_ops sg_serial sg_model sg_locks; do
    cp -R "$top/crates/$crate" "$folder/crates/"
done
grep -E '^sg_(base|ops|serial|model|locks):' "$top/crates.txt" >"$folder/crates.txt"
echo 'locks_bench: sg_base sg_model sg_locks' >>"$folder/crates.txt"

cat >"$folder/crates/locks_bench/src/main.rt" <<'PROGRAM'
//! What a line's locks cost.
#![tactic(auto)]

ghost use Rattle.std.specs.Prelude.{◌<◌};

use sg_base::{Name, TxnId};
use sg_locks::Locks;
use sg_model::{Resource, Touch};
use std::io;
use std::time::Instant;

const LINES: u64 = 100_000;

fn name(n: u64) -> Option<Name> {
    let mut text = *b"a00000";
    let mut rest = n;
    for i in 0..5 {
        text[5 - i] = b'0' + (rest % 10) as u8;
        rest /= 10;
    }
    Name::new(&text)
}

fn read(what: Resource) -> Touch {
    Touch { what, write: false }
}

fn write(what: Resource) -> Touch {
    Touch { what, write: true }
}

fn set(a: Name, i: u64) -> [Touch; 2] {
    [read(Resource::Name(a)), write(Resource::Item(a, i))]
}

fn told(rt: &HostRuntime, what: &str, held: u64, lines: u64, start: Instant) -> io::Result<()> {
    let each = start.elapsed(rt)?.as_nanos() / u128::from(lines.max(1));
    println!(rt; "{what}, {held} held: {each} ns")
}

// One transaction holds items of one array.
fn items(rt: &HostRuntime, held: u64) -> io::Result<()>
    requires { 0 < held }
{
    let (Ok(mut locks), Some(a), Some(b)) = (Locks::new(rt.alloc()), name(1), name(2)) else {
        return Ok(());
    };
    let one = TxnId(1);
    let start = Instant::now(rt)?;
    for i in 0..held {
        locks.try_lock(one, &set(a, i));
    }
    told(rt, "a new item", held, held, start)?;
    let start = Instant::now(rt)?;
    for i in 0..LINES {
        locks.try_lock(one, &set(a, i * 7919 % held));
    }
    told(rt, "an item that is held", held, LINES, start)?;
    let start = Instant::now(rt)?;
    for i in 0..LINES {
        locks.try_lock(TxnId(2), &set(b, i));
        locks.release(TxnId(2));
    }
    told(rt, "a line and the end of another", held, LINES, start)?;
    let start = Instant::now(rt)?;
    for _ in 0..LINES / 100 {
        locks.try_lock(TxnId(2), &[read(Resource::Names)]);
        locks.release(TxnId(2));
    }
    told(rt, "a list of the names and an end", held, LINES / 100, start)?;
    let start = Instant::now(rt)?;
    locks.release(one);
    told(rt, "the end, for each", held, held, start)
}

// One transaction makes objects.
fn objects(rt: &HostRuntime, held: u64) -> io::Result<()>
    requires { 0 < held }
{
    let Ok(mut locks) = Locks::new(rt.alloc()) else {
        return Ok(());
    };
    let one = TxnId(1);
    let start = Instant::now(rt)?;
    for n in 0..held {
        if let Some(a) = name(n) {
            locks.try_lock(one, &[write(Resource::AllOf(a))]);
        }
    }
    told(rt, "a new object", held, held, start)?;
    let start = Instant::now(rt)?;
    for n in 0..LINES {
        if let Some(a) = name(n % held) {
            locks.try_lock(one, &[write(Resource::AllOf(a))]);
        }
    }
    told(rt, "an object that is held", held, LINES, start)
}

fn main(rt: HostRuntime) -> io::Result<()> {
    items(&rt, 10)?;
    objects(&rt, 10)?;
    items(&rt, 4000)?;
    objects(&rt, 4000)
}
PROGRAM

cd "$folder/crates/locks_bench"
rt run
