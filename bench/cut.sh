#!/usr/bin/env bash
# Prints how long a cut of a log of 64 MB takes over a folder, in the temporary folder of the system: all frames but the first are
# copied to the other area and made durable there. Beside that it prints how long dd takes to copy as many bytes and to make them durable.
# The program is written here, into a copy of the crates that it stands on, `sg_folder` among them, proved there, and built. The crates are
# to be checked before (`rt check` in each, or `.ci/run`).
set -eu
top="$(cd "$(dirname "$(readlink -f "${BASH_SOURCE[0]}")")/.." && pwd)"
folder="$(mktemp -d)"
trap 'rm -rf "$folder"' EXIT
bench="$folder/crates/cut_bench"
mkdir -p "$bench/src"
libraries='base disk folder record log'
for name in $libraries; do
    cp -R "$top/crates/sg_$name" "$folder/crates/"
done
grep -E "^sg_(${libraries// /|}):" "$top/crates.txt" >"$folder/crates.txt"
echo 'cut_bench: sg_base sg_disk sg_folder sg_log sg_record' >>"$folder/crates.txt"
cp "$top/HANDLES" "$folder"

cat >"$bench/src/main.rt" <<'PROGRAM'
//! What a cut of a log costs over a folder.
#![tactic(auto)]

use sg_base::{Lsn, TxnId};
use sg_disk::{Area, Disk};
use sg_folder::FolderDisk;
use sg_log::Log;
use sg_record::Rec;
use std::io;
use std::time::Instant;

// So many records of 21 bytes are 64 MB.
const RECORDS: u32 = 3_195_660;

const RECORD: Rec<'static> = Rec::Begin {
    txn: TxnId(5),
    prev: 0,
};

// A byte of the second frame.
const POINT: Lsn = 70_000;

fn fill<D: Disk>(disk: &mut D, log: &mut Log) -> bool {
    for _record in 0..RECORDS {
        if log.append(disk, &RECORD).is_err() {
            return false;
        }
    }
    log.force(disk).is_ok()
}

fn cut<D: Disk>(disk: &mut D, log: &mut Log) -> bool {
    if log.base() > POINT || POINT >= log.durable() {
        return false;
    }
    log.cut(disk, POINT).is_ok()
}

fn main(rt: HostRuntime) -> io::Result<()> {
    let mut disk = FolderDisk::new(&rt, "store");
    let Ok(mut log) = Log::attach(rt.alloc(), &mut disk, Area::Log0, 0) else {
        return println!(rt; "no log, or no memory");
    };
    if !fill(&mut disk, &mut log) {
        return println!(rt; "the folder can't be written to");
    }
    let start = Instant::now(&rt)?;
    let done = cut(&mut disk, &mut log);
    let all = start.elapsed(&rt)?.as_micros();
    let kept = log.durable().saturating_sub(log.base());
    println!(rt; "{done}: {kept} bytes kept by a cut, {all} us")
}
PROGRAM

cd "$bench"
rt run
cd "$folder"
head -c 67108864 /dev/zero >plain
dd if=plain of=copied bs=4096 conv=fsync 2>&1 | tail -n 1
