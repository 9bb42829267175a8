#!/usr/bin/env bash
# Prints how many pages a second the walk over all that objects reach (sg_objects) goes over, with 1,000 objects and with 10,000: by turns an array
# of 16 items of 256 bytes, a table of three entries of 100 bytes and an empty blob.
#
# First in a space in memory: the walk twice, then with one mark lent in place of 65,536, so that each name is counted over all pages of the catalogue;
# and over one table of 100,000 entries, beside that the comparing of its keys alone. Then over stores in a folder of the moment, of 256 frames, with the same
# objects, which the program has made: the store is opened with no page in memory, and the walk is done twice, and once with one mark. The files are in the system's cache
# where it has room, so that a page that no frame has costs a read from there.
#
# The words: how many objects the greater space has, where it isn't 10,000 (99,999 at most; the store over a folder has 131,072 pages, room for some 39,000), and
# `memory` or `folder` where only one of the two is wanted. Both programs are written here, into copies of the crates that they stand on, proved there, and built.
# The crates are to be checked before (`rt check` in each, or `.ci/run`). The folder stands where TMPDIR says.
set -eu
top="$(cd "$(dirname "$(readlink -f "${BASH_SOURCE[0]}")")/.." && pwd)"
count="${1:-10000}"
wanted="${2:-both}"
if ! [[ "$count" =~ ^[1-9][0-9]{0,4}$ && "$wanted" =~ ^(memory|folder|both)$ ]]; then
    echo "reach.sh: the words are a number from 1 to 99999, and memory or folder" >&2
    exit 2
fi
folder="$(mktemp -d)"
trap 'rm -rf "$folder"' EXIT

# Copies a crate and those below it, each once, with what was proved of them, and writes their lines.
copy_crates() {
    local crate
    for crate in "$@"; do
        [[ "$crate" == sg_* ]] && ! [ -d "$folder/crates/$crate" ] || continue
        cp -R "$top/crates/$crate" "$folder/crates/"
        grep "^$crate:" "$top/crates.txt" >>"$folder/crates.txt"
        # shellcheck disable=SC2046
        copy_crates $(sed -n "s/^$crate: *//p" "$top/crates.txt")
    done
}

# Begins a program of this name over these crates.
begin_program() {
    local name="$1"
    shift
    mkdir -p "$folder/crates/$name/src"
    copy_crates "$@"
    echo "$name: $*" >>"$folder/crates.txt"
}

cp "$top/HANDLES" "$folder"
begin_program reach_bench sg_base sg_ops sg_alloc sg_space sg_model sg_catalog sg_array sg_bucket sg_hash sg_chains sg_walk sg_objects

cat >"$folder/crates/reach_bench/src/main.rt" <<PROGRAM
//! What a walk over all that objects reach costs.
#![tactic(auto)]

use sg_alloc::Maps;
use sg_base::{BandNo, Name, PageNo, TxnId, read_u32};
use sg_model::Op;
use sg_objects::{perform, reach};
use sg_ops::Ops;
use sg_space::{Guarded, MemSpace, UndoNote};
use std::io;
use std::time::Instant;

const COUNT: u32 = $count;

PROGRAM
cat >>"$folder/crates/reach_bench/src/main.rt" <<'PROGRAM'
const PAGES: u32 = 131_072;

const ENTRIES: u32 = 100_000;

// A space, and the operations by which it is changed.
#[derive(Drop)]
struct Place {
    space: Guarded,
    ops: Ops,
}

fn new_place(rt: &HostRuntime) -> Option<Place> {
    let (Ok(space), Ok(ops)) = (MemSpace::new(rt.alloc(), PAGES, 4), Ops::shipped(rt.alloc())) else {
        return None;
    };
    Some(Place { space: Guarded::new(space), ops })
}

impl Place {
    fn does(&mut self, op: &Op<'_>) {
        let mut note = UndoNote::new();
        let mut into = [0; 8192];
        let _ = perform(&mut self.space, &self.ops, TxnId(7), op, &mut into, &mut note);
    }

    fn add_array(&mut self, name: Name) {
        self.does(&Op::MakeArray { name, size: 256 });
        for _ in 0..16 {
            self.does(&Op::Push { name, value: &[7; 256] });
        }
    }

    fn add_table(&mut self, name: Name, count: u32) {
        self.does(&Op::MakeTable { name });
        for i in 0..count {
            self.does(&Op::Put { name, key: &i.to_le_bytes(), value: &[7; 100] });
        }
    }
}

// The name of an object: a letter and five figures.
fn name_of(i: u32) -> Option<Name> {
    let mut text = *b"o00000";
    let mut rest = i;
    for place in 1..6 {
        text[place] = b'0' + (rest % 10) as u8;
        rest /= 10;
    }
    Name::new(&text)
}

fn fill(place: &mut Place, count: u32) {
    for i in 0..count {
        let Some(name) = name_of(i) else {
            continue;
        };
        match i % 3 {
            0 => place.add_array(name),
            1 => place.add_table(name, 3),
            _ => place.does(&Op::MakeBlob { name }),
        }
    }
}

fn told(rt: &HostRuntime, what: &str, pages: u32, start: Instant) -> io::Result<()> {
    let all = start.elapsed(rt)?.as_micros();
    let rate = (u128::from(pages) * 1_000_000).checked_div(all).unwrap_or(0);
    println!(rt; "    {what}: {pages} pages, {all} us, {rate} pages a second")
}

// Maps in which page 0 and the map's band alone are set.
fn begun(rt: &HostRuntime) -> Option<Maps> {
    let Ok(mut maps) = Maps::new(rt.alloc(), PAGES, 4) else {
        return None;
    };
    maps.set_page(PageNo(0));
    maps.set_band(BandNo(0));
    Some(maps)
}

// Walks where page 0 is set, with marks that the walk lends or with one alone. Whether the objects could be read.
fn walks(place: &mut Place, maps: &mut Maps, counting: bool) -> bool {
    let Some(true) = maps.page_taken(PageNo(0)) else {
        return false;
    };
    if counting {
        let mut marks = [false; 1];
        sg_walk::reach(&mut place.space, maps, &mut marks).is_ok()
    } else {
        reach(&mut place.space, maps).is_ok()
    }
}

fn walk(rt: &HostRuntime, place: &mut Place) -> io::Result<()> {
    let Some(mut maps) = begun(rt) else {
        return Ok(());
    };
    let free = maps.free_pages();
    let start = Instant::now(rt)?;
    let ok = walks(place, &mut maps, false);
    let pages = free.saturating_sub(maps.free_pages());
    told(rt, if ok { "a walk" } else { "a walk that failed" }, pages, start)
}

// With one mark all names but the first are counted.
fn walk_counting(rt: &HostRuntime, place: &mut Place) -> io::Result<()> {
    let Some(mut maps) = begun(rt) else {
        return Ok(());
    };
    let free = maps.free_pages();
    let start = Instant::now(rt)?;
    let ok = walks(place, &mut maps, true);
    let pages = free.saturating_sub(maps.free_pages());
    told(rt, if ok { "with each name counted" } else { "a walk that failed" }, pages, start)
}

fn measure(rt: &HostRuntime, count: u32) -> io::Result<()> {
    let Some(mut place) = new_place(rt) else {
        return Ok(());
    };
    fill(&mut place, count);
    println!(rt; "{count} objects")?;
    walk(rt, &mut place)?;
    walk(rt, &mut place)?;
    walk_counting(rt, &mut place)
}

// Looks that each key of the bucket that an item of the directory names stands once; how many pages it has.
fn check_bucket(space: &mut Guarded, directory: PageNo, i: u32) -> u32 {
    let mut item = [0; 4];
    if sg_array::get(space, directory, i, &mut item).is_err() {
        return 0;
    }
    let first = PageNo(read_u32(&item));
    let pages = sg_bucket::pages(space, first).unwrap_or(0);
    if sg_chains::check_once(space, first, pages).is_ok() { pages } else { 0 }
}

fn directory_of(space: &mut Guarded, name: Name) -> Option<PageNo> {
    use sg_space::PageSpace;
    let Ok(Some(entry)) = sg_catalog::find(space, name) else {
        return None;
    };
    let Ok(view) = space.page(entry.root) else {
        return None;
    };
    let (directory, _) = view.links();
    Some(PageNo(directory))
}

fn measure_keys(rt: &HostRuntime) -> io::Result<()> {
    let (Some(mut place), Some(name)) = (new_place(rt), Name::new(b"t")) else {
        return Ok(());
    };
    place.add_table(name, ENTRIES);
    println!(rt; "a table of {ENTRIES} entries")?;
    walk(rt, &mut place)?;
    let Some(directory) = directory_of(&mut place.space, name) else {
        return Ok(());
    };
    let buckets = sg_array::len(&mut place.space, directory).unwrap_or(0);
    let mut pages = 0u32;
    let start = Instant::now(rt)?;
    for i in 0..buckets {
        pages = pages.saturating_add(check_bucket(&mut place.space, directory, i));
    }
    told(rt, "its keys alone", pages, start)
}

fn main(rt: HostRuntime) -> io::Result<()> {
    measure(&rt, 1_000)?;
    measure(&rt, COUNT)?;
    measure_keys(&rt)
}
PROGRAM

[ "$wanted" = folder ] || (cd "$folder/crates/reach_bench" && rt run)
[ "$wanted" = memory ] && exit

begin_program reach_folder_bench sg_base sg_alloc sg_ops sg_folder sg_objects sg_walk sg_actions sg_reopen sg_phys sg_pages sg_attach

cat >"$folder/crates/reach_folder_bench/src/main.rt" <<'PROGRAM'
//! What a walk over all that objects reach costs in a store over the folder that the word names.
#![tactic(auto)]

ghost use Rattle.std.specs.Prelude.{◌≡◌, ◌≤◌, ◌<◌, IfOk, length};
ghost use Rattle.sg_alloc.specs.Flags.{free_of};

use sg_actions::{Acts, Row};
use sg_alloc::Maps;
use sg_attach::{AttachedStore, attach};
use sg_base::{BandNo, OutOfMemory, PageNo, Steps, TxnId};
use sg_folder::FolderDisk;
use sg_objects::reach;
use sg_ops::Ops;
use sg_pages::Phys;
use sg_reopen::Unopened;
use std::alloc::Global;
use std::marker::Brand;
use std::sync::ledger::{Blank, Ledger};
use std::time::Instant;
use std::{env, io};

// The sizes of the store.
const PAGES: u32 = 131_072;

const BANDS: u32 = 1_024;

type Engine<'a> = Phys<FolderDisk<'a, HostRuntime>>;

fn set_pages(maps: &mut Maps)
    ensures none { free_of maps.new.pages ≡ 0 }
    ensures long { length maps.new.pages ≡ length maps.old.pages }
    ensures bands { maps.new.bands ≡ maps.old.bands }
{
    'free: while maps.free_pages() > 0 {
        maps.take_page();
    }
}

fn set_bands(maps: &mut Maps)
    ensures none { free_of maps.new.bands ≡ 0 }
    ensures long { length maps.new.bands ≡ length maps.old.bands }
    ensures pages { maps.new.pages ≡ maps.old.pages }
{
    'free: while maps.free_bands() > 0 {
        maps.take_band();
    }
}

// Maps of so many pages and bands in which all is set.
fn full(alloc: Global, pages: u32, bands: u32) -> Result<Maps, OutOfMemory>
    ensures pages { IfOk result (λ m. length m.pages ≡ pages) }
    ensures no_page { IfOk result (λ m. free_of m.pages ≡ 0) }
    ensures bands { IfOk result (λ m. length m.bands ≡ bands) }
    ensures no_band { IfOk result (λ m. free_of m.bands ≡ 0) }
{
    let mut maps = Maps::new(alloc, pages, bands)?;
    set_pages(&mut maps);
    set_bands(&mut maps);
    Ok(maps)
}

// Maps in which page 0 and the map's band alone are set.
fn begun(rt: &HostRuntime) -> Option<Maps> {
    let Ok(mut maps) = Maps::new(rt.alloc(), PAGES, BANDS) else {
        return None;
    };
    maps.set_page(PageNo(0));
    maps.set_band(BandNo(0));
    Some(maps)
}

// Transactions over the engine, of which none is live. All pages and bands count as taken.
fn acts_over<'a>(
    engine: Engine<'a>,
    maps: Maps,
    unfreed: Maps,
    rows: Vec<Row>,
    pages: u32,
    bands: u32,
) -> Acts<Engine<'a>>
    requires pages { length maps.pages ≡ pages }
    requires bands { length maps.bands ≡ bands }
    requires unfreed_pages { length unfreed.pages ≡ pages }
    requires no_page { free_of unfreed.pages ≡ 0 }
    requires unfreed_bands { length unfreed.bands ≡ bands }
    requires no_band { free_of unfreed.bands ≡ 0 }
    requires few { pages ≤ 1048576 }
    requires few_bands { bands ≤ 65536 }
{
    Acts::new(engine, maps, unfreed, rows, pages, bands)
}

// The engine over a folder.
fn opened<'a, L: Ledger>(
    rt: &'a HostRuntime,
    path: &'a str,
    ops: &Ops,
    steps: &mut Steps<L>,
) -> Option<Engine<'a>> {
    match attach(rt, rt.alloc(), FolderDisk::new(rt, path), ops, steps) {
        Ok(
            AttachedStore {
                pages,
                geometry: _,
                analysis: _,
            },
        ) => Some(pages),
        Err(Unopened { disk: _, fault: _ }) => None,
    }
}

fn told(rt: &HostRuntime, what: &str, pages: u32, start: Instant) -> io::Result<()> {
    let all = start.elapsed(rt)?.as_micros();
    let rate = (u128::from(pages) * 1_000_000)
        .checked_div(all)
        .unwrap_or(0);
    println!(rt; "    {what}: {pages} pages, {all} us, {rate} pages a second")
}

// Walks where page 0 is set. Whether the objects could be read.
fn walks(acts: &mut Acts<Engine<'_>>, maps: &mut Maps) -> bool {
    let Some(true) = maps.page_taken(PageNo(0)) else {
        return false;
    };
    reach(acts, maps).is_ok()
}

// The same with one mark.
fn walks_counting(acts: &mut Acts<Engine<'_>>, maps: &mut Maps) -> bool {
    let Some(true) = maps.page_taken(PageNo(0)) else {
        return false;
    };
    let mut marks = [false; 1];
    sg_walk::reach(acts, maps, &mut marks).is_ok()
}

fn walk(rt: &HostRuntime, acts: &mut Acts<Engine<'_>>, counting: bool) -> io::Result<()> {
    let Some(mut maps) = begun(rt) else {
        return Ok(());
    };
    let free = maps.free_pages();
    let start = Instant::now(rt)?;
    let ok = if counting {
        walks_counting(acts, &mut maps)
    } else {
        walks(acts, &mut maps)
    };
    let pages = free.saturating_sub(maps.free_pages());
    let what = match (ok, counting) {
        (false, _) => "a walk that failed",
        (true, false) => "a walk",
        (true, true) => "with each name counted",
    };
    told(rt, what, pages, start)
}

fn walk_all(rt: &HostRuntime, acts: &mut Acts<Engine<'_>>) -> io::Result<()> {
    walk(rt, acts, false)?;
    walk(rt, acts, false)?;
    walk(rt, acts, true)
}

fn measure<L: Ledger>(rt: &HostRuntime, path: &str, blank: Blank) -> io::Result<()>
    requires name { blank.name ≡ L.name }
    requires parts { blank.parts ≡ L.parts }
    requires some { 0 < L.parts }
{
    let alloc = rt.alloc();
    let mut steps = Steps::<L>::open(blank);
    let (Ok(ops), Ok(maps), Ok(unfreed)) = (
        Ops::shipped(alloc),
        full(alloc, PAGES, BANDS),
        full(alloc, PAGES, BANDS),
    ) else {
        return println!(rt; "no memory");
    };
    let Some(engine) = opened(rt, path, &ops, &mut steps) else {
        return println!(rt; "no store is there");
    };
    let mut acts = acts_over(engine, maps, unfreed, Vec::new(alloc), PAGES, BANDS);
    let told = walk_all(rt, &mut acts);
    let _disk = acts.into_engine().into_disk();
    told
}

fn main(rt: HostRuntime) -> io::Result<()> {
    let words: Vec<String> = env::args(&rt)?.skip(1).collect(rt.alloc())?;
    let words: &[String] = words.as_slice();
    let [path] = words else {
        return println!(rt; "the word is a folder");
    };
    measure::<Brand>(&rt, path.as_str(), Blank::new(1))
}
PROGRAM

# The proofs: the engine's disk tells nothing, so that nothing is asked of what it has. What the tests over pages have of these, they lend.
proofs="$folder/crates/reach_folder_bench/proofs"
mkdir "$proofs"
cp -R "$top/crates/sg_tests_pages/proofs/"{Lib.antt,Full.antt,Silent.antt} "$proofs"
for name in set_pages set_bands opened; do
    cp -R "$top/crates/sg_tests_pages/proofs/stores/$name" "$proofs"
done
mkdir "$proofs/acts_over" "$proofs/walks" "$proofs/walks_counting"
find "$proofs" -name '*.antt' -exec sed -i 's/sg_tests_pages[.]proofs[.]stores/reach_folder_bench.proofs/; s/sg_tests_pages/reach_folder_bench/' {} +

cat >"$proofs/acts_over/Answers.antt" <<'ANSWERS'
use Rattle.std.proofs.Common.{arith}
use Rattle.reach_folder_bench.proofs.Full.{flags}
use Rattle.reach_folder_bench.proofs.Silent.{untold}
use Rattle.reach_folder_bench.proofs.acts_over.Goals as goal

pub new-requires-clause-pages : goal.new-requires-clause-pages
new-requires-clause-pages c = flags c.args.maps.pages c.args.unfreed.pages c.args.pages c.requires.pages c.requires.unfreed_pages (omega (arith, c.requires.few)) c.requires.no_page

pub new-requires-clause-bands : goal.new-requires-clause-bands
new-requires-clause-bands c = flags c.args.maps.bands c.args.unfreed.bands c.args.bands c.requires.bands c.requires.unfreed_bands (omega (arith, c.requires.few_bands)) c.requires.no_band

pub new-requires-clause-said : goal.new-requires-clause-said
new-requires-clause-said c = λ told. absurd (untold told)

pub new-requires-clause-within : goal.new-requires-clause-within
new-requires-clause-within c = λ told. absurd (untold told)
ANSWERS

for name in walks walks_counting; do
    cat >"$proofs/$name/Answers.antt" <<ANSWERS
use Rattle.reach_folder_bench.proofs.Silent.{untold}
use Rattle.reach_folder_bench.proofs.$name.Goals as goal

pub reach-requires-clause-there : goal.reach-requires-clause-there
reach-requires-clause-there c = λ told. absurd (untold told)
ANSWERS
done

# A script that makes so many objects, with a commit behind each hundred.
write_script() {
    awk -v count="$1" 'BEGIN {
        item = sprintf("%256s", ""); gsub(/ /, "i", item)
        value = substr(item, 1, 100)
        for (i = 0; i < count; i++) {
            if (i % 100 == 0) print "t begin"
            name = "o"; rest = i
            for (k = 0; k < 5; k++) { name = name (rest % 10); rest = int(rest / 10) }
            if (i % 3 == 0) {
                print "t make array", name, 256
                for (k = 0; k < 16; k++) print "t push", name, item
            } else if (i % 3 == 1) {
                print "t make table", name
                for (k = 0; k < 3; k++) print "t put", name, "k" k, value
            } else print "t make blob", name
            if (i % 100 == 99 || i == count - 1) print "t commit"
        }
    }'
}

"$top/stasis" build
printf 'pages = 131072\nbands = 1024\n' >"$folder/sizes"
(cd "$folder/crates/reach_folder_bench" && rt run -- none >"$folder/said" 2>&1) || {
    cat "$folder/said" >&2
    exit 1
}
for objects in 1000 "$count"; do
    "$top/stasis" init "$folder/store" --geometry "$folder/sizes" >"$folder/said"
    write_script "$objects" | "$top/stasis" run "$folder/store" >"$folder/said"
    ! grep -v '^ok' "$folder/said" >&2
    echo "$objects objects in a folder"
    "$folder/crates/reach_folder_bench/out/reach_folder_bench" "$folder/store"
    rm -rf "$folder/store"
done
