#!/usr/bin/env bash
# Prints what a get, a next and an insert of an ordered index cost, and how many of them there are in a second, at 1,000 entries up to 20,000
# before the inserts: over a map in memory, whose records are laid down as bytes, and over a hash table (sg_hash) in a space in memory, to which
# the same records are copied first. There each call on a record is one call on the hash table. The keys are drawn, of 1 to 8 bytes, and there
# or not, and the same over both. The program is written here, beside the table of the tests, into a copy of the crates that it stands on,
# proved there, and built. That the hash table keeps records as an index asks of them (`Records`) is proved there too: its map is that of the
# table which its pages say. The crates are to be checked before (`rt check` in each, or `.ci/run`).
set -eu
top="$(cd "$(dirname "$(readlink -f "${BASH_SOURCE[0]}")")/.." && pwd)"
folder="$(mktemp -d)"
trap 'rm -rf "$folder"' EXIT
mkdir -p "$folder/crates/index_bench/src" "$folder/crates/index_bench/proofs/hashed"/{make,find_in,put_in,del_in}
libraries='base bits ops serial record recovery slotted step action alloc space blob array catalog index linear bucket hash model reading contents
    once reader'
names=
for name in $libraries; do
    cp -R "$top/crates/sg_$name" "$folder/crates/"
    grep "^sg_$name:" "$top/crates.txt" >>"$folder/crates.txt"
    names="$names sg_$name"
done
echo "index_bench:$names arrayvec byteorder" >>"$folder/crates.txt"
tests="$top/crates/sg_tests_index"
for file in src/table.rt specs/Lib.antt specs/Table.antt proofs/Lib.antt proofs/Tables.antt proofs/table/Table/{erase,write}/Answers.antt; do
    mkdir -p "$(dirname "$folder/crates/index_bench/$file")"
    sed 's/sg_tests_index/index_bench/g' "$tests/$file" >"$folder/crates/index_bench/$file"
done
cd "$folder/crates/index_bench"
echo 'pub mod Hashed' >>specs/Lib.antt
echo 'pub mod Hashing' >>proofs/Lib.antt

cat >src/hashed.rt <<'PROGRAM'
// Records in a hash table in a space in memory.
ghost use Rattle.std.specs.Prelude.{◌≡◌, ◌≤◌, ⊤, IsSome, length, IfSome};
ghost use Rattle.sg_index.specs.Records.{IsFound, Puts, Dels};
ghost use Rattle.sg_space.specs.Memory.{space_of};
ghost use Rattle.index_bench.specs.Hashed.{Stands, records_in};

use crate::table::Refused;
use sg_base::PageNo;
use sg_index::Records;
use sg_ops::Ops;
use sg_space::{MemSpace, PageSpace};
use std::alloc::Global;

/// Records in a hash table in memory.
#[derive(Drop)]
pub struct Hashed {
    space: MemSpace,
    ops: Ops,
    root: PageNo,
    refusals: u64,
    ghost stands: { Stands (space_of space) root.0 },
}

// A table without entries, in a space that has room for it.
fn make(space: &mut MemSpace, ops: &Ops) -> PageNo
    requires { 5 ≤ (space_of space.old).pages.free }
    ensures { Stands (space_of space.new) result.0 }
{
    match sg_hash::make(space, ops) {
        Ok(root) => root,
        Err(_) => unreachable!(),
    }
}

// The value of a key. In memory no call fails.
fn find_in(space: &mut MemSpace, root: PageNo, key: &[u8], into: &mut [u8]) -> Option<usize>
    requires room { 1024 ≤ length into.old }
    requires stands { Stands (space_of space.old) root.0 }
    ensures found { IsFound (records_in (space_of space.old) root.0 key.now) result into.new }
    ensures within { IfSome result (λ n. n ≤ length into.new) }
    ensures size { length into.new ≡ length into.old }
    ensures stays { Stands (space_of space.new) root.0 }
    ensures kept { records_in (space_of space.new) root.0 ≡ records_in (space_of space.old) root.0 }
{
    match sg_hash::find(space, root, key, into) {
        Ok(found) => found,
        Err(_) => unreachable!(),
    }
}

// Puts an entry where there is room.
fn put_in(space: &mut MemSpace, ops: &Ops, root: PageNo, key: &[u8], value: &[u8])
    requires some { 1 ≤ length key.now }
    requires key { length key.now ≤ 128 }
    requires value { length value.now ≤ 1024 }
    requires free { 11 ≤ (space_of space.old).pages.free }
    requires zero { IsSome ((space_of space.old).pages.at 0) }
    requires stands { Stands (space_of space.old) root.0 }
    ensures stays { Stands (space_of space.new) root.0 }
    ensures put { Puts (records_in (space_of space.old) root.0) key.now value.now (records_in (space_of space.new) root.0) }
{
    match sg_hash::put(space, ops, root, key, value, true) {
        Ok(_) => {}
        Err(_) => unreachable!(),
    }
}

// Removes an entry.
fn del_in(space: &mut MemSpace, ops: &Ops, root: PageNo, key: &[u8])
    requires some { 1 ≤ length key.now }
    requires key { length key.now ≤ 128 }
    requires stands { Stands (space_of space.old) root.0 }
    ensures stays { Stands (space_of space.new) root.0 }
    ensures gone { Dels (records_in (space_of space.old) root.0) key.now (records_in (space_of space.new) root.0) }
{
    match sg_hash::del(space, ops, root, key) {
        Ok(_) => {}
        Err(_) => unreachable!(),
    }
}

impl Hashed {
    /// No records, in a space of this many pages.
    pub fn new(alloc: Global) -> Option<Hashed> {
        let (Ok(mut space), Ok(ops)) = (MemSpace::new(alloc, 65_536, 2), Ops::shipped(alloc)) else {
            return None;
        };
        if space.free_pages() < 5 {
            return None;
        }
        let root = make(&mut space, &ops);
        Some(Hashed {
            space,
            ops,
            root,
            refusals: 0,
        })
    }

    /// Puts a record, if it's one, and says whether it did.
    pub fn has_put(&mut self, key: &[u8], value: &[u8]) -> bool {
        if key.is_empty() || key.len() > 255 || value.len() > 2_048 {
            return false;
        }
        self.put(key, value).is_ok()
    }
}

impl Records for Hashed {
    type Fault = Refused;

    ghost map = { λ h. records_in (space_of h.space) h.root.0 };

    ghost refusals = { λ h. h.refusals };

    fn find(&mut self, key: &[u8], into: &mut [u8]) -> Result<Option<usize>, Refused> {
        let found = find_in(&mut self.space, self.root, key, into);
        if found.unwrap_or(0) > 2_048 {
            self.refusals = self.refusals.saturating_add(1);
            return Err(Refused);
        }
        Ok(found)
    }

    fn put(&mut self, key: &[u8], value: &[u8]) -> Result<(), Refused> {
        let fits = key.len() <= 128 && value.len() <= 1_024;
        if !fits || self.space.free_pages() < 11 || !self.space.has_page(PageNo(0)) {
            self.refusals = self.refusals.saturating_add(1);
            return Err(Refused);
        }
        put_in(&mut self.space, &self.ops, self.root, key, value);
        Ok(())
    }

    fn del(&mut self, key: &[u8]) -> Result<(), Refused> {
        if key.len() > 128 {
            self.refusals = self.refusals.saturating_add(1);
            return Err(Refused);
        }
        del_in(&mut self.space, &self.ops, self.root, key);
        Ok(())
    }
}
PROGRAM

cat >specs/Hashed.antt <<'PROOF'
-- Records in a hash table, as its pages say.
use Rattle.std.specs.Prelude.{ℕ}
use Rattle.sg_hash.specs.Table.{HashTable, value_at}
use Rattle.sg_contents.specs.Standing.{IsTable}
use Rattle.sg_index.specs.Records.{Map}
use Rattle.sg_reader.proofs.DecideTable.{table_said}
use Rattle.sg_space.specs.View.{Space}

-- the table that the pages say at a root, where one stands there
unfoldable pub table_in : Space → ℕ → HashTable
table_in s root = table_said s.pages.count s.pages.at root

-- what it maps a key to
abbrev pub records_in : Space → ℕ → Map
records_in s root = value_at (table_in s root)

-- a table stands there, and it has no key without a byte
abbrev pub Stands : Space → ℕ → Type 0
Stands s root = ∥ IsTable s.pages.at root (table_in s root) ∥₁
PROOF

cat >proofs/Hashing.antt <<'PROOF'
-- A hash table in a space in memory, as what it maps keys to.
use Rattle.std.proofs.Common.{◌≡◌, ◌≢◌, ℕ, ◌+◌, ◌<◌, ◌≤◌, ◌⊎◌, inl, inr, Bool, true, false, List, [], ◌∷◌, length, take, Option, Some, None, refl, sym, ap, ◌∙◌, subst, arith}
use Rattle.std.proofs.Props.{props}
use Rattle.std.specs.Prelude.{⊤, if◌then◌else◌, slice_get, option_map, IfSome, IsSome}
use Rattle.std.specs.Str.{bytes_eq}
use Rattle.std.proofs.lemmas.Bool.{cases_lt}
use Rattle.std.proofs.lemmas.List.{length-take-le}
use Rattle.std.proofs.lemmas.Slice.Eq.{bytes_eq-Decides}
use mathlib.Core.Logic.{∥∥₁_elim}
use Rattle.sg_base.specs.Sheet.{Sheet}
use Rattle.sg_bucket.specs.Bucket.{Bucket, IsAnswer}
use Rattle.sg_bucket.specs.Entry.{Entry, value_of, with_value}
use Rattle.sg_contents.specs.Standing.{IsTable}
use Rattle.sg_hash.specs.Table.{HashTable, IsHashTable, value_at, entries}
use Rattle.sg_hash.specs.Calls.{HasHashTable, CanPut, IsMade}
use Rattle.sg_index.specs.Records.{IsFound}
use Rattle.sg_reader.proofs.DecideTable.{table_said, BucketsBelow, table_is, dec_table}
use Rattle.sg_space.specs.Flagged.{units_exact}
use Rattle.sg_space.specs.Memory.{space_of, sheet_in, memory_view}
use Rattle.sg_space.specs.Units.{IsExact}
use Rattle.sg_space.specs.declared.memory.MemSpace.{MemSpace}
use Rattle.sg_space.specs.View.{Space}
use Rattle.index_bench.specs.Hashed.{table_in, records_in, Stands}

-- its buckets' pages are there
below : (s : Space) (root : ℕ) (t : HashTable) → IsExact s.pages → IsHashTable s.pages.at root t → BucketsBelow s.pages.count t.buckets
below s root t exact h i b e k p f = go (cases_lt p s.pages.count)
  where
    go : (p < s.pages.count) ⊎ (s.pages.count ≤ p) → p < s.pages.count
    go (inl less) = less
    go (inr past) =
        let part = (h.built.bucket i b e).linked.part k p f in
        let x : ◌≡◌ {A = Option Sheet} (Some part.what) None = sym part.is ∙ exact.past p past in
        absurd (cc)

-- the table that stands there is the one that the pages say
pub said_is : (s : Space) (root : ℕ) (t : HashTable) → IsExact s.pages → IsHashTable s.pages.at root t → table_in s root ≡ t
unfolding table_in
said_is s root t exact h = table_is s.pages.count h (below s root t exact h)

-- what stands there is known, since whether it does is decided
pub standing : (s : Space) (root : ℕ) → Stands s root → IsTable s.pages.at root (table_in s root)
standing s root h = go (dec_table s.pages.at root (table_in s root))
  where
    go : IsTable s.pages.at root (table_in s root) ⊎ (IsTable s.pages.at root (table_in s root) → ⊥) → IsTable s.pages.at root (table_in s root)
    go (inl is) = is
    go (inr none) = absurd (∥∥₁_elim h (hlevel props) none)

-- a table that stands there stands as the one that the pages say
pub stands : (s : Space) (root : ℕ) (t : HashTable) → IsExact s.pages → IsHashTable s.pages.at root t → value_at t [] ≡ None → Stands s root
stands s root t exact h none = ∣ subst (IsTable s.pages.at root) (sym (said_is s root t exact h)) (record { table = h; no_empty_key = none }) ∣₁

-- no page is taken in memory that isn't there
pub exactly : (m : MemSpace) → IsExact (space_of m).pages
exactly m = units_exact sheet_in m.maps.pages m.pages.items m.page_flags

-- a call finds a table
pub has : (m : MemSpace) (root : ℕ) → Stands (space_of m) root → HasHashTable (memory_view m) root (λ _. ⊤)
has m root h = λ told. (table_in (space_of m) root, (standing (space_of m) root h).table, tt)

-- in memory any slot may be filled, so that there is room where pages are free
pub can_put : (m : MemSpace) (t : HashTable) (key : List ℕ) → 11 ≤ (space_of m).pages.free → IsSome ((space_of m).pages.at 0) → CanPut (memory_view m) key true t
can_put m t key free zero = record {
  free = omega (arith, free);
  free_split = λ e f. free;
  may_take = tt;
  may_grow = record {
    names = record { first = λ n l. tt; index = λ j p e n l. tt; leaf = λ d p e n l. tt };
    buckets = λ p o n l. tt;
  };
  zero = zero;
}

-- a new one has no key
pub made_stands : (old : Space) (m : MemSpace) (root : ℕ) (t : HashTable) → IsMade old (space_of m) root t → Stands (space_of m) root
made_stands old m root t h = stands (space_of m) root t (exactly m) h.table (ap (λ (es : List Entry). value_of es []) h.none)

-- an answer of a look is what it is for records
pub found_is : (value : Option (List ℕ)) (found : Option ℕ) (into : List ℕ) → IsAnswer value found into → IfSome found (λ n. n ≤ length into) → IsFound value found into
found_is value None into is within = subst (λ v. IsFound v None into) (sym is) refl
found_is value (Some n) into is within =
    let long : length (take n into) ≡ n = length-take-le n into within in
    subst (λ v. IsFound v (Some n) into) (sym is) (ap Some (sym long), ap (λ k. take k into) long)

-- A map with another value at one key
at_key : (values : List ℕ → Option (List ℕ)) (key : List ℕ) (value : Option (List ℕ)) → with_value values key value key ≡ value
at_key values key value = ap (λ b. if b then value else values key) ((bytes_eq-Decides key key).1 refl)

at_other : (values : List ℕ → Option (List ℕ)) (key : List ℕ) (value : Option (List ℕ)) (other : List ℕ) → other ≢ key → with_value values key value other ≡ values other
at_other values key value other apart = go (bytes_eq key other) refl
  where
    go : (b : Bool) → bytes_eq key other ≡ b → with_value values key value other ≡ values other
    go true e = absurd (apart (sym ((bytes_eq-Decides key other).0 e)))
    go false e = ap (λ b. if b then value else values other) e

-- A call in memory that turns the table into another one, which maps one key otherwise
module _ (m n : MemSpace) (root : ℕ) (t t' : HashTable) (key : List ℕ) (value : Option (List ℕ)) where
  module _ (h : IsTable (space_of m).pages.at root t) (h' : IsHashTable (space_of n).pages.at root t') (e : value_at t' ≡ with_value (value_at t) key value) where
    was : records_in (space_of m) root ≡ value_at t
    was = ap value_at (said_is (space_of m) root t (exactly m) h.table)

    now : records_in (space_of n) root ≡ with_value (value_at t) key value
    now = ap value_at (said_is (space_of n) root t' (exactly n) h') ∙ e

    pub here : records_in (space_of n) root key ≡ value
    here = ap (λ f. f key) now ∙ at_key (value_at t) key value

    pub others : (k : List ℕ) → k ≢ key → records_in (space_of n) root k ≡ records_in (space_of m) root k
    others k apart = ap (λ f. f k) now ∙ (at_other (value_at t) key value k apart ∙ sym (ap (λ f. f k) was))

    -- no key without a byte came
    pub stays : 1 ≤ length key → Stands (space_of n) root
    stays some = stands (space_of n) root t' (exactly n) h' (ap (λ f. f []) e ∙ (at_other (value_at t) key value [] apart ∙ h.no_empty_key))
      where
        apart : [] ≢ key
        apart f = let z : 1 ≤ length {A = ℕ} [] = subst (λ k. 1 ≤ length k) (sym f) some in omega (arith, z)
PROOF

cat >proofs/hashed/make/Answers.antt <<'PROOF'
use Rattle.sg_space.specs.Memory.{space_of}
use Rattle.index_bench.proofs.Hashing.{made_stands}
use Rattle.index_bench.proofs.hashed.make.Goals as goal

pub returns : goal.returns
returns g c = let d = c.in-Ok.ensures.did.done tt in made_stands (space_of c.args.space.now) c.make.new.space c.in-Ok.root.0 d.0 d.1
PROOF

cat >proofs/hashed/find_in/Answers.antt <<'PROOF'
use Rattle.sg_space.specs.Memory.{space_of}
use Rattle.index_bench.specs.Hashed.{table_in, records_in}
use Rattle.index_bench.proofs.Hashing.{standing, has, found_is}
use Rattle.index_bench.proofs.hashed.find_in.Goals as goal

pub find-requires-clause-there : goal.find-requires-clause-there
find-requires-clause-there c = has c.args.space.now c.args.root.0 c.requires.stands

pub returns-clause-found : goal.returns-clause-found
returns-clause-found c =
    let s = space_of c.args.space.now in
    let h = standing s c.args.root.0 c.requires.stands in
    let read = c.in-Ok.ensures.read tt (table_in s c.args.root.0) h.table in
    found_is (records_in s c.args.root.0 c.args.key.now) c.in-Ok.found c.find.new.into read c.in-Ok.ensures.within
PROOF

cat >proofs/hashed/put_in/Answers.antt <<'PROOF'
use Rattle.std.proofs.Common.{Some}
use Rattle.sg_space.specs.Memory.{space_of}
use Rattle.index_bench.specs.Hashed.{table_in}
use Rattle.index_bench.proofs.Hashing.{standing, can_put, here, others, stays}
use Rattle.index_bench.proofs.hashed.put_in.Goals as goal

pub put-requires-clause-there : goal.put-requires-clause-there
put-requires-clause-there g c = λ told.
    let s = space_of c.args.space.now in
    let t = table_in s c.args.root.0 in
    (t, (standing s c.args.root.0 c.requires.stands).table, can_put c.args.space.now t c.args.key.now c.requires.free c.requires.zero)

pub returns-clause-stays : goal.returns-clause-stays
returns-clause-stays g c =
    let m = c.args.space.now in
    let n = c.put.new.space in
    let root = c.args.root.0 in
    let t = table_in (space_of m) root in
    let h = standing (space_of m) root c.requires.stands in
    let d = c.in-Ok.ensures.did.turns tt t h.table (can_put c.args.space.now t c.args.key.now c.requires.free c.requires.zero) in
    stays m n root t d.0 c.args.key.now (Some c.args.value.now) h d.1.table d.2.values c.requires.some

pub returns-clause-put : goal.returns-clause-put
returns-clause-put g c =
    let m = c.args.space.now in
    let n = c.put.new.space in
    let root = c.args.root.0 in
    let t = table_in (space_of m) root in
    let h = standing (space_of m) root c.requires.stands in
    let d = c.in-Ok.ensures.did.turns tt t h.table (can_put c.args.space.now t c.args.key.now c.requires.free c.requires.zero) in
    record {
      there = here m n root t d.0 c.args.key.now (Some c.args.value.now) h d.1.table d.2.values;
      others = others m n root t d.0 c.args.key.now (Some c.args.value.now) h d.1.table d.2.values;
    }
PROOF

cat >proofs/hashed/del_in/Answers.antt <<'PROOF'
use Rattle.std.proofs.Common.{None}
use Rattle.sg_space.specs.Memory.{space_of}
use Rattle.index_bench.specs.Hashed.{table_in}
use Rattle.index_bench.proofs.Hashing.{standing, has, here, others, stays}
use Rattle.index_bench.proofs.hashed.del_in.Goals as goal

pub del-requires-clause-there : goal.del-requires-clause-there
del-requires-clause-there g c = has c.args.space.now c.args.root.0 c.requires.stands

pub returns-clause-stays : goal.returns-clause-stays
returns-clause-stays g c =
    let m = c.args.space.now in
    let n = c.del.new.space in
    let root = c.args.root.0 in
    let t = table_in (space_of m) root in
    let h = standing (space_of m) root c.requires.stands in
    let d = c.in-Ok.ensures.did.turns tt t h.table tt in
    stays m n root t d.0 c.args.key.now None h d.1.table d.2.values c.requires.some

pub returns-clause-gone : goal.returns-clause-gone
returns-clause-gone g c =
    let m = c.args.space.now in
    let n = c.del.new.space in
    let root = c.args.root.0 in
    let t = table_in (space_of m) root in
    let h = standing (space_of m) root c.requires.stands in
    let d = c.in-Ok.ensures.did.turns tt t h.table tt in
    record {
      gone = here m n root t d.0 c.args.key.now None h d.1.table d.2.values;
      others = others m n root t d.0 c.args.key.now None h d.1.table d.2.values;
    }
PROOF

cat >src/main.rt <<'PROGRAM'
//! What a get, a next and an insert of an ordered index cost.
#![tactic(auto)]

mod hashed;
mod table;

use hashed::Hashed;
use sg_index::Records;
use std::io;
use std::time::Instant;
use table::{Refused, Table, drawn, entries, lay};

const CALLS: u32 = 200_000;

// The bytes of a drawn key, and how many of them it has.
fn drawn_key(state: u64) -> ([u8; 8], usize) {
    let mut bytes = (state >> 8).to_le_bytes();
    for b in bytes.iter_mut() {
        *b %= 7;
    }
    (bytes, (1 + state % 8) as usize)
}

// How many calls were answered.
fn get_all<R: Records<Fault = Refused>>(records: &mut R) -> u32 {
    let mut done = 0u32;
    let mut state = 54u64;
    let mut value = [0; 64];
    for _ in 0..CALLS {
        state = drawn(state);
        let (bytes, size) = drawn_key(state);
        let key = &bytes[..size.clamp(1, 8)];
        if sg_index::get(records, key, &mut value).is_ok() {
            done = done.saturating_add(1);
        }
    }
    done
}

fn next_all<R: Records<Fault = Refused>>(records: &mut R) -> u32 {
    let mut done = 0u32;
    let mut state = 54u64;
    let mut key = [0; 64];
    let mut value = [0; 64];
    for _ in 0..CALLS {
        state = drawn(state);
        let (bytes, size) = drawn_key(state);
        let from = &bytes[..size.clamp(1, 8)];
        if sg_index::next(records, from, true, &mut key, &mut value).is_ok() {
            done = done.saturating_add(1);
        }
    }
    done
}

fn insert_all<R: Records<Fault = Refused>>(records: &mut R) -> u32 {
    let mut done = 0u32;
    let mut state = 54u64;
    for _ in 0..CALLS {
        state = drawn(state);
        let (bytes, size) = drawn_key(state);
        let key = &bytes[..size.clamp(1, 8)];
        if sg_index::insert(records, key, b"value").is_ok() {
            done = done.saturating_add(1);
        }
    }
    done
}

// Puts the records of a table in memory into a hash table, and answers how many were refused.
fn copy_all(table: &Table, hashed: &mut Hashed) -> u32 {
    let mut refused = 0u32;
    if !hashed.has_put(b"h", &table.header) {
        refused = 1;
    }
    let mut number = 0u32;
    for node in &table.nodes {
        let mut key = [b'n', 0, 0, 0, 0];
        key[1..].copy_from_slice(&number.to_le_bytes());
        if !node.is_empty() && !hashed.has_put(&key, node) {
            refused = refused.saturating_add(1);
        }
        number = number.saturating_add(1);
    }
    refused
}

fn told(rt: &HostRuntime, what: &str, count: usize, done: u32, start: Instant) -> io::Result<()> {
    let all = start.elapsed(rt)?.as_nanos();
    let each = all.checked_div(u128::from(done)).unwrap_or(0);
    let rate = 1_000_000_000u128.checked_div(each).unwrap_or(0);
    println!(rt; "    {count} entries: {done} {what}, {each} ns each, {rate} a second")
}

fn tell_all<R: Records<Fault = Refused>>(
    rt: &HostRuntime,
    count: usize,
    records: &mut R,
) -> io::Result<()> {
    let start = Instant::now(rt)?;
    let done = get_all(records);
    told(rt, "gets", count, done, start)?;
    let start = Instant::now(rt)?;
    let done = next_all(records);
    told(rt, "nexts", count, done, start)?;
    let start = Instant::now(rt)?;
    let done = insert_all(records);
    told(rt, "inserts", count, done, start)
}

fn measure(rt: &HostRuntime, count: usize) -> io::Result<()> {
    let Ok(list) = entries(rt.alloc(), count) else {
        return Ok(());
    };
    let Ok(mut laid) = lay(rt.alloc(), &list) else {
        return Ok(());
    };
    let Some(mut hashed) = Hashed::new(rt.alloc()) else {
        return Ok(());
    };
    let refused = copy_all(&laid, &mut hashed);
    println!(rt; "over a map in memory")?;
    tell_all(rt, count, &mut laid)?;
    println!(rt; "over a hash table in memory ({refused} records refused before)")?;
    tell_all(rt, count, &mut hashed)
}

fn main(rt: HostRuntime) -> io::Result<()> {
    measure(&rt, 1_000)?;
    measure(&rt, 5_000)?;
    measure(&rt, 20_000)
}
PROGRAM

rt run
