#!/usr/bin/env bash
# Times the key index under one exclusive key over a text of 20 bytes: 200,000 changes of one row each, for each of which the owner of the
# value is looked for, room is made (prepare), and the row is set (commit); first rows of new elements, and then other values for them.
# Beside it the same in Rust with the standard library's hash maps. Then rows whose elements, or whose texts, were chosen so that they
# collide under the fixed keys, beside others, both under fixed and under drawn keys; and the most memory that 1,000,000 rows take. It makes
# small programs in a folder of its own, and builds them, proving what is below where no check has kept it.
# Usage: bench/keyindex.sh
source "$(dirname "$(readlink -f "${BASH_SOURCE[0]}")")/common.bash"
take pgs_keyindex
echo 'indexing: pgs_base pgs_syntax pgs_keyindex' >>"$work/crates.txt"
mkdir -p "$work/crates/indexing/src" "$work/crates/indexing/proofs"/{done,empty_owners,is_free,put}
cat >"$work/crates/indexing/proofs/done/Invariants.antt" <<'E'
use Rattle.indexing.proofs.done.Given as goal

abbrev pub ghosts-done_by : goal.ghosts-done_by
ghosts-done_by a = record { name = a.blank.name; parts = a.blank.parts }
E
cat >"$work/crates/indexing/proofs/Lib.antt" <<'E'
mod Owned
E
cat >"$work/crates/indexing/proofs/Owned.antt" <<'E'
-- Each value still has one owner where an element gets one value that no other has.
use Rattle.std.proofs.Common.{◌≡◌, Bool, true, false, ◌||◌, List, [], ◌∷◌, Some, refl, subst}
use Rattle.std.specs.Cmp.{Equal-is}
use Rattle.std.specs.List.{list_any}
use Rattle.std.specs.List.Sorted.{IsStrictlySortedBy}
use Rattle.std.specs.Map.{keys_of}
use Rattle.std.specs.BTreeMap.{is_at}
use Rattle.pgs_base.specs.declared.element.Elem.{Elem}
use Rattle.pgs_base.specs.declared.part.Part.{Part}
use Rattle.pgs_base.specs.Order.{tuple_cmp}
use Rattle.pgs_base.specs.OrderLaws.{exact_tuple}
use Rattle.pgs_keyindex.specs.Members.{member_cmp}
use Rattle.pgs_keyindex.specs.Rows.{KeyRows, has_value, IsOwned, row_changed}
use Rattle.pgs_keyindex.proofs.Changes.{owned-row_changed}

true_or_false : (b : Bool) → (b || false) ≡ true → b ≡ true
true_or_false true h = refl
true_or_false false h = h

is_only : (tuple other : List Part) → list_any (is_at (tuple_cmp other)) (tuple ∷ []) ≡ true → other ≡ tuple
is_only tuple other there = exact_tuple other tuple ((Equal-is (tuple_cmp other tuple)).0 (true_or_false (is_at (tuple_cmp other) tuple) there))

pub owned_after : (exclusive : List Bool) (rows : KeyRows) (elem : Elem) (tuple : List Part) → IsStrictlySortedBy member_cmp (keys_of rows) → IsOwned exclusive rows →
    ((other : Elem) → has_value rows 1 other tuple ≡ true → other ≡ elem) →
    IsOwned exclusive (row_changed rows (record { key = 1; elem = elem; values = Some (tuple ∷ []) }))
owned_after exclusive rows elem tuple sorted owned free =
    owned-row_changed rows sorted (record { key = 1; elem = elem; values = Some (tuple ∷ []) }) exclusive owned
    (λ given other there has. free other (subst (λ t. has_value rows 1 other t ≡ true) (is_only tuple given there) has))
E
cat >"$work/crates/indexing/proofs/empty_owners/Answers.antt" <<'E'
use Rattle.std.proofs.Common.{◌≡◌, true, false, ◌∷◌, [], ◌++◌, ◌∙◌, ap}
use Rattle.std.specs.Option.{option_map_or}
use Rattle.std.specs.List.{slice_get}
use Rattle.pgs_keyindex.specs.Standing.{exclusive_keys}
use Rattle.indexing.proofs.empty_owners.Goals as goal

pub invariant_of-result : goal.invariant_of-result
invariant_of-result c =
    ap (λ flags. option_map_or (λ asked. asked) (slice_get flags 0) false)
    (c.in_ok-index.ensures.exclusive ∙ ap exclusive_keys (c.from_vec.ensures ∙ c.in_ok-push.ensures.items ∙ ap (λ keys. keys ++ c.exclusive_key.result ∷ []) c.in_ok-keys.ensures.items))
    ∙ c.exclusive_key.ensures
E
cat >"$work/crates/indexing/proofs/is_free/Answers.antt" <<'E'
use Rattle.std.proofs.Common.{◌≡◌, true, is_some, unwrap_or, ◌∙◌, ap, sym, true≢false}
use Rattle.std.specs.Cmp.{Equal-is}
use Rattle.pgs_base.specs.Order.{elem_cmp}
use Rattle.pgs_base.specs.OrderLaws.{exact_elem}
use Rattle.indexing.proofs.is_free.Goals as goal

pub returns-in-Some : goal.returns-in-Some
returns-in-Some g c tie other has =
    let found = ap (λ o. unwrap_or o c.in-Some.other) ((c.in-Some.ensures.owner other).0 has) in
    let same = exact_elem c.args.elem c.in-Some.other ((Equal-is (elem_cmp c.args.elem c.in-Some.other)).0 (sym c.is_same.ensures ∙ tie)) in
    sym found ∙ sym same

pub returns-in-None : goal.returns-in-None
returns-in-None g c is other has = absurd (true≢false (sym (ap is_some ((c.in-None.ensures.owner other).0 has))))
E
cat >"$work/crates/indexing/proofs/put/Answers.antt" <<'E'
use Rattle.std.proofs.Common.{◌≡◌, true, List, [], ◌∷◌, ◌++◌, Some, ◌∙◌, ap, sym, subst}
use Rattle.std.specs.BTreeSet.{insert_key}
use Rattle.pgs_base.specs.declared.part.Part.{Part}
use Rattle.pgs_base.specs.Order.{tuple_cmp}
use Rattle.pgs_keyindex.specs.declared.change.KeyChange.{KeyChange}
use Rattle.pgs_keyindex.specs.Rows.{IsOwned, rows_changed}
use Rattle.indexing.proofs.Owned.{owned_after}
use Rattle.indexing.proofs.put.Goals as goal

pub prepare-requires : goal.prepare-requires
prepare-requires c =
    let index = c.args.index.now in
    let change : List (List Part) → List KeyChange = λ values. record { key = 1; elem = c.args.elem; values = Some values } ∷ [] in
    let changes = c.from_vec.ensures ∙ c.in_ok-push.ensures.items ∙ ap (λ items. items ++ change c.insert.new.self) c.in_ok-changes.ensures.items in
    let values = c.in_ok-insert.ensures.ok ∙ ap (λ old. insert_key tuple_cmp old c.args.tuple) c.new-values.ensures in
    subst (λ changes. IsOwned index.exclusive (rows_changed index.rows changes)) (sym (changes ∙ ap change values))
    (owned_after index.exclusive index.rows c.args.elem c.args.tuple c.facts.ensures.ascending c.facts.ensures.owned c.requires)
E
cat >"$work/crates/indexing/src/main.rt" <<'E'
//! Makes changes of one row each in a key index, of the kind that the first word says, hashed by fixed keys, or with the second word `drawn`
//! by drawn ones. With a third word the numbers of the elements, or of the texts, are the lines of that file.
#![tactic(auto)]

ghost use Rattle.std.specs.Prelude.{◌≡◌, ◌<◌, true};
ghost use Rattle.std.specs.BTreeMap.{is_at};
ghost use Rattle.pgs_base.specs.declared.element.Elem.{Elem};
ghost use Rattle.pgs_base.specs.Order.{elem_cmp};
ghost use Rattle.pgs_keyindex.specs.Rows.{has_value, is_exclusive};

use pgs_base::{Elem, List, Memory, NodeId, Part, Seed, Steps, Text, Tuple, TupleSet, Value};
use pgs_keyindex::{KeyChange, KeyIndex};
use pgs_syntax::{Key, Pattern, Qualifiers};
use std::alloc::Global;
use std::collections::hash_map::RandomState;
use std::env;
use std::fs;
use std::marker::{Brand, Model};
use std::process::ExitCode;
use std::sync::ledger::{Blank, Ledger};

const MANY: u64 = 200_000;
const MILLION: u64 = 1_000_000;

/// What is done.
#[derive(Clone, Copy, PartialEq, Eq)]
enum Kind {
    /// The values are made, and nothing else.
    Values,
    Rows,
    /// Rows, and then another value for each.
    Again,
    /// The values of both, and nothing else.
    AgainValues,
    Million,
    /// An element for each number of a file.
    Elements,
    /// A text for each number of a file.
    Texts,
}

fn kind_of(word: &str) -> Kind {
    match word {
        "rows" => Kind::Rows,
        "again" => Kind::Again,
        "again-values" => Kind::AgainValues,
        "million" => Kind::Million,
        "elements" => Kind::Elements,
        "texts" => Kind::Texts,
        _ => Kind::Values,
    }
}

/// Numbers that look as if drawn, each once.
fn mixed(number: u64) -> u64 {
    number.wrapping_mul(0x9E37_79B9_7F4A_7C15)
}

/// An index of one exclusive key.
struct Owners {
    index: KeyIndex,
}

impl Model for Owners {
    ghost use Rattle.std.specs.Prelude.{◌≡◌, true};
    ghost use Rattle.pgs_keyindex.specs.Index.{IndexState};
    ghost use Rattle.pgs_keyindex.specs.Rows.{is_exclusive};

    ghost Value = { IndexState };

    ghost view = { λ owners. owners.index };

    ghost invariant = { λ owners. is_exclusive owners.index.exclusive 1 ≡ true };
}

impl Drop for Owners {
    fn drop(self) {
        let Owners { index: _ } = self;
    }
}

fn is_same(elem: Elem, other: Elem) -> bool
    ensures { result ≡ is_at (elem_cmp elem) other }
{
    elem.cmp(&other).is_eq()
}

/// Whether no other element has a value.
fn is_free<L: Ledger>(index: &KeyIndex, elem: Elem, tuple: &Tuple, steps: &mut Steps<L>) -> bool
    requires { is_exclusive index.now.exclusive 1 ≡ true }
    ensures { result ≡ true → (other : Elem) → has_value index.now.rows 1 other tuple.now ≡ true → other ≡ elem }
{
    match index.owner_of(1, tuple, steps) {
        Some(other) => is_same(elem, other),
        None => true,
    }
}

/// Gives an element a value that no other has.
fn put(alloc: Global, index: &mut KeyIndex, elem: Elem, tuple: Tuple) -> Result<(), Memory>
    requires { (other : Elem) → has_value index.old.rows 1 other tuple ≡ true → other ≡ elem }
    ensures { index.new.exclusive ≡ index.old.exclusive }
{
    index.facts();
    let mut values = TupleSet::new(alloc);
    let _ = values.insert(tuple)?;
    let mut changes = Vec::with_capacity(alloc, 1)?;
    changes.push(KeyChange { key: 1, elem, values: Some(values) })?;
    let ready = index.prepare(List::from_vec(changes))?;
    index.commit(ready);
    Ok(())
}

impl Owners {
    /// Gives an element a value that no other has. Nothing is done where another has it.
    fn set<L: Ledger>(&mut self, alloc: Global, elem: Elem, tuple: Tuple, steps: &mut Steps<L>) -> Result<(), Memory> {
        if is_free(&self.index, elem, &tuple, steps) {
            put(alloc, &mut self.index, elem, tuple)?;
        }
        Ok(())
    }
}

fn exclusive_key(alloc: Global) -> Key
    ensures { result.qualifiers.exclusive ≡ true }
{
    Key {
        qualifiers: Qualifiers { mandatory: false, singleton: false, exclusive: true, count: None },
        scope: Pattern { edge_vars: List::new(alloc), atoms: List::new(alloc) },
        descriptor: Pattern { edge_vars: List::new(alloc), atoms: List::new(alloc) },
        exprs: List::new(alloc),
    }
}

fn empty_owners(alloc: Global, seed: Seed) -> Result<Owners, Memory> {
    let mut keys = Vec::with_capacity(alloc, 1)?;
    keys.push(exclusive_key(alloc))?;
    let index = KeyIndex::with_seed(alloc, &List::from_vec(keys), seed)?;
    Ok(Owners { index })
}

/// The tuple of one text of 20 bytes.
fn tuple(alloc: Global, number: u64) -> Result<Tuple, Memory> {
    let text = format!(in alloc; "text-{}", 100_000_000_000_000 + number % 1_000_000_000_000)?;
    let mut parts = Vec::with_capacity(alloc, 1)?;
    if let Some(text) = Text::new(alloc, text.as_str())? {
        parts.push(Part::Value(Value::Text(text)))?;
    }
    Ok(Tuple::new(List::from_vec(parts)))
}

/// Makes values of so many numbers, from one on.
fn values(alloc: Global, first: u64, count: u64) -> Result<(), Memory> {
    for place in 0..count {
        let _ = tuple(alloc, first.wrapping_add(place))?;
    }
    Ok(())
}

/// Gives each of so many elements the value of its place, from a number on.
fn rows<L: Ledger>(alloc: Global, owners: &mut Owners, first: u64, count: u64, steps: &mut Steps<L>) -> Result<(), Memory> {
    for place in 0..count {
        let tuple = tuple(alloc, first.wrapping_add(place))?;
        owners.set(alloc, Elem::Node(NodeId(mixed(place))), tuple, steps)?;
    }
    Ok(())
}

/// Gives each number's element the value of its place, or each place's element the value of its number.
fn given<L: Ledger>(alloc: Global, owners: &mut Owners, numbers: &[u64], are_texts: bool, steps: &mut Steps<L>) -> Result<(), Memory> {
    for (place, number) in numbers.iter().enumerate() {
        let (id, text) = if are_texts { (place as u64, *number) } else { (*number, place as u64) };
        owners.set(alloc, Elem::Node(NodeId(id)), tuple(alloc, text)?, steps)?;
    }
    Ok(())
}

fn done_by<L: Ledger>(alloc: Global, owners: &mut Owners, kind: Kind, numbers: &[u64], blank: Blank) -> Result<(), Memory>
    requires name { blank.name ≡ L.name }
    requires parts { blank.parts ≡ L.parts }
    requires some { 0 < blank.parts }
{
    let mut steps: Steps<L> = Steps::begin(blank);
    match kind {
        Kind::Values => values(alloc, 0, MANY),
        Kind::AgainValues => values(alloc, 0, 2 * MANY),
        Kind::Rows => rows(alloc, owners, 0, MANY, &mut steps),
        Kind::Again => {
            rows(alloc, owners, 0, MANY, &mut steps)?;
            rows(alloc, owners, MANY, MANY, &mut steps)
        }
        Kind::Million => rows(alloc, owners, 0, MILLION, &mut steps),
        Kind::Elements => given(alloc, owners, numbers, false, &mut steps),
        Kind::Texts => given(alloc, owners, numbers, true, &mut steps),
    }
}

fn done(alloc: Global, kind: Kind, seed: Seed, numbers: &[u64]) -> Result<(), Memory> {
    let mut owners = empty_owners(alloc, seed)?;
    done_by::<Brand>(alloc, &mut owners, kind, numbers, Blank::new(1))
}

/// The numbers of a text's lines. What is none is passed over.
fn numbers_in(alloc: Global, text: &str) -> Result<Vec<u64>, Memory> {
    let mut numbers = Vec::new(alloc);
    for line in text.lines() {
        if let Ok(number) = line.parse::<u64>() {
            numbers.push(number)?;
        }
    }
    Ok(numbers)
}

fn main(rt: HostRuntime) -> ExitCode {
    let alloc = rt.alloc();
    let Ok(arguments) = env::args(&rt) else {
        return ExitCode::from(2);
    };
    let mut words = (String::new(alloc), String::new(alloc), String::new(alloc));
    for (place, word) in arguments.enumerate() {
        match place {
            1 => words.0 = word,
            2 => words.1 = word,
            3 => words.2 = word,
            _ => {}
        }
    }
    let seed = match RandomState::new(&rt) {
        Ok(keys) if words.1.as_str() == "drawn" => Seed::Random(keys),
        _ => Seed::Fixed,
    };
    let text = if words.2.is_empty() { Ok(String::new(alloc)) } else { fs::read_to_string(&rt, words.2.as_str()) };
    let Ok(text) = text else {
        return ExitCode::from(2);
    };
    let Ok(numbers) = numbers_in(alloc, text.as_str()) else {
        return ExitCode::from(3);
    };
    match done(alloc, kind_of(words.0.as_str()), seed, numbers.as_slice()) {
        Ok(()) => ExitCode::from(0),
        Err(_) => ExitCode::from(3),
    }
}
E
cat >"$work/bare.rs" <<'E'
// The same over the standard library's maps: rows by element, and the owner of each value, which keeps a copy of it. With `chosen` and a
// count it prints numbers whose elements, or whose texts, collide in the index's tables under the fixed keys; with `others` such as don't.
use std::collections::HashMap;
use std::hash::{DefaultHasher, Hash, Hasher};

#[derive(Clone, Copy, PartialEq, Eq, Hash)]
enum Elem { Node(u64), #[allow(dead_code)] Edge(u64) }

#[derive(Clone, PartialEq, Eq, Hash)]
enum Value { Text(String), #[allow(dead_code)] Int(i64), #[allow(dead_code)] Bool(bool) }

#[derive(Clone, PartialEq, Eq, Hash)]
enum Part { Value(Value), #[allow(dead_code)] Elem(Elem) }

type Tuple = Vec<Part>;

struct Change { key: usize, elem: Elem, values: Option<Vec<Tuple>> }

#[derive(Default)]
struct Key { rows: HashMap<Elem, Vec<Tuple>>, owners: HashMap<Tuple, Elem> }

struct Index { keys: Vec<Key> }

impl Index {
    fn owner_of(&self, key: usize, tuple: &Tuple) -> Option<Elem> { self.keys[key].owners.get(tuple).copied() }

    // Takes all memory that changes need.
    fn prepare(&mut self, changes: &[Change]) {
        for change in changes {
            let key = &mut self.keys[change.key];
            if let Some(values) = &change.values {
                key.rows.try_reserve(1).unwrap();
                key.owners.try_reserve(values.len()).unwrap();
            }
        }
    }

    fn commit(&mut self, changes: Vec<Change>) {
        for change in changes {
            let key = &mut self.keys[change.key];
            let old = match change.values {
                Some(values) => {
                    let owned: Vec<Tuple> = values.clone();
                    let old = key.rows.insert(change.elem, values);
                    for tuple in old.iter().flatten() { key.owners.remove(tuple); }
                    for tuple in owned { key.owners.insert(tuple, change.elem); }
                    None
                }
                None => key.rows.remove(&change.elem),
            };
            for tuple in old.iter().flatten() { key.owners.remove(tuple); }
        }
    }

    fn set(&mut self, elem: Elem, tuple: Tuple) {
        if self.owner_of(0, &tuple).is_some_and(|other| other != elem) { return; }
        let changes = vec![Change { key: 0, elem, values: Some(vec![tuple]) }];
        self.prepare(&changes);
        self.commit(changes);
    }
}

const MANY: u64 = 200_000;

fn mixed(number: u64) -> u64 { number.wrapping_mul(0x9E37_79B9_7F4A_7C15) }

fn text(number: u64) -> String { format!("text-{}", 100_000_000_000_000u64 + number % 1_000_000_000_000) }

fn tuple(number: u64) -> Tuple { vec![Part::Value(Value::Text(text(number)))] }

fn values(count: u64) {
    for number in 0..count { std::hint::black_box(tuple(number)); }
}

fn rows(index: &mut Index, first: u64, count: u64) {
    for place in 0..count { index.set(Elem::Node(mixed(place)), tuple(first + place)); }
}

// The place of the first group of a map's table, by the last bits of a hash's two halves; a table of 20,000 rows tells no more apart. An
// element is hashed as its number and then twice the key's, with one more for an edge; a digest as one number with the key in its high half.
const BITS: u64 = (1 << 12) - 1;

fn group(hash: u64) -> u64 { (hash ^ (hash >> 32)) & BITS }

fn hashed(write: impl Fn(&mut DefaultHasher)) -> u64 {
    let mut hasher = DefaultHasher::new();
    write(&mut hasher);
    hasher.finish()
}

fn element_group(number: u64) -> u64 { group(hashed(|hasher| { number.hash(hasher); 2u64.hash(hasher) })) }

// The bytes of a text, made without `format!`, since so many are tried.
fn text_bytes(mut number: u64) -> [u8; 20] {
    let mut bytes = *b"text-100000000000000";
    for byte in bytes[6..].iter_mut().rev() {
        *byte = b'0' + (number % 10) as u8;
        number /= 10;
        if number == 0 { break; }
    }
    bytes
}

fn text_group(number: u64) -> u64 {
    let digest = hashed(|hasher| std::str::from_utf8(&text_bytes(number)).unwrap().hash(hasher)) as u32;
    group(hashed(|hasher| (1u64 << 32 | u64::from(digest)).hash(hasher)))
}

fn print(count: usize, is_taken: impl Fn(u64) -> bool) {
    for number in (0..).filter(|number| is_taken(*number)).take(count) { println!("{number}"); }
}

fn main() {
    let words: Vec<String> = std::env::args().skip(1).collect();
    let mut index = Index { keys: vec![Key::default()] };
    match words[0].as_str() {
        "rows" => rows(&mut index, 0, MANY),
        "again" => { rows(&mut index, 0, MANY); rows(&mut index, MANY, MANY) }
        "values" => values(MANY),
        "again-values" => values(2 * MANY),
        kind => {
            let count = words[2].parse().unwrap();
            match (words[1].as_str(), kind) {
                ("chosen", "elements") => print(count, |number| element_group(number) == 0),
                ("chosen", _) => print(count, |number| text_group(number) == 0),
                _ => print(count, |_| true),
            }
        }
    }
}
E
rustc -O -A warnings -o "$work/bare" "$work/bare.rs"
build indexing values
# taken PROGRAM KIND WITHOUT: the milliseconds of a kind, less those of making its values
taken() {
  local all values
  all=$(milliseconds "$1" "$2")
  values=$(milliseconds "$1" "$3")
  echo $((all - values))
}
rows=$(taken "$built" rows values)
bare_rows=$(taken "$work/bare" rows values)
again=$(($(taken "$built" again again-values) - rows))
bare_again=$(($(taken "$work/bare" again again-values) - bare_rows))
awk -v rows="$rows" -v bare_rows="$bare_rows" -v again="$again" -v bare_again="$bare_again" 'BEGIN {
  printf "200,000 new rows: %d ms, %.2f us each; bare Rust %d ms, so %.2f times\n", rows, rows / 200, bare_rows, rows / bare_rows
  printf "another value for each: %d ms, %.2f us each; bare Rust %d ms, so %.2f times\n", again, again / 200, bare_again, again / bare_again }'
for kind in elements texts; do
  for which in chosen others; do
    "$work/bare" "$kind" "$which" 20000 >"$work/$kind-$which"
  done
  chosen_fixed=$(milliseconds "$built" "$kind" fixed "$work/$kind-chosen")
  chosen=$(milliseconds "$built" "$kind" drawn "$work/$kind-chosen")
  others=$(milliseconds "$built" "$kind" drawn "$work/$kind-others")
  awk -v kind="$kind" -v chosen_fixed="$chosen_fixed" -v chosen="$chosen" -v others="$others" 'BEGIN {
    printf "20,000 chosen %s: under the fixed keys %d ms, under drawn keys %d ms; others %d ms, so %.2f times\n", kind, chosen_fixed, chosen, others, chosen / others }'
done
held '1,000,000 elements with one exclusive key over a text of 20 bytes' 0 "$built" million
