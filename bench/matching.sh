#!/usr/bin/env bash
# Times the whole scope of `FOR (x:p) EXCLUSIVE x.mail` and the key values of each of its elements, over the generator's graph of 100,000
# persons and 99,999 edges in tables. It makes a small program in a folder of its own, and builds it, proving what is below where no check
# has kept it.
# Usage: bench/matching.sh
source "$(dirname "$(readlink -f "${BASH_SOURCE[0]}")")/common.bash"
take pgs_txn pgs_tables pgs_gen pgs_match pgs_schema
echo 'matching: pgs_base pgs_graph pgs_syntax pgs_conform pgs_txn pgs_tables pgs_gen pgs_match pgs_schema' >>"$work/crates.txt"
mkdir -p "$work/crates/matching/src" "$work/crates/matching/proofs/run" "$work/crates/matching/proofs/valued"
cat >"$work/crates/matching/proofs/run/Invariants.antt" <<'E'
use Rattle.matching.proofs.run.Given as goal

abbrev pub ghosts-run_by : goal.ghosts-run_by
ghosts-run_by a = record { name = a.blank.name; parts = a.blank.parts }
E
# The schema's clauses say that its plans are those of its guard's keys, and that it is valid, so each of them is.
cat >"$work/crates/matching/proofs/valued/Answers.antt" <<'E'
use Rattle.std.proofs.Common.{◌∙◌}
use Rattle.pgs_schema.proofs.Keys.{valid_key}
use Rattle.matching.proofs.valued.Goals as goal

pub value_count-requires : goal.value_count-requires
value_count-requires g c =
    rw c.compiled-compiled.ensures.schema
    (valid_key c.args.schema.now.resolved c.compiled-compiled.ensures.valid c.as_slice-keys.result.now (c.as_slice-keys.ensures ∙ c.keys.ensures)
    c.loop-key.key-index c.loop-key-test.true c.key-item.result c.key-item.is)
E
cat >"$work/crates/matching/src/main.rt" <<'E'
//! Makes the generator's graph in tables, and finds the scope and all key values of one key as many times as its word says, 0 to 9.
#![tactic(auto)]

ghost use Rattle.std.specs.Prelude.{◌≡◌, ◌<◌, true};
ghost use Rattle.pgs_syntax.specs.Valid.{is_valid_key_of};

use pgs_base::{Limits, Memory, Steps};
use pgs_conform::Compiled;
use pgs_gen::generate;
use pgs_graph::Txn;
use pgs_match::{PlannedKey, each_x, key_values};
use pgs_schema::Schema;
use pgs_tables::Tables;
use pgs_txn::stage;
use std::alloc::Global;
use std::env;
use std::marker::Brand;
use std::process::ExitCode;
use std::sync::ledger::{Blank, Ledger};

const SCHEMA: &[u8] = b"CREATE GRAPH TYPE g STRICT {(p: Person {id INT, mail STRING}), (:p)-[k: knows]->(:p), FOR (x:p) EXCLUSIVE x.mail};";

fn read(alloc: Global) -> Result<Schema, Memory> {
    match Schema::read(alloc, SCHEMA) {
        Ok(schema) => Ok(schema),
        Err(_) => Err(Memory),
    }
}

fn apply<L: Ledger>(alloc: Global, tables: &mut Tables, txn: &Txn, steps: &mut Steps<L>) -> Result<(), Memory> {
    match stage(alloc, tables, &Limits::standard(), txn, steps) {
        Ok(delta) => {
            let prepared = tables.prepare(delta)?;
            tables.commit(prepared);
            Ok(())
        }
        Err(_) => Err(Memory),
    }
}

fn fill<L: Ledger>(alloc: Global, tables: &mut Tables, steps: &mut Steps<L>) -> Result<(), Memory> {
    for number in 1..100_001 {
        let txn = generate(alloc, 1, number)?;
        apply(alloc, tables, &txn, steps)?;
    }
    Ok(())
}

// How many key values the elements of a key's scope have.
fn value_count<L: Ledger>(
    alloc: Global,
    tables: &Tables,
    compiled: &Compiled,
    key: &PlannedKey,
    steps: &mut Steps<L>,
) -> Result<usize, Memory>
    requires { is_valid_key_of compiled.now key.now ≡ true }
{
    let mut count = 0usize;
    for elem in each_x(alloc, tables, compiled, key, steps)?.as_slice() {
        let values = key_values(alloc, tables, compiled, key, *elem, steps)?;
        count = count.saturating_add(values.len());
    }
    Ok(count)
}

fn valued<L: Ledger>(alloc: Global, tables: &Tables, schema: &Schema, steps: &mut Steps<L>) -> Result<usize, Memory> {
    let compiled = schema.compiled();
    let keys = schema.keys().as_slice();
    let mut count = 0usize;
    for key in keys {
        count = count.saturating_add(value_count(alloc, tables, compiled, key, steps)?);
    }
    Ok(count)
}

fn run_by<L: Ledger>(alloc: Global, times: u8, blank: Blank) -> Result<usize, Memory>
    requires name { blank.name ≡ L.name }
    requires parts { blank.parts ≡ L.parts }
    requires some { 0 < blank.parts }
{
    let mut steps: Steps<L> = Steps::begin(blank);
    let schema = read(alloc)?;
    let mut tables = Tables::new(alloc);
    fill(alloc, &mut tables, &mut steps)?;
    let mut count = 0;
    for _ in 0..times {
        count = valued(alloc, &tables, &schema, &mut steps)?;
    }
    Ok(count)
}

fn run(alloc: Global, times: u8) -> Result<usize, Memory> {
    run_by::<Brand>(alloc, times, Blank::new(1))
}

fn main(rt: HostRuntime) -> ExitCode {
    let alloc = rt.alloc();
    let Ok(arguments) = env::args(&rt) else {
        return ExitCode::from(2);
    };
    let mut times = 0u8;
    for argument in arguments.skip(1) {
        if let [digit] = argument.as_bytes() {
            times = digit.saturating_sub(b'0');
        }
    }
    match run(alloc, times) {
        Ok(count) => {
            let _ = println!(rt; "{count}");
            ExitCode::from(0)
        }
        Err(_) => ExitCode::from(3),
    }
}
E
build matching 0
count=$("$built" 1)
[ "$count" = 100000 ] || { echo "$count key values, where each of 100,000 persons has one" >&2; exit 1; }
# The program prints its count, which the times are not to have.
run() { "$built" "$1" >"$work/counted"; }
without=$(milliseconds run 0)
with=$(milliseconds run 5)
awk -v with="$with" -v without="$without" \
  'BEGIN { printf "scope and key values of 100,000 persons: %.0f ms\n", (with - without) / 5 }'
