#!/usr/bin/env bash
# Times one transaction of one added node, whose label is Person, under a schema without keys and under the same with 256 keys of one kind
# that this transaction can't alter. For each kind it says the median of 20,000 such transactions by the clock, the least of three runs, and
# how many times as long it takes as without keys. The bar is 30 microseconds for each kind: an added node is ruled out, without a search, by
# what a variable asks, and also where a variable asks nothing and is an end of an edge, since the transaction has no edge there. A removed
# node is ruled out likewise. A changed node may have edges that its transaction doesn't list: where it passes what a variable asks, these are
# searched, which isn't measured here. The script makes a small program in a folder of its own, and builds it, proving what is below where no
# check has kept it.
# Usage: bench/irrelevant.sh
source "$(dirname "$(readlink -f "${BASH_SOURCE[0]}")")/common.bash"
take pgs_store
echo 'passing: pgs_base pgs_graph pgs_store' >>"$work/crates.txt"
mkdir -p "$work/crates/passing/src" "$work/crates/passing/proofs/added"
cat >"$work/crates/passing/proofs/added/Invariants.antt" <<'P'
use Rattle.passing.proofs.added.Given as goal

abbrev pub ghosts-added_by : goal.ghosts-added_by
ghosts-added_by a = record { name = a.blank.name; parts = a.blank.parts }
P
cat >"$work/crates/passing/src/main.rt" <<'P'
//! Makes a guard with the schema of the file that its first word names, adds as many persons as its second word says, each in a transaction
//! of its own, and prints in how many nanoseconds one is done, by the median.
#![tactic(auto)]

ghost use Rattle.std.specs.Prelude.{◌≡◌, ◌<◌};

use pgs_base::{Labels, Limits, List, Memory, Name, NodeId, Props, Steps, Value};
use pgs_graph::{Op, Txn};
use pgs_store::Guard;
use std::alloc::Global;
use std::env;
use std::fs;
use std::marker::Brand;
use std::process::ExitCode;
use std::sync::ledger::{Blank, Ledger};
use std::time::Instant;

const LIMITS: Limits = Limits { ops: 10_000, elements: 2_000_000 };

fn name(alloc: Global, bytes: &[u8]) -> Result<Name, Memory> {
    match Name::new(alloc, bytes)? {
        Some(name) => Ok(name),
        None => Err(Memory),
    }
}

fn newcomer(alloc: Global, number: u64) -> Result<Txn, Memory> {
    let mut labels = Labels::new(alloc);
    labels.insert(name(alloc, b"Person")?)?;
    let mut props = Props::new(alloc);
    props.set(name(alloc, b"id")?, Value::Int((number % 1_000_000_000) as i64))?;
    let mut ops = Vec::new(alloc);
    ops.push(Op::AddNode { id: NodeId(number), labels, props })?;
    Ok(Txn { ops: List::from_vec(ops) })
}

/// Does a transaction, which has to be accepted.
fn apply<L: Ledger>(guard: &mut Guard, txn: &Txn, steps: &mut Steps<L>) -> Result<(), Memory> {
    if guard.commits() == u64::MAX {
        return Err(Memory);
    }
    match guard.apply(txn, steps) {
        Ok(_) => Ok(()),
        Err(_) => Err(Memory),
    }
}

/// The same, and in how many nanoseconds.
fn timed<L: Ledger>(rt: &HostRuntime, guard: &mut Guard, txn: &Txn, steps: &mut Steps<L>) -> Result<u64, Memory> {
    let Ok(start) = Instant::now(rt) else {
        return Err(Memory);
    };
    apply(guard, txn, steps)?;
    let Ok(time) = start.elapsed(rt) else {
        return Err(Memory);
    };
    Ok(time.as_secs().saturating_mul(1_000_000_000).saturating_add(time.subsec_nanos() as u64))
}

fn added_by<L: Ledger>(rt: &HostRuntime, guard: &mut Guard, count: u64, blank: Blank) -> Result<Vec<u64>, Memory>
    requires name { blank.name ≡ L.name }
    requires parts { blank.parts ≡ L.parts }
    requires some { 0 < blank.parts }
{
    let alloc = rt.alloc();
    let mut steps: Steps<L> = Steps::begin(blank);
    let mut times = Vec::new(alloc);
    for number in 0..count {
        let txn = newcomer(alloc, number)?;
        times.push(timed(rt, guard, &txn, &mut steps)?)?;
    }
    Ok(times)
}

fn added(rt: &HostRuntime, schema: &[u8], count: u64) -> Result<Vec<u64>, Memory> {
    let Ok(mut guard) = Guard::new(rt.alloc(), schema, LIMITS) else {
        return Err(Memory);
    };
    added_by::<Brand>(rt, &mut guard, count, Blank::new(1))
}

fn median(times: &mut Vec<u64>) -> u64 {
    times.sort_unstable();
    let middle = times.len() / 2;
    match times.get(middle) {
        Some(time) => *time,
        None => 0,
    }
}

fn main(rt: HostRuntime) -> ExitCode {
    let alloc = rt.alloc();
    let Ok(arguments) = env::args(&rt) else {
        return ExitCode::from(2);
    };
    let mut words = (String::new(alloc), String::new(alloc));
    for (place, word) in arguments.enumerate() {
        match place {
            1 => words.0 = word,
            2 => words.1 = word,
            _ => {}
        }
    }
    let Ok(schema) = fs::read_to_string(&rt, words.0.as_str()) else {
        return ExitCode::from(2);
    };
    match added(&rt, schema.as_bytes(), words.1.as_str().parse().unwrap_or(0)) {
        Ok(mut times) => {
            let _ = println!(rt; "{}", median(&mut times));
            ExitCode::from(0)
        }
        Err(_) => ExitCode::from(3),
    }
}
P
# schema COUNT KEY: the schema with so many keys of one text
schema() {
  printf 'CREATE GRAPH TYPE g STRICT {(p: Person {id INT}), (a: Absent {id INT}), (:a)-[l: link {w INT}]->(:a)'
  for ((number = 0; number < $1; number++)); do
    printf ', %s' "$2"
  done
  printf '};'
}
schema 0 '' >"$work/schema"
build passing "$work/schema" 10
# microseconds COUNT KEY: of one transaction, under so many keys
microseconds() {
  schema "$1" "$2" >"$work/schema"
  for _ in 1 2 3; do
    "$built" "$work/schema" 20000
  done | sort -n | awk 'NR == 1 { printf "%.2f", $1 / 1000 }'
}
none=$(microseconds 0 '')
echo "without keys: $none us"
# told KEY
told() {
  awk -v key="$1" -v none="$none" -v taken="$(microseconds 256 "$1")" 'BEGIN {
    printf "256 times %s: %.2f us, so %.1f times; the bar is 30 us\n", key, taken, taken / none }'
}
told 'FOR (x:Absent) IDENTIFIER x.id'
told 'FOR (x:a) IDENTIFIER x.id'
told 'FOR (x:Absent)-[:link]->(y:Absent) IDENTIFIER x.id'
told 'FOR (x:a) EXCLUSIVE x.id, y.id WITHIN (x)-[:l]->(y:a)'
told 'FOR (x:Absent) MANDATORY y WITHIN (x)<-[:link]-(y)'
told 'FOR (x)<-[:link]-(y) IDENTIFIER x.id'
told 'FOR ()-[m:link]->() EXCLUSIVE m.w'
