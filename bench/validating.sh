#!/usr/bin/env bash
# Times the list of violations over the generator's graph of 100,000 persons and 99,999 edges in tables: under the generator's schema,
# to which it conforms, and under a schema by which no two persons know the same one, where most are listed. Beside it the same in Rust
# with the standard library's hash maps. It makes small programs in a folder of its own, and builds them, proving what is below where no
# check has kept it.
# Usage: bench/validating.sh
source "$(dirname "$(readlink -f "${BASH_SOURCE[0]}")")/common.bash"
take pgs_txn pgs_tables pgs_gen pgs_scratch pgs_schema
echo 'validating: pgs_base pgs_graph pgs_txn pgs_tables pgs_gen pgs_scratch pgs_schema' >>"$work/crates.txt"
mkdir -p "$work/crates/validating/src" "$work/crates/validating/proofs/run"
cat >"$work/crates/validating/proofs/run/Invariants.antt" <<'E'
use Rattle.validating.proofs.run.Given as goal

abbrev pub ghosts-run_by : goal.ghosts-run_by
ghosts-run_by a = record { name = a.blank.name; parts = a.blank.parts }
E
cat >"$work/crates/validating/src/main.rt" <<'E'
//! Makes the generator's graph in tables, and lists its violations as many times as its first word says, 0 to 9: under the generator's
//! schema, or with the second word `shared` under one by which no two persons know the same one.
#![tactic(auto)]

ghost use Rattle.std.specs.Prelude.{◌≡◌, ◌<◌};

use pgs_base::{Limits, Memory, Steps};
use pgs_gen::{generate, schema};
use pgs_graph::Txn;
use pgs_schema::Schema;
use pgs_scratch::violations;
use pgs_tables::Tables;
use pgs_txn::stage;
use std::alloc::Global;
use std::env;
use std::marker::Brand;
use std::process::ExitCode;
use std::sync::ledger::{Blank, Ledger};

const SHARED: &[u8] = b"CREATE GRAPH TYPE g STRICT {(p: Person {id INT, mail STRING}), (:p)-[k: knows]->(:p), FOR (x:p) EXCLUSIVE y WITHIN (x)-[:knows]->(y)};";

fn read(alloc: Global, text: &[u8]) -> Result<Schema, Memory> {
    match Schema::read(alloc, text) {
        Ok(schema) => Ok(schema),
        Err(_) => Err(Memory),
    }
}

fn apply<L: Ledger>(alloc: Global, tables: &mut Tables, txn: &Txn, steps: &mut Steps<L>) -> Result<(), Memory> {
    match stage(alloc, tables, &Limits::standard(), txn, steps) {
        Ok(delta) => {
            let prepared = tables.prepare(delta)?;
            tables.commit(prepared);
            Ok(())
        }
        Err(_) => Err(Memory),
    }
}

fn fill<L: Ledger>(alloc: Global, tables: &mut Tables, steps: &mut Steps<L>) -> Result<(), Memory> {
    for number in 1..100_001 {
        let txn = generate(alloc, 1, number)?;
        apply(alloc, tables, &txn, steps)?;
    }
    Ok(())
}

fn run_by<L: Ledger>(alloc: Global, times: u8, text: &[u8], blank: Blank) -> Result<usize, Memory>
    requires name { blank.name ≡ L.name }
    requires parts { blank.parts ≡ L.parts }
    requires some { 0 < blank.parts }
{
    let mut steps: Steps<L> = Steps::begin(blank);
    let schema = read(alloc, text)?;
    let mut tables = Tables::new(alloc);
    fill(alloc, &mut tables, &mut steps)?;
    let mut count = 0;
    for _ in 0..times {
        let found = violations(alloc, &tables, schema.compiled(), schema.keys(), &mut steps)?;
        count = found.len();
    }
    Ok(count)
}

fn run(alloc: Global, times: u8, text: &[u8]) -> Result<usize, Memory> {
    run_by::<Brand>(alloc, times, text, Blank::new(1))
}

fn counted(alloc: Global, times: u8, shared: bool) -> Result<usize, Memory> {
    if shared {
        run(alloc, times, SHARED)
    } else {
        let text = schema(alloc)?;
        run(alloc, times, text.as_slice())
    }
}

fn main(rt: HostRuntime) -> ExitCode {
    let alloc = rt.alloc();
    let Ok(arguments) = env::args(&rt) else {
        return ExitCode::from(2);
    };
    let mut times = 0u8;
    let mut shared = false;
    for argument in arguments.skip(1) {
        match argument.as_bytes() {
            [digit] => times = digit.saturating_sub(b'0'),
            _ => shared = true,
        }
    }
    match counted(alloc, times, shared) {
        Ok(count) => {
            let _ = println!(rt; "{count}");
            ExitCode::from(0)
        }
        Err(_) => ExitCode::from(3),
    }
}
E
cat >"$work/bare.rs" <<'E'
// The same over the standard library's hash maps: types by labels and properties, and of each key one map from values to owners.
use std::collections::HashMap;

#[derive(Clone, PartialEq, Eq, Hash, PartialOrd, Ord)]
enum Value { Int(i64), Text(String), Node(u64) }

struct Row { labels: Vec<String>, props: Vec<(String, Value)> }

struct Edge { source: u64, target: u64, row: Row }

#[derive(Default)]
struct Graph { nodes: HashMap<u64, Row>, edges: HashMap<u64, Edge>, outgoing: HashMap<u64, Vec<u64>> }

enum Violation { Node(u64), Edge(u64), Missing(u64), Several(u64, Value, Value), Shared(u64, u64, Value) }

const PERSONS: u64 = 100_000;

fn value<'a>(row: &'a Row, key: &str) -> Option<&'a Value> {
    row.props.iter().find(|prop| prop.0 == key).map(|prop| &prop.1)
}

fn has_label(row: &Row, label: &str) -> bool { row.labels.iter().any(|own| own == label) }

fn is_person(row: &Row) -> bool {
    row.labels.len() == 1 && has_label(row, "Person") && row.props.len() == 2
        && matches!(value(row, "id"), Some(Value::Int(_))) && matches!(value(row, "mail"), Some(Value::Text(_)))
}

fn property(graph: &Graph, id: u64, key: &str) -> Vec<Value> {
    value(&graph.nodes[&id], key).cloned().into_iter().collect()
}

fn known(graph: &Graph, id: u64) -> Vec<Value> {
    let mut found: Vec<Value> = graph.outgoing.get(&id).into_iter().flatten().map(|edge| &graph.edges[edge])
        .filter(|edge| has_label(&edge.row, "knows")).map(|edge| Value::Node(edge.target)).collect();
    found.sort();
    found.dedup();
    found
}

fn add_key(graph: &Graph, ids: &[u64], all: bool, values: impl Fn(&Graph, u64) -> Vec<Value>, found: &mut Vec<Violation>) {
    let rows: Vec<(u64, Vec<Value>)> =
        ids.iter().filter(|id| is_person(&graph.nodes[id])).map(|id| (*id, values(graph, *id))).collect();
    for (id, own) in &rows {
        if all && own.is_empty() { found.push(Violation::Missing(*id)); }
    }
    for (id, own) in &rows {
        if all && own.len() > 1 { found.push(Violation::Several(*id, own[0].clone(), own[1].clone())); }
    }
    let mut next: HashMap<&Value, u64> = HashMap::new();
    let mut shared = Vec::new();
    for (id, own) in rows.iter().rev() {
        let nearest = own.iter().filter_map(|value| next.get(value).map(|other| (*other, value))).min();
        if let Some((other, value)) = nearest { shared.push(Violation::Shared(*id, other, value.clone())); }
        for value in own { next.insert(value, *id); }
    }
    found.extend(shared.into_iter().rev());
}

fn violations(graph: &Graph, shared: bool) -> Vec<Violation> {
    let mut found = Vec::new();
    let mut ids: Vec<u64> = graph.nodes.keys().copied().collect();
    ids.sort();
    found.extend(ids.iter().filter(|id| !is_person(&graph.nodes[id])).map(|id| Violation::Node(*id)));
    let mut edges: Vec<u64> = graph.edges.keys().copied().collect();
    edges.sort();
    found.extend(edges.iter().filter(|id| {
        let edge = &graph.edges[id];
        !(edge.row.labels.len() == 1 && has_label(&edge.row, "knows") && edge.row.props.is_empty()
            && is_person(&graph.nodes[&edge.source]) && is_person(&graph.nodes[&edge.target]))
    }).map(|id| Violation::Edge(*id)));
    if shared {
        add_key(graph, &ids, false, known, &mut found);
    } else {
        add_key(graph, &ids, true, |graph, id| property(graph, id, "mail"), &mut found);
        add_key(graph, &ids, true, |graph, id| property(graph, id, "id"), &mut found);
    }
    found
}

fn main() {
    let times: u32 = std::env::args().nth(1).unwrap().parse().unwrap();
    let shared = std::env::args().nth(2).is_some();
    let mut graph = Graph::default();
    for number in 1..PERSONS + 1 {
        let props = vec![("id".to_string(), Value::Int(number as i64)), ("mail".to_string(), Value::Text(format!("u{number}@x.org")))];
        graph.nodes.insert(number, Row { labels: vec!["Person".to_string()], props });
        if number < 2 { continue; }
        let row = Row { labels: vec!["knows".to_string()], props: Vec::new() };
        graph.edges.insert(number, Edge { source: number, target: 1 + (1 + 7 * number) % (number - 1), row });
        graph.outgoing.entry(number).or_default().push(number);
    }
    let mut count = 0;
    for _ in 0..times { count = violations(&graph, shared).len(); }
    println!("{count}");
}
E
rustc -O -A warnings -o "$work/bare" "$work/bare.rs"
build validating 0
# runs COMMAND..: a command without what it prints
runs() {
  "$@" >/dev/null
}
for kind in '' shared; do
  for program in "$built" "$work/bare"; do
    without=$(milliseconds runs "$program" 0 $kind)
    with=$(milliseconds runs "$program" 5 $kind)
    awk -v program="$(basename "$program")" -v kind="${kind:-conforming}" -v with="$with" -v without="$without" \
      -v count="$("$program" 1 $kind)" 'BEGIN { printf "%s, %s: %d violations, %.0f ms a list\n", program, kind, count, (with - without) / 5 }'
  done
done
