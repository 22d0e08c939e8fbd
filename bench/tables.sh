#!/usr/bin/env bash
# Times 200,000 transactions on the tables, each of which is staged, seen through an overlay, prepared and committed, and adds one edge:
# between nodes that look as if drawn, and all of them at one node. Beside them a version in Rust with the standard library's maps, which
# checks the same, sees the change over the graph before it puts it in, and keeps the same rows and lists. Then one transaction that adds
# 200,000 edges at one node, and the most memory that 1,000,000 elements with two properties each take. It makes small programs in a folder
# of its own, and builds them, proving what is below where no check has kept it.
# Usage: bench/tables.sh
source "$(dirname "$(readlink -f "${BASH_SOURCE[0]}")")/common.bash"
take pgs_txn pgs_overlay
echo 'tabling: pgs_base pgs_graph pgs_violation pgs_txn pgs_tables pgs_overlay' >>"$work/crates.txt"
mkdir -p "$work/crates/tabling/src" "$work/crates/tabling/proofs/done"
cat >"$work/crates/tabling/proofs/done/Invariants.antt" <<'E'
use Rattle.tabling.proofs.done.Given as goal

abbrev pub ghosts-done_by : goal.ghosts-done_by
ghosts-done_by a = record { name = a.blank.name; parts = a.blank.parts }
E
cat >"$work/crates/tabling/src/main.rt" <<'E'
//! Does transactions on tables, of the kind that the word says.
#![tactic(auto)]

ghost use Rattle.std.specs.Prelude.{◌≡◌, ◌<◌, true};
ghost use Rattle.pgs_graph.specs.Changed.{is_sound};

use pgs_base::{EdgeId, Labels, Limits, List, Memory, Name, NodeId, Props, Steps, Text, Value};
use pgs_graph::{Delta, GraphRead, Op, Txn};
use pgs_overlay::Overlay;
use pgs_tables::Tables;
use pgs_txn::stage;
use std::alloc::Global;
use std::env;
use std::marker::Brand;
use std::process::ExitCode;
use std::sync::ledger::{Blank, Ledger};

const MANY: u64 = 200_000;
const TOGETHER: u64 = 10_000;

/// What is done.
#[derive(Clone, Copy, PartialEq, Eq)]
enum Kind {
    Nodes,
    Spread,
    Hub,
    Together,
    Apart,
    Elements,
}

fn kind_of(word: &str) -> Kind {
    match word {
        "spread" => Kind::Spread,
        "hub" => Kind::Hub,
        "together" => Kind::Together,
        "apart" => Kind::Apart,
        "elements" => Kind::Elements,
        _ => Kind::Nodes,
    }
}

/// Numbers that look as if drawn, each once.
fn mixed(number: u64) -> u64 {
    number.wrapping_mul(0x9E37_79B9_7F4A_7C15)
}

/// How many elements there would be, by an overlay.
fn seen<L: Ledger>(alloc: Global, tables: &Tables, delta: &Delta, steps: &mut Steps<L>) -> Result<u64, Memory>
    requires { is_sound tables.now.graph delta.now ≡ true }
{
    let overlay = Overlay::new(alloc, tables, delta, steps)?;
    Ok(overlay.count())
}

fn apply<L: Ledger>(alloc: Global, tables: &mut Tables, txn: &Txn, steps: &mut Steps<L>) -> Result<(), Memory> {
    let limits = Limits { ops: 1_000_000, elements: 2_000_000 };
    match stage(alloc, tables, &limits, txn, steps) {
        Ok(delta) => {
            let _ = seen(alloc, tables, &delta, steps)?;
            let prepared = tables.prepare(delta)?;
            tables.commit(prepared);
            Ok(())
        }
        Err(_) => Err(Memory),
    }
}

fn node(alloc: Global, number: u64, props: Props) -> Op {
    Op::AddNode { id: NodeId(number), labels: Labels::new(alloc), props }
}

fn edge(alloc: Global, number: u64, source: u64, target: u64, props: Props) -> Op {
    Op::AddEdge { id: EdgeId(number), source: NodeId(source), target: NodeId(target), labels: Labels::new(alloc), props }
}

/// Adds nodes without properties, many together.
fn add_nodes<L: Ledger>(alloc: Global, tables: &mut Tables, steps: &mut Steps<L>) -> Result<(), Memory> {
    for part in 0..MANY / TOGETHER {
        let mut ops = Vec::new(alloc);
        for place in 0..TOGETHER {
            ops.push(node(alloc, part.wrapping_mul(TOGETHER).wrapping_add(place), Props::new(alloc)))?;
        }
        apply(alloc, tables, &Txn { ops: List::from_vec(ops) }, steps)?;
    }
    Ok(())
}

fn end(at_hub: bool, number: u64) -> u64 {
    if at_hub { 0 } else { mixed(number) % MANY }
}

/// Adds edges, each in a transaction of its own.
fn add_edges<L: Ledger>(alloc: Global, tables: &mut Tables, at_hub: bool, steps: &mut Steps<L>) -> Result<(), Memory> {
    for number in 0..MANY {
        let mut ops = Vec::with_capacity(alloc, 1)?;
        ops.push(edge(alloc, number, mixed(number.wrapping_add(MANY)) % MANY, end(at_hub, number), Props::new(alloc)))?;
        apply(alloc, tables, &Txn { ops: List::from_vec(ops) }, steps)?;
    }
    Ok(())
}

/// Adds as many edges, in one transaction.
fn add_together<L: Ledger>(alloc: Global, tables: &mut Tables, at_hub: bool, steps: &mut Steps<L>) -> Result<(), Memory> {
    let mut ops = Vec::new(alloc);
    for number in 0..MANY {
        ops.push(edge(alloc, number, mixed(number.wrapping_add(MANY)) % MANY, end(at_hub, number), Props::new(alloc)))?;
    }
    apply(alloc, tables, &Txn { ops: List::from_vec(ops) }, steps)
}

fn name(alloc: Global, text: &str) -> Result<Name, Memory> {
    match Name::new(alloc, text.as_bytes())? {
        Some(name) => Ok(name),
        None => Err(Memory),
    }
}

fn two_properties(alloc: Global, number: u64) -> Result<Props, Memory> {
    let mut props = Props::new(alloc);
    let _ = props.set(name(alloc, "id")?, Value::Int((number % 1_000_000) as i64))?;
    let mail = format!(in alloc; "u{number}@x.org")?;
    match Text::new(alloc, mail.as_str())? {
        Some(text) => {
            let _ = props.set(name(alloc, "mail")?, Value::Text(text))?;
        }
        None => {}
    }
    Ok(props)
}

fn some_elements(alloc: Global, part: u64) -> Result<Txn, Memory> {
    let mut ops = Vec::new(alloc);
    for place in 0..1_000 {
        let number = part.wrapping_mul(1_000).wrapping_add(place);
        ops.push(node(alloc, number, two_properties(alloc, number)?))?;
        let other = if number == 0 { 0 } else { mixed(number) % number };
        ops.push(edge(alloc, number, number, other, two_properties(alloc, number)?))?;
    }
    Ok(Txn { ops: List::from_vec(ops) })
}

fn add_elements<L: Ledger>(alloc: Global, tables: &mut Tables, steps: &mut Steps<L>) -> Result<(), Memory> {
    for part in 0..500 {
        let txn = some_elements(alloc, part)?;
        apply(alloc, tables, &txn, steps)?;
    }
    Ok(())
}

fn add<L: Ledger>(alloc: Global, tables: &mut Tables, kind: Kind, steps: &mut Steps<L>) -> Result<(), Memory> {
    match kind {
        Kind::Nodes => Ok(()),
        Kind::Spread => add_edges(alloc, tables, false, steps),
        Kind::Hub => add_edges(alloc, tables, true, steps),
        Kind::Together => add_together(alloc, tables, true, steps),
        Kind::Apart => add_together(alloc, tables, false, steps),
        Kind::Elements => add_elements(alloc, tables, steps),
    }
}

fn done_by<L: Ledger>(alloc: Global, tables: &mut Tables, kind: Kind, blank: Blank) -> Result<(), Memory>
    requires name { blank.name ≡ L.name }
    requires parts { blank.parts ≡ L.parts }
    requires some { 0 < blank.parts }
{
    let mut steps: Steps<L> = Steps::begin(blank);
    if kind != Kind::Elements {
        add_nodes(alloc, tables, &mut steps)?;
    }
    add(alloc, tables, kind, &mut steps)
}

fn done(alloc: Global, kind: Kind) -> Result<u64, Memory> {
    let mut tables = Tables::new(alloc);
    done_by::<Brand>(alloc, &mut tables, kind, Blank::new(1))?;
    Ok(tables.count())
}

fn main(rt: HostRuntime) -> ExitCode {
    let alloc = rt.alloc();
    let Ok(arguments) = env::args(&rt) else {
        return ExitCode::from(2);
    };
    let mut kind = String::new(alloc);
    for argument in arguments.skip(1) {
        kind = argument;
    }
    match done(alloc, kind_of(kind.as_str())) {
        Ok(count) => if count >= MANY { ExitCode::from(0) } else { ExitCode::from(1) },
        Err(_) => ExitCode::from(3),
    }
}
E
cat >"$work/bare.rs" <<'E'
// The same over the standard library's maps: a transaction is a list of operations, which are checked and staged as changed rows; these
// are seen over the graph as the changed graph, room is made for them, and then they are put in.
use std::collections::{BTreeMap, BTreeSet, HashMap, HashSet};

#[derive(Clone)]
enum Value { Int(i64), Text(String) }

#[derive(Clone, Default)]
struct Row { labels: BTreeSet<String>, props: BTreeMap<String, Value> }

#[derive(Default)]
struct Node { row: Row, outgoing: BTreeSet<u64>, incoming: BTreeSet<u64> }

#[derive(Clone)]
struct Edge { source: u64, target: u64, row: Row }

enum Op { AddNode { id: u64, row: Row }, AddEdge { id: u64, source: u64, target: u64, row: Row } }

#[derive(Default)]
struct Delta { nodes: BTreeMap<u64, Row>, edges: BTreeMap<u64, Edge> }

#[derive(Default)]
struct Graph { nodes: HashMap<u64, Node>, edges: HashMap<u64, Edge> }

impl Graph {
    fn stage(&self, ops: Vec<Op>) -> Option<Delta> {
        let mut delta = Delta::default();
        for op in ops {
            match op {
                Op::AddNode { id, row } => {
                    if self.nodes.contains_key(&id) || delta.nodes.contains_key(&id) { return None; }
                    delta.nodes.insert(id, row);
                }
                Op::AddEdge { id, source, target, row } => {
                    if self.edges.contains_key(&id) || delta.edges.contains_key(&id) { return None; }
                    for end in [source, target] {
                        if !self.nodes.contains_key(&end) && !delta.nodes.contains_key(&end) { return None; }
                    }
                    delta.edges.insert(id, Edge { source, target, row });
                }
            }
        }
        Some(delta)
    }

    // Takes all memory that a delta needs in the maps.
    fn prepare(&mut self, delta: &Delta) {
        self.nodes.try_reserve(delta.nodes.len()).unwrap();
        self.edges.try_reserve(delta.edges.len()).unwrap();
    }

    fn commit(&mut self, delta: Delta) {
        for (id, row) in delta.nodes { self.nodes.entry(id).or_default().row = row; }
        for (id, edge) in delta.edges {
            self.nodes.entry(edge.source).or_default().outgoing.insert(id);
            self.nodes.entry(edge.target).or_default().incoming.insert(id);
            self.edges.insert(id, edge);
        }
    }
}

// A pending change seen as a graph: for each node at which a changed edge stands, the edges that are put in and those that are taken out.
#[derive(Default)]
struct Edits { put: BTreeSet<u64>, taken: BTreeSet<u64> }

struct Overlay<'a> { base: &'a Graph, delta: &'a Delta, outgoing: BTreeMap<u64, Edits>, incoming: BTreeMap<u64, Edits>, count: usize }

impl<'a> Overlay<'a> {
    fn new(base: &'a Graph, delta: &'a Delta) -> Overlay<'a> {
        let mut overlay = Overlay { base, delta, outgoing: BTreeMap::new(), incoming: BTreeMap::new(), count: base.nodes.len() + base.edges.len() };
        for id in delta.nodes.keys() {
            if !base.nodes.contains_key(id) { overlay.count += 1; }
        }
        for (id, edge) in &delta.edges {
            match base.edges.get(id) {
                Some(old) => {
                    overlay.outgoing.entry(old.source).or_default().taken.insert(*id);
                    overlay.incoming.entry(old.target).or_default().taken.insert(*id);
                }
                None => overlay.count += 1,
            }
            overlay.outgoing.entry(edge.source).or_default().put.insert(*id);
            overlay.incoming.entry(edge.target).or_default().put.insert(*id);
        }
        overlay
    }
}

const MANY: u64 = 200_000;
const TOGETHER: u64 = 10_000;

fn mixed(number: u64) -> u64 { number.wrapping_mul(0x9E37_79B9_7F4A_7C15) }

fn apply(graph: &mut Graph, ops: Vec<Op>) {
    let delta = graph.stage(ops).unwrap();
    let count = Overlay::new(graph, &delta).count;
    assert!(count > 0);
    graph.prepare(&delta);
    graph.commit(delta);
}

fn main() {
    let kind = std::env::args().nth(1).unwrap();
    let mut graph = Graph::default();
    for part in 0..MANY / TOGETHER {
        let ops = (0..TOGETHER).map(|place| Op::AddNode { id: part * TOGETHER + place, row: Row::default() }).collect();
        apply(&mut graph, ops);
    }
    if kind != "nodes" {
        for number in 0..MANY {
            let target = if kind == "hub" { 0 } else { mixed(number) % MANY };
            let ops = vec![Op::AddEdge { id: number, source: mixed(number + MANY) % MANY, target, row: Row::default() }];
            apply(&mut graph, ops);
        }
    }
    let seen: HashSet<u64> = graph.nodes.values().map(|node| node.outgoing.len() as u64).collect();
    std::process::exit(if graph.edges.len() + seen.len() > 0 { 0 } else { 1 });
}
E
rustc -O -A warnings -o "$work/bare" "$work/bare.rs"
build tabling nodes
# single PROGRAM KIND: the milliseconds of 200,000 transactions, less those of making the nodes
single() {
  local all nodes
  all=$(milliseconds "$1" "$2")
  nodes=$(milliseconds "$1" nodes)
  echo $((all - nodes))
}
spread=$(single "$built" spread)
hub=$(single "$built" hub)
bare_spread=$(single "$work/bare" spread)
bare_hub=$(single "$work/bare" hub)
awk -v spread="$spread" -v hub="$hub" -v bare_spread="$bare_spread" -v bare_hub="$bare_hub" 'BEGIN {
  printf "200,000 transactions, spread: %d ms, %.2f us each; bare Rust %d ms, so %.2f times\n", spread, spread / 200, bare_spread, spread / bare_spread
  printf "200,000 transactions, at one node: %d ms, %.2f us each; bare Rust %d ms, so %.2f times\n", hub, hub / 200, bare_hub, hub / bare_hub
  printf "at one node over spread: %.2f times\n", hub / spread }'
for kind in together apart; do
  echo "200,000 edges in one transaction, $kind: $(single "$built" "$kind") ms"
done
held '1,000,000 elements with two properties each' 0 "$built" elements
