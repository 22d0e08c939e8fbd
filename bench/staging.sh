#!/usr/bin/env bash
# Times the staging of transactions of 10,000 operations over the plain graph of 10,000 nodes and as many edges: for each kind of
# transaction the mean of 50 turns, in milliseconds of processor time, less those of making graph and transaction. The bar is 20 ms,
# whichever elements the operations name. A plain graph goes over all its edges to list those at a node, so where each operation in
# three detaches a node it has 100 edges. It makes a small program over pgs_txn in a folder of its own, and builds it, proving what is
# below where no check has kept it.
# Usage: bench/staging.sh
source "$(dirname "$(readlink -f "${BASH_SOURCE[0]}")")/common.bash"
take pgs_txn
echo 'staging: pgs_base pgs_graph pgs_violation pgs_txn' >>"$work/crates.txt"
mkdir -p "$work/crates/staging/src" "$work/crates/staging/proofs/done"
echo 'use Rattle.staging.proofs.done.Given as goal

abbrev pub ghosts-done_by : goal.ghosts-done_by
ghosts-done_by a = record { name = a.blank.name; parts = a.blank.parts }' >"$work/crates/staging/proofs/done/Invariants.antt"
cat >"$work/crates/staging/src/main.rt" <<'E2'
//! Makes a graph and a transaction of a kind, and stages it as often as there are further words.
#![tactic(auto)]

ghost use Rattle.std.specs.Prelude.{◌≡◌, ◌<◌, IfSome, true};
ghost use Rattle.pgs_graph.specs.Changed.{is_sound};

use pgs_base::{EdgeId, Labels, Limits, List, Memory, Name, NodeId, Props, Steps, Value};
use pgs_graph::{Delta, Graph, Op, Txn};
use pgs_txn::stage;
use std::alloc::Global;
use std::env;
use std::marker::Brand;
use std::process::ExitCode;
use std::sync::ledger::{Blank, Ledger};

const MANY: u64 = 10_000;

fn done_by<L: Ledger>(alloc: Global, graph: &Graph, txn: &Txn, blank: Blank) -> Option<Delta>
    requires name { blank.name ≡ L.name }
    requires parts { blank.parts ≡ L.parts }
    requires some { 0 < blank.parts }
    ensures { IfSome result (λ delta. is_sound graph.now delta ≡ true) }
{
    let limits = Limits { ops: 100_000, elements: 1_000_000 };
    let mut steps: Steps<L> = Steps::begin(blank);
    match stage(alloc, graph, &limits, txn, &mut steps) {
        Ok(delta) => Some(delta),
        Err(_) => None,
    }
}

fn done(alloc: Global, graph: &Graph, txn: &Txn) -> Option<Delta>
    ensures { IfSome result (λ delta. is_sound graph.now delta ≡ true) }
{
    done_by::<Brand>(alloc, graph, txn, Blank::new(1))
}

/// Numbers that look as if drawn, each once.
fn mixed(number: u64) -> u64 {
    number.wrapping_mul(0x9E37_79B9_7F4A_7C15)
}

fn node(alloc: Global, number: u64) -> Op {
    Op::AddNode { id: NodeId(number), labels: Labels::new(alloc), props: Props::new(alloc) }
}

fn edge(alloc: Global, number: u64, source: u64, target: u64) -> Op {
    Op::AddEdge {
        id: EdgeId(number),
        source: NodeId(source),
        target: NodeId(target),
        labels: Labels::new(alloc),
        props: Props::new(alloc),
    }
}

fn key(alloc: Global) -> Result<Name, Memory> {
    match Name::new(alloc, b"key")? {
        Some(name) => Ok(name),
        None => Err(Memory),
    }
}

fn set_edge(alloc: Global, number: u64) -> Result<Op, Memory> {
    Ok(Op::SetEdge { id: EdgeId(number), key: key(alloc)?, value: Value::Int(7) })
}

fn set_node(alloc: Global, number: u64) -> Result<Op, Memory> {
    Ok(Op::SetNode { id: NodeId(number), key: key(alloc)?, value: Value::Int(7) })
}

/// Many nodes, and edges from the first so many of them.
fn base(alloc: Global, edges: u64) -> Result<Txn, Memory> {
    let mut ops = Vec::new(alloc);
    for number in 0..MANY {
        ops.push(node(alloc, number))?;
    }
    for number in 0..edges {
        ops.push(edge(alloc, number, number, mixed(number) % MANY))?;
    }
    Ok(Txn { ops: List::from_vec(ops) })
}

/// The operation at a place of a kind of transaction.
fn op(alloc: Global, kind: &str, place: u64) -> Result<Op, Memory> {
    let half = place % 5_000;
    Ok(match kind {
        "1" => node(alloc, mixed(place.saturating_add(MANY))),
        "2" => edge(alloc, mixed(place.saturating_add(MANY)), mixed(place) % MANY, mixed(place.saturating_add(1)) % MANY),
        "3" => {
            if place < 5_000 {
                edge(alloc, mixed(half.saturating_add(MANY)), 0, half)
            } else {
                Op::RemoveEdge { id: EdgeId(mixed(half.saturating_add(MANY))) }
            }
        }
        "4" => set_edge(alloc, mixed(place) % MANY)?,
        "5" => set_edge(alloc, 5)?,
        "6" => set_node(alloc, mixed(place) % MANY)?,
        "7" => {
            if place % 2 == 0 {
                Op::DetachNode { id: NodeId(3) }
            } else {
                node(alloc, 3)
            }
        }
        _ => {
            if place % 3 == 0 {
                node(alloc, mixed(place.saturating_add(MANY)))
            } else if place % 3 == 1 {
                edge(alloc, mixed(place.saturating_add(MANY)), mixed(place.saturating_sub(1).saturating_add(MANY)), 0)
            } else {
                Op::DetachNode { id: NodeId(mixed(place.saturating_sub(2).saturating_add(MANY))) }
            }
        }
    })
}

fn transaction(alloc: Global, kind: &str) -> Result<Txn, Memory> {
    let mut ops = Vec::new(alloc);
    for place in 0..MANY {
        ops.push(op(alloc, kind, place)?)?;
    }
    Ok(Txn { ops: List::from_vec(ops) })
}

fn start(alloc: Global, kind: &str) -> Option<Graph> {
    let mut graph = Graph::new(alloc);
    let edges = if kind == "8" { 100 } else { MANY };
    let Ok(txn) = base(alloc, edges) else {
        return None;
    };
    let delta = done(alloc, &graph, &txn)?;
    match graph.change(delta) {
        Ok(()) => Some(graph),
        Err(_) => None,
    }
}

/// Stages so often. Whether each time was done.
fn turns(alloc: Global, kind: &str, times: usize) -> bool {
    let Some(graph) = start(alloc, kind) else {
        return false;
    };
    let Ok(txn) = transaction(alloc, kind) else {
        return false;
    };
    for _ in 0..times {
        if let None = done(alloc, &graph, &txn) {
            return false;
        }
    }
    true
}

fn main(rt: HostRuntime) -> ExitCode {
    let mut kind = String::new(rt.alloc());
    let mut times = 0;
    let arguments = match env::args(&rt) {
        Ok(arguments) => arguments,
        Err(_) => return ExitCode::from(2),
    };
    for (place, word) in arguments.enumerate() {
        if place == 1 {
            kind = word;
        } else if place > 1 && times < 1000 {
            times += 1;
        }
    }
    if turns(rt.alloc(), kind.as_str(), times) {
        ExitCode::from(0)
    } else {
        ExitCode::from(1)
    }
}
E2
build staging
mapfile -t words < <(seq 50)
TIMEFORMAT='%3U %3S'
seconds() {
  { time "$built" "$@" || { echo "the program ended with $?" >&2; exit 1; }; } 2>&1
}
names=("10,000 new nodes" "10,000 new edges" "5,000 new edges at one node, then removed one by one" "a property of each edge"
  "a property of one edge, 10,000 times" "a property of each node" "one node detached and added 5,000 times"
  "a node added, joined to one node and detached, 3,333 times")
for kind in 1 2 3 4 5 6 7 8; do
  base=$(seconds "$kind")
  all=$(seconds "$kind" "${words[@]}")
  awk -v name="${names[$((kind - 1))]}" -v base="$base" -v all="$all" \
    'BEGIN { split(base, b, " "); split(all, a, " "); printf "%s: %.2f ms\n", name, (a[1] + a[2] - b[1] - b[2]) * 20 }'
done
