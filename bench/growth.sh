#!/usr/bin/env bash
# Times one transaction more of a guard whose graph has 10,000 elements, and of one whose graph has 1,000,000, under the generator's schema
# with two keys and limits of 2,000,000 elements: a person with an edge is added (add), a person gets another mail (change), and a person is
# taken out with ten edges (detach). For each it says the median of 10,000 such transactions by the clock, the least of three runs, and how
# many times as long it takes on the great graph; the bar is 1.3. Then the most memory that the program of 1,000,000 elements holds; the bar
# is 900 bytes an element. It makes a small program in a folder of its own, and builds it, proving what is below where no check has kept it.
# Usage: bench/growth.sh
source "$(dirname "$(readlink -f "${BASH_SOURCE[0]}")")/common.bash"
take pgs_gen pgs_store
echo 'growing: pgs_base pgs_graph pgs_gen pgs_store' >>"$work/crates.txt"
mkdir -p "$work/crates/growing/src" "$work/crates/growing/proofs/grown"
cat >"$work/crates/growing/proofs/grown/Invariants.antt" <<'P'
use Rattle.growing.proofs.grown.Given as goal

abbrev pub ghosts-grown_by : goal.ghosts-grown_by
ghosts-grown_by a = record { name = a.blank.name; parts = a.blank.parts }
P
cat >"$work/crates/growing/src/main.rt" <<'P'
//! Fills a guard with as many elements as its first word says, half of them persons, and takes as many turns as its second word says: each
//! adds a person with an edge, gives another one a new mail, and takes the first one out with ten edges. It prints in how many nanoseconds
//! each is done, by the median.
#![tactic(auto)]

ghost use Rattle.std.specs.Prelude.{◌≡◌, ◌<◌};

use pgs_base::{EdgeId, Labels, Limits, List, Memory, Name, NodeId, Props, Steps, Text, Value};
use pgs_gen::{generate, schema};
use pgs_graph::{Op, Txn};
use pgs_store::Guard;
use std::alloc::Global;
use std::env;
use std::marker::Brand;
use std::process::ExitCode;
use std::sync::ledger::{Blank, Ledger};
use std::time::Instant;

const LIMITS: Limits = Limits { ops: 10_000, elements: 2_000_000 };

const START: u64 = 1_000_003;

/// The number of the first person that a turn adds, and of the first edge.
const ADDED: u64 = 10_000_000;

/// How long each transaction of a kind took, in nanoseconds.
#[derive(Drop)]
struct Times {
    add: Vec<u64>,
    change: Vec<u64>,
    detach: Vec<u64>,
}

fn name(alloc: Global, bytes: &[u8]) -> Result<Name, Memory> {
    match Name::new(alloc, bytes)? {
        Some(name) => Ok(name),
        None => Err(Memory),
    }
}

fn label(alloc: Global, bytes: &[u8]) -> Result<Labels, Memory> {
    let mut labels = Labels::new(alloc);
    labels.insert(name(alloc, bytes)?)?;
    Ok(labels)
}

fn mail(alloc: Global, letter: &str, number: u64) -> Result<Value, Memory> {
    let text = format!(in alloc; "{letter}{number}@x.org")?;
    match Text::new(alloc, text.as_str())? {
        Some(text) => Ok(Value::Text(text)),
        None => Err(Memory),
    }
}

fn person(alloc: Global, number: u64) -> Result<Op, Memory> {
    let mut props = Props::new(alloc);
    props.set(name(alloc, b"id")?, Value::Int((number % 1_000_000_000) as i64))?;
    props.set(name(alloc, b"mail")?, mail(alloc, "u", number)?)?;
    Ok(Op::AddNode { id: NodeId(number), labels: label(alloc, b"Person")?, props })
}

/// One of so many persons, as if drawn by a number.
fn drawn(number: u64, persons: u64) -> u64 {
    let mixed = number.wrapping_mul(0x9E37_79B9_7F4A_7C15) >> 20;
    (mixed % persons.max(1)).saturating_add(1)
}

/// The edge of a place, 0 to 9, from the person of a turn.
fn knows(alloc: Global, turn: u64, place: u64, persons: u64) -> Result<Op, Memory> {
    let number = turn.saturating_mul(10).saturating_add(place);
    Ok(Op::AddEdge {
        id: EdgeId(ADDED.saturating_add(number)),
        source: NodeId(ADDED.saturating_add(turn)),
        target: NodeId(drawn(number, persons)),
        labels: label(alloc, b"knows")?,
        props: Props::new(alloc),
    })
}

fn newcomer(alloc: Global, turn: u64, persons: u64) -> Result<Txn, Memory> {
    let mut ops = Vec::new(alloc);
    ops.push(person(alloc, ADDED.saturating_add(turn))?)?;
    ops.push(knows(alloc, turn, 0, persons)?)?;
    Ok(Txn { ops: List::from_vec(ops) })
}

fn nine_more(alloc: Global, turn: u64, persons: u64) -> Result<Txn, Memory> {
    let mut ops = Vec::new(alloc);
    for place in 1..10 {
        ops.push(knows(alloc, turn, place, persons)?)?;
    }
    Ok(Txn { ops: List::from_vec(ops) })
}

fn other_mail(alloc: Global, turn: u64, persons: u64) -> Result<Txn, Memory> {
    let mut ops = Vec::new(alloc);
    let id = NodeId(drawn(turn.saturating_add(ADDED), persons));
    ops.push(Op::SetNode { id, key: name(alloc, b"mail")?, value: mail(alloc, "v", turn)? })?;
    Ok(Txn { ops: List::from_vec(ops) })
}

fn detaching(alloc: Global, turn: u64) -> Result<Txn, Memory> {
    let mut ops = Vec::new(alloc);
    ops.push(Op::DetachNode { id: NodeId(ADDED.saturating_add(turn)) })?;
    Ok(Txn { ops: List::from_vec(ops) })
}

/// Does a transaction, which has to be accepted.
fn apply<L: Ledger>(guard: &mut Guard, txn: &Txn, steps: &mut Steps<L>) -> Result<(), Memory> {
    if guard.commits() == u64::MAX {
        return Err(Memory);
    }
    match guard.apply(txn, steps) {
        Ok(_) => Ok(()),
        Err(_) => Err(Memory),
    }
}

/// The same, and in how many nanoseconds.
fn timed<L: Ledger>(rt: &HostRuntime, guard: &mut Guard, txn: &Txn, steps: &mut Steps<L>) -> Result<u64, Memory> {
    let Ok(start) = Instant::now(rt) else {
        return Err(Memory);
    };
    apply(guard, txn, steps)?;
    let Ok(time) = start.elapsed(rt) else {
        return Err(Memory);
    };
    Ok(time.as_secs().saturating_mul(1_000_000_000).saturating_add(time.subsec_nanos() as u64))
}

fn take_turn<L: Ledger>(
    rt: &HostRuntime,
    guard: &mut Guard,
    times: &mut Times,
    turn: u64,
    persons: u64,
    steps: &mut Steps<L>,
) -> Result<(), Memory> {
    let alloc = rt.alloc();
    let adding = newcomer(alloc, turn, persons)?;
    times.add.push(timed(rt, guard, &adding, steps)?)?;
    let more = nine_more(alloc, turn, persons)?;
    apply(guard, &more, steps)?;
    let changing = other_mail(alloc, turn, persons)?;
    times.change.push(timed(rt, guard, &changing, steps)?)?;
    let taking = detaching(alloc, turn)?;
    times.detach.push(timed(rt, guard, &taking, steps)?)?;
    Ok(())
}

fn fill<L: Ledger>(alloc: Global, guard: &mut Guard, persons: u64, steps: &mut Steps<L>) -> Result<(), Memory> {
    for place in 0..persons {
        let number = place.saturating_add(1).min(500_000);
        let txn = generate(alloc, START, number)?;
        apply(guard, &txn, steps)?;
    }
    Ok(())
}

fn grown_by<L: Ledger>(rt: &HostRuntime, guard: &mut Guard, persons: u64, turns: u64, blank: Blank) -> Result<Times, Memory>
    requires name { blank.name ≡ L.name }
    requires parts { blank.parts ≡ L.parts }
    requires some { 0 < blank.parts }
{
    let alloc = rt.alloc();
    let mut steps: Steps<L> = Steps::begin(blank);
    fill(alloc, guard, persons, &mut steps)?;
    let mut times = Times { add: Vec::new(alloc), change: Vec::new(alloc), detach: Vec::new(alloc) };
    for turn in 0..turns {
        take_turn(rt, guard, &mut times, turn, persons, &mut steps)?;
    }
    Ok(times)
}

fn grown(rt: &HostRuntime, persons: u64, turns: u64) -> Result<Times, Memory> {
    let text = schema(rt.alloc())?;
    let Ok(mut guard) = Guard::new(rt.alloc(), text.as_slice(), LIMITS) else {
        return Err(Memory);
    };
    grown_by::<Brand>(rt, &mut guard, persons, turns, Blank::new(1))
}

fn median(times: &mut Vec<u64>) -> u64 {
    times.sort_unstable();
    let middle = times.len() / 2;
    match times.get(middle) {
        Some(time) => *time,
        None => 0,
    }
}

fn main(rt: HostRuntime) -> ExitCode {
    let Ok(arguments) = env::args(&rt) else {
        return ExitCode::from(2);
    };
    let mut words = (0u64, 0u64);
    for (place, word) in arguments.enumerate() {
        let number = word.as_str().parse().unwrap_or(0);
        match place {
            1 => words.0 = number,
            2 => words.1 = number,
            _ => {}
        }
    }
    match grown(&rt, words.0 / 2, words.1) {
        Ok(mut times) => {
            let (add, change, detach) = (median(&mut times.add), median(&mut times.change), median(&mut times.detach));
            let _ = println!(rt; "add {add} change {change} detach {detach}");
            ExitCode::from(0)
        }
        Err(_) => ExitCode::from(3),
    }
}
P
build growing 100 10
# medians ELEMENTS: of three runs the least of each median, in nanoseconds: add, change, detach
medians() {
  for _ in 1 2 3; do
    "$built" "$1" 10000
  done | awk '{ for (i = 2; i <= 6; i += 2) if (NR == 1 || $i < least[i]) least[i] = $i } END { print least[2], least[4], least[6] }'
}
read -r -a small <<<"$(medians 10000)"
read -r -a great <<<"$(medians 1000000)"
kinds=('a person with an edge is added' 'a person gets another mail' 'a person is taken out with ten edges')
for place in 0 1 2; do
  awk -v kind="${kinds[place]}" -v small="${small[place]}" -v great="${great[place]}" 'BEGIN {
    printf "%s: %.2f us at 10,000 elements, %.2f us at 1,000,000, so %.2f times\n", kind, small / 1000, great / 1000, great / small }'
done
held '1,000,000 elements under two keys' 0 "$built" 1000000 0 | awk '/MB$/ { printf "%s, so %.0f bytes an element\n", $0, $(NF - 1) * 1048576 / 1000000 }'
