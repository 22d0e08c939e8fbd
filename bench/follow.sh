#!/usr/bin/env bash
# Times a follower of a feed beside the reading of its lines alone (`read_commit`): a feed of COUNT commits that each add a node; one that adds
# COUNT edges among a fourth as many nodes, and then detaches these; one that adds COUNT edges out of one node to a fourth as many; and one of
# COUNT lines of commit 1, all but the first of which are passed over. For each it says how often the time of reading the time of following
# is, without the dump. A change of the plain graph costs what it touches, so twice as many commits take little more than twice as long. It
# makes a small program over pgs_follow in a folder of its own, and builds it, proving what is below where no check has kept it.
# Usage: bench/follow.sh [COUNT], 200,000 where none is given
source "$(dirname "$(readlink -f "${BASH_SOURCE[0]}")")/common.bash"
count=${1:-200000}
take pgs_base pgs_json pgs_follow
echo 'feeding: pgs_base pgs_json pgs_follow' >>"$work/crates.txt"
mkdir -p "$work/crates/feeding/src"
cat >"$work/crates/feeding/src/main.rt" <<'E'
//! Follows a feed that is made here, or only reads its lines. The words are the feed, what to do with it, and how many commits it has.
#![tactic(auto)]

use pgs_base::{Limits, Memory};
use pgs_follow::Follower;
use pgs_json::{CommitFault, read_commit};
use std::alloc::{AllocError, Global};
use std::env;
use std::process::ExitCode;

// The operation of a commit, from 1, that adds a node.
fn addition(alloc: Global, number: u64) -> Result<String, AllocError> {
    format!(in alloc; "{{\"add_node\":{number},\"labels\":[\"Person\"],\"props\":{{\"id\":{number},\"mail\":\"u{number}@x.org\"}}}}")
}

// A fourth of them, at least one.
fn fourth(count: u64) -> u64 {
    count.checked_div(4).unwrap_or(0).max(1)
}

// An edge among so many nodes; of the hub it goes out of the first.
fn edge(alloc: Global, feed: &str, number: u64, nodes: u64) -> Result<String, AllocError> {
    let from = if feed == "hub" { 1 } else { number.checked_rem(nodes).unwrap_or(0).saturating_add(1) };
    let to = number.saturating_mul(7).checked_rem(nodes).unwrap_or(0).saturating_add(1);
    format!(in alloc; "{{\"add_edge\":{number},\"from\":{from},\"labels\":[\"knows\"],\"props\":{{}},\"to\":{to}}}")
}

// The operation of a commit, from 1, of nodes, edges among them, and detaches.
fn detaching(alloc: Global, feed: &str, number: u64, count: u64) -> Result<String, AllocError> {
    let nodes = fourth(count);
    if number <= nodes {
        return addition(alloc, number);
    }
    let place = number.saturating_sub(nodes);
    if place <= count {
        return edge(alloc, feed, place, nodes);
    }
    let node = place.saturating_sub(count);
    format!(in alloc; "{{\"detach_node\":{node}}}")
}

fn operation(alloc: Global, feed: &str, number: u64, count: u64) -> Result<String, AllocError> {
    if feed == "commits" || feed == "repeats" {
        addition(alloc, number)
    } else {
        detaching(alloc, feed, number, count)
    }
}

fn line(alloc: Global, feed: &str, number: u64, count: u64) -> Result<String, AllocError> {
    let place = if feed == "repeats" { 1 } else { number };
    let operation = operation(alloc, feed, place, count)?;
    let operation = operation.as_str();
    format!(in alloc; "{{\"commit\":{place},\"ops\":[{operation}]}}\n")
}

// How many lines a feed has.
fn total(feed: &str, count: u64) -> u64 {
    if feed == "detaches" {
        count.saturating_add(fourth(count).saturating_mul(2))
    } else if feed == "hub" {
        count.saturating_add(fourth(count))
    } else {
        count
    }
}

fn lines(alloc: Global, feed: &str, count: u64) -> Result<Vec<String>, AllocError> {
    let mut all = Vec::new(alloc);
    for before in 0..total(feed, count) {
        match all.push(line(alloc, feed, before.saturating_add(1), count)?) {
            Ok(()) => {}
            Err(_) => return Err(AllocError),
        }
    }
    Ok(all)
}

// How many lines are commits.
fn read_all(alloc: Global, lines: &[String]) -> Result<u64, Memory> {
    let mut taken: u64 = 0;
    for line in lines {
        let Some((_, line)) = line.as_bytes().split_last() else {
            continue;
        };
        match read_commit(alloc, line) {
            Ok(_) => taken = taken.saturating_add(1),
            Err(CommitFault::Memory) => return Err(Memory),
            Err(_) => {}
        }
    }
    Ok(taken)
}

// How many lines were followed without a fault.
fn follow_all(alloc: Global, lines: &[String]) -> Result<u64, Memory> {
    let mut follower = Follower::new(alloc, Limits::standard());
    for line in lines {
        if follower.lines() < 1_000_000_000 {
            follower.push(line.as_bytes())?;
        }
    }
    Ok(follower.lines())
}

fn ended_well(alloc: Global, feed: &str, task: &str, count: u64) -> Result<bool, Memory> {
    let lines = lines(alloc, feed, count)?;
    let done = match task {
        "make" => total(feed, count),
        "read" => read_all(alloc, lines.as_slice())?,
        _ => follow_all(alloc, lines.as_slice())?,
    };
    Ok(done == total(feed, count))
}

fn main(rt: HostRuntime) -> ExitCode {
    let alloc = rt.alloc();
    let Ok(arguments) = env::args(&rt) else {
        return ExitCode::from(2);
    };
    let mut feed = String::new(alloc);
    let mut task = String::new(alloc);
    let mut count: u64 = 0;
    for argument in arguments.skip(1) {
        if feed.is_empty() {
            feed = argument;
        } else if task.is_empty() {
            task = argument;
        } else {
            count = argument.parse().unwrap_or(0);
        }
    }
    match ended_well(alloc, feed.as_str(), task.as_str(), count) {
        Ok(true) => ExitCode::from(0),
        Ok(false) => ExitCode::from(1),
        Err(Memory) => ExitCode::from(2),
    }
}
E
build feeding commits make 1
for feed in commits detaches hub repeats; do
  made=$(milliseconds "$built" "$feed" make "$count")
  read=$(milliseconds "$built" "$feed" read "$count")
  followed=$(milliseconds "$built" "$feed" follow "$count")
  awk -v feed="$feed" -v count="$count" -v made="$made" -v read="$read" -v followed="$followed" 'BEGIN {
    r = read - made; f = followed - made
    if (r < 1) r = 1
    printf "%s: %d, read in %.0f ms, followed in %.0f ms (%.2f times)\n", feed, count, r, f, f / r }'
done
