#!/usr/bin/env bash
# Times lines of JSON: what the crate's `from_slice` alone costs, what `read_txn` costs, and what `write_txn` costs of what was read,
# over three inputs: the generator's lines, one line of 10,000 operations, and one line of nearly a mebibyte of text. For each it says
# how often the time of `from_slice` the time of `read_txn` is, and how often the time of `read_txn` the time of `write_txn` is. It
# makes a small program over pgs_json in a folder of its own, and builds it, proving what is below where no check has kept it.
# Usage: bench/json.sh
source "$(dirname "$(readlink -f "${BASH_SOURCE[0]}")")/common.bash"
take pgs_base pgs_graph pgs_json
echo 'lines: pgs_base pgs_graph pgs_json serde_json' >>"$work/crates.txt"
mkdir -p "$work/crates/lines/src"
cat >"$work/crates/lines/src/main.rt" <<'E'
//! Parses, reads or writes the lines of an input, as often as it has words after the second. The first word is the input, the second
//! says what it does.
#![tactic(auto)]

use pgs_base::Memory;
use pgs_graph::Txn;
use pgs_json::{LineFault, read_txn, write_txn};
use serde_json::Value as Json;
use std::alloc::{AllocError, Global};
use std::env;
use std::process::ExitCode;

fn first_id(number: u64) -> u64 {
    number.saturating_add(100_000)
}

fn generated(alloc: Global, number: u64) -> Result<String, AllocError> {
    format!(in alloc; "{{\"ops\":[{{\"add_node\":{number},\"labels\":[\"Person\"],\"props\":{{\"id\":{number},\"mail\":\"u{number}@x.org\"}}}},{{\"add_edge\":{number},\"from\":{number},\"to\":{number},\"labels\":[\"knows\"]}}]}}")
}

fn generated_lines(alloc: Global) -> Result<Vec<String>, AllocError> {
    let mut all = Vec::new(alloc);
    for number in 0..1_000 {
        match all.push(generated(alloc, first_id(number))?) {
            Ok(()) => {}
            Err(_) => return Err(AllocError),
        }
    }
    Ok(all)
}

fn operation(alloc: Global, number: u64) -> Result<String, AllocError> {
    format!(in alloc; "{{\"add_node\":{number},\"labels\":[\"Person\"],\"props\":{{\"id\":{number},\"mail\":\"u{number}@x.org\"}}}}")
}

fn many_operations(alloc: Global) -> Result<String, AllocError> {
    let mut line = String::from_str(alloc, "{\"ops\":[")?;
    for number in 0..10_000 {
        if number > 0 {
            line.push(',')?;
        }
        line.push_str(operation(alloc, first_id(number))?.as_str())?;
    }
    line.push_str("]}")?;
    Ok(line)
}

fn text_of(alloc: Global, piece: &str, times: usize) -> Result<String, AllocError> {
    let mut text = String::new(alloc);
    for _ in 0..times {
        text.push_str(piece)?;
    }
    Ok(text)
}

fn long_texts(alloc: Global) -> Result<String, AllocError> {
    let text = text_of(alloc, "a text of usual words, with an end. ", 1_800)?;
    let mut line = String::from_str(alloc, "{\"ops\":[{\"add_node\":1,\"props\":{\"k\":true")?;
    for number in 0..16 {
        let name = format!(in alloc; ",\"k{number}\":\"")?;
        line.push_str(name.as_str())?;
        line.push_str(text.as_str())?;
        line.push('"')?;
    }
    line.push_str("}}]}")?;
    Ok(line)
}

fn one_line(alloc: Global, line: String) -> Result<Vec<String>, AllocError> {
    let mut all = Vec::new(alloc);
    match all.push(line) {
        Ok(()) => Ok(all),
        Err(_) => Err(AllocError),
    }
}

fn input(alloc: Global, name: &str) -> Result<Vec<String>, AllocError> {
    match name {
        "operations" => one_line(alloc, many_operations(alloc)?),
        "texts" => one_line(alloc, long_texts(alloc)?),
        _ => generated_lines(alloc),
    }
}

// How many lines are JSON.
fn parse_all(alloc: Global, lines: &[String]) -> usize {
    let mut taken: usize = 0;
    for line in lines {
        if Json::from_slice(alloc, line.as_bytes()).is_ok() {
            taken = taken.saturating_add(1);
        }
    }
    taken
}

fn read_one(alloc: Global, line: &[u8]) -> Result<Option<Txn>, Memory> {
    match read_txn(alloc, line) {
        Ok(txn) => Ok(Some(txn)),
        Err(LineFault::Memory) => Err(Memory),
        Err(LineFault::Unreadable | LineFault::LineTooLong) => Ok(None),
    }
}

// How many lines are transactions.
fn read_all(alloc: Global, lines: &[String]) -> Result<usize, Memory> {
    let mut taken: usize = 0;
    for line in lines {
        if read_one(alloc, line.as_bytes())?.is_some() {
            taken = taken.saturating_add(1);
        }
    }
    Ok(taken)
}

fn txns(alloc: Global, lines: &[String]) -> Result<Vec<Txn>, Memory> {
    let mut all = Vec::new(alloc);
    for line in lines {
        if let Some(txn) = read_one(alloc, line.as_bytes())? {
            match all.push(txn) {
                Ok(()) => {}
                Err(_) => return Err(Memory),
            }
        }
    }
    Ok(all)
}

// How many transactions have a text.
fn write_all(alloc: Global, txns: &[Txn]) -> Result<usize, Memory> {
    let mut given: usize = 0;
    for txn in txns {
        if !write_txn(alloc, txn, None)?.is_empty() {
            given = given.saturating_add(1);
        }
    }
    Ok(given)
}

fn turn(alloc: Global, task: &str, lines: &[String], txns: &[Txn]) -> Result<usize, Memory> {
    match task {
        "parse" => Ok(parse_all(alloc, lines)),
        "read" => read_all(alloc, lines),
        _ => write_all(alloc, txns),
    }
}

fn turns(alloc: Global, name: &str, task: &str, count: usize) -> Result<bool, Memory> {
    let lines = input(alloc, name)?;
    let txns = txns(alloc, lines.as_slice())?;
    let mut least = lines.len();
    for _ in 0..count {
        least = least.min(turn(alloc, task, lines.as_slice(), txns.as_slice())?);
    }
    Ok(least == lines.len())
}

fn main(rt: HostRuntime) -> ExitCode {
    let alloc = rt.alloc();
    let Ok(arguments) = env::args(&rt) else {
        return ExitCode::from(2);
    };
    let mut name = String::new(alloc);
    let mut task = String::new(alloc);
    let mut count: usize = 0;
    for argument in arguments.skip(1) {
        if name.is_empty() {
            name = argument;
        } else if task.is_empty() {
            task = argument;
        } else {
            count = count.saturating_add(1);
        }
    }
    match turns(alloc, name.as_str(), task.as_str(), count) {
        Ok(true) => ExitCode::from(0),
        Ok(false) => ExitCode::from(1),
        Err(Memory) => ExitCode::from(2),
    }
}
E
build lines generated parse
report() {
  local words base parse read write
  mapfile -t words < <(seq "$3")
  base=$(milliseconds "$built" "$2" parse)
  parse=$(milliseconds "$built" "$2" parse "${words[@]}")
  read=$(milliseconds "$built" "$2" read "${words[@]}")
  write=$(milliseconds "$built" "$2" write "${words[@]}")
  awk -v name="$1" -v turns="$3" -v lines="$4" -v base="$base" -v parse="$parse" -v read="$read" -v write="$write" 'BEGIN {
    p = (parse - base) * 1000 / turns / lines; r = (read - base) * 1000 / turns / lines; w = (write - base) * 1000 / turns / lines
    printf "%s: from_slice %.2f us a line, read_txn %.2f us (%.2f times), write_txn %.2f us (%.2f times reading)\n", name, p, r, r / p, w, w / r }'
}
report "the generator's lines" generated 1000 1000
report 'one line of 10,000 operations' operations 200 1
report 'one line of nearly a mebibyte of text' texts 200 1
