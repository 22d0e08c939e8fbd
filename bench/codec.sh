#!/usr/bin/env bash
# Times the generator's transactions (a node with two properties, and an edge) as bytes: decoding, encoding, and reading the same
# transactions as JSON. It makes a small program over pgs_codec and pgs_json in a folder of its own, and builds it, proving what is
# below where no check has kept it.
# Usage: bench/codec.sh
source "$(dirname "$(readlink -f "${BASH_SOURCE[0]}")")/common.bash"
take pgs_json pgs_codec
echo 'coding: pgs_base pgs_graph pgs_json pgs_codec' >>"$work/crates.txt"
mkdir -p "$work/crates/coding/src"
cat >"$work/crates/coding/src/main.rt" <<'E'
//! Decodes, encodes or reads as JSON the same 1,000 transactions, as often as it has words after the first, which says what it does.
#![tactic(auto)]

ghost use Rattle.std.specs.Prelude.{IsTrue};
ghost use Rattle.pgs_codec.specs.Encodable.{is_sized};

use pgs_base::Memory;
use pgs_codec::{Command, decode, encode};
use pgs_json::{LineFault, read_txn};
use std::alloc::{AllocError, Global};
use std::env;
use std::process::ExitCode;

const TRANSACTIONS: u64 = 1_000;

fn payload(alloc: Global, number: u64) -> Result<Vec<u8>, AllocError> {
    let id = number.to_be_bytes();
    let mail = format!(in alloc; "u{number}@x.org")?;
    let mut bytes = Vec::from_slice(alloc, b"\x03\0\0\0\x02\x01")?;
    bytes.extend_from_slice(&id)?;
    bytes.extend_from_slice(b"\0\x01\x06Person\0\x02\x02id\x02")?;
    bytes.extend_from_slice(&id)?;
    bytes.extend_from_slice(b"\x04mail\x01\0")?;
    bytes.push((mail.len() % 256) as u8)?;
    bytes.extend_from_slice(mail.as_bytes())?;
    bytes.push(2)?;
    bytes.extend_from_slice(&id)?;
    bytes.extend_from_slice(&id)?;
    bytes.extend_from_slice(&id)?;
    bytes.extend_from_slice(b"\0\x01\x05knows\0\0")?;
    Ok(bytes)
}

fn payloads(alloc: Global) -> Result<Vec<Vec<u8>>, AllocError> {
    let mut all = Vec::new(alloc);
    for number in 0..TRANSACTIONS {
        match all.push(payload(alloc, 100_000 + number)?) {
            Ok(()) => {}
            Err(_) => return Err(AllocError),
        }
    }
    Ok(all)
}

fn line(alloc: Global, number: u64) -> Result<String, AllocError> {
    format!(in alloc; "{{\"ops\":[{{\"add_node\":{number},\"labels\":[\"Person\"],\"props\":{{\"id\":{number},\"mail\":\"u{number}@x.org\"}}}},{{\"add_edge\":{number},\"from\":{number},\"to\":{number},\"labels\":[\"knows\"]}}]}}")
}

fn lines(alloc: Global) -> Result<Vec<String>, AllocError> {
    let mut all = Vec::new(alloc);
    for number in 0..TRANSACTIONS {
        match all.push(line(alloc, 100_000 + number)?) {
            Ok(()) => {}
            Err(_) => return Err(AllocError),
        }
    }
    Ok(all)
}

// How many payloads are decoded.
fn decode_all(alloc: Global, payloads: &[Vec<u8>]) -> Result<u64, Memory> {
    let mut taken: u64 = 0;
    for payload in payloads {
        if decode(alloc, payload.as_slice())?.is_some() {
            taken = taken.saturating_add(1);
        }
    }
    Ok(taken)
}

// How many lines are read.
fn read_all(alloc: Global, lines: &[String]) -> Result<u64, Memory> {
    let mut taken: u64 = 0;
    for line in lines {
        match read_txn(alloc, line.as_bytes()) {
            Ok(_) => taken = taken.saturating_add(1),
            Err(LineFault::Memory) => return Err(Memory),
            Err(LineFault::Unreadable | LineFault::LineTooLong) => {}
        }
    }
    Ok(taken)
}

// How many payloads a command is encoded to.
fn encode_often(alloc: Global, command: &Command) -> Result<u64, Memory>
    requires { IsTrue (is_sized command.now) }
{
    let mut given: u64 = 0;
    for _ in 0..TRANSACTIONS {
        if !encode(alloc, command)?.is_empty() {
            given = given.saturating_add(1);
        }
    }
    Ok(given)
}

fn encode_all(alloc: Global, payload: &[u8]) -> Result<u64, Memory> {
    match decode(alloc, payload)? {
        Some(command) => encode_often(alloc, &command),
        None => Ok(0),
    }
}

fn turns(alloc: Global, kind: &str, count: usize) -> Result<u64, Memory> {
    let payloads = payloads(alloc)?;
    let lines = lines(alloc)?;
    let first = payload(alloc, 100_000)?;
    let mut least = TRANSACTIONS;
    for _ in 0..count {
        let taken = match kind {
            "decode" => decode_all(alloc, payloads.as_slice())?,
            "encode" => encode_all(alloc, first.as_slice())?,
            "json" => read_all(alloc, lines.as_slice())?,
            _ => 0,
        };
        least = least.min(taken);
    }
    Ok(least)
}

fn main(rt: HostRuntime) -> ExitCode {
    let alloc = rt.alloc();
    let Ok(arguments) = env::args(&rt) else {
        return ExitCode::from(2);
    };
    let mut kind = String::new(alloc);
    let mut count: usize = 0;
    for argument in arguments.skip(1) {
        if kind.is_empty() {
            kind = argument;
        } else {
            count = count.saturating_add(1);
        }
    }
    match turns(alloc, kind.as_str(), count) {
        Ok(TRANSACTIONS) => ExitCode::from(0),
        Ok(_) => ExitCode::from(1),
        Err(_) => ExitCode::from(2),
    }
}
E
build coding decode
# The processor's time of the program itself, which other work on the machine changes least.
milliseconds() {
  local TIMEFORMAT='%U'
  { time "$built" "$@" || { echo "the program ended with $?" >&2; exit 1; }; } 2>&1 | awk '{ print $1 * 1000 }'
}
base=$(milliseconds decode)
mapfile -t words < <(seq 1000)
for kind in decode encode json; do
  all=$(milliseconds "$kind" "${words[@]}")
  bytes=93; [ "$kind" = json ] && bytes=159
  awk "BEGIN { ms = $all - $base; printf \"%s: %.2f us a transaction, %.0f MB/s of %d bytes each\n\", \"$kind\", ms / 1000, $bytes * 1000 / ms, $bytes }"
done
