#!/usr/bin/env bash
# Times the resolution of schema texts of up to a mebibyte: for each text the mean of 5 turns of `resolve`, in milliseconds, and
# what it found. It makes a small program over pgs_resolve in a folder of its own, and builds it, proving what is below where no
# check has kept it.
# Usage: bench/resolving.sh [WORD]   (only the texts with WORD in their names)
source "$(dirname "$(readlink -f "${BASH_SOURCE[0]}")")/common.bash"
source "$top/bench/schemas.bash"
take pgs_resolve
mkdir -p "$work/crates/resolving/src"
echo 'resolving: pgs_base pgs_lexer pgs_parser pgs_resolve' >>"$work/crates.txt"
cat >"$work/crates/resolving/src/main.rt" <<'E2'
//! Reads a schema text from the file of the first word, and resolves it as often as there are further words. The exit status
//! says what was found.
#![tactic(auto)]

use pgs_lexer::lex;
use pgs_parser::parse;
use pgs_resolve::{ResolveFault, resolve};
use std::alloc::Global;
use std::env;
use std::fs;
use std::process::ExitCode;

fn status(fault: &ResolveFault) -> u8 {
    match fault {
        ResolveFault::Memory => 1,
        ResolveFault::NoGraphType => 12,
        ResolveFault::Duplicate { .. } => 13,
        ResolveFault::Unknown { .. } => 14,
        ResolveFault::Kind { .. } => 15,
        ResolveFault::Cycle { .. } => 16,
        ResolveFault::BadKey { .. } => 18,
    }
}

fn found(alloc: Global, text: &[u8], turns: usize) -> u8 {
    if text.len() > 1_048_576 {
        return 19;
    }
    let mut last = 0;
    match lex(alloc, text) {
        Ok(tokens) => match parse(alloc, &tokens) {
            Ok(script) => {
                for _ in 0..turns {
                    last = match resolve(alloc, &script) {
                        Ok(_) => 0,
                        Err(fault) => status(&fault),
                    };
                }
                last
            }
            Err(_) => 11,
        },
        Err(_) => 10,
    }
}

fn main(rt: HostRuntime) -> ExitCode {
    let mut path = String::new(rt.alloc());
    let mut turns = 0;
    let arguments = match env::args(&rt) {
        Ok(arguments) => arguments,
        Err(_) => return ExitCode::from(2),
    };
    for (place, word) in arguments.enumerate() {
        if place == 1 {
            path = word;
        } else if place > 1 && turns < 1000 {
            turns += 1;
        }
    }
    match fs::read_to_string(&rt, path.as_str()) {
        Ok(text) => ExitCode::from(found(rt.alloc(), text.as_bytes(), turns)),
        Err(_) => ExitCode::from(3),
    }
}
E2
build resolving

mapfile -t words < <(seq 5)
# runs WORD..: the microseconds that a run takes, and its status
runs() {
  local start status=0
  start=$(date +%s%N)
  "$built" "$@" || status=$?
  echo $(( ($(date +%s%N) - start) / 1000 )) "$status"
}
for name in "${resolved_names[@]}"; do
  case "$name" in *"${1:-}"*) ;; *) continue ;; esac
  resolved "$name" >"$work/text"
  base=$(runs "$work/text")
  all=$(runs "$work/text" "${words[@]}")
  awk -v name="$name" -v size="$(stat -c %s "$work/text")" -v base="${base% *}" -v all="${all% *}" -v status="${all#* }" \
    'BEGIN { printf "%s (%d bytes): %.1f ms, found %d\n", name, size, (all - base) / 5000, status }'
done
