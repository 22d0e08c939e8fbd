#!/usr/bin/env bash
# Times the cut of a schema text of nearly a mebibyte into tokens: the mean of 100 turns of `lex` on one text, in
# milliseconds. It makes a small program over pgs_lexer in a folder of its own, and builds it, proving what is below where no check has kept it.
# Usage: bench/lexing.sh
source "$(dirname "$(readlink -f "${BASH_SOURCE[0]}")")/common.bash"
take pgs_lexer
echo 'lexing: pgs_base pgs_lexer' >>"$work/crates.txt"
mkdir -p "$work/crates/lexing/src"
cat >"$work/crates/lexing/src/main.rt" <<'E'
//! Lexes one text as often as it has words, and answers 0 where each turn gave tokens.
#![tactic(auto)]

use pgs_lexer::lex;
use std::alloc::{AllocError, Global};
use std::env;
use std::process::ExitCode;

const STATEMENT: &str = "CREATE NODE TYPE (holder: Holder & Party {name STRING, opened INT}); // a comment\n";

fn text(alloc: Global) -> Result<String, AllocError> {
    let mut text = String::new(alloc);
    for _ in 0..12_700 {
        text.push_str(STATEMENT)?;
    }
    Ok(text)
}

fn main(rt: HostRuntime) -> ExitCode {
    let text = match text(rt.alloc()) {
        Ok(text) => text,
        Err(_) => return ExitCode::from(2),
    };
    if text.len() > 1_048_576 {
        return ExitCode::from(3);
    }
    let arguments = match env::args(&rt) {
        Ok(arguments) => arguments,
        Err(_) => return ExitCode::from(2),
    };
    for _ in arguments.skip(1) {
        match lex(rt.alloc(), text.as_bytes()) {
            Ok(_) => {}
            Err(_) => return ExitCode::from(1),
        }
    }
    ExitCode::from(0)
}
E
build lexing
milliseconds() {
  local start
  start=$(date +%s%N)
  "$built" "$@" || { echo "the program ended with $?" >&2; exit 1; }
  echo $(( ($(date +%s%N) - start) / 1000000 ))
}
base=$(milliseconds)
mapfile -t words < <(seq 100)
all=$(milliseconds "${words[@]}")
echo "lexing 1,041,400 bytes: $(awk "BEGIN { print ($all - $base) / 100 }") ms a turn"
