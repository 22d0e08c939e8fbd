#!/usr/bin/env bash
# Times the parse of schema texts of nearly a mebibyte beside their cut into tokens. As a program reads its schema once, each text is
# cut once in a run of a small program, cut and parsed once in another, and in a third its tree is dropped too: each run begins with
# no memory at hand. It prints, by the medians of 25 such runs, what `lex` and `parse` take, in milliseconds of the processor, system
# calls included, and how often the time of `lex` the time of `parse` is, without and with the drop of the tree; at the end the most.
# It makes the program over pgs_parser in a folder of its own, and builds it, proving what is below where no check has kept it.
# Usage: bench/parsing.sh
source "$(dirname "$(readlink -f "${BASH_SOURCE[0]}")")/common.bash"
take pgs_parser
echo 'parsing: pgs_base pgs_lexer pgs_parser' >>"$work/crates.txt"
mkdir -p "$work/crates/parsing/src"
cat >"$work/crates/parsing/src/main.rt" <<'E2'
//! Makes the text of a number, and cuts it into tokens, unless the word after it is `text`; with `parse` it parses them too, and with
//! `drop` it drops the tree besides.
#![tactic(auto)]

use pgs_lexer::lex;
use pgs_parser::parse;
use std::alloc::{AllocError, Global};
use std::env;
use std::mem;
use std::process::ExitCode;

/// A piece so often, between others.
fn text(alloc: Global, before: &str, piece: &str, times: usize, after: &str) -> Result<String, AllocError> {
    let mut text = String::from_str(alloc, before)?;
    for _ in 0..times {
        text.push_str(piece)?;
    }
    text.push_str(after)?;
    Ok(text)
}

const OPEN_64: &str = "((((((((((((((((((((((((((((((((((((((((((((((((((((((((((((((((A))))))))))))))))))))))))))))))))))))))))))))))))))))))))))))))))&";

const KEY: &str = "FOR (xxxxxxxxxxxxxxxxxxxxxxxxxxxxxxxx:AAAAAAAAAAAAAAAAAAAAAAAAAAAAAAAAAAAAAAAA)-[:BBBBBBBBBBBBBBBB]->(yyyyyyyyyyyyyyyyyyyyyyyyyyyy {k: 'a text', l: 12}) IDENTIFIER xxxxxxxxxxxxxxxxxxxxxxxxxxxxxxxx.k WITHIN (xxxxxxxxxxxxxxxxxxxxxxxxxxxxxxxx)<-[:B]-(zzzzzzzzzzzzzzzz),";

fn input(alloc: Global, number: &str) -> Result<String, AllocError> {
    match number {
        "1" => text(alloc, "", "CREATE NODE TYPE (a: A & B {k INT});", 29_000, ""),
        "2" => text(alloc, "CREATE GRAPH TYPE g LOOSE {a", ",a", 200_000, "};"),
        "3" => text(alloc, "CREATE NODE TYPE (a: A", "&A", 250_000, ");"),
        "4" => text(alloc, "CREATE NODE TYPE (a: ", OPEN_64, 8_000, "A);"),
        "5" => text(alloc, "CREATE GRAPH TYPE g LOOSE {FOR (x {k: '", "''", 65_535, "'}) EXCLUSIVE x};"),
        "6" => text(alloc, "CREATE GRAPH TYPE g LOOSE {", KEY, 3_000, "FOR (x) EXCLUSIVE x};"),
        "7" => text(alloc, "CREATE GRAPH TYPE g LOOSE {a", ",a", 500_000, "}"),
        "8" => text(alloc, "CREATE GRAPH TYPE g LOOSE {(a)", ",(a)", 250_000, "};"),
        "9" => text(alloc, "CREATE GRAPH TYPE g LOOSE {FOR (x)", ",()", 340_000, "EXCLUSIVE x};"),
        "10" => text(alloc, "CREATE GRAPH TYPE g LOOSE {FOR (x)", "-[]->()", 149_000, "EXCLUSIVE x};"),
        "11" => text(alloc, "CREATE NODE TYPE (a: A", "&A?", 300_000, ");"),
        "12" => text(alloc, "CREATE NODE TYPE (a: A", "|A&A", 262_000, ");"),
        "13" => text(alloc, "CREATE GRAPH TYPE g LOOSE {a", ",()-[a]->()", 95_000, "};"),
        "14" => text(alloc, "CREATE GRAPH TYPE g LOOSE {", "FOR()EXCLUSIVE x,", 61_000, "FOR (x) EXCLUSIVE x};"),
        "15" => text(alloc, "CREATE GRAPH TYPE g LOOSE {", "FOR(:a)EXCLUSIVE x,", 55_000, "FOR (x) EXCLUSIVE x};"),
        "16" => text(alloc, "CREATE GRAPH TYPE g LOOSE {FOR (x) EXCLUSIVE x WITHIN ()", ",()-[]->()", 104_000, "};"),
        "17" => text(alloc, "CREATE GRAPH TYPE g LOOSE {FOR (x) EXCLUSIVE x WITHIN ()", "-[]->()-[]->(),()", 61_000, "};"),
        "18" => text(alloc, "CREATE GRAPH TYPE g LOOSE {FOR () EXCLUSIVE x", ",x", 524_000, "};"),
        _ => text(alloc, "CREATE GRAPH TYPE g LOOSE {FOR (x {k:1", ",k:1", 262_000, "}) EXCLUSIVE x};"),
    }
}

fn main(rt: HostRuntime) -> ExitCode {
    let mut number = String::new(rt.alloc());
    let mut wanted = String::new(rt.alloc());
    let arguments = match env::args(&rt) {
        Ok(arguments) => arguments,
        Err(_) => return ExitCode::from(2),
    };
    for (place, word) in arguments.enumerate() {
        if place == 1 {
            number = word;
        } else if place == 2 {
            wanted = word;
        }
    }
    let text = match input(rt.alloc(), number.as_str()) {
        Ok(text) => text,
        Err(_) => return ExitCode::from(2),
    };
    if text.len() > 1_048_576 {
        return ExitCode::from(3);
    }
    if wanted.as_str() == "text" {
        return ExitCode::from(0);
    }
    match lex(rt.alloc(), text.as_bytes()) {
        Ok(tokens) => {
            if wanted.as_str() != "lex" {
                let parsed = parse(rt.alloc(), &tokens);
                let fails = number.as_str() == "7";
                if parsed.is_err() != fails {
                    return ExitCode::from(4);
                }
                if wanted.as_str() == "parse" {
                    mem::forget(parsed);
                }
            }
            ExitCode::from(0)
        }
        Err(_) => ExitCode::from(1),
    }
}
E2
build parsing 5 lex

python3 - "$built" <<'P'
import os, statistics, sys

NAMES = ["29,000 statements", "one statement of 200,000 members", "one label expression of 250,000 parts", "64 parentheses deep, 8,000 times",
         "a string of 65,535 quotes", "3,000 keys", "500,000 members, which fail at the last token", "250,000 node types as members",
         "340,000 paths of one place", "a path of 149,000 steps", "300,000 optional parts", "262,000 alternatives of two parts",
         "95,000 edge types as members", "61,000 keys of an empty place", "55,000 keys of a label", "104,000 paths of one step",
         "61,000 paths of two steps between empty ones", "524,000 expressions", "262,000 tests"]
WORDS = ("text", "lex", "parse", "drop")


def spent(*words):
    pid = os.fork()
    if pid == 0:
        os.execv(words[0], words)
    _, status, used = os.wait4(pid, 0)
    if status != 0:
        sys.exit(f"the program ended with {os.waitstatus_to_exitcode(status)} at {words[1:]}")
    return (used.ru_utime + used.ru_stime) * 1000


most, most_dropped = (0, ""), (0, "")
for number, name in enumerate(NAMES, 1):
    times = {word: [] for word in WORDS}
    for _ in range(25):
        for word in WORDS:
            times[word].append(spent(sys.argv[1], str(number), word))
    text, lex, parse, drop = (statistics.median(times[word]) for word in WORDS)
    ratio, dropped = (parse - lex) / (lex - text), (drop - lex) / (lex - text)
    most, most_dropped = max(most, (ratio, name)), max(most_dropped, (dropped, name))
    print(f"{name}: lex {lex - text:.2f} ms, parse {parse - lex:.2f} ms, {ratio:.2f} times, with the drop {dropped:.2f}", flush=True)
print(f"at most {most[0]:.2f} times: {most[1]}; with the drop {most_dropped[0]:.2f}: {most_dropped[1]}")
P
