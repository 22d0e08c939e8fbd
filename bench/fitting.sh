#!/usr/bin/env bash
# Times compiled types. First the test of one pair (a label and 8 properties) against shapes of a label and 8 keys: the last shape has
# the pair, and each one before it differs at the last key alone, so that every shape is walked to its end; with 1, 16 and 4,096 shapes.
# Then the reading of schema texts whose types are compiled at their limit, 4,096 shapes of 1,024 parts each, which are labels or keys;
# of one shape with as many labels as a text has room for; and of a text that would make 2^64 shapes, which is refused. The program
# itself takes the times of reading; beside them stands the most memory that it held. It makes a small program over pgs_conform and
# pgs_schema in a folder of its own, and builds it, proving what is below where no check has kept it.
# Usage: bench/fitting.sh
source "$(dirname "$(readlink -f "${BASH_SOURCE[0]}")")/common.bash"
take pgs_conform pgs_schema
mkdir -p "$work/crates/fitting/src" "$work/crates/fitting/proofs/shape"
echo 'fitting: pgs_base pgs_conform pgs_schema' >>"$work/crates.txt"
cat >"$work/crates/fitting/src/main.rt" <<'E'
//! With the word `fit`, a number and further words: tests a pair against as many shapes as the number says, 4,096 times for each further
//! word. With the word `read` and four numbers: reads a text whose type has so many optional labels, labels and keys, as often as the
//! fourth says, and tells the time of one reading. It ends with 0 where the pair fits, or the text is read, and with 1 where not.
#![tactic(auto)]

use pgs_base::{Labels, List, Memory, Name, Props, Rows, Text, Value};
use pgs_conform::{Options, Pair, Shape};
use pgs_schema::{SchemaFault, SchemaUnread, read_schema};
use std::alloc::{AllocError, Global};
use std::env;
use std::io;
use std::process::ExitCode;
use std::time::Instant;

const KEYS: [&str; 8] = [
    "born", "city", "country", "mail", "name", "phone", "salary", "street",
];
const WALKS: usize = 4_096;

fn text() -> Options {
    Options { absent: false, text: true, int: false, boolean: false, date: false }
}

fn int() -> Options {
    Options { absent: false, text: false, int: true, boolean: false, date: false }
}

fn labels(alloc: Global) -> Result<Labels, Memory> {
    let mut labels = Labels::new(alloc);
    if let Some(name) = Name::new(alloc, b"Person")? {
        labels.insert(name)?;
    }
    Ok(labels)
}

// A shape of texts, but for the last key.
fn shape(alloc: Global, last: Options) -> Result<Shape, Memory> {
    let mut keys: Rows<Name, Options> = Rows::new(alloc);
    for (place, key) in KEYS.iter().enumerate() {
        if let Some(name) = Name::new(alloc, key.as_bytes())? {
            keys.set(name, if place == 7 { last } else { text() })?;
        }
    }
    let labels = labels(alloc)?;
    let keys = keys.into_vec();
    Ok(Shape { labels, more_labels: false, keys: List::from_vec(keys), more_keys: false })
}

fn shapes(alloc: Global, count: usize) -> Result<Vec<Shape>, Memory> {
    let mut shapes = Vec::new(alloc);
    for _ in 1..count {
        shapes.push(shape(alloc, int())?)?;
    }
    shapes.push(shape(alloc, text())?)?;
    Ok(shapes)
}

fn props(alloc: Global) -> Result<Props, Memory> {
    let mut props = Props::new(alloc);
    for key in KEYS {
        if let Some(name) = Name::new(alloc, key.as_bytes())? {
            if let Some(value) = Text::new(alloc, "a text of a property")? {
                props.set(name, Value::Text(value))?;
            }
        }
    }
    Ok(props)
}

fn some_has(shapes: &[Shape], own: &Pair<'_>) -> bool {
    shapes.iter().any(|shape| shape.has(own))
}

fn turn(shapes: &[Shape], own: &Pair<'_>) -> bool {
    let mut all = true;
    for _ in 0..WALKS {
        all = all && some_has(shapes, own);
    }
    all
}

fn turns(alloc: Global, count: usize, walks: usize) -> Result<bool, Memory> {
    let shapes = shapes(alloc, count)?;
    let labels = labels(alloc)?;
    let props = props(alloc)?;
    let own = Pair { labels: &labels, props: &props };
    let mut all = true;
    for _ in 0..walks {
        all = all && turn(shapes.as_slice(), &own);
    }
    Ok(all)
}

// Names of one letter and their places, each with an end.
fn push_names(
    alloc: Global,
    text: &mut String,
    letter: &str,
    count: u64,
    between: &str,
    end: &str,
) -> Result<(), AllocError> {
    for place in 0..count {
        let name = format!(in alloc; "{letter}{place}{end}")?;
        if place > 0 {
            text.push_str(between)?;
        }
        text.push_str(name.as_str())?;
    }
    Ok(())
}

// A schema of one type `o0? & .. & r0 & .. {k0 INT, ..}`.
fn schema_text(
    alloc: Global,
    optional: u64,
    labels: u64,
    keys: u64,
) -> Result<String, AllocError> {
    let mut text = String::from_str(alloc, "CREATE GRAPH TYPE g STRICT {(t: ")?;
    push_names(alloc, &mut text, "o", optional, "&", "?")?;
    if optional > 0 && labels > 0 {
        text.push_str("&")?;
    }
    push_names(alloc, &mut text, "r", labels, "&", "")?;
    if keys > 0 {
        text.push_str(" {")?;
        push_names(alloc, &mut text, "k", keys, ",", " INT")?;
        text.push_str("}")?;
    }
    text.push_str(")};")?;
    Ok(text)
}

// Whether a text is read, and not refused as too wide. `None` where it is refused otherwise, or there was no memory.
fn is_read(alloc: Global, text: &[u8]) -> Option<bool> {
    match read_schema(alloc, text) {
        Ok(_) => Some(true),
        Err(SchemaUnread::Schema(SchemaFault::TooWide { .. })) => Some(false),
        Err(_) => None,
    }
}

fn readings(alloc: Global, text: &[u8], count: u64) -> Option<bool> {
    let mut all = Some(true);
    for _ in 0..count {
        all = is_read(alloc, text);
    }
    all
}

// Reads the text so often, tells the time of one reading, and gives the program's status.
fn read(rt: &HostRuntime, text: &[u8], count: u64) -> io::Result<u8> {
    let start = Instant::now(rt)?;
    let answer = readings(rt.alloc(), text, count);
    let time = start.elapsed(rt)?;
    let micros = time.as_secs().saturating_mul(1_000_000).saturating_add(time.subsec_micros() as u64);
    println!(rt; "read in {} us", micros / count.max(1))?;
    Ok(match answer {
        Some(true) => 0,
        Some(false) => 1,
        None => 3,
    })
}

fn number_of(words: &[String], place: usize) -> u64 {
    match words.get(place) {
        Some(word) => word.as_str().parse().unwrap_or(0),
        None => 0,
    }
}

fn run_fits(alloc: Global, words: &[String]) -> u8 {
    let count = number_of(words, 1) as usize;
    match turns(alloc, count, words.len().saturating_sub(2)) {
        Ok(true) => 0,
        Ok(false) => 1,
        Err(Memory) => 3,
    }
}

fn run_reads(rt: &HostRuntime, words: &[String]) -> u8 {
    let text = schema_text(rt.alloc(), number_of(words, 1), number_of(words, 2), number_of(words, 3));
    let Ok(text) = text else {
        return 3;
    };
    match read(rt, text.as_bytes(), number_of(words, 4)) {
        Ok(status) => status,
        Err(_) => 4,
    }
}

fn words_of(rt: &HostRuntime) -> Result<Vec<String>, AllocError> {
    let mut words = Vec::new(rt.alloc());
    if let Ok(arguments) = env::args(rt) {
        for argument in arguments.skip(1) {
            match words.push(argument) {
                Ok(()) => {}
                Err(_) => return Err(AllocError),
            }
        }
    }
    Ok(words)
}

fn main(rt: HostRuntime) -> ExitCode {
    let Ok(words) = words_of(&rt) else {
        return ExitCode::from(3);
    };
    let reads = match words.first() {
        Some(word) => word.as_str() == "read",
        None => false,
    };
    ExitCode::from(if reads {
        run_reads(&rt, words.as_slice())
    } else {
        run_fits(rt.alloc(), words.as_slice())
    })
}
E
cat >"$work/crates/fitting/proofs/shape/Answers.antt" <<'E'
use Rattle.pgs_base.proofs.Ascending.{ascends_decides}
use Rattle.fitting.proofs.shape.Goals as goal

pub invariant_of-result : goal.invariant_of-result
invariant_of-result c = record {
  ascending = rw (c.from_vec.ensures, c.into_vec-keys.ensures.items) ((ascends_decides _ _).1 c.into_vec-keys.ensures.ascending);
}
E
build fitting fit 1
for count in 1 16 4096; do
  turns=$((count < 1024 ? 1024 / count + 200 : 8))
  base=$(milliseconds "$built" fit "$count")
  mapfile -t words < <(seq "$turns")
  all=$(milliseconds "$built" fit "$count" "${words[@]}")
  awk "BEGIN { ms = $all - $base; printf \"%d shapes: %.3f us a test, %.3f us a shape\n\", $count, ms * 1000 / ($turns * 4096), ms * 1000 / ($turns * 4096 * $count) }"
done
# reads WHAT STATUS OPTIONAL LABELS KEYS TIMES
reads() {
  local what=$1 wanted=$2
  shift 2
  held "$what" "$wanted" "$built" read "$@"
}
reads '4,096 shapes of 1,024 labels' 0 12 1012 0 1
reads '4,096 shapes of up to 12 labels and 1,011 keys' 0 12 0 1011 1
reads 'one shape of 120,000 labels' 0 0 120000 0 1
reads '2^64 shapes, refused' 1 64 0 0 10000
