#!/usr/bin/env bash
# Runs pgcheck on each example below check/, by the word in word.txt or else `schema`, and compares what it prints with output.txt and its status with status.txt; then what it says of
# other words and of closed streams. Where an example has a folder stored/, pgguard makes a store of its schema.txt and lines.txt, whose name is pgcheck's second word, and whose files
# have to stay as they are. Of each example of `pgguard try` the verdicts have to be the same but for the word. Ends with 1 where one differs.
# Usage: examples/check.sh, with PGCHECK=EXECUTABLE and PGGUARD=EXECUTABLE to try others than `pgcheck` and `pgguard` run
set -u
here=$(cd "$(dirname "$(readlink -f "${BASH_SOURCE[0]}")")" && pwd)
program=${PGCHECK:-$("$here/../tools/run" --path pgcheck)} || exit 1
program=$(readlink -f "$program")
guard=${PGGUARD:-$("$here/../tools/run" --path pgguard)} || exit 1
guard=$(readlink -f "$guard")
work=$(mktemp -d) || exit 1
trap 'rm -rf "$work"' EXIT
different=0

# Says whether the last run ended so: ended NAME STATUS WANTED
ended() {
  local found=$?
  if [ "$found" = "$2" ] && cmp -s "$work/found" "$3"; then
    echo "$1: as expected"
  else
    echo "$1: different, status $found"
    different=1
  fi
}

# Makes a store of an example: store FOLDER NAME
store() {
  "$guard" load "$2" <"$1/schema.txt" >"$work/made" && "$guard" apply "$2" <"$1/lines.txt" >>"$work/made"
}

for example in "$here"/check/*/; do
  name=check/$(basename "$example")
  status=$(<"$example/status.txt")
  words=(schema)
  [ -e "$example/word.txt" ] && words=("$(<"$example/word.txt")")
  if [ -d "$example/stored" ]; then
    words+=("$work/stored")
    rm -f "$work"/stored.*
    store "$example/stored" "$work/stored" || different=1
    sum=$(cksum "$work"/stored.*)
  fi
  "$program" "${words[@]}" <"$example/input.txt" >"$work/found"
  ended "$name" "$status" "$example/output.txt"
  if [ -d "$example/stored" ] && [ "$sum" != "$(cksum "$work"/stored.*)" ]; then
    echo "$name: the store was changed"
    different=1
  fi
done

for example in "$here"/*/; do
  [ -f "$example/status.txt" ] && ! [ -f "$example/words.txt" ] || continue
  name=$(basename "$example")
  if [ -f "$example/input.sh" ]; then
    bash "$example/input.sh" >"$work/given"
  else
    cp "$example/input.txt" "$work/given"
  fi
  sed 's/^\([0-9]*\) committed /\1 accepted /' "$example/output.txt" >"$work/wanted"
  "$program" try <"$work/given" >"$work/all"
  status=$?
  grep -av '^[0-9]* because \|^because ' "$work/all" >"$work/found"
  [ "$status" = "$(<"$example/status.txt")" ]
  ended "the verdicts of $name" 0 "$work/wanted"
done

printf 'store refused 30 no store\n' >"$work/none"
"$program" apply "$work/absent" <"$here/check/apply_dry_run/input.txt" >"$work/found"
ended "apply without a store" 4 "$work/none"
"$program" evolve "$work/absent" <"$here/check/evolve_store_safe/input.txt" >"$work/found"
ended "evolve without a store" 4 "$work/none"

printf 'words refused 35\n' >"$work/words"
"$program" </dev/null >"$work/found" 2>/dev/null
ended "no words" 2 "$work/words"
"$program" schema schema </dev/null >"$work/found" 2>/dev/null
ended "too many words" 2 "$work/words"
printf 'schema refused 12 no graph type\n' >"$work/schema"
"$program" schema </dev/null >"$work/found"
ended "an empty input" 3 "$work/schema"
: >"$work/nothing"
"$program" schema <&- >"$work/found" 2>"$work/told"
ended "a closed input" 6 "$work/nothing"
printf 'CREATE GRAPH TYPE g LOOSE {};\n' >"$work/empty"
: >"$work/found"
"$program" schema <"$work/empty" >&- 2>"$work/told"
ended "a closed output" 7 "$work/nothing"
exit "$different"
