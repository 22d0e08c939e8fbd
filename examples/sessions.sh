#!/usr/bin/env bash
# Runs pgsession on each example below sessions/, and compares what it prints with output.txt and its status with status.txt; then what it
# says of other words, of a schema that is refused, and of closed streams. Ends with 1 where one differs.
# Usage: examples/sessions.sh, with PGSESSION=EXECUTABLE to try another one than `pgsession` runs
set -u
here=$(cd "$(dirname "$(readlink -f "${BASH_SOURCE[0]}")")" && pwd)
program=${PGSESSION:-$("$here/../tools/run" --path pgsession)} || exit 1
program=$(readlink -f "$program")
work=$(mktemp -d) || exit 1
trap 'rm -rf "$work"' EXIT
different=0

# Says whether the last run ended so: ended NAME STATUS WANTED
ended() {
  local found=$?
  if [ "$found" = "$2" ] && cmp -s "$work/found" "$3"; then
    echo "$1: as expected"
  else
    echo "$1: different, status $found"
    different=1
  fi
}

for example in "$here"/sessions/*/; do
  name=sessions/$(basename "$example")
  status=$(<"$example/status.txt")
  "$program" run <"$example/input.txt" >"$work/found"
  ended "$name" "$status" "$example/output.txt"
done

printf 'words refused 35\n' >"$work/words"
"$program" </dev/null >"$work/found" 2>/dev/null
ended "no words" 2 "$work/words"
"$program" run run </dev/null >"$work/found" 2>/dev/null
ended "too many words" 2 "$work/words"
printf 'schema refused 12 no graph type\n' >"$work/schema"
"$program" run </dev/null >"$work/found"
ended "an empty input" 3 "$work/schema"
: >"$work/nothing"
"$program" run <&- >"$work/found" 2>"$work/told"
ended "a closed input" 6 "$work/nothing"
printf 'CREATE GRAPH TYPE g LOOSE {};\n---\nbegin 1\n' >"$work/begin"
: >"$work/found"
"$program" run <"$work/begin" >&- 2>"$work/told"
ended "a closed output" 7 "$work/nothing"
exit "$different"
