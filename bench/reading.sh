#!/usr/bin/env bash
# Times the reading of lines by the program: `try` over 50 million empty lines, and over a gigabyte of lines of 100 spaces, both
# behind a schema and its separator. It says how long each takes and how much of it the program had of a processor, in seconds, and the
# most memory that it held, in kilobytes, beside that of a run over 1,000 such lines: a run takes no more memory for more lines. It builds
# the program in a folder of its own, proving what no check has kept.
# Usage: bench/reading.sh
source "$(dirname "$(readlink -f "${BASH_SOURCE[0]}")")/common.bash"
take pgguard
build pgguard try
schema() {
  printf 'CREATE GRAPH TYPE g STRICT {};\n---\n'
}
spaces=$(printf '%100s' '')
# lines TEXT COUNT: the text COUNT times, each with a line feed
lines() {
  yes "$1" | head -n "$2"
}
# reads TEXT COUNT: the seconds that a run over these lines takes, those of the processor in it, and the most memory that it held
reads() {
  local start now most=0 held pid status ticks=0 seen
  mkfifo "$work/input"
  "$built" try <"$work/input" >"$work/output" &
  pid=$!
  start=$(date +%s%N)
  { schema; lines "$1" "$2"; } >"$work/input" &
  while held=$(awk '/^VmHWM:/ { print $2 }' "/proc/$pid/status" 2>/dev/null) && [ -n "$held" ]; do
    [ "$held" -le "$most" ] || most=$held
    seen=$(awk '{ print $14 + $15 }' "/proc/$pid/stat" 2>/dev/null) && [ -n "$seen" ] && ticks=$seen
    sleep 0.02
  done
  status=0
  wait "$pid" || status=$?
  now=$(date +%s%N)
  rm "$work/input"
  [ "$status" -eq 0 ] || { echo "the program ended with $status" >&2; cat "$work/output" >&2; exit 1; }
  awk -v ns=$((now - start)) -v ticks="$ticks" -v hertz="$(getconf CLK_TCK)" -v most="$most" 'BEGIN { printf "%.2f %.2f %d\n", ns / 1e9, ticks / hertz, most }'
}
report() {
  local few all
  read -r -a few <<<"$(reads "$2" 1000)"
  read -r -a all <<<"$(reads "$2" "$3")"
  echo "$1: ${all[0]} s, of the processor ${all[1]} s; ${all[2]} kB held (over 1,000 lines ${few[2]} kB)"
}
report '50,000,000 empty lines' '' 50000000
report '9,900,000 lines of 100 spaces' "$spaces" 9900000
