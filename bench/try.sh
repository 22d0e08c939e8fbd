#!/usr/bin/env bash
# Times the program on persons who know each other, under two keys. `try` judges the whole graph at each line, so a line takes longer the
# larger the graph is: it says how many lines a second are judged where the graph has 1,000, 10,000 and 100,000 elements. `validate` judges
# once, at the end: it says how long 200,000 lines of one element each take. It builds the program in a folder of its own, proving what no
# check has kept.
# Usage: bench/try.sh
source "$(dirname "$(readlink -f "${BASH_SOURCE[0]}")")/common.bash"
take pgguard
build pgguard try
echo 'CREATE GRAPH TYPE g STRICT {(p: Person {id INT, mail STRING}), (:p)-[k: knows]->(:p), FOR (x:p) IDENTIFIER x.mail, FOR (x:p) IDENTIFIER x.id};
---' >"$work/schema"
# persons FIRST LAST TOGETHER: lines that add these persons, so many in each, and an edge from each to one before, but for person 1
persons() {
  awk -v first="$1" -v last="$2" -v together="$3" 'BEGIN {
    for (number = first; number <= last; number++) {
      printf "%s{\"add_node\":%d,\"labels\":[\"Person\"],\"props\":{\"id\":%d,\"mail\":\"u%d@x.org\"}}", (number - first) % together ? "," : "{\"ops\":[", number, number, number
      if (number > 1) printf ",{\"add_edge\":%d,\"from\":%d,\"to\":%d,\"labels\":[\"knows\"]}", number, number, 1 + (number * 7) % (number - 1)
      if ((number - first) % together == together - 1 || number == last) printf "]}\n"
    }
  }'
}
# run COMMAND FILE: runs a command of the program over an input
run() {
  "$built" "$1" <"$2" >"$work/output"
}
# judged ELEMENTS LINES: how many lines a second are judged in a graph of so many elements
judged() {
  local nodes=$(($1 / 2)) without with
  { cat "$work/schema"; persons 1 "$nodes" 2500; } >"$work/few"
  { cat "$work/few"; persons $((nodes + 1)) $((nodes + $2)) 1; } >"$work/more"
  without=$(milliseconds run try "$work/few")
  with=$(milliseconds run try "$work/more")
  awk -v elements="$1" -v lines="$2" -v ms=$((with - without)) \
    'BEGIN { printf "try, a graph of %d elements: %.1f lines a second\n", elements, lines * 1000 / ms }'
}
judged 1000 500
judged 10000 50
judged 100000 5
{
  cat "$work/schema"
  awk 'BEGIN { for (number = 1; number <= 200000; number++)
    printf "{\"ops\":[{\"add_node\":%d,\"labels\":[\"Person\"],\"props\":{\"id\":%d,\"mail\":\"u%d@x.org\"}}]}\n", number, number, number }'
} >"$work/lines"
echo "validate, 200,000 lines of one element each: $(milliseconds run validate "$work/lines") ms"
