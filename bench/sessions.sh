#!/usr/bin/env bash
# Times pgsession on a graph of 100,000 elements: 200,000 events of 100 sessions in turn, each begin, two reads, one stage, commit. It says how
# many events a second are answered, and how much memory the run held with the numbers of changed elements and without a commit. The type of
# the graph is LOOSE and there is no key, so that what is measured is the sessions' own work and not the guard's judgement of the graph. It
# builds the program in a folder of its own, proving what no check has kept.
# Usage: bench/sessions.sh
source "$(dirname "$(readlink -f "${BASH_SOURCE[0]}")")/common.bash"
take pgsession
build pgsession run
# graph NODES: a session that adds so many nodes, 10,000 in a commit
graph() {
  echo 'CREATE GRAPH TYPE g LOOSE {};'
  echo '---'
  awk -v nodes="$1" 'BEGIN {
    for (number = 1; number <= nodes; number++) {
      if ((number - 1) % 10000 == 0) printf "begin 0\nstage 0 {\"ops\":["
      printf "%s{\"add_node\":%d,\"props\":{\"k\":0}}", (number - 1) % 10000 ? "," : "", number
      if (number % 10000 == 0 || number == nodes) printf "]}\ncommit 0\n"
    }
  }'
}
# events ROUNDS LAST: rounds of 100 sessions, each of which begins, then reads, reads, stages and ends so, on nodes of its own
events() {
  awk -v rounds="$1" -v last="$2" 'BEGIN {
    for (round = 0; round < rounds; round++) {
      for (s = 1; s <= 100; s++) print "begin " s
      for (s = 1; s <= 100; s++) print "read " s " n" (round * 100 + s) % 50000 + 1
      for (s = 1; s <= 100; s++) print "read " s " n" (round * 100 + s) % 50000 + 50001
      for (s = 1; s <= 100; s++) print "stage " s " {\"ops\":[{\"set_node\":" (round * 100 + s) % 50000 + 1 ",\"key\":\"k\",\"value\":" round + 1 "}]}"
      for (s = 1; s <= 100; s++) print last " " s
    }
  }'
}
run() {
  "$built" run <"$1" >"$work/output"
}
graph 100000 >"$work/graph"
{ cat "$work/graph"; events 400 commit; } >"$work/commits"
{ cat "$work/graph"; events 400 abort; } >"$work/aborts"
without=$(milliseconds run "$work/graph")
commits=$(milliseconds run "$work/commits")
aborts=$(milliseconds run "$work/aborts")
awk -v ms=$((commits - without)) 'BEGIN { printf "200,000 events of 100 sessions that commit, 100,000 elements: %.0f events a second\n", 200000 * 1000 / ms }'
awk -v ms=$((aborts - without)) 'BEGIN { printf "the same with abort in place of commit: %.0f events a second\n", 200000 * 1000 / ms }'
held "100,000 elements, each with a number" 0 "$built" run <"$work/graph" >"$work/output"
