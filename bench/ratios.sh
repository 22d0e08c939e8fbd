#!/usr/bin/env bash
# Fails where work grows faster than what is done. Of each work it counts the instructions of the program over an input and over one with
# twice as much of it, less those of the same run with none of it, by valgrind, which counts the same whatever else the machine does; the
# bar is 2.5 times as many.
#   names: a schema of 4,000 and of 8,000 types, each of which names the one before: a look-up of a name that went over all names would
#          make it more than 3;
#   places: 10,000 and 20,000 transactions of a node with a scattered number: so would a look-up that went over rows;
#   values: 20,000 and 40,000 changes of the key values of 100 elements: so would values that are kept in mind and never forgotten.
# Usage: bench/ratios.sh [PROGRAM]   (else the program that tools/run would run)
set -eu
top=$(cd "$(dirname "$(readlink -f "${BASH_SOURCE[0]}")")/.." && pwd)
program=${1-$("$top/tools/run" --path pgguard)}
work=$(mktemp -d)
trap 'rm -rf "$work"' EXIT

# input WORK COUNT: what the program reads
input() {
  python3 - "$@" <<'P'
import sys

work, count = sys.argv[1], int(sys.argv[2])


def line(*ops):
    return '{"ops":[' + ",".join(ops) + "]}"


def added(number, mail):
    return f'{{"add_node":{number},"labels":["P"],"props":{{"mail":"{mail}"}}}}'


if work == "names":
    types = ["(t0: A)", *(f"(t{number}: t{number - 1})" for number in range(1, count + 1))]
    print("CREATE GRAPH TYPE g LOOSE {" + ", ".join(types) + "};\n---")
elif work == "places":
    print("CREATE GRAPH TYPE g LOOSE {};\n---")
    for number in range(count):
        print(line(f'{{"add_node":{number * 7919 % 1000003},"labels":[],"props":{{}}}}'))
else:
    print("CREATE GRAPH TYPE g LOOSE {(t: P {mail STRING}), FOR (x:P) EXCLUSIVE MANDATORY SINGLETON x.mail};\n---")
    print(line(*(added(number, f"first{number}") for number in range(100))))
    for number in range(count):
        print(line(f'{{"set_node":{number % 100},"key":"mail","value":"m{number}"}}'))
P
}

# instructions WORK COUNT
instructions() {
  input "$1" "$2" >"$work/input"
  valgrind --tool=cachegrind --cache-sim=no --cachegrind-out-file=/dev/null "$program" try <"$work/input" >"$work/output" 2>"$work/log"
  if grep -q refused "$work/output"; then
    echo "$1: something is refused: $(grep -m 1 refused "$work/output")" >&2
    return 1
  fi
  sed -n 's/.*I *refs: *//p' "$work/log" | tr -d ,
}

missed=0
for row in names:4000 places:10000 values:20000; do
  what=${row%:*} count=${row#*:}
  none=$(instructions "$what" 0)
  once=$(instructions "$what" "$count")
  twice=$(instructions "$what" $((2 * count)))
  awk -v what="$what" -v none="$none" -v once="$once" -v twice="$twice" 'BEGIN {
    ratio = (twice - none) / (once - none)
    printf "%s: %.2f times as many instructions for twice as much%s\n", what, ratio, (ratio > 2.5 ? " (bar 2.5: missed)" : "")
    exit (ratio > 2.5)
  }' || missed=1
done
exit $missed
