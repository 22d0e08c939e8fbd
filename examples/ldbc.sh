#!/usr/bin/env bash
# The social network of the LDBC benchmark as one would bring it in: a store under a LOOSE graph type takes the lines of a generator, then it is put under
# the schema of 34 types and 25 keys, 20 mistakes get their answers, first by `pgcheck apply`, which keeps nothing, a feed is followed, and the store is written whole and read back. Compares what is
# printed; ends with 1 where it differs.
# Usage: examples/ldbc.sh [NUMBER [PERSONS]]; with PGGUARD=FILE, PGFOLLOW=FILE and PGCHECK=FILE in the environment these executables are run. The answers to the mistakes
# are those of number 1.
set -u
here=$(cd "$(dirname "$(readlink -f "${BASH_SOURCE[0]}")")" && pwd)
guard=$(readlink -f "${PGGUARD:-$("$here/../tools/run" --path pgguard)}") || exit 1
follow=$(readlink -f "${PGFOLLOW:-$("$here/../tools/run" --path pgfollow)}") || exit 1
check=$(readlink -f "${PGCHECK:-$("$here/../tools/run" --path pgcheck)}") || exit 1
number=${1:-1} persons=${2:-500}
work=$(mktemp -d) || exit 1
trap 'rm -rf "$work"' EXIT
cd "$work" || exit 1
different=0

# Says whether a test held: holds NAME COMMAND..
holds() {
  local name=$1
  shift
  if "$@"; then
    echo "$name: as expected"
  else
    echo "$name: different"
    different=1
  fi
}

python3 "$here/ldbc/data.py" "$number" "$persons" >lines.txt || exit 1
lines=$(wc -l <lines.txt)
echo 'CREATE GRAPH TYPE network LOOSE {};' | "$guard" load network >loaded.txt
holds "load" grep -qx 'loaded types=0 keys=0' loaded.txt
"$guard" apply network feed.jsonl <lines.txt >verdicts.txt
holds "$lines lines" grep -qx "$lines committed $lines" verdicts.txt
"$guard" evolve network <"$here/ldbc/schema.txt" >evolved.txt
holds "evolve" grep -qx 'evolved types=34 keys=25' evolved.txt
"$check" apply network <"$here/ldbc/mistakes.txt" >tried.txt
"$guard" apply network feed.jsonl <"$here/ldbc/mistakes.txt" >answers.txt
sed 's/^\([0-9]*\) committed /\1 accepted /' answers.txt >wanted.txt
holds "the mistakes, tried first" cmp -s wanted.txt <(grep -v '^[0-9]* because ' tried.txt)
sed -n 's/^\([0-9]*\) refused \(20\|2[5-9]\|39\) .*/\1/p' tried.txt >explained.txt
holds "a cause for each mistake but those of 23" cmp -s explained.txt <(sed -n 's/^\([0-9]*\) because .*/\1/p' tried.txt | uniq)
if [ "$number $persons" = '1 500' ]; then
  holds "20 mistakes" cmp -s answers.txt "$here/ldbc/answers.txt"
fi
holds "no mistake is committed" eval '! grep -q committed answers.txt'
echo '{"ops":[{"set_node":254,"key":"speaks","value":"fi"}]}' | "$guard" apply network feed.jsonl >more.txt
holds "apply goes on" grep -qx "1 committed $((lines + 1))" more.txt
"$guard" recover network >dump.txt
"$follow" follow <feed.jsonl >followed.txt
holds "what a follower has is the store's" eval 'sed -n "/^---$/,\$p" dump.txt | sed 1d | cmp -s - <(sed 1d followed.txt)'
holds "the schema is the stored text" eval '[ "$(sed "/^---$/,\$d" dump.txt)" = "$(cat "$here/ldbc/schema.txt")" ]'
"$guard" checkpoint network >checkpoint.txt
holds "checkpoint" grep -qx "checkpoint epoch=2 commits=$((lines + 1))" checkpoint.txt
"$guard" recover network >again.txt
holds "recover after the checkpoint" cmp -s dump.txt again.txt
"$guard" validate <again.txt >violations.txt
holds "validate of the dump" test ! -s violations.txt
exit "$different"
