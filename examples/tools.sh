#!/usr/bin/env bash
# Takes a graph by the tools of tools/ from CSV files to a guarded store, out of it again, and looks at it; and checks what each tool gives, and what it
# refuses. Ends with 1 where one differs, and else with 77 where a check was passed over, since graphviz or PostgreSQL isn't installed.
# Usage: examples/tools.sh; with PGGUARD=FILE and PGFOLLOW=FILE in the environment these executables are run.
set -u
here=$(cd "$(dirname "$(readlink -f "${BASH_SOURCE[0]}")")" && pwd)
tools="$here/../tools"
program=$(readlink -f "${PGGUARD:-$("$tools/run" --path pgguard)}") || exit 1
follow=$(readlink -f "${PGFOLLOW:-$("$tools/run" --path pgfollow)}") || exit 1
export PGGUARD=$program
# Where python3 is a script that looks for the right one, it does so once, and not for each tool.
PATH=$(dirname "$(python3 -c 'import sys; print(sys.executable)')"):$PATH
work=$(mktemp -d) || exit 1
trap 'rm -rf "$work"' EXIT
cd "$work" || exit 1
different=0
passed=0
# What is said of a command, whose own output may go into a file.
exec 5>&1
# The tools of PostgreSQL, and those of an import, have checks of their own, which go along.
"$here/sql.sh" >sql.txt 2>&1 &
sql=$!
# So do the kills of each tool, in a folder of their own.
mkdir kills
(cd kills && exec python3 "$here/kills.py" "$program") >kills.txt 2>&1 &
kills=$!
"$here/imports.sh" >imports.txt 2>&1 &
imports=$!

# Says whether a command ended with a status: ends NAME STATUS COMMAND..
ends() {
  local name=$1 wanted=$2 found
  shift 2
  "$@"
  found=$?
  if [ "$found" = "$wanted" ]; then
    echo "$name: as expected" >&5
  else
    echo "$name: different, status $found" >&5
    different=1
  fi
}

# Says whether a command is refused with a status and a line on standard error, and puts nothing: refuses NAME STATUS LINE COMMAND..
refuses() {
  local name=$1 wanted=$2 line=$3 found
  shift 3
  "$@" >put.txt 2>told.txt
  found=$?
  if [ "$found" = "$wanted" ] && [ ! -s put.txt ] && grep -qF -- "$line" told.txt; then
    echo "$name: as expected" >&5
  else
    echo "$name: different, status $found: $(cat told.txt)" >&5
    different=1
  fi
}

# Makes a store under a schema that admits all: loose NAME.
loose() {
  echo 'CREATE GRAPH TYPE g LOOSE {};' | "$program" load "$1" >/dev/null
}

# The operations that make a store's graph, as `recover` prints them: operations NAME.
operations() {
  "$program" recover "$1" </dev/null | sed '1,/^---$/d'
}

# The graph that a feed leads to, as `pgfollow` prints it: followed FEED.
followed() {
  "$follow" follow <"$1" | sed 1d
}

# Whether each line is one that `apply` may take: at most 10,000 operations and 1,048,576 bytes.
within() {
  python3 - "$1" <<'P'
import json, sys
lines = open(sys.argv[1], "rb").read().split(b"\n")[:-1]
sys.exit(not all(len(line) <= 1_048_576 and len(json.loads(line)["ops"]) <= 10_000 for line in lines))
P
}

# Each tool tells its words.
for tool in backup dump-to-csv dump-to-lines dump-to-sql dump-to-sqlite feed-to-lines feed-to-sql feed-to-sqlite journal-to-feed restore schema \
  schema-to-sql show-dot store-info; do
  ends "$tool --help" 0 "$tools/$tool" --help >help.txt
  ends "its usage" 0 grep -q "^usage: $tool" help.txt
done

# How far a tool is, on standard error where that is a terminal, from the first second on: of a file in percent, of a pipe in lines; taken away at the end.
cat >far.py <<'P'
import os, pty, re, select, subprocess, sys, time

def shown(words, awaited, first=b"", last=b""):
    """The status of a tool that isn't read, and gets no more, until what is awaited stands on its terminal; and all that stood there."""
    ours, terminal = pty.openpty()
    child = subprocess.Popen(words, stdin=subprocess.PIPE, stdout=subprocess.PIPE, stderr=terminal)
    os.close(terminal)
    child.stdin.write(first)
    child.stdin.flush()
    told, until = b"", time.monotonic() + 60
    while not re.search(awaited, told) and time.monotonic() < until:
        if select.select([ours], [], [], 1)[0]:
            told += os.read(ours, 4096)
    child.communicate(last)
    try:
        while got := os.read(ours, 4096):
            told += got
    except OSError:
        pass
    return child.wait(), told

tool, node = sys.argv[1], b'{"ops":[{"add_node":%d}]}\n'
with open("far.txt", "wb") as file:
    file.writelines(node % number for number in range(30_000))
status, told = shown([tool, "far.txt"], awaited=rb"dump-to-lines: far.txt: [0-9]+ %")
of_file = status == 0 and told.endswith(b"\r\x1b[K")
status, told = shown([tool], rb"dump-to-lines: standard input: 2 lines, [0-9]+ s", first=node % 1 + node % 2, last=b'{"ops":[{"add_nod":3}]}\n')
of_pipe = status == 1 and re.search(rb"\r\x1b\[Kdump-to-lines: standard input:3: [^\r\n]*\r\n$", told)
sys.exit(not (of_file and of_pipe))
P
ends "a tool shows how far it is" 0 python3 far.py "$tools/dump-to-lines"
printf '{"ops":[{"add_node":1}]}\n' | "$tools/dump-to-lines" >put.txt 2>told.txt
ends "and nothing where there is no terminal" 0 test ! -s told.txt

# The schema of the files below, and the same graph as CSV with the fields of two headers.
cat >schema.txt <<'L'
CREATE NODE TYPE (holder: Holder {name STRING, born DATE});
CREATE NODE TYPE (account: Account {iban STRING, OPTIONAL frozen BOOL});
CREATE EDGE TYPE (:holder)-[owning: owns]->(:account);
CREATE EDGE TYPE (:account)-[paying: pays {cents INT}]->(:account);
CREATE GRAPH TYPE bank STRICT {holder, account, owning, paying, FOR (a:Account) IDENTIFIER a.iban};
L
printf 'id,labels,name,born:date\n1,Holder,Ann,1979-03-14\n2,Holder,"Bob ""B"" Jones",1980-07-02\n' >holders.csv
printf 'id,labels,iban:string,frozen:bool\n10,Account,DE1,\n11,Account,DE2,true\n' >accounts.csv
printf 'from,to,labels,cents:int\n1,10,owns,\n2,11,owns,\n10,11,pays,125000\n11,10,pays,-5\n' >edges.csv

# In: CSV to lines, lines into a store.
"$program" load bank <schema.txt >/dev/null
ends "csv-to-lines" 0 "$tools/csv-to-lines" --nodes holders.csv accounts.csv --edges edges.csv >lines.txt
printf '1 committed 1\n' >one.txt
ends "apply of its lines" 0 "$program" apply bank feed.jsonl <lines.txt >verdicts.txt
ends "one line is enough" 0 cmp verdicts.txt one.txt
printf '{"ops":[{"set_node":11,"key":"frozen","value":false}]}\n{"ops":[{"remove_edge":4}]}\n{"ops":[{"detach_node":2}]}\n' >changes.txt
ends "apply of changes" 0 "$program" apply bank feed.jsonl <changes.txt >verdicts.txt

# Out and in again: the dump as lines gives the same dump.
"$program" recover bank >dump.txt </dev/null
ends "dump-to-lines" 0 "$tools/dump-to-lines" dump.txt >dump_lines.txt
ends "an operation for each element" 0 test "$(grep -o '"add_\|"set_' dump_lines.txt | sort | uniq -c | tr -d ' \n')" = '5"add_'
"$program" load copy <schema.txt >/dev/null
ends "apply of the dump's lines" 0 "$program" apply copy <dump_lines.txt >verdicts.txt
"$program" recover copy >copy.txt </dev/null
ends "the same dump" 0 cmp dump.txt copy.txt
sed '1,/^---$/d' dump.txt >ops.txt
ends "operations without a schema" 0 cmp dump_lines.txt <("$tools/dump-to-lines" <ops.txt)
printf '{"ops":[{"add_node":1}]}\n{"ops":[{"add_nod":2}]}\n' >bad.txt
refuses "dump-to-lines refuses what is no operation" 1 'bad.txt:2: an operation has no kind' "$tools/dump-to-lines" bad.txt
python3 - >long.txt <<'P'
import json
print(json.dumps({"ops": [{"add_node": 1, "props": {}}]}))
for number in range(20):
    print(json.dumps({"ops": [{"set_node": 1, "key": f"k{number}", "value": "x" * 65_000}]}))
print(json.dumps({"ops": [{"add_edge": 1, "from": 1, "to": 1}]}))
for number in range(40):
    print(json.dumps({"ops": [{"set_edge": 1, "key": f"k{number}", "value": "\0" * 30_000}]}))
P
loose long
ends "dump-to-lines of long elements" 0 "$tools/dump-to-lines" long.txt >long_lines.txt
ends "its lines are within the limits" 0 within long_lines.txt
ends "its lines are taken" 0 "$program" apply long <long_lines.txt >verdicts.txt
ends "all properties are there" 0 test "$(operations long | grep -o '"set_node":1\|"set_edge":1' | sort | uniq -c | tr -d ' \n')" = '40"set_edge":120"set_node":1'

# A large graph, of more operations than a line may have, whose keys hold of no part of it: it comes in under a graph type without keys, and is then put under
# its schema.
network="$here/ldbc/schema.txt"
python3 "$here/ldbc/data.py" 1 300 >network_lines.txt
loose network
{ "$program" apply network <network_lines.txt && "$program" evolve network <"$network"; } >verdicts.txt
"$program" recover network >network.txt </dev/null
ends "dump-to-lines of a large graph" 0 "$tools/dump-to-lines" network.txt >moved_lines.txt
ends "in more than one line" 0 test "$(wc -l <moved_lines.txt)" = 2
ends "its lines are within the limits" 0 within moved_lines.txt
"$program" load guarded <"$network" >/dev/null
ends "under its keys they aren't taken" 1 "$program" apply guarded <moved_lines.txt >verdicts.txt
loose moved
ends "under no keys they are" 0 "$program" apply moved <moved_lines.txt >verdicts.txt
ends "evolve to the schema" 0 "$program" evolve moved <"$network" >evolved.txt
ends "which has 34 types and 25 keys" 0 grep -qx 'evolved types=34 keys=25' evolved.txt
"$program" recover moved >moved.txt </dev/null
ends "the large graph is the same" 0 cmp network.txt moved.txt

# Feeds: repeats are passed over; a gap and a torn line are told.
cat feed.jsonl feed.jsonl >twice.jsonl
ends "feed-to-lines" 0 "$tools/feed-to-lines" twice.jsonl >feed_lines.txt
"$program" load follower <schema.txt >/dev/null
ends "apply of the feed's lines" 0 "$program" apply follower <feed_lines.txt >verdicts.txt
"$program" recover follower >follower.txt </dev/null
ends "the feed gives the same dump" 0 cmp dump.txt follower.txt
ends "feed-to-lines from 3 on" 0 cmp <(head -n 4 feed_lines.txt | tail -n 2) <("$tools/feed-to-lines" --from 3 feed.jsonl)
sed 2d feed.jsonl >gap.jsonl
ends "feed-to-lines stops at a gap" 1 "$tools/feed-to-lines" gap.jsonl >feed_lines.txt 2>told.txt
ends "and says which" 0 grep -q 'gap.jsonl:2: expected commit 2, found 3' told.txt
ends "what stands before is right" 0 test "$(wc -l <feed_lines.txt)" = 1
head -c -9 feed.jsonl >torn.jsonl
ends "feed-to-lines stops at a torn line" 1 "$tools/feed-to-lines" torn.jsonl >feed_lines.txt 2>told.txt
ends "and says which" 0 grep -q 'torn.jsonl:4: torn' told.txt
# A feed's line has each member, so it may be longer than a transaction's line may be.
python3 - >wide.txt <<'P'
import json
print(json.dumps({"ops": [{"add_node": 10**15 + number, "labels": ["L" * 60]} for number in range(9_990)]}, separators=(",", ":")))
P
loose wide
"$program" apply wide wide.jsonl <wide.txt >verdicts.txt
ends "a feed's line may be longer than a transaction's" 0 test "$(stat -c %s wide.jsonl)" -gt 1048577
loose wider
"$tools/feed-to-lines" wide.jsonl >wide_lines.txt
ends "feed-to-lines makes it as short as it was" 0 "$program" apply wider <wide_lines.txt >verdicts.txt

# Out as CSV: in the form of bulk imports, with what they have no place for; and exactly, which makes the same graph again.
cat >many.txt <<'L'
{"ops":[{"add_node":1,"labels":["A","B"],"props":{"id":"x","labels":"","from":5,"k":5,"t":" a \"q\", b\r\nc\rd\n; "}},{"add_node":2,"props":{"k":"5","z":"a\u0000b","d":{"date":"0001-02-03"}}}]}
{"ops":[{"add_node":18446744073709551615,"labels":["C"],"props":{"k":true,"n":-9223372036854775808,"b":false}},{"add_edge":7,"from":1,"to":2,"props":{"k":{"date":"2024-02-29"}}}]}
{"ops":[{"add_edge":18446744073709551615,"from":1,"to":18446744073709551615,"labels":["x","y"],"props":{"e":"","k":"=1"}},{"add_edge":0,"from":2,"to":1,"labels":["x"]}]}
L
loose many
"$program" apply many many.jsonl <many.txt >verdicts.txt
"$program" recover many >many_dump.txt </dev/null
cat >many_wanted.txt <<'L'
import: 3 nodes, 3 edges
as texts, since their kinds differ: k of nodes
as texts, since their kinds differ: k of edges
left out: the numbers of edges
left out: edges without a label, 1
left out: labels behind the first, of edges, 1
:START_ID,:END_ID,:TYPE,e:string,k:string
2,1,x,,
1,18446744073709551615,x,"","=1"
:ID,:LABEL,b:boolean,d:date,from:long,id:string,k:string,labels:string,n:long,t:string,z:string
18446744073709551615,C,false,,,,"true",,-9223372036854775808,,
L
ends "dump-to-csv" 0 "$tools/dump-to-csv" import many_dump.txt >told.txt
ends "its files, and what is left out" 0 cmp many_wanted.txt <(cat told.txt import/edges.csv; sed -n '1p;$p' import/nodes.csv)
ends "dump-to-csv --exact" 0 "$tools/dump-to-csv" --exact exact many_dump.txt >told.txt
{ "$tools/csv-to-lines" --nodes exact/nodes*.csv --edges exact/edges*.csv && cat exact/texts.txt; } >exact.txt
loose exact_store
ends "apply of csv-to-lines of it" 0 "$program" apply exact_store <exact.txt >verdicts.txt
ends "makes the same graph" 0 cmp many_dump.txt <("$program" recover exact_store </dev/null)
refuses "dump-to-csv goes over nothing" 1 'exact: is there already' "$tools/dump-to-csv" exact many_dump.txt
refuses "dump-to-csv of what is no dump" 1 'changes.txt:1: set_node in a dump' "$tools/dump-to-csv" none changes.txt
ends "nor is a folder left" 0 test ! -e none

# Out to SQLite: a feed taken once, twice, and in parts makes the tables of the dump.
sqlite() {
  python3 - "$@" <<'P'
import sqlite3, sys
for row in sqlite3.connect(sys.argv[1]).execute(sys.argv[2]):
    print(*row, sep="|")
P
}
tables() {
  for table in graph_node graph_edge graph_commit; do
    sqlite "$1" "SELECT * FROM $table ORDER BY 1"
  done
}
ends "dump-to-sqlite" 0 "$tools/dump-to-sqlite" --commit 3 many.sqlite many_dump.txt
ends "feed-to-sqlite of a front" 0 "$tools/feed-to-sqlite" fed.sqlite <(head -n 2 many.jsonl)
ends "feed-to-sqlite of all, and once more" 0 "$tools/feed-to-sqlite" fed.sqlite <(cat many.jsonl many.jsonl)
tables many.sqlite >many_tables.txt
ends "the same tables" 0 cmp many_tables.txt <(tables fed.sqlite)
ends "an id of twenty digits, and labels and properties" 0 grep -qxF '18446744073709551615|["C"]|{"b":false,"k":true,"n":-9223372036854775808}' many_tables.txt
head -c -2 many.jsonl >torn_many.jsonl
refuses "feed-to-sqlite of a torn line" 1 'torn_many.jsonl:3: torn' "$tools/feed-to-sqlite" part.sqlite torn_many.jsonl
ends "what stands before was taken" 0 test "$(sqlite part.sqlite 'SELECT last FROM graph_commit')" = 2
refuses "feed-to-sqlite of a gap" 1 'expected commit 3, found 4' "$tools/feed-to-sqlite" part.sqlite <(sed '3s/:3/:4/' many.jsonl)
printf '{"commit":3,"ops":[{"remove_edge":7},{"remove_node":99}]}\n' >other.jsonl
refuses "feed-to-sqlite of another store's feed" 1 "other.jsonl:1: remove_node of n99, which the tables don't have" "$tools/feed-to-sqlite" part.sqlite other.jsonl
ends "and nothing of it is taken" 0 test "$(sqlite part.sqlite 'SELECT count(*) FROM graph_edge')" = 1
ends "which the right one is" 0 "$tools/feed-to-sqlite" part.sqlite many.jsonl
ends "the same tables" 0 cmp many_tables.txt <(tables part.sqlite)
refuses "dump-to-sqlite into another file" 1 'many.txt: file is not a database' "$tools/dump-to-sqlite" --commit 3 many.txt many_dump.txt
"$tools/dump-to-sqlite" --commit 4 bank.sqlite dump.txt
ends "feed-to-sqlite goes on behind a dump" 0 "$tools/feed-to-sqlite" --schema schema.txt bank.sqlite feed.jsonl
ends "a view of nodes" 0 test "$(sqlite bank.sqlite 'SELECT * FROM Account')" = '10|["Account"]|None|DE1
11|["Account"]|0|DE2'
ends "a view of edges" 0 test "$(sqlite bank.sqlite 'SELECT source, target, cents FROM pays')" = '10|11|125000'

# A lost and torn feed is mended from the journal, before and after checkpoints and other schemas.
# Whether the feed that a store keeps, without its last lines, is mended by the journal: mended STORE FEED FIRST, of commits from FIRST on.
mended() {
  local store=$1 feed=$2 first=$3
  head -c -9 "$feed" >lost.jsonl
  head -n $((first - 1)) lost.jsonl >mended.jsonl
  ends "journal-to-feed of $store from $first" 0 "$tools/journal-to-feed" "$store" "$first" >>mended.jsonl
  ends "mends the feed byte for byte" 0 cmp "$feed" mended.jsonl
  ends "and pgfollow of it has what recover has" 0 cmp <(operations "$store") <(followed mended.jsonl)
}
# Whether store-info tells of a store what its last verdict and its next checkpoint say: informed STORE FEED FORMAT EPOCH.
informed() {
  local store=$1 feed=$2 format=$3 epoch=$4 commits size
  ends "store-info of $store" 0 "$tools/store-info" "$store" --feed lost.jsonl >info.txt
  commits=$(tail -n 1 verdicts.txt | sed 's/.* committed //')
  ends "its format and epoch" 0 grep -q ": chosen, format $format, epoch $((epoch - 1)), " info.txt
  ends "its commits are those of the last verdict" 0 grep -q "^commits: $commits, " info.txt
  ends "it says how far a feed is behind" 0 grep -qF "feed lost.jsonl: last commit $((commits - 1)), lacks 1 commit; lost.jsonl:$(wc -l <"$feed") is torn" info.txt
  size=$(sed -n "s/^next checkpoint: epoch $epoch, \([0-9]*\) bytes$/\1/p" info.txt)
  "$program" checkpoint "$store" >checkpoint.txt </dev/null
  ends "it told the checkpoint's line" 0 grep -qx "checkpoint epoch=$epoch commits=$commits" checkpoint.txt
  file=$store.b
  [ $((epoch % 2)) = 0 ] || file=$store.a
  ends "and its size" 0 test "$(stat -c %s "$file")" = "$size"
}
: >lost.jsonl
printf '{"ops":[{"set_node":11,"key":"iban","value":"DE7"}]}\n' >seventh.txt
"$program" apply bank feed.jsonl <seventh.txt >verdicts.txt
mended bank feed.jsonl 3
informed bank feed.jsonl 2 2
mended bank feed.jsonl 1
sed 's/OPTIONAL frozen BOOL/OPTIONAL frozen BOOL, OPTIONAL note STRING/' schema.txt >next.txt
"$program" evolve bank <next.txt >evolved.txt
printf '{"ops":[{"set_node":11,"key":"note","value":"a"}]}\n{"ops":[{"set_node":11,"key":"note","value":"\\u0001\\"é"}]}\n' >notes.txt
"$program" apply bank feed.jsonl <notes.txt >verdicts.txt
mended bank feed.jsonl 7
informed bank feed.jsonl 2 3
"$program" recover bank >dump.txt </dev/null
mended bank feed.jsonl 6
refuses "what stands no more isn't put" 1 'bank: commit 5 stands no more: the first that does is 6' "$tools/journal-to-feed" bank 5
refuses "nor from 1" 1 'bank: commit 1 stands no more: the first that does is 6' "$tools/journal-to-feed" bank
ends "--standing begins there" 0 cmp <(tail -n 2 feed.jsonl) <("$tools/journal-to-feed" bank --standing)
refuses "journal-to-feed of no store" 1 'nobody.a: no such file' "$tools/journal-to-feed" nobody

# A store of the first format, and what a checkpoint makes of it.
cp "$here/store/format_1.a" old.a
: >old.b
"$tools/journal-to-feed" old >old.jsonl
printf '{"ops":[{"set_node":2,"key":"name","value":"Rob"}]}\n' >rename.txt
"$program" apply old old.jsonl <rename.txt >verdicts.txt
mended old old.jsonl 2
informed old old.jsonl 1 2
mended old old.jsonl 1
printf '{"ops":[{"set_node":2,"key":"name","value":"Bob"}]}\n' >rename.txt
"$program" apply old old.jsonl <rename.txt >verdicts.txt
mended old old.jsonl 11
informed old old.jsonl 2 3

# The bytes that docs/BYTES.md shows are those of a store, in both formats.
python3 - "$here/../docs/BYTES.md" <<'P'
import re, sys
shown = re.findall(r"```\n(01 [0-9a-f\s]+)```", open(sys.argv[1]).read())
for number, text in zip((2, 1), shown, strict=True):
    open(f"shown{number}.a", "wb").write(bytes.fromhex(text))
    open(f"shown{number}.b", "wb").close()
P
printf 'CREATE GRAPH TYPE g LOOSE {};' | "$program" load made >/dev/null
printf '{"ops":[{"add_node":1}]}\n' | "$program" apply made made.jsonl >verdicts.txt
ends "the bytes that BYTES shows" 0 cmp shown2.a made.a
for format in 1 2; do
  ends "format $format as BYTES shows it" 0 cmp <("$program" recover made </dev/null) <("$program" recover shown$format </dev/null)
  ends "its feed" 0 cmp made.jsonl <("$tools/journal-to-feed" shown$format)
done

# Keeping.
for store in bank old; do
  ends "backup of $store" 0 "$tools/backup" "$store" kept >told.txt
  "$program" recover "$store" >"kept_$store.txt" </dev/null
  mkdir "restored_$store"
  cp kept/"$store".[ab] "restored_$store"
  "$program" recover "restored_$store/$store" >kept.txt </dev/null
  ends "the restored store has the same dump" 0 cmp "kept_$store.txt" kept.txt
done
ends "and goes on" 0 "$program" apply restored_old/old <rename.txt >verdicts.txt
refuses "backup goes over nothing" 1 'kept/bank.a: is there already' "$tools/backup" bank kept
ends "no other file is left" 0 test "$(find kept -mindepth 1 -printf '%f ' | tr ' ' '\n' | sort | tr -d '\n')" = bank.abank.bold.aold.b
# What a backup that was killed left behind goes with the next, unless somebody has it.
mkdir -p left/.bank.new-dead left/.bank.new-held
cp bank.a left/.bank.new-dead
flock left/.bank.new-held "$tools/backup" bank left >told.txt
ends "what was left behind is taken away" 0 test "$(find left -mindepth 1 -printf '%f ' | tr ' ' '\n' | sort | tr -d '\n')" = .bank.new-heldbank.abank.b
# A store made anew, from a copy, a dump and a feed.
# Whether restore makes a store whose dump and last commit are those of another: restores NAME COMMITS DUMP WORDS..
restores() {
  local name=$1 commits=$2 dump=$3
  shift 3
  ends "restore $name" 0 "$tools/restore" "$name" "$@" >told.txt
  ends "it tells the last commit" 0 grep -q "^$name: made of .*, last commit $commits$" told.txt
  ends "it has the same dump" 0 cmp "$dump" <("$program" recover "$name" </dev/null)
}
: >made_1.a
restores made_1 7 kept_bank.txt --backup kept/bank
restores made_2 1 kept_bank.txt --dump kept_bank.txt
restores made_3 7 kept_bank.txt --schema next.txt --feed feed.jsonl
restores made_4 4 follower.txt --schema schema.txt --feed feed.jsonl --to 4
mkdir folder
restores folder/old 11 <("$program" recover old </dev/null) --backup kept
ends "and goes on" 0 "$program" apply made_3 <notes.txt >verdicts.txt
head -c -5 bank.a >broken.a
for name in made_1 broken; do
  refuses "restore goes over nothing: $name" 1 "$name.a: is there already" "$tools/restore" "$name" --dump kept_bank.txt
done
refuses "restore of a feed that is too short" 1 'feed.jsonl: ends with commit 7, before 10' "$tools/restore" made_5 --schema next.txt --feed feed.jsonl --to 10
refuses "restore of a torn feed" 1 'torn.jsonl:4: torn' "$tools/restore" made_5 --schema schema.txt --feed torn.jsonl
refuses "restore under a schema to which the graph doesn't conform" 1 'feed.jsonl: evolve: evolve refused 25' "$tools/restore" made_5 --schema schema.txt --feed feed.jsonl
refuses "restore of no copy" 1 'nowhere.a: no such file' "$tools/restore" made_5 --backup nowhere
ends "nothing is left of them" 0 test -z "$(find . -name '.*.new-*' -path './.made*' -o -name 'made_5*')"
for store in bank old shown2; do
  ends "schema of $store" 0 cmp <("$tools/schema" "$store"; echo) <("$program" recover "$store" </dev/null | sed '/^---$/,$d')
done
mkfifo pipe.a
for tool in backup journal-to-feed restore schema store-info; do
  words=$([ "$tool" = backup ] && echo other; [ "$tool" = restore ] && echo "--dump kept_bank.txt")
  # shellcheck disable=SC2086
  refuses "$tool of a pipe" 1 'pipe.a: is not a regular file' timeout 10 "$tools/$tool" pipe $words
done
mkfifo lines.fifo
"$program" apply bank <lines.fifo >held.txt &
writer=$!
exec 3>lines.fifo
# A verdict says that the run has the files.
echo '{}' >&3
for _ in $(seq 1 200); do
  [ -s held.txt ] && break
  sleep 0.05
done
ends "backup beside a running apply" 0 "$tools/backup" bank beside >told.txt
ends "the copy has what was acknowledged" 0 cmp <("$program" recover beside/bank </dev/null) <("$program" recover bank </dev/null)
ends "journal-to-feed beside it" 0 "$tools/journal-to-feed" --standing bank >beside_feed.jsonl
ends "store-info beside it" 0 "$tools/store-info" bank >told.txt
ends "schema beside it" 0 "$tools/schema" bank >told.txt
exec 3>&-
wait "$writer"
refuses "backup of a store that is written over" 1 'bank.b: locked by another run' flock -x bank.b "$tools/backup" bank other
head -c -3 bank.a >short.a
cp bank.b short.b
refuses "backup of a damaged store" 1 'short.a: record 2 is damaged' "$tools/backup" short other
ends "restore without pgguard" 77 env PGGUARD=nowhere/pgguard "$tools/restore" made_5 --dump dump.txt 2>told.txt
ends "backup without pgguard" 77 env PGGUARD=nowhere/pgguard "$tools/backup" bank other 2>told.txt
ends "says so" 0 grep -qx "backup: nowhere/pgguard isn't installed" told.txt

# Looking.
ends "show-dot" 0 "$tools/show-dot" dump.txt >all.dot
printf '{"ops":[{"add_node":12,"labels":["Account"],"props":{"iban":"DE1"}}]}\n' >clash.txt
"$program" apply bank <clash.txt >clash_verdicts.txt
ends "show-dot of what a refusal names" 0 "$tools/show-dot" dump.txt --faults clash_verdicts.txt >faults.dot
ends "red, and only what is near" 0 sh -c 'grep -q "n10 .*color=red" faults.dot && grep -q "n1 " faults.dot && ! grep -q "n12 " faults.dot'
refuses "show-dot around nobody" 1 'n99: is no node of the dump' "$tools/show-dot" dump.txt --around n99
# The way of docs/RECIPES.md from CSV to a picture.
ring="$here/ring"
printf 'loaded types=4 keys=2\n1 committed 1\n1 refused 27 key 2: n10 has no key value\n' >ring_wanted.txt
{
  "$program" load ring <"$ring/schema.txt"
  "$tools/csv-to-lines" --nodes "$ring/holders.csv" "$ring/accounts.csv" --edges "$ring/edges.csv" | "$program" apply ring ring.jsonl
  "$program" apply ring ring.jsonl <"$ring/ring.txt"
} >ring_found.txt
ends "a ring of payments is refused" 0 cmp ring_found.txt ring_wanted.txt
"$program" recover ring </dev/null | cat - "$ring/ring.txt" >refused.txt
"$program" validate <refused.txt >ring_faults.txt
ends "show-dot of a ring" 0 "$tools/show-dot" --faults ring_faults.txt refused.txt >ring.dot
ends "all three of it are red, with their owners" 0 test "$(grep -c 'color=red' ring.dot) $(grep -c ': Holder' ring.dot) $(grep -c n13 ring.dot)" = "3 3 0"
ends "show-dot around a node" 0 "$tools/show-dot" --around n13 --steps 1 refused.txt >around.dot
ends "only what is near" 0 test "$(grep -c 'label="n' around.dot)" = 2
# Of a node at fault at most so many neighbours, and how many more; of an edge at fault its ends; and steps without end.
python3 - >hub.txt <<'P'
for number in range(700):
    print('{"ops":[{"add_node":%d,"labels":["P"]}]}' % number)
for number in range(1, 631):
    print('{"ops":[{"add_edge":%d,"from":0,"to":%d}]}' % (number, number))
print('{"ops":[{"add_edge":700,"from":0,"to":650,"labels":["far"]},{"add_edge":701,"from":660,"to":661}]}')
P
printf 'violation 27 key 1: n0 has no key value\nviolation 27 key 1: n660 has no key value\n' >hub_faults.txt
ends "show-dot of a hub" 0 "$tools/show-dot" --faults hub_faults.txt hub.txt >hub.dot
ends "200 neighbours, and how many more" 0 test "$(grep -c 'label="n' hub.dot) $(grep -c 'label="and 432 more"' hub.dot) $(grep -c n661 hub.dot)" = "202 1 2"
printf 'violation 26 edge e700 fits no type\n' >hub_faults.txt
ends "show-dot of an edge" 0 "$tools/show-dot" --faults hub_faults.txt hub.txt >hub.dot
ends "its ends alone" 0 test "$(grep -c 'label="n' hub.dot)" = 2
ends "steps without end" 0 timeout 30 "$tools/show-dot" --around n0 --steps 99999999999 hub.txt >hub.dot
ends "reach what is joined" 0 test "$(grep -c 'label="n' hub.dot)" = 632
# Texts with signs that a picture has a use for.
printf '{"ops":[{"add_node":1,"labels":["A","B"],"props":{"k":"a \\"b\\" <i> &lt; \\\\N \\u0001é"}},{"add_edge":1,"from":1,"to":1}]}\n' >signs.txt
ends "show-dot of signs" 0 "$tools/show-dot" signs.txt >signs.dot
texts() {
  sed -n 's/.*<text[^>]*>\(.*\)<\/text>.*/\1/p' "$1" | sed 's/&#45;/-/g; s/&quot;/"/g; s/&lt;/</g; s/&gt;/>/g; s/&#160;/ /g; s/&amp;/\&/g' | sort
}
if command -v dot >/dev/null; then
  for picture in all ring signs; do
    ends "the picture of $picture" 0 dot -Tsvg -o "$picture.svg" "$picture.dot"
  done
  printf '%s\n' 'DE1' 'DE7' 'Ann' 'n1: Holder' 'n10: Account' 'n11: Account' '�"é' 'owns' | sort >names.txt
  ends "the names stand in it" 0 test -z "$(comm -23 names.txt <(texts all.svg))"
  ends "signs stand as they are" 0 grep -qxF 'a "b" <i> &lt; \N �é' <(texts signs.svg)
  ends "docs/refused_ring.svg has the names" 0 cmp <(texts ring.svg) <(texts "$here/../docs/refused_ring.svg")
else
  echo "the picture: passed over, graphviz isn't installed"
  passed=1
fi
wait "$kills" || different=1
cat kills.txt
wait "$sql"
found=$?
cat sql.txt
[ "$found" = 77 ] && passed=1
[ "$found" = 0 ] || [ "$found" = 77 ] || different=1
wait "$imports" || different=1
cat imports.txt
[ "$different" = 1 ] && exit 1
[ "$passed" = 0 ] || exit 77
