#!/usr/bin/env bash
# Takes CSV into a guarded store day by day: bad rows, the map of ids, what belongs together, changes and removals, and what was refused. Checks what
# csv-to-lines, ids, verdicts-to-json and rejected give, and what they refuse. Ends with 1 where one differs.
# Usage: examples/imports.sh; with PGGUARD=FILE in the environment this executable is run.
set -u
here=$(cd "$(dirname "$(readlink -f "${BASH_SOURCE[0]}")")" && pwd)
tools="$here/../tools"
program=$(readlink -f "${PGGUARD:-$("$tools/run" --path pgguard)}") || exit 1
# Where python3 is a script that looks for the right one, it does so once, and not for each tool.
PATH=$(dirname "$(python3 -c 'import sys; print(sys.executable)')"):$PATH
work=$(mktemp -d) || exit 1
trap 'rm -rf "$work"' EXIT
cd "$work" || exit 1
different=0
# What is said of a command, whose own output may go into a file.
exec 5>&1

# Says whether a command ended with a status: ends NAME STATUS COMMAND..
ends() {
  local name=$1 wanted=$2 found
  shift 2
  "$@"
  found=$?
  if [ "$found" = "$wanted" ]; then
    echo "$name: as expected" >&5
  else
    echo "$name: different, status $found" >&5
    different=1
  fi
}

# Says whether a command is refused with a status and a line on standard error, and puts nothing: refuses NAME STATUS LINE COMMAND..
refuses() {
  local name=$1 wanted=$2 line=$3 found
  shift 3
  "$@" >put.txt 2>told.txt
  found=$?
  if [ "$found" = "$wanted" ] && [ ! -s put.txt ] && grep -qF -- "$line" told.txt; then
    echo "$name: as expected" >&5
  else
    echo "$name: different, status $found: $(cat told.txt)" >&5
    different=1
  fi
}

# Says whether a command ends with a status and prints what standard input has: prints NAME STATUS COMMAND..
prints() {
  local name=$1 wanted=$2 found
  shift 2
  cat >wanted.txt
  "$@" >put.txt 2>told.txt
  found=$?
  if [ "$found" = "$wanted" ] && cmp -s put.txt wanted.txt; then
    echo "$name: as expected" >&5
  else
    echo "$name: different, status $found: $(cat told.txt; diff put.txt wanted.txt)" >&5
    different=1
  fi
}

lines() {
  "$tools/csv-to-lines" "$@"
}

# Makes a store under a schema that admits all: loose NAME.
loose() {
  echo 'CREATE GRAPH TYPE g LOOSE {};' | "$program" load "$1" >/dev/null
}

# What a store holds: dump NAME.
dump() {
  "$program" recover "$1" </dev/null
}

# The operations that make a store's graph: operations NAME.
operations() {
  dump "$1" | sed '1,/^---$/d'
}

for tool in csv-to-lines ids verdicts-to-json rejected; do
  ends "$tool --help" 0 "$tools/$tool" --help >help.txt
  ends "its usage" 0 grep -q "^usage: $tool" help.txt
done

# Files with a header.
printf 'id,labels,age:int\n1,P,1.5\n' >bad.csv
refuses "a fraction" 1 'bad.csv:2, age: "1.5" is no whole number' lines --nodes bad.csv
printf 'id,labels,age:float\n1,P,1.5\n' >kind.csv
refuses "a kind" 1 'kind.csv:1: the field "age:float" has the kind "float"' lines --nodes kind.csv
printf 'id,labels,name\n1,P,Ann\n1,P,Bob\n' >twice.csv
refuses "an id that stands twice" 1 'twice.csv:3: the id "1" stood before, at twice.csv:2' lines --nodes twice.csv
printf 'id,labels,name\n1,P,A\377n\n' >bytes.csv
refuses "what isn't UTF-8" 1 "bytes.csv:2: isn't UTF-8" lines --nodes bytes.csv
printf 'id,labels,name\n1,P,"Ann\n' >open.csv
refuses "an open quote" 1 'open.csv:2: no CSV' lines --nodes open.csv
refuses "no file" 1 'none.csv: No such file' lines --nodes none.csv
printf 'id,labels,id\n' >second.csv
refuses "a second field of the id" 1 'second.csv:1: the field "id" is a second one of the id' lines --nodes second.csv
printf 'from,to,labels,:START_ID\n' >second.csv
refuses "a second field of an end" 1 'second.csv:1: the field ":START_ID" is a second one of from' lines --edges second.csv
printf 'labels,name\nP,Ann\n' >none_of_them.csv
refuses "no field of the id" 1 'none_of_them.csv:1: no field of the id' lines --nodes none_of_them.csv
printf 'id,labels,from\n1,P,x\n' >ends.csv
refuses "an end in a file of nodes" 1 'ends.csv:1: the field "from" is one of edges' lines --nodes ends.csv
: >empty.csv
refuses "an empty file" 1 'empty.csv: no header' lines --nodes empty.csv
printf 'id,labels\n1,P\n' >one.csv
refuses "no words" 2 'name files' lines

# Each file is read once, so a pipe serves.
echo '{"ops":[{"add_node":1,"labels":["P"],"props":{}}]}' >one_wanted.txt
prints "a pipe" 0 lines --nodes <(cat one.csv) <one_wanted.txt
ends "standard input" 0 lines --nodes - <one.csv >put.txt
ends "gives the same" 0 cmp put.txt one_wanted.txt
refuses "standard input twice" 2 'stands twice' lines --nodes - --edges -
refuses "a fault of it" 1 'standard input:2, age: "1.5"' lines --nodes - <bad.csv

# How cells are written.
printf 'id;labels;born:date;paid;note:float;name\n1;P;3.12.1979;-1.234,56;x;J\374rg\n2;P;29.02.2024;0,5;y;"a\n;b"\n' >forms.csv
prints "forms of cells" 0 lines --nodes forms.csv --delimiter ';' --encoding cp1252 --date-form D.MM.YYYY --cents paid --skip note <<'L'
{"ops":[{"add_node":1,"labels":["P"],"props":{"born":{"date":"1979-12-03"},"name":"Jürg","paid":-123456}},{"add_node":2,"labels":["P"],"props":{"born":{"date":"2024-02-29"},"name":"a\n;b","paid":50}}]}
L
printf 'id\tpaid\n1\t1.234\n2\t1.234,5\n3\t1,234,567\n4\t1.23.4\n5\t1'"'"'000.00\n' >amounts.csv
refuses "an amount with two readings" 1 'amounts.csv:2, paid: "1.234" may have a group or three decimals' lines --nodes amounts.csv --delimiter tab --cents paid
ends "and one that is none" 0 grep -qxF 'csv-to-lines: amounts.csv:5, paid: "1.23.4" is no amount as 1.234,56 or 1234.56' told.txt
ends "the others are amounts" 0 test "$(wc -l <told.txt)" = 2
printf 'id,day:date\n1,31.04.2024\n2,2024-04-30\n' >days.csv
refuses "a day that is none" 1 'days.csv:2, day: "31.04.2024" is no day as DD.MM.YYYY' lines --nodes days.csv --date-form DD.MM.YYYY
refuses "a form of days" 1 '--date-form: "DD.MM"' lines --nodes days.csv --date-form DD.MM
printf '\377\376i\0d\0\n\0001\0\n\0' >two_bytes.csv
ends "an encoding of two bytes a sign" 0 lines --nodes two_bytes.csv --encoding utf-16 >put.txt
printf '\0\330' >>two_bytes.csv
refuses "and what isn't of it" 1 "two_bytes.csv: isn't utf-16" lines --nodes two_bytes.csv --encoding utf-16
refuses "an encoding" 1 '--encoding: "klingon" is no encoding' lines --nodes one.csv --encoding klingon
refuses "a delimiter" 1 '--delimiter: ";;" is no sign' lines --nodes one.csv --delimiter ';;'
refuses "a column that no file has" 1 'no file has the field "note"' lines --nodes one.csv --skip note

# All bad rows are listed, and nothing is put; or the others go on.
printf 'id,labels,born:date,age:int\na,P,1979-02-30,1\nb,P,1980-01-01,\nc,P,x,y\nd,P,,\nd,P,,\n' >people.csv
printf 'from,to,labels,since:date\na,b,k,\nb,c,k,2020-01-01\nb,b,k,2020-13-01\nb,z,k,\nb,b,k,\n' >know.csv
cat >listed_wanted.txt <<'L'
csv-to-lines: people.csv:2, born: "1979-02-30" is no day as 2024-02-29
csv-to-lines: people.csv:4, born: "x" is no day as 2024-02-29
csv-to-lines: people.csv:4, age: "y" is no whole number of 64 bits
csv-to-lines: people.csv:5: the id "d" stands again, at people.csv:6
csv-to-lines: people.csv:6: the id "d" stood before, at people.csv:5
csv-to-lines: know.csv:4, since: "2020-13-01" is no day as 2024-02-29
csv-to-lines: know.csv:5: no node has the id "z"
L
refuses "bad rows" 1 'people.csv:2' lines --nodes people.csv --edges know.csv --map people.map --new-map --new-edges
ends "all are listed" 0 cmp told.txt listed_wanted.txt
ends "and the map isn't made" 1 test -e people.map
prints "--bad lets the others go on" 1 lines --nodes people.csv --edges know.csv --map people.map --new-map --new-edges --bad bad.jsonl <<'L'
{"ops":[{"add_node":1,"labels":["P"],"props":{"born":{"date":"1980-01-01"}}},{"add_edge":1,"from":1,"labels":["k"],"props":{},"to":1}]}
L
ends "says how many" 0 grep -qx 'csv-to-lines: 8 bad rows are in bad.jsonl' told.txt
prints "and has their places, causes and texts" 0 sed -n '2p;5p;8p' bad.jsonl <<'L'
{"file":"people.csv","row":4,"causes":["born: \"x\" is no day as 2024-02-29","age: \"y\" is no whole number of 64 bits"],"text":"c,P,x,y"}
{"file":"know.csv","row":2,"causes":["from: the row of its end \"a\" is bad, at people.csv:2"],"text":"a,b,k,"}
{"file":"know.csv","row":5,"causes":["no node has the id \"z\""],"text":"b,z,k,"}
L
ends "the map has no bad row" 0 test "$(grep -c '"node":' people.map)" = 1
ends "what has a fault in its header ends all" 1 lines --nodes kind.csv --bad bad.jsonl 2>told.txt

# The header of a bulk import, and ids that are no numbers: the map keeps their numbers for the next run.
printf 'personId:ID(P),name,age:long,member:boolean,note:IGNORE,:LABEL\na,Ann,44,TRUE,x,Person;Employee\nb,Bob,,,y,Person\n' >persons.csv
printf ':START_ID(P),:END_ID(P),:TYPE,since:date\na,b,knows,2020-05-01\n' >knows.csv
printf 'personId:ID(P),name,:LABEL\nc,Cyd,Person\n' >more.csv
printf ':START_ID(P),:END_ID(P),:TYPE\nc,a,knows\n' >more_knows.csv
cat >any_wanted.txt <<'L'
{"ops":[{"add_node":1,"labels":["Employee","Person"],"props":{}}]}
{"ops":[{"key":"age","set_node":1,"value":44}]}
{"ops":[{"key":"member","set_node":1,"value":true}]}
{"ops":[{"key":"name","set_node":1,"value":"Ann"}]}
{"ops":[{"key":"personId","set_node":1,"value":"a"}]}
{"ops":[{"add_node":2,"labels":["Person"],"props":{}}]}
{"ops":[{"key":"name","set_node":2,"value":"Bob"}]}
{"ops":[{"key":"personId","set_node":2,"value":"b"}]}
{"ops":[{"add_node":3,"labels":["Person"],"props":{}}]}
{"ops":[{"key":"name","set_node":3,"value":"Cyd"}]}
{"ops":[{"key":"personId","set_node":3,"value":"c"}]}
{"ops":[{"add_edge":1,"from":1,"labels":["knows"],"props":{},"to":2}]}
{"ops":[{"key":"since","set_edge":1,"value":{"date":"2020-05-01"}}]}
{"ops":[{"add_edge":2,"from":3,"labels":["knows"],"props":{},"to":1}]}
L
loose any
refuses "an end that is nowhere" 1 'knows.csv:2: no node has the id "a"' lines --nodes more.csv --edges knows.csv
refuses "a map that isn't there" 1 "ids.map: isn't there: --new-map makes it" lines --nodes persons.csv --map ids.map
refuses "edges that are known by nothing" 1 'knows.csv:1: edges without an id' lines --nodes persons.csv --edges knows.csv --map ids.map --new-map
ends "a new map" 0 lines --nodes persons.csv --edges knows.csv --map ids.map --new-map --new-edges >mapped.txt
ends "for its owner alone" 0 test "$(stat -c %a ids.map)" = 600
refuses "it is made once" 1 'ids.map: is there already' lines --nodes persons.csv --map ids.map --new-map
ends "it goes on" 0 lines --nodes more.csv --edges more_knows.csv --map ids.map --new-edges >>mapped.txt
ends "apply of both" 0 "$program" apply any <mapped.txt >verdicts.txt
ends "the graph of both" 0 cmp any_wanted.txt <(operations any)
# Ids that are numbers stay; with a map others come behind them, as do edges without an id.
printf 'id,labels\n7,P\n9,P\n' >plain.csv
printf 'id,from,to,labels\n,7,9,k\n5,9,12,k\n' >plain_edges.csv
printf 'id,labels\nx,P\n' >other.csv
printf 'from,to,labels\nx,7,k\n' >other_edges.csv
ends "ids that are numbers" 0 lines --nodes plain.csv --edges plain_edges.csv --map plain.map --new-map --new-edges >plain.txt
ends "and others behind them" 0 lines --nodes other.csv --edges other_edges.csv --map plain.map --new-edges >>plain.txt
ends "their numbers" 0 test "$(grep -o '"add_[a-z]*":[0-9]*,\|"from":[0-9]*\|"to":[0-9]*' plain.txt | tr -d '\n' | tr -d '"' | sed 's/add_//g; s/,/ /g')" = \
  "node:7 node:9 edge:6 from:7to:9edge:5 from:9to:12node:13 edge:7 from:13to:7"
printf 'id,from,to,labels\n6,7,9,k\n' >given.csv
refuses "a number that was given" 1 "given.csv:2: the number 6 was given to another edge" lines --edges given.csv --nodes plain.csv --map plain.map

# The file of a map: the form of earlier versions, a torn end, what isn't one, a lock.
echo -n '{"plain": false, "last_node": 2, "last_edge": 1, "nodes": [["P", "a", 1], ["P", "b", 2]]}' >old.map
chmod 640 old.map
ends "a map of the old form" 0 lines --nodes more.csv --edges more_knows.csv --map old.map --new-edges >put.txt
ends "its numbers go on" 0 cmp put.txt <(tail -n 1 mapped.txt)
ends "it has lines then, and its rights" 0 test "$(head -n 1 old.map) $(stat -c %a old.map)" = '{"map":2} 640'
refuses "edges that it doesn't know" 1 'old.map: has edges that are known by nothing' lines --nodes more.csv --edges knows.csv --map old.map --edge-id from,to
cp ids.map torn.map
echo -n '{"node":9,"id":"to' >>torn.map
ends "a torn line is cut off" 0 lines --nodes other.csv --map torn.map >put.txt
ends "and the next one stands whole" 0 cmp torn.map <(cat ids.map; echo '{"node":4,"id":"x"}')
cp ids.map noted.map
echo '{"node":9,"id":7}' >>noted.map
refuses "a line that is none" 1 'noted.map:10: is no line of a map of ids' lines --nodes other.csv --map noted.map
refuses "a file that is no map" 1 'people.csv:1: is no map of ids' lines --nodes other.csv --map people.csv
ends "and stays as it is" 0 grep -q '^d,P' people.csv
cp ids.map given.map
echo '{"node":3,"id":"q"}' >>given.map
refuses "a number that stands twice" 1 'given.map:10: is no line of a map of ids' lines --nodes other.csv --map given.map
mkfifo pipe.map
refuses "a pipe is no map" 1 'pipe.map: is no regular file' lines --nodes other.csv --map pipe.map
mkfifo held.fifo
lines --nodes held.fifo --map ids.map >held.txt &
holder=$!
exec 3>held.fifo
for _ in $(seq 1 200); do
  flock -n ids.map true || break
  sleep 0.05
done
refuses "a map that another run has" 1 'ids.map: is locked by another run' lines --nodes more.csv --map ids.map
cat more.csv >&3
exec 3>&-
wait "$holder"
ends "which goes on" 0 grep -q '"add_node":3' held.txt
dump any >any.txt
printf 'id,labels\nx,P\n7,P\n' >others.csv
ends "numbers above a store's" 0 lines --nodes others.csv --map above.map --new-map --from any.txt >put.txt
ends "for all ids" 0 test "$(grep -o '"add_node":[0-9]*' put.txt | tr '\n' ' ')" = '"add_node":4 "add_node":5 '

# Edges that have no id are known by their labels and some fields.
printf 'id,labels\nDE1,Account\nDE2,Account\n' >accounts.csv
printf 'from,to,labels,day:date,cents:int\nDE1,DE2,pays,2024-05-01,500\nDE1,DE2,pays,2024-05-02,500\n' >pays.csv
loose paid
ends "--edge-id" 0 lines --nodes accounts.csv --edges pays.csv --map paid.map --new-map --edge-id from,to,day >paid.txt
ends "the same again" 0 lines --nodes accounts.csv --edges pays.csv --map paid.map >again.txt
ends "has the same numbers" 0 cmp paid.txt again.txt
refuses "other fields" 1 'paid.map: keeps from,to,day as what edges are known by, and not from,to' lines --edges pays.csv --map paid.map --edge-id from,to
refuses "or none" 1 'paid.map: keeps from,to,day as what edges are known by: --new-edges' lines --edges pays.csv --map paid.map --new-edges
refuses "a field that is nowhere" 1 '--edge-id: no file of edges has the field "dya"' lines --edges pays.csv --nodes accounts.csv --map fresh.map --new-map --edge-id from,dya
printf 'from,to,labels,day:date\nDE1,DE2,pays,2024-05-03\nDE2,DE1,pays,2024-05-03\nDE1,DE2,pays,2024-05-03\n' >pay_twice.csv
refuses "two of one identity" 1 'pay_twice.csv:4: an edge of these labels and from, to, day stood before, at pay_twice.csv:2' lines --edges pay_twice.csv --map paid.map
ends "both are named" 0 grep -qF 'pay_twice.csv:2: an edge of these labels and from, to, day stands again, at pay_twice.csv:4' told.txt

# What belongs together is one transaction.
cat >schema.txt <<'L'
CREATE GRAPH TYPE bank STRICT {
  (holder: Holder {id STRING, name STRING}),
  (account: Account & Checked? {id STRING, iban STRING, OPTIONAL limit INT}),
  (:holder)-[owning: owns]->(:account),
  (:account)-[paying: pays {day DATE, cents INT}]->(:account),
  FOR (a:Account) IDENTIFIER a.iban,
  FOR (a:Account) MANDATORY SINGLETON h WITHIN (a)<-[:owns]-(h)
};
L
printf 'id:ID(H),name,labels\nann,Ann,Holder\nbob,Bob,Holder\n' >holders.csv
printf 'id:ID(A),iban,limit:int,labels\na1,DE1,100,Account;Checked\na2,DE2,,Account\na3,DE1,,Account\n' >accounts.csv
printf ':START_ID(H),:END_ID(A),:TYPE\nann,a1,owns\nbob,a2,owns\nbob,a3,owns\n' >owns.csv
printf ':START_ID(A),:END_ID(A),:TYPE,day:date,cents:int\na1,a2,pays,2024-05-01,500\n' >pays.csv
"$program" load bank <schema.txt >/dev/null
day() {
  lines --nodes holders.csv accounts.csv --edges owns.csv pays.csv --map bank.map --edge-id from,to,day --group owns.csv "$@"
}
ends "--group" 0 day --new-map --rows rows.jsonl >day.txt
ends "apply of its parts" 1 "$program" apply bank <day.txt >verdicts.txt
prints "one duplicate refuses its part alone" 0 cat verdicts.txt <<'L'
1 committed 1
2 refused 29 key 1: n3 and n5 share ("DE1")
3 refused 23 op 1: no node n4
L
refuses "a file that isn't one of edges" 2 '--group names files of --edges' lines --nodes holders.csv --group holders.csv
prints "verdicts as JSON" 0 "$tools/verdicts-to-json" verdicts.txt --rows rows.jsonl <<'L'
{"line":1,"verdict":"committed","commit":1}
{"line":2,"verdict":"refused","number":29,"text":"key 1: n3 and n5 share (\"DE1\")","key":1,"elements":["n3","n5"],"tuples":[["DE1"]],"rows":[{"element":"n3","file":"accounts.csv","row":2},{"element":"n5","file":"accounts.csv","row":4}]}
{"line":3,"verdict":"refused","number":23,"text":"op 1: no node n4","op":1,"elements":["n4"],"rows":[{"element":"e4","file":"pays.csv","row":2}]}
L
prints "with the input" 0 sh -c '"$0" --lines "$1" <verdicts.txt | sed -n 3p' "$tools/verdicts-to-json" day.txt <<'L'
{"line":3,"verdict":"refused","number":23,"text":"op 1: no node n4","op":1,"elements":["n4"],"input":"{\"ops\":[{\"add_edge\":4,\"from\":3,\"labels\":[\"pays\"],\"props\":{\"cents\":500,\"day\":{\"date\":\"2024-05-01\"}},\"to\":4}]}"}
L
prints "with ids" 0 "$tools/ids" --map bank.map --verdicts verdicts.txt <<'L'
1 committed 1
2 refused 29 key 1: n3 A "a1" and n5 A "a3" share ("DE1")
3 refused 23 op 1: no node n4 A "a2"
L
ends "rejected" 0 "$tools/rejected" day.txt verdicts.txt >rejected.txt
ends "gives what was refused" 0 cmp rejected.txt <(tail -n 2 day.txt)
head -n 2 verdicts.txt >stopped.txt
echo -n '3 comm' >>stopped.txt
ends "lines that have no verdict" 0 "$tools/rejected" day.txt stopped.txt --undecided undecided.txt >rejected.txt
ends "are given apart" 0 cmp <(cat rejected.txt undecided.txt) <(tail -n 2 day.txt)
ends "or are told" 1 "$tools/rejected" day.txt stopped.txt >rejected.txt 2>told.txt
ends "from which on" 0 grep -qx 'rejected: day.txt: 1 lines from line 3 on have no verdict: --undecided FILE takes them' told.txt
sed 1d verdicts.txt >others.txt
refuses "verdicts that lack one" 1 'others.txt:1: the verdict of line 1 is wanted' "$tools/rejected" day.txt others.txt
ends "verdicts of another input" 1 "$tools/rejected" one.csv verdicts.txt >rejected.txt 2>told.txt
ends "which line it lacks" 0 grep -qx "rejected: verdicts.txt:3: one.csv has no line 3 that isn't blank" told.txt
printf 'violation 28 key 2: n1 has (n2, "a) and (b\\u0001\302\233") and (e7, true, -5, 2024-02-29)\nschema refused 12 no graph type\n4 refused 39 key 1: e10 has 4 values, outside 1..3\nfeeds lost=1\n' >said.txt
prints "violations as JSON" 0 "$tools/verdicts-to-json" said.txt <<'L'
{"verdict":"violation","number":28,"text":"key 2: n1 has (n2, \"a) and (b\\u0001\u009b\") and (e7, true, -5, 2024-02-29)","key":2,"elements":["n1"],"tuples":[[{"element":"n2"},"a) and (b\u0001\u009b"],[{"element":"e7"},true,-5,{"date":"2024-02-29"}]]}
{"verdict":"schema refused","number":12,"text":"no graph type"}
{"line":4,"verdict":"refused","number":39,"text":"key 1: e10 has 4 values, outside 1..3","key":1,"count":4,"least":1,"most":3,"elements":["e10"]}
L
refuses "what is no verdict" 1 'day.txt:1: is no verdict' "$tools/verdicts-to-json" day.txt

# The next day: what stands in the store is told by its dump, and what differs is changed.
printf 'id:ID(A),iban,limit:int,labels\na1,DE1,,Account\na2,DE2,50,Account\na3,DE3,,Account\n' >accounts.csv
dump bank >bank.txt
ends "--update" 0 day --update --from bank.txt --labels Checked >update.txt 2>counts.txt
prints "its counts" 0 cat counts.txt <<'L'
csv-to-lines: 6 added, 1 changed, 0 removed
L
prints "its lines" 0 cat update.txt <<'L'
{"ops":[{"add_node":2,"labels":["Holder"],"props":{"id":"bob","name":"Bob"}},{"add_node":4,"labels":["Account"],"props":{"iban":"DE2","id":"a2","limit":50}},{"add_node":5,"labels":["Account"],"props":{"iban":"DE3","id":"a3"}},{"add_edge":2,"from":2,"labels":["owns"],"props":{},"to":4},{"add_edge":3,"from":2,"labels":["owns"],"props":{},"to":5}]}
{"ops":[{"key":"limit","unset_node":3},{"label":"Checked","unlabel_node":3}]}
{"ops":[{"add_edge":4,"from":3,"labels":["pays"],"props":{"cents":500,"day":{"date":"2024-05-01"}},"to":4}]}
L
ends "apply of an update" 0 "$program" apply bank <update.txt >verdicts.txt
dump bank >bank.txt
ends "an update of what stands" 0 day --update --from bank.txt --labels Checked >update.txt 2>counts.txt
ends "is nothing" 0 test ! -s update.txt
printf 'id:ID(A),iban\na1,DE1\na2,DE2\na3,DE3\n' >fewer.csv
ends "columns that a file lacks" 0 lines --nodes holders.csv fewer.csv --map bank.map --update --from bank.txt --labels Account >update.txt 2>counts.txt
ends "stay as they are" 0 test ! -s update.txt
printf 'id,from,to,labels\n4,1,2,pays\n' >moved.csv
refuses "an edge whose ends differ" 1 'moved.csv:2: e4 goes from n3 to n4 in the store, and here from n1 to n2' lines --edges moved.csv --update --from bank.txt
printf ':START_ID(H),:END_ID(A),:TYPE\nbob,a9,owns\n' >nowhere.csv
ends "a row that the store refused" 0 lines --nodes <(printf 'id:ID(A),iban,labels\na9,DE9,Account\n') --map bank.map --edges owns.csv >put.txt
refuses "stands in the map, and not in the store" 1 'nowhere.csv:2, to: the node "a9" stands neither in the store nor in these files' \
  lines --edges nowhere.csv --map bank.map --update --from bank.txt
refuses "--update of texts without a map" 1 '--update: needs --map FILE' lines --nodes holders.csv --update --from bank.txt
refuses "--update without a dump" 2 '--update needs --from DUMP' lines --nodes holders.csv --update

# Ids that are their own numbers need no map; true isn't 1, and an edge without an id is a new one where that is said.
printf '{"ops":[{"add_node":1,"labels":["P"],"props":{"a":1,"b":1,"c":"x"}},{"add_edge":3,"from":1,"to":1}]}\n' >values.txt
printf 'id,a:bool,b:int,c,d:date\n1,true,1,,2020-01-01\n' >values.csv
printf 'from,to,labels\n1,1,k\n' >loop.csv
prints "values of another kind differ" 0 lines --nodes values.csv --edges loop.csv --update --new-edges --from values.txt <<'L'
{"ops":[{"key":"a","set_node":1,"value":true},{"key":"c","unset_node":1},{"key":"d","set_node":1,"value":{"date":"2020-01-01"}},{"add_edge":4,"from":1,"labels":["k"],"props":{},"to":1}]}
L
refuses "an edge that may be there" 1 'loop.csv:1: edges without an id' lines --edges loop.csv --update --from values.txt

# What is gone.
printf 'id:ID(A),iban,limit:int,labels\na1,DE1,,Account\n' >accounts.csv
printf ':START_ID(H),:END_ID(A),:TYPE\nbob,a1,owns\n' >owns.csv
printf 'id:ID(H),name,labels\nbob,Bob,Holder\n' >holders.csv
printf ':START_ID(A),:END_ID(A),:TYPE,day:date,cents:int\na1,a2,pays,2024-05-01,500\n' >pays.csv
gone() {
  day --update --from bank.txt --delete "$@"
}
refuses "a removal that leaves an edge" 1 'the node "a2" (n4) still has edge e4' gone A H owns
refuses "more than may go" 1 '--delete: 6 elements would be removed, at most 5 may be' gone A H owns --delete-most 5
refuses "a kind that is nowhere" 1 '--delete: no id space and no label is "Acount"' gone Acount
printf ':START_ID(A),:END_ID(A),:TYPE,day:date,cents:int\na2,a1,pays,2024-05-01,500\n' >pays.csv
refuses "an edge at what is gone" 1 'pays.csv:2: the node "a2" (n4) is taken away by --delete' gone A H owns pays
printf ':START_ID(A),:END_ID(A),:TYPE,day:date,cents:int\na1,a1,pays,2024-05-99,500\n' >pays.csv
ends "with bad rows nothing goes" 1 gone A H owns pays --bad bad.jsonl >put.txt 2>counts.txt
ends "which is told" 0 grep -qx 'csv-to-lines: nothing is removed, since rows are bad' counts.txt
sed -i 2d pays.csv
ends "an owner that changes, and what is gone" 0 gone A H owns pays >update.txt 2>counts.txt
prints "its counts" 0 cat counts.txt <<'L'
csv-to-lines: 1 added, 0 changed, 7 removed
L
prints "edges go first" 0 cat update.txt <<'L'
{"ops":[{"remove_edge":4}]}
{"ops":[{"remove_edge":1},{"remove_edge":2},{"remove_edge":3},{"remove_node":1},{"remove_node":4},{"remove_node":5},{"add_edge":5,"from":2,"labels":["owns"],"props":{},"to":3}]}
L
ends "apply of it" 0 "$program" apply bank <update.txt >verdicts.txt
prints "what is left" 0 operations bank <<'L'
{"ops":[{"add_node":2,"labels":["Holder"],"props":{}}]}
{"ops":[{"key":"id","set_node":2,"value":"bob"}]}
{"ops":[{"key":"name","set_node":2,"value":"Bob"}]}
{"ops":[{"add_node":3,"labels":["Account"],"props":{}}]}
{"ops":[{"key":"iban","set_node":3,"value":"DE1"}]}
{"ops":[{"key":"id","set_node":3,"value":"a1"}]}
{"ops":[{"add_edge":5,"from":2,"labels":["owns"],"props":{},"to":3}]}
L
# The same without parts, and an import that is of nothing.
printf 'id:ID(A),labels\n' >accounts.csv
printf ':START_ID(H),:END_ID(A),:TYPE\n' >owns.csv
dump bank >bank.txt
prints "removals in one line" 0 lines --nodes accounts.csv --edges owns.csv --map bank.map --update --from bank.txt --delete owns Account <<'L'
{"ops":[{"remove_edge":5},{"remove_node":3}]}
L
refuses "a file that would be written over" 2 'people.csv would be written over' lines --nodes people.csv --bad ./people.csv
# A part that no line can hold.
{ echo 'id,labels'; seq -f 'a%.0f,A' 1 5000; } >many.csv
{ echo 'from,to,labels'; seq -f 'a1,a%.0f,k' 1 5001; } >hub.csv
sed -i '$d' hub.csv
echo 'a1,a2,l' >>hub.csv
refuses "a part of too many operations" 1 'many.csv:2: what belongs together from here on has 10001 operations and 531748 bytes' \
  lines --nodes many.csv --edges hub.csv --group hub.csv --map many.map --new-map --new-edges
ends "no map is made" 1 test -e many.map
sed -i '$d' hub.csv
ends "and one that a line holds" 0 lines --nodes many.csv --edges hub.csv --group hub.csv >many.txt
ends "is one line" 0 test "$(wc -l <many.txt)" = 1
ends "in which there is no part" 0 lines --nodes one.csv plain.csv --edges given.csv --group given.csv >put.txt
ends "but parts and an edge" 0 test "$(wc -l <put.txt)" = 2

# Transactions whose ids are texts, as they come.
cat >texts.txt <<'L'
{"ops":[{"add_node":"ann","labels":["P"],"props":{"id":"ann"}},{"add_node":["Q","ann"],"props":{"tag":7}},{"add_edge":"e-1","from":"ann","to":["Q","ann"],"labels":["k"]}]}

{"ops":[{"set_node":"ann","key":"age","value":5},{"unset_edge":"e-1","key":"x"},{"remove_edge":"e-1"}]}
L
cat >numbers_wanted.txt <<'L'
{"ops":[{"add_node":1,"labels":["P"],"props":{"id":"ann"}},{"add_node":2,"props":{"tag":7}},{"add_edge":1,"from":1,"labels":["k"],"to":2}]}
{"ops":[{"key":"age","set_node":1,"value":5},{"key":"x","unset_edge":1},{"remove_edge":1}]}
L
refuses "ids without a map" 1 'texts.map: isn'"'"'t there' "$tools/ids" --map texts.map texts.txt
prints "ids" 0 "$tools/ids" --map texts.map --new-map texts.txt <numbers_wanted.txt
prints "the same ids again" 0 "$tools/ids" --map texts.map texts.txt <numbers_wanted.txt
printf '{"ops":[{"add_node":"bob"}]}\n{"ops":[{"set_node":"cyd","key":"age","value":5}]}\n' >unknown.txt
ends "an id that is nowhere" 1 "$tools/ids" --map texts.map unknown.txt >put.txt 2>told.txt
ends "what stood before is put" 0 test "$(cat put.txt told.txt)" = '{"ops":[{"add_node":3}]}
ids: unknown.txt:2: no node has the id "cyd"'
echo '{"ops":[{"add_node":5}]}' >unknown.txt
refuses "an id that is no text" 1 'unknown.txt:1: 5 is no id' "$tools/ids" --map texts.map unknown.txt
refuses "what is no transaction" 1 'one.csv:1: no JSON' "$tools/ids" --map texts.map one.csv
# A line comes out before the next one is there, and the reader of verdicts has the map meanwhile.
loose live
mkfifo live.fifo
"$tools/ids" --map live.map --new-map <live.fifo | "$program" apply live | "$tools/ids" --map live.map --verdicts >live.txt &
exec 3>live.fifo
echo '{"ops":[{"add_node":"ann"}]}' >&3
for _ in $(seq 1 200); do
  [ -s live.txt ] && break
  sleep 0.05
done
ends "a stream" 0 test "$(cat live.txt)" = '1 committed 1'
echo '{"ops":[{"add_node":"bob"},{"remove_node":"ann"},{"set_node":"bob","key":"k","value":true},{"remove_node":"ann"}]}' >&3
exec 3>&-
wait
ends "its refusal has the id" 0 test "$(tail -n 1 live.txt)" = '2 refused 23 op 4: no node n1 "ann"'
# A map that was lost.
"$program" apply any <<'L' >verdicts.txt
{"ops":[{"add_edge":3,"from":1,"to":2,"labels":["knows"],"props":{"since":{"date":"2020-05-01"}}}]}
L
dump any >any.txt
refuses "edges that are one" 1 'any.txt: e3 has the labels and from, since of another edge' \
  "$tools/ids" --map again.map --new-map --from any.txt --key 'personId:ID(P)' --edge-id from,since
ends "no map is made" 1 test -e again.map
ends "a map again" 0 "$tools/ids" --map again.map --new-map --from any.txt --key 'personId:ID(P)'
ends "has the ids" 0 cmp <(grep '"space"' ids.map) <(grep '"space"' again.map)
ends "and goes on" 0 lines --nodes <(printf 'id:ID(P)\nd\na\n') --map again.map >put.txt
ends "above the store" 0 test "$(grep -o '"add_node":[0-9]*' put.txt | tr '\n' ' ')" = '"add_node":4 "add_node":1 '
ends "each id its own number" 0 "$tools/ids" --map own.map --new-map --from any.txt
ends "goes on so" 0 lines --nodes <(printf 'id,labels\n3,P\n8,P\n') --map own.map >put.txt
ends "with the same numbers" 0 grep -q '"add_node":3.*"add_node":8' put.txt
refuses "--key without a new map" 2 '--key needs --from and --new-map' "$tools/ids" --map again.map --from any.txt --key personId
echo '{"ops":[{"remove_edge":3}]}' | "$program" apply any >verdicts.txt
dump any >any.txt
ends "ids of one label alone" 0 "$tools/ids" --map label.map --new-map --from any.txt --key Employee.personId --edge-id from,to,since
ends "the others have none" 0 test "$(grep -c '"id":' label.map) $(grep -c '"values":' label.map)" = "1 2"
ends "what the edges of an old map are known by" 0 "$tools/ids" --map old.map --from any.txt --edge-id from,to
ends "from then on" 0 lines --nodes persons.csv --edges knows.csv --map old.map >put.txt
ends "the edges are known" 0 grep -qF '{"add_edge":1,"from":1,' put.txt
# A person is forgotten; the number stays used.
refuses "an id that isn't there" 1 'paid.map: no node has the id "ann"' "$tools/ids" --map paid.map --forget ann
refuses "an id in two spaces" 1 'texts.map: the id "ann" stands in several spaces, ["", "Q"]: --space SPACE says which' "$tools/ids" --map texts.map --forget ann
ends "--forget" 0 "$tools/ids" --map paid.map --forget DE2
ends "takes out the id and the edges that name it" 1 grep -q 'DE2\|2024-05' paid.map
ends "a new number comes then" 0 lines --nodes <(printf 'id,labels\nDE2,Account\n') --map paid.map >put.txt
ends "and no earlier one" 0 grep -qF '"add_node":3' put.txt
[ "$different" = 0 ]
