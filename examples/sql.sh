#!/usr/bin/env bash
# Takes a feed and a dump of a store into PostgreSQL by tools/feed-to-sql, tools/dump-to-sql and tools/schema-to-sql, and asks there what pgguard doesn't answer. It starts a
# server of its own in a folder of its own, on a socket alone. Ends with 1 where something differs, and with 77 where no server is installed.
# Usage: examples/sql.sh, with PGGUARD=EXECUTABLE to try another one than `pgguard` runs
set -u
here=$(cd "$(dirname "$(readlink -f "${BASH_SOURCE[0]}")")" && pwd)
tools="$here/../tools"
. "$here/postgres.sh"
if [ -z "$(server_programs)" ]; then
  echo "sql: passed over, PostgreSQL isn't installed"
  exit 77
fi
program=$(readlink -f "${PGGUARD:-$("$tools/run" --path pgguard)}") || exit 1
work=$(mktemp -d) || exit 1
chmod 755 "$work"
trap 'stop_server; rm -rf "$work"' EXIT
start_server "$work/base" || exit 1
cd "$work" || exit 1
different=0

sql() {
  psql -q -v ON_ERROR_STOP=1 "$@"
}

# Says whether a command prints what is wanted: prints NAME WANTED COMMAND..
prints() {
  local name=$1 wanted=$2 found
  shift 2
  found=$("$@" 2>&1)
  if [ "$found" = "$wanted" ]; then
    echo "$name: as expected"
  else
    echo "$name: different: $found"
    different=1
  fi
}

# The tables' content: each node and edge with all that it carries, and the last commit's number.
content() {
  sql -At -c "SELECT id, labels, props FROM graph_node ORDER BY id" -c "SELECT id, source, target, labels, props FROM graph_edge ORDER BY id" \
    -c "SELECT last FROM graph_commit"
}

# Gives a feed to the tool and its statements to the server, and prints the two statuses; what they say goes into told.txt.
give() {
  "$tools/feed-to-sql" "$1" 2>tool.txt | sql 2>server.txt
  echo "${PIPESTATUS[*]}"
  cat tool.txt server.txt >told.txt
}

# The N-th question of docs/RECIPES.md.
question() {
  awk -v wanted="$1" '/^```sql$/ { inside = ++count == wanted; next } /^```/ { inside = 0 } inside' "$here/../docs/RECIPES.md"
}

cat >schema.txt <<'L'
CREATE NODE TYPE (holder: Holder & Checked? {name STRING, OPTIONAL born DATE});
CREATE NODE TYPE (account: Account {iban STRING});
CREATE NODE TYPE (part: Part {name STRING});
CREATE EDGE TYPE (:holder)-[owning: owns & Sole? {OPTIONAL share INT}]->(:account);
CREATE EDGE TYPE (:part)-[supplying: supplies]->(:part);
CREATE GRAPH TYPE bank STRICT {holder, account, part, owning, supplying, FOR (a:Account) IDENTIFIER a.iban};
L
cat >lines.txt <<'L'
{"ops":[{"add_node":1,"labels":["Holder"],"props":{"name":"Ann O'Hara \\ \"é\"\n"}},{"add_node":2,"labels":["Holder"],"props":{"name":"Bob"}},{"add_node":10,"labels":["Account"],"props":{"iban":"DE1"}},{"add_node":11,"labels":["Account"],"props":{"iban":"DE2"}}]}
{"ops":[{"add_edge":1,"from":1,"to":10,"labels":["owns"]},{"add_edge":2,"from":2,"to":10,"labels":["owns","Sole"],"props":{"share":-9223372036854775808}},{"add_edge":5,"from":1,"to":11,"labels":["owns"]}]}
{"ops":[{"add_node":20,"labels":["Part"],"props":{"name":"car"}},{"add_node":21,"labels":["Part"],"props":{"name":"engine"}},{"add_node":22,"labels":["Part"],"props":{"name":"bolt $pgguard$"}},{"add_edge":3,"from":21,"to":20,"labels":["supplies"]},{"add_edge":4,"from":22,"to":21,"labels":["supplies"]}]}
{"ops":[{"add_node":18446744073709551615,"labels":["Part"],"props":{"name":"last"}},{"add_node":18446744073709551614,"labels":["Part"],"props":{"name":"kept"}}]}
{"ops":[{"detach_node":18446744073709551615},{"set_node":2,"key":"name","value":"Bob Jones"},{"set_node":2,"key":"born","value":{"date":"1980-07-02"}}]}
{"ops":[{"label_node":2,"label":"Checked"},{"label_node":2,"label":"Checked"},{"set_node":1,"key":"born","value":{"date":"1979-03-14"}},{"label_edge":1,"label":"Sole"},{"set_edge":1,"key":"share","value":7}]}
{"ops":[{"unlabel_edge":1,"label":"Sole"},{"unset_edge":1,"key":"share"},{"unset_node":1,"key":"born"},{"add_node":12,"labels":["Account"],"props":{"iban":"DE3"}},{"remove_node":12},{"remove_edge":2},{"add_edge":2,"from":2,"to":10,"labels":["owns"],"props":{"share":1}}]}
L
{ "$program" load bank <schema.txt && "$program" apply bank feed.jsonl <lines.txt; } >verdicts.txt || exit 1
"$program" recover bank >dump.txt </dev/null

# A feed that is cut between two lines, then one that is cut in the middle of a line, then whole, and once more: the tables are the dump's.
head -n 2 feed.jsonl >front.jsonl
prints "the front of a feed" "0 0" give front.jsonl
head -c -9 feed.jsonl >torn.jsonl
prints "a feed that is cut in the middle of its last line" "1 3" give torn.jsonl
prints "is told with its place" "2" grep -c 'torn.jsonl:7: torn' told.txt
prints "what stands before was taken" 6 sql -At -c "SELECT last FROM graph_commit"
prints "the whole feed" "0 0" give feed.jsonl
content >fed.txt
prints "once more" "0 0" give feed.jsonl
content >twice.txt
commits=$("$tools/store-info" bank | sed -n 's/^commits: \([0-9]*\),.*/\1/p')
"$tools/dump-to-sql" --commit "$commits" dump.txt | sql
content >dumped.txt
prints "a feed taken twice gives the dump's tables" "" diff twice.txt dumped.txt
prints "and once gives them" "" diff fed.txt dumped.txt
prints "its last commit" 7 sql -At -c "SELECT last FROM graph_commit"
prints "an id of twenty digits" 18446744073709551614 sql -At -c "SELECT id FROM graph_node WHERE props ->> 'name' = 'kept'"

# Killed at any place, and given again: statements that end anywhere.
"$tools/feed-to-sql" feed.jsonl >feed.sql
size=$(stat -c %s feed.sql)
sql -c "TRUNCATE graph_node, graph_edge, graph_commit"
for part in 2 3 4 5; do
  head -c $((size * part / 6)) feed.sql | sql 2>/dev/null
done
sql -f feed.sql
content >killed.txt
prints "who is killed goes on" "" diff killed.txt dumped.txt

# A gap, lines that are none, and a text that PostgreSQL doesn't take raise an error and change nothing.
printf '{"commit":9,"ops":[{"add_node":5,"labels":[],"props":{}}]}\n{"commit":8,"ops":[]}\n' >gap.jsonl
prints "a gap" 3 sh -c "'$tools/feed-to-sql' gap.jsonl 2>tool.txt | psql -q -v ON_ERROR_STOP=1 2>told.txt; echo \$?"
prints "is told" 1 grep -c 'expected commit 8, found 9' told.txt
printf '{"commit":8,"ops":[{"add_no' >torn.jsonl
prints "a torn line" "1 3" give torn.jsonl
printf '{"commit":8,"ops":[{"add_no{"commit":9,"ops":[]}\n' >glued.jsonl
prints "a line behind a torn one" "1 3" give glued.jsonl
printf '{"commit":8,"ops":[{"add_node":7,"labels":["Part"],"props":{}},{"set_node":1,"key":"name","value":"a\\u0000b"}]}\n' >zero.jsonl
prints "a text with U+0000" "1 3" give zero.jsonl
prints "is told with line, element and key" 1 grep -c '^feed-to-sql: zero.jsonl:1: n1, name: a text with U+0000' told.txt
content >after.txt
prints "and nothing changed" "" diff dumped.txt after.txt
"$tools/feed-to-sql" zero.jsonl 2>/dev/null >zero.sql
prints "nothing of that commit is written" 0 grep -c 'INSERT INTO graph_node' zero.sql
printf 'CREATE GRAPH TYPE g LOOSE {};\n---\n{"ops":[{"add_edge":7,"from":1,"labels":[],"props":{"k":"\\u0000"},"to":1}]}\n' >zero.txt
"$tools/dump-to-sql" --commit 1 zero.txt >zero.sql 2>told.txt
prints "a dump with U+0000 ends it" "1" echo $?
prints "with line, element and key" 1 grep -c '^dump-to-sql: zero.txt:3: e7, k: a text with U+0000' told.txt
prints "before anything" 0 grep -c '' zero.sql

# Views of a schema: twice the same; a column a property, of the kind that types give it; a property that bears the name of a column; labels of nodes and edges.
long=$(printf 'L%.0s' $(seq 64))
cat >views.txt <<L
CREATE NODE TYPE ABSTRACT (numbered: A {k INT});
CREATE NODE TYPE ABSTRACT (named: B? {k STRING});
CREATE NODE TYPE (thing: Thing & (numbered | named) {id STRING, OPTIONAL day DATE, OPTIONAL ok BOOL, n INT});
CREATE NODE TYPE (\`GRAPH\`: payer & $long {\`null\` DATE});
CREATE NODE TYPE (payer: pays {OPEN});
CREATE EDGE TYPE (:thing)-[dated {day DATE}]->(:thing | \`GRAPH\`);
CREATE EDGE TYPE (:thing)<-[paying: dated & pays]-(:thing);
CREATE GRAPH TYPE base LOOSE {paying, FOR (x:Thing {ok: TRUE})-[:pays {day: DATE '2024-02-29'}]->() COUNT 0..5 OF y.id, f WITHIN (x)<-[f:pays]-(y)};
CREATE GRAPH TYPE g LOOSE IMPORTS base {thing, \`GRAPH\`, dated, FOR (x:Thing) EXCLUSIVE, SINGLETON x.n, x.other};
L
prints "a schema that pgguard takes" "loaded types=4 keys=2" "$program" load views <views.txt
prints "views of a schema" "" sh -c "'$tools/schema-to-sql' views.txt | psql -q -v ON_ERROR_STOP=1"
printf 'CREATE GRAPH TYPE g LOOSE {};\n---\n' >views_dump.txt
cat >>views_dump.txt <<L
{"ops":[{"add_node":1,"labels":["A","Thing"],"props":{"id":"x","day":{"date":"0001-02-03"},"ok":true,"n":-9223372036854775808,"k":5}}]}
{"ops":[{"add_node":2,"labels":["B","Thing"],"props":{"id":5,"k":"5","n":"many","day":7}},{"add_node":3,"labels":["pays","$long"],"props":{"null":{"date":"2024-02-29"}}}]}
{"ops":[{"add_edge":1,"from":1,"to":2,"labels":["pays"],"props":{"day":{"date":"2024-02-29"}}}]}
L
"$tools/dump-to-sql" --commit 7 views_dump.txt | sql
prints "a view of nodes, also of kinds that its type doesn't have" '1|{A,Thing}|0001-02-03|x|5|-9223372036854775808|t
2|{B,Thing}|||"5"||' sql -At -c 'SELECT * FROM labels."Thing" ORDER BY id'
prints "its columns" 'id numeric, labels ARRAY, day date, props.id text, k jsonb, n bigint, ok boolean' sql -At -c "SELECT string_agg(column_name || ' ' || data_type, ', ' ORDER BY ordinal_position) FROM information_schema.columns WHERE table_name = 'Thing'"
prints "a label beside others has its own properties" 5 sql -At -c 'SELECT k + 0 FROM labels."A"'
prints "a view of edges whose label nodes have too" '1|1|2|{pays}|2024-02-29' sql -At -c 'SELECT * FROM labels."pays (edge)"'
prints "a name that is too long" '2024-02-29' sql -At -c "SELECT \"null\" FROM labels.\"${long%L}\""
prints "all views" "A|B|${long%L}|Thing|pays|pays (edge)" sql -At -c "SELECT string_agg(viewname, '|' ORDER BY viewname COLLATE \"C\") FROM pg_views WHERE schemaname = 'labels'"
prints "an index for each property that keys look at" 'btree day|hash id|btree n|btree ok|hash other' sql -At -c "SELECT string_agg(substring(indexdef FROM 'USING ([a-z]+)') || ' ' || substring(indexdef FROM 'props -> ''([a-z]+)'), '|' ORDER BY substring(indexdef FROM 'props -> ''([a-z]+)')) FROM pg_indexes WHERE starts_with(indexname, 'graph_key_')"
prints "which a question to a view takes" 1 sh -c "psql -qAt -c 'SET enable_seqscan = off' -c 'EXPLAIN SELECT * FROM labels.\"Thing\" WHERE n = 5' | grep -c 'Index Scan.*graph_key_'"
"$tools/schema-to-sql" schema.txt | sql
prints "another schema's views" "Account|Checked|Holder|Part|Sole|owns|supplies" sql -At -c "SELECT string_agg(viewname, '|' ORDER BY viewname COLLATE \"C\") FROM pg_views WHERE schemaname = 'labels'"
sql -c 'CREATE SCHEMA mine'
prints "a schema that is somebody's" "3" sh -c "'$tools/schema-to-sql' --in mine schema.txt | psql -q 2>told.txt; echo \$?"
prints "is told" 1 grep -c 'the schema mine is there already' told.txt
"$tools/dump-to-sql" --commit "$commits" dump.txt | sql
prints "a view of the dump" "DE1|DE2" sql -At -c 'SELECT string_agg(iban, $$|$$ ORDER BY iban) FROM labels."Account"'

# A dump is copied, a row an element, and one that ends anywhere changes nothing.
"$tools/dump-to-sql" --commit "$commits" dump.txt >dump.sql
prints "a row an element" "2 1" sh -c 'echo $(grep -c "^COPY" dump.sql) $(grep -c "^UPDATE" dump.sql)'
sql -c "DELETE FROM graph_edge WHERE id = 5"
content >before.txt
size=$(stat -c %s dump.sql)
for part in 2 3 4 5; do
  head -c $((size * part / 6)) dump.sql | sql >told.txt 2>&1
done
content >after.txt
prints "a dump that is cut" "" diff before.txt after.txt

# The live way: each commit is there as soon as the feed has it.
sql -c "TRUNCATE graph_node, graph_edge, graph_commit"
head -n 6 feed.jsonl >live.jsonl
mkfifo live.fifo
tail -n +1 -f live.jsonl >live.fifo &
follower=$!
wait_for() {
  for _ in $(seq 1 100); do
    [ "$(sql -At -c 'SELECT last FROM graph_commit' 2>told.txt)" = "$1" ] && return
    sleep 0.1
  done
}
"$tools/feed-to-sql" <live.fifo | sql &
taker=$!
wait_for 6
tail -n 1 feed.jsonl >>live.jsonl
wait_for 7
kill "$follower"
wait "$taker"
content >live.txt
prints "a feed that is followed" "" diff live.txt dumped.txt

# The two questions of docs/RECIPES.md.
prints "accounts that share an owner" 'Ann O'"'"'Hara \ "é"
|DE1, DE2' sql -At -c "$(question 1)"
prints "suppliers of a part, upstream" 'engine|1
bolt $pgguard$|2' sql -At -c "$(question 2)"
exit "$different"
