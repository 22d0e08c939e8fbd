#!/usr/bin/env bash
# Hands a feed on over Redis, on one machine: `apply` writes the feed, a script of ten lines puts each of its lines into a stream under the
# commit's number, half of them twice, and a consumer takes them into SQLite, is killed in the middle and started again. Then its graph has to
# be the store's. It starts a server of its own in a folder of its own, on a socket alone. Ends with 1 where something differs, and with 77
# where no server is installed.
# Usage: examples/feed.sh, with PGGUARD and PGFOLLOW=EXECUTABLE to try others than `pgguard` and `pgfollow` run
set -u
here=$(cd "$(dirname "$(readlink -f "${BASH_SOURCE[0]}")")" && pwd)
tools="$here/../tools"
if ! command -v redis-server >/dev/null || ! command -v redis-cli >/dev/null; then
  echo "feed: passed over, Redis isn't installed"
  exit 77
fi
program=${PGGUARD:-$("$tools/run" --path pgguard)} || exit 1
follower=${PGFOLLOW:-$("$tools/run" --path pgfollow)} || exit 1
program=$(readlink -f "$program") && follower=$(readlink -f "$follower") || exit 1
work=$(mktemp -d) || exit 1
cd "$work" || exit 1
different=0
# What is said of a command, whose own output may go into a file.
exec 5>&1

# ends NAME STATUS COMMAND..: says whether a command ended so
ends() {
  local name=$1 status=$2 found
  shift 2
  "$@"
  found=$?
  if [ "$found" = "$status" ]; then
    echo "$name: as expected" >&5
  else
    echo "$name: different, status $found" >&5
    different=1
  fi
}

redis-server --port 0 --unixsocket "$work/socket" --dir "$work" --save '' --appendonly no >server.log 2>&1 &
server=$!
stop() {
  kill "$server" 2>/dev/null
  wait "$server" 2>/dev/null
  rm -rf "$work"
}
trap stop EXIT
for _ in $(seq 100); do
  [ "$(redis-cli -s socket PING 2>/dev/null)" = PONG ] && break
  sleep 0.1
done

# Hands a feed on: each whole line into the stream under its commit's number. Redis refuses a number that doesn't ascend, so a line that is
# sent again doesn't come in again; any other refusal ends it.
cat >hand_on.sh <<'E'
set -eu
while IFS= read -r line; do
  number=${line#'{"commit":'}
  answer=$(redis-cli -s socket XADD feed "${number%%,*}-0" line "$line")
  case $answer in
    "${number%%,*}-0") ;;
    *'equal or smaller than the target stream top item'*) ;;
    *) echo "$answer" >&2; exit 1 ;;
  esac
done
E

# A consumer: it takes what comes behind the last number that it has, a line at a time, and keeps the number in the transaction of its own
# change, which here is the line itself. It ends where nothing comes any more.
cat >consume.py <<'E'
import sqlite3, subprocess, time
base = sqlite3.connect("consumer.db")
base.execute("CREATE TABLE IF NOT EXISTS taken (number INTEGER PRIMARY KEY, line TEXT NOT NULL)")
while True:
    (last,) = base.execute("SELECT coalesce(max(number), 0) FROM taken").fetchone()
    command = ["redis-cli", "-s", "socket", "--raw", "XRANGE", "feed", f"({last}-0", "+", "COUNT", "1"]
    found = subprocess.run(command, capture_output=True, check=True, text=True).stdout.split("\n")
    if len(found) < 3:
        break
    with base:
        base.execute("INSERT INTO taken VALUES (?, ?)", (int(found[0].split("-")[0]), found[2]))
    time.sleep(0.002)
E
count() {
  python3 -c 'import sqlite3; print(sqlite3.connect("consumer.db").execute("SELECT count(*) FROM taken").fetchone()[0])' 2>/dev/null || echo 0
}

# A store with 200 commits, and their feed.
python3 - >lines.txt <<'P'
import json
def op(**members):
    return json.dumps({"ops": [members]})
for number in range(1, 101):
    print(op(add_node=number, labels=["Person"], props={"name": f'a "name" \u00fc {number}'}))
for number in range(1, 91):
    print(op(add_edge=number, **{"from": number, "to": 1 + number * 7 % 100}, labels=["knows"]))
for number in range(1, 101, 10):
    print(op(detach_node=number))
P
ends "load" 0 "$program" load shop < <(printf 'CREATE GRAPH TYPE g LOOSE {};') >/dev/null
ends "apply, which writes the feed" 0 "$program" apply shop feed.jsonl <lines.txt >/dev/null
"$program" recover shop </dev/null | sed '1,/^---$/d' >store.txt

# What the feed tells is the store's graph, whole or given twice.
{ echo "followed commits=200 rest=0"; cat store.txt; } >wanted.txt
ends "the feed is followed" 0 "$follower" follow <feed.jsonl >found.txt
ends "to the store's graph" 0 cmp found.txt wanted.txt
ends "the feed twice" 0 "$follower" follow < <(cat feed.jsonl feed.jsonl) >found.txt
ends "is the same graph" 0 cmp found.txt wanted.txt
ends "a feed with a gap" 1 "$follower" follow < <(sed 2d feed.jsonl) >found.txt
ends "is followed up to the gap" 0 grep -qx 'refused 49 expected 2, found 3' found.txt
ends "a torn feed" 0 "$follower" follow < <(head -c -9 feed.jsonl) >found.txt
ends "is followed up to its last whole line" 0 grep -q '^followed commits=199 rest=[1-9]' found.txt

# Over Redis, with half of it sent again.
ends "half of the feed is handed on" 0 bash hand_on.sh < <(head -n 100 feed.jsonl)
ends "and then all of it" 0 bash hand_on.sh <feed.jsonl
ends "each commit is in the stream once" 0 test "$(redis-cli -s socket XLEN feed)" = 200
python3 consume.py &
consumer=$!
for _ in $(seq 600); do
  [ "$(count)" -ge 20 ] && break
  sleep 0.05
done
kill -9 "$consumer"
wait "$consumer" 2>/dev/null
ends "the consumer was killed in the middle" 0 test "$(count)" -lt 200
ends "it goes on where it was" 0 python3 consume.py
ends "and has each commit once" 0 test "$(count)" = 200
python3 -c 'import sqlite3; [print(line) for (line,) in sqlite3.connect("consumer.db").execute("SELECT line FROM taken ORDER BY number")]' >taken.jsonl
ends "what it took is followed" 0 "$follower" follow <taken.jsonl >found.txt
ends "to the store's graph" 0 cmp found.txt wanted.txt

exit "$different"
