// The works of bench/peers.sh by SQLite, with statements that are prepared once, so that little but SQLite's own time is measured.
// tables gen START COUNT: the generated workload in memory, a transaction a person and an edge, under the constraints of its schema
// tables commits FILE COUNT: persons in a file (WAL, synchronous FULL), a transaction each
// tables validate: persons from lines of JSON on standard input, in memory and in one transaction, and then that no two share a mail: by an
// index, which takes less time than the list of shared mails would
// tables persons COUNT: persons in memory, with two unique columns, in one transaction
#include <sqlite3.h>
#include <stdio.h>
#include <stdlib.h>
#include <string.h>

static sqlite3 *base;

static void fail(void) {
  fprintf(stderr, "SQLite: %s\n", sqlite3_errmsg(base));
  exit(3);
}

static void run(const char *text) {
  if (sqlite3_exec(base, text, 0, 0, 0)) fail();
}

static void begin(const char *file) {
  if (sqlite3_open(file, &base)) fail();
}

static sqlite3_stmt *prepared(const char *text) {
  sqlite3_stmt *statement;
  if (sqlite3_prepare_v3(base, text, -1, SQLITE_PREPARE_PERSISTENT, &statement, 0)) fail();
  return statement;
}

static void done(sqlite3_stmt *statement) {
  if (sqlite3_step(statement) != SQLITE_DONE) fail();
  sqlite3_reset(statement);
}

static long number_of(const char *text) {
  sqlite3_stmt *statement = prepared(text);
  if (sqlite3_step(statement) != SQLITE_ROW) fail();
  long number = sqlite3_column_int64(statement, 0);
  sqlite3_finalize(statement);
  return number;
}

static void put_person(sqlite3_stmt *statement, long number) {
  char mail[40];
  int length = snprintf(mail, sizeof mail, "u%ld@x.org", number);
  sqlite3_bind_int64(statement, 1, number);
  sqlite3_bind_int64(statement, 2, number);
  sqlite3_bind_text(statement, 3, mail, length, SQLITE_STATIC);
  done(statement);
}

static void put_edge(sqlite3_stmt *statement, long number, long target) {
  sqlite3_bind_int64(statement, 1, number);
  sqlite3_bind_int64(statement, 2, number);
  sqlite3_bind_int64(statement, 3, target);
  done(statement);
}

static void generate(unsigned long start, long count) {
  begin(":memory:");
  run("PRAGMA foreign_keys = ON");
  run("CREATE TABLE person (node INTEGER PRIMARY KEY, id INTEGER NOT NULL UNIQUE, mail TEXT NOT NULL UNIQUE) STRICT");
  run("CREATE TABLE knows (edge INTEGER PRIMARY KEY, source INTEGER NOT NULL REFERENCES person, target INTEGER NOT NULL REFERENCES person) STRICT");
  run("CREATE INDEX outgoing ON knows (source)");
  run("CREATE INDEX incoming ON knows (target)");
  sqlite3_stmt *first = prepared("BEGIN"), *last = prepared("COMMIT");
  sqlite3_stmt *person = prepared("INSERT INTO person VALUES (?, ?, ?)"), *knows = prepared("INSERT INTO knows VALUES (?, ?, ?)");
  for (long number = 1; number <= count; number++) {
    done(first);
    put_person(person, number);
    if (number >= 2) put_edge(knows, number, 1 + (start % 4294967296 + 7 * number) % (number - 1));
    done(last);
  }
  printf("gen committed=%ld refused=0 nodes=%ld edges=%ld in1=%ld\n", count, number_of("SELECT count(*) FROM person"),
         number_of("SELECT count(*) FROM knows"), number_of("SELECT count(*) FROM knows WHERE target = 1"));
}

static void commit(const char *file, long count) {
  begin(file);
  run("PRAGMA journal_mode = WAL");
  run("PRAGMA synchronous = FULL");
  run("CREATE TABLE person (node INTEGER PRIMARY KEY, id INTEGER NOT NULL, mail TEXT NOT NULL UNIQUE) STRICT");
  sqlite3_stmt *first = prepared("BEGIN"), *last = prepared("COMMIT"), *person = prepared("INSERT INTO person VALUES (?, ?, ?)");
  for (long number = 1; number <= count; number++) {
    done(first);
    put_person(person, number);
    done(last);
  }
}

// The lines behind the separator are read by SQLite's own functions on JSON.
static void validate(void) {
  begin(":memory:");
  run("CREATE TABLE person (node INTEGER PRIMARY KEY, label TEXT NOT NULL CHECK (label = 'Person'), id INTEGER NOT NULL, mail TEXT NOT NULL) STRICT");
  sqlite3_stmt *person = prepared("INSERT INTO person VALUES (json_extract(?1, '$.ops[0].add_node'), json_extract(?1, '$.ops[0].labels[0]'), "
                                  "json_extract(?1, '$.ops[0].props.id'), json_extract(?1, '$.ops[0].props.mail'))");
  char *line = 0;
  size_t room = 0;
  ssize_t length;
  while ((length = getline(&line, &room, stdin)) > 0 && strcmp(line, "---\n") != 0) {}
  run("BEGIN");
  while ((length = getline(&line, &room, stdin)) > 0) {
    sqlite3_bind_text(person, 1, line, (int)length, SQLITE_STATIC);
    done(person);
  }
  run("COMMIT");
  run("CREATE UNIQUE INDEX mails ON person (mail)");
}

static void put_persons(long count) {
  begin(":memory:");
  run("CREATE TABLE person (node INTEGER PRIMARY KEY, id INTEGER NOT NULL UNIQUE, mail TEXT NOT NULL UNIQUE) STRICT");
  sqlite3_stmt *person = prepared("INSERT INTO person VALUES (?, ?, ?)");
  run("BEGIN");
  for (long number = 1; number <= count; number++) put_person(person, number);
  run("COMMIT");
}

int main(int count, char **words) {
  const char *work = count > 1 ? words[1] : "";
  if (!strcmp(work, "gen") && count == 4) generate(strtoul(words[2], 0, 10), atol(words[3]));
  else if (!strcmp(work, "commits") && count == 4) commit(words[2], atol(words[3]));
  else if (!strcmp(work, "validate")) validate();
  else if (!strcmp(work, "persons") && count == 3) put_persons(atol(words[2]));
  else return 2;
  return 0;
}
