#!/usr/bin/env bash
# Schema texts of up to a mebibyte that are hard to read, by their names. It is sourced by who times their resolution (`resolving.sh`) and by
# who sees that `try` takes them all in time (`tools/hostile`).

# resolved NAME: the text of this name, which is hard to resolve. Types have names of t and five digits, and stand in one graph type.
resolved() {
  awk -v text="$1" '
    function t(i) { return sprintf("t%05d", i) }
    function g(i) { return sprintf("g%05d", i) }
    function word(i,   j, w) { w = ""; for (j = 0; j < 4; j++) { w = w substr("abcdefghijklmnopqrstuvwxyz", i % 26 + 1, 1); i = int(i / 26) } return w }
    function begin() { printf "CREATE GRAPH TYPE g LOOSE {" }
    function end() { print "};" }
    function types(count, last,   i) {
      begin()
      for (i = 1; i < count; i++) printf "(%s:%s),", t(i), t(i + 1)
      printf "(%s:%s)", t(count), last
      end()
    }
    BEGIN {
      if (text == "chain") types(40000, "A")
      if (text == "cycle at the end") types(40000, t(39999))
      if (text == "one cycle") types(40000, t(1))
      if (text == "between two cycles") {
        begin(); printf "(%s:%s),(%s:%s&%s),", t(1), t(2), t(2), t(1), t(3)
        for (i = 3; i < 39999; i++) printf "(%s:%s),", t(i), t(i + 1)
        printf "(%s:%s),(%s:%s)", t(39999), t(40000), t(40000), t(39999); end()
      }
      if (text == "all ready") { begin(); for (i = 1; i < 40000; i++) printf "(%s:A),", t(i); printf "(%s:A)", t(40000); end() }
      if (text == "all name the last") { begin(); for (i = 1; i < 40000; i++) printf "(%s:%s),", t(i), t(40000); printf "(%s:A)", t(40000); end() }
      if (text == "the first names all") {
        begin(); printf "(%s:%s", t(1), t(2); for (i = 3; i <= 50000; i++) printf "&%s", t(i); printf ")"
        for (i = 2; i <= 50000; i++) printf ",(%s:A)", t(i); end()
      }
      if (text == "each names all behind it") {
        begin(); for (i = 1; i < 530; i++) { printf "(%s:%s", t(i), t(i + 1); for (j = i + 2; j <= 530; j++) printf "&%s", t(j); printf ")," }
        printf "(%s:A)", t(530); end()
      }
      if (text == "each names all others") {
        begin(); for (i = 1; i <= 370; i++) { printf "(%s:A", t(i); for (j = 1; j <= 370; j++) printf "&%s", t(j); printf ")%s", i < 370 ? "," : "" } end()
      }
      if (text == "edges name all nodes") {
        begin(); for (i = 1; i <= 20000; i++) printf "(%s:A),", t(i)
        for (i = 1; i < 20000; i++) printf "(:%s)-[e%05d:a]->(:%s),", t(i), i, t(i + 1); printf "(:t00001)-[f:a]->(:t00001)"; end()
      }
      if (text == "imports in a chain") {
        print "CREATE GRAPH TYPE g00001 LOOSE{};"
        for (i = 2; i <= 20000; i++) printf "CREATE GRAPH TYPE %s LOOSE IMPORTS %s{};\n", g(i), g(i - 1)
      }
      if (text == "imports in a diamond") {
        print "CREATE GRAPH TYPE aaaa LOOSE{};CREATE GRAPH TYPE baaa LOOSE{};"
        for (i = 2; i < 20000; i++) printf "CREATE GRAPH TYPE %s LOOSE IMPORTS %s,%s{};", word(i), word(i - 1), word(i - 2)
      }
      if (text == "one imports all") {
        for (i = 1; i <= 20000; i++) printf "CREATE GRAPH TYPE %s LOOSE{};", word(i)
        printf "CREATE GRAPH TYPE g LOOSE IMPORTS %s", word(1); for (i = 2; i <= 20000; i++) printf ",%s", word(i); print "{};"
      }
      if (text == "200,000 labels") { begin(); printf "(t:%s", word(0); for (i = 1; i < 200000; i++) printf "&%s", word(i); printf ")"; end() }
      if (text == "members by name") {
        printf "CREATE GRAPH TYPE a LOOSE {(t:A)"; for (i = 0; i < 50000; i++) printf ",(%s:A)", word(i); print "};"
        begin(); printf "t"; for (i = 0; i < 50000; i++) printf ",%s", word(i); end()
      }
      if (text == "256 keys") {
        begin()
        for (i = 1; i <= 256; i++) {
          if (i > 1) printf ","
          printf "FOR (x)-[a]->(b)-[c]->(d), (x)-[e]->(f)-[h]->(i), (x)-[j]->(k)-[l]->(m), (x)-[n]->(o)-[p]->(q) EXCLUSIVE x"
        }
        end()
      }
      if (text == "256 keys with descriptors") {
        begin()
        for (i = 1; i <= 256; i++) {
          if (i > 1) printf ","
          printf "FOR (x)-[a]->(b)-[c]->(d), (x)-[e]->(f)-[h]->(i), (x)-[j]->(k)-[l]->(m), (x)-[n]->(o)-[p]->(q)"
          printf " IDENTIFIER x.k, r.k, s.k WITHIN (x)-[r]->(s)-[u]->(t), (x)-[v]->(w), (x)-[y]->(z), (z)-[aa]->(bb)"
        }
        end()
      }
      if (text == "10,000 keys") { begin(); printf "FOR (x) EXCLUSIVE x"; for (i = 1; i <= 10000; i++) printf ",FOR (x)-[a]->(b)-[c]->(d) EXCLUSIVE x"; end() }
      if (text == "a duplicate at the end") { begin(); for (i = 1; i < 60000; i++) printf "(%s:A),", t(i); printf "(t00001:A)"; end() }
      if (text == "properties") { begin(); printf "(t:A{k INT"; for (i = 0; i < 100000; i++) printf ",%s INT", word(i); printf "})"; end() }
    }'
}

resolved_names=("chain" "cycle at the end" "one cycle" "between two cycles" "all ready" "all name the last" "the first names all"
  "each names all behind it" "each names all others" "edges name all nodes" "imports in a chain" "imports in a diamond"
  "one imports all" "200,000 labels" "members by name" "256 keys" "256 keys with descriptors" "10,000 keys"
  "a duplicate at the end" "properties")

# parsed NAME: the text of this name, which is hard to parse; the same texts as in `parsing.sh`.
parsed() {
  awk -v text="$1" '
    function so_often(before, piece, times, after,   i) { printf "%s", before; for (i = 0; i < times; i++) printf "%s", piece; print after }
    function signs(sign, times,   i, all) { all = ""; for (i = 0; i < times; i++) all = all sign; return all }
    BEGIN {
      graph = "CREATE GRAPH TYPE g LOOSE {"; quote = sprintf("%c", 39)
      key = "FOR (" signs("x", 32) ":" signs("A", 40) ")-[:" signs("B", 16) "]->(" signs("y", 28) " {k: " quote "a text" quote ", l: 12}) IDENTIFIER " \
        signs("x", 32) ".k WITHIN (" signs("x", 32) ")<-[:B]-(" signs("z", 16) "),"
      if (text == "statements") so_often("", "CREATE NODE TYPE (a: A & B {k INT});", 29000, "")
      if (text == "members") so_often(graph "a", ",a", 200000, "};")
      if (text == "parts of one label expression") so_often("CREATE NODE TYPE (a: A", "&A", 250000, ");")
      if (text == "64 parentheses deep") so_often("CREATE NODE TYPE (a: ", signs("(", 64) "A" signs(")", 64) "&", 8000, "A);")
      if (text == "quotes in a string") so_often(graph "FOR (x {k: " quote, quote quote, 65535, quote "}) EXCLUSIVE x};")
      if (text == "keys") so_often(graph, key, 3000, "FOR (x) EXCLUSIVE x};")
      if (text == "members, and the last token fails") so_often(graph "a", ",a", 500000, "}")
      if (text == "node types as members") so_often(graph "(a)", ",(a)", 250000, "};")
      if (text == "paths of one place") so_often(graph "FOR (x)", ",()", 340000, "EXCLUSIVE x};")
      if (text == "steps of one path") so_often(graph "FOR (x)", "-[]->()", 149000, "EXCLUSIVE x};")
      if (text == "optional parts") so_often("CREATE NODE TYPE (a: A", "&A?", 300000, ");")
      if (text == "alternatives of two parts") so_often("CREATE NODE TYPE (a: A", "|A&A", 262000, ");")
      if (text == "edge types as members") so_often(graph "a", ",()-[a]->()", 95000, "};")
      if (text == "keys of an empty place") so_often(graph, "FOR()EXCLUSIVE x,", 61000, "FOR (x) EXCLUSIVE x};")
      if (text == "keys of a label") so_often(graph, "FOR(:a)EXCLUSIVE x,", 55000, "FOR (x) EXCLUSIVE x};")
      if (text == "paths of one step") so_often(graph "FOR (x) EXCLUSIVE x WITHIN ()", ",()-[]->()", 104000, "};")
      if (text == "paths of two steps between empty ones") so_often(graph "FOR (x) EXCLUSIVE x WITHIN ()", "-[]->()-[]->(),()", 61000, "};")
      if (text == "expressions") so_often(graph "FOR () EXCLUSIVE x", ",x", 524000, "};")
      if (text == "tests of one place") so_often(graph "FOR (x {k:1", ",k:1", 262000, "}) EXCLUSIVE x};")
    }'
}

parsed_names=("statements" "members" "parts of one label expression" "64 parentheses deep" "quotes in a string" "keys"
  "members, and the last token fails" "node types as members" "paths of one place" "steps of one path" "optional parts"
  "alternatives of two parts" "edge types as members" "keys of an empty place" "keys of a label" "paths of one step"
  "paths of two steps between empty ones" "expressions" "tests of one place")
