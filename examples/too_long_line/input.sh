# A line of 1,048,577 bytes, and one that is a transaction.
printf 'CREATE GRAPH TYPE g LOOSE {};\n---\n'
head -c 1048577 /dev/zero | tr '\0' 'x'
printf '\n{"ops":[]}\n'
