# A transaction of 10,001 operations, and one of 10,000.
printf 'CREATE GRAPH TYPE g LOOSE {};\n---\n'
for count in 10001 10000; do
  awk -v count="$count" 'BEGIN { for (number = 1; number <= count; number++) printf "%s{\"add_node\":%d}", (number > 1 ? "," : "{\"ops\":["), number; print "]}" }'
done
