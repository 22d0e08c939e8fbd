# A node with 65 labels, and one with 64.
printf 'CREATE GRAPH TYPE g LOOSE {};\n---\n'
for count in 65 64; do
  awk -v count="$count" 'BEGIN { for (number = 1; number <= count; number++) printf "%s\"L%d\"", (number > 1 ? "," : "{\"ops\":[{\"add_node\":1,\"labels\":["), number; print "]}]}" }'
done
