#!/usr/bin/env bash
# Takes the program of docs/EMBEDDING.md into a repository of its own by tools/vendor, as the page says, and has the toolchain run it there with nothing proved.
# Ends with 1 where it prints something else than crates/example_embed/stdout, and with 77 where the toolchain isn't installed.
# Usage: examples/embed.sh
set -u
here=$(cd "$(dirname "$(readlink -f "${BASH_SOURCE[0]}")")/.." && pwd)
command -v rt >/dev/null || { echo "passed over: rt isn't installed"; exit 77; }
work=$(mktemp -d) || exit 1
trap 'rm -rf "$work"' EXIT
cd "$work" || exit 1
ln -s "$here/crates" "$here/tools" .
# The page's own block.
block=$(awk '/^```sh$/ { inside = 1; next } /^```$/ { inside = 0 } inside' "$here/docs/EMBEDDING.md")
bash -ec "$block" >vendored.txt || exit 1
cp "$here/HANDLES" shop/
(cd shop/crates/shop && rt try) >found.txt 2>told.txt
if cmp -s found.txt "$here/crates/example_embed/stdout" && grep -q '^run=ended status=0 ' told.txt; then
  echo "the example from a repository of its own: as expected"
else
  cat found.txt
  tail -n 20 told.txt
  echo "the example from a repository of its own: different"
  exit 1
fi
