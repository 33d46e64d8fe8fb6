#!/bin/sh
# Tries the pictures that lexlook writes, with dot of Graphviz. It is no part of the gate.
#
#     scripts/pages/pictures.sh LEXLOOK            each of examples/*.l: dot takes its picture, and a second run writes the same
#     scripts/pages/pictures.sh LEXLOOK --readme   writes docs/keys.svg, the picture of examples/keys.l that README links
#
# LEXLOOK is the program, as crates/lexlook/out/lexlook.
set -eu
top=$(cd "$(dirname "$0")/../.." && pwd)
lexlook=$1

if [ "${2:-}" = --readme ]; then
    "$lexlook" picture "$top/examples/keys.l" | dot -Tsvg > "$top/docs/keys.svg"
    exit
fi

folder=$(mktemp -d)
trap 'rm -rf "$folder"' EXIT
count=0
for text in "$top"/examples/*.l; do
    "$lexlook" picture "$text" > "$folder/first"
    "$lexlook" picture - < "$text" > "$folder/second"
    cmp "$folder/first" "$folder/second"
    dot -Tsvg "$folder/first" > "$folder/svg"
    # each node and each edge of the text is in the drawing
    nodes=$(grep -c -e 'shape=plaintext' -e '^  [0-9]*;' -e 'doublecircle' "$folder/first")
    edges=$(grep -c -e ' -> ' "$folder/first")
    [ "$(grep -c 'class="node"' "$folder/svg")" = "$nodes" ] || { echo "pictures.sh: $text: nodes"; exit 1; }
    [ "$(grep -c 'class="edge"' "$folder/svg")" = "$edges" ] || { echo "pictures.sh: $text: edges"; exit 1; }
    count=$((count + 1))
done
echo "$count pictures"
