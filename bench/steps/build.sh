#!/usr/bin/env bash
# Makes the program lexbench, which times each step from a specification to its table file. Its sources stand here with one more
# ending, so that they are no crate of the repository and the gate does not prove them. This proves them in a clone, over the crates
# as they are committed, and writes the program to the file that is named.
#
#     bench/steps/build.sh PROGRAM
set -euo pipefail
here=$(cd "$(dirname "$0")" && pwd)
folder=$(mktemp -d)
trap 'rm -rf "$folder"' EXIT
git clone -q "$here/../.." "$folder/lex"
crate=$folder/lex/crates/lexbench
(cd "$here" && find . -name '*.txt') | while read -r name; do
    install -D -m 644 "$here/$name" "$crate/${name%.txt}"
done
echo "lexbench: lexauto lexauto_dfa lex_io lextab_file lex_semantics lextab lexauto_reports lexspec thiserror" >> "$folder/lex/crates.txt"
(cd "$crate" && rt run < "$here/stdin" > /dev/null 2>&1)
cp "$crate/out/lexbench" "$1"
