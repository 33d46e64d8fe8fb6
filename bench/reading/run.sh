#!/usr/bin/env bash
# Writes specifications that are near the limits of reading, and tells of each what lexbench answers (bench/steps), the seconds of
# the processor and the most memory that reading and building took. A run that takes more than a minute, or 8 GB, is stopped.
#
#     bench/reading/run.sh [LEXBENCH]         LEXBENCH is another program to be measured in its place
set -euo pipefail
here=$(cd "$(dirname "$0")" && pwd)
folder=$(mktemp -d)
program=${1:-$folder/lexbench}
trap 'rm -r "$folder"' EXIT
if (($# == 0)); then
    "$here/../steps/build.sh" "$program"
fi
"$here/files.py" "$folder"
ulimit -t 60 -v 8000000
for name in letters twice lengths class cycle rules nodes; do
    echo "$name.l, $(stat -c %s "$folder/$name.l") bytes"
    /usr/bin/time --quiet -f "%U s of the processor, %M KiB" "$program" < "$folder/$name.l" 2>&1 || true
done
