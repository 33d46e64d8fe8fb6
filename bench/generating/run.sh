#!/usr/bin/env bash
# Tells the seconds of the processor, the system's with them, and the most memory that `lex -t` and `flex -t` take for each
# specification of bench/minimising/ and for those that files.py writes. They run in turn, RUNS times each (9 without it). A row tells the median
# and the least of each, and whether the file was refused. A run that takes more than a minute, or 8 GB, is stopped. flex is
# wanted (apt-get install flex).
#
#     bench/generating/run.sh [LEX [RUNS]]           LEX is another program to be measured in its place
set -euo pipefail
here=$(cd "$(dirname "$0")" && pwd)
lex=${1:-$here/../../crates/lex/out/lex}
folder=$(mktemp -d)
trap 'rm -r "$folder"' EXIT
"$here/files.py" "$folder"
ulimit -t 60 -v 8000000

# A line `PROGRAM SECONDS KIB STATUS` for a run of the words that follow the program's name.
run() {
    local TIMEFORMAT=%U+%S program=$1
    shift
    { time /usr/bin/time --quiet -o "$folder/memory" -f "%M %x" "$@" > /dev/null 2>&1 || true; } 2> "$folder/seconds"
    awk -F+ -v program="$program" -v memory="$(tail -n 1 "$folder/memory")" \
        '{ printf "%s %.3f %s\n", program, $1 + $2, memory }' "$folder/seconds" >> "$folder/numbers"
}

# The median and the least of the seconds of the program $1, its most memory, and whether it refused the file.
tell() {
    awk -v program="$1" '$1 == program' "$folder/numbers" | sort -n -k 2 | awk '
        { seconds[NR] = $2; if ($3 > most) most = $3; if ($4) refused = ", refused" }
        END { printf "%s (%s), %d MiB%s", seconds[int((NR + 1) / 2)], seconds[1], most / 1024, refused }'
}

echo "| Specification | lex | flex |"
echo "|---|---|---|"
for spec in "$here"/../minimising/*.l "$folder"/*.l; do
    rm -f "$folder/numbers"
    for ((round = 0; round < ${2:-9}; round++)); do
        run lex "$lex" -t "$spec"
        run flex flex -t "$spec"
    done
    echo "| $(basename "$spec") | $(tell lex) | $(tell flex) |"
done
