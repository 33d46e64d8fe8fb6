#!/usr/bin/env bash
# Scans about 20 MB (or SIZE bytes) by each specification here and by four of examples/, by the program lex with a table file and through
# lex_feed of liblex in pieces of 64 KiB, by the same file. They run in turn, RUNS times each (9 without it), and what each run writes is
# compared with what the first wrote. A row tells the median of the seconds of the processor, the system's with them, and the least. Then
# each feed is taken as a part of the program's run just before it, and the median of these parts is told.
#
# With the word `instructions` it tells the instructions a byte that callgrind counts, over 2 MB (or SIZE bytes), of one run.
#
# The program is built first, by `rt run` in crates/lex, and liblex.a by scripts/liblex.sh.
#
#     bench/scan/feed.sh [instructions] [LEX [RUNS [SIZE]]]        LEX is another program to be measured in its place
set -euo pipefail
here=$(cd "$(dirname "$0")" && pwd)
top=$here/../..
way=seconds
if [[ ${1-} == instructions ]]; then
    way=$1
    shift
fi
lex=${1:-$top/crates/lex/out/lex}
declare -A sizes=([seconds]=20000000 [instructions]=2000000) counts=([seconds]=${2:-9} [instructions]=1)
folder=$(mktemp -d)
trap 'rm -r "$folder"' EXIT
"$here/inputs.py" "$folder" "${3:-${sizes[$way]}}"
cc -O2 -I "$top/include" -o "$folder/feed" "$here/feed.c" "$top/out/liblex/liblex.a"

# Runs the words over the input, and compares what they write with what the first run wrote.
scan() {
    { time "$@" < "$input" > "$folder/output" 2> "$folder/messages"; } 2> "$folder/time"
    [ -e "$folder/expected" ] || cp "$folder/output" "$folder/expected"
    cmp "$folder/expected" "$folder/output" >&2
}

# The seconds of a run of the words.
seconds() {
    local TIMEFORMAT=%U+%S
    scan "$@"
    awk -F+ '{ printf "%.3f\n", $1 + $2 }' "$folder/time"
}

# The instructions of a run of the words, by byte.
instructions() {
    scan valgrind --tool=callgrind --callgrind-out-file=/dev/null "$@"
    awk -v bytes="$(stat -c %s "$input")" '/Collected/ { printf "%.1f\n", $NF / bytes }' "$folder/messages"
}

# The median and the least of the numbers of a file, a line each.
middle() {
    sort -n "$1" | awk '{ at[NR] = $1 } END { print at[int((NR + 1) / 2)], at[1] }'
}

echo "| Specification | lex | lex_feed | A part of lex's |"
echo "|---|---|---|---|"
for spec in "$here"/*.l "$top"/examples/{words,documents,c_tokens,heredoc}.l; do
    name=$(basename "$spec" .l)
    input=$folder/$name.input
    rm -f "$folder"/{expected,lex.numbers,feed.numbers}
    "$lex" -w -o "$folder/lex.tab" "$spec"
    for ((round = 0; round < counts[$way]; round++)); do
        "$way" "$lex" --scan-table "$folder/lex.tab" >> "$folder/lex.numbers"
        "$way" "$folder/feed" "$folder/lex.tab" 65536 >> "$folder/feed.numbers"
    done
    read -r scans least < <(middle "$folder/lex.numbers")
    read -r feeds less < <(middle "$folder/feed.numbers")
    read -r part _ < <(paste "$folder/feed.numbers" "$folder/lex.numbers" | awk '{ printf "%.2f\n", $1 / $2 }' | middle /dev/stdin)
    echo "| $name.l | $scans ($least) | $feeds ($less) | $part |"
done
