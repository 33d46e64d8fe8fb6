#!/usr/bin/env bash
# Scans about 20 MB (or SIZE bytes) by each specification here and by four of examples/, with five programs: lex by a table file made
# before and by the specification, flex's scanner as flex makes it by default and with -Cf, and the scanner that re2c makes of
# re2c/NAME.re. They run in turn, RUNS times each (9 without it), and what each run writes is compared with what flex's scanner
# writes. A row tells the median of the seconds of the processor, the system's with them, and the least. flex makes no
# scanner with -Cf where a rule has REJECT.
#
# With the word `instructions` it tells the instructions a byte that callgrind counts, over 2 MB (or SIZE bytes). With the word `start`
# it tells the milliseconds by the clock of RUNS starts (51 without it) by the table file of examples/keywords.l, on no input.
#
# The program lex is built first, by `rt run` in crates/lex. apt-get install flex re2c gcc valgrind has the others.
#
#     bench/scan/run.sh [instructions|start] [LEX [RUNS [SIZE]]]        LEX is another program to be measured in its place
set -euo pipefail
here=$(cd "$(dirname "$0")" && pwd)
way=seconds
if [[ ${1-} == instructions || ${1-} == start ]]; then
    way=$1
    shift
fi
lex=${1:-$here/../../crates/lex/out/lex}
declare -A sizes=([seconds]=20000000 [instructions]=2000000)
folder=$(mktemp -d)
trap 'rm -r "$folder"' EXIT

# Makes flex's scanner of the specification $1 with the flag $2, as the program $3.
make_flex() {
    flex --noyywrap "$2" -o "$folder/scan.c" "$1" 2> /dev/null || return 1
    echo 'int main(void) { return yylex(); }' >> "$folder/scan.c"
    cc -O2 -w -o "$3" "$folder/scan.c" || exit
}

# Makes the program $2 of the source $1.
make_re2c() {
    re2c -o "$folder/scan.c" "$1"
    cc -O2 -w -I "$here/re2c" -o "$2" "$folder/scan.c"
}

# Runs the program that $1 names, behind the words that follow, over the input, and compares what it writes with flex's.
scan() {
    local program=$1
    shift
    case $program in
        table) set -- "$@" "$lex" --scan-table "$folder/lex.tab" ;;
        spec) set -- "$@" "$lex" --scan-spec "$spec" ;;
        *) set -- "$@" "$folder/$program" ;;
    esac
    { time "$@" < "$input" > "$folder/output" 2> "$folder/messages"; } 2> "$folder/time"
    cmp "$folder/expected" "$folder/output" >&2
}

# A line `PROGRAM SECONDS` for each run: each program has one in each round.
seconds() {
    local TIMEFORMAT=%U+%S round program
    for ((round = 0; round < runs; round++)); do
        for program in "${programs[@]}"; do
            scan "$program"
            awk -F+ -v program="$program" '{ printf "%s %.3f\n", program, $1 + $2 }' "$folder/time"
        done
    done
}

# A line `PROGRAM INSTRUCTIONS` for each program, by byte.
instructions() {
    local program bytes
    bytes=$(stat -c %s "$input")
    for program in "${programs[@]}"; do
        scan "$program" valgrind --tool=callgrind --callgrind-out-file=/dev/null
        awk -v program="$program" -v bytes="$bytes" '/Collected/ { printf "%s %.1f\n", program, $NF / bytes }' "$folder/messages"
    done
}

# The median and the least of the numbers that belong to the program $1.
middle() {
    awk -v program="$1" '$1 == program { print $2 }' "$folder/numbers" | sort -n | awk '
        { at[NR] = $1 }
        END { if (NR == 0) print "refused"; else if (NR == 1) print at[1]; else print at[int((NR + 1) / 2)] " (" at[1] ")" }'
}

# Starts by a table file, on no input.
start() {
    local before after
    "$lex" -w -o "$folder/lex.tab" "$here/../../examples/keywords.l"
    for ((run = 0; run < runs; run++)); do
        before=${EPOCHREALTIME/./}
        "$lex" --scan-table "$folder/lex.tab" < /dev/null
        after=${EPOCHREALTIME/./}
        awk -v took=$((after - before)) 'BEGIN { printf "start %.2f\n", took / 1000 }'
    done
}

if [[ $way == start ]]; then
    runs=${2:-51}
    start > "$folder/numbers"
    echo "A start takes $(middle start) ms."
    exit
fi
runs=${2:-9}
"$here/inputs.py" "$folder" "${3:-${sizes[$way]}}"
echo "| Specification | lex, by a table file | lex, by the specification | flex | flex -Cf | re2c |"
echo "|---|---|---|---|---|---|"
for spec in "$here"/*.l "$here"/../../examples/{words,documents,c_tokens,heredoc}.l; do
    name=$(basename "$spec" .l)
    input=$folder/$name.input
    programs=(table spec flex)
    "$lex" -w -o "$folder/lex.tab" "$spec"
    make_flex "$spec" -Cem "$folder/flex"
    "$folder/flex" < "$input" > "$folder/expected"
    if make_flex "$spec" -Cf "$folder/full"; then
        programs+=(full)
    fi
    make_re2c "$here/re2c/$name.re" "$folder/re2c"
    programs+=(re2c)
    "$way" > "$folder/numbers"
    row="| $name.l |"
    for program in table spec flex full re2c; do
        row+=" $(middle "$program") |"
    done
    echo "$row"
done
