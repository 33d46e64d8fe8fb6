#!/usr/bin/env bash
# Scans about 20 MB (or SIZE bytes) of text in several scripts by classes of code points, with five programs: lex by a table file made
# before and by the specification, flex's scanner as flex makes it by default and with -Cf, and the scanner of re2c -8. files.py writes
# the text and the specifications. The programs run in turn, RUNS times each (9 without it), and what each run writes is compared with
# what flex's scanner writes. A row tells the median of the seconds of the processor, the system's with them, and the least.
#
# The second table tells how long it takes to make each, once: a table file, or a program of the source that flex or re2c makes, the
# compiler apart. Then what lex's table file has of bytes, and what is said of the specification with one line for a definition.
#
# The program lex is built first, by `rt run` in crates/lex. apt-get install flex re2c gcc unicode-data has the others.
#
#     bench/letters/run.sh [LEX [RUNS [SIZE]]]        LEX is another program to be measured in its place
set -euo pipefail
here=$(cd "$(dirname "$0")" && pwd)
lex=${1:-$here/../../crates/lex/out/lex}
runs=${2:-9}
folder=$(mktemp -d)
trap 'rm -r "$folder"' EXIT
TIMEFORMAT=%U+%S

# The seconds that the words take, and their status.
timed() {
    { time "$@" 2> "$folder/messages"; } 2> "$folder/time" || return 1
    awk -F+ '{ printf "%.3f", $1 + $2 }' "$folder/time"
}

# Compiles the source $1 into the program $2.
compile() {
    cc -O2 -w -I "$here/../scan/re2c" -o "$folder/$2" "$folder/$1" || exit
}

# Makes the scanners of the specification $1, and tells a row of how long that took.
make_all() {
    local row="| $1.l | $(timed "$lex" -w -o "$folder/lex.tab" "$folder/$1.l")" flag program
    for flag in -Cem -Cf; do
        program=flex$flag
        row+=" | $(timed flex --noyywrap -8 "$flag" -o "$folder/scan.c" "$folder/$1.flex.l")"
        echo 'int main(void) { return yylex(); }' >> "$folder/scan.c"
        compile scan.c "$program"
    done
    row+=" | $(timed re2c -8 -o "$folder/scan.c" "$folder/$1.re")"
    compile scan.c re2c
    row+=" | $(stat -c %s "$folder/lex.tab")"
    if flex --noyywrap -8 -o /dev/null "$folder/$1.l" 2> "$folder/refused"; then
        echo "$row | taken |" >> "$folder/made"
    else
        echo "$row | $(awk -F': *' 'NR == 1 { print $NF }' "$folder/refused") |" >> "$folder/made"
    fi
}

# Runs the program $1 over the text, and compares what it writes with flex's.
scan() {
    local words
    case $1 in
        table) words=("$lex" --scan-table "$folder/lex.tab") ;;
        spec) words=("$lex" --scan-spec "$folder/$2.l") ;;
        *) words=("$folder/$1") ;;
    esac
    { time "${words[@]}" < "$folder/text.input" > "$folder/output"; } 2> "$folder/time"
    cmp "$folder/expected" "$folder/output" >&2
    awk -F+ -v program="$1" '{ printf "%s %.3f\n", program, $1 + $2 }' "$folder/time"
}

# The median and the least of the numbers that belong to the program $1.
middle() {
    awk -v program="$1" '$1 == program { print $2 }' "$folder/numbers" | sort -n | awk '
        { at[NR] = $1 }
        END { print at[int((NR + 1) / 2)] " (" at[1] ")" }'
}

"$here/files.py" "$folder" "${3:-20000000}"
programs=(table spec flex-Cem flex-Cf re2c)
echo "| Specification | lex, by a table file | lex, by the specification | flex | flex -Cf | re2c -8 |"
echo "|---|---|---|---|---|---|"
for name in words identifiers scripts categories; do
    make_all "$name"
    "$folder/flex-Cem" < "$folder/text.input" > "$folder/expected"
    for ((round = 0; round < runs; round++)); do
        for program in "${programs[@]}"; do
            scan "$program" "$name"
        done
    done > "$folder/numbers"
    row="| $name.l |"
    for program in "${programs[@]}"; do
        row+=" $(middle "$program") |"
    done
    echo "$row"
done
echo
echo "| Specification | lex | flex | flex -Cf | re2c -8 | Bytes of the table file | flex, of the same file |"
echo "|---|---|---|---|---|---|---|"
cat "$folder/made"
