#!/usr/bin/env bash
# Takes the tokens of about 20 MB (or SIZE bytes) of C, of JSON and of a log, by the rules of NAME.rules: through lex_next of liblex in pieces
# of 64 KiB, without lines and with them, and through lex_tokens over the whole input; by flex's scanner as flex makes it by default
# and with -Cf, with an action `return N;` for each rule, in a loop over yylex; and by the scanner that re2c makes of re2c/NAME.re. Each counts
# the tokens, their bytes and their numbers, which are compared. One more program lists the tokens of flex's default scanner first, as
# lex_tokens does, and counts them then. They run in turn, RUNS times each (9 without it). A row tells the
# median of the seconds of the processor, the system's with them, and the least.
#
# With the word `instructions` it tells the instructions a byte that callgrind counts, over 2 MB (or SIZE bytes).
#
# The library is built first, by scripts/liblex.sh. apt-get install flex re2c gcc valgrind has the others.
#
#     bench/tokens/run.sh [instructions] [RUNS [SIZE]]
set -euo pipefail
here=$(cd "$(dirname "$0")" && pwd)
top=$here/../..
way=seconds
if [[ ${1-} == instructions ]]; then
    way=$1
    shift
fi
runs=${1:-9}
declare -A sizes=([seconds]=20000000 [instructions]=2000000)
declare -A inputs=([c]=program [json]=json [log]=log)
folder=$(mktemp -d)
trap 'rm -r "$folder"' EXIT
"$here/../scan/inputs.py" "$folder" "${2:-${sizes[$way]}}"
cc -O2 -I "$top/include" -o "$folder/tokens" "$here/tokens.c" "$top/out/liblex/liblex.a"
cat > "$folder/table.c" <<'END'
#include <lex.h>
#include <stdio.h>
static uint8_t text[1 << 20], file[1 << 22];
int main(void)
{
    struct lex_fault fault;
    size_t len = fread(text, 1, sizeof text, stdin), count;
    int answer = lex_generate(text, len, 0, file, sizeof file, &count, &fault);
    fwrite(file, 1, answer == LEX_OK ? count : 0, stdout);
    return answer;
}
END
cc -O2 -I "$top/include" -o "$folder/table" "$folder/table.c" "$top/out/liblex/liblex.a"

# The rules of a file, with an action for each: empty for lex, `return N;` for flex.
rules() {
    awk -v flex="$2" '
        inside { print $0, flex ? "return " ++count ";" : ";"; next }
        { print }
        /^%%$/ { inside = 1 }' "$1"
}

# Makes flex's scanner of the rules $1 with the flag $2, as the program $3, and where there is a $4 one that lists the tokens as that.
make_flex() {
    rules "$1" 1 > "$folder/flex.l"
    flex --noyywrap -8 "$2" -o "$folder/scan.c" "$folder/flex.l"
    cat >> "$folder/scan.c" <<'END'
#ifdef LISTED
#include <lex.h>
int main(void)
{
    unsigned long tokens = 0, bytes = 0, numbers = 0;
    struct lex_token *found = malloc((LISTED + 1) * sizeof *found);
    size_t count = 0, start = 0, i;
    int number;
    while ((number = yylex()) != 0) {
        struct lex_token token = { start, start + yyleng, number - 1, YY_START };
        start += yyleng;
        found[count++] = token;
    }
    for (i = 0; i < count; i++) {
        tokens++;
        bytes += found[i].end - found[i].start;
        numbers += found[i].rule + 1;
    }
    printf("%lu %lu %lu\n", tokens, bytes, numbers);
    return 0;
}
#else
int main(void)
{
    unsigned long tokens = 0, bytes = 0, numbers = 0;
    int number;
    while ((number = yylex()) != 0) {
        tokens++;
        bytes += yyleng;
        numbers += number;
    }
    printf("%lu %lu %lu\n", tokens, bytes, numbers);
    return 0;
}
#endif
END
    cc -O2 -w -o "$3" "$folder/scan.c"
    if [[ ${4-} ]]; then
        cc -O2 -w -D LISTED="$(stat -c %s "$input")" -I "$top/include" -o "$4" "$folder/scan.c"
    fi
}

# Runs the program that $1 names, behind the words that follow, over the input, and compares what it counts with what flex's scanner counts.
count() {
    local program=$1
    shift
    case $program in
        next | lines | listed) set -- "$@" "$folder/tokens" "$program" "$folder/lex.tab" ;;
        *) set -- "$@" "$folder/$program" ;;
    esac
    { time "$@" < "$input" > "$folder/output" 2> "$folder/messages"; } 2> "$folder/time"
    cmp "$folder/expected" "$folder/output" >&2
}

# A line `PROGRAM SECONDS` for each run: each program has one in each round.
seconds() {
    local TIMEFORMAT=%U+%S round program
    for ((round = 0; round < runs; round++)); do
        for program in "${programs[@]}"; do
            count "$program"
            awk -F+ -v program="$program" '{ printf "%s %.3f\n", program, $1 + $2 }' "$folder/time"
        done
    done
}

# A line `PROGRAM INSTRUCTIONS` for each program, by byte.
instructions() {
    local program bytes
    bytes=$(stat -c %s "$input")
    for program in "${programs[@]}"; do
        count "$program" valgrind --tool=callgrind --callgrind-out-file=/dev/null
        awk -v program="$program" -v bytes="$bytes" '/Collected/ { printf "%s %.1f\n", program, $NF / bytes }' "$folder/messages"
    done
}

# The median and the least of the numbers that belong to the program $1.
middle() {
    awk -v program="$1" '$1 == program { print $2 }' "$folder/numbers" | sort -n | awk '
        { at[NR] = $1 }
        END { if (NR == 1) print at[1]; else print at[int((NR + 1) / 2)] " (" at[1] ")" }'
}

programs=(next lines listed flex flex-listed full re2c)
echo "| Input | Tokens | lex_next | with lines | lex_tokens | flex | flex, listed | flex -Cf | re2c |"
echo "|---|---|---|---|---|---|---|---|---|"
for name in c json log; do
    input=$folder/${inputs[$name]}.input
    rules "$here/$name.rules" 0 | "$folder/table" > "$folder/lex.tab"
    make_flex "$here/$name.rules" -Cem "$folder/flex" "$folder/flex-listed"
    make_flex "$here/$name.rules" -Cf "$folder/full"
    re2c -o "$folder/scan.c" "$here/re2c/$name.re"
    cc -O2 -w -I "$here/re2c" -o "$folder/re2c" "$folder/scan.c"
    "$folder/flex" < "$input" > "$folder/expected"
    "$way" > "$folder/numbers"
    row="| $name | $(cut -d ' ' -f 1 "$folder/expected") |"
    for program in "${programs[@]}"; do
        row+=" $(middle "$program") |"
    done
    echo "$row"
done
