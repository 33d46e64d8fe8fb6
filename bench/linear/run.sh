#!/usr/bin/env bash
# Tells the seconds of the processor that a scan takes over texts on which each match goes far and comes back, as inputs.py writes them,
# at SIZE bytes (1 MiB without it, or less, as said for each family), and at 2, 4, 8 and 16 times as many. Each of nine rounds goes over
# all texts of all families; each time is the least. A family that has taken 150 seconds is in no further round, and no longer text is
# tried after a run of more than 20. Behind each time stands how many times as long the text took as the one before it: the median of
# the rounds' quotients. In a round the texts of a family are run one after the other, so that both times of a quotient are taken while
# the machine is as fast as it is then; its speed changes within minutes. Beside it is what flex's scanner takes for 10^4 and 10^5
# bytes, 20 seconds by the clock at most; what it writes is compared.
#
# Then comes a family for which the time is expected to grow with the square of the text, for 2^12 bytes and up, and the memory for one
# string without an end.
#
# The status is 1 where a text twice as long took more than 2.3 times as long, in a family of the first table, and the shorter
# time was above 0.05 s. The program is built first, by `rt run` in crates/lex. flex and a C compiler are wanted
# (apt-get install flex gcc).
#
#     bench/linear/run.sh [LEX [SIZE [FAMILY..]]]       LEX is another program to be measured in its place
set -euo pipefail
here=$(cd "$(dirname "$0")" && pwd)
lex=${1:-$here/../../crates/lex/out/lex}
size=${2:-1048576}
wanted=${*:3}
wanted=${wanted:-all}
folder=$(mktemp -d)
trap 'rm -r "$folder"' EXIT
faults=0

# Whether the first number is greater than the second.
above() {
    awk -v one="$1" -v other="$2" 'BEGIN { exit !(one > other) }'
}

# The median of these numbers, the greater of two.
median() {
    printf '%s\n' "$@" | sort -n | sed -n "$(($# / 2 + 1))p"
}

# The seconds of one run of the command over the text $1, whatever its status.
run() {
    local TIMEFORMAT=%U+%S text=$1
    shift
    echo 0 > "$folder/status"
    { time "$@" < "$text" > "$folder/output" 2> /dev/null || echo $? > "$folder/status"; } 2>&1 | awk -F+ '{ printf "%.3f", $1 + $2 }'
}

# The table file of the family $1, and five texts, each twice as long as the one before, from $2 bytes on.
write_texts() {
    local index
    "$here/inputs.py" "$folder" "$1" 1000
    "$lex" -w -o "$folder/$1.tab" "$folder/$1.l"
    for index in 0 1 2 3 4; do
        "$here/inputs.py" "$folder" "$1" $(($2 << index))
        mv "$folder/$1.input" "$folder/$1.$index"
    done
}

# Takes a run of lex over each text of the family $1 into `least` and `quotients`, up to one that takes more than 20 seconds.
round() {
    local index took before=''
    for index in 0 1 2 3 4; do
        took=$(run "$folder/$1.$index" "$lex" --scan-table "$folder/$1.tab")
        if [[ -z ${least[$1.$index]-} ]] || above "${least[$1.$index]}" "$took"; then
            least[$1.$index]=$took
        fi
        if [[ -n $before ]] && above "$before" 0; then
            quotients[$1.$index]+=" $(awk -v one="$took" -v other="$before" 'BEGIN { printf "%.2f", one / other }')"
        fi
        before=$took
        if above "$took" 20; then
            return
        fi
    done
}

# The cells of the family $1. Ratios are judged where $2 is `judged`.
doublings() {
    local ratio index before=0
    for index in 0 1 2 3 4; do
        row+=" ${least[$1.$index]-}"
        if [[ -n ${quotients[$1.$index]-} ]] && above "$before" 0.05; then
            ratio=$(median ${quotients[$1.$index]})
            row+=" ($ratio)"
            if [[ $2 == judged ]] && above "$ratio" 2.3; then
                faults=$((faults + 1))
            fi
        fi
        row+=" |"
        before=${least[$1.$index]-0}
    done
}

# The cells of flex's scanner for 10^4 and 10^5 bytes.
beside() {
    local bytes took
    for bytes in 10000 100000; do
        "$here/inputs.py" "$folder" "$name" "$bytes"
        "$lex" --scan-table "$folder/$name.tab" < "$folder/$name.input" > "$folder/expected"
        took=$(run "$folder/$name.input" timeout 20 "$folder/flex")
        case $(cat "$folder/status") in
            0) cmp "$folder/expected" "$folder/output" >&2 && row+=" $took |" ;;
            124) row+=" stopped after $took |" ;;
            *) row+=" gives up |" ;;
        esac
    done
}

# Nine rounds over the families in $@, each behind its number of bytes, that are asked for. None is made of a family that has
# taken 150 seconds.
measure() {
    local count name began
    local -A bytes=() spent=()
    while (($# > 0)); do
        if [[ $wanted == all || " $wanted " == *" $2 "* ]]; then
            bytes[$2]=$1
            families+=("$2")
            write_texts "$2" "$1"
        fi
        shift 2
    done
    for ((count = 0; count < 9; count++)); do
        for name in "${families[@]}"; do
            began=$SECONDS
            if ((${spent[$name]-0} < 150)); then
                round "$name"
            fi
            spent[$name]=$((${spent[$name]-0} + SECONDS - began))
        done
    done
    for name in "${families[@]}"; do
        rows+=("| $name | ${bytes[$name]} |")
    done
}

# The table of these families. Ratios are judged where $1 is `judged`.
table() {
    local row index
    least=() quotients=() families=() rows=()
    local how=$1
    shift
    measure "$@"
    echo "| Family | n | n bytes | 2 n | 4 n | 8 n | 16 n | flex, 10^4 | flex, 10^5 |"
    echo "|---|---|---|---|---|---|---|---|---|"
    for index in "${!families[@]}"; do
        name=${families[index]}
        row=${rows[index]}
        doublings "$name" "$how"
        make_flex
        beside
        echo "$row"
        rm "$folder/$name".[0-4]
    done
}

# Makes flex's scanner of the family.
make_flex() {
    flex --noyywrap -o "$folder/scan.c" "$folder/$name.l" 2> /dev/null
    echo 'int main(void) { return yylex(); }' >> "$folder/scan.c"
    cc -O2 -w -o "$folder/flex" "$folder/scan.c"
}

# The most kibibytes that are resident in a scan of one string without an end, of $1 bytes.
resident() {
    "$here/inputs.py" "$folder" string "$1"
    /usr/bin/time -f %M "$lex" --scan-table "$folder/lex.tab" < "$folder/string.input" 2>&1 > /dev/null
}

declare -A least=() quotients=()
declare -a families=() rows=()
pairs=()
for name in letters line comments statements string context less more every2 context_found context_every2 less_found reject; do
    pairs+=("$size" "$name")
done
pairs+=($((size / 4)) every7)
for name in every64 every2to6 every2to8; do
    pairs+=($((size / 16)) "$name")
done
table judged "${pairs[@]}"
echo
table shown 4096 reject_set
echo
"$here/inputs.py" "$folder" string 1000
"$lex" -w -o "$folder/lex.tab" "$folder/string.l"
short=$(resident "$size") long=$(resident $((16 * size)))
awk -v short="$short" -v long="$long" -v size="$size" 'BEGIN {
    printf "Resident: %d KiB for %d bytes, %d KiB for %d: %.2f bytes for each byte held ahead.\n",
        short, size, long, 16 * size, (long - short) * 1024 / (15 * size) }'
if ((faults > 0)); then
    echo "$faults times a text twice as long took more than 2.3 times as long."
    exit 1
fi
