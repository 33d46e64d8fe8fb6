#!/usr/bin/env bash
# Scans a large input by a table file in pieces, as many at a time as there are processors, and puts their outputs together in order.
#
#     scripts/pieces.sh TABLE INPUT OUTPUT [JOBS]
#
# `lexlook lines` is asked first: where it has an objection that is written, and the status is 1. The input is cut at newlines, by places:
# no file of a piece is made. What is done stands in the folder OUTPUT.pieces until all is. So the same call, after a piece failed or the
# whole was stopped, scans only what is left. A piece that failed is told with its status, which is then that of the script.
#
# LEX and LEXLOOK are the programs, by default those on the path. PIECE is the most bytes of a piece, by default 64 MiB. It needs GNU
# parallel (Debian's package parallel), and shows its bar where standard error is a terminal.
set -euo pipefail
if [[ $# -lt 3 || $# -gt 4 ]]; then
    echo "usage: pieces.sh TABLE INPUT OUTPUT [JOBS]" >&2
    exit 2
fi
export LC_ALL=C LEX=${LEX:-lex} TABLE=$1 INPUT=$2 WORK=$3.pieces
output=$3
jobs=${4:-$(nproc)}
most=${PIECE:-67108864}

"${LEXLOOK:-lexlook}" lines "$TABLE" >&2 || exit

# The places where pieces begin, and the end of the input: each is the first line's from as many bytes on as a piece has.
places() {
    local size=$1 most=$2 place=0 rest
    echo 0
    while ((place + most < size)); do
        rest=$(tail -c "+$((place + most + 1))" "$INPUT" | head -n 1 | wc -c) || true
        place=$((place + most + rest))
        if ((place < size)); then
            echo "$place"
        fi
    done
    echo "$size"
}

# Scans the bytes from the place $1 up to $2. What it writes has its name when it is whole.
piece() {
    set -o pipefail
    dd if="$INPUT" bs=1M iflag=skip_bytes,count_bytes skip="$1" count=$(($2 - $1)) status=none |
        "$LEX" --scan-table "$TABLE" > "$WORK/$1.part" && mv "$WORK/$1.part" "$WORK/$1"
}
export -f piece

size=$(stat -L -c %s "$INPUT")
share=$(((size + jobs - 1) / jobs))
if ((share < most)); then
    most=$((share > 0 ? share : 1))
fi
what=$(sha256sum < "$TABLE"; stat -L -c '%n %s %Y' "$INPUT")
if [[ -d $WORK && $(cat "$WORK/what" 2> /dev/null) != "$what" ]]; then
    rm -r "$WORK"
fi
if [[ ! -d $WORK ]]; then
    mkdir "$WORK"
    places "$size" "$most" > "$WORK/places"
    echo "$what" > "$WORK/what"
fi

mapfile -t places < "$WORK/places"
left=()
for ((at = 0; at + 1 < ${#places[@]}; at++)); do
    if [[ ! -f $WORK/${places[at]} ]]; then
        left+=("${places[at]} ${places[at + 1]}")
    fi
done
if ((${#left[@]})); then
    bar=()
    if [[ -t 2 ]]; then
        bar=(--bar)
    fi
    if ! printf '%s\n' "${left[@]}" |
        SHELL=/bin/bash parallel --will-cite "${bar[@]}" -j "$jobs" --colsep ' ' --joblog "$WORK/log" piece {1} {2}; then
        # A line of the log has the status in its seventh field, and the two places at its end.
        read -r status first last < <(awk 'NR > 1 && $7 + $8 { print $7 ? $7 : 128 + $8, $(NF - 1), $NF; exit }' "$WORK/log") || true
        echo "pieces.sh: the piece from ${first:-?} to ${last:-?} ended with status ${status:-?}: the same call scans what is left" >&2
        exit "${status:-1}"
    fi
fi
(cd "$WORK" && printf '%s\0' "${places[@]::${#places[@]}-1}" | xargs -0 cat) > "$output.part"
mv "$output.part" "$output"
rm -r "$WORK"
