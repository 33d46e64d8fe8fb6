#!/usr/bin/env bash
# Scans 1 GB of lines (or BYTES) in pieces, by 1, 2 and 4 processes at a time: by scripts/pieces.sh, and by GNU parallel as docs/MANUAL.md
# has it. Beside them one scan of the whole, `wc -l` and `cat` of the same file. Each runs RUNS times in turn (3 without it). A row tells
# the median of the seconds by the clock, the least, and the seconds of the processor of the median's run. What is written is compared
# with what the scan of the whole writes. With LIBLEX, the path of liblex.a, there are rows of threads.c too: one process with so many
# threads, over the mapped file.
#
#     bench/pieces/run.sh LEX LEXLOOK [RUNS [BYTES [LIBLEX]]]
set -euo pipefail
here=$(cd "$(dirname "$0")" && pwd)
export LEX LEXLOOK
LEX=$(realpath "$1") LEXLOOK=$(realpath "$2")
runs=${3:-3} bytes=${4:-1000000000} library=${5:+$(realpath "${5-}")}
folder=$(mktemp -d)
trap 'rm -r "$folder"' EXIT
cd "$folder"
export LC_ALL=C
"$LEX" -o log.tab "$here/log.l"
# The log of bench/scan, again and again.
mkdir inputs
"$here/../scan/inputs.py" inputs 20000000
while (($(stat -c %s big.txt 2> /dev/null || echo 0) < bytes)); do
    cat inputs/lines.input >> big.txt
done
rm -r inputs
"$LEX" --scan-table log.tab < big.txt > whole

# The ways, as NAME COMMAND; each writes the file `output`.
ways=(
    "cat|cat big.txt > output"
    "wc -l|wc -l < big.txt > output"
    "one scan|\"\$LEX\" --scan-table log.tab < big.txt > output"
)
if [[ -n $library ]]; then
    cc -O2 -pthread -D_GNU_SOURCE -I"$here/../../include" "$here/threads.c" "$library" -o threads
fi
for jobs in 1 2 4; do
    ways+=("pieces.sh, $jobs|\"$here/../../scripts/pieces.sh\" log.tab big.txt output $jobs")
    ways+=("parallel, $jobs|parallel --will-cite -j $jobs --pipepart -a big.txt --block 64M --keep-order \"\$LEX\" --scan-table log.tab > output")
    [[ -z $library ]] || ways+=("threads, $jobs|./threads log.tab big.txt $jobs > output")
done

TIMEFORMAT='%R %U %S'
for ((round = 0; round < runs; round++)); do
    for way in "${ways[@]}"; do
        { time bash -c "${way#*|}" 2> /dev/null; } 2> time
        case ${way%%|*} in
            cat | "wc -l") ;;
            *) cmp whole output ;;
        esac
        rm -f output
        echo "${way%%|*}|$(awk '{ print $1, $2 + $3 }' time)"
    done
done > rows

echo "| What | Seconds by the clock | Of the processor |"
echo "|---|---|---|"
for way in "${ways[@]}"; do
    name=${way%%|*}
    grep -F "$name|" rows | awk -F'|' -v name="$name" '$1 == name { print $2 }' | sort -n |
        awk -v name="$name" '{ clock[NR] = $1; processor[NR] = $2 } END { at = int((NR + 1) / 2);
            printf "| %s | %.2f (%.2f) | %.2f |\n", name, clock[at], clock[1], processor[at] }'
done
