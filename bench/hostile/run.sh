#!/usr/bin/env bash
# Tells the seconds of the processor and the most memory that lex takes near the limits: for each file of files.py, for an
# input of 1 GB in short lines, and for one of 256 MB without the end of a line. A run that takes more than two minutes, or
# 8 GB, is stopped.
#
#     bench/hostile/run.sh [LEX]              LEX is another program to be measured in its place
set -eu
here=$(cd "$(dirname "$0")" && pwd)
lex=${1:-$here/../../crates/lex/out/lex}
folder=$(mktemp -d)
trap 'rm -r "$folder"' EXIT
"$here/files.py" "$folder"
cd "$folder"
ulimit -t 120 -v 8000000

# What a run on standard input answers, and what it takes.
tell() {
    echo "$1"
    shift
    /usr/bin/time --quiet -f "    %U s of the processor and %S s of the system, %M KiB, status %x" "$@" 2>&1 > /dev/null | sed 's/^lex:/    lex:/'
}

for name in conditions everywhere rejecting; do
    tell "$name.l, made" "$lex" -w -o "$name.tab" "$name.l" < /dev/null
    echo "    $(stat -c %s "$name.tab") bytes"
    head -c 300 /dev/zero | tr '\0' a | tell "$name.tab, 300 letters scanned" "$lex" --scan-table "$name.tab"
done
tell "slots.tab, no input" "$lex" --scan-table slots.tab < /dev/null
head -c 20000000 /dev/urandom | tell "slots.tab, 20 MB of random bytes" "$lex" --scan-table slots.tab
tell "slots_short.tab" "$lex" --scan-table slots_short.tab < /dev/null
tell "slots_wrong.tab" "$lex" --scan-table slots_wrong.tab < /dev/null
yes "a line" | head -c 1000000000 | tell "1 GB of lines" "$lex" -w --scan-spec lines.l
head -c 256000000 /dev/zero | tell "one text of 256 MB" "$lex" -w --scan-spec lines.l
head -c 256000000 /dev/zero | tell "one text of 256 MB, with the states on the way" "$lex" -w --scan-spec trail.l
