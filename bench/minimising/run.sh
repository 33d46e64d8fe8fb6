#!/usr/bin/env bash
# Builds the automata of the specifications here and the least ones, and tells the states, the time of building and of
# minimising, the seconds of the whole run and its most memory, beside the seconds and memory of flex for the same file.
# docs/SPEED.md has what it printed.
set -euo pipefail
cd "$(dirname "$0")"
program=$(mktemp)
trap 'rm "$program"' EXIT
../steps/build.sh "$program"
for spec in *.l; do
    echo "$spec"
    /usr/bin/time --quiet -f "%e s, %U s of the processor, %M KiB" "$program" times < "$spec" 2>&1 || true
    # flex makes a whole scanner of the same rules, where it is installed
    if command -v flex > /dev/null; then
        /usr/bin/time --quiet -f "flex: %e s, %U s of the processor, %M KiB" flex -t "$spec" 2>&1 > /dev/null | tail -n 1
    fi
done
