#!/usr/bin/env bash
# Tries the first hour of a new user: it takes the commands out of README.md and runs them in a clean clone of the last commit, in their
# order, until one fails.
#
#     scripts/first-hour.sh            all of them: that proves everything twice, and takes hours
#     scripts/first-hour.sh --quick    but for the lines that prove: the programs and the library of crates/*/out are copied into the clone
#     scripts/first-hour.sh --list     writes the blocks, and runs nothing
#
# With --quick the programs have to be those of the last commit. That is not looked at.
#
# A block of README is four blanks to the right, below an empty line. It is commands where its first word is `cd`, `rt`, or a path in
# scripts/ or crates/, a parenthesis before it aside. Else it is an example of text. A line proves where it has `rt all`, `rt run`,
# `rt check`, `rt lib` or `rt ci`. Each block is run by a bash of its own, in the top folder of the clone. HOME is a new folder where
# scripts/install.sh is called, so README lets it install below HOME.
#
# Where a block scans examples/keywords.input, its output has to end with examples/keywords.output. What README says that `rt try` writes
# at its end has to be there. The status is 1 where a block fails, and 2 where nothing can be tried.
set -euo pipefail
top=$(cd "$(dirname "$0")/.." && pwd)
mode=${1-}
commands='^\(?(cd|rt|scripts/[^ ]+|crates/[^ ]+)( |$)'
proving='\brt (all|run|check|lib|ci)\b'

refuse() {
    echo "first-hour.sh: $1" >&2
    exit 2
}

case $#:$mode in
    0: | 1:--quick | 1:--list) ;;
    *) refuse "usage: scripts/first-hour.sh [--quick | --list]" ;;
esac

# The blocks of the page $1, each into a file of the folder $2, numbered in their order.
write_blocks() {
    awk -v folder="$2" '
        /^    / && blank { count++ }
        /^    / && (blank || inside) { inside = 1; blank = 0; print substr($0, 5) > sprintf("%s/%03d", folder, count); next }
        { inside = 0; blank = /^$/ }' "$1"
}

is_commands() {
    [[ $(head -n 1 "$1") =~ $commands ]]
}

# Puts what was built in this tree into the clone.
copy_built() {
    local built
    for built in crates/lex/out/lex crates/lexlook/out/lexlook crates/liblex/out/libliblex.a; do
        [[ -f $top/$built ]] || refuse "$built is not there: build it, or leave --quick out"
        mkdir -p "$(dirname "$clone/$built")"
        cp "$top/$built" "$clone/$built"
    done
}

# Takes the lines that prove out of the block $1; a status of 1 where no line is left.
leave_proofs_out() {
    local line
    grep -E "$proving" "$1" | while read -r line; do echo "left out: $line"; done
    sed -i -E "/$proving/d" "$1"
    [[ -s $1 ]]
}

# Ends the whole, with what the block wrote, and why.
fail() {
    tail -n 20 "$folder/output" "$folder/errors"
    echo "first-hour.sh: $1: $(head -n 1 "$block")"
    exit 1
}

# Runs the block in the file $1.
run_block() {
    local home=${HOME:-/} example=$clone/examples/keywords.output last
    grep -q 'scripts/install.sh' "$1" && home=$folder/home
    (cd "$clone" && HOME=$home bash -euo pipefail "$1") > "$folder/output" 2> "$folder/errors" < /dev/null || fail "failed"
    if grep -q 'keywords\.input' "$1"; then
        tail -c "$(wc -c < "$example")" "$folder/output" | cmp -s - "$example" || fail "the output does not end with keywords.output"
    fi
    if grep -q 'rt try' "$1"; then
        last=$(sed -n 's/.*`\(run=ended[^`]*\)`.*/\1/p' "$clone/README.md")
        grep -qxF "$last" "$folder/errors" || fail "README says that rt try writes '$last'"
    fi
}

folder=$(mktemp -d)
trap 'rm -rf "$folder"' EXIT
clone=$folder/lex
mkdir "$folder/blocks" "$folder/home"
git clone --quiet "$top" "$clone" || refuse "no clone of $top"
write_blocks "$clone/README.md" "$folder/blocks"
[[ $mode != --quick ]] || copy_built
count=0
for block in "$folder"/blocks/*; do
    is_commands "$block" || continue
    count=$((count + 1))
    if [[ $mode == --list ]]; then
        cat "$block"
    elif [[ $mode != --quick ]] || leave_proofs_out "$block"; then
        SECONDS=0
        run_block "$block"
        echo "passed in $SECONDS s: $(head -n 1 "$block")"
    fi
done
((count > 0)) || refuse "README.md has no block of commands"
