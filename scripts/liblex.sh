#!/bin/sh
# Builds liblex.a, with the toolkit's small C part in it, and tries it from C and, where cargo is there, from Rust, over examples/: whole
# inputs, buffers that are too small, memory that is refused, and, where valgrind is there, no bad access and no leak. The examples of
# docs/C.md are run too, and the calculator of examples/calc, from C where bison is there. Needs gcc or CC.
#
#     scripts/liblex.sh [FOLDER]      the folder for what is built: out/liblex by default
#
# The proved part is crates/liblex/out/libliblex.a, of which FOLDER has a copy, since `rt ci` removes what stands in out/ of a crate. One of
# the two is taken where nothing that it was made of is newer. Else `rt lib` proves and makes it. That takes the crates which `rt check`,
# `rt all check` or `rt lib` proved in this tree. What `rt ci` alone proved it proves anew: `rt ci` keeps no libraries for other commands,
# and makes no archive of this one.
set -eu
top=$(cd "$(dirname "$0")/.." && pwd)
out=${1:-$top/out/liblex}
compiler=${CC:-gcc}
kit=$(dirname "$(dirname "$(readlink -f "$(command -v rt)")")")
[ -e "$kit/c/liblibc_c.a" ] || kit=${RATTLE_KIT:-/opt/rattle}
mkdir -p "$out"
out=$(cd "$out" && pwd)
proved=$top/crates/liblex/out/libliblex.a
kept=$out/libliblex.a

# The crates of the repository that liblex is made of, by crates.txt.
crates() {
    awk 'function visit(name, words, count, at) {
            if (!(name in below) || seen[name]++) return
            print name
            count = split(below[name], words, " ")
            for (at = 1; at <= count; at++) visit(words[at])
        }
        { sub(/#.*/, ""); name = $1; sub(/:.*/, "", name); if (sub(/^[^:]*:/, "")) below[name] = $0 }
        END { visit("liblex") }' "$top/crates.txt"
}

# A source, or a part of the toolchain, that was written or put there after the file $1 was; nothing where there is none. A folder counts,
# so that a file that was taken away does.
newer_than() {
    for part in $(crates | sed 's|.*|&/src &/specs &/proofs|'); do
        [ ! -e "$top/crates/$part" ] || set -- "$@" "$top/crates/$part"
    done
    file=$1
    shift
    find "$top/crates.txt" "$kit/WHAT" "$kit/bin/rattle" "$@" \( -newer "$file" -o -cnewer "$file" \) -print | head -n 1
}

is_up_to_date() {
    [ -e "$1" ] && [ -z "$(newer_than "$1")" ]
}

# Proves and makes the archive. One that a source outran while it was made is not kept.
make_archive() {
    : > "$out/begun"
    (cd "$top/crates/liblex" && rt lib)
    changed=$(newer_than "$out/begun")
    [ -z "$changed" ] || { rm -f "$proved"; echo "liblex.sh: $changed changed meanwhile: call again"; exit 1; }
}

rm -f "$out/liblex.a"
if is_up_to_date "$proved"; then
    echo "liblex.sh: crates/liblex/out/libliblex.a is newer than its sources, and is taken"
    cp -p "$proved" "$kept"
elif is_up_to_date "$kept"; then
    echo "liblex.sh: $kept is newer than its sources, and is taken"
else
    make_archive
    cp -p "$proved" "$kept"
fi

# one archive: the proved part, and the part in C that takes memory
printf 'create %s\naddlib %s\naddlib %s\nsave\nend\n' "$out/liblex.a" "$kept" "$kit/c/liblibc_c.a" | ar -M

"$compiler" -std=c99 -Wall -Wextra -Werror -pedantic -O1 -g -I"$top/include" "$top/bindings/c/test.c" "$out/liblex.a" -o "$out/test"

# each example, by the runner named first
examples() {
    for text in "$top"/examples/*.l; do
        name=${text%.l}
        status=0
        [ -e "$name.status" ] && status=$(cat "$name.status")
        "$@" "$out/test" "$text" "$name.input" "$name.output" "$status" || { echo "liblex.sh: $text failed"; exit 1; }
    done
}

examples env
echo "liblex.sh: examples pass from C"

# Memory refused at some point, from too little for anything up to enough, is told, and ends nothing. The test answers 0, or 71 for want
# of memory; 2 is where the test's own memory is refused.
told=0
for kilobytes in 2300 2400 2500 2600 2700 2800 2900 3000 3200 3400 3600 3800 4000 4500 5000 6000 8000; do
    ended=0
    (ulimit -v "$kilobytes"; "$out/test" "$top/examples/c_tokens.l" "$top/examples/c_tokens.input" "$top/examples/c_tokens.output" 0) \
        > "$out/refused" 2>&1 || ended=$?
    case $ended in
        0 | 2) ;;
        71) told=$((told + 1)) ;;
        1) grep -q ': 71$' "$out/refused" && told=$((told + 1)) || { cat "$out/refused"; exit 1; } ;;
        127) ;;
        *) echo "liblex.sh: ended with $ended under $kilobytes KiB"; exit 1 ;;
    esac
done
[ "$told" -gt 0 ] || { echo "liblex.sh: no limit refused memory"; exit 1; }
echo "liblex.sh: memory that is refused is told"

# The examples of docs/C.md in C, as they stand there: two programs, and three functions that bindings/c/pages.c calls.
awk -v page="$out/page" '/^```c$/ { count++; inside = 1; next } /^```$/ { inside = 0 } inside { print > (page count ".c") }' \
    "$top/docs/C.md"
for number in 1 2; do
    "$compiler" -Wall -Wextra -Werror -I"$top/include" "$out/page$number.c" "$out/liblex.a" -o "$out/page$number"
done
"$compiler" -Wall -Wextra -Werror -g -I"$top/include" -pthread \
    "$top/bindings/c/pages.c" "$out/page3.c" "$out/page4.c" "$out/page5.c" "$out/liblex.a" -o "$out/pages"

# Fails with what the page $1 should write and does not.
page_failed() {
    echo "liblex.sh: an example of docs/C.md failed: $1"
    exit 1
}

[ "$("$out/page1")" = "aN bN" ] || page_failed "whole input"
[ "$("$out/page2")" = "$(printf 'rule 1: a\nrule 0: 1\nrule 1: b\nrule 0: 22')" ] || page_failed "tokens"
for text in "$top"/examples/*.l; do
    name=${text%.l} wanted=0 status=0
    [ -e "$name.status" ] && wanted=$(cat "$name.status")
    "$out/pages" input "$text" < "$name.input" > "$out/written" || status=$?
    [ "$status" = "$wanted" ] && cmp -s "$out/written" "$name.output" || page_failed "as it comes, $text"
done
printf '%%%%\n[0-9]+ ;\n[a-z]+ ;\n' > "$out/names.l"
[ "$(printf 'a12 b' | "$out/pages" tokens "$out/names.l")" = "$(printf '1: a\n0: 12\n4294967295:  \n1: b')" ] || page_failed "token by token"
printf '%%%%\n[0-9]+   printf("N");\n^a.*\\n  ;\n' > "$out/lines.l"
for lines in 0 1 2 3 5 100000; do
    awk -v lines="$lines" 'BEGIN { for (; lines > 0; lines--) print substr("a line of b", 1 + lines % 12), lines }' > "$out/lines"
    for end in "" "last 1"; do
        printf '%s' "$end" >> "$out/lines"
        "$out/pages" whole "$out/lines.l" "$out/lines" > "$out/whole" || page_failed "whole, $lines lines"
        "$out/pages" pieces "$out/lines.l" "$out/lines" > "$out/written" || page_failed "in pieces, $lines lines"
        cmp -s "$out/whole" "$out/written" || page_failed "in pieces, $lines lines: something else is written"
    done
done
echo "liblex.sh: the examples of docs/C.md pass"

# The calculator of examples/calc by the program that the words begin with: its answers to a whole input, and to line after line, where each is
# answered before the next is written.
calc=$top/examples/calc
calc_answers() {
    "$@" "$calc/calc.l" < "$calc/calc.input" > "$out/written"
    cmp -s "$out/written" "$calc/calc.output" || { echo "liblex.sh: $1 answers otherwise"; exit 1; }
    rm -f "$out/asked" "$out/answered"
    mkfifo "$out/asked" "$out/answered"
    timeout 60 "$@" "$calc/calc.l" < "$out/asked" > "$out/answered" &
    exec 3> "$out/asked" 4< "$out/answered"
    while IFS= read -r line || [ -n "$line" ]; do
        printf '%s\n' "$line" >&3
        [ -z "$line" ] || { IFS= read -r answer <&4 && printf '%s\n' "$answer"; } || break
    done < "$calc/calc.input" > "$out/written"
    exec 3>&- 4<&-
    wait
    cmp -s "$out/written" "$calc/calc.output" || { echo "liblex.sh: $1 does not answer each line at once"; exit 1; }
}

# The headers of the examples' rules, where lexlook is built: compilers take them.
lexlook=$top/crates/lexlook/out/lexlook
if [ -x "$lexlook" ]; then
    printf '#include "rules.h"\nint main(void) { return lex_first_rule[RULES] != RULES; }\n' > "$out/rules.c"
    for text in "$top"/examples/*.l "$calc/calc.l"; do
        "$lexlook" header "$text" > "$out/rules.h"
        "$compiler" -std=c99 -Wall -Wextra -Werror -pedantic "$out/rules.c" -o "$out/rules" && "$out/rules" || { echo "liblex.sh: the header of $text failed"; exit 1; }
        "$lexlook" header --rust "$text" > "$out/rules.rs"
        ! command -v rustc > /dev/null || rustc --crate-type=lib --emit=metadata -A non_upper_case_globals -D warnings -o "$out/rules.rmeta" "$out/rules.rs"
    done
    echo "liblex.sh: the headers of rules compile"
fi

if command -v bison > /dev/null; then
    bison -Wall -Werror -o "$out/calc.c" "$calc/calc.y"
    "$compiler" -Wall -Wextra -Werror -g -I"$top/include" "$out/calc.c" "$out/liblex.a" -o "$out/calc"
    calc_answers "$out/calc"
    ! command -v valgrind > /dev/null || calc_answers valgrind -q --error-exitcode=9 --leak-check=full "$out/calc"
    echo "liblex.sh: the calculator answers each line"
fi

if command -v valgrind > /dev/null; then
    examples valgrind -q --error-exitcode=9 --leak-check=full
    echo "liblex.sh: valgrind finds nothing"
fi

if command -v cargo > /dev/null; then
    (cd "$top/bindings/rust" && LIBLEX_DIR="$out" CARGO_TARGET_DIR="$out/rust" cargo test --offline --quiet)
    (cd "$top/bindings/rust" && LIBLEX_DIR="$out" CARGO_TARGET_DIR="$out/rust" RUSTDOCFLAGS="-D warnings" \
        cargo doc --offline --quiet --no-deps)
    (cd "$top/bindings/rust" && LIBLEX_DIR="$out" CARGO_TARGET_DIR="$out/rust" cargo build --offline --quiet --example calc)
    calc_answers "$out/rust/debug/examples/calc"
    echo "liblex.sh: the bindings for Rust pass, their pages are built, and their calculator answers each line"
fi
