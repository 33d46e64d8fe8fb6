#!/usr/bin/env bash
# Runs all tests, unproved: those of lextest_parts and lextest_calls, and the rows of lextest_product, side by side. Tells what each
# crate passed and failed, with what failed, and then all together. Ends with status 1 where something failed or did not run.
#
#     scripts/test.sh
set -uo pipefail
cd "$(dirname "$0")/../crates"
logs=$(mktemp -d)
trap 'rm -r "$logs"' EXIT
# All is built with checks, which makes it slow: so many seconds are given to the tests of a crate, and to the rows of a file.
seconds=300

tests() { (cd "$1" && rt try --test --seconds $seconds) > "$logs/$1" 2>&1; }

# The rows are gone over in two parts, of which the first has the files of long texts.
rows() { (cd lextest_product && rt try --seconds $seconds --cases "$logs/$1" -- {}) > "$logs/lextest_product.$1" 2>&1; }

mkdir "$logs/long" "$logs/short"
cp lextest_product/data/*.txt "$logs/short"
mv "$logs"/short/l{imits,ong_names,ong_patterns}.txt "$logs/short/specifications.txt" "$logs/long"

tests lextest_parts &
tests lextest_calls &
rows long &
rows short &
wait
passed=0 failed=0

# Tells of a crate, and adds its counts.
tell() {
    echo "$1: $2 passed, $3 failed"
    passed=$((passed + $2)) failed=$((failed + $3))
}

for name in lextest_parts lextest_calls; do
    grep -A 3 "FAILED" "$logs/$name"
    if counts=$(grep -oE "[0-9]+ passed; [0-9]+ failed" "$logs/$name"); then
        read -r good _ bad _ <<< "$counts"
        tell $name "$good" "$bad"
    else
        tail -n 5 "$logs/$name"
        tell $name 0 1
    fi
done

# Rows: each kind of a file has a line with their count, and each row that is answered otherwise one with its line. As many rows as
# stdout has are wanted: those of a file that was not gone through to its end have failed too.
wanted=$(awk '{ rows += $2 } END { print rows + 0 }' lextest_product/stdout)
for part in long short; do
    grep -q "^cases=" "$logs/lextest_product.$part" || tail -n 5 "$logs/lextest_product.$part"
done
cat "$logs"/lextest_product.* > "$logs/lextest_product"
awk '/^== / { file = $2 } /^case:[0-9]+:/ { sub("case", file); print } /^case=.*no-answer/' "$logs/lextest_product"
good=$(awk '/^case: / { rows += $2 } /^case:[0-9]+:/ { rows -= 1 } END { print rows + 0 }' "$logs/lextest_product")
tell lextest_product "$good" $((wanted - good))

echo "$passed passed, $failed failed"
((failed == 0))
