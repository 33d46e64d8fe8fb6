#!/usr/bin/env bash
# Tells what flex writes for a specification and an input:
#
#     scripts/flex/flex-output.sh SPEC INPUT [FLAGS]
#
# writes it to standard output and ends with the scanner's status; FLAGS are flex's own, such as -i. With no arguments it
# writes examples/NAME.output for each examples/NAME.l and NAME.input, and the status to NAME.status where it is not 0. What flex
# refuses stays as it is: identifiers.l, whose definitions are too long for it.
#
# It wants flex 2.6.4 and a C compiler (apt-get install flex gcc), and is no part of the gate.
set -euo pipefail

# Builds flex's scanner in the folder $1 from the specification $2, and runs it over the input $3.
flex_output() {
    local folder=$1 spec=$2 input=$3
    shift 3
    flex --noyywrap "$@" -o "$folder/scan.c" "$spec" &&
        echo 'int main(void) { return yylex(); }' >> "$folder/scan.c" &&
        cc -w -o "$folder/scan" "$folder/scan.c" &&
        timeout 10 "$folder/scan" < "$input"
}

folder=$(mktemp -d)
trap 'rm -r "$folder"' EXIT
if (($# > 0)); then
    spec=$1 input=$2
    shift 2
    flex_output "$folder" "$spec" "$input" "$@"
    exit
fi
cd "$(dirname "$0")/../../examples"
for spec in *.l; do
    name=${spec%.l}
    if ! flex -o /dev/null "$spec" 2> /dev/null; then
        echo "$name: refused by flex"
        continue
    fi
    status=0
    flex_output "$folder" "$spec" "$name.input" > "$name.output" || status=$?
    rm -f "$name.status"
    if ((status > 0)); then
        echo "$status" > "$name.status"
    fi
    echo "$name: status $status"
done
