#!/bin/sh
# Looks whether what building lex needs is here: the toolchain Rattle, by what `rt version` prints, and bash, awk and python3.
#
#     scripts/toolchain.sh
#
# It writes one line: what is here, with status 0, or what is missing, with status 1.
set -eu
kit=13 logic=dac8208d650f15bf
missing=

# Adds a fault to those of the line.
miss() {
    missing="$missing${missing:+; }$1"
}

is_here() {
    command -v "$1" > /dev/null 2>&1
}

# Judges what `rt version` printed, as "rattle-kit-13f logic dac8208d650f15bf ..". A letter may follow the number.
judge() {
    name=${1%% *}
    wanted="rattle-kit-$kit or a later letter of it is needed"
    number=$(printf '%s\n' "$name" | sed -n 's/^rattle-kit-\([0-9][0-9]*\)[a-z]*$/\1/p')
    if [ -z "$number" ]; then
        miss "rt version names no kit: $wanted"
    elif [ "$number" -lt "$kit" ]; then
        miss "$name is too old: $wanted"
    elif [ "$number" -gt "$kit" ]; then
        miss "$name is of another number: $wanted"
    else
        case "$1 " in
            "$name logic $logic "*) ;;
            *) miss "$name has another logic: logic $logic is needed" ;;
        esac
    fi
}

for program in bash awk python3; do
    is_here "$program" || miss "$program is not in the PATH"
done
version=
if ! is_here rt; then
    miss "rt, the command of the toolchain, is not in the PATH"
elif is_here python3; then
    # without python3 rt answers nothing
    version=$(rt version 2> /dev/null) || version=
    judge "$version"
fi
if [ -n "$missing" ]; then
    echo "toolchain.sh: $missing"
    exit 1
fi
echo "toolchain.sh: ${version%% *}, bash, awk and python3 are here"
