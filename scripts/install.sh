#!/usr/bin/env bash
# Installs what was built: the programs lex and lexlook, the library liblex with its header, manual pages, completions for bash, zsh and
# fish, pages and examples. Or it removes them again.
#
#     scripts/install.sh [--prefix DIR] [--name NAME]     installs below DIR, by default /usr/local
#     scripts/install.sh [--prefix DIR] --uninstall       removes what an installation below DIR put there, and nothing else
#
# The program lex is installed as NAME, with its page and its completions. Without --name it is lex; or lexp, where another lex is in
# DIR/bin or on the path. For make's own rule for .l files runs the first lex that it finds, and wants it to write C.
#
# Nothing is proved or compiled here. Only the shared library is linked, by cc or CC. What was not built is refused, with the command that
# builds it. So is a file that is there already, unless an earlier installation put it there, or it has the name that --name gives: that
# one is replaced. All this is looked at before the first file is copied, and files get their names when all are there.
#
# DIR/share/lex/installed-files lists the files with their sums: `sha256sum -c share/lex/installed-files` in DIR compares them. DESTDIR,
# where it is set, is put before DIR, for who makes a package.
set -euo pipefail
shopt -s nullglob
export LC_ALL=C
top=$(cd "$(dirname "$0")/.." && pwd)
list=share/lex/installed-files
heading='# what scripts/install.sh installed of lex'

say() {
    echo "install.sh: $*" >&2
}

refuse() {
    say "$@"
    exit 1
}

usage() {
    say "usage: install.sh [--prefix DIR] [--name NAME | --uninstall]"
    exit 2
}

# ---- what is to be installed

# The version, which VERSION has in one line.
read_version() {
    version=$(cat "$top/VERSION") || refuse "there is no file VERSION"
    [[ $version =~ ^[0-9]+\.[0-9]+\.[0-9]+$ ]] || refuse "VERSION has no version of three numbers"
}

# The folder of the toolkit, whose small part in C belongs to the library.
kit() {
    local folder=${RATTLE_KIT:-/opt/rattle}
    if command -v rt > /dev/null; then folder=$(dirname "$(dirname "$(readlink -f "$(command -v rt)")")"); fi
    if [[ -e $folder/c/liblibc_c.a ]]; then echo "$folder"; else echo "${RATTLE_KIT:-/opt/rattle}"; fi
}

# What was not built, with the command that builds it; a status of 1 where there is something.
all_built() {
    local missing=0
    if [[ ! -f $top/crates/lex/out/lex ]]; then
        say "crates/lex/out/lex was not built. In crates/lex these build it: rt all check --jobs 4;" \
            "rt run -- --scan-spec ../../examples/keys.l < ../../examples/keys.input"
        missing=1
    fi
    if [[ ! -f $top/crates/lexlook/out/lexlook ]]; then
        say "crates/lexlook/out/lexlook was not built. In crates/lexlook these build it: rt all check --jobs 4; rt run -- --help"
        missing=1
    fi
    if [[ ! -e $archive && ! (-e $part && -e $(kit)/c/liblibc_c.a) ]]; then
        say "out/liblex/liblex.a was not built. This builds it: scripts/liblex.sh"
        missing=1
    fi
    command -v "$compiler" > /dev/null || { say "there is no $compiler, which links the shared library: set CC"; missing=1; }
    return "$missing"
}

# The archive, as scripts/liblex.sh has built it, or put together as it does where its first part is newer or alone.
put_archive() {
    if [[ -e $archive && ! $part -nt $archive ]]; then
        install -m 644 "$archive" "$1"
    else
        cp "$part" "$work/part.a"
        cp "$(kit)/c/liblibc_c.a" "$work/memory.a"
        (cd "$work" && printf '%s\n' 'create liblex.a' 'addlib part.a' 'addlib memory.a' save end | ar -M)
        install -m 644 "$work/liblex.a" "$1"
    fi
}

# The names of the calls that the header declares.
calls() {
    sed -n 's/^[a-z][a-z0-9_ ]*[ *]\(lex_[a-z0-9_]*\)(.*/\1/p' "$top/include/lex.h"
}

# The shared library of the archive $1 in the folder $2. It has no names but the calls of the header.
put_shared() {
    local first=${version%%.*}
    local name=liblex.so.$first
    printf 'LEX_%s {\nglobal:\n%s;\nlocal: *;\n};\n' "$first" "$(calls | paste -sd ';')" > "$work/names"
    "$compiler" -shared -Wl,-soname,"$name" -Wl,--version-script="$work/names" -Wl,--no-undefined,--gc-sections -Wl,-z,relro,-z,now \
        -Wl,--whole-archive "$1" -Wl,--no-whole-archive -o "$work/liblex.so" || refuse "the shared library cannot be linked"
    install -m 644 "$work/liblex.so" "$2/liblex.so.$version"
    ln -s "liblex.so.$version" "$2/$name"
    ln -s "$name" "$2/liblex.so"
}

# Copies the file $1 to $2, with the name that the program is installed by where a page or a completion calls it lex.
put_named() {
    sed -e "s/^\.TH LEX 1/.TH ${name^^} 1/" -e "s/^lex \\\\- make/$name \\\\- make/" \
        -e "/^\.SH SYNOPSIS/,/^\.SH DESCRIPTION/s/^\.B lex\>/.B $name/" \
        -e "s/^\(\$ .*| \|\$ \)lex /\1$name /" -e "s/^\.BR lex (1)/.BR $name (1)/" -e "s|^\.I docs/|.I $prefix/share/doc/lex/|" \
        -e "s/^#compdef lex$/#compdef $name/" -e "s/^complete -c lex /complete -c $name /" -e "s/^\(complete .* -F _lex\) lex$/\1 $name/" \
        "$1" | install -m 644 /dev/stdin "$2"
}

# All that is to be installed, in the folder $work/files.
gather() {
    local files=$work/files path
    mkdir -p "$files"/{bin,include,lib/pkgconfig,share/{doc/lex/examples,lex,man/man1}}
    mkdir -p "$files"/share/{bash-completion/completions,fish/vendor_completions.d,zsh/site-functions}
    install -m 755 "$top/crates/lex/out/lex" "$files/bin/$name"
    install -m 755 "$top/crates/lexlook/out/lexlook" "$files/bin/lexlook"
    install -m 644 "$top/include/lex.h" "$files/include/lex.h"
    sed "s|^prefix=.*|prefix=$prefix|" "$top/include/lex.pc" | install -m 644 /dev/stdin "$files/lib/pkgconfig/lex.pc"
    put_archive "$files/lib/liblex.a"
    put_shared "$files/lib/liblex.a" "$files/lib"
    put_named "$top/docs/lex.1" "$files/share/man/man1/$name.1"
    put_named "$top/docs/lexlook.1" "$files/share/man/man1/lexlook.1"
    put_named "$top/share/completions/lex.bash" "$files/share/bash-completion/completions/$name"
    put_named "$top/share/completions/lexlook.bash" "$files/share/bash-completion/completions/lexlook"
    put_named "$top/share/completions/_lex" "$files/share/zsh/site-functions/_$name"
    put_named "$top/share/completions/_lexlook" "$files/share/zsh/site-functions/_lexlook"
    put_named "$top/share/completions/lex.fish" "$files/share/fish/vendor_completions.d/$name.fish"
    put_named "$top/share/completions/lexlook.fish" "$files/share/fish/vendor_completions.d/lexlook.fish"
    install -m 644 "$top"/{LICENSE,CHANGELOG.md} "$top"/docs/{MANUAL,TABLE-FORMAT,C}.md "$files/share/doc/lex"
    install -m 644 "$top"/examples/*.* "$files/share/doc/lex/examples"
    (cd "$top/share" && find . -path ./completions -prune -o -type f -print) | while read -r path; do
        install -D -m "$([[ -x $top/share/$path ]] && echo 755 || echo 644)" "$top/share/$path" "$files/share/lex/$path"
    done
    (cd "$files" && find . \( -type f -o -type l \) -printf '%P\n' | sort > "$work/paths")
}

# ---- what is there already

# The line of the list $1 that has the path $2.
line_of() {
    awk -v path="$2" 'length($1) == 64 && substr($0, 67) == path || $1 == "#link" && $2 == path' "$1"
}

# Whether the path $2 below the folder $1 is there by an earlier installation.
is_ours() {
    [[ -f $1/$list && $(head -n 1 "$1/$list") == "$heading"* && ($2 == "$list" || -n $(line_of "$1/$list" "$2")) ]]
}

# Whether an earlier installation below DIR put the lex of the folder $1 there.
is_our_lex() {
    local base
    for base in "$root" "$prefix"; do
        [[ "$(realpath -m "$1")" == "$(realpath -m "$base/bin")" ]] && is_ours "$base" bin/lex && return
    done
    return 1
}

# A lex in DIR/bin or on the path that no such installation put there; a status of 1 where there is none.
other_lex() {
    local folders folder
    IFS=: read -ra folders <<< "$PATH"
    for folder in "$root/bin" "${folders[@]}"; do
        if [[ -x ${folder:-.}/lex && ! -d ${folder:-.}/lex ]] && ! is_our_lex "${folder:-.}"; then
            echo "${folder:-.}/lex"
            return
        fi
    done
    return 1
}

choose_name() {
    local other
    if [[ -n $name ]]; then
        named=$name
    elif other=$(other_lex); then
        name=lexp
        note="there is another lex, $other: the program is installed as lexp (--name lex installs it as lex)"
    else
        name='lex'
    fi
}

# Whether the file $1 has the name that --name gives.
is_named() {
    [[ -n $named && " bin/$named share/man/man1/$named.1 share/bash-completion/completions/$named share/zsh/site-functions/_$named \
        share/fish/vendor_completions.d/$named.fish " == *" $1 "* ]]
}

# Refuses what stands in the way.
look_at_targets() {
    local path folder
    while read -r path; do
        if [[ -d $root/$path && ! -L $root/$path ]]; then
            refuse "$root/$path is a folder"
        elif [[ -e $root/$path || -L $root/$path ]] && ! is_ours "$root" "$path" && ! is_named "$path"; then
            refuse "$root/$path is there already, and no installation by this script put it there: nothing is installed"
        fi
        folder=$(dirname "$root/$path")
        while [[ ! -e $folder && ! -L $folder ]]; do folder=$(dirname "$folder"); done
        [[ -d $folder && -w $folder && -x $folder ]] || refuse "$folder is no folder that can be written to: nothing is installed"
    done < <(cat "$work/paths"; echo "$list")
}

# ---- copying

# Makes the folder $1 and those above it, and keeps which were made.
make_folder() {
    [[ -d $1 ]] && return
    make_folder "$(dirname "$1")"
    mkdir -m 755 "$1"
    made+=("$1")
}

# Takes back what a copy that failed has left.
take_back() {
    local at
    for at in "${copied[@]}"; do rm -f "$at.new-by-install"; done
    for ((at = ${#made[@]} - 1; at >= 0; at--)); do rmdir "${made[at]}" 2> /dev/null || true; done
}

# The list: files with their sums, links, and the folders that this or an earlier installation made.
write_list() {
    local path folder
    echo "$heading $version below this folder"
    {
        for folder in "${made[@]}"; do
            case $folder in
                "$root") echo "#folder ." ;;
                "$root"/*) echo "#folder ${folder#"$root"/}" ;;
            esac
        done
        [[ ! -f $root/$list ]] || grep '^#folder ' "$root/$list" || true
    } | sort -u
    while read -r path; do
        if [[ -L $path ]]; then echo "#link $path $(readlink "$path")"; else sha256sum "$path"; fi
    done < "$work/paths"
}

# Copies all files under names of their own, and then gives them theirs.
copy() {
    local path
    trap 'take_back; rm -rf "$work"' EXIT
    while read -r path; do make_folder "$(dirname "$root/$path")"; done < <(cat "$work/paths"; echo "$list")
    (cd "$work/files"; write_list > "$work/list")
    install -m 644 "$work/list" "$work/files/$list"
    while read -r path; do
        copied+=("$root/$path")
        cp -pP "$work/files/$path" "$root/$path.new-by-install" || refuse "$root/$path cannot be written: nothing is installed"
    done < <(cat "$work/paths"; echo "$list")
    for path in "${copied[@]}"; do mv -fT "$path.new-by-install" "$path"; done
    trap 'rm -rf "$work"' EXIT
}

# ---- removing

# The files and links of the list $1. A list that leads out of its folder is refused.
listed_paths() {
    local paths
    [[ $(head -n 1 "$1") == "$heading"* ]] || refuse "$root/$list is no list of this script: nothing is removed"
    paths=$(sed -nE -e 's/^[0-9a-f]{64}  //p' -e 's/^#link (.*) [^ ]*$/\1/p' "$1")
    ! sed 's/^#folder //' "$1" | grep -E '^([0-9a-f]{64}  |#link )?(/|(.*/)?\.\.(/| |$))' > "$work/outside" ||
        refuse "$root/$list leads out of its folder, by $(head -n 1 "$work/outside"): nothing is removed"
    printf '%s\n' "$paths"
}

# Removes those of the paths that are read which are as the list $1 has them.
remove_files() {
    local path line
    while read -r path; do
        line=$(line_of "$1" "$path")
        if [[ ! -e $root/$path && ! -L $root/$path ]]; then
            continue
        elif [[ -L $root/$path && $line == "#link $path $(readlink "$root/$path")" ]] ||
            { [[ ! -L $root/$path && $line != "#link"* ]] && (cd "$root" && sha256sum --status -c <<< "$line"); }; then
            rm -f "$root/$path"
        else
            say "$root/$path is not as it was installed, and stays"
        fi
    done
}

remove_folders() {
    local path
    while read -r path; do
        if [[ $path == . ]]; then path=$root; else path=$root/$path; fi
        rmdir "$path" 2> /dev/null || true
    done
}

uninstall() {
    [[ -f $root/$list ]] || refuse "there is no $root/$list: nothing was installed there by this script"
    cp "$root/$list" "$work/list"
    listed_paths "$work/list" > "$work/paths"
    remove_files "$work/list" < "$work/paths"
    rm -f "$root/$list"
    sed -n 's/^#folder //p' "$work/list" | sort -r | remove_folders
}

# Removes what an earlier installation, with the list $1, put there and this one does not.
remove_earlier() {
    [[ -s $1 ]] || return 0
    listed_paths "$1" | sort | comm -23 - "$work/paths" > "$work/earlier-paths"
    remove_files "$1" < "$work/earlier-paths"
}

# Whether programs look for shared libraries in DIR/lib, by a table that may be written.
is_loaded_from() {
    [[ -z ${DESTDIR:-} && $(id -u) == 0 && -n $(ldconfig -NXv 2> /dev/null | awk -v folder="$prefix/lib:" '$1 == folder') ]]
}

# ---- the command line

prefix=/usr/local name='' named='' note='' mode=install made=() copied=()
while (($#)); do
    case $1 in
        --prefix) (($# > 1)) || usage; prefix=$2; shift 2 ;;
        --prefix=*) prefix=${1#*=}; shift ;;
        --name) (($# > 1)) || usage; name=$2; shift 2; [[ -n $name ]] || usage ;;
        --name=*) name=${1#*=}; shift; [[ -n $name ]] || usage ;;
        --uninstall) mode=uninstall; shift ;;
        *) usage ;;
    esac
done
[[ $mode == install || -z $name ]] || usage
[[ $prefix == /* ]] || refuse "the prefix has to begin with /, and $prefix does not"
case $prefix in
    *[[:space:][:cntrl:]\"\'\\\$\#\|\&]*) refuse "the prefix has a blank or another byte that lex.pc cannot have: $prefix" ;;
esac
[[ -z $name || ($name =~ ^[A-Za-z0-9][A-Za-z0-9._+-]*$ && $name != lexlook) ]] || refuse "the program cannot be called $name"
while [[ $prefix == */ ]]; do prefix=${prefix%/}; done
root=${DESTDIR:+$(realpath -m "$DESTDIR")}$prefix
compiler=${CC:-cc} archive=$top/out/liblex/liblex.a part=$top/crates/liblex/out/libliblex.a
work=$(mktemp -d)
trap 'rm -rf "$work"' EXIT

loaded=0
if is_loaded_from; then loaded=1; fi
if [[ $mode == uninstall ]]; then
    uninstall
else
    read_version
    all_built || exit 1
    choose_name
    gather
    look_at_targets
    [[ ! -f $root/$list ]] || cp "$root/$list" "$work/earlier"
    copy
    remove_earlier "$work/earlier"
    [[ -z $note ]] || say "$note"
fi
if ((loaded)) || is_loaded_from; then ldconfig; fi
