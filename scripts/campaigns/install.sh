#!/usr/bin/env bash
# Installs, removes and packs what was built, in folders of its own, and looks at what is there then.
#
#     scripts/campaigns/install.sh
#
# The programs and the library have to be built: scripts/install.sh says how, where they are not. A line is printed for each try, with what
# went wrong in it; the status is 1 if one failed. It needs what scripts/install.sh and scripts/package.sh need, and man, pkg-config and
# lintian. What tries fish and zsh is left out where these are not there.
set -euo pipefail
export LC_ALL=C
unset DESTDIR
umask 022
top=$(cd "$(dirname "$0")/../.." && pwd)
work=$(mktemp -d)
trap 'rm -rf "$work"' EXIT
failed=0

# Runs the function $2, which is a try of what $1 says.
try() {
    local status
    mkdir "$work/try"
    set +e
    (set -e; cd "$work/try"; "$2") > "$work/said" 2>&1
    status=$?
    set -e
    rm -rf "$work/try"
    if ((status == 0)); then
        echo "$1: as it should be"
    else
        echo "$1: failed"
        sed 's/^/    /' "$work/said"
        failed=1
    fi
}

# Ends a try, which fails by what the words say.
wrong() {
    echo "$*"
    exit 1
}

# Fails where a line that is read has the pattern $1. (After a bare ! the shell goes on in either case.)
none() {
    if grep -E -- "$1"; then wrong "that is there"; fi
}

# Fails where no line that is read has the pattern $1. All is read, so that what writes it is not ended early.
some() {
    local found
    found=$(grep -E -- "$1") || wrong "no line has $1"
    echo "$found"
}

# ---- helpers of tries

# Folders with all programs of the path but lex and lexp: then no other lex is there.
make_path() {
    local folders folder
    mkdir "$work/path" "$work/flex"
    IFS=: read -ra folders <<< "$PATH"
    for folder in "${folders[@]}"; do
        find -L "$folder" -maxdepth 1 -type f -perm -1 ! -name lex ! -name lexp -exec ln -s -t "$work/path" {} + 2> /dev/null || true
    done
    printf '#!/bin/sh\necho another lex\n' > "$work/flex/lex"
    chmod +x "$work/flex/lex"
}

# A copy of all that an installation reads, in the folder tree.
copy_tree() {
    mkdir -p tree/crates/{lex,lexlook,liblex}/out tree/out/liblex
    cp -r "$top"/{VERSION,LICENSE,CHANGELOG.md,docs,examples,include,scripts,share} tree
    cp "$top/crates/lex/out/lex" tree/crates/lex/out
    cp "$top/crates/lexlook/out/lexlook" tree/crates/lexlook/out
    cp reference/lib/liblex.a tree/out/liblex
}

# Installs where no other lex is on the path.
alone() {
    PATH=$work/path "$top/scripts/install.sh" "$@"
}

# Installs where another lex is on the path.
beside_flex() {
    PATH=$work/flex:$work/path "$top/scripts/install.sh" "$@"
}

# Whether a command, the words from $2 on, is refused by a line that has the text $1.
refused() {
    local text=$1
    shift
    if "$@" 2> refusal; then wrong "not refused: $*"; fi
    grep -qF -- "$text" refusal || { cat refusal; wrong "refused without '$text': $*"; }
}

# The files, links and folders below a folder, with what they hold.
listing() {
    (cd "$1" && find . -printf '%p %M %l\n' | sort && find . -type f -exec sha256sum {} + | sort)
}

# Each example scanned by the program $1, and its output and status compared.
scan_examples() {
    local text status wanted
    for text in "$top"/examples/*.l; do
        wanted=0 status=0
        [[ ! -e ${text%.l}.status ]] || wanted=$(cat "${text%.l}.status")
        "$1" --scan-spec "$text" < "${text%.l}.input" > output || status=$?
        cmp output "${text%.l}.output"
        ((status == wanted)) || wrong "$text: status $status"
    done
}

# The programs of a prefix, of which the first is called $2.
run_programs() {
    scan_examples "$1/bin/$2"
    "$1/bin/$2" -o keys.tab "$top/examples/keys.l"
    "$1/bin/$2" --scan-table keys.tab < "$top/examples/keys.input" | cmp - "$top/examples/keys.output"
    "$1/bin/lexlook" same "$top/examples/keys.l" keys.tab
    "$1/bin/lexlook" --help | some picture
}

# ---- installing

fresh() {
    alone --prefix "$PWD/new" 2> said
    [[ ! -s said ]] || { cat said; wrong "a line was written"; }
    (cd new && sha256sum --quiet -c share/lex/installed-files)
    (cd new && find . -type f -o -type l) | sed 's|^\./||' | grep -vx share/lex/installed-files | sort > there
    sed -nE -e 's/^[0-9a-f]{64}  //p' -e 's/^#link (.*) .*/\1/p' new/share/lex/installed-files | sort | diff - there
    for path in bin/lex bin/lexlook include/lex.h lib/liblex.{a,so} lib/pkgconfig/lex.pc share/man/man1/{lex,lexlook}.1 \
        share/bash-completion/completions/{lex,lexlook} share/zsh/site-functions/{_lex,_lexlook} \
        share/fish/vendor_completions.d/{lex,lexlook}.fish share/doc/lex/MANUAL.md share/doc/lex/examples/keys.l; do
        [[ -s new/$path ]] || wrong "there is no $path"
    done
    grep -qx "prefix=$PWD/new" new/lib/pkgconfig/lex.pc
    for page in lex lexlook; do diff <(grep -v '^\.I ' "$top/docs/$page.1") <(grep -v '^\.I ' "new/share/man/man1/$page.1"); done
    run_programs new lex
}

renamed_page() {
    local page=$1
    grep -q '^\.TH LEXP 1 ' "$page"
    grep -q '^lexp \\- ' "$page"
    man -l "$page" | col -b | sed -n '/^SYNOPSIS/,/^DESCRIPTION/p; /^EXAMPLES/,/^SEE/p' | none '(^ *|\$ |\| )lex( |$)'
}

beside_another() {
    beside_flex --prefix "$PWD/new" 2> said
    grep -qF "there is another lex, $work/flex/lex: the program is installed as lexp" said
    (($(wc -l < said) == 1)) || wrong "more than one line was written"
    [[ ! -e new/bin/lex && ! -e new/share/man/man1/lex.1 ]] || wrong "lex is there too"
    renamed_page new/share/man/man1/lexp.1
    grep -q '^\.BR lexp (1)' new/share/man/man1/lexlook.1
    grep -q -- '-F _lex lexp$' new/share/bash-completion/completions/lexp
    grep -qx '#compdef lexp' new/share/zsh/site-functions/_lexp
    none '-c lex ' < new/share/fish/vendor_completions.d/lexp.fish
    run_programs new lexp
}

named_lex() {
    beside_flex --prefix "$PWD/new" --name lex
    [[ -x new/bin/lex && ! -e new/bin/lexp ]]
}

# A lex that was in the prefix before is kept, and replaced where --name says so.
foreign_lex() {
    mkdir -p new/bin
    cp "$work/flex/lex" new/bin/flex
    ln -s flex new/bin/lex
    alone --prefix "$PWD/new" 2> said
    grep -qF "there is another lex, $PWD/new/bin/lex" said
    [[ -x new/bin/lexp ]]
    cmp new/bin/lex "$work/flex/lex"
    alone --prefix "$PWD/new" --uninstall
    cmp new/bin/lex "$work/flex/lex"
    alone --prefix "$PWD/new" --name lex
    cmp new/bin/lex "$top/crates/lex/out/lex"
    cmp new/bin/flex "$work/flex/lex"
}

# An installation again, under the same name and under another one.
again() {
    beside_flex --prefix "$PWD/new"
    listing new > before
    beside_flex --prefix "$PWD/new"
    listing new | diff before -
    alone --prefix "$PWD/new" --name lex
    find new | none lexp
    alone --prefix "$PWD/new"
    [[ -x new/bin/lex ]]
    alone --prefix "$PWD/new" --uninstall
    [[ ! -e new ]] || { find new; wrong "something is left"; }
}

# A folder that DESTDIR names by a path from here, and that has a blank in its name.
staged() {
    DESTDIR="a stage" alone --prefix /usr
    mv "a stage" stage
    grep -qx prefix=/usr stage/usr/lib/pkgconfig/lex.pc
    (cd stage/usr && sha256sum --quiet -c share/lex/installed-files)
    DESTDIR=$PWD/stage alone --prefix /usr --uninstall
    [[ -z $(find stage -type f -o -type l) ]] || { find stage; wrong "something is left"; }
}

# Files and folders that were there before are as before, also empty ones.
uninstalled() {
    mkdir -p new/bin new/share/man/man1 new/share/doc/lex
    echo mine > new/share/doc/lex/mine
    echo other > new/bin/other
    listing new > before
    alone --prefix "$PWD/new"
    alone --prefix "$PWD/new" --uninstall
    listing new | diff before -
    alone --prefix "$PWD/new"
    echo more >> new/share/doc/lex/MANUAL.md
    alone --prefix "$PWD/new" --uninstall 2> said
    grep -qF "$PWD/new/share/doc/lex/MANUAL.md is not as it was installed, and stays" said
    rm new/share/doc/lex/MANUAL.md
    listing new | diff before -
}

# ---- refusals, after which nothing is there

missing() {
    alone --prefix "$PWD/reference"
    copy_tree
    for path in crates/lex/out/lex crates/lexlook/out/lexlook out/liblex/liblex.a; do
        mv "tree/$path" kept
        refused "$path was not built" tree/scripts/install.sh --prefix "$PWD/new"
        grep -qE 'build it: rt|builds it: scripts/liblex.sh' refusal
        SOURCE_DATE_EPOCH=1 refused "$path was not built" tree/scripts/package.sh "$PWD/packages"
        [[ ! -e new && ! -e packages ]] || wrong "something was installed or packed"
        mv kept "tree/$path"
    done
    PATH=$work/path tree/scripts/install.sh --prefix "$PWD/new"
    cmp new/lib/liblex.a reference/lib/liblex.a
    echo 1.0 > tree/VERSION
    refused "VERSION has no version of three numbers" tree/scripts/install.sh --prefix "$PWD/other"
}

in_the_way() {
    mkdir -p new/bin
    echo mine > new/bin/lexlook
    listing new > before
    refused "$PWD/new/bin/lexlook is there already" alone --prefix "$PWD/new"
    refused "$PWD/new/bin/lexlook is there already" alone --prefix "$PWD/new" --name lex
    listing new | diff before -
    echo > file
    refused "$PWD/file is no folder that can be written to" alone --prefix "$PWD/file/new"
    mkdir -p other/include/lex.h
    refused "$PWD/other/include/lex.h is a folder" alone --prefix "$PWD/other"
    [[ $(find other -type f | wc -l) == 0 ]]
}

# A copy that fails in the midst leaves nothing.
failing_copy() {
    mkdir shim
    # shellcheck disable=SC2016
    printf '#!/bin/sh\ncase "$*" in *man1/lexlook*) echo no room >&2; exit 1 ;; esac\nexec %s "$@"\n' "$(command -v cp)" > shim/cp
    chmod +x shim/cp
    if PATH=$PWD/shim:$work/path "$top/scripts/install.sh" --prefix "$PWD/new" 2> refusal; then wrong "not refused"; fi
    grep -qF "lexlook.1 cannot be written: nothing is installed" refusal
    [[ ! -e new ]] || { find new; wrong "something is left"; }
}

words() {
    refused "usage: install.sh" alone --prefix
    refused "usage: install.sh" alone --what
    refused "usage: install.sh" alone --uninstall --name lex
    refused "the prefix has to begin with /" alone --prefix new
    refused "the prefix has a blank" alone --prefix "$PWD/a b"
    refused "the program cannot be called ../lex" alone --prefix "$PWD/new" --name ../lex
    refused "the program cannot be called lexlook" alone --prefix "$PWD/new" --name lexlook
    refused "there is no $PWD/new/share/lex/installed-files" alone --prefix "$PWD/new" --uninstall
    refused "usage: package.sh" "$top/scripts/package.sh" one two
    [[ ! -e new ]] || wrong "something was installed"
}

# A list that someone has changed removes nothing outside of its folder.
strange_list() {
    alone --prefix "$PWD/new"
    echo mine > mine
    (cd new && sha256sum ../mine >> share/lex/installed-files)
    refused "leads out of its folder" alone --prefix "$PWD/new" --uninstall
    [[ -e mine && -x new/bin/lex ]]
}

# ---- what was installed, used

# The first program of docs/C.md, and the test of the library over all examples, linked as the words say.
build_and_run() {
    cc -std=c99 -Wall -Wextra -Werror -o program program.c "$@"
    [[ $(./program) == "aN bN" ]] || wrong "the program of docs/C.md writes something else"
    cc -std=c99 -o over-examples "$top/bindings/c/test.c" "$@"
    for text in "$top"/examples/*.l; do
        status=0
        [[ ! -e ${text%.l}.status ]] || status=$(cat "${text%.l}.status")
        ./over-examples "$text" "${text%.l}.input" "${text%.l}.output" "$status"
    done
}

from_c() {
    local flags
    alone --prefix "$PWD/new"
    awk '/^```/ { if (inside) exit; inside = 1; next } inside' "$top/docs/C.md" > program.c
    export PKG_CONFIG_PATH=$PWD/new/lib/pkgconfig
    pkg-config --modversion lex | cmp - "$top/VERSION"
    read -ra flags <<< "$(pkg-config --cflags --libs lex)"
    LD_LIBRARY_PATH=$PWD/new/lib build_and_run "${flags[@]}"
    LD_LIBRARY_PATH=$PWD/new/lib ldd program | some "liblex.so.1 => $PWD/new/lib/liblex.so.1 "
    build_and_run -Wl,-Bstatic "${flags[@]}" -Wl,-Bdynamic
    ldd program | none liblex
    nm -D --defined-only new/lib/liblex.so | sed -n 's/.* T \(.*\)@@LEX_1$/\1/p' | sort > exported
    grep -oE '\blex_[a-z_]+\(' new/include/lex.h | tr -d '(' | sort -u | diff - exported
    [[ $(nm -D --defined-only new/lib/liblex.so | grep -cv '@@LEX_1$') == 1 ]] || wrong "more names are exported"
}

pages() {
    beside_flex --prefix "$PWD/new"
    for page in "$top"/docs/*.1 new/share/man/man1/*.1; do
        man --warnings -E UTF-8 -l -Tutf8 -Z "$page" 2>> said > /dev/null
    done
    [[ ! -s said ]] || { cat said; exit 1; }
}

# What bash completes the words $2 .. of the program $1 to, by its function.
completed() {
    bash -c 'source "$1"; shift; COMP_WORDS=("$@"); COMP_CWORD=$(($# - 1)); COMPREPLY=()
        "_$1" "$1" "${COMP_WORDS[COMP_CWORD]}" "${COMP_WORDS[COMP_CWORD - 1]}"; echo "${COMPREPLY[*]}"' \
        - "$top/share/completions/$1.bash" "$@"
}

by_bash() {
    alone --prefix "$PWD/new"
    cmp "$top/share/completions/lexlook.bash" new/share/bash-completion/completions/lexlook
    [[ $(completed lexlook '') == "picture same lines words trace utf8 check header"* ]]
    [[ $(completed lexlook tr) == trace ]]
    [[ $(completed lexlook same -) == "-i -X" ]]
    [[ $(completed lex -) == *"-o --scan-spec --scan-table"* ]]
    [[ $(completed lex --scan-spec a.l -) == "-i -X -w" ]]
    [[ -z $(completed lex --scan-table -) && -z $(completed lex -- -) && -z $(completed lex -o -) ]]
    [[ $(bash -c 'source "$1"; complete -p lexlook' - new/share/bash-completion/completions/lexlook) == *"-F _lexlook lexlook" ]]
}

# What fish completes the line $2 to, by the installed completions of $1.
fish_completed() {
    fish -N -c "source new/share/fish/vendor_completions.d/$1.fish; complete -C '$2'" | cut -f 1 | sort | paste -sd ' '
}

by_fish() {
    alone --prefix "$PWD/new"
    [[ $(fish_completed lexlook 'lexlook ') == "check header lines picture same trace utf8 words" ]]
    [[ $(fish_completed lexlook 'lexlook same -') == "-X -i" ]]
    [[ $(fish_completed lex 'lex --') == "--scan-spec --scan-table" ]]
    [[ $(fish_completed lex 'lex --scan-spec a.l -') == "-X -i -w" ]]
    [[ -z $(fish_completed lex 'lex --scan-table a.tab -') ]]
}

by_zsh() {
    for file in "$top"/share/completions/_*; do zsh -n "$file"; done
}

# The words of the synopses and of tagged options of a page: those that begin with a hyphen, and subcommands.
words_of_page() {
    sed -n '/^\.SH SYNOPSIS/,/^\.SH DESCRIPTION/p' "$1" | tr -d "\\\\" | grep -oE '(^| |\[)--?[A-Za-z][a-z-]*' | tr -d ' [' | sort -u
    sed -nE 's/^\.B lexlook ([a-z]+)$/\1/p' "$1"
}

# Each word of the synopses stands in the completions of each shell. fish has a letter after -s, and a word after -l.
complete_words() {
    local program word letters
    for program in lex lexlook; do
        words_of_page "$top/docs/$program.1" > words
        [[ -s words ]]
        while read -r word; do
            grep -qw -e "$word" "$top/share/completions/$program.bash" || wrong "bash: no $word of $program"
            grep -qw -e "$word" "$top/share/completions/_$program" || wrong "zsh: no $word of $program"
            letters=${word#-}
            grep -qE -e "-(a|s|l) ${letters#-}( |$)" "$top/share/completions/$program.fish" || wrong "fish: no $word of $program"
        done < words
    done
}

# ---- packages

same_bytes() {
    "$top/scripts/package.sh" one
    sleep 1
    (umask 077 && TZ=Asia/Tokyo "$top/scripts/package.sh" "$PWD/two")
    diff -r one two
    (($(find one -type f | wc -l) == 2))
}

by_lintian() {
    "$top/scripts/package.sh" one > /dev/null
    lintian --allow-root --fail-on error one/*.deb
}

# dpkg with an administration of its own in the folder root.
dpkg_there() {
    mkdir -p root/var/lib/dpkg/{info,updates,triggers}
    touch root/var/lib/dpkg/{status,available}
    dpkg --root="$PWD/root" --force-not-root --force-script-chrootless --force-depends --log=/dev/null "$@"
}

# Runs the program $1 of the root in it, with the libraries that it names, where this is root's process, and else from outside.
run_there() {
    local program=$1
    shift
    if (($(id -u) == 0)); then
        ldd "root/usr/bin/$program" | grep -o '/[^ ]*' | while read -r library; do cp -Ln --parents "$library" root; done || true
        chroot root "/usr/bin/$program" "$@"
    else
        "root/usr/bin/$program" "$@"
    fi
}

for_debian() {
    local examples=root/usr/share/doc/lexp/examples
    "$top/scripts/package.sh" one > /dev/null
    dpkg_there -i one/*.deb
    dpkg_there --status lexp | some '^Status: install ok installed$'
    (cd root && md5sum --quiet -c var/lib/dpkg/info/lexp.md5sums)
    run_there lexp --scan-spec /usr/share/doc/lexp/examples/keywords.l < "$examples/keywords.input" | cmp - "$examples/keywords.output"
    run_there lexlook --help | some picture
    PKG_CONFIG_PATH=$(echo root/usr/lib/*/pkgconfig) pkg-config --modversion lex | cmp - "$top/VERSION"
    [[ ! -e root/usr/bin/lex ]]
    dpkg_there --purge lexp
    find root -name '*lex*' | none lex
}

unpacked() {
    "$top/scripts/package.sh" one > /dev/null
    tar -xzf one/*.tar.gz
    cd lex-*
    scan_examples bin/lexp
    bin/lexlook --help | some picture
    awk '/^```/ { if (inside) exit; inside = 1; next } inside' share/doc/lex/C.md > program.c
    read -ra flags <<< "$(PKG_CONFIG_PATH=$PWD/lib/pkgconfig pkg-config --cflags --libs lex)"
    LD_LIBRARY_PATH=$PWD/lib build_and_run "${flags[@]}"
}

make_path
if ! alone --prefix "$work/first" 2> "$work/said"; then
    cat "$work/said" >&2
    exit 1
fi
try "a new prefix" fresh
try "another lex on the path" beside_another
try "another lex on the path, and --name lex" named_lex
try "another lex in the prefix" foreign_lex
try "twice, and by another name" again
try "below DESTDIR" staged
try "what was there before, after --uninstall" uninstalled
try "what was not built" missing
try "files and folders in the way" in_the_way
try "a copy that fails" failing_copy
try "odd words" words
try "a list that leads elsewhere" strange_list
try "programs in C, by the shared and the static library" from_c
try "manual pages without warnings" pages
try "words completed by bash" by_bash
if command -v fish > /dev/null; then try "words completed by fish" by_fish; fi
if command -v zsh > /dev/null; then try "completions read by zsh" by_zsh; fi
try "completions beside the manual pages" complete_words
try "packages made twice" same_bytes
try "the package for Debian, by lintian" by_lintian
try "the package for Debian, installed and removed" for_debian
try "the archive, unpacked" unpacked
exit "$failed"
