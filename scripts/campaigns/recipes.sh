#!/usr/bin/env bash
# Runs each way of docs/MANUAL.md to scan an input in pieces, and compares what it writes with what one scan of the whole writes.
#
#     scripts/campaigns/recipes.sh LEX LEXLOOK [BYTES]
#
# LEX and LEXLOOK are the built programs. The input has some 20 MB (or BYTES), of lines. It needs GNU parallel, rsync and OpenSSH's server:
# two of these are started on 127.0.0.1, as if they were two machines. A line is printed for each way; the status is 1 if one differs.
set -euo pipefail
here=$(cd "$(dirname "$0")/../.." && pwd)
lex=$(realpath "$1") lexlook=$(realpath "$2") bytes=${3:-20000000}
folder=$(mktemp -d)
servers=()
trap 'for it in "${servers[@]}"; do kill "$it"; done; rm -rf "$folder"' EXIT
mkdir "$folder/bin"
ln -s "$lex" "$folder/bin/lex"
ln -s "$lexlook" "$folder/bin/lexlook"
export PATH=$folder/bin:$PATH LC_ALL=C
cd "$folder"

# A word of each line is marked, and numbers go: the specification may be cut at newlines.
cat > words.l <<'END'
%%
error|warning     printf("<%s>", yytext);
[0-9]+            ;
[a-z]+            ECHO;
\n                ECHO;
END
awk -v bytes="$bytes" 'BEGIN {
    srand(1)
    split("error warning the scan of a line that is long enough notice", word, " ")
    while (bytes > 0) {
        line = int(rand() * 100000)
        for (count = int(rand() * 20); count > 0; count--) line = line " " word[1 + int(rand() * 12)]
        print line
        bytes -= length(line) + 1
    }
}' > big.txt
lex -o words.tab words.l
lex --scan-table words.tab < big.txt > whole
faults=0

# Whether what the way $1 wrote is the whole.
compare() {
    if cmp -s whole output; then
        echo "$1: the same"
    else
        echo "$1: something else"
        faults=1
    fi
    rm -f output
}

lexlook lines words.tab && parallel --will-cite --pipe --keep-order lex --scan-table words.tab < big.txt > output
compare "parallel, by a pipe"

parallel --will-cite --pipepart -a big.txt --block 4M --keep-order lex --scan-table words.tab > output
compare "parallel, by places"

mkdir parts
split -n l/7 -d big.txt parts/
find parts -type f -print0 | xargs -0 -P 4 -I {} sh -c 'lex --scan-table words.tab < "$1" > "$1.out"' - {}
cat parts/*.out > output
compare "split and xargs"

# A piece that failed is scanned again alone.
rm parts/03.out
lex --scan-table words.tab < parts/03 > parts/03.out
cat parts/*.out > output
compare "one piece again"

# A streaming engine gives lines to a mapper, some at a time, each with a newline, and puts the outputs together by the order of its parts.
python3 - "$lex" > output <<'END'
import subprocess, sys
lines = open("big.txt", "rb").read().splitlines()
for first in range(0, len(lines), 100_000):
    part = b"".join(line + b"\n" for line in lines[first : first + 100_000])
    sys.stdout.buffer.write(subprocess.run([sys.argv[1], "--scan-table", "words.tab"], input=part, capture_output=True, check=True).stdout)
END
compare "a mapper of lines"

# Two servers, each with a port of its own.
ssh-keygen -q -t ed25519 -N '' -f key
cp key.pub authorized
for name in one two; do
    port=$([[ $name == one ]] && echo 22501 || echo 22502)
    ssh-keygen -q -t ed25519 -N '' -f "host_$name"
    printf '%s\n' "ListenAddress 127.0.0.1" "Port $port" "HostKey $folder/host_$name" "PidFile none" "StrictModes no" "UsePAM no" \
        "AuthorizedKeysFile $folder/authorized" "PasswordAuthentication no" "SetEnv PATH=$PATH" "MaxStartups 100" > "sshd_$name"
    printf '%s\n' "Host $name" "HostName 127.0.0.1" "Port $port" "IdentityFile $folder/key" "StrictHostKeyChecking no" \
        "UserKnownHostsFile $folder/known" "LogLevel ERROR" >> config
    mkdir -p /run/sshd
    /usr/sbin/sshd -D -f "sshd_$name" 2> /dev/null &
    servers+=($!)
done
sleep 1
mkdir -p elsewhere
PARALLEL_SSH="ssh -F $folder/config" parallel --will-cite --pipepart -a big.txt --block 4M --keep-order --sshlogin 2/one,2/two \
    --basefile words.tab --workdir "$folder/elsewhere" lex --scan-table words.tab > output
compare "parallel, on two machines"

LEX=lex LEXLOOK=lexlook PIECE=2000000 "$here/scripts/pieces.sh" words.tab big.txt output 4
compare "pieces.sh"

# The program is ended in the midst: one of its calls does not come to its end, and the same call of the script scans what is left.
cat > ended <<END
#!/usr/bin/env bash
if mkdir "$folder/once" 2> /dev/null; then
    head -c 100000 | "$lex" "\$@"
    kill -9 \$\$
fi
exec "$lex" "\$@"
END
chmod +x ended
if LEX=$folder/ended PIECE=2000000 "$here/scripts/pieces.sh" words.tab big.txt output 4 2> told; then
    echo "pieces.sh: an ended scan was not told"
    faults=1
fi
cat told
done_before=$(find output.pieces -type f -name '[0-9]*' ! -name '*.part' | wc -l)
LEX=$folder/ended PIECE=2000000 "$here/scripts/pieces.sh" words.tab big.txt output 4
compare "pieces.sh again, with $done_before pieces done"

# Without a last newline, without a newline, and nothing.
for text in 'a 1 error\nb 2 ' 'error error 12 warning' ''; do
    printf "$text" > small.txt
    lex --scan-table words.tab < small.txt > whole
    PIECE=3 "$here/scripts/pieces.sh" words.tab small.txt output 2
    compare "pieces.sh, $(wc -c < small.txt) bytes"
done

# A specification that may not be cut is refused with its reason.
printf '%%%%\n[ \\n]+ ;\n' > blanks.l
lex -o blanks.tab blanks.l
if "$here/scripts/pieces.sh" blanks.tab big.txt output 2> told; then
    faults=1
fi
cat told
exit "$faults"
