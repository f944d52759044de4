#!/usr/bin/env bash
# Sends a call from tools/compressor to a built program over a lossy link, with feedback in time, and counts what comes
# out. The small run must give the table that is kept beside this, another seed another one, and a program that bends a
# packet one packet fewer that is right. A program without feedback gets IRs alone in O mode.
#
# usage: tests/lossy_link.sh ROHCD            the small run
#        tests/lossy_link.sh --write ROHCD    makes docs/RESULTS.md's table, its picture and the kept table again
set -u
. "$(dirname "$(realpath "$0")")/../bin/usage.sh"
write=
if [ "${1:-}" = --write ]; then
    write=yes
    shift
fi
[ "$#" -eq 1 ] && [ -x "$1" ] && [ -f "$1" ] || usage
rohcd=$(realpath "$1")
cd "$(dirname "$(realpath "$0")")/.." || exit 2
. tests/build_compressor.sh
export TMPDIR=$scratch
exec </dev/null
failed=0
kept=$PWD/tests/lossy_link.table
seed=1
another=2
small=(--packets 300 --seed "$seed")
# docs/RESULTS.md says how many.
whole=(--packets 20000 --seed "$seed")

wrong() {
    echo "lossy link: $1"
    failed=1
}

# The table of a program: table NAME PROGRAM OPTION..
table() {
    if ! "$compressor" lossy "$2" "${@:3}" >"$scratch/$1" 2>"$scratch/error"; then
        wrong "$1: $(head -c 400 "$scratch/error")"
    fi
}

# A number of the row without losses and without damage: clean TABLE COLUMN
clean() {
    awk -v column="$2" 'NR == 3 { print $column }' "$scratch/$1"
}

# Puts the table between the two lines of the document that hold it.
write_all() {
    table small "$rohcd" "${small[@]}"
    table whole "$rohcd" "${whole[@]}"
    [ "$failed" -eq 0 ] || exit 1
    cp "$scratch/small" "$kept"
    awk -v file="$scratch/whole" '
        /^```$/ && inside { inside = 0 }
        !inside { print }
        /^```lossy$/ { inside = 1; while ((getline line < file) > 0) print line }
    ' docs/RESULTS.md >"$scratch/document" && cp "$scratch/document" docs/RESULTS.md
    tools/draw_pictures.py
}

# A fault is told, with status 4: faults WANTED PROGRAM
faults() {
    "$compressor" lossy "$2" "${small[@]}" >"$scratch/said" 2>"$scratch/error"
    [ "$?" -eq 4 ] || wrong "$2: no status 4"
    [ "$(cat "$scratch/error")" = "compressor: $2: $1" ] || wrong "$2: $(head -c 400 "$scratch/error"), not $1"
}

# A program whose answers are edited: bends FILE EDIT
bends() {
    printf '#!/bin/bash\n%q "$@" | sed -u %q\n' "$rohcd" "$2" >"$scratch/$1"
    chmod +x "$scratch/$1"
}

build || {
    wrong "the compressor isn't built"
    exit 1
}
if [ -n "$write" ]; then
    write_all
    exit
fi
table same "$rohcd" "${small[@]}"
said=$(diff "$kept" "$scratch/same") || wrong "not the kept table: $said"
for column in 3 8; do
    [ "$(clean same "$column")" = "${small[1]}" ] || wrong "not all is right without losses, column $column"
done
table other "$rohcd" --packets "${small[1]}" --seed "$another"
cmp -s "$kept" "$scratch/other" && wrong 'another seed gives the same table'
bends bending '0,/ ip 45b8/s// ip 45b9/'
table bent "$scratch/bending" "${small[@]}"
for column in 3 8; do
    [ "$(clean bent "$column") $(clean bent $((column + 1)))" = "$((small[1] - 1)) 1" ] ||
        wrong "a bent packet isn't counted as wrong, column $column"
done
# Without feedback the sender goes on with IRs in O mode, and in U mode as before.
table heard "$rohcd" --packets 60
bends silent '/ feedback /d'
table unheard "$scratch/silent" --packets 60
unheard=$(clean unheard 12)
if [ "$(clean heard 7)" != "$(clean unheard 7)" ] || [ "${unheard%.*}" -lt 38 ]; then
    wrong "without feedback the mean header has $(clean unheard 7) and $unheard octets"
fi
bends loud 's/^1 0 ip/1 0 up/'
faults 'at 40 ms: BadLine' "$scratch/loud"
faults 'at 40 ms: NoAnswer' /bin/true
faults 'whole file: NotStarted' "$scratch/missing"
[ -z "$(find "$TMPDIR" -name 'compressor-*.toml')" ] || wrong 'a links file is left'
[ "$failed" -eq 0 ] || exit 1
echo "lossy link: $(($(wc -l <"$kept") - 3)) rows of ${small[1]} packets in two modes came out as before"
