#!/usr/bin/env bash
# Sends calls of many kinds from tools/compressor, a sender written apart from the crates, through a built program, and
# compares what comes out with what went in, octet for octet: with both sizes of CIDs, without loss and with as much in
# a row as the sender reckons with, with the smallest packet that means a header and with any; in U mode with
# refreshes; in O mode with damaged packets, until the sender has heard all feedback; and with losses so long that the
# decompressor has to repair its reference. It does the same with the captures of real calls in tests/calls. Which of
# their packets go by profile 0x0000, and why, must be what tests/calls/plain.txt says, and none may be left out.
#
# usage: tests/compressor.sh ROHCD            everything, and the compressor's own tests
#        tests/compressor.sh --small ROHCD    a part of it: fewer kinds, packets and ways to send them
#        tests/compressor.sh --lint ROHCD     everything, with the layout of the source and its warnings
set -u
. "$(dirname "$(realpath "$0")")/../bin/usage.sh"
small=
lint=
case ${1:-} in
--small) small=yes && shift ;;
--lint) lint=yes && shift ;;
esac
[ "$#" -eq 1 ] && [ -x "$1" ] && [ -f "$1" ] || usage
rohcd=$(realpath "$1")
cd "$(dirname "$(realpath "$0")")/.." || exit 2
. tests/build_compressor.sh
calls=$PWD/tests/calls
exec </dev/null
failed=0
runs=0
came=0

wrong() {
    echo "compressor: $1"
    failed=1
}

# Writes a script and what must come out, and answers the script: send OPTION..
send() {
    "$compressor" script capture --expect expected --links links.toml "$@" >script 2>counts || return 1
    timeout 120 "$rohcd" replay --links links.toml <script >answers 2>error
}

# All that must come out came, and nothing else: compare KIND OPTION..
compare() {
    local said
    runs=$((runs + 1))
    if ! said=$("$compressor" check expected answers); then
        wrong "$*: ${said:0:400}"
        return
    fi
    said=${said#expected }
    [ "${said%% *}" -gt 0 ] || wrong "$*: nothing was compared"
    came=$((came + ${said%% *}))
}

# One run: try KIND OPTION..
try() {
    if send "${@:2}"; then compare "$@"; else wrong "$*: $(head -c 400 counts error)"; fi
}

# Sends again with the feedback of the run before, until nothing changes: hear KIND OPTION..
hear() {
    local before=0
    : >answers
    for _ in {1..60}; do
        cp answers heard
        if ! send "${@:2}" --feedback heard; then
            wrong "$*: $(head -c 400 counts error)"
            return
        fi
        if [ "$before" -eq 1 ] && cmp -s script script.before; then
            compare "$@"
            return
        fi
        cp script script.before
        before=1
    done
    wrong "$*: the feedback still changes"
}

# The comparison must see each of these: a packet that doesn't come, a wrong octet, and one packet more.
see_differences() {
    send || wrong "$(head -c 400 counts error)"
    cp answers good
    local edit
    for edit in '7d' '7s/0$/1/;7t;7s/.$/0/' '7p'; do
        sed "$edit" good >answers
        "$compressor" check expected answers >said
        [ "$?" -eq 1 ] || wrong "answers with $edit are taken for right"
    done
    # A bit of a check, in the script.
    sed '9s/^\(arrive [0-9]* [0-9]* .\)./\1f/' script >bent
    cmp -s script bent && wrong 'no script was bent'
    "$rohcd" replay --links links.toml <bent >answers
    "$compressor" check expected answers >said
    [ "$?" -eq 1 ] || wrong 'a bent packet is taken for right'
}

# Whether a capture comes out as it is: the comparison is right, nothing is left out, and what goes by profile 0x0000
# is what is written of it. carry NAME
carry() {
    try "$1"
    grep '^left out' counts && wrong "$1: packets are left out"
    sed -n "s/^by profile 0x0000/$1/p" counts >plain
    grep "^$1, " "$calls/plain.txt" >wanted
    diff wanted plain >said || wrong "$1: by profile 0x0000 go others than tests/calls/plain.txt says: $(head -n 4 said)"
}

# What comes out of a copy with a changed octet, its last, must be seen to be another call than the one captured.
see_changed_call() {
    send || wrong "$(head -c 400 counts error)"
    mv expected unchanged
    local octet
    octet=$(tail -c 1 capture | od -An -tu1)
    head -c -1 capture >changed
    printf '%b' "\\x$(printf '%02x' $((octet ^ 1)))" >>changed
    mv changed capture
    send || wrong "$(head -c 400 counts error)"
    "$compressor" check expected answers >said || wrong "a changed call: $(head -c 400 said)"
    "$compressor" check unchanged answers >said
    [ "$?" -eq 1 ] || wrong 'a call with a changed octet is taken for the one that was captured'
}

# The compressor's own tests pass. To look at its layout and for warnings is a matter of the version of cargo.
check_source() {
    if ! command -v cargo >/dev/null; then
        echo "left out: cargo isn't installed, the test compressor's own tests were not run"
        return
    fi
    local call=(--quiet --locked --offline --manifest-path "$source/Cargo.toml" --target-dir "$scratch/target")
    cargo test "${call[@]}" >said 2>&1 || wrong "cargo test: $(tail -c 800 said)"
    [ -n "$lint" ] || return
    if command -v rustfmt >/dev/null; then
        cargo fmt --check --manifest-path "$source/Cargo.toml" >said 2>&1 || wrong "cargo fmt: $(head -c 400 said)"
    else
        echo "left out: rustfmt isn't installed, the test compressor's layout was not checked"
    fi
    if command -v cargo-clippy >/dev/null; then
        cargo clippy "${call[@]}" --all-targets -- -D warnings >said 2>&1 || wrong "cargo clippy: $(head -c 800 said)"
    else
        echo "left out: clippy isn't installed, it was not asked about the test compressor"
    fi
}

# A command of the compressor ends so: ends STATUS TEXT WORD..
ends() {
    local wanted=$1 text=$2 status
    shift 2
    "$compressor" "$@" >output 2>said
    status=$?
    if [ "$status" -ne "$wanted" ] || [ "$(cat said)" != "$text" ]; then
        wrong "$*: status $status, $(cat said); wanted $wanted, $text"
    fi
}

build || {
    wrong "it isn't built"
    exit 1
}
cd "$scratch" || exit 2
[ -n "$small" ] || check_source

seed=0
packets=300
kinds=(g711 g729 opus random-id swapped-id zero-id checksum checksum-off tos flags stride two many wrap video late jumps
    mixed no-rtp crowd sizes)
losses=(0 40)
long=6000
heard=(g711 two swapped-id zero-id stride jumps)
if [ -n "$small" ]; then
    packets=120
    kinds=(g711 opus random-id checksum flags many wrap jumps mixed sizes)
    losses=(40)
    long=1500
    heard=(two stride)
fi
for kind in "${kinds[@]}"; do
    seed=$((seed + 1))
    # Some packets for each of 200 calls, and few of the longest.
    case $kind in
    crowd) packets=1200 ;;
    sizes) packets=100 ;;
    esac
    framing=$((seed % 4))
    framings=(ethernet vlan cooked raw)
    forms=(--big --nano)
    "$compressor" generate "$kind" capture --packets "$packets" --seed "$seed" --framing "${framings[$framing]}" \
        "${forms[$((seed % 2))]}" || wrong "$kind isn't made"
    for cid in small large; do
        for lose in "${losses[@]}"; do
            for pick in smallest any; do
                # Up to three in a row are lost.
                try "$kind" --cid "$cid" --lose "$lose" --w 4 --optimistic 4 --pick "$pick" --seed "$seed"
            done
        done
        try "$kind" --cid "$cid" --mode U --refresh-ir 50 --refresh-dyn 11 --passing --lose 20 --burst 2 --front
        try "$kind" --cid "$cid" --w 12 --optimistic 3 --announce ir-dyn --static-first --max-cid 3
    done
done
for seed in 1 2; do
    "$compressor" generate opus capture --packets "$long" --seed "$seed" || wrong "opus isn't made"
    for cid in small large; do
        for mode in U O; do
            try opus --gaps --cid "$cid" --mode "$mode" --refresh-ir 0 --refresh-dyn 0 --seed "$seed"
        done
    done
done
for kind in "${heard[@]}"; do
    "$compressor" generate "$kind" capture --packets 150 || wrong "$kind isn't made"
    for cid in small large; do
        hear "$kind" --cid "$cid" --damage 40 --lose 10 --w 6 --optimistic 6 \
            --without uo-0,uo-1,uo-1-id,uo-1-ts
        hear "$kind" --cid "$cid" --damage 40 --lose 10 --w 6 --optimistic 6 --static-first
    done
done

captures=0
for file in "$calls"/*.pcap; do
    [ -e "$file" ] || continue
    name=$(basename "$file" .pcap)
    captures=$((captures + 1))
    cp "$file" capture
    carry "$name"
    [ -z "$small" ] || continue
    for cid in small large; do
        for pick in smallest any; do
            try "$name" --cid "$cid" --lose 40 --w 4 --optimistic 4 --pick "$pick" --seed "$captures"
        done
        try "$name" --cid "$cid" --mode U --refresh-ir 50 --refresh-dyn 11 --passing --lose 20 --burst 2 --front
        try "$name" --cid "$cid" --w 12 --optimistic 3 --announce ir-dyn --static-first --max-cid 3
    done
    hear "$name" --damage 20 --lose 10 --w 6 --optimistic 6 --without uo-0,uo-1,uo-1-id,uo-1-ts
done
[ "$captures" -gt 0 ] || wrong 'there is no capture of a real call'
see_changed_call

"$compressor" generate g711 capture --packets 100
see_differences
head -c 100 capture >short
ends 4 'compressor: short: octet 24: CutRecord' script short
ends 4 'compressor: missing: whole file: Unreadable' script missing
ends 4 'compressor: script: octet 0: NotPcap' script script
ends 4 'compressor: script: line 1: BadLine' check script answers
ends 4 'compressor: missing/file: NotWritten' generate g711 missing/file
ends 2 'compressor: command line: no command; see --help'
ends 0 '' --help

[ "$failed" -eq 0 ] || exit 1
echo "compressor: $captures real calls among $runs runs, $came packets and feedback elements came out as they went in"
