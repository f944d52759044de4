# shellcheck shell=bash
# shellcheck disable=SC2154
# What bin/rohcd, bin/rohctl and bin/rohc-gateway share: they run the proved program, or a build without proofs, which is
# made once and kept in out/unproved until a source changes. A launcher sets these before it sources this:
#
#     here        the folder of the launcher
#     root        the top of the repository
#     name        the name of the program
#     crate       the crate of the program
#     takes       how long the build without proofs takes
#     proves      how to get the proved program
#     reads       an array: words after which the program takes the name of a file, which it reads
#     at_empty    the status with which it ends if that file is empty
#     says        a pattern of a line that it prints then
#     greets      an array: words with which it ends at once
#     greeting    a pattern of what it prints then

program=$root/crates/$crate/out/$crate

refuse() {
    echo "bin/$name: $1" >&2
    exit 1
}

# Builds the program without proofs, into this file, whose name ends in the digest of its sources. `rt try` runs what it
# builds in a folder below TMPDIR, and removes it then. So that run gets a pipe as its file: it waits there until the
# program is copied, and then finds the file empty.
build_unproved() {
    local room copier status
    room=$(mktemp -d)
    mkfifo "$room/pipe"
    { find "$room" -name program -type f -exec cp {} "$room/$name" \;; } >"$room/pipe" &
    copier=$!
    # shellcheck disable=SC2064
    trap "kill $copier 2>/dev/null; rm -rf '$room'" EXIT
    (cd "$root/crates/$crate" && TMPDIR=$room exec rt try --seconds 3600 -- "${reads[@]}" "$room/pipe") </dev/null >"$room/log" 2>&1
    status=$?
    # shellcheck disable=SC2053
    if [ "$status" -ne "$at_empty" ] || ! grep -q -- "$says" "$room/log" ||
        [[ $("$room/$name" "${greets[@]}" 2>&1) != $greeting ]]; then
        cat "$room/log" >&2
        refuse 'the build without proofs failed; the lines above, from the toolchain, say why'
    fi
    [ "${1##*-}" = "$("$here/sources" digest)" ] || refuse "a source changed during the build; run bin/$name again"
    chmod 755 "$room/$name"
    cp "$room/$name" "$1.$$" && mv "$1.$$" "$1" || refuse "cannot write $1; expected a checkout that this user may write"
    trap - EXIT
    rm -rf "$room"
}

# Makes the kept build, unless another call just did. Only one call builds at a time.
keep_unproved() {
    local folder=$root/out/unproved
    kept=$folder/$name-$("$here/sources" digest)
    [ ! -x "$kept" ] || return 0
    command -v rt >/dev/null || refuse 'there is no proved program, and rt, the toolchain, is not on the PATH; install the toolchain or a package'
    { mkdir -p "$folder" && touch "$folder/lock"; } 2>/dev/null || refuse "cannot write into $folder; expected a checkout that this user may write"
    exec 9>"$folder/lock"
    if ! flock --nonblock 9; then
        echo "bin/$name: waiting for another call that is building the program" >&2
        flock 9
    fi
    if [ ! -x "$kept" ]; then
        echo "bin/$name: building the program once, without proofs; this takes $takes" >&2
        build_unproved "$kept" 9>&-
        find "$folder" -name "$name-*" ! -name "$(basename "$kept")" -delete
    fi
    exec 9>&-
}

# Runs the program with these words.
launch() {
    if ! "$here/sources" stands "$crate"; then
        keep_unproved
        echo "bin/$name: this build has no proofs, and is slow ($proves makes the proved program)" >&2
        program=$kept
    fi
    exec "$program" "$@"
}

# Shows the comment at the head of the launcher, and the program's own help if the program is there already. It builds
# nothing.
show_help() {
    local kept
    (. "$here/usage.sh")
    kept=$root/out/unproved/$name-$("$here/sources" digest)
    if "$here/sources" stands "$crate"; then kept=$program; fi
    [ -x "$kept" ] || exit 0
    echo
    exec "$kept" --help
}

if [ "${1:-}" = --help ]; then show_help "$1"; fi
