# shellcheck shell=bash
# A script that sources this answers `--help` with the comment at its own head, and does nothing else. `usage` prints the
# lines of that comment that say how the script is called, and ends it with status 2.

if [ "${1:-}" = --help ]; then
    sed -n '2,/^[^#]/s/^# \{0,1\}//p' "$0"
    exit 0
fi

usage() {
    sed -n '2,/^[^#]/{/^# usage: /,/^#$/s/^# \(.\)/\1/p}' "$0" >&2
    exit 2
}
