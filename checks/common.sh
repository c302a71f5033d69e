#!/usr/bin/env bash
# Helpers of the checks, for bash. A check prints one line: `ok NAME`, `FAILED NAME: WHY` or `skipped NAME: WHY`.
#
# A script that reads this file runs in an empty folder of its own, which is removed when the script ends.
set -u
export LC_ALL=C

top=$(cd "$(dirname "${BASH_SOURCE[0]}")/.." && pwd)
program=${BTR_RUN:-$top/crates/btr_run/out/btr_run}
program=$(cd "$(dirname "$program")" 2>/dev/null && pwd)/$(basename "$program")
if ! [ -f "$program" ] || ! [ -x "$program" ]; then
    echo "FAILED to find the program: there is none at ${BTR_RUN:-$program}"
    exit 1
fi

for tool in awk cmp cut grep head mktemp sed seq tail tr wc; do
    if ! command -v "$tool" >/dev/null 2>&1; then
        echo "skipped $(basename "$0"): $tool is missing"
        exit 0
    fi
done

# The stream of the checks' stores.
id=11111111-1111-4111-8111-111111111111

folder=$(mktemp -d "${TMPDIR:-/tmp}/btr_check.XXXXXXXX") || exit 1
trap 'rm -rf "$folder"' EXIT
trap 'exit 1' HUP INT TERM
cd "$folder" || exit 1

# Prints a text on one line, and not all of a long one: `a/b/` for the lines `a` and `b`.
one_line() {
    printf '%s' "$1" | tr '\n' '/' | tr -c '[:print:]' '?' | cut -c 1-200
}

# Ends a check: NAME FOUND WANTED. It passes if both texts are equal.
expect() {
    if [ "$2" = "$3" ]; then
        echo "ok $1"
    else
        echo "FAILED $1: wanted [$(one_line "$3")], found [$(one_line "$2")]"
    fi
}

# Ends a check that cannot be made here: NAME WHY.
skip() {
    echo "skipped $1: $2"
}

# Whether a tool is there.
has() {
    command -v "$1" >/dev/null 2>&1
}

# Runs the program on these words, with the descriptors of the caller but standard output, which goes to the file `out`.
# `status` is then its status.
play() {
    "$program" "$@" >out 2>err
    status=$?
}

# What the last run did: its status and what it wrote, on one line.
ended() {
    printf '%s: %s' "$status" "$(tr '\n' '/' <out)"
}

# Whether two files have the same bytes.
compared() {
    if cmp -s "$1" "$2"; then echo same; else echo different; fi
}

# Makes a store of 64 blocks in a file that is missing, with one stream of three points.
make_store() {
    "$program" "$1" format --blocks 64 >out 2>err </dev/null &&
        printf 'create %s\ninsert %s 0 5 3 7 4 -2\n' "$id" "$id" | "$program" "$1" live >out 2>err ||
        echo "FAILED to make a store: $(one_line "$(cat out err)")"
}

# The questions whose answer shows all points of the store that `make_store` makes, and that answer.
printf 'range %s 0 100 latest\n' "$id" >questions
# shellcheck disable=SC2034
answer='ok 1 3/0 5/3 7/4 -2/'

# One more point, and the reply to it.
printf 'insert %s 9 9\n' "$id" >one_more
