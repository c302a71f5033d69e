#!/usr/bin/env bash
# Random bytes as words, as input and as device: each run ends with a status of its own, and an `ask`, or a line that is
# none, changes nothing.
# shellcheck source=checks/common.sh
. "$(dirname "$0")/common.sh"

if ! [ -c /dev/urandom ]; then
    skip 'garbage' 'there is no /dev/urandom'
    exit 0
fi

make_store before

# The given number of random bytes.
random() {
    head -c "$1" /dev/urandom
}

# Keeps a file of a check that failed, and says so: FILE.
kept() {
    local at
    at=$(mktemp "${TMPDIR:-/tmp}/btr_check_kept.XXXXXXXX") && cp "$1" "$at" && echo "; $1 is kept at $at"
}

# Whether the last run's status is one of these, and all that it wrote matches this pattern.
is_one_of() {
    case " $1 " in *" $status "*) ;; *) return 1 ;; esac
    ! grep -qvE "$2" out
}

wrong=
cp before device
for round in $(seq 10); do
    random 20000 >noise
    for command in live ask; do
        play device "$command" <noise
        is_one_of 1 '^no line$' && cmp -s device before || wrong="round $round, $command: $(ended)$(kept noise)"
    done
    [ -z "$wrong" ] || break
done
expect 'random bytes as input' "$wrong" ''

# Lines with some bytes changed. What is accepted is an entry, and the device opens again.
awk -v id="$id" 'BEGIN { for (i = 0; i < 40; i++) {
    print "insert", id, i, -i, i + 1, i
    print "range", id, 0, 50, "latest"
    print "delete", id, i, i + 1
    print "windows", id, 0, 100, 10, i
    print "changes", id, i, i + 1, i
    print "nearest", id, i, "prev", "latest"
} }' >lines
wrong=
for round in $(seq 10); do
    awk -v seed="$RANDOM" 'BEGIN { srand(seed) } {
        at = 1 + int(rand() * length($0))
        byte = rand() < 0.5 ? substr($0, at, 1) : sprintf("%c", 1 + int(rand() * 255))
        print substr($0, 1, at - 1) byte substr($0, at + 1) }' lines >noise
    play device live <noise
    is_one_of '0 1 8' '^(ok [0-9]+ [0-9]+|no [a-z]+( -?[0-9]+)*|-?[0-9]+( -?[0-9]+)+)$' ||
        wrong="round $round: $(ended)$(kept noise)"
    play device ask <questions
    [ "$status" = 0 ] || wrong="round $round, opened again: $(ended)$(kept noise)"
    [ -z "$wrong" ] || break
done
expect 'lines with random bytes in them' "$wrong" ''

wrong=
for round in $(seq 10); do
    random $((64 * 4096)) >noise
    cp noise device
    for command in ask live; do
        play device "$command" <one_more
        is_one_of '6 7' '^no (store|damaged [0-9]+)$' && cmp -s device noise ||
            wrong="round $round, $command: $(ended)$(kept noise)"
    done
    play device format --blocks 64 </dev/null
    is_one_of '0 6' '^(formatted 64|no occupied)$' || wrong="round $round, format: $(ended)$(kept noise)"
    if [ "$status" = 0 ]; then
        play device ask </dev/null
        [ "$(ended)" = '0: ' ] || wrong="round $round, after format: $(ended)$(kept noise)"
    fi
    [ -z "$wrong" ] || break
done
expect 'random bytes as device' "$wrong" ''

# A store with a few random bytes somewhere. What opens is answered and goes on; nothing else is changed.
size=$(wc -c <before)
wrong=
for round in $(seq 40); do
    cp before device
    # One time in two, in the first bytes of a block, which have the fields.
    at=$(((RANDOM * 32768 + RANDOM) % size))
    [ $((round % 2)) = 0 ] || at=$((at / 4096 * 4096 + RANDOM % 64))
    random $((1 + RANDOM % 4)) | dd of=device bs=1 seek="$at" conv=notrunc 2>/dev/null
    cp device noise
    play device ask <questions
    is_one_of '0 1 6 7' '^(ok|no) |^-?[0-9]+ -?[0-9]+$' && cmp -s device noise ||
        wrong="round $round, ask: $(ended)$(kept noise)"
    play device live <one_more
    is_one_of '0 1 6 7 8' '^(ok [12] 0|no (stream|store|damaged [0-9]+|full [0-9]+ [0-9]+))$' ||
        wrong="round $round, live: $(ended)$(kept noise)"
    if [ "$status" -le 1 ]; then
        play device ask </dev/null
        [ "$(ended)" = '0: ' ] || wrong="round $round, after live: $(ended)$(kept noise)"
    elif ! cmp -s device noise; then
        wrong="round $round: a refused device was changed$(kept noise)"
    fi
    [ -z "$wrong" ] || break
done
expect 'a store with random bytes in it' "$wrong" ''

# Words that are no command.
wrong=
cp before device
refused() {
    play device "$@" <questions
    [ "$(ended)" = '2: no usage/' ] && cmp -s device before || wrong="$wrong [$(one_line "$*")] $(ended)"
}
refused ''
refused format
refused format --blocks
refused format 64
refused format --blocks ''
refused format --blocks 7
refused format --blocks 4294967297
refused format --blocks 99999999999999999999999999
refused format --blocks -64
refused format --blocks ++64
refused format --blocks 0x40
refused format --blocks ' 64'
refused format --blocks 64 64
refused format --blocks=
refused format --blo 64
refused format --blocks 64 --blocks 64
refused format --batch 64
refused live --batch
refused live --batch 0
refused live --batch 65537
refused live --batch 1 --batch 1
refused live --group
refused live --group 0
refused live --group 65537
refused live --group 1 --group 1
refused live --group 1 --batch 1
refused live --batch 1 --group 1
refused live --blocks 64
refused ask --batch 5
refused load --group 5
refused ship
refused ship 0
refused ship -1
refused ship one
refused ship 1 2
refused ship 18446744073709551616
refused hear 1
refused hear --from 1
refused -- ask
refused ask -- --
refused format --Blocks 64
refused --blocks 64 format
refused --help
refused -h
refused live --help
refused --version
refused -V
refused help
refused help live
refused live live
refused ask ''
refused Ask
refused ' ask'
refused 'ask '
refused "$(head -c 100000 /dev/zero | tr '\0' 'a')"
refused $'ask\n'
refused $'\xff\xfe'
refused ask $'\xc3'
for _ in $(seq 10); do refused "$(random 12 | tr -d '\0')" "$(random 5 | tr -d '\0')"; done
expect 'words that are no command' "$wrong" ''

# Spellings that the command-line library takes.
wrong=
taken() {
    play device "$@" </dev/null
    [ "$(ended)" = '6: no occupied/' ] && cmp -s device before || wrong="$wrong [$(one_line "$*")] $(ended)"
}
taken format --blocks=64
taken format --blocks +64
taken format --blocks 0064
taken format --blocks 64 --
expect 'spellings of a number and an option' "$wrong" ''
