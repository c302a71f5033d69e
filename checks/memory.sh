#!/usr/bin/env bash
# Inputs that are too long, and runs with little memory: the status says which, and the device opens again.
# shellcheck source=checks/common.sh
. "$(dirname "$0")/common.sh"

make_store before
cp before device
head -c 268435457 /dev/zero | "$program" device live >out 2>err
status=$?
expect 'an input that is too long' "$(ended), $(compared device before)" '10: no long 268435456/, same'

if ! (ulimit -v 100000) 2>/dev/null; then
    skip 'little memory' 'the shell cannot limit it'
    exit 0
fi
(
    ulimit -v 100000
    head -c 200000000 /dev/zero | "$program" device live >out 2>err
)
status=$?
expect 'an input for which there is no memory' "$(ended), $(compared device before)" '9: no memory/, same'

# From no memory for the words to memory for all. With less the system does not start the program, and nothing is
# written.
awk -v id="$id" 'BEGIN {
    print "insert", id, 9, 9
    for (i = 0; i < 3000; i++) print "range", id, 0, 100, 1
    print "delete", id, 9, 10
}' >script
awk 'BEGIN {
    print "ok 2 0"
    for (i = 0; i < 3000; i++) print "ok 1 3\n0 5\n3 7\n4 -2"
    print "ok 3 0"
}' >replies

# What a run with a limit did: it had enough memory, or too little, or was not started, or else what it did.
found_limited() {
    if [ "$status" = 0 ] && cmp -s out replies; then
        echo enough
    elif [ "$status" = 9 ] && grep -qx 'no memory' out; then
        echo little
    elif [ "$status" -ge 126 ] && ! [ -s out ]; then
        echo none
    else
        ended
    fi
}

wrong=
seen=
for limit in $(seq 2000 100 6000); do
    cp before device
    (ulimit -v "$limit"; exec "$program" device live <script >out 2>err) 2>/dev/null
    status=$?
    found=$(found_limited)
    case $found in enough | little | none) seen="$seen $found" ;; *) wrong="limit $limit KiB: $found" ;; esac
    play device ask <questions
    case $(ended) in
        '0: ok 1 3/0 5/3 7/4 -2/' | '0: ok 2 4/0 5/3 7/4 -2/9 9/' | '0: ok 3 3/0 5/3 7/4 -2/') ;;
        *) wrong="limit $limit KiB, opened again: $(ended)" ;;
    esac
    [ -z "$wrong" ] || break
done
expect 'runs with little memory' "$wrong" ''
case $seen in
    *little*enough*) ;;
    *) skip 'runs whose memory ends' 'no limit gave one here' ;;
esac

# ---- each command, from no memory for it to memory for all

output=33333333-3333-4333-8333-333333333333
other=22222222-2222-4222-8222-222222222222
awk -v id="$id" 'BEGIN {
    for (i = 0; i < 20000; i++) print id "," i * 1000 "," i % 97
}' >rows
awk -v id="$other" 'BEGIN {
    for (i = 0; i < 20000; i++) print id "," i * 1000 "," i % 89
}' >more_rows
rm -f base
"$program" base format --blocks 4096 >out 2>err </dev/null
"$program" base load --batch 2000 <rows >out 2>err
printf 'distiller %s sum 100000 0 %s\n' "$output" "$id" | "$program" base live >out 2>err
printf 'range %s 0 100000000 latest\n' "$id" >points

# Runs a command on a copy of the store with each of some limits, in KiB: NAME INPUT WORDS. It is done, or it ends for want of memory, or
# the system does not start it. After each run `check` says that the store holds a legal history, with at least the entries of before.
limited() {
    local name=$1 input=$2 wrong='' seen='' limit before stands
    shift 2
    before=$("$program" base check </dev/null)
    before=${before#stands }
    for limit in $(seq 2000 1000 24000); do
        cp base device
        (ulimit -v "$limit"; exec "$program" device "$@" <"$input" >out 2>err) 2>/dev/null
        status=$?
        case $status in
            0 | 1) seen="$seen enough" ;;
            9) seen="$seen little" ;;
            *) [ "$status" -ge 126 ] || wrong="limit $limit KiB: $(ended | cut -c 1-80)" ;;
        esac
        stands=$("$program" device check </dev/null)
        case $stands in
            stands*) [ "${stands#stands }" -ge "$before" ] || wrong="limit $limit KiB: after it $stands" ;;
            *) wrong="limit $limit KiB: after it $stands" ;;
        esac
        [ -z "$wrong" ] || break
    done
    expect "$name with little memory" "$wrong" ''
    case $seen in
        *little*enough*) ;;
        *) skip "$name whose memory ends" 'no limit gave one here' ;;
    esac
}
limited load more_rows load --batch 500
limited distil /dev/null distil
limited ask points ask
limited checkpoint /dev/null checkpoint
limited check /dev/null check
