#!/usr/bin/env bash
# Retired versions on real files: what is refused after them, the bytes of the superblock, the calls of a first retirement, and runs that
# are killed while versions are retired.
# shellcheck source=checks/common.sh
. "$(dirname "$0")/common.sh"

output=33333333-3333-4333-8333-333333333333

# What a run of these words gives.
run() {
    play device "$@" </dev/null
    ended
}

# ---- a store of three versions

make_store device
printf 'delete %s 3 4\ninsert %s 4 -2\n' "$id" "$id" >line
play device live <line
expect 'a store of three versions' "$(ended)" '0: ok 2 0/ok 3 0/'
cp device before
printf 'retire %s 2\nrange %s 0 5 1\nrange %s 0 5 2\nchanges %s 1 3 2\nretire %s 2\nretire %s 4\nrange %s 0 5 4\n' \
    "$id" "$id" "$id" "$id" "$id" "$id" "$id" >line
play device live <line
wanted='1: ok 0 0/no retired 1 2/ok 2 2/0 5/4 -2/no retired 1 2/no first 2 2 3/no first 4 2 3/no version 4 3/'
expect 'a retirement' "$(ended)" "$wanted"

# The first bytes of a block of the device, in hexadecimal: BLOCK COUNT.
bytes_of() {
    tail -c +$(($1 * 4096 + 1)) device | head -c "$2" | od -An -v -tx1 | tr -d ' \n'
}
if has od; then
    super=4254522d53555052000000020000000000000000000000020000000000000040000000000000000400000000000000000000000000000000
    expect 'the superblock after it' "$(bytes_of 2 8) $(bytes_of 3 56)" "4254522d47415445 $super"
else
    skip 'the superblock after a retirement' 'od is missing'
fi
printf 'range %s 0 5 1\nretire %s 3\ninfo %s latest\n' "$id" "$id" "$id" >line
answers="1: no retired 1 2/no line/ok 3 1/plain 3 1 -2 5/"
play device ask <line
expect 'questions after it' "$(ended)" "$answers"
expect 'a check after it' "$(run check)" '0: stands 5/'
expect 'checkpoints after it' "$(run checkpoint), $(run checkpoint)" '0: checkpoint 5/, 0: checkpoint 5/'
play device ask <line
expect 'questions after a checkpoint' "$(ended)" "$answers"
expect 'a check after checkpoints' "$(run check)" '0: stands 5/'

# ---- an output

printf 'distiller %s sum 0 0 %s\nretire %s 3\nrefresh %s\nretire %s 3\nretire %s 1\ninfo %s 0\n' \
    "$output" "$id" "$id" "$output" "$id" "$output" "$output" >line
play device live <line
expect 'a version that an output holds' "$(ended)" "1: ok 0 0/no held $output 0/ok 1 0/ok 0 0/ok 0 0/no retired 0 1/"
expect 'a check after it' "$(run check)" '0: stands 9/'

# ---- the calls of the system

printf 'retire %s 1\nretire %s 2\n' "$id" "$id" >line
if has strace && strace -f -o trace true 2>/dev/null; then
    # For writes without a sync between them W, for a sync S: the opening, the superblock and the entry, and the second entry.
    cp before device
    strace -f -o trace -P device -e trace=pwrite64,fdatasync "$program" device live <line >out 2>err
    status=$?
    calls=$(awk '/pwrite64\(/ { printf "W" } /fdatasync\(.*= 0/ { printf "S" }' trace | tr -s W)
    expect 'the calls of two retirements' "$(ended) $calls" '0: ok 0 0/ok 0 0/ WSWSWSWSWSWSWS'
else
    skip 'the calls of two retirements' 'strace is missing, or may not trace'
fi

# ---- runs that are killed

# The lines of a run: each new version is followed by the retirement of those before it.
awk -v id="$id" 'BEGIN {
    print "create", id
    for (k = 1; k <= 150; k++) { print "insert", id, k, k; print "retire", id, k }
}' >script

# What is wrong with the device, if anything: the versions before the latest one are retired, or those before the version before it.
wrong_now() {
    local latest first
    run check >found
    case $(cat found) in
        '0: stands '*) ;;
        *) echo "it does not stand: $(cat found)"; return ;;
    esac
    printf 'streams\ninfo %s 0\n' "$id" >line
    play device ask <line
    latest=$(sed -n 's/.* \([0-9]*\) plain$/\1/p' out)
    first=$(sed -n 's/^no retired 0 \([0-9]*\)$/\1/p' out)
    [ -n "$latest" ] || return
    [ -n "$first" ] || first=0
    [ "$first" = "$latest" ] || [ $((first + 1)) = "$latest" ] || echo "the versions before $first of $latest are retired"
}

wrong=
cut=0
for round in $(seq 20); do
    rm -f device
    run format --blocks 4096 >found
    : >held
    "$program" device live <script >held 2>err &
    running=$!
    sleep "0.0$(printf '%02d' $((RANDOM % 60)))"
    { kill -KILL "$running"; wait "$running"; } 2>/dev/null
    wrong=$(wrong_now)
    [ -z "$wrong" ] || { wrong="round $round: $wrong"; break; }
    [ -s held ] || cut=$((cut + 1))
done
expect 'runs that were killed while versions were retired' "$wrong" ''
[ "$cut" -gt 0 ] || skip 'runs that were killed before they had retired all' 'none was here'
