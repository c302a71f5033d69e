#!/usr/bin/env bash
# The order of the calls that the program makes of the system on its device, and what follows a sync that fails.
# shellcheck source=checks/common.sh
. "$(dirname "$0")/common.sh"

if ! has strace || ! strace -f -o trace true 2>/dev/null; then
    skip 'the order of writes and syncs' 'strace is missing, or may not trace'
    exit 0
fi

# Runs the program on the device under strace, with these words. `calls` is then what it called on the device, in order: W for writes without
# a sync between them, S for a sync, X for a sync that failed.
traced() {
    strace -f -o trace -P device -e trace=pwrite64,fdatasync "${inject[@]}" "$program" device "$@" >out 2>err
    status=$?
    calls=$(awk '/pwrite64\(/ { printf "W" } /fdatasync\(.*= 0/ { printf "S" } /fdatasync\(.*= -1/ { printf "X" }' trace | tr -s W)
}
inject=()

# The opening of a store: its gates, a sync. One commit: the body, a sync, the gate, a sync.
open=WS
commit=WSWS

: >device
traced format --blocks 256 </dev/null
expect 'the calls of format' "$(ended) $calls" '0: formatted 256/ SWSWS'
printf 'create %s\ninsert %s 0 5 3 7 4 -2\ninsert %s 5 1\n' "$id" "$id" "$id" >script
traced live <script
expect 'the calls of live' "$(ended) $calls" "0: ok 0 0/ok 1 0/ok 2 0/ $open$commit$commit$commit"
printf '%s,6,1\n%s,7,1\n' "$id" "$id" >rows
gate=$(grep -abo BTR-GATE device | tail -n 1 | cut -d : -f 1)
traced load --batch 1 <rows
expect 'the calls of load' "$(ended) $calls" "0: $id 4 2/loaded 2 refused 0/ $open$commit$commit"
expect 'the gates that are written anew' "$(awk '/fdatasync\(/ { exit } /pwrite64\(/ { sub(/\) += 4096$/, ""); print $NF }' trace | tr '\n' ' ')" "0 8192 $gate "
other=22222222-2222-4222-8222-222222222222
printf 'distiller %s sum 10 0 %s\n' "$other" "$id" >line
play device live <line
traced distil </dev/null
expect 'the calls of distil' "$(ended) $calls" "0: $other 1 4/ $open$commit"
traced checkpoint </dev/null
expect 'the calls of a first checkpoint' "$(ended) $calls" "0: checkpoint 7/ $open$commit$commit"
traced checkpoint </dev/null
expect 'the calls of a checkpoint that replaces an older superblock' "$(ended) $calls" "0: checkpoint 7/ $open${commit}WS$commit"
traced ask <questions
expect 'the calls of ask' "$status $calls" '0 S'
traced check </dev/null
expect 'the calls of check' "$(ended) $calls" '0: stands 7/ '

# Each sync fails once, in a run of its own. After it nothing more is written. The next run is right: it finds
# what was acknowledged, and its own commit after it.
wrong=
cp device before
for k in $(seq 20); do
    cp before device
    inject=(-e "inject=fdatasync:error=EIO:when=$k")
    printf 'insert %s 100 1\ninsert %s 101 1\n' "$id" "$id" >script
    traced live <script
    inject=()
    [ "$status" != 0 ] || break
    done=$(grep -c '^ok ' out)
    case $status,$calls in
        5,*X) ;;
        *) wrong="sync $k: status $status, calls $calls" ;;
    esac
    play device live <one_more
    found=$(ended)
    play device check </dev/null
    case "$found, $(ended)" in
        "0: ok $((5 + done)) 0/, 0: stands $((8 + done))/" | "0: ok $((6 + done)) 0/, 0: stands $((9 + done))/") ;;
        *) wrong="after sync $k: $found, $(ended)" ;;
    esac
    [ -z "$wrong" ] || break
done
[ -n "$wrong" ] || wrong="syncs that failed: $((k - 1))"
expect 'each sync of a live that fails' "$wrong" 'syncs that failed: 5'

# The same of format, checkpoint and distil: the next run of the same words is right, or finds what is there.
failing() {
    local name=$1 first=$2 again=$3 k
    shift 3
    wrong=
    for k in $(seq 20); do
        cp "$first" device
        inject=(-e "inject=fdatasync:error=EIO:when=$k")
        traced "$@" </dev/null
        inject=()
        [ "$status" != 0 ] || break
        case $status,$calls in
            5,*X) ;;
            *) wrong="sync $k: status $status, calls $calls" ;;
        esac
        play device "$@" </dev/null
        printf '%s\n' "$again" | grep -qxF -- "$(ended)" || wrong="after sync $k: $(ended)"
        play device check </dev/null
        case $(ended) in '0: stands '*) ;; *) wrong="after sync $k: $(ended)" ;; esac
        [ -z "$wrong" ] || break
    done
    [ -n "$wrong" ] || wrong="syncs that failed: $((k - 1))"
    expect "each sync of a $name that fails" "$wrong" "$wanted"
}
: >empty
wanted='syncs that failed: 3'
failing format empty "$(printf '0: formatted 64/\n6: no occupied/')" format --blocks 64
wanted='syncs that failed: 6'
failing checkpoint before '0: checkpoint 7/' checkpoint
printf 'insert %s 50 1\n' "$id" >line
cp before device
play device live <line
cp device changed
wanted='syncs that failed: 3'
failing distil changed "$(printf '0: %s 2 5/' "$other")" distil

# The lines of a batch of a shared buffer have one commit.
: >device
play device format --blocks 64 </dev/null
printf 'create %s\n' "$id" >line
play device live <line
printf 'feed %s 0 1\nfeed %s 1 2 2 3\nfeed %s 3 4\n' "$id" "$id" "$id" >script
traced live --group 4 <script
expect 'the calls of a batch of a shared buffer' "$(ended) $calls" "0: held 0/held 1/ok 1 0/ $open$commit"

# `ship` syncs once, and writes nothing. `hear` commits each entry as a line does, and opens the store for frames that it has.
traced ship 1 </dev/null
expect 'the calls of ship' "$status $calls" '0 S'
cp out frames
: >device
play device format --blocks 64 </dev/null
cp device before
traced hear <frames
expect 'the calls of hear' "$(ended) $calls" "0: heard 2 stale 0 early 0 bad 0 rest 0/ $open$commit$commit"
traced hear <frames
expect 'the calls of hear of the same frames' "$(ended) $calls" "0: heard 0 stale 2 early 0 bad 0 rest 0/ $open"
wrong=
for k in $(seq 20); do
    cp before device
    inject=(-e "inject=fdatasync:error=EIO:when=$k")
    traced hear <frames
    inject=()
    [ "$status" != 0 ] || break
    case "$(ended) $calls" in
        '5: no device/ '*X) ;;
        *) wrong="sync $k: $(ended) $calls" ;;
    esac
    play device hear <frames
    case $(ended) in
        '0: heard 2 stale 0 '* | '0: heard 1 stale 1 '* | '0: heard 0 stale 2 '*) ;;
        *) wrong="after sync $k: $(ended)" ;;
    esac
    play device check </dev/null
    [ "$(ended)" = '0: stands 2/' ] || wrong="after sync $k: $(ended)"
    [ -z "$wrong" ] || break
done
[ -n "$wrong" ] || wrong="syncs that failed: $((k - 1))"
expect 'each sync of a hear that fails' "$wrong" 'syncs that failed: 5'
