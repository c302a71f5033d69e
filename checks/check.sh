#!/usr/bin/env bash
# `check` on real files: stores that are right, bytes that are changed, locks, kills, and an output that is closed or full.
# shellcheck source=checks/common.sh
. "$(dirname "$0")/common.sh"

# What a check of a file gives.
check() {
    play "$1" check </dev/null
    ended
}

# ---- files that are right, or no store

expect 'a file that is missing' "$(check missing)" '6: no store/'
awk 'BEGIN { for (i = 0; i < 9000; i++) printf "no store " }' >text
cp text device
expect 'a file that is no store' "$(check device), $(compared device text)" '6: no store/, same'
rm -f device
"$program" device format --blocks 64 >out 2>err </dev/null
cp device before
expect 'an empty store' "$(check device), $(compared device before)" '0: stands 0/, same'
rm -f device
make_store device
cp device before
expect 'a store of two entries' "$(check device), $(compared device before)" '0: stands 2/, same'
cp before cut
truncate -s $((7 * 4096)) cut 2>/dev/null || dd if=before of=cut bs=4096 count=7 2>/dev/null
expect 'a copy without its last blocks' "$(check cut)" '7: no damaged 7/'
play device check <&-
expect 'check with input closed' "$(ended)" '0: stands 2/'
play device check 2 </dev/null
expect 'a word after check' "$(ended)" '2: no usage/'

# ---- bytes that are changed

# Puts a byte at an offset of a block of the file `device`, which is made as a given file: FILE BLOCK OFFSET BYTE.
put_byte() {
    cp "$1" device
    # shellcheck disable=SC2059
    printf "\\$4" | dd of=device bs=1 seek=$(($2 * 4096 + $3)) conv=notrunc 2>/dev/null
}
# Checks what is said after a change: NAME FILE BLOCK OFFSET BYTE WANTED. WANTED is a block, or what stands.
changed() {
    put_byte "$2" "$3" "$4" "$5"
    case $6 in
        stands*) expect "$1" "$(check device)" "0: $6/" ;;
        *) expect "$1" "$(check device)" "7: no damaged $6/" ;;
    esac
}
# What an `ask` says of the device: a change that only a check sees.
asked() {
    play device ask <questions
    ended
}

# The entries of the store have the gates 4 and 6 and the bodies 5 and 7, and the leaf of the version is block 8: its first value ends at
# offset 79, its first time at 71. In the entry the first value ends at 100.
changed 'a value in a leaf' before 8 79 004 8
expect 'ask answers from that leaf' "$(asked)" '0: ok 1 3/0 4/3 7/4 -2/'
changed 'a time in a leaf' before 8 71 001 8
changed 'a value in an entry' before 7 100 004 8
changed 'the mark of a leaf' before 8 0 000 8
changed 'the mark of an entry' before 7 0 000 7
changed 'the table of a superblock' before 1 0 000 1
changed 'the gate of the last entry' before 6 0 000 'stands 1'
changed 'a byte after the tail' before 10 0 001 'stands 2'

# The checkpoint has the gate 9 and the body 10, and superblock B names it. In the body the id of the stream ends at offset 83. In a
# superblock the tail ends at offset 39, the checkpoint at 47.
cp before marked
"$program" marked checkpoint >out 2>err </dev/null
expect 'a store with a checkpoint' "$(check marked)" '0: stands 2/'
changed 'a value in an entry before a checkpoint' marked 7 100 004 8
expect 'ask does not look at that entry' "$(asked)" "0: $answer"
changed 'the mark of an entry before a checkpoint' marked 5 0 000 5
changed 'the gate of an entry before a checkpoint' marked 4 0 000 3
changed 'an id in a checkpoint' marked 10 83 000 10
changed 'the tail in a superblock' marked 3 39 012 3
changed 'the checkpoint in a superblock' marked 3 47 006 3
changed 'the gate of the superblock that names a checkpoint' marked 2 0 000 'stands 2'

# ---- a store with many nodes and outputs

rm -f device
output=33333333-3333-4333-8333-333333333333
"$program" device format --blocks 65536 >out 2>err </dev/null
awk -v id="$id" -v output="$output" 'BEGIN {
    print "create", id
    print "distiller", output, "mean 1000 4", id
    for (k = 0; k < 40; k++) {
        line = "insert " id
        for (i = 0; i < 100; i++) line = line " " (k * 7919 + i * 104729) % 1000000 " " (k * i) % 997
        print line
        if (k % 4 == 3) print "refresh", output
        if (k % 8 == 7) print "delete", id, k * 1000, k * 1000 + 5000
    }
}' >script
play device live <script
expect 'a store with outputs' "$status, $(grep -c '^ok' out)" '0, 57'
cp device large
expect 'check of a store with outputs' "$(check device)" '0: stands 57/'
"$program" device checkpoint >out 2>err </dev/null
expect 'check of it with a checkpoint' "$(check device)" '0: stands 57/'

# One bit of the first point, or the first slot, of random pages is turned. Each page is in the tree of its version, so each change is seen.
if has od; then
    wrong=
    blocks=$(($(wc -c <large) / 4096))
    for _ in $(seq 30); do
        block=$((8 + RANDOM % (blocks - 8)))
        case $(dd if=large bs=4096 skip="$block" count=1 2>/dev/null | head -c 8) in BTR-LEAF | BTR-NODE) ;; *) continue ;; esac
        at=$((64 + RANDOM % 16))
        byte=$(od -An -tu1 -j $((block * 4096 + at)) -N 1 large | tr -d ' ')
        put_byte large "$block" "$at" "$(printf '%03o' $((byte ^ 1)))"
        found=$(check device)
        case $found in '7: no damaged '*) ;; *) wrong="$wrong block $block, byte $at: $found" ;; esac
    done
    expect 'bits that are turned in pages' "$wrong" ''
else
    skip 'bits that are turned in pages' 'od is missing'
fi

# ---- locks

if has mkfifo && mkfifo pipe; then
    # A holder reads the pipe, which stays open at descriptor 3. What is written first is more than the pipe holds: then the holder has
    # locked its device.
    for holder in live ask; do
        cp before device
        "$program" device "$holder" <pipe >held 2>err &
        running=$!
        exec 3>pipe
        awk 'BEGIN { for (i = 0; i < 20000; i++) print "# a line without a reply" }' >&3
        play device check </dev/null 3>&-
        if [ "$holder" = ask ]; then wanted='0: stands 2/'; else wanted='5: no device/'; fi
        expect "check beside $holder" "$(ended), $(compared device before)" "$wanted, same"
        exec 3>&-
        wait "$running"
    done
else
    skip 'check beside other commands' 'mkfifo is missing, or fails'
fi
if has flock; then
    cp before device
    flock -x device "$program" device check </dev/null >out 2>err
    status=$?
    expect 'check of a file that another program has locked' "$(ended)" '5: no device/'
    flock -s device "$program" device check </dev/null >out 2>err
    status=$?
    expect 'check under a shared lock of another program' "$(ended)" '0: stands 2/'
else
    skip 'check under locks of another program' 'flock is missing'
fi

# ---- standard output

cp before device
"$program" device check </dev/null >&- 2>err
expect 'check with output closed' "$?, $(compared device before)" '4, same'
if [ -c /dev/full ]; then
    "$program" device check </dev/null >/dev/full 2>err
    expect 'check with a full output' "$?, $(compared device before)" '4, same'
else
    skip 'check with a full output' 'there is no /dev/full'
fi
