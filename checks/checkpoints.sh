#!/usr/bin/env bash
# Checkpoints on real files: answers before them and after them, runs that are killed, bytes that are changed, locks, and an output that
# is closed or full.
# shellcheck source=checks/common.sh
. "$(dirname "$0")/common.sh"

plain=22222222-2222-4222-8222-222222222222
output=33333333-3333-4333-8333-333333333333

# ---- a store with two streams and an output

cat >script <<END
create $id
insert $id 0 10 10 20 20 30
create $plain
insert $plain 0 1
distiller $output sum 10 0 $id
refresh $output
insert $id 5 1
refresh $output
END
cat >all <<END
streams
range $id 0 100 1
range $id 0 100 latest
range $plain 0 100 latest
range $output 0 100 1
range $output 0 100 2
info $output 2
END
all_answers="0: ok 8 3/$id 2 plain/$plain 1 plain/$output 2 output/"
all_answers+="ok 1 3/0 10/10 20/20 30/ok 2 4/0 10/5 1/10 20/20 30/ok 1 1/0 1/"
all_answers+="ok 1 3/0 10/10 30/20 50/ok 2 4/0 10/5 11/10 31/20 50/ok 2 2/output 4 102 10 50/reads 2/"

# What a run of these words gives.
run() {
    play device "$@" </dev/null
    ended
}
ask_all() {
    play device ask <all
    ended
}

run checkpoint >found
expect 'a checkpoint of a file that is missing' "$(cat found)" '6: no store/'
run format --blocks 4096 >found
play device live <script
expect 'a store with an output' "$(cat found), $status" '0: formatted 4096/, 0'
expect 'answers before a checkpoint' "$(ask_all)" "$all_answers"
expect 'a checkpoint' "$(run checkpoint)" '0: checkpoint 8/'
expect 'answers after a checkpoint' "$(ask_all)" "$all_answers"
expect 'a second checkpoint' "$(run checkpoint)" '0: checkpoint 8/'
expect 'answers after two checkpoints' "$(ask_all)" "$all_answers"
printf 'insert %s 30 40\nrefresh %s\nrange %s 20 100 3\n' "$id" "$output" "$output" >line
play device live <line
expect 'commits after checkpoints' "$(ended)" '0: ok 3 0/ok 3 0/ok 3 2/20 50/30 70/'
expect 'a third checkpoint' "$(run checkpoint)" '0: checkpoint 10/'

# ---- runs that are cut off

# A store with enough versions that a checkpoint is not made at once.
awk -v id="$id" 'BEGIN { for (k = 100; k < 400; k++) print "insert", id, k, k }' >line
play device live <line
expect 'a store of 310 entries' "$status, $(tail -n 1 out)" '0, ok 303 0'
printf 'streams\ninfo %s latest\ninfo %s 3\n' "$id" "$output" >all
all_answers="0: ok 310 3/$id 303 plain/$plain 1 plain/$output 3 output/"
all_answers+="ok 303 1/plain 305 74951 1 399/ok 3 2/output 5 172 10 70/reads 3/"

# Waits for a random moment of a run: in even rounds until the file has changed, else for a random time.
wait_in_round() {
    if [ $(($1 % 2)) = 0 ]; then
        while cmp -s device before && kill -0 "$running" 2>/dev/null; do :; done
    else
        sleep "0.0$(printf '%02d' $((RANDOM % 25)))"
    fi
}

wrong=
cut=0
for round in $(seq 40); do
    cp device before
    : >held
    "$program" device checkpoint >held 2>err </dev/null &
    running=$!
    wait_in_round "$round"
    { kill -KILL "$running"; wait "$running"; } 2>/dev/null
    found=$(ask_all)
    [ "$found" = "$all_answers" ] || wrong="round $round: $found"
    [ ! -s held ] || [ "$(cat held)" = 'checkpoint 310' ] || wrong="round $round: it wrote $(cat held)"
    [ ! -s held ] || ! cmp -s device before || wrong="round $round: nothing was written"
    [ -z "$wrong" ] || break
    [ -s held ] || cmp -s device before || cut=$((cut + 1))
done
expect 'runs of checkpoint that were killed' "$wrong" ''
[ "$cut" -gt 0 ] || skip 'runs of checkpoint that were killed between their calls' 'none was here'
expect 'a checkpoint after those that were killed' "$(run checkpoint), $(ask_all)" "0: checkpoint 310/, $all_answers"

# A checkpoint of the small store ends at 48 KiB. A run that may write up to 44 cannot write all of it: the device fails, or the system ends
# the run.
cut_off() {
    rm -f device
    make_store device
    (
        [ "$1" = ended ] || trap '' XFSZ
        ulimit -c 0 -f 44
        "$program" device checkpoint >out 2>err </dev/null
        echo "$?: $(tr '\n' '/' <out)" >status
    ) 2>/dev/null
    found=$(cat status)
    play device ask <questions
}
cut_off refused
expect 'a checkpoint that cannot be written' "$found, $(ended), $(run checkpoint)" "5: no device/, 0: $answer, 0: checkpoint 2/"
cut_off ended
expect 'a checkpoint that was ended in its first call' "$(ended), $(run checkpoint)" "0: $answer, 0: checkpoint 2/"

# ---- bytes that are changed

# Puts a byte at an offset of a block of the device.
change_byte() {
    # shellcheck disable=SC2059
    printf "\\$3" | dd of=device bs=1 seek=$(($1 * 4096 + $2)) conv=notrunc 2>/dev/null
}
# Puts a byte at an offset of a block of the device, which is made as before.
put_byte() {
    cp marked device
    change_byte "$1" "$2" "$3"
}
# Checks that each command names a block: NAME BLOCK OFFSET BYTE NAMED.
damaged() {
    put_byte "$2" "$3" "$4"
    play device ask <questions
    expect "$1" "$(ended), $(run checkpoint)" "7: no damaged $5/, 7: no damaged $5/"
}

# Checks that a change is not seen: NAME BLOCK OFFSET BYTE.
unseen() {
    put_byte "$2" "$3" "$4"
    play device ask <questions
    expect "$1" "$(ended), $(run checkpoint)" "0: $answer, 0: checkpoint 2/"
}

# The entries of this store have the gates 4 and 6 and the bodies 5 and 7, and the page of the version is block 8. The checkpoint has the
# gate 9 and the body 10, and superblock B names it. In the body the id of the stream ends at offset 83, the root of the version at 116. In
# a superblock the tail ends at offset 39, the checkpoint at 47. In a page the stream ends at offset 23.
rm -f device
make_store device
run checkpoint >found
cp device marked
damaged 'a root of a checkpoint that has no page' 10 116 007 7
damaged 'a root of a checkpoint that is not below it' 10 116 011 10
damaged 'a number of entries that cannot be before a checkpoint' 10 23 003 10
damaged 'a byte after the content of a checkpoint' 10 200 001 10
damaged 'a superblock that names the gate of an entry' 3 47 006 3
damaged 'a superblock whose tail is not the gate after the checkpoint' 3 39 012 3
damaged 'a superblock that names a closed gate' 9 0 000 3
damaged 'a page below a checkpoint' 8 0 000 8
damaged 'a page below a checkpoint that is the root of another stream' 8 23 001 10
unseen 'the gate of an entry before a checkpoint' 4 0 000
unseen 'an entry before a checkpoint' 5 64 000
unseen 'the head of an entry before a checkpoint' 7 0 000
unseen 'a checkpoint that no superblock names' 2 0 000

# If the gate of superblock B is closed, the log is read from block 4, and the checkpoint is compared with the entries.
put_byte 2 0 000
change_byte 7 0 000
play device ask <questions
expect 'an entry before a checkpoint that no superblock names' "$(ended)" '7: no damaged 7/'
put_byte 10 83 000
play device ask <questions
expect 'a checkpoint of another stream' "$(ended)" '1: no stream/'
change_byte 2 0 000
play device ask <questions
expect 'a checkpoint of another stream that no superblock names' "$(ended)" '7: no damaged 10/'

# ---- locks

if has mkfifo && mkfifo pipe; then
    cp marked device
    # A holder reads the pipe, which stays open at descriptor 3. What is written first is more than the pipe holds: then the holder has
    # locked its device.
    for holder in live ask; do
        "$program" device "$holder" <pipe >held 2>err &
        running=$!
        exec 3>pipe
        awk 'BEGIN { for (i = 0; i < 20000; i++) print "# a line without a reply" }' >&3
        play device checkpoint </dev/null 3>&-
        expect "checkpoint beside $holder" "$(ended), $(compared device marked)" '5: no device/, same'
        exec 3>&-
        wait "$running"
    done
    expect 'checkpoint after the others' "$(run checkpoint)" '0: checkpoint 2/'
else
    skip 'checkpoint beside other commands' 'mkfifo is missing, or fails'
fi

# ---- standard output and input

cp marked device
run checkpoint >found
cp device after
cp marked device
"$program" device checkpoint </dev/null >&- 2>err
expect 'checkpoint with output closed' "$?, $(compared device after)" '4, same'
if [ -c /dev/full ]; then
    cp marked device
    "$program" device checkpoint </dev/null >/dev/full 2>err
    expect 'checkpoint with a full output' "$?, $(compared device after)" '4, same'
else
    skip 'checkpoint with a full output' 'there is no /dev/full'
fi
cp marked device
play device checkpoint <&-
expect 'checkpoint with input closed' "$(ended), $(compared device after)" '0: checkpoint 2/, same'
