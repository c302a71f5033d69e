#!/usr/bin/env bash
# Seals on real files: answers before one and after it, what a sealed store refuses, runs that are killed, bytes that are changed, locks, and
# an output that is closed or full.
# shellcheck source=checks/common.sh
. "$(dirname "$0")/common.sh"

output=33333333-3333-4333-8333-333333333333

# What a run of these words gives.
run() {
    play device "$@" </dev/null
    ended
}
ask_all() {
    play device ask <all
    ended
}

# ---- a store with an output that is not up to date

cat >script <<END
create $id
insert $id 0 10 10 20 20 30
distiller $output sum 10 0 $id
refresh $output
insert $id 5 1
END
cat >all <<END
streams
range $id 0 100 latest
info $output latest
END
all_answers="0: ok 5 2/$id 2 plain/$output 1 output/ok 2 4/0 10/5 1/10 20/20 30/ok 1 2/output 3 90 10 50/reads 1/"

expect 'a seal of a file that is missing' "$(run seal)" '6: no store/'
run format --blocks 4096 >found
play device live <script
expect 'answers before a seal' "$status, $(ask_all)" "0, $all_answers"
expect 'a seal' "$(run seal)" '0: sealed 5/'
cp device sealed
expect 'answers after a seal' "$(ask_all)" "$all_answers"
expect 'a check of a sealed store' "$(run check)" '0: stands 5/'

# ---- what is refused

expect 'a second seal' "$(run seal)" '1: no sealed/'
expect 'a checkpoint of a sealed store' "$(run checkpoint)" '1: no sealed/'
expect 'a distil of a sealed store' "$(run distil)" "1: $output no sealed/"
printf '%s,9,9\n' "$id" >rows
play device load <rows
expect 'a load into a sealed store' "$(ended)" "1: $id rows 1 1: no sealed/$id 2 0/loaded 0 refused 1/"
printf 'insert %s 9 9\nrefresh %s\nfeed %s 9 9\nflush %s\nflush %s\nretire %s 1\n' "$id" "$output" "$id" "$id" "$output" "$id" >line
play device live <line
expect 'lines on a sealed store' "$(ended)" '1: no sealed/no sealed/held 1/no sealed/no output/no sealed/'
expect 'the bytes of a store that refused all' "$(compared device sealed)" 'same'

# ---- frames

"$program" device ship 1 >frames 2>err </dev/null
expect 'frames of a sealed store' "$?" 0
play device hear <frames
expect 'a sealed store that hears its own frames' "$(ended)" '0: heard 0 stale 5 early 0 bad 0 rest 0/'
rm -f device
run format --blocks 4096 >found
run seal >found
play device hear <frames
expect 'an empty sealed store that hears frames' "$(ended)" '1: no sealed/'
rm -f device
run format --blocks 4096 >found
play device hear <frames
expect 'another store that hears the frames' "$(ended), $(ask_all)" "0: heard 5 stale 0 early 0 bad 0 rest 0/, $all_answers"

# ---- runs that are cut off

# A store with enough versions that a seal is not made at once.
awk -v id="$id" 'BEGIN { for (k = 100; k < 400; k++) print "insert", id, k, k }' >line
play device live <line
expect 'a store of 305 entries' "$status, $(tail -n 1 out)" '0, ok 302 0'
printf 'streams\ninfo %s latest\n' "$id" >all
all_answers="0: ok 305 2/$id 302 plain/$output 1 output/ok 302 1/plain 304 74911 1 399/"
cp device whole

# Waits for a random moment of a run: in even rounds until the file has changed, else for a random time.
wait_in_round() {
    if [ $(($1 % 2)) = 0 ]; then
        while cmp -s device whole && kill -0 "$running" 2>/dev/null; do :; done
    else
        sleep "0.0$(printf '%02d' $((RANDOM % 25)))"
    fi
}

wrong=
cut=0
for round in $(seq 40); do
    cp whole device
    : >held
    "$program" device seal >held 2>err </dev/null &
    running=$!
    wait_in_round "$round"
    { kill -KILL "$running"; wait "$running"; } 2>/dev/null
    found="$(ask_all), $(run check)"
    [ "$found" = "$all_answers, 0: stands 305/" ] || wrong="round $round: $found"
    [ ! -s held ] || [ "$(cat held)" = 'sealed 305' ] || wrong="round $round: it wrote $(cat held)"
    again=$(run seal)
    case $again in
        '0: sealed 305/') [ ! -s held ] || wrong="round $round: it was not sealed" ;;
        '1: no sealed/') ;;
        *) wrong="round $round: $again" ;;
    esac
    [ -z "$wrong" ] || break
    [ -s held ] || [ "$again" != '0: sealed 305/' ] || cmp -s device whole || cut=$((cut + 1))
done
expect 'runs of seal that were killed' "$wrong" ''
[ "$cut" -gt 0 ] || skip 'runs of seal that were killed between their calls' 'none was here'
expect 'a seal after those that were killed' "$(run seal), $(ask_all)" "1: no sealed/, $all_answers"

# ---- bytes that are changed

# Puts a byte at an offset of a block of the sealed device, which is made as before.
put_byte() {
    cp marked device
    # shellcheck disable=SC2059
    printf "\\$3" | dd of=device bs=1 seek=$(($1 * 4096 + $2)) conv=notrunc 2>/dev/null
}
# Checks what commands say then: NAME BLOCK OFFSET BYTE WANTED.
changed() {
    put_byte "$2" "$3" "$4"
    play device ask <questions
    expect "$1" "$(ended), $(run seal), $(run check)" "$5"
}

# The entries of this store have the gates 4 and 6. The checkpoint has the gate 9 and the body 10, superblock B names it, and the tail is 11.
rm -f device
make_store device
run seal >found
cp device marked
changed 'a sealed superblock without its mark' 3 55 000 '7: no damaged 3/, 7: no damaged 3/, 7: no damaged 3/'
changed 'a sealed superblock of format 1' 3 11 001 '7: no damaged 3/, 7: no damaged 3/, 7: no damaged 3/'
changed 'a superblock of format 5' 3 11 005 '7: no damaged 3/, 7: no damaged 3/, 7: no damaged 3/'
changed 'a superblock of format 1 with the mark of a seal' 1 55 001 '7: no damaged 1/, 7: no damaged 1/, 7: no damaged 1/'
changed 'an entry with the format of a seal' 5 15 004 "0: $answer, 1: no sealed/, 7: no damaged 5/"
changed 'the checkpoint of a seal that no superblock names' 2 0 000 "0: $answer, 0: sealed 2/, 0: stands 2/"
cp marked device
printf 'BTR-GATE' | dd of=device bs=4096 seek=11 conv=notrunc 2>/dev/null
play device ask <questions
expect 'an open gate at the tail of a sealed store' "$(ended), $(run seal), $(run check)" '7: no damaged 11/, 7: no damaged 11/, 7: no damaged 11/'

# ---- locks

if has mkfifo && mkfifo pipe; then
    cp marked device
    "$program" device ask <pipe >held 2>err &
    running=$!
    exec 3>pipe
    awk 'BEGIN { for (i = 0; i < 20000; i++) print "# a line without a reply" }' >&3
    play device seal </dev/null 3>&-
    expect 'seal beside ask' "$(ended), $(compared device marked)" '5: no device/, same'
    exec 3>&-
    wait "$running"
else
    skip 'seal beside another command' 'mkfifo is missing, or fails'
fi

# ---- standard output and input

rm -f device
make_store device
cp device plain
"$program" device seal </dev/null >&- 2>err
expect 'seal with output closed' "$?, $(compared device marked)" '4, same'
if [ -c /dev/full ]; then
    cp plain device
    "$program" device seal </dev/null >/dev/full 2>err
    expect 'seal with a full output' "$?, $(compared device marked)" '4, same'
else
    skip 'seal with a full output' 'there is no /dev/full'
fi
cp plain device
play device seal <&-
expect 'seal with input closed' "$(ended), $(compared device marked)" '0: sealed 2/, same'
