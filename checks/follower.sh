#!/usr/bin/env bash
# A follower of a store on real files: frames that are shipped and heard, again, in part, from the middle, and of no store; a leader that
# grows while its follower hears pieces that are cut at random bytes; runs that are killed; and a follower that is full.
# shellcheck source=checks/common.sh
. "$(dirname "$0")/common.sh"

for tool in dd mkfifo od; do
    if ! has "$tool"; then
        skip 'a follower' "$tool is missing"
        exit 0
    fi
done

plain=22222222-2222-4222-8222-222222222222
output=33333333-3333-4333-8333-333333333333
cells=44444444-4444-4444-8444-444444444444

# What a run of `hear` on a store gives, with the bytes of a file as input: STORE FILE.
hear() {
    play "$1" hear <"$2"
    ended
}

# The status of `ship` and the number of bytes that it writes, which are in `out`: STORE FROM.
ship() {
    play "$1" ship "$2" </dev/null
    echo "$status: $(wc -c <out | tr -d ' ')"
}

# What a check of a store gives.
checked() {
    play "$1" check </dev/null
    ended
}

# The number of entries of a store, or nothing if it does not answer.
entries() {
    echo streams >line
    play "$1" ask <line
    sed -n '1s/^ok \([0-9][0-9]*\) [0-9]*$/\1/p' out
}

# Whether a file is the beginning of another: PART WHOLE.
is_beginning() {
    head -c "$(wc -c <"$1")" "$2" >beginning
    compared "$1" beginning
}

# The offsets at which the frames of a file end, one in each line, read byte by byte.
ends_of() {
    od -An -v -tu1 "$1" | awk '{ for (i = 1; i <= NF; i++) byte[n++] = $i }
        END { while (at + 20 <= n) {
            long = 0
            for (k = 12; k < 20; k++) long = 256 * long + byte[at + k]
            at += 20 + long
            if (at <= n) print at
        } }'
}

# ---- frames

printf 'create %s\ninsert %s 0 5 3 7 4 -2\n' "$id" "$id" >script
printf 'range %s 0 5 1\n' "$id" >question
play leader format --blocks 64 </dev/null
play leader live <script
expect 'a store with two entries' "$(ended)" '0: ok 0 0/ok 1 0/'
cp leader before
expect 'all frames' "$(ship leader 1)" '0: 126'
cp out all
expect 'shipping leaves the device as it was' "$(compared leader before)" same
expect 'the mark of a frame' "$(head -c 4 all)" 'BTRF'
expect 'the ends of the frames' "$(ends_of all | tr '\n' ' ')" '37 126 '
expect 'the last frame' "$(ship leader 2)" '0: 89'
cp out last
tail -c 89 all >end
expect 'it is the end of all frames' "$(compared end last)" same
expect 'no frame' "$(ship leader 3)" '0: 0'
expect 'frames from 0 are no words' "$(ship leader 0)" '2: 9'

# ---- a follower

play follower format --blocks 64 </dev/null
expect 'all frames are taken' "$(hear follower all)" '0: heard 2 stale 0 early 0 bad 0 rest 0/'
expect 'the same again is stale' "$(hear follower all)" '0: heard 0 stale 2 early 0 bad 0 rest 0/'
play follower ask <question
expect 'the follower answers' "$(ended)" '0: ok 1 3/0 5/3 7/4 -2/'
expect 'the follower ships the same' "$(ship follower 1), $(compared out all)" '0: 126, same'
expect 'the follower is right' "$(checked follower)" '0: stands 2/'

# ---- frames that are not taken

play late format --blocks 64 </dev/null
cp late empty
expect 'an entry is missing' "$(hear late last)" '1: heard 0 stale 0 early 1 bad 0 rest 0/'
# the second entry in a frame with number 1: there is no stream yet
{ head -c 4 last; printf '\0\0\0\0\0\0\0\001'; tail -c +13 last; } >first
expect 'an entry that is not allowed' "$(hear late first)" '1: heard 0 stale 0 early 0 bad 1 rest 0/'
expect 'frames that are not taken leave no entry' "$(checked late)" '0: stands 0/'
head -c 100 all >part
expect 'a frame in part' "$(hear late part)" '1: heard 1 stale 0 early 0 bad 0 rest 63/'
expect 'no bytes' "$(hear late /dev/null)" '0: heard 0 stale 0 early 0 bad 0 rest 0/'
{ head -c 57 all; printf '\377'; tail -c +59 all; } >wrong
expect 'bytes that spell no entry' "$(hear late wrong)" '1: heard 0 stale 1 early 0 bad 1 rest 0/'
{ printf x; cat all; } >wrong
expect 'a byte before the frames' "$(hear late wrong)" '1: heard 0 stale 0 early 0 bad 0 rest 127/'
expect 'frames of no store' "$(ship none 1), $(one_line "$(cat out)")" '6: 9, no store'
cp out line
expect 'a line in place of frames' "$(hear late line)" '1: heard 0 stale 0 early 0 bad 0 rest 9/'
expect 'no follower' "$(hear none all)" '6: no store/'
play small format --blocks 8 </dev/null
expect 'a follower without room for the second entry' "$(hear small all)" '8: no full 3 1/'
expect 'it has the first' "$(checked small)" '0: stands 1/'
hear late all >found
expect 'all frames after a part of them' "$(cat found)" '0: heard 1 stale 1 early 0 bad 0 rest 0/'

# A version of an output whose last value is not the sum: it is computed anew.
cp empty leader
printf 'create %s\ninsert %s 0 10 10 20 20 30\ndistiller %s sum 10 0 %s\nrefresh %s\n' "$id" "$id" "$output" "$id" "$output" >script
play leader live <script
ship leader 1 >found
cp out all
{ head -c "$(($(wc -c <all) - 1))" all; printf '\063'; } >wrong
cp empty late
expect 'a wrong sum' "$(hear late wrong)" '1: heard 3 stale 0 early 0 bad 1 rest 0/'
expect 'the right sum' "$(hear late all)" '0: heard 1 stale 3 early 0 bad 0 rest 0/'

# A damaged block after the first frame: that frame, and no line. Before the first frame: a line.
cp before leader
printf x | dd of=leader bs=1 seek=$((7 * 4096)) conv=notrunc 2>/dev/null
expect 'damage after a frame' "$(ship leader 1), $(is_beginning out all)" '7: 37, same'
expect 'damage before the first frame' "$(ship leader 2), $(one_line "$(cat out)")" '7: 13, no damaged 7'
if [ -c /dev/full ]; then
    "$program" before ship 1 >/dev/full 2>err </dev/null
    expect 'the output is full' "$?" 4
fi

# ---- a leader that grows

seed=$$
RANDOM=$seed

# The lines of a round, which are all accepted.
growth() {
    local base=$((10000 * $1))
    [ "$1" -gt 1 ] || printf 'create %s\ncreate %s\ndistiller %s sum 10 0 %s\n' "$id" "$plain" "$output" "$id"
    [ "$1" -ne 3 ] || printf 'cell %s sum 2 0 %s\n' "$cells" "$id"
    printf 'insert %s %s 5 %s 7 %s -2\n' "$id" $((base + 5)) $((base + 9)) $((base + 9))
    [ $(($1 % 3)) != 2 ] || awk -v id="$id" -v base="$base" \
        'BEGIN { printf "insert %s", id; for (k = 20; k < 4020; k++) printf " %d %d", base + k, k; print "" }'
    printf 'insert %s %s %s\nrefresh %s\n' "$plain" "$base" "$1" "$output"
    printf 'delete %s %s %s\nrefresh %s\n' "$id" "$base" $((base + 9)) "$output"
    [ "$1" -lt 2 ] || printf 'retire %s %s\n' "$plain" "$1"
    [ "$1" -lt 3 ] || printf 'refresh %s\n' "$cells"
}

rm -f leader follower
play leader format --blocks 65536 </dev/null
play follower format --blocks 65536 </dev/null
wrong=
taken=0
torn=0
for round in $(seq 9); do
    growth "$round" >script
    play leader live <script
    [ "$status" = 0 ] || wrong="growth: $(ended)"
    [ $((round % 4)) != 0 ] || play leader checkpoint </dev/null
    # frames of entries that the follower has, of those that it has not, and a cut
    had=$(entries follower)
    from=$((1 + RANDOM % (${had:-0} + 1)))
    [ $((round % 2)) = 0 ] || from=$((${had:-0} + 1))
    case $(ship leader "$from") in 0:*) ;; *) wrong="$wrong; ship $from: $(ended)" ;; esac
    cp out frames
    ends_of frames >ends
    size=$(wc -c <frames)
    head -c $(((RANDOM * 32768 + RANDOM) % (size + 1))) frames >piece
    read -r whole rest <<<"$(awk -v size="$(wc -c <piece)" '$1 <= size { n++; last = $1 } END { print n + 0, size - last }' ends)"
    old=$((${had:-0} + 1 - from))
    stale=$((whole < old ? whole : old))
    found=$(hear follower piece)
    [ "$found" = "$((rest > 0)): heard $((whole - stale)) stale $stale early 0 bad 0 rest $rest/" ] ||
        wrong="$wrong; $whole frames and $rest bytes, $old of them old: $found"
    taken=$((taken + whole - stale))
    torn=$((torn + (rest > 0)))
    # all of them twice
    all=$(wc -l <ends)
    new=$((all - old - (whole - stale)))
    cat frames frames >piece
    found=$(hear follower piece)
    [ "$found" = "0: heard $new stale $((2 * all - new)) early 0 bad 0 rest 0/" ] ||
        wrong="$wrong; $all frames twice, $new of them new: $found"
    taken=$((taken + new))
    [ -z "$wrong" ] || break
done
[ -z "$wrong" ] || wrong="seed $seed, round $round: $wrong"
expect 'pieces that are cut at random bytes, and doubles' "$wrong" ''
expect 'some of them were torn' "$((torn > 0))" 1
expect 'each entry was heard once' "$taken, $(entries follower)" "$(entries leader), $taken"
[ "$taken" -gt 0 ] || echo 'FAILED a follower: nothing was heard'

# ---- runs that are killed

awk -v id="$plain" 'BEGIN { for (k = 0; k < 600; k++) print "insert", id, 500000 + k, k }' >script
play leader live <script
expect 'a leader with 600 entries more' "$status, $(tail -n 1 out)" '0, ok 609 0'
goal=$(entries leader)
ship leader 1 >found
cp out all
ship leader $((taken + 1)) >found
cp out frames
wrong=
cut=0
now=$taken
for round in $(seq 12); do
    first=$now
    cp follower before
    : >held
    "$program" follower hear <frames >held 2>err &
    running=$!
    while cmp -s follower before && kill -0 "$running" 2>/dev/null; do :; done
    [ $((round % 3)) != 0 ] || sleep "0.0$(printf '%02d' $((RANDOM % 50)))"
    { kill -KILL "$running"; wait "$running"; } 2>/dev/null
    now=$(entries follower)
    if [ -z "$now" ]; then
        wrong="it does not answer: $(ended)"
    elif [ "$now" -lt "$first" ] || [ "$now" -gt "$goal" ]; then
        wrong="it had $first entries, and has $now of $goal"
    elif [ -s held ] && [ "$now" != "$goal" ]; then
        wrong="it said $(one_line "$(cat held)"), and has $now entries"
    elif [ "$(checked follower)" != "0: stands $now/" ]; then
        wrong="with $now entries: $(ended)"
    else
        ship follower 1 >found
        [ "$(is_beginning out all)" = same ] || wrong="its $now entries are not the first of the leader"
    fi
    [ -z "$wrong" ] || break
    [ "$now" = "$first" ] || [ "$now" = "$goal" ] || cut=$((cut + 1))
    [ "$now" != "$goal" ] || break
done
[ -z "$wrong" ] || wrong="round $round: $wrong"
expect 'runs of hear that were killed' "$wrong" ''
[ "$cut" -gt 0 ] || skip 'runs of hear that were killed between their frames' 'none was here'
expect 'what was left is taken' "$(hear follower frames)" \
    "0: heard $((goal - ${now:-0})) stale $((${now:-0} - taken)) early 0 bad 0 rest 0/"

# All frames are more than a pipe holds: so `ship` waits, and is killed, or its reader ends.
mkfifo pipe
"$program" leader ship 1 >pipe 2>err </dev/null &
running=$!
exec 3<pipe
dd bs=1000 count=1 <&3 >part 2>/dev/null
{ kill -KILL "$running"; wait "$running"; } 2>/dev/null
cat <&3 >>part
exec 3<&-
expect 'what a ship wrote that was killed' "$(is_beginning part all)" same
[ "$(wc -c <part)" -lt "$(wc -c <all)" ] || skip 'a ship that was killed between its frames' 'it had written all'
"$program" leader ship 1 2>err </dev/null | head -c 1000 >part
expect 'a reader of frames that ends early' "${PIPESTATUS[0]}, $(is_beginning part all)" '4, same'

# ---- a follower that is full

rm -f small
play small format --blocks 64 </dev/null
found=$(hear small all)
now=$(entries small)
expect 'a follower that is full' "$(one_line "$found" | sed 's/[0-9][0-9]* [0-9][0-9]*/N/'), $((${now:-0} > 0 && ${now:-0} < goal))" '8: no full N/, 1'
expect 'it needs more than it has' "$(echo "$found" | awk '{ print ($4 + 0 > $5 + 0) }')" 1
expect 'it keeps what it took' "$(checked small)" "0: stands $now/"
expect 'it is full again' "$(hear small all)" "$found"
ship small 1 >line
expect 'its entries are the first of the leader' "$(is_beginning out all)" same

# ---- leader and follower are alike

cat >questions_of_all <<END
streams
range $id 0 1000000 latest
range $id 0 1000000 3
range $plain 0 1000000 latest
range $plain 0 1000000 1
range $output 0 1000000 latest
range $cells 0 1000000 latest
info $output 2
changes $id 1 5 0
windows $id 0 100000 10000 latest
END
play leader ask <questions_of_all
cp out answers
asked=$status
play follower ask <questions_of_all
expect 'both answer alike' "$status, $(compared out answers), $(($(wc -l <out) > 1000))" "$asked, same, 1"
expect 'both are right' "$(checked leader), $(checked follower)" "0: stands $goal/, 0: stands $goal/"
ship follower 1 >found
expect 'both ship the same' "$(cat found), $(compared out all)" "0: $(wc -c <all | tr -d ' '), same"

# A follower that was written to: its entry hides that of the leader, which only the frames show.
printf 'insert %s 900000 1\n' "$plain" >script
play leader live <script
printf 'insert %s 900000 2\n' "$plain" >script
play follower live <script
expect 'a follower takes lines' "$(ended)" '0: ok 610 0/'
ship leader 1 >found
cp out all
expect 'an entry of its own is not compared' "$(hear follower all)" "0: heard 0 stale $((goal + 1)) early 0 bad 0 rest 0/"
ship follower 1 >found
expect 'the frames show it' "$(compared out all)" different
