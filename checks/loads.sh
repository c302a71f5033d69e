#!/usr/bin/env bash
# Loads, brings outputs up to date and makes samples on real files: bad rows with their exact lines, any number of workers, long
# inputs, full devices, closed descriptors, and runs that are killed.
# shellcheck source=checks/common.sh
. "$(dirname "$0")/common.sh"

u=11111111-1111-4111-8111-111111111111
v=22222222-2222-4222-8222-222222222222
w=33333333-3333-4333-8333-333333333333

# Makes a store with a number of blocks: FILE BLOCKS.
fresh() {
    rm -f "$1"
    play "$1" format --blocks "$2" </dev/null
}

# What a load of the rows in the file `rows` ends with, on a new store: BLOCKS and the options.
load_new() {
    local blocks=$1
    shift
    fresh device "$blocks"
    play device load "$@" <rows
    ended
}

# ---- rows

printf '%s\n' "$u,0,5" 'nonsense,1,1' "$u,2" "\"$u\",\"3\",\"7\"" >rows
printf '%s' "$u,4,-2" >>rows
for workers in 1 2; do
    expect "five rows, $workers workers" "$(load_new 64 --workers $workers)" \
        "1: row 2: no id/row 3: no fields/$u 1 3/loaded 3 refused 2/"
done

: >rows
expect 'an empty input' "$(load_new 64)" '0: loaded 0 refused 0/'
printf 'id,time,value\n%s,1,1\n' "$u" >rows
expect 'a header' "$(load_new 64)" "1: row 1: no id/$u 1 1/loaded 1 refused 1/"
printf '\n\n%s,1,1\r\n\r\n%s,2,2\n\n' "$u" "$u" >rows
expect 'blank lines' "$(load_new 64)" "0: $u 1 2/loaded 2 refused 0/"
printf '"%s",1,"1"\n"a ""quoted"" id",1,1\n%s,1,"2\n' "$u" "$u" >rows
expect 'quotes, doubled ones, and one that never closes' "$(load_new 64)" \
    "1: row 2: no id/row 3: no value/$u 1 1/loaded 1 refused 2/"
printf '%s,1\n%s,1,1,1\n%s\n' "$u" "$u" "$u" >rows
expect 'two, four and one fields' "$(load_new 64)" '1: row 1: no fields/row 2: no fields/row 3: no fields/loaded 0 refused 3/'
printf '\377,1,1\n%s,\377,1\n%s,1,\377\n' "$u" "$u" >rows
expect 'bytes that are no UTF-8' "$(load_new 64)" '1: row 1: no id/row 2: no time/row 3: no value/loaded 0 refused 3/'
printf '%s,1,1\n' "$u" "$(echo "$u" | tr -d -)" "{$u}" "urn:uuid:$u" "$(echo "$v" | tr 2 A)" "$(echo "$v" | tr 2 a)" >rows
expect 'an id in each form' "$(load_new 64)" \
    "0: $u 1 4/aaaaaaaa-aaaa-4aaa-8aaa-aaaaaaaaaaaa 1 2/loaded 6 refused 0/"
printf '%s,%s,1\n' "$u" +1 "$u" 1.5 "$u" ' 1' "$u" 9223372036854775808 "$u" 3458764513820540928 "$u" -1152921504606846977 "$u" -0 >rows
expect 'times' "$(load_new 64)" \
    "1: row 1: no time/row 2: no time/row 3: no time/row 4: no time/row 5: no domain 3458764513820540928/row 6: no domain -1152921504606846977/$u 1 1/loaded 1 refused 6/"
printf '%s,1,%s\n' "$u" 9223372036854775808 "$u" -9223372036854775808 "$u" 1e3 "$u" '' >rows
expect 'values' "$(load_new 64)" "1: row 1: no value/row 3: no value/row 4: no value/$u 1 1/loaded 1 refused 3/"

# ---- streams, batches and full devices

# Of 17 blocks 12 are left for entries: three creates need 6, and a batch of one point needs 3. One of 600 points, 10 ns apart, has 24
# leaves of 256 ns below 9 inner nodes, and needs 37.
{
    printf '%s,1,1\n' "$u"
    seq 0 599 | awk -v id="$v" '{ print id "," 10 * $1 "," $1 }'
    printf '%s,3,3\n' "$w"
} >rows
expect 'one worker loads what fits, in the order of the input' "$(load_new 17 --workers 1)" \
    "8: $u 1 1/$v rows 2 601: no full 37 3/$v 0 0/$w 1 1/loaded 2 refused 600/"

fresh device 64
printf 'create %s\ndistiller %s sum 0 0 %s\n' "$u" "$w" "$u" >lines
play device live <lines
printf '%s,1,1\n%s,2,2\nx,1,1\n%s,3,3\n' "$w" "$u" "$w" >rows
play device load <rows
expect "an output's id" "$(ended)" "1: row 1: no output/row 3: no id/row 4: no output/$u 1 1/loaded 1 refused 3/"

awk -v u="$u" 'BEGIN { for (i = 0; i < 253; i++) print u ",0," i; for (i = 0; i < 10; i++) print u "," i + 1 ",1" }' >rows
expect 'a batch that is refused, and the next one' "$(load_new 64 --batch 253)" \
    "1: $u rows 1 253: no crowded 0/$u 1 10/loaded 10 refused 253/"
awk -v u="$u" -v v="$v" 'BEGIN { for (i = 0; i < 1000; i++) { print u "," i ",1"; print v "," i ",1" } }' >rows
# Of 87 blocks 82 are left for entries: two creates need 4, and the first batch 78. 256 points in 256 ns are in 64 leaves: so the trees of
# 500 points from time 0 on, of 500 more, and of those alone have 75, 140 and 76 new nodes. A content of 500 points has 2 blocks.
expect 'a device that is full in the middle' "$(load_new 87 --batch 500)" \
    "8: $u rows 1001 1999: no full 143 0/$u 1 500/$v rows 2 1000: no full 78 0/$v rows 1002 2000: no full 79 0/$v 0 0/loaded 500 refused 1500/"
expect 'a stream that cannot be created' "$(load_new 8)" \
    "8: $u rows 1 1999: no full 210 1/$u 0 0/$v rows 2 2000: no full 2 1/loaded 0 refused 2000/"

# ---- any number of workers

awk -v rounds=4000 'BEGIN {
    srand(7)
    for (n = 1; n <= rounds; n++) {
        s = int(rand() * 9)
        if (rand() < 0.01) { print "bad," n; continue }
        printf "%08d-0000-4000-8000-000000000000,%d,%d\n", s, (s == 5 ? 77 : int(rand() * 100000)), int(rand() * 1000) - 500
    }
}' >rows
printf 'streams\n' >lines
for s in 0 1 2 3 4 5 6 7 8; do
    printf 'range %08d-0000-4000-8000-000000000000 0 100000 latest\n' $s
    printf 'range %08d-0000-4000-8000-000000000000 0 100000 1\n' $s
done >>lines
wrong=
for workers in 1 2 3 4 8 16; do
    fresh device 4000
    play device load --workers $workers --batch 100 <rows
    cp out loaded.$workers
    play device ask <lines
    cp out found.$workers
    cmp -s loaded.1 loaded.$workers || wrong="$wrong; $workers workers write other lines"
    grep -v ' [0-9]* plain$' found.1 >wanted
    grep -v ' [0-9]* plain$' found.$workers >found
    cmp -s wanted found || wrong="$wrong; $workers workers leave other points"
done
expect 'one to sixteen workers load alike' "$wrong" ''
expect 'some batches were refused, and most were not' "$(grep -c 'no crowded 76' loaded.1 | awk '{ print ($1 > 0) }'), $(tail -n 1 loaded.1 | awk '{ print ($2 > 3000) }')" '1, 1'

# ---- samples, and outputs

expect 'a sample' "$(fresh device 64; play device sample 1 1 3 </dev/null; ended)" \
    '0: 00000000-0000-0000-0000-000000000001 1 3 -306 -892 756/00000000-0000-0001-0000-000000000001 1 3 55 -170 293/'
expect 'a store that is used' "$(play device sample 1 1 3 </dev/null; ended)" '1: no used 4/'
fresh device 4096
play device sample 7 4 5000 </dev/null
cp out first
expect 'a sample of four streams' "$status: $(awk '{ print $2, $3 }' out | tr '\n' '/')" \
    '0: 2 5000/2 5000/2 5000/2 5000/1 5000/1 5000/1 5000/1 5000/'
fresh device 4096
play device sample 7 4 5000 </dev/null
expect 'the same sample again' "$(cmp first out && echo same)" 'same'
expect 'and then it is used' "$(play device sample 7 4 5000 </dev/null; ended)" '1: no used 20/'

fresh device 64
printf 'create %s\ninsert %s 0 10 10 20 20 30\ndistiller %s sum 10 0 %s\n' "$v" "$v" "$w" "$v" >lines
printf 'distiller 44444444-4444-4444-8444-444444444444 affine 2 1 3 0 0 %s\n' "$w" >>lines
play device live <lines
expect 'two outputs, one over the other' "$(play device distil --workers 2 </dev/null; ended)" \
    "0: $w 1 1/44444444-4444-4444-8444-444444444444 1 1/"
echo 'range 44444444-4444-4444-8444-444444444444 0 100 1' >lines
expect 'and what they hold' "$(play device ask <lines; ended)" '0: ok 1 3/0 7/10 20/20 33/'
cp device before
expect 'outputs that are up to date' "$(play device distil </dev/null; ended; cmp before device && echo same)" \
    "0: $w 1 1/44444444-4444-4444-8444-444444444444 1 1/same"

# ---- descriptors

printf '%s,1,1\n' "$u" >rows
rm -f before
make_store before
printf 'distiller %s sum 0 0 %s\n' "$w" "$id" >lines
play before live <lines
for command in 'load' 'distil' 'sample 1 1 1'; do
    cp before device
    # shellcheck disable=SC2086
    "$program" device $command <rows >&- 2>err
    expect "$command, and a closed output" "$?" 4
    play device ask <questions
    expect "$command, and then questions" "$status" 0
done
cp before device
"$program" device load <&- >out 2>err
status=$?
expect 'a load with a closed input' "$(ended), $(compared device before)" '3: no source/, same'
cp before device
head -c 268435457 /dev/zero | "$program" device load >out 2>err
status=$?
expect 'one byte more than may be read' "$(ended), $(compared device before)" '10: no long 268435456/, same'

# ---- kills

fresh device 600000
awk 'BEGIN { for (n = 0; n < 60000; n++) printf "%08d-0000-4000-8000-000000000000,%d,%d\n", n % 4, int(n / 4), 7 }' >rows
wrong=
for round in 1 2 3 4 5 6; do
    cp device started
    "$program" device load --workers 4 --batch 50 <rows >out 2>err &
    running=$!
    sleep "0.$(printf '%03d' $((40 + RANDOM % 200)))"
    kill -9 $running 2>/dev/null
    wait $running 2>/dev/null
    # each stream holds whole batches of 50, from the first of the run on
    for s in 0 1 2 3; do
        printf 'info %08d-0000-4000-8000-000000000000 latest\n' $s
    done >lines
    play device ask <lines
    awk '/^plain/ && ($2 % 50 != 0 || $3 != 7 * $2) { exit 1 } !/^(plain|ok|no stream)/ { exit 1 }' out || wrong="$wrong; round $round: $(ended)"
done
expect 'loads that are killed leave whole batches' "$wrong" ''
