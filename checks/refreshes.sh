#!/usr/bin/env bash
# Outputs under late data, in runs that are killed at random moments: whenever the device opens again, each output holds what its
# kernel gives over all time, on its input at the version that it has read. And a refresh that does not fit the device.
# shellcheck source=checks/common.sh
. "$(dirname "$0")/common.sh"

rounds=6
lines=150
sums=22222222-2222-4222-8222-222222222222
counts=33333333-3333-4333-8333-333333333333
everything='-1152921504606846976 3458764513820540928'

# The lines of a run, with times from 0 to 999 in no order: the inserts are late data, and now and then a range is deleted. After
# each five of them the sums are brought up to date, and after each ten the counts of the sums.
script_of() {
    awk -v id="$id" -v sums="$sums" -v counts="$counts" -v seed="$1" -v lines="$lines" 'BEGIN {
        srand(seed)
        for (k = 1; k <= lines; k++) {
            t = int(1000 * rand())
            if (k % 17 == 0) print "delete", id, t, t + 1 + int(20 * rand())
            else print "insert", id, t, int(2001 * rand()) - 1000
            if (k % 5 == 0) print "refresh", sums
            if (k % 10 == 0) print "refresh", counts
        }
    }'
}

# Asks one question, and writes its rows.
rows_of() {
    echo "$1" >line
    play device ask <line
    [ "$status" = 0 ] && tail -n +2 out
}

# The version of its input that an output has read last.
read_of() {
    rows_of "info $1 latest" | sed -n 's/^reads //p'
}

# For each distinct time t of the points on standard input, in order, the sum of the values from t - $1 to t, or their number.
kernel_of() {
    awk -v lead="$1" -v kernel="$2" '
        { time[NR] = $1; value[NR] = $2 }
        END {
            for (i = 1; i <= NR; i++) {
                if (i < NR && time[i + 1] == time[i]) continue
                sum = 0; count = 0
                for (k = i; k >= 1 && time[k] >= time[i] - lead; k--) { sum += value[k]; count++ }
                print time[i], kernel == "sum" ? sum : count
            }
        }'
}

# What is wrong with an output, if anything: OUTPUT INPUT LEAD KERNEL.
wrong_with() {
    local read
    read=$(read_of "$1")
    [ -n "$read" ] || read=0
    rows_of "range $2 $everything $read" | kernel_of "$3" "$4" >wanted
    rows_of "range $1 $everything latest" >found
    cmp -s found wanted || echo "the $4 of version $read is not that of its points"
}

play device format --blocks 100000 </dev/null
play device live <<END
create $id
distiller $sums sum 50 3 $id
distiller $counts count 30 0 $sums
END
expect 'outputs that are defined' "$(ended)" '0: ok 0 0/ok 0 0/ok 0 0/'

wrong=
for round in $(seq "$rounds"); do
    script_of "$round" >script
    size=$(wc -c <device)
    "$program" device live <script >held 2>err &
    running=$!
    goal=$((size + 12288 * (1 + RANDOM % 150)))
    while [ "$(wc -c <device)" -lt "$goal" ] && kill -0 "$running" 2>/dev/null; do :; done
    { kill -KILL "$running"; wait "$running"; } 2>/dev/null
    wrong=$(wrong_with "$sums" "$id" 50 sum)
    [ -n "$wrong" ] || wrong=$(wrong_with "$counts" "$sums" 30 count)
    [ -z "$wrong" ] || break
done
[ -z "$wrong" ] || wrong="round $round: $wrong"
expect 'outputs after runs that were killed' "$wrong" ''

printf 'refresh %s\nrefresh %s\nrefresh %s\n' "$sums" "$counts" "$sums" >line
play device live <line
expect 'outputs that are brought up to date' "$status" 0
expect 'the sums at the end' "$(wrong_with "$sums" "$id" 50 sum)" ''
expect 'the counts at the end' "$(wrong_with "$counts" "$sums" 30 count)" ''
expect 'the version that the counts have read' "$(read_of "$counts")" \
    "$(echo streams >line; play device ask <line; sed -n "s/^$sums \([0-9]*\) output$/\1/p" out)"

# Thirteen blocks: the stream, its points with their leaf, and the output take them, so a refresh of 251 points does not fit.
play full format --blocks 13 </dev/null
{
    echo "create $id"
    awk -v id="$id" 'BEGIN { printf "insert %s", id; for (t = 0; t < 251; t++) printf " %d 1", t; print "" }'
    echo "distiller $sums sum 0 0 $id"
    echo "refresh $sums"
    echo "info $sums latest"
} >script
play full live <script
expect 'a refresh that does not fit' "$(ended)" '8: ok 0 0/ok 1 0/ok 0 0/no full 4 0/ok 0 1/output 0 0/'
