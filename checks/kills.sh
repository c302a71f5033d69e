#!/usr/bin/env bash
# Runs that are killed at random moments. The device then opens again, and holds a prefix of the script's entries, with
# all of those that it held before the run.
# shellcheck source=checks/common.sh
. "$(dirname "$0")/common.sh"

rounds=10
lines=250

play device format --blocks 100000 </dev/null
expect 'format of a store for the runs' "$(ended)" '0: formatted 100000/'

# The lines of a run on a store whose stream has this latest version, or -1 if there is no stream: each line is one
# entry. Version v adds the point (v - 1, 7(v - 1)), so version v has the points of the times below v.
script_from() {
    [ "$1" -ge 0 ] || echo "create $id"
    awk -v id="$id" -v from="$(($1 < 0 ? 0 : $1))" -v lines="$lines" \
        'BEGIN { for (k = from; k < from + lines; k++) print "insert", id, k, 7 * k }'
}

# The questions that show all versions up to this one, and the answers to them.
questions_to() {
    echo streams
    echo "range $id 0 1000000 latest"
    awk -v id="$id" -v last="$1" 'BEGIN { for (v = 0; v <= last; v++) print "info", id, v }'
}
answers_to() {
    printf 'ok %s 1\n%s %s plain\nok %s %s\n' $(($1 + 1)) "$id" "$1" "$1" "$1"
    awk -v last="$1" 'BEGIN {
        for (k = 0; k < last; k++) print k, 7 * k
        for (v = 0; v <= last; v++) {
            print "ok", v, 1
            if (v == 0) print "plain 0 0"; else { sum += 7 * (v - 1); print "plain", v, sum, 0, 7 * (v - 1) }
        }
    }'
}

# The latest version of the stream in `version`, or -1 if there is no stream yet; `none` if the device does not open.
read_version() {
    echo streams >line
    play device ask <line
    case $(ended) in
        '0: ok 0 0/') version=-1 ;;
        "0: ok "*" plain/") version=$(sed -n 's/.* \([0-9]*\) plain$/\1/p' out) ;;
        *) version=none ;;
    esac
}

# What is wrong with the device after a run that began at version $1, if anything.
wrong_after() {
    read_version
    if [ "$version" = none ]; then
        echo "it does not open: $(ended)"
    elif [ "$version" -lt "$1" ]; then
        echo "version $1 is lost"
    elif [ "$version" -gt $(($1 < 0 ? lines : $1 + lines)) ]; then
        echo "version $version was not made"
    elif [ "$version" -ge 0 ]; then
        questions_to "$version" >line
        answers_to "$version" >answers
        play device ask <line
        [ "$status" = 0 ] && cmp -s out answers || echo "version $version or an older one is not as it was made"
    fi
}

# Waits for a random moment of a run: in even rounds until the file has grown by some commits, else for a random time.
wait_in_round() {
    if [ $(($1 % 2)) = 0 ]; then
        local goal=$(($2 + 12288 * (1 + RANDOM % (lines - 50))))
        while [ "$(wc -c <device)" -lt "$goal" ] && kill -0 "$running" 2>/dev/null; do :; done
    else
        sleep "0.$(printf '%03d' $((RANDOM % 300)))"
    fi
}

wrong=
version=-1
cut=0
for round in $(seq "$rounds"); do
    first=$version
    script_from "$first" >script
    size=$(wc -c <device)
    : >held
    "$program" device live <script >held 2>err &
    running=$!
    wait_in_round "$round" "$size"
    { kill -KILL "$running"; wait "$running"; } 2>/dev/null
    wrong=$(wrong_after "$first")
    [ -z "$wrong" ] || break
    read_version
    # A run that has written its replies has made all its entries.
    if [ -s held ] && [ "$(tail -n 1 held)" != "ok $version 0" ]; then
        wrong='an entry that was acknowledged is not there'
        break
    fi
    [ "$version" = "$first" ] || [ -s held ] || cut=$((cut + 1))
done
[ -z "$wrong" ] || wrong="round $round: $wrong"
expect 'runs of live that were killed' "$wrong" ''
[ "$cut" -gt 0 ] || skip 'runs of live that were killed between their commits' 'none was here'

# A store that is being made: it is there or not, and can be made if it is not.
wrong=
for round in $(seq 20); do
    rm -f device
    : >held
    "$program" device format --blocks 64 >held 2>err </dev/null &
    running=$!
    sleep "0.00$((RANDOM % 5))"
    { kill -KILL "$running"; wait "$running"; } 2>/dev/null
    play device ask </dev/null
    found=$(ended)
    play device format --blocks 64 </dev/null
    case "$found, $(ended)" in
        '0: , 6: no occupied/') ;;
        '6: no store/, 0: formatted 64/') [ -s held ] && wrong='a store that was reported is not there' ;;
        *) wrong="$found, $(ended)" ;;
    esac
    [ -z "$wrong" ] || break
done
[ -z "$wrong" ] || wrong="round $round: $wrong"
expect 'runs of format that were killed' "$wrong" ''
