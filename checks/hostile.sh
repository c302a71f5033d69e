#!/usr/bin/env bash
# Devices with bytes that were changed at random: stores of several kinds are opened, asked, checked and written on. Each run ends at once,
# with a status of its command. A device of which `check` says `stands N` answers as a store of the first N entries, unless the id of a
# stream was changed: that is a legal history too.
# shellcheck source=checks/common.sh
. "$(dirname "$0")/common.sh"

for tool in dd timeout; do
    if ! has "$tool"; then
        skip 'changed devices' "$tool is missing"
        exit 0
    fi
done

output=33333333-3333-4333-8333-333333333333

# How many devices of each kind are changed. The changes are the same in each run.
devices=${HOSTILE_DEVICES:-30}
RANDOM=20

# Runs the program on the file `device`, for ten seconds at most.
run() {
    timeout 10 "$program" device "$@" >out 2>err
    status=$?
}

# The questions that are asked of each device: all streams, and all points of the latest versions.
cat >all <<END
streams
range $id 0 100000 latest
range $output 0 100000 latest
info $id latest
changes $id 0 1 0
END

# Makes the replies to these questions after each number of lines of a script, in the files KIND.0, KIND.1 and so on.
make_replies() {
    local count
    for count in $(seq 0 "$(wc -l <"$1.script")"); do
        rm -f device
        run format --blocks 64 </dev/null
        head -n "$count" "$1.script" >some
        run live <some
        run ask <all
        cp out "$1.$count"
    done
}

# Makes the store of a kind, in the file KIND.device: the lines of its script, each in a run of its own, with a checkpoint after the lines
# whose numbers are given.
make_kind() {
    local kind=$1 number=0 line
    shift
    rm -f device
    run format --blocks 64 </dev/null
    while IFS= read -r line; do
        number=$((number + 1))
        printf '%s\n' "$line" >some
        run live <some
        case " $* " in *" $number "*) run checkpoint </dev/null ;; esac
    done <"$kind.script"
    cp device "$kind.device"
}

cat >plain.script <<END
create $id
insert $id 0 10 10 20 20 30
insert $id 5 1 40 2
delete $id 0 6
insert $id 70 7
END
cat >outputs.script <<END
create $id
insert $id 0 10 10 20 20 30
distiller $output sum 10 0 $id
refresh $output
insert $id 5 1
refresh $output
END
cp outputs.script marked.script
cp plain.script torn.script
make_kind plain
make_kind outputs
make_kind marked 2 5 6
make_kind torn
for kind in plain outputs marked torn; do make_replies "$kind"; done
# the last entry of this one was written, but its gate was not
gate=$(LC_ALL=C grep -abo BTR-GATE torn.device | tail -n 1 | cut -d : -f 1)
head -c 8 /dev/zero | dd of=torn.device bs=1 seek="$gate" conv=notrunc 2>/dev/null

# Changes a byte of the file `device`: half of the changes are in the first 128 bytes of a block, where heads and tables are.
change() {
    local at=$((RANDOM % 40 * 4096 + RANDOM % 4096))
    [ $((RANDOM % 2)) = 0 ] || at=$((RANDOM % 40 * 4096 + RANDOM % 128))
    # shellcheck disable=SC2059
    printf "\\$(printf %03o $((RANDOM % 256)))" | dd of=device bs=1 seek=$at conv=notrunc 2>/dev/null
}

# The ids in replies.
ids() {
    cut -d ' ' -f 1 "$1" | grep -- - | tr '\n' ' '
}

# Whether a status is one of these.
is_in() {
    case " $2 " in *" $1 "*) true ;; *) false ;; esac
}

# Opens, asks, checks and writes on the file `device`, which is of a kind. Prints what is wrong, if anything is.
try_device() {
    local kind=$1 said checked before
    run ask <all
    said=$status
    is_in "$said" '0 1 6 7 9' || echo "ask ended with $said"
    cp out asked
    cp device untouched
    run check </dev/null
    checked=$(cat out)
    is_in "$status" '0 6 7 9' || echo "check ended with $status"
    cmp -s device untouched || echo 'check wrote on the device'
    case $checked in
        stands*)
            before=${checked#stands }
            if ! cmp -s asked "$kind.$before" && [ "$(ids asked)" = "$(ids "$kind.$before")" ]; then
                echo "a store that stands with $before entries answers otherwise"
            fi
            ;;
        'no damaged'*) ;;
        'no store') [ "$said" = 6 ] || echo "check says no store, and ask ended with $said" ;;
        'no memory') ;;
        *) echo "check said $checked" ;;
    esac
    run live <one_more
    is_in "$status" '0 1 6 7 8 9' || echo "live ended with $status"
    if [ -n "${before:-}" ] && [ "$status" = 0 ]; then
        run check </dev/null
        [ "$(cat out)" = "stands $((before + 1))" ] || echo "after one more entry than $before check said $(cat out)"
    fi
}

for kind in plain outputs marked torn; do
    wrong=
    cp "$kind.device" device
    wrong=$(try_device "$kind")
    expect "a store as it was made, of the kind $kind" "$wrong" ''
    for number in $(seq "$devices"); do
        cp "$kind.device" device
        for _ in $(seq $((1 + RANDOM % 3))); do change; done
        found=$(try_device "$kind")
        [ -z "$found" ] || wrong+="device $number: $found/"
    done
    expect "$devices changed devices of the kind $kind" "$wrong" ''
done
