#!/usr/bin/env bash
# Standard input, output and error closed: the device is as it is when they are open, and the status says which stream
# failed.
# shellcheck source=checks/common.sh
. "$(dirname "$0")/common.sh"

make_store store
cp store before.ask
cp store before.live
cp store before.ship
play before.hear format --blocks 64 </dev/null

# The input of each command, and its words.
: >input.format
: >input.ship
cp one_more input.live
cp questions input.ask
"$program" store ship 1 >input.hear 2>err </dev/null
words() {
    case $1 in
        format) echo format --blocks 64 ;;
        ship) echo ship 1 ;;
        *) echo "$1" ;;
    esac
}

# Puts the device of a run to what it is before a command. `format` begins without a file.
reset() {
    rm -f device
    [ "$1" = format ] || cp "before.$1" device
}

# What each command leaves and writes when all three are open.
for command in format live ask ship hear; do
    reset "$command"
    # shellcheck disable=SC2046
    play device $(words "$command") <"input.$command"
    expect "$command with all descriptors open" "$status" 0
    cp device "after.$command"
    cp out "out.$command"
done
expect 'ask writes nothing on the device' "$(compared before.ask after.ask)" same
expect 'ship writes nothing on the device' "$(compared before.ship after.ship)" same
expect 'hear takes both entries' "$(cat out.hear)" 'heard 2 stale 0 early 0 bad 0 rest 0'

# Runs a command with some of the descriptors 0, 1 and 2 closed.
run_closed() {
    (
        exec >out 2>err <"input.$1"
        case $2 in *0*) exec <&- ;; esac
        case $2 in *1*) exec >&- ;; esac
        case $2 in *2*) exec 2>&- ;; esac
        # shellcheck disable=SC2046
        exec "$program" device $(words "$1")
    )
    status=$?
}

# The status, the output and the device that a command is to give when some of the three are closed.
wanted_closed() {
    case "$1 $2" in
        format\ *1* | live\ *1* | ask\ *1* | ship\ *1* | hear\ *1*) echo "4, no output, $(left_closed "$1" "$2")" ;;
        live\ *0* | ask\ *0* | hear\ *0*) echo "3, no source, $(left_closed "$1" "$2")" ;;
        *) echo "0, all output, $(left_closed "$1" "$2")" ;;
    esac
}

# Whether the device is then as before the command or as after it.
left_closed() {
    case "$1 $2" in
        live\ *0* | hear\ *0*) echo 'device as before' ;;
        *) echo 'device as after' ;;
    esac
}

# The same of the run that was made.
found_closed() {
    local output='other output' device='device spoilt'
    [ -s out ] || output='no output'
    ! echo 'no source' | cmp -s - out || output='no source'
    ! cmp -s out "out.$1" || output='all output'
    ! [ -e "before.$1" ] || ! cmp -s device "before.$1" || device='device as before'
    ! cmp -s device "after.$1" || device='device as after'
    echo "$status, $output, $device"
}

for which in 0 1 2 01 02 12 012; do
    for command in format live ask ship hear; do
        reset "$command"
        run_closed "$command" "$which"
        found=$(found_closed "$command")
        expect "$command with descriptors closed: $which" "$found" "$(wanted_closed "$command" "$which")"
    done
done

# Words that are no command, with nothing to write the refusal to.
"$program" device bogus >&- <questions 2>err
expect 'no command with output closed' "$?" 4

# Descriptors that are open, but not for this.
reset ask
play device ask </
expect 'a folder as input' "$(ended), $(compared device before.ask)" '3: no source/, same'
: >sink
play device ask 0>>sink
expect 'an input that is open for writing alone' "$(ended), $(compared device before.ask)" '3: no source/, same'
"$program" device ask <questions 1<sink 2>err
expect 'an output that is open for reading alone' "$?, $(compared device before.ask)" '4, same'
