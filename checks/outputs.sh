#!/usr/bin/env bash
# An output that takes nothing: the run ends with status 4, and the device is as with an output that takes all.
# shellcheck source=checks/common.sh
. "$(dirname "$0")/common.sh"

make_store before
cp before after
play after live <one_more
play after ship 1 </dev/null
cp out frames
play formatted format --blocks 64 </dev/null

# Runs a command on the device, with its output at descriptor 4.
play_to_4() {
    "$program" "$@" >&4 2>err 4>&-
    status=$?
}

# The checks over one kind of output, at descriptor 4: NAME.
over_4() {
    rm -f device
    play_to_4 device format --blocks 64 </dev/null
    expect "format, and $1" "$status, $(compared device formatted)" '4, same'
    cp before device
    play_to_4 device live <one_more
    expect "live, and $1" "$status, $(compared device after)" '4, same'
    cp before device
    play_to_4 device ask <questions
    expect "ask, and $1" "$status, $(compared device before)" '4, same'
    cp before device
    play_to_4 device ship 1 </dev/null
    expect "ship, and $1" "$status, $(compared device before)" '4, same'
    play_to_4 device hear <frames
    expect "hear, and $1" "$status, $(compared device after)" '4, same'
    play_to_4 device bogus <questions
    expect "no command, and $1" "$status" 4
}

if [ -c /dev/full ] && exec 4>/dev/full; then
    over_4 'a full output'
    exec 4>&-
else
    skip 'a full output' 'there is no /dev/full'
fi

if has mkfifo && mkfifo pipe; then
    # The pipe's only reader, descriptor 3, is closed before the program starts.
    # shellcheck disable=SC2094
    exec 3<>pipe 4>pipe 3>&-
    over_4 'a pipe that nobody reads'
    exec 4>&-
else
    skip 'a pipe that nobody reads' 'mkfifo is missing'
fi

# More replies than a pipe holds, to a reader that ends after the first byte.
cp before device
awk -v id="$id" 'BEGIN { for (i = 0; i < 50000; i++) print "range", id, 0, 100, "latest" }' >many
"$program" device ask <many 2>err | head -c 1 >first
expect 'a reader that ends early' "${PIPESTATUS[0]}, $(cat first), $(compared device before)" '4, o, same'
