#!/usr/bin/env bash
# Two processes on one device: the second is refused, unless both only read.
# shellcheck source=checks/common.sh
. "$(dirname "$0")/common.sh"

if ! has mkfifo; then
    skip 'locks' 'mkfifo is missing'
    exit 0
fi
trap '' PIPE
mkfifo pipe
make_store before
cp before device

# Starts a command that keeps the device open, since its input is a pipe that stays open at descriptor 3. What is
# written first is more than a pipe holds: once it is written the command reads, so it has opened and locked its device.
hold() {
    "$program" device "$1" <pipe >held 2>err &
    holder=$!
    exec 3>pipe
    awk 'BEGIN { for (i = 0; i < 20000; i++) print "# a line without a reply" }' >&3
}

# Gives the holder its last lines, and waits for its end.
release() {
    cat "$1" >&3
    exec 3>&-
    wait "$holder"
    status=$?
}

# What a second process does: its words and its input.
second() {
    play device "$@" <questions 3>&-
    ended
}

# The holder writes: all else is refused.
hold live
expect 'ask beside live' "$(second ask)" '5: no device/'
expect 'live beside live' "$(second live)" '5: no device/'
expect 'ship beside live' "$(second ship 1)" '5: no device/'
expect 'hear beside live' "$(second hear)" '5: no device/'
expect 'format beside live' "$(second format --blocks 64)" '5: no device/'
expect 'no command beside live' "$(second bogus)" '2: no usage/'
expect 'the device beside live is as before' "$(compared device before)" same
release one_more
cp held out
expect 'live with the others refused' "$(ended)" '0: ok 2 0/'
play device ask <questions
expect 'ask after live' "$(ended)" '0: ok 2 4/0 5/3 7/4 -2/9 9/'

# The holder reads: others may read.
cp before device
hold ask
expect 'ask beside ask' "$(second ask)" "0: $answer"
expect 'ship beside ask' "$(second ship 3)" '0: '
expect 'live beside ask' "$(second live)" '5: no device/'
expect 'hear beside ask' "$(second hear)" '5: no device/'
expect 'format beside ask' "$(second format --blocks 64)" '5: no device/'
release questions
cp held out
expect 'ask beside the others' "$(ended), $(compared device before)" "0: $answer, same"

# A `hear` that waits for its input keeps all others out.
hold hear
expect 'ask beside hear' "$(second ask)" '5: no device/'
expect 'ship beside hear' "$(second ship 3)" '5: no device/'
release /dev/null
expect 'hear of lines that are no frames' "$status, $(sed 's/[0-9]*$/R/' held), $(compared device before)" \
    '1, heard 0 stale 0 early 0 bad 0 rest R, same'

# A holder that is killed keeps nothing.
hold live
{ kill -KILL "$holder"; wait "$holder"; } 2>/dev/null
exec 3>&-
play device live <one_more
expect 'live after a live that was killed' "$(ended)" '0: ok 2 0/'

# The device under another name is the same device.
cp before device
ln -s device alias
hold live
play alias ask <questions 3>&-
expect 'ask under another name beside live' "$(ended)" '5: no device/'
release one_more

# Two processes that make one store: at least one is refused, and the store is whole.
rm -f device
"$program" device format --blocks 64 >held 2>err </dev/null &
holder=$!
play device format --blocks 64 </dev/null
wait "$holder"
found=$(sort held out | tr '\n' '/')
case $found in
    'formatted 64/no device/' | 'formatted 64/no occupied/') found=one ;;
esac
expect 'format beside format' "$found" one
play device ask </dev/null
expect 'ask after format beside format' "$(ended)" '0: '

# The lock is the one that flock(1) takes.
if has flock; then
    cp before device
    flock -x device "$program" device ask <questions >out 2>err
    status=$?
    expect 'ask under an exclusive lock of another program' "$(ended)" '5: no device/'
    flock -s device "$program" device ask <questions >out 2>err
    status=$?
    expect 'ask under a shared lock of another program' "$(ended)" "0: $answer"
    flock -s device "$program" device live <one_more >out 2>err
    status=$?
    expect 'live under a shared lock of another program' "$(ended), $(compared device before)" '5: no device/, same'
else
    skip 'locks of another program' 'flock is missing'
fi
