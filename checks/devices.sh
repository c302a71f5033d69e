#!/usr/bin/env bash
# Paths that are no device, and files that refuse a write.
# shellcheck source=checks/common.sh
. "$(dirname "$0")/common.sh"

make_store before

# A path on which `ask` and `live` end with status 5: NAME PATH.
no_device() {
    local found
    play "$2" ask <questions
    found=$(ended)
    play "$2" live <one_more
    expect "$1" "$found, $(ended)" '5: no device/, 5: no device/'
}

mkdir inner
no_device 'a folder' inner
no_device 'a path in a missing folder' missing/device
expect 'a missing folder stays missing' "$(ls -d missing 2>/dev/null)" ''
no_device 'an empty path' ''
no_device 'a path that is too long' "$(printf 'a%.0s' {1..300})"
no_device 'a path through a file' before/device
if has mkfifo && mkfifo pipe; then no_device 'a pipe' pipe; else skip 'a pipe' 'mkfifo is missing'; fi
if [ -c /dev/null ]; then no_device '/dev/null' /dev/null; else skip '/dev/null' 'it is missing'; fi
if [ -c /dev/full ]; then
    play /dev/full format --blocks 64 </dev/null
    expect 'format on /dev/full' "$(ended)" '5: no device/'
else
    skip 'format on /dev/full' 'it is missing'
fi

# A file that may not be written. Root may write any file, so root's rights are dropped first.
drop=(env)
[ "$(id -u)" -ne 0 ] || drop=(setpriv --bounding-set=-all --inh-caps=-all)
cp before readonly
chmod 444 readonly
if ! "${drop[@]}" true 2>/dev/null; then
    skip 'a file that may not be written' 'setpriv is missing, or fails'
elif "${drop[@]}" sh -c ': >>readonly' 2>/dev/null; then
    skip 'a file that may not be written' 'the system lets this user write it'
else
    for command in ask check; do
        "${drop[@]}" "$program" readonly "$command" <questions >out 2>err
        status=$?
        wanted=$answer
        [ "$command" = ask ] || wanted='stands 2/'
        expect "$command on a file that may not be written" "$(ended), $(compared readonly before)" "0: $wanted, same"
    done
    for command in live checkpoint 'format --blocks 64'; do
        # shellcheck disable=SC2086
        "${drop[@]}" "$program" readonly $command <one_more >out 2>err
        status=$?
        expect "$command on a file that may not be written" "$(ended), $(compared readonly before)" '5: no device/, same'
    done
    chmod 000 readonly
    "${drop[@]}" "$program" readonly ask <questions >out 2>err
    status=$?
    expect 'ask on a file that may not be read' "$(ended)" '5: no device/'
fi

# Words that are no command leave an empty file, and no path is no usage.
play fresh bogus </dev/null
expect 'no command on a missing file' "$(ended), $(wc -c <fresh | tr -d ' ')" '2: no usage/, 0'
play </dev/null
expect 'no words' "$(ended)" '2: no usage/'
play fresh ask <questions
expect 'ask on an empty file' "$(ended)" '6: no store/'
play before format --blocks 64 </dev/null
expect 'format where a store is' "$(ended)" '6: no occupied/'

# The file grows by whole steps, and by what is written alone where the system refuses a step.
play stepped format --blocks 64 </dev/null
expect 'a file grows by whole steps' "$(ended), $(wc -c <stepped | tr -d ' ')" '0: formatted 64/, 65536'
(
    trap '' XFSZ
    ulimit -f 48
    exec "$program" written format --blocks 64 >out 2>err </dev/null
)
status=$?
expect 'a step that the system refuses' "$(ended), $(wc -c <written | tr -d ' ')" '0: formatted 64/, 20480'
play written live <one_more
found=$(ended)
play written check </dev/null
expect 'a file that was made without steps' "$found, $(ended)" '1: no stream/, 0: stands 0/'

# A file that the system lets grow no further. The store ends at 40 KiB, and the next commit is refused.
printf 'insert %s 9 9\ninsert %s 10 9\nrange %s 0 100 latest\n' "$id" "$id" "$id" >script
cp before device
(
    trap '' XFSZ
    ulimit -f 40
    exec "$program" device live <script >out 2>err
)
status=$?
expect 'a file that cannot grow' "$(ended)" "5: no device/no stopped 2/$answer"
play device ask <questions
expect 'a file that could not grow, opened again' "$(ended)" "0: $answer"

# The same when the system ends the process in the middle of the commit.
cp before device
(
    ulimit -c 0 -f 40
    "$program" device live <script
) >out 2>err
play device ask <questions
expect 'a run that was ended because its file cannot grow' "$(ended)" "0: $answer"

# A store with no room left.
play small format --blocks 8 </dev/null
printf 'create %s\ninsert %s 0 5\n' "$id" "$id" >script
play small live <script
expect 'a store that is full' "$(ended)" '8: ok 0 0/no full 3 1/'
