#!/usr/bin/env bash
# `serve` over pipes: each reply comes before the next line is sent, a kill after a reply keeps what was answered, and the replies are
# those of `live`, however the input is cut.
# shellcheck source=checks/common.sh
. "$(dirname "$0")/common.sh"

if ! has mkfifo; then
    skip 'serve' 'mkfifo is missing'
    exit 0
fi
trap '' PIPE
mkfifo lines replies

# Starts `serve`, or `serve --read`: WORDS. Lines go to descriptor 3, and replies come from descriptor 4.
start() {
    "$program" device "$@" <lines >replies 2>err &
    server=$!
    exec 3>lines 4<replies
}

# Closes the input, and waits for the end: `status`, and in `rest` what was written and not yet read.
close() {
    exec 3>&-
    rest=$(cat <&4)
    exec 4<&-
    wait "$server"
    status=$?
}

# Sends a text, by the words of `printf`, and waits for one line of a reply, for five seconds at most: it is then in `reply`.
ask() {
    # shellcheck disable=SC2059
    printf "$@" >&3
    reply=none
    read -r -t 5 reply <&4
}

# Waits for one line more of a reply.
more() {
    reply=none
    read -r -t 5 reply <&4
}

# ---- each reply before the next line is sent

make_store device
start serve
ask 'insert %s 9 9\n' "$id"
expect 'the reply to a commit comes at once' "$reply" 'ok 2 0'
ask 'range %s 0 100 latest\n' "$id"
first=$reply
for _ in 1 2 3; do more; done
expect 'a question sees the commit before it' "$first, $reply" 'ok 2 4, 4 -2'
more
expect 'all rows of the answer come' "$reply" '9 9'

# A line that comes byte by byte, with a carriage return at its end.
line=$(printf 'info %s latest' "$id")
for ((k = 0; k < ${#line}; k++)); do printf '%s' "${line:k:1}" >&3; done
printf '\r\n' >&3
more
first=$reply
more
expect 'a line that comes byte by byte, with CR LF' "$first, $reply" 'ok 2 1, plain 4 19 -2 9'

# Two lines in one write, and lines without a reply.
ask 'nonsense\n# a comment\n\n   \nflush %s\n' "$id"
first=$reply
more
expect 'two lines in one write, with lines without a reply between them' "$first, $reply" 'no line, no empty'

# Feeds last from line to line.
ask 'feed %s 20 1\n' "$id"
first=$reply
ask 'feed %s 21 2\n' "$id"
second=$reply
ask 'flush %s\n' "$id"
expect 'feeds last from line to line' "$first, $second, $reply" 'held 1, held 2, ok 3 0'

# A word that names a lane is no first word of a form.
ask '@0 streams\n'
expect 'a word that names a lane' "$reply" 'no line'

# A second process is refused while the store is open.
play device ask <questions 3>&- 4<&-
expect 'ask beside serve' "$(ended)" '5: no device/'
play device serve --read <questions 3>&- 4<&-
expect 'serve --read beside serve' "$(ended)" '5: no device/'

# A last line without a line feed is run when the input ends.
printf 'insert %s 30 3' "$id" >&3
close
expect 'a last line without a line feed' "$status: $rest" '1: ok 4 0'
play device check </dev/null
expect 'check after serve' "$(ended)" '0: stands 5/'

# ---- the end

play device serve </dev/null
expect 'serve with an empty input' "$(ended)" '0: '
play missing serve </dev/null
expect 'serve of a file that is missing' "$(ended)" '6: no store/'
head -c 40000 /dev/zero >nothing
serve_nothing() {
    "$program" nothing serve <lines >out 2>err &
    server=$!
    exec 3>lines
    wait "$server"
    status=$?
    exec 3>&-
}
serve_nothing
expect 'serve of no store ends before it reads' "$(ended)" '6: no store/'
for words in '--read --batch 5' '--batch 5 --read' '--batch 0' '--batch 65537' '--materialize' '--read --read' '--cold'; do
    # shellcheck disable=SC2086
    play device serve $words <questions
    expect "serve $words" "$(ended)" '2: no usage/'
done
"$program" device serve <questions >&- 2>err
expect 'serve with a closed output' "$?" 4
if [ -e /dev/full ]; then
    "$program" device serve <questions >/dev/full 2>err
    expect 'serve with a full output' "$?" 4
fi
"$program" device serve <&- >out 2>err
status=$?
expect 'serve with a closed input' "$(ended)" '3: no source/'

# SIGTERM while it waits for a line: what was answered stays.
start serve
ask 'insert %s 40 4\n' "$id"
kill -TERM "$server"
close 2>err
expect 'SIGTERM while it waits' "$reply, $status, $rest" 'ok 5 0, 143, '
play device check </dev/null
expect 'check after SIGTERM' "$(ended)" '0: stands 6/'

# A pipe that nobody reads any more.
start serve
ask 'insert %s 41 4\n' "$id"
exec 4<&-
printf 'insert %s 42 4\n' "$id" >&3
wait "$server"
status=$?
exec 3>&-
expect 'the reader is gone' "$([ "$status" = 4 ] || [ "$status" = 141 ]; echo $?)" 0
play device check </dev/null
expect 'check after the reader is gone' "$(ended)" '0: stands 8/'

# ---- questions alone

start serve --read
ask 'info %s latest\n' "$id"
more
expect 'serve --read answers at once' "$reply" 'plain 10 37 -2 9'
ask 'insert %s 50 5\n' "$id"
expect 'serve --read takes no commit' "$reply" 'no line'
play device ask <questions 3>&- 4<&-
expect 'ask beside serve --read' "$status" 0
play device check </dev/null 3>&- 4<&-
expect 'check beside serve --read' "$(ended)" '0: stands 8/'
play device serve <questions 3>&- 4<&-
expect 'serve beside serve --read' "$(ended)" '5: no device/'
close
expect 'the end of serve --read' "$status: $rest" '1: '

# ---- the replies and the device of `live`

# Random lines of one lane, some of which are refused: SEED.
random_lines() {
    awk -v seed="$1" -v a="$id" 'BEGIN {
        srand(seed)
        b = "22222222-2222-4222-8222-222222222222"; o = "33333333-3333-4333-8333-333333333333"
        print "create", b; print "distiller", o, "sum 100 0", a
        for (k = 0; k < 400; k++) {
            s = rand() < 0.5 ? a : rand() < 0.8 ? b : o
            r = rand(); t = int(rand() * 5000)
            if (r < 0.2) print "insert", s, t, k, t + 1, k
            else if (r < 0.35) print "feed", s, t, k
            else if (r < 0.45) print "flush", s
            else if (r < 0.5) print "discard", s
            else if (r < 0.58) print "delete", s, t, t + int(rand() * 300) - 20
            else if (r < 0.66) print "refresh", s
            else if (r < 0.7) print "retire", s, int(rand() * 9)
            else if (r < 0.8) print "windows", s, t, t + 900, 1 + int(rand() * 300), "latest"
            else if (r < 0.9) print "range", s, t, t + 900, int(rand() * 30)
            else if (r < 0.95) print "changes", s, int(rand() * 9), int(rand() * 20), 3
            else if (r < 0.98) print "# nothing"
            else print "streams" (rand() < 0.5 ? "\r" : "")
        }
    }'
}

# Copies a file in pieces of random lengths, one write for each: FILE SEED.
in_pieces() {
    local at=0 length size
    size=$(wc -c <"$1")
    RANDOM=$2
    while [ "$at" -lt "$size" ]; do
        length=$((RANDOM % 400 + 1))
        tail -c "+$((at + 1))" "$1" 2>err | head -c "$length"
        at=$((at + length))
    done
}

for seed in 1 2 3; do
    rm -f device
    "$program" device format --blocks 100000 </dev/null >out
    printf 'create %s\ninsert %s 0 5 3 7\n' "$id" "$id" | "$program" device live >out
    cp device other
    random_lines "$seed" >"script$seed"
    "$program" device live --batch 3 <"script$seed" >wanted
    echo "$?" >>wanted
    in_pieces "script$seed" "$seed" | "$program" other serve --batch 3 >found
    echo "${PIPESTATUS[1]}" >>found
    expect "400 random lines cut at random, seed $seed" "$(compared wanted found), $(compared device other)" 'same, same'
done
