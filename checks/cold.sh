#!/usr/bin/env bash
# `ask --cold` on real files: the answers of `ask`, blocks that are damaged, reads that fail, other processes, and how many bytes it reads.
# shellcheck source=checks/common.sh
. "$(dirname "$0")/common.sh"

second=22222222-2222-4222-8222-222222222222
output=33333333-3333-4333-8333-333333333333

# What a cold run answers to the lines of a file.
ask_cold() {
    play device ask --cold <"$1"
    ended
}

# ---- what is no sealed store

printf 'streams\n' >streams
expect 'a cold question to a file that is missing' "$(ask_cold streams)" '6: no store/'
rm -f device
make_store device
cp device plain
expect 'a cold question to a store that is not sealed' "$(ask_cold questions), $(compared device plain)" '1: no unsealed/, same'
play device seal </dev/null
cp device sealed
expect 'a cold question to a sealed store' "$(ask_cold questions), $(compared device sealed)" "0: $answer, same"
for words in '--cold --cold' '--cold=1' '--col' '--cold 1'; do
    # shellcheck disable=SC2086
    play device ask $words <questions
    expect "ask $words" "$(ended)" '2: no usage/'
done

# ---- the answers of `ask`

# Random lines about the streams of a store, some of which are refused: SEED.
random_lines() {
    awk -v seed="$1" -v a="$id" -v b="$second" -v o="$output" '
        function time() { return int(rand() * 21000) - 500 }
        # A range, which is mostly not empty.
        function range(    from) { from = time(); return from " " from + int(rand() * 9000) - 300 }
        function stream() { r = rand(); return r < 0.4 ? a : r < 0.7 ? b : r < 0.97 ? o : "44444444-4444-4444-8444-444444444444" }
        function version() { return rand() < 0.4 ? "latest" : int(rand() * 14) }
        BEGIN {
            srand(seed)
            for (k = 0; k < 400; k++) {
                r = rand()
                if (r < 0.3) print "range", stream(), range(), version()
                else if (r < 0.5) print "nearest", stream(), time(), (rand() < 0.5 ? "next" : "prev"), version()
                else if (r < 0.65) print "aligned", stream(), range(), int(rand() * 15), version()
                else if (r < 0.8) print "windows", stream(), range(), 1 + int(rand() * 5000), version()
                else if (r < 0.92) print "changes", stream(), int(rand() * 10), int(rand() * 14), int(rand() * 15)
                else if (r < 0.97) print "info", stream(), version()
                else if (r < 0.98) print "streams"
                else print "insert", a, 1, 1
            }
        }'
}

# A store with two streams, an output, late points, deleted ranges and versions that are retired.
rm -f device
"$program" device format --blocks 100000 </dev/null >out
awk -v a="$id" -v b="$second" -v o="$output" 'BEGIN {
    srand(7)
    print "create", a; print "create", b; print "distiller", o, "sum 100 0", a
    for (k = 0; k < 10; k++) {
        printf "insert %s", a; for (i = 0; i < 300; i++) printf " %d %d", k * 2000 + i * 7, int(rand() * 2000) - 1000; print ""
        printf "insert %s", b; for (i = 0; i < 20; i++) printf " %d %d", int(rand() * 20000), i; print ""
        if (k % 3 == 2) { print "refresh", o; print "delete", a, k * 1500, k * 1500 + 333 }
    }
    print "retire", b, 3
}' >script
"$program" device live <script >out
expect 'the script of the store' "$?, $(grep -c '^no ' out)" '0, 0'
for seed in 1 2 3; do
    random_lines "$seed" >"lines$seed"
    "$program" device ask <"lines$seed" >"answers$seed"
    echo "$?" >>"answers$seed"
done
"$program" device seal </dev/null >out
cp device day
for seed in 1 2 3; do
    "$program" device ask --cold <"lines$seed" >found
    echo "$?" >>found
    expect "400 random lines, $seed" "$(compared found "answers$seed"), $(grep -c '^ok ' found | awk '{ print ($1 > 200) }')" 'same, 1'
done
expect 'the device after them' "$(compared device day)" 'same'

# ---- damaged blocks

# Each page of the store, damaged in turn: a line is answered as before, or names the page's block, or one whose page leads to it.
"$program" device ask --cold <lines1 >whole
wrong=
named=0
count=$(($(wc -c <device) / 4096))
for block in $(awk -v n="$count" 'BEGIN { srand(3); for (k = 0; k < 30; k++) print 4 + int(rand() * (n - 6)) }'); do
    cp day device
    printf 'XXXX' | dd of=device bs=4096 seek="$block" conv=notrunc 2>/dev/null
    "$program" device ask --cold <lines1 >found
    status=$?
    case $status in
        1) cmp -s found whole || wrong="block $block: other answers" ;;
        7)
            named=$((named + 1))
            # one line names it as `no damaged` with its number alone, or the opening does
            grep -q "^no damaged $block\$" found || wrong="block $block: $(grep -m 1 '^no damaged' found)"
            grep '^ok ' found | sort >answered
            grep '^ok ' whole | sort | comm -13 - answered | grep -q . && wrong="block $block: an answer that was none before"
            ;;
        *) wrong="block $block: status $status" ;;
    esac
    [ -z "$wrong" ] || break
done
expect 'blocks that are damaged in turn' "$wrong" ''
expect 'damaged blocks that were named' "$((named > 0))" 1

# ---- reads that fail, and what is read

cp sealed device
if has strace && strace -f -o trace true 2>/dev/null; then
    strace -f -o trace -P device -e trace=pread64 "$program" device ask --cold <questions >out 2>err
    reads=$(grep -c pread64 trace)
    cat questions questions >twice
    strace -f -o trace -P device -e trace=pread64 -e inject="pread64:error=EIO:when=$reads" "$program" device ask --cold <twice >out 2>err
    status=$?
    expect 'the read of a page fails once' "$(ended)" "5: no device/$answer"
    strace -f -o trace -P device -e trace=pread64 -e inject="pread64:error=EIO:when=1" "$program" device ask --cold <twice >out 2>err
    status=$?
    expect 'the first read fails' "$(ended)" '5: no device/'
    cp day device
    printf 'nearest %s 5000 next latest\n' "$id" >line
    strace -f -o trace -P device -e trace=pread64,pwrite64,fdatasync,ftruncate "$program" device ask --cold <line >out 2>err
    expect 'what one question reads of a store' "$(grep -c 'pwrite64\|fdatasync\|ftruncate' trace), $(($(grep -c pread64 trace) <= 16))" '0, 1'
else
    skip 'reads that fail' 'strace is missing, or may not trace'
fi

# ---- other processes, output and input

cp sealed device
if has mkfifo && mkfifo pipe; then
    "$program" device ask --cold <pipe >held 2>err &
    running=$!
    exec 3>pipe
    awk 'BEGIN { for (i = 0; i < 20000; i++) print "# a line without a reply" }' >&3
    found="$(ask_cold questions)"
    play device ask <questions 3>&-
    found="$found, $(ended)"
    play device check </dev/null 3>&-
    found="$found, $(ended)"
    play device seal </dev/null 3>&-
    expect 'other processes beside a cold question' "$found, $(ended)" "0: $answer, 0: $answer, 0: stands 2/, 5: no device/"
    exec 3>&-
    wait "$running"
else
    skip 'processes beside a cold question' 'mkfifo is missing, or fails'
fi
"$program" device ask --cold <questions >&- 2>err
expect 'a cold question with output closed' "$?" 4
if [ -c /dev/full ]; then
    "$program" device ask --cold <questions >/dev/full 2>err
    expect 'a cold question with a full output' "$?" 4
fi
play device ask --cold <&-
expect 'a cold question with input closed' "$(ended)" '3: no source/'
chmod 400 device
expect 'a cold question to a file that may be read alone' "$(ask_cold questions)" "0: $answer"
