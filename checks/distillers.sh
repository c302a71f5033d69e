#!/usr/bin/env bash
# A long run of late inserts, deletes and refreshes over outputs of outputs, four levels deep: all kernels, also those of aligned windows,
# several leads, widths and grains. Each version of each output is then compared with what the definition of its kernel gives over all
# time, on the points of its inputs at the versions that it has read, as awk computes it from the raw points. Then windows worked by hand,
# and the bytes that they leave.
# shellcheck source=checks/common.sh
. "$(dirname "$0")/common.sh"

# The streams: a name for each, and of an output its kernel, lead, grain and inputs. An output of aligned windows has `cell/WHICH` as its
# kernel, and in place of the lead the exponent of the width.
cat >streams <<'END'
A plain
B plain
affine affine 7 0 A - 3 -5 4
sum sum 50 3 A -
mean mean 9 0 A -
least least 20 6 A -
greatest greatest 1 1 B -
count count 1000 62 A -
delta delta 30 0 A -
minus minus 0 2 A B
angle angle 0 0 A B
hold hold 40 4 A B
itself minus 5 0 A A
sums mean 25 1 sum -
held hold 60 0 delta mean
least_of least 12 5 hold -
third count 33 2 sums -
angles angle 0 3 held affine
twice sum 100 0 least_of -
wsum cell/sum 4 0 A -
wmean cell/mean 3 2 mean -
wleast cell/least 0 6 A -
wgreatest cell/greatest 5 62 B -
wcount cell/count 6 1 hold -
whole cell/sum 62 0 A -
sum_of sum 40 0 wsum -
wide cell/greatest 6 5 wsum -
pairs minus 0 0 wsum wleast
top cell/mean 7 0 sum_of -
END

# The id of a stream: its line in the list.
id_of() {
    printf '00000000-0000-4000-8000-%012d' "$(grep -n "^$1 " streams | cut -d : -f 1)"
}

# The lines that make the streams.
made() {
    local name kernel lead grain first second numbers
    while read -r name kernel lead grain first second numbers; do
        case $kernel in
            plain) echo "create $(id_of "$name")" ;;
            cell/*) echo "cell $(id_of "$name") ${kernel#cell/} $lead $grain $(id_of "$first")" ;;
            *)
                if [ "$second" = - ]; then second=; else second=" $(id_of "$second")"; fi
                echo "distiller $(id_of "$name") $kernel ${numbers:+$numbers }$lead $grain $(id_of "$first")$second"
                ;;
        esac
    done <streams
}

# The lines that change the plain streams and bring outputs up to date, at random.
changed() {
    awk -v seed="$1" -v count="$(grep -c . streams)" '
        function id(n) { return sprintf("00000000-0000-4000-8000-%012d", n) }
        function any(n) { return int(n * rand()) }
        BEGIN {
            srand(seed)
            for (k = 0; k < 600; k++) {
                kind = any(10)
                stream = 1 + any(2)
                if (kind == 0) { t = any(200) - 90; print "delete", id(stream), t, t + 1 + any(30) }
                else if (kind < 4) {
                    line = "insert " id(stream)
                    for (n = any(4); n >= 0; n--) line = line " " any(200) - 90 " " (any(1001) - 500) * 1000
                    print line
                } else print "refresh", id(3 + any(count - 2))
            }
            for (n = 3; n <= count; n++) print "refresh", id(n)
        }'
}

# The questions for all points of all versions of all streams: STREAM LATEST in each line of standard input.
asked() {
    awk '{ for (v = 0; v <= $2; v++) {
        print "info", $1, v
        print "range", $1, "-1152921504606846976 3458764513820540928", v
    } }'
}

# What a run of these words on a device gives: DEVICE WORDS.
run() {
    play "$@" </dev/null
    ended
}

play device format --blocks 100000 </dev/null
{ made; changed 7; } >script
play device live <script
expect 'a run over outputs of outputs' "$status, $(grep -c '^no ' out) refused" '0, 0 refused'

echo streams >line
play device ask <line
entries=$(head -n 1 out | cut -d ' ' -f 2)
tail -n +2 out >latest
asked <latest >questions
play device ask <questions
expect 'all points of all versions' "$status" 0
cp out answers

awk -v streams=streams -v latest=latest '
    function floor(a, b,    q) { q = int(a / b); return (q * b > a) ? q - 1 : q }
    # The greatest value at time t of the points of stream s at version v, in `x`, if there is one.
    function at(s, v, t,    k) {
        for (k = N[s, v]; k >= 1; k--) if (T[s, v, k] == t) { x = V[s, v, k]; return 1 }
        return 0
    }
    # The greatest value at the last time in [from, to).
    function last(s, v, from, to,    k) {
        for (k = N[s, v]; k >= 1; k--) if (T[s, v, k] < to) {
            if (T[s, v, k] < from) return 0
            x = V[s, v, k]; return 1
        }
        return 0
    }
    # More points, and what is computed of all that were added since there was none.
    function add(y) {
        sum_n++; sum += y
        if (sum_n == 1 || y < low) low = y
        if (sum_n == 1 || y > high) high = y
    }
    function none() { sum_n = sum = 0 }
    function computed(name) {
        if (name == "sum") return sum
        if (name == "mean") return floor(sum, sum_n)
        if (name == "least") return low
        if (name == "greatest") return high
        return sum_n
    }
    # The value of an output at an anchor t, in `x`, if there is one: output o, versions a and b of its inputs.
    function value(o, t, a, b,    i, j, k, y) {
        i = first[o]; j = second[o]
        if (kernel[o] == "affine") { at(i, a, t); x = floor(A[o] * x + B[o], D[o]); return 1 }
        if (kernel[o] == "delta") { at(i, a, t); y = x; if (!last(i, a, t - lead[o], t)) return 0; x = y - x; return 1 }
        if (kernel[o] == "hold") { at(i, a, t); y = x; if (!last(j, b, t - lead[o], t + 1)) return 0; x = y - x; return 1 }
        if (kernel[o] == "minus" || kernel[o] == "angle") {
            at(i, a, t); y = x
            if (!at(j, b, t)) return 0
            x = y - x
            if (kernel[o] == "angle") { x += 180000; x -= 360000 * floor(x, 360000); x -= 180000 }
            return 1
        }
        none()
        for (k = 1; k <= N[i, a]; k++) if (t - lead[o] <= T[i, a, k] && T[i, a, k] <= t) add(V[i, a, k])
        x = computed(kernel[o])
        return 1
    }
    # The start of the aligned window around a time, 2^p wide. The windows begin at -2^60, which is a multiple of all but the widest.
    function start_of(t, p) { return p > 60 ? -2^60 + 2^p * floor(t + 2^60, 2^p) : 2^p * floor(t, 2^p) }
    # The next point of a version of an output is this one.
    function next_is(o, v, t, y) {
        n++; points++
        if (T[o, v, n] == t && V[o, v, n] == y) return
        print "stream " o ", version " v ", time " t ": " V[o, v, n] ", not " y
        exit
    }
    # The points of version v are one for each window with a point of version a of the input.
    function are_windows(o, v, a,    i, k, start) {
        i = first[o]
        none()
        for (k = 1; k <= N[i, a]; k++) {
            if (sum_n && start_of(T[i, a, k], lead[o]) != start) { next_is(o, v, start, computed(windows[o])); none() }
            start = start_of(T[i, a, k], lead[o])
            add(V[i, a, k]); windowed++
        }
        if (sum_n) next_is(o, v, start, computed(windows[o]))
    }
    # The points of version v are those of the kernel at the times of versions a and b of the inputs.
    function are_values(o, v, a, b,    i, k, t) {
        i = first[o]
        for (k = 1; k <= N[i, a]; k++) {
            t = T[i, a, k]
            if (k < N[i, a] && T[i, a, k + 1] == t) continue
            if (value(o, t, a, b)) next_is(o, v, t, x)
        }
    }
    BEGIN {
        while ((getline line <streams) > 0) {
            split(line, w, " "); s++
            number[w[1]] = s; kernel[s] = w[2]
            if (w[2] == "plain") continue
            if (w[2] ~ /^cell/) windows[s] = substr(w[2], 6)
            lead[s] = w[3]; first[s] = number[w[5]]; second[s] = number[w[6]]; A[s] = w[7]; B[s] = w[8]; D[s] = w[9]
        }
        count = s; s = 0
        while ((getline line <latest) > 0) { split(line, w, " "); top[++s] = w[2] }
        # The replies: of each version of each stream its kind and what it has read, then its points.
        for (s = 1; s <= count; s++) for (v = 0; v <= top[s]; v++) {
            getline line; split(line, w, " "); rows = w[3]
            getline line
            if (rows == 2) { getline line; split(line, w, " "); one[s, v] = w[2]; two[s, v] = w[3] }
            getline line; split(line, w, " "); N[s, v] = w[3]
            for (k = 1; k <= N[s, v]; k++) { getline line; split(line, w, " "); T[s, v, k] = w[1] + 0; V[s, v, k] = w[2] + 0 }
        }
        for (o = 1; o <= count; o++) if (kernel[o] != "plain") for (v = 1; v <= top[o]; v++) {
            versions++; n = 0; i = first[o]; a = one[o, v]; b = two[o, v]
            if (o in windows) are_windows(o, v, a); else are_values(o, v, a, b)
            if (n != N[o, v]) { print "stream " o ", version " v ": " N[o, v] " points, not " n; exit }
            if (v == top[o] && (a != top[i] || (second[o] && b != top[second[o]]))) { print "stream " o " is not up to date"; exit }
        }
        if (versions < 150 || points < 4000 || windowed < 3000)
            print versions " versions, " points " points and " windowed " of windows are too few to show anything"
    }' <answers >found
expect 'each version of each output is its kernel over all time' "$(cat found)" ''
expect 'a check of it' "$(run device check)" "0: stands $entries/"
expect 'a checkpoint of it' "$(run device checkpoint)" "0: checkpoint $entries/"
play device ask <questions
expect 'all points of all versions after it' "$(compared out answers)" same

# ---- worked by hand

output=33333333-3333-4333-8333-333333333333
make_store worked
printf 'cell %s sum 2 0 %s\nrefresh %s\nrange %s 0 8 1\n' "$output" "$id" "$output" "$output" >line
play worked live <line
expect 'the sums of windows' "$(ended)" '0: ok 0 0/ok 1 0/ok 1 2/0 12/4 -2/'
printf 'delete %s 3 4\nrefresh %s\nrange %s 0 8 2\n' "$id" "$output" "$output" >line
play worked live <line
expect 'the sums after a delete' "$(ended)" '0: ok 2 0/ok 2 0/ok 2 2/0 5/4 -2/'
for line in 'sum 63 0' 'sum 2 63' 'total 2 0' 'sum 256 0' 'sum 2 256'; do
    echo "cell 44444444-4444-4444-8444-444444444444 $line $id"
done >line
play worked live <line
expect 'windows that no output has' "$(ended)" '1: no spec/no spec/no line/no line/no line/'
play worked ask <line
expect 'a line of windows as a question' "$(ended)" '1: no line/no line/no line/no line/no line/'
expect 'a check of the sums' "$(run worked check)" '0: stands 6/'

# Bytes of a block of a device, in hexadecimal: DEVICE BLOCK OFFSET COUNT.
bytes_of() {
    tail -c +$(($2 * 4096 + $3 + 1)) "$1" | head -c "$4" | od -An -v -tx1 | tr -d ' \n'
}
# The bytes of a superblock of 64 blocks without a checkpoint: FORMAT SEQ.
super_of() {
    printf '4254522d53555052%08x00000000%016x000000000000004000000000000000040000000000000000' "$1" "$2"
}
if has od; then
    expect 'the superblock after a definition of windows' "$(bytes_of worked 2 0 8) $(bytes_of worked 3 0 48)" "4254522d47415445 $(super_of 3 2)"
    expect 'kind and format of its extent' "$(bytes_of worked 10 8 8)" 0000000100000003
    # the kernel, the value and the width, the lead, the grain, and the input
    expect 'its entry' "$(bytes_of worked 10 64 34)" "03${output//-/}0b01020000000000000000000100000000"
    # the stream, the version read, one range, and its bounds
    expect 'the cut of the second version' "$(bytes_of worked 18 64 38)" \
        0400000001010000000000000002000000000000000100000000000000000000000000000004
else
    skip 'the bytes of windows' 'od is missing'
fi

# ---- a store with a retirement

make_store retired
printf 'insert %s 4 -2\nretire %s 2\ncell %s count 0 0 %s\nrefresh %s\nrange %s 0 9 1\n' "$id" "$id" "$output" "$id" "$output" "$output" >line
play retired live <line
expect 'windows after a retirement' "$(ended)" '0: ok 2 0/ok 0 0/ok 0 0/ok 1 0/ok 1 3/0 1/3 1/4 2/'
if has od; then
    expect 'the superblock after both' "$(bytes_of retired 0 0 8) $(bytes_of retired 1 0 48)" "4254522d47415445 $(super_of 3 3)"
else
    skip 'the superblock after both' 'od is missing'
fi
printf 'range %s 0 5 1\nrange %s 0 5 2\nretire %s 3\n' "$id" "$id" "$id" >line
answers='1: no retired 1 2/ok 2 4/0 5/3 7/4 -2/4 -2/no line/'
play retired ask <line
expect 'questions after both' "$(ended)" "$answers"
expect 'a check and a checkpoint' "$(run retired check), $(run retired checkpoint)" '0: stands 6/, 0: checkpoint 6/'
play retired ask <line
expect 'questions after a checkpoint' "$(ended)" "$answers"
expect 'a check after a checkpoint' "$(run retired check)" '0: stands 6/'
