#!/bin/sh
# Writes ten minutes of two synchrophasor meters as rows `ID,TIME,VALUE`: `ontime.csv` as it came in time, and `late.csv` as it came
# later. Times are nanoseconds since 1970 (the first is 2026-06-01 08:00 UTC), 60 a second; values are phase angles in thousandths of
# a degree. All numbers are whole, so each machine writes the same bytes.
#
#   - The second meter lost its link in the seconds 125 to 131: these rows are late.
#   - The first meter was out of order in the seconds 300 to 302: there are no rows.
#   - The rows of the second meter of the second 40 were sent twice, and both were kept.
#   - In the second 240 a line trips: the angle between the meters jumps, swings and settles.
set -eu
awk '
# an angle in -180000 to 179999
function wrapped(v) { v = (v + 180000) % 360000; if (v < 0) v += 360000; return v - 180000 }

# noise, in -50 to 50
function noise() { seed = (16807 * seed) % 2147483647; return seed % 101 - 50 }

# a smooth wave from -1000 to 1000
function wave(x, period,    half, sign) {
    x = x % period; half = period / 2; sign = 1
    if (x >= half) { x -= half; sign = -1 }
    return sign * int(4000 * x * (half - x) / (half * half))
}

# how far the second meter lies behind the first, at sample k
function behind(k,    since, swing) {
    since = k - 240 * 60
    if (since < 0) return 20000 + 2 * wave(k, 3600)
    swing = since < 1200 ? int((1200 - since) * wave(since, 90) * 6 / 1200) : 0
    return 26000 + 2 * wave(k, 3600) + swing
}

function row(file, id, k, v) {
    printf "%s,%d%09d,%d\n", id, 1780300800 + int(k / 60), int((k % 60) * 1000000000 / 60 + 0.5), wrapped(v) > file
}

BEGIN {
    seed = 1
    first = "11111111-1111-4111-8111-111111111111"
    second = "22222222-2222-4222-8222-222222222222"
    for (k = 0; k < 36000; k++) {
        second_of = int(k / 60)
        a = 170000 + 100 * k + noise()
        b = 170000 + 100 * k - behind(k) + noise()
        if (second_of < 300 || second_of > 302) row("ontime.csv", first, k, a)
        row(second_of >= 125 && second_of <= 131 ? "late.csv" : "ontime.csv", second, k, b)
        if (second_of == 40) row("ontime.csv", second, k, b)
    }
}'
