#!/usr/bin/env bash
# The worked example of two meters: what its commands write, and the numbers in it computed anew by awk from the rows.
# shellcheck source=checks/common.sh
. "$(dirname "$0")/common.sh"

example=$top/examples/synchrophasor
mkdir bin
ln -s "$program" bin/btr_run
PATH=$folder/bin:$PATH

sh "$example/tour.sh" >found 2>&1
expect 'the tour of the example' "$(diff found "$example/expected.txt" && echo same)" same

# Prints the angle between the meters at each time that both have, as `SECONDS NANOSECONDS ANGLE`, from files of rows. Times are kept in
# two parts, since awk counts in floating numbers.
angles() {
    cat "$@" | awk -F, '
        { at = substr($2, 1, 10) " " substr($2, 11) }
        $1 ~ /^1/ { first[at] = $3 }
        $1 ~ /^2/ { second[at] = $3 }
        END {
            for (at in first) if (at in second) {
                d = (first[at] - second[at] + 180000) % 360000
                if (d < 0) d += 360000
                print at, d - 180000
            }
        }' | sort -k1,1n -k2,2n
}

# The rows of windows over angles, each of SECONDS seconds: FROM TO SECONDS, of the file `angles`.
windows() {
    awk -v from="$1" -v to="$2" -v width="$3" '
        $1 >= from && $1 < to {
            k = int(($1 - from) / width)
            if (!(k in n) || $3 < least[k]) least[k] = $3
            if (!(k in n) || $3 > most[k]) most[k] = $3
            n[k]++; sum[k] += $3
        }
        END { for (k = 0; from + (k + 1) * width <= to; k++) if (k in n) printf "%d000000000 %d %d %d %d\n", from + k * width, n[k], sum[k], least[k], most[k] }' angles
}

angles ontime.csv >angles
expect 'two minutes at a time, before the late rows' "$(windows 1780300800 1780301400 120)" "$(sed -n '10,14p' found)"
expect 'the lost link, before the late rows' "$(windows 1780300920 1780300935 5)" "$(sed -n '18,19p' found)"
angles ontime.csv late.csv >angles
expect 'the lost link, after the late rows' "$(windows 1780300920 1780300935 5)" "$(sed -n '27,29p' found)"

# the mean over the second before each angle, rounded down: how many, their sum, the least and the greatest
expect 'the means of a second' "$(awk '
    function floor(x,    i) { i = int(x); return i > x ? i - 1 : i }
    { second[NR] = $1; part[NR] = $2 + 0; value[NR] = $3; sum += $3
      if (NR == 1) low = 1
      while (second[low] < $1 - 1 || (second[low] == $1 - 1 && part[low] < $2 + 0)) { sum -= value[low]; low++ }
      mean = floor(sum / (NR - low + 1)); total += mean
      if (NR == 1 || mean < least) least = mean
      if (NR == 1 || mean > most) most = mean }
    END { print "output", NR, total, least, most }' angles)" "$(sed -n '34p' found)"
