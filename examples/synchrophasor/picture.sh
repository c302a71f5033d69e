#!/bin/sh
# Draws `angle.png` from the store `grid.btr` of the tour, with gnuplot: the angle around the trip of the line, as raw points and, over
# them, least, mean and greatest in windows of a second.
set -eu
angle=33333333-3333-4333-8333-333333333333
from=1780301030000000000
to=1780301070000000000
echo "range $angle $from $to latest" | btr_run grid.btr ask | tail -n +2 >points.txt
echo "windows $angle $from $to 1000000000 latest" | btr_run grid.btr ask | tail -n +2 >windows.txt
gnuplot <<END
set terminal pngcairo size 900,400 font "sans,11"
set output "angle.png"
set xlabel "seconds after 08:00 UTC"
set ylabel "angle between the meters, degrees"
set key bottom right
set grid
at(t) = (t - $from) / 1e9 + 230
plot "windows.txt" using (at(\$1) + 0.5):(\$4 / 1000):(at(\$1)):(at(\$1) + 1):(\$4 / 1000):(\$5 / 1000) \
         with boxxyerror fs transparent solid 0.25 noborder lc rgb "#1f77b4" title "least to greatest of each second", \
     "points.txt" using (at(\$1)):(\$2 / 1000) with points pt 7 ps 0.25 lc rgb "#606060" title "points, 60 a second", \
     "windows.txt" using (at(\$1) + 0.5):(\$3 / \$2 / 1000) with linespoints pt 7 ps 0.6 lw 1.5 lc rgb "#d62728" title "mean of each second"
END
