#!/bin/sh
# The whole day in the current folder: `tour.sh` with `btr_run` on the PATH. It makes the store `grid.btr`.
set -eu
here=$(cd "$(dirname "$0")" && pwd)
"$here/generate.sh"
btr_run grid.btr format --blocks 65536
btr_run grid.btr load --workers 2 --batch 4096 <ontime.csv
btr_run grid.btr live <"$here/define.lines"
btr_run grid.btr distil --workers 2
btr_run grid.btr ask <"$here/before.lines"
btr_run grid.btr load --workers 2 <late.csv
btr_run grid.btr distil --workers 2
btr_run grid.btr ask <"$here/after.lines"
