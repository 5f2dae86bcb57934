#!/usr/bin/env bash
# Times `exabgpd load` at growing numbers of routes, beside the same work in C. Their outputs have to be the same, byte
# for byte, and the yardstick's first that of examples/load. Prints a table: processor seconds and the most memory, both
# of the median of three runs by processor time, the bytes of memory a route beyond those of one route, and how often
# the yardstick's time the program takes; behind it how the cost of a route grows from each size to the next.
#
# usage: bench/load.sh [COUNT ..]          (100000 1000000 where none are given)
#        PROGRAM=PATH bench/load.sh        times another build
set -eu
cd "$(dirname "$0")/.."
. bench/beside.sh
cc -O2 -o "$folder/yardstick" bench/load.c
"$folder/yardstick" 100 | cmp - examples/load/output

# Runs both for so many routes.
load_of() {
  yardstick=("$folder/yardstick" "$1")
  subject=()
  [ ! -x "$program" ] || subject=("$program" load "$1")
}

: >"$folder/input"
load_of 1
keep_none
echo "| routes | program | processor seconds | MB | bytes a route | times C |"
echo "|---|---|---|---|---|---|"
for count in "${sizes[@]}"; do
  load_of "$count"
  run_beside
  rows "$count | " "" "$count"
done
grown
