#!/usr/bin/env bash
# Times `exabgpd encode` at growing numbers of lines, each of another prefix with four communities, once with one value
# of the attributes for all and once with a MED of its own for each. Beside it runs the same work in C. The outputs have
# to be the same, byte for byte; before that, those of lines that announce, withdraw and are refused. Prints a table:
# processor seconds and the most memory, both of the median of three runs by processor time, the bytes of memory a
# route beyond those of an empty input, and how often the yardstick's time the program takes; behind it how the cost of
# a line grows from each size to the next.
#
# usage: bench/encode.sh [LINES ..]        (100000 1000000 where none are given)
#        PROGRAM=PATH bench/encode.sh      times another build
set -eu
cd "$(dirname "$0")/.."
. bench/beside.sh
cc -O2 -o "$folder/yardstick" bench/encode.c
yardstick=("$folder/yardstick")
subject=()
[ ! -x "$program" ] || subject=("$program" encode 65001 65002 192.0.2.9)

# Lines that announce 10.0.0.0/24 and the prefixes behind it, with one value or each with its own MED.
lines() {
  awk -v count="$1" -v values="$2" 'BEGIN {
    for (i = 0; i < count; i++) {
      a = 655360 + i
      printf "announce route %d.%d.%d.0/24 next-hop 192.0.2.1 med %d community [ 65001:1 65001:2 64512:30 0:7 ]\n",
        a / 65536, a / 256 % 256, a % 256, values == "own" ? i : 7
    }
  }'
}

# Lines about 500 prefixes and 40 values: half of them announce, a third withdraws, the rest is refused.
mixed() {
  awk -v count="$1" 'BEGIN {
    for (i = 0; i < count; i++) {
      state = (state * 1103 + 12345) % 2147483
      prefix = sprintf("10.%d.%d.0/24", state % 5, int(state / 5) % 100)
      what = int(state / 512) % 6
      if (what < 3)
        printf "announce route %s next-hop 192.0.2.%d med %d community [ 65001:%d ]\n", prefix, 1 + i % 2, i % 4, i % 5
      else if (what < 5)
        printf "withdraw route %s\n", prefix
      else
        printf "announce route 10.0.%d.1/24 next-hop 192.0.2.1\nannounce route %s med %d\n", i % 100, prefix, i
    }
  }'
}

mixed 20000 >"$folder/input"
run_beside
: >"$folder/input"
keep_none
echo "| lines | values | program | processor seconds | MB | bytes a route | times C |"
echo "|---|---|---|---|---|---|---|"
for values in one own; do
  for count in "${sizes[@]}"; do
    lines "$count" "$values" >"$folder/input"
    run_beside
    rows "$count | $values | " "$values:" "$count"
  done
done
grown
