#!/usr/bin/env bash
# Times `exabgpd play` on a script in which a helper announces routes to four neighbours whose sessions stand, and
# takes its replies, and each neighbour's messages are cut at the end. A route is a node at each neighbour, so that a
# million of them are four million nodes. Beside it runs the same work in C. The outputs have to be the same, byte for
# byte; before that, those of a script whose lines announce, withdraw and are refused. Prints a table: processor seconds
# and the most memory, both of the median of three runs by processor time, the bytes of memory a node, and how often the
# yardstick's time the program takes; behind it how the cost of a node grows from each size to the next.
#
# usage: bench/play.sh [ROUTES ..]         (100000 1000000 where none are given)
#        PROGRAM=PATH bench/play.sh        times another build
set -eu
cd "$(dirname "$0")/.."
. bench/beside.sh
cc -O2 -o "$folder/yardstick" bench/play.c
yardstick=("$folder/yardstick" 4)
subject=()
[ ! -x "$program" ] || subject=("$program" play "$folder/four.conf")

{
  echo 'process h { run /bin/cat; }'
  for n in 2 3 4 5; do
    echo "neighbor 192.0.2.$n { local-address 192.0.2.9; local-as 65001; peer-as 65002;"
    echo '  family { ipv4 unicast; } api { processes [ h ]; } }'
  done
} >"$folder/four.conf"

# So many lines of the helper about as many prefixes as there are lines, or about 500 of them, where each sixth is
# refused and each third withdraws, and messages are cut on the way too.
script() {
  awk -v count="$1" -v mixed="$2" 'BEGIN {
    print "spawn 0 0"
    for (n = 0; n < 4; n++)
      printf "peer %d\nup %d ipv4\n", n, n
    for (i = 0; i < count; i++) {
      state = (state * 1103 + 12345) % 2147483
      a = 655360 + (mixed ? state % 500 : i)
      prefix = sprintf("%d.%d.%d.0/24", a / 65536, a / 256 % 256, a % 256)
      what = mixed ? int(state / 512) % 6 : 0
      if (what < 3)
        printf "line 0 1 announce route %s next-hop 192.0.2.1 med %d community [ 65001:1 65001:2 ]\n", prefix, i % 16
      else if (what < 5)
        printf "line 0 1 withdraw route %s\n", prefix
      else
        printf "line 0 1 announce route %s med %d\n", prefix, i
      if (i % 64 == 63 || i == count - 1)
        print "take 0 1"
      if (mixed && i % 500 == 499)
        printf "drain %d\n", int(i / 500) % 4
    }
    for (n = 0; n < 4; n++)
      printf "drain %d\n", n
  }'
}

script 20000 1 >"$folder/input"
run_beside
script 0 0 >"$folder/input"
keep_none
echo "| nodes | program | processor seconds | MB | bytes a node | times C |"
echo "|---|---|---|---|---|---|"
for count in "${sizes[@]}"; do
  script "$count" 0 >"$folder/input"
  run_beside
  rows "$((4 * count)) | " "" "$((4 * count))"
done
grown
