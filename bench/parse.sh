#!/usr/bin/env bash
# Times `exabgpd parse` on lines with a next hop, a MED and four communities, beside the same work in C. Their outputs
# have to be the same, byte for byte. Prints a table: processor seconds and the most memory of the fastest of three
# runs, and how much of the C program's processor time the program takes.
#
# usage: bench/parse.sh [LINES]           (1000000 where none is given)
#        PROGRAM=PATH bench/parse.sh       times another build
set -eu
cd "$(dirname "$0")/.."
program=${PROGRAM:-$PWD/crates/exabgpd/out/exabgpd}
count=${1:-1000000}
folder=$(mktemp -d)
trap 'rm -rf "$folder"' EXIT
cc -O2 -o "$folder/yardstick" bench/parse.c

# Each line has another prefix and another MED; each tenth has a prefix with a bit past its length.
awk -v count="$count" 'BEGIN {
  for (i = 0; i < count; i++) {
    a = 655360 + i
    printf "announce route %d.%d.%d.%d/24 next-hop 192.0.2.1 med %d community [ 65001:%d 65001:2 64512:30 0:7 ]\n",
      a / 65536, a / 256 % 256, a % 256, i % 10 == 0, i, i % 65536
  }
}' >"$folder/lines"

# Processor seconds and kilobytes of the fastest of three runs.
fastest() {
  TIMEFORMAT='%3U %3S'
  for _ in 1 2 3; do
    { time /usr/bin/time -f %M -o "$folder/most" "$@" <"$folder/lines" >"$folder/printed"; } 2>"$folder/took"
    awk '{ printf "%.3f ", $1 + $2 }' "$folder/took"
    cat "$folder/most"
  done | sort -n | head -n 1
}

echo "| program | lines | processor seconds | MB |"
echo "|---|---|---|---|"
read -r slow most < <(fastest "$folder/yardstick")
mv "$folder/printed" "$folder/wanted"
awk -v n="$count" -v s="$slow" -v k="$most" 'BEGIN { printf "| C | %d | %.3f | %.1f |\n", n, s, k / 1024 }'
if [ ! -x "$program" ]; then
  echo "exabgpd isn't built: $program"
  exit 0
fi
read -r took most < <(fastest "$program" parse)
cmp "$folder/printed" "$folder/wanted"
awk -v n="$count" -v s="$took" -v k="$most" 'BEGIN { printf "| exabgpd | %d | %.3f | %.1f |\n", n, s, k / 1024 }'
awk -v s="$took" -v c="$slow" 'BEGIN { printf "\nexabgpd takes %.2f times the processor time of C\n", s / c }'
