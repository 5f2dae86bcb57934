#!/usr/bin/env bash
# Times `exabgpd check` on two files of nearly 1,048,576 bytes, the most that is read: one has as many static routes as
# such a file holds, and in the other a neighbour lists one process half a million times. Prints a table: processor
# seconds and the most memory of the fastest of three runs. The aim is under a second each.
#
# usage: bench/check.sh
#        PROGRAM=PATH bench/check.sh       times another build
set -eu
cd "$(dirname "$0")/.."
program=${PROGRAM:-$PWD/crates/exabgpd/out/exabgpd}
folder=$(mktemp -d)
trap 'rm -rf "$folder"' EXIT

if [ ! -x "$program" ]; then
  echo "exabgpd isn't built: $program"
  exit 0
fi
# An empty file is a configuration.
: >"$folder/empty"
if ! "$program" check "$folder/empty" >/dev/null 2>&1; then
  echo "exabgpd has no command check"
  exit 0
fi

head='process a{run cat;}neighbor 192.0.2.2{local-address 192.0.2.9;local-as 1;peer-as 2;'

# Each route has another prefix, in the shortest form that a route has.
awk -v head="$head" 'BEGIN {
  printf "%sstatic{", head
  left = 1048576 - length(head) - 9
  for (i = 0; ; i++) {
    route = sprintf("route ::%x next-hop ::;", i)
    if (length(route) > left)
      break
    left -= length(route)
    printf "%s", route
  }
  printf "}}"
  print i >"/dev/stderr"
}' >"$folder/routes" 2>"$folder/count"

awk -v head="$head" 'BEGIN {
  printf "%sapi{processes[", head
  for (i = 0; i < 524000; i++)
    printf "a "
  printf "];}}"
}' >"$folder/names"

# Processor seconds and kilobytes of the fastest of three runs on a file.
fastest() {
  TIMEFORMAT='%3U %3S'
  for _ in 1 2 3; do
    { time /usr/bin/time -f %M -o "$folder/most" "$program" check "$1" >"$folder/printed"; } 2>"$folder/took"
    awk '{ printf "%.3f ", $1 + $2 }' "$folder/took"
    cat "$folder/most"
  done | sort -n | head -n 1
}

row() {
  read -r took most < <(fastest "$folder/$1")
  [ "$(cat "$folder/printed")" = ok ]
  awk -v what="$2" -v b="$(wc -c <"$folder/$1")" -v s="$took" -v k="$most" \
    'BEGIN { printf "| %s | %d | %.3f | %.1f |\n", what, b, s, k / 1024 }'
}

echo "| a file of | bytes | processor seconds | MB |"
echo "|---|---|---|---|"
row routes "$(cat "$folder/count") static routes"
row names "524000 names of one process"
