#!/usr/bin/env bash
# Times the running daemon, and beside it an injector in C that keeps no table, as the floor. One neighbour on the
# loopback counts what comes (bench/sink.c), and helpers announce and note the moments (bench/flood.c). Printed are
#
# - routes a second from the helper's first line until the neighbour has counted all, processor seconds, the most memory
#   and the bytes of memory a route beyond those before the first line: with one value for all routes, with a MED of its
#   own for each, and answered line by line; of the run with the median rate of three;
# - the time until a line's reply, the time until its prefix is at the neighbour, and the time until the reply of another
#   helper's line while a helper loads as many routes as the last size says: the median and the 99th of a hundred;
# - the processor time while 16 helpers say nothing and 64 neighbours are configured, whose sessions all stand, or none.
#
# usage: bench/daemon.sh [ROUTES ..]       (100000 1000000 where none are given)
#        PROGRAM=PATH bench/daemon.sh      times another build
#        PARTS="rate wait idle"            only these parts
set -euo pipefail
cd "$(dirname "$0")/.."
program=${PROGRAM:-$PWD/crates/exabgpd/out/exabgpd}
parts=${PARTS:-rate wait idle}
port=${PORT:-11790}
sizes=("${@:-}")
[ "$#" -gt 0 ] || sizes=(100000 1000000)
last=${sizes[-1]}
folder=$(mktemp -d)
sink='' subject=''
trap 'kill $sink $subject 2>/dev/null || true; rm -rf "$folder"' EXIT
for name in sink flood injector; do
  cc -O2 -o "$folder/$name" "bench/$name.c"
done

# Waits up to two minutes until a file has so many lines of a form.
await() {
  for _ in $(seq 2400); do
    [ "$(grep -c "$2" "$1" 2>/dev/null || true)" -lt "${3:-1}" ] || return 0
    sleep 0.05
  done
  echo "no line '$2' came" >&2
  return 1
}

# A configuration of so many helpers and neighbours; helper N runs the words of the file helper.N.
configure() {
  for h in $(seq 0 "$(($1 - 1))"); do
    echo "process h$h { run $(cat "$folder/helper.$h"); }"
  done
  for n in $(seq 1 "$2"); do
    echo "neighbor 127.0.0.$n { local-address 127.0.0.1; local-as 65001; peer-as 65002; connect $port;"
    echo "  family { ipv4 unicast; } api { processes [ $(seq -f 'h%.0f' -s ' ' 0 "$(($1 - 1))") ]; } }"
  done
}

# The words of a helper with a report of its own.
helper() {
  local number=$1
  shift
  echo "$folder/flood $folder/report.$number $folder/go $folder/stop $*" >"$folder/helper.$number"
  rm -f "$folder/report.$number"
}

# Starts so many neighbours that count, with what else they are told, and waits for their doors.
count_by() {
  "$folder/sink" "$@" >"$folder/counted" 2>"$folder/faults" &
  sink=$!
  await "$folder/counted" '^listening'
}

# Starts a program over the helpers' files, and waits until so many sessions are up.
start() {
  rm -f "$folder/go" "$folder/stop"
  if [ "$1" = C ]; then
    # shellcheck disable=SC2046
    "$folder/injector" "$port" $(cat "$folder/helper.0") 2>"$folder/log" &
  else
    configure "$2" "$3" >"$folder/conf"
    "$program" run "$folder/conf" 2>"$folder/log" &
  fi
  subject=$!
  [ "$4" = 0 ] || await "$folder/counted" '^up' "$4"
}

# Lets the first helper say `shutdown`, and ends the neighbours behind the program.
finish() {
  touch "$folder/stop"
  wait "$subject" || true
  subject=''
  [ -z "$sink" ] || kill "$sink"
  [ -z "$sink" ] || wait "$sink" || true
  sink=''
}

# Processor seconds of the program so far, by the system's ticks of 10 ms, and kilobytes that it holds.
busy() { awk '{ sub(/.*\) /, ""); printf "%.2f\n", ($12 + $13) / 100 }' "/proc/$subject/stat"; }
holds() { awk '/^VmRSS/ { print $2 }' "/proc/$subject/status"; }

# One load: routes a second, processor seconds, kilobytes before and behind.
load_once() {
  if [ "$3" = ping ]; then helper 0 ping "$2" 0; else helper 0 load "$2" "$3"; fi
  count_by "$port" "$2"
  start "$1" 1 1 1
  local before
  before=$(holds)
  touch "$folder/go"
  await "$folder/counted" '^count'
  await "$folder/report.0" '^ended'
  [ "$(awk '/^ended/ { print $4, $6 }' "$folder/report.0")" = "$2 0" ]
  awk -v n="$2" -v c="$(busy)" -v b="$before" -v k="$(holds)" 'FNR == NR && /^began/ { t = $2 }
    FNR != NR && /^count/ { printf "%.0f %.2f %d %d\n", n / (($2 - t) / 1e9), c, b, k }' \
    "$folder/report.0" "$folder/counted"
  finish
}

rate_row() {
  : >"$folder/runs"
  for _ in 1 2 3; do load_once "$@" >>"$folder/runs"; done
  sort -n "$folder/runs" | sed -n 2p |
    awk -v n="$2" -v who="$1" -v how="$3" '{
      name["one"] = "one value"; name["own"] = "its own MED each"; name["ping"] = "line by line"
      printf "| %s | %d | %s | %d | %.2f | %.1f | %d |\n", who, n, name[how], $1, $2, $4 / 1024, ($4 - $3) * 1024 / n }'
}

# The median and the 99th of a hundred of a column of microseconds.
spread() { sort -n | awk '{ t[NR] = $1 } END { printf "%.1f | %.1f |\n", t[int((NR + 1) / 2)], t[int(NR * 0.99 + 0.5)] }'; }

# The times until the reply, and until the prefix is at the neighbour.
wait_rows() {
  helper 0 ping 20000 200
  count_by -v "$port" 20000
  start "$1" 1 1 1
  touch "$folder/go"
  await "$folder/counted" '^count'
  await "$folder/report.0" '^ended'
  finish
  echo "| $1 | until a line's reply | $(awk '/^line/ { print $4 }' "$folder/report.0" | spread)"
  echo "| $1 | until its prefix is at the neighbour | $(awk 'FNR == NR && /^line/ { wrote[$3] = $2 }
    FNR != NR && /^prefix/ && $3 in wrote { printf "%.1f\n", ($2 - wrote[$3]) / 1000 }' \
    "$folder/report.0" "$folder/counted" | spread)"
}

# The time until another helper's reply while one loads.
other_row() {
  helper 0 load "$last" one
  helper 1 ping 2000 1000 2000000
  count_by "$port" "$last"
  start exabgpd 2 1 1
  touch "$folder/go"
  await "$folder/report.0" '^ended'
  await "$folder/report.1" '^ended'
  finish
  echo "| exabgpd | until another helper's reply during a load of $last | $(awk 'FNR == NR { m[$1] = $2 }
    FNR != NR && /^line/ && $2 >= m["began"] && $2 <= m["ended"] { print $4 }' \
    "$folder/report.0" "$folder/report.1" | spread)"
}

# Processor time of 30 s without anything to do.
idle_row() {
  for h in $(seq 0 15); do helper "$h" idle; done
  [ "$1" = 0 ] || count_by -n 64 "$port"
  start exabgpd 16 64 "$1"
  sleep 10
  local before
  before=$(busy)
  sleep 30
  awk -v n="$1" -v a="$before" -v b="$(busy)" 'BEGIN { printf "| 16 | 64 | %d | %.2f %% |\n", n, (b - a) / 30 * 100 }'
  finish
}

who=(C)
if [ ! -x "$program" ]; then
  echo "exabgpd isn't built: $program"
else
  # A file that isn't there ends the command with status 3, and a command that isn't there ends with status 2.
  status=0
  "$program" run "$folder/none" 2>"$folder/log" || status=$?
  if [ "$status" = 3 ]; then who=(C exabgpd); else echo "exabgpd has no command run"; fi
fi
if [[ $parts == *rate* ]]; then
  echo "| program | routes | how | routes a second | processor seconds | MB | bytes a route |"
  echo "|---|---|---|---|---|---|---|"
  for count in "${sizes[@]}"; do
    for how in one own ping; do
      for it in "${who[@]}"; do rate_row "$it" "$count" "$how"; done
    done
  done
fi
if [[ $parts == *wait* ]]; then
  echo
  echo "| program | microseconds | half take at most | 99 of 100 take at most |"
  echo "|---|---|---|---|"
  for it in "${who[@]}"; do wait_rows "$it"; done
  [ "${who[-1]}" = C ] || other_row
fi
if [[ $parts == *idle* && "${who[-1]}" != C ]]; then
  echo
  echo "| helpers | neighbours | sessions that stand | of one processor |"
  echo "|---|---|---|---|"
  idle_row 64
  idle_row 0
fi
