# Times two programs side by side. The scripts here read it in, at the top of the repository. It takes the sizes from
# their words, finds the program, and makes a folder that is gone at the end. They give the words of C's command in the
# list yardstick, and those of the program's in the list subject, which is empty where it isn't built.
# shellcheck shell=bash disable=SC2034,SC2154
program=${PROGRAM:-$PWD/crates/exabgpd/out/exabgpd}
sizes=("${@:-}")
[ "$#" -gt 0 ] || sizes=(100000 1000000)
folder=$(mktemp -d)
trap 'rm -rf "$folder"' EXIT

# One run of a command over the file of the input: processor seconds and kilobytes become a line of NAME.runs, and what
# it prints is in NAME.printed.
run_once() {
  local name=$1 TIMEFORMAT='%3U %3S'
  shift
  { time /usr/bin/time -f %M -o "$folder/most" "$@" <"$folder/input" >"$folder/$name.printed"; } 2>"$folder/took"
  awk '{ printf "%.3f ", $1 + $2 }' "$folder/took" >>"$folder/$name.runs"
  cat "$folder/most" >>"$folder/$name.runs"
}

# Runs both commands, C's first, three times in turns, and looks whether they print the same.
run_beside() {
  rm -f "$folder"/*.runs
  for _ in 1 2 3; do
    run_once C "${yardstick[@]}"
    [ "${#subject[@]}" -gt 0 ] || continue
    run_once exabgpd "${subject[@]}"
    cmp "$folder/C.printed" "$folder/exabgpd.printed"
  done
}

# Processor seconds and kilobytes of that of a name's three runs which has the median of the processor seconds.
median() { sort -n "$folder/$1.runs" | sed -n 2p; }

# The rows of both programs for so many things, behind the first cells; what `grown` needs is kept by a key.
rows() {
  local front=$1 key=$2 count=$3 name
  for name in C ${subject:+exabgpd}; do
    echo "$(median "$name") $(cat "$folder/$name.none") $(median C)" |
      awk -v front="$front" -v name="$name" -v n="$count" '{
        printf "| %s%s | %.3f | %.1f | %d | %s |\n", front, name, $1, $2 / 1024, ($2 - $3) * 1024 / n,
          (name != "C" && $4 > 0) ? sprintf("%.2f", $1 / $4) : "" }'
    echo "$key$name $count $(median "$name")" >>"$folder/costs"
  done
}

# Keeps the memory of both for an input with nothing in it, beyond which memory is counted.
keep_none() {
  run_beside
  for name in C ${subject:+exabgpd}; do
    median "$name" | cut -d' ' -f2 >"$folder/$name.none"
  done
}

# How the processor time of each row grows, for one thing, from each size to the next.
grown() {
  echo
  awk '{ cost = $3 / $2
    if (before[$1] > 0) printf "%s: from %d to %d, each costs %.2f times as much\n", $1, size[$1], $2, cost / before[$1]
    before[$1] = cost; size[$1] = $2 }' "$folder/costs"
  [ -x "$program" ] || echo "exabgpd isn't built: $program"
}
