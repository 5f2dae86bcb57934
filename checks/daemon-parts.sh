# What the checks of the running daemon share; they read this file once `program` is the daemon's program.
# shellcheck shell=bash
# shellcheck disable=SC2154,SC2034

scratch=$(mktemp -d)
cd "$scratch" || exit 1
passed=0
failed=0
daemon=
pids=()

# The processes that a process has started, and that are still there.
children() {
  cat "/proc/$1/task"/*/children 2>/dev/null
}

# Kills a process that the check has started, and what that has started in turn.
end() {
  # Word by word: there may be many.
  # shellcheck disable=SC2046
  { kill -9 "$1" $(children "$1"); wait "$1"; } 2>/dev/null
}

# Kills what the check has started, each by its number.
end_all() {
  local pid
  for pid in "${pids[@]}"; do
    end "$pid"
  done
  pids=()
}

trap 'end_all; rm -rf "$scratch"' EXIT

# The child of the daemon whose words hold a text.
helper() {
  local pid
  for pid in $(children "$daemon"); do
    if tr '\0' ' ' 2>/dev/null <"/proc/$pid/cmdline" | grep -qF -- "$1"; then echo "$pid"; fi
  done
}

# Whether such a child is there.
has_helper() {
  [ -n "$(helper "$1")" ]
}

# Runs a command until it succeeds, for at most so many seconds.
within() {
  local limit=$((SECONDS + $1))
  shift
  until "$@"; do
    [ "$SECONDS" -lt "$limit" ] || return 1
    sleep 0.05
  done
}

# Counts whether a command succeeds within so many seconds. Where it doesn't, says what was looked for, and what the logs
# told last.
sees() {
  local what=$1
  shift
  if within "$@"; then
    passed=$((passed + 1))
  else
    failed=$((failed + 1))
    echo "${0##*/}: not seen within $1 s: $what"
    tail -n 8 ./*.log daemon.err
  fi
}

# Tells the counts, and fails where one failed.
ends() {
  echo "${0##*/}: $passed passed, $failed failed"
  [ "$failed" = 0 ]
}

# Whether a file has a whole line.
has() {
  grep -qxF -- "$2" "$1" 2>/dev/null
}

# Whether a file has so many lines that end with a text.
has_many() {
  [ "$(grep -c -- "$3\$" "$1" 2>/dev/null)" = "$2" ]
}

# Whether a process is over.
is_over() {
  ! kill -0 "$1" 2>/dev/null
}

# Starts the daemon with a configuration.
start_daemon() {
  "$program" run "$1" >daemon.out 2>daemon.err &
  daemon=$!
  pids+=("$daemon")
}

# Whether the daemon has ended, and with status 0.
ended_well() {
  is_over "$daemon" && wait "$daemon"
}

# A helper that says what is written into the pipe `lines`, and keeps the answers.
mkfifo lines
cat >teller.sh <<'END'
exec 3<>lines
while read -r line <&3; do
  echo "$line"
  read -r answer
  echo "$answer: $line" >>answers
done
END

# Has that helper say a line.
tell() {
  echo "$1" >lines
}

# A helper that announces so many routes, asks for no answers, and stays.
cat >announcer.py <<'END'
import sys

print("disable-ack")
for number in range(int(sys.argv[1])):
    print(f"announce route 10.{number >> 16}.{number >> 8 & 255}.{number & 255}/32 next-hop 192.0.2.1")
sys.stdout.flush()
sys.stdin.read()
END

# A process of a configuration: its name, and its `run`.
process() {
  echo "process $1 { run $2; }"
}

teller=$(process teller "/bin/sh teller.sh")

# The process that announces so many routes.
announcer() {
  process many "/usr/bin/env python3 announcer.py $1"
}

# A neighbour by its address, its port, the processes that it hears and further statements.
neighbor() {
  echo "neighbor $1 { local-address 127.0.0.9; local-as 65001; peer-as 65002; connect $2;"
  echo "api { processes [ $3 ]; } ${4:-} }"
}
