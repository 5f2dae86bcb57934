#!/bin/sh
# announce.sh PREFIX ..: announces these prefixes with the session's own address as next hop.

# Says a line and reads its reply; says it again where memory was wanting. Fails where the line was refused, and ends
# where the daemon has.
say() {
  while :; do
    printf '%s\n' "$1"
    IFS= read -r reply || exit 0
    case $reply in
      done) return 0 ;;
      'error memory') sleep 1 ;;
      *)
        echo "announce.sh: $reply: $1" >&2
        return 1
        ;;
    esac
  done
}

for prefix in "$@"; do
  say "announce route $prefix next-hop self"
done

# A helper that ends is started again, so this one waits until the daemon ends.
while read -r reply; do :; done
