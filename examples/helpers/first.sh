#!/bin/sh
echo 'announce route 198.51.100.0/24 next-hop self'
read -r reply && echo "the daemon says: $reply" >&2
while read -r reply; do :; done
