#!/bin/sh
# control.sh PIPE: passes the lines that are written to a named pipe on to the daemon, and adds each reply to the file
# PIPE.replies. `echo reload >PIPE` and `echo shutdown >PIPE` are then how an operator speaks to the daemon.
pipe=${1:?"usage: control.sh PIPE"}
[ -p "$pipe" ] || mkfifo -m 600 "$pipe" || exit 1

# The replies come on standard input, which a command in the background doesn't have by itself. Their reader ends once
# the daemon closes it.
exec 3<&0
cat <&3 >>"$pipe.replies" &

# Opened for both ways the pipe has no end: it stays open however many write to it one after another.
exec cat <>"$pipe" 3<&-
