#!/usr/bin/env python3
"""announce.py FILE: announces the routes of a file, and follows it: a route that is new in it is announced, and one that
is gone is withdrawn. A line of the file is a route as it stands behind `announce route`; blank lines and those that
begin with `#` are passed over."""

import collections
import os
import select
import sys

# How many lines may wait for their replies. The daemon holds 1,024 replies, so neither side ever waits for the other.
AHEAD = 1000


class Daemon:
    """The daemon that started this program. It answers each line once, in the order of the lines."""

    def __init__(self):
        self.unanswered = collections.deque()
        self.again = []

    def say(self, line):
        """Says a line, without waiting for its reply."""
        if len(self.unanswered) == AHEAD:
            self.hear()
        print(line)
        self.unanswered.append(line)

    def hear(self):
        """Reads the next reply. A line for which memory was wanting is kept, and so said again later."""
        sys.stdout.flush()
        reply = sys.stdin.readline()
        if not reply:
            sys.exit()
        line = self.unanswered.popleft()
        if reply == "error memory\n":
            self.again.append(line)
        elif reply != "done\n":
            print(f"announce.py: {reply.strip()}: {line}", file=sys.stderr)

    def settle(self):
        """Reads all replies that are to come, and says lines again until memory was there for each."""
        while self.unanswered or self.again:
            while self.unanswered:
                self.hear()
            if self.again:
                self.wait(1)
            lines, self.again = self.again, []
            for line in lines:
                self.say(line)

    def wait(self, seconds):
        """Waits for so long, and ends where the daemon does. Every reply was read before."""
        if select.select([sys.stdin], [], [], seconds)[0]:
            sys.exit()


def key_of(route):
    """What tells a route from others: its prefix and its path identifier."""
    words = route.split()
    at = words.index("path-information") + 1 if "path-information" in words else len(words)
    return words[0], " ".join(words[at : at + 1])


def routes_of(path):
    """The routes of a file, by their keys."""
    with open(path, encoding="utf-8") as file:
        lines = [line.strip() for line in file]
    return {key_of(line): line for line in lines if line and not line.startswith("#")}


def follow(daemon, path):
    """Keeps what is announced to what the file says."""
    changed, routes = None, {}
    while True:
        if os.stat(path).st_mtime_ns != changed:
            changed, old, routes = os.stat(path).st_mtime_ns, routes, routes_of(path)
            for key in old.keys() - routes.keys():
                daemon.say(f"withdraw route {old[key]}")
            for key, route in routes.items():
                if old.get(key) != route:
                    daemon.say(f"announce route {route}")
            daemon.settle()
        daemon.wait(1)


if len(sys.argv) != 2:
    sys.exit("usage: announce.py FILE")
follow(Daemon(), sys.argv[1])
