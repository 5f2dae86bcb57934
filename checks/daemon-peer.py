"""A BGP neighbour that only hears: it accepts sessions on one address, and tells what stands in its table.

It speaks just enough of RFC 4271 (OPEN, KEEPALIVE, NOTIFICATION, UPDATE), of RFC 4760 (IPv6 routes), of RFC 6793 (AS
numbers of four bytes), of RFC 7911 (path identifiers) and of RFC 2918 (asking for all routes again). Its lines on
standard output, each written at once:

    listening PORT        the port is open; for port 0 one that was free
    open AS HOLD CAPS     the daemon's OPEN: its AS, its hold time, its capabilities' codes
    up                    both KEEPALIVEs were exchanged
    eor FAMILY            an End-of-RIB marker (RFC 4724, section 2)
    held COUNT            so many routes stand, behind what came at one time
    told CODE/SUB         the daemon sent this NOTIFICATION
    down                  the session's end
    beat MS               so many milliseconds lay between two of the daemon's KEEPALIVEs; with --beats alone
    + PREFIX, - PREFIX    a route came, or went; with --routes alone

With --many it holds any number of sessions beside each other, and each line but the first begins with the address that
was connected to.
"""

import argparse
import ipaddress
import select
import signal
import socket
import struct
import sys
import threading
import time

OPEN, UPDATE, NOTIFICATION, KEEPALIVE, REFRESH = 1, 2, 3, 4, 5
HEADER = 19
MULTIPROTOCOL, ROUTE_REFRESH, EXTENDED_MESSAGE, FOUR_BYTE_AS, ADD_PATH = 1, 2, 6, 65, 69
MP_REACH, MP_UNREACH = 14, 15
EXTENDED_LENGTH = 0x10
IPV4, IPV6 = 1, 2
BITS = {IPV4: 32, IPV6: 128}
QUIET = 0.1
PIECE = 65536


class Ended(Exception):
    """The session is over."""


def say(text):
    sys.stdout.write(f"{text}\n")
    sys.stdout.flush()


def message(kind, body=b""):
    return b"\xff" * 16 + struct.pack("!HB", HEADER + len(body), kind) + body


def capability(code, value):
    return bytes([code, len(value)]) + value


def own_open(options):
    """The OPEN of section 4.2 of RFC 4271, with one parameter of capabilities (RFC 5492)."""
    families = [family for family in (IPV4, IPV6) if family in options.families]
    offered = b"".join(capability(MULTIPROTOCOL, struct.pack("!HBB", family, 0, 1)) for family in families)
    offered += capability(ROUTE_REFRESH, b"")
    offered += capability(FOUR_BYTE_AS, struct.pack("!I", options.asn))
    if options.extended:
        offered += capability(EXTENDED_MESSAGE, b"")
    if options.paths:
        receives = b"".join(struct.pack("!HBB", family, 1, 1) for family in families)
        offered += capability(ADD_PATH, receives)
    two_bytes = options.asn if options.asn < 65536 else 23456
    router = ipaddress.IPv4Address(options.router).packed
    head = struct.pack("!BHH", 4, two_bytes, options.hold) + router
    return message(OPEN, head + bytes([2 + len(offered), 2, len(offered)]) + offered)


def capabilities(parameters):
    """Each capability of an OPEN's optional parameters, its code with its value."""
    at = 0
    while at < len(parameters):
        kind, length = parameters[at], parameters[at + 1]
        inner = parameters[at + 2 : at + 2 + length]
        at += 2 + length
        while kind == 2 and inner:
            yield inner[0], inner[2 : 2 + inner[1]]
            inner = inner[2 + inner[1] :]


def keys(family, paths, data):
    """The keys of NLRI (RFC 4271, section 4.3), each the bits and bytes of a prefix, and its path identifier."""
    at = 0
    while at < len(data):
        path = 0
        if paths:
            (path,) = struct.unpack_from("!I", data, at)
            at += 4
        bits = data[at]
        if bits > BITS[family]:
            raise ValueError(f"a prefix of {bits} bits")
        size = (bits + 7) // 8
        yield family, bits, bytes(data[at + 1 : at + 1 + size]), path
        at += 1 + size


def attributes(data):
    """The attributes of an UPDATE, by their codes."""
    found, at = {}, 0
    while at < len(data):
        flags, code = data[at], data[at + 1]
        if flags & EXTENDED_LENGTH:
            (length,) = struct.unpack_from("!H", data, at + 2)
            at += 4
        else:
            length = data[at + 2]
            at += 3
        if code in found:
            raise ValueError(f"attribute {code} twice")
        found[code] = bytes(data[at : at + length])
        at += length
    return found


class Session:
    """One session, from its connection to its end."""

    def __init__(self, stream, options):
        self.stream, self.options = stream, options
        self.name = f"{stream.getsockname()[0]} " if options.many else ""
        self.pending = bytearray()
        self.table = {}
        self.counted = None
        self.paths = False
        self.confirmed = False
        self.hold = options.hold
        self.sent = self.beat = time.monotonic()

    def say(self, text):
        say(f"{self.name}{text}")

    def send(self, data):
        self.stream.sendall(data)
        self.sent = time.monotonic()

    def run(self):
        self.send(own_open(self.options))
        try:
            while True:
                self.keep_alive()
                self.wait()
        except (Ended, OSError) as error:
            if not isinstance(error, Ended):
                self.say(f"lost {error}")
        self.say("down")

    def keep_alive(self):
        if self.confirmed and self.hold and time.monotonic() - self.sent > self.hold / 3:
            self.send(message(KEEPALIVE))

    def wait(self):
        """Reads what stands there, or tells how many routes stand where nothing came for a while."""
        if not select.select([self.stream], [], [], QUIET)[0]:
            self.tell_count()
            return
        data = self.stream.recv(PIECE)
        if not data:
            raise Ended
        self.pending += data
        self.take_all()

    def tell_count(self):
        if self.confirmed and len(self.table) != self.counted:
            self.counted = len(self.table)
            self.say(f"held {self.counted}")

    def take_all(self):
        at = 0
        while len(self.pending) - at >= HEADER:
            length, kind = struct.unpack_from("!HB", self.pending, at + 16)
            if self.pending[at : at + 16] != b"\xff" * 16:
                raise ValueError("not synchronized")
            if len(self.pending) - at < length:
                break
            self.take(kind, bytes(self.pending[at + HEADER : at + length]))
            at += length
        del self.pending[:at]

    def take(self, kind, body):
        if kind == OPEN:
            self.take_open(body)
        elif kind == KEEPALIVE:
            self.take_keepalive()
        elif kind == UPDATE:
            self.take_update(body)
        elif kind == NOTIFICATION:
            self.tell_count()
            self.say(f"told {body[0]}/{body[1]}")
            raise Ended

    def take_open(self, body):
        _, two_bytes, hold = struct.unpack_from("!BHH", body)
        offered = dict(capabilities(body[10:]))
        asn = struct.unpack("!I", offered[FOUR_BYTE_AS])[0] if FOUR_BYTE_AS in offered else two_bytes
        self.hold = min(hold, self.options.hold)
        self.paths = self.options.paths and ADD_PATH in offered
        codes = ",".join(str(code) for code in sorted(offered))
        self.say(f"open {asn} {hold} {codes}")
        self.send(message(KEEPALIVE))

    def take_keepalive(self):
        now = time.monotonic()
        if not self.confirmed:
            self.confirmed = True
            self.say("up")
        elif self.options.beats:
            self.say(f"beat {round((now - self.beat) * 1000)}")
        self.beat = now

    def take_update(self, body):
        (gone,) = struct.unpack_from("!H", body)
        (size,) = struct.unpack_from("!H", body, 2 + gone)
        found = attributes(body[4 + gone : 4 + gone + size])
        self.withdraw(keys(IPV4, self.paths, body[2 : 2 + gone]))
        self.announce(keys(IPV4, self.paths, body[4 + gone + size :]), found)
        if len(body) == 4:
            self.say("eor ipv4")
        if MP_UNREACH in found:
            (family,) = struct.unpack_from("!H", found[MP_UNREACH])
            self.withdraw(keys(family, self.paths, found[MP_UNREACH][3:]))
            if len(found[MP_UNREACH]) == 3:
                self.say("eor ipv6" if family == IPV6 else "eor other")
        if MP_REACH in found:
            value = found[MP_REACH]
            (family,) = struct.unpack_from("!H", value)
            self.announce(keys(family, self.paths, value[5 + value[3] :]), found)

    def announce(self, prefixes, found):
        for key in prefixes:
            self.table[key] = found
            if self.options.routes:
                self.say(f"+ {printed(key)}")

    def withdraw(self, prefixes):
        for key in prefixes:
            self.table.pop(key, None)
            if self.options.routes:
                self.say(f"- {printed(key)}")


def printed(key):
    family, bits, data, path = key
    whole = data.ljust(BITS[family] // 8, b"\0")
    text = f"{ipaddress.ip_address(whole)}/{bits}"
    return f"{text} {path}" if path else text


def hear(stream, options):
    with stream:
        Session(stream, options).run()


def options_of(words):
    parser = argparse.ArgumentParser()
    parser.add_argument("port", type=int)
    parser.add_argument("--address", default="127.0.0.1")
    parser.add_argument("--asn", type=int, default=65002)
    parser.add_argument("--router", default="192.0.2.2")
    parser.add_argument("--hold", type=int, default=180)
    parser.add_argument("--families", type=int, nargs="*", default=[IPV4, IPV6])
    parser.add_argument("--paths", action="store_true", help="offer to receive path identifiers")
    parser.add_argument("--extended", action="store_true", help="offer messages of over 4,096 bytes")
    parser.add_argument("--many", action="store_true", help="hold many sessions at once")
    parser.add_argument("--routes", action="store_true", help="tell each route that comes and goes")
    parser.add_argument("--beats", action="store_true", help="tell the time between KEEPALIVEs")
    return parser.parse_args(words)


def main():
    options = options_of(sys.argv[1:])
    signal.signal(signal.SIGTERM, lambda *_: sys.exit(0))
    listener = socket.create_server((options.address, options.port), backlog=64)
    say(f"listening {listener.getsockname()[1]}")
    while True:
        stream, _ = listener.accept()
        if options.many:
            threading.Thread(target=hear, args=(stream, options), daemon=True).start()
        else:
            hear(stream, options)


main()
