"""Lines of pipes, serial lines and the network as they arrive, on one axis of time that begins with the first look."""
import errno
import os
import select
import socket
import stat
import time

import logs

PIECE = 65536
MOST_CYCLES = 2 ** 20
TICK = ("pos0", b"G tick", True)      # a line that each plant takes and that brings nothing: a plain form on a wire of another kind is skipped


def network(kind, place):
    """A socket for udp:PORT, udp:ADDRESS:PORT (a group's address joins it) or tcp:HOST:PORT."""
    host, _, port = place.rpartition(":")
    if not port.isdigit() or not 0 < int(port) < 65536 or (kind == "tcp" and not host):
        raise logs.Refused("%s:%s: wanted is udp:PORT, udp:ADDRESS:PORT or tcp:HOST:PORT" % (kind, place))
    if kind == "tcp":
        return socket.create_connection((host, int(port)), 10)
    one = socket.socket(socket.AF_INET, socket.SOCK_DGRAM)
    one.setsockopt(socket.SOL_SOCKET, socket.SO_REUSEADDR, 1)
    one.bind(("" if host.split(".")[0] in map(str, range(224, 240)) else host, int(port)))
    if host.split(".")[0] in map(str, range(224, 240)):
        one.setsockopt(socket.IPPROTO_IP, socket.IP_ADD_MEMBERSHIP, socket.inet_aton(host) + socket.inet_aton("0.0.0.0"))
    return one


class Source:
    """What is followed under one name, for one wire or for several."""

    def __init__(self, name, wires):
        self.name, self.wires, self.rest, self.datagrams = name, wires, b"", name.startswith("udp:")
        try:
            if name.startswith(("udp:", "tcp:")):
                self.socket = network(name[:3], name[4:])
                self.end = self.socket.fileno()
            else:
                self.end = os.open(name, os.O_RDONLY | os.O_NONBLOCK | os.O_NOCTTY)
                if stat.S_ISDIR(os.fstat(self.end).st_mode):
                    raise IsADirectoryError(errno.EISDIR, os.strerror(errno.EISDIR))
        except OSError as error:
            raise logs.Refused("%s: %s" % (name, error.strerror or error)) from error

    def heard(self):
        """The whole lines that have come, and whether the source is over."""
        try:
            piece = os.read(self.end, PIECE)
        except BlockingIOError:
            return [], False
        except OSError:
            piece = b""
        if self.datagrams:
            if piece[:6] in (b"UdPbC\0", b"NkPgN\0"):
                piece = piece[6:]
            return piece.splitlines(), False
        whole, newline, rest = (self.rest + piece).rpartition(b"\n")
        if not piece:
            return ([self.rest] if self.rest else []), True
        if len(rest) > logs.LONGEST_LINE:
            whole, newline, rest = whole + newline + rest, b"\n", b""
        self.rest = rest
        return (whole.split(b"\n") if newline else []), False


class Follower:
    """Follows the sources of some logs, each with timing ARRIVAL, and gives each line as time in ms, wire, rest and whether it is sound; with a tick where a whole
    cycle brought none, so that the cycles before it are over for who reads the record."""

    def __init__(self, found, length, clock=time.monotonic):
        self.length, self.clock = length, clock
        names = {}
        for log in found:
            names.setdefault(log.name, []).append(log)
        self.sources = [Source(name, wires) for name, wires in names.items()]
        self.begin = clock()
        self.ticks = self.last = 0
        self.stopped = False

    def now(self):
        return int((self.clock() - self.begin) * 1000)

    def lines(self):
        """All lines, until each source is over, the cycles are, or it is stopped. An empty list is given where nothing came for a while."""
        while self.sources and not self.stopped:
            wait = max(0, self.last + self.length - self.now()) / 1000
            try:
                ready, _, _ = select.select([source.end for source in self.sources], [], [], min(wait, 1))
            except InterruptedError:
                continue
            now = self.now()
            if now // self.length >= MOST_CYCLES:
                return
            found = [line for source in list(self.sources) if source.end in ready for line in self.of_source(source, now)]
            if not found and now >= self.last + self.length and self.sources:
                self.ticks += 1
                found = [(now, *TICK)]
            if found:
                self.last = now
                yield found

    def of_source(self, source, now):
        lines, over = source.heard()
        if over:
            self.sources.remove(source)
        found = []
        for line in lines:
            for log in source.wires:
                log.line += 1
                log.now = now * 1000
                found += [(now, log.wire, *rest) for _, *rest in log.of_line(line.replace(b"\0", b"\x01"))]
        return found
