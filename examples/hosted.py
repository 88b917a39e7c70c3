"""Servers of the mode `host` as processes, with connections to them: what the checks of `examples/hosts` share."""
import contextlib
import os
import queue
import signal
import socket
import subprocess
import threading
import time

SECONDS = 120


def request(*words):
    return b"*%d\r\n" % len(words) + b"".join(b"$%d\r\n%s\r\n" % (len(it), it) for it in map(str.encode, words))


def added(key, at):
    return request("TS.ADD", key, str(at), "1")


PING, PONG = request("PING"), b"+PONG\r\n"
QUIT, OK = request("QUIT"), b"+OK\r\n"


def free_address():
    with socket.socket() as free:
        free.bind(("127.0.0.1", 0))
        return "127.0.0.1:%d" % free.getsockname()[1]


class Host:
    """The server at an address, with these words after it, within the bounds of a shell's `ulimit`."""

    def __init__(self, program, address, words, bounds):
        self.address = address
        bounded = ["sh", "-c", 'ulimit %s && exec "$0" "$@"' % bounds] if bounds else []
        self.process = subprocess.Popen([*bounded, program, "host", address, *words], stdin=subprocess.DEVNULL,
                                        stdout=subprocess.PIPE, stderr=subprocess.PIPE)
        # A check that waits for ever fails after a while, since then the server is gone.
        self.end = threading.Timer(SECONDS, self.process.kill)
        self.end.start()
        self.is_ready = self.process.stdout.readline().decode() == "ready %s\n" % address
        self.told_lines, self.reader = queue.Queue(), None

    def read_lines(self):
        for line in self.process.stdout:
            self.told_lines.put(line.decode().rstrip("\n"))
        self.told_lines.put("")

    def reads(self):
        """Reads its lines from now on, so that it never waits for a reader."""
        self.reader = threading.Thread(target=self.read_lines, daemon=True)
        self.reader.start()

    def line(self):
        return self.told_lines.get(timeout=SECONDS)

    def lines(self, count):
        return sorted(self.line() for _ in range(count))

    def has_line(self):
        return not self.told_lines.empty()

    def connect(self):
        host, port = self.address.split(":")
        link = socket.create_connection((host, int(port)), timeout=SECONDS)
        link.setsockopt(socket.IPPROTO_TCP, socket.TCP_NODELAY, 1)
        return link

    def told(self, *requests):
        """The replies to these requests over a connection of their own."""
        with self.connect() as link:
            link.sendall(b"".join(requests) + QUIT)
            return rest_of(link)[: -len(OK)]

    def descriptors(self):
        return len(os.listdir("/proc/%d/fd" % self.process.pid))

    def stop(self, how=signal.SIGTERM):
        """Ends it by a signal: its status, and what it wrote to standard error."""
        self.process.send_signal(how)
        return self.ended()

    def ended(self):
        status = self.process.wait(SECONDS)
        return status, self.process.stderr.read()

    def close(self):
        self.end.cancel()
        if self.process.poll() is None:
            self.process.kill()
            self.process.wait()
        if self.reader:
            self.reader.join(SECONDS)
        self.process.stdout.close()
        self.process.stderr.close()


@contextlib.contextmanager
def hosted(program, *words, address=None, bounds=None, reads=True):
    """A server that is ready: at this address as soon as nobody else has it, or else at a free one."""
    end = time.monotonic() + SECONDS
    while True:
        host = Host(program, address or free_address(), words, bounds)
        try:
            if host.is_ready or host.process.wait(SECONDS) != 7 or time.monotonic() > end:
                assert host.is_ready, "it is not ready: %r" % (host.ended(),)
                if reads:
                    host.reads()
                yield host
                return
        finally:
            host.close()
        time.sleep(0.05)


def rest_of(link):
    return b"".join(iter(lambda: link.recv(1 << 16), b""))


def exactly(link, length):
    """The next bytes of a connection, as many as this unless it ends before."""
    pieces = []
    while length > 0 and (piece := link.recv(min(length, 1 << 16))):
        pieces.append(piece)
        length -= len(piece)
    return b"".join(pieces)


def asked(link, requests, reply):
    link.sendall(requests)
    return exactly(link, len(reply)) == reply


def times_of(replies):
    return [int(it[1:]) for it in replies.split(b"\r\n") if it.startswith(b":")]


def ends(*lines):
    return sorted("link %d executed %d %s" % it for it in lines)
