"""The socket that a node connects to, the messages on it, and the loop that passes them between a node and a port of the system.

Used by ether_bridge and uplink_tun, which stand beside it. The node is the one that connects, once, at its first turn; so here it is
listened. A message is a length in two bytes, the highest first, which counts what follows, and the body. Both ways are alike.
"""
import argparse
import collections
import contextlib
import errno
import os
import select
import signal
import socket
import stat
import sys
import time

LONGEST_BODY = 65535  # what the length of a message can tell
LONGEST_TAKEN = 2048  # what a node takes of a frame; it cuts a longer one, so none is sent
PAUSE = 1.0  # seconds between two tries to open a port that isn't there
AT_ONCE = 64  # how many frames of a port are passed before the others are looked after
PIECE = 65536  # how many bytes of the stream are read at a time


def say(text):
    print(text, file=sys.stderr, flush=True)


class Ended(Exception):
    """The node ended its stream."""


class Stream:
    """A connected node: what came of a message in part, and what is due of the last one that was sent."""

    def __init__(self, connected):
        connected.setblocking(False)
        self.connected = connected
        self.came = bytearray()
        self.due = b""
        self.is_broken = False

    def read(self):
        """Reads once, and gives the bodies of the messages that are there whole."""
        try:
            piece = self.connected.recv(PIECE)
        except BlockingIOError:
            return []
        except OSError:
            raise Ended
        if not piece:
            raise Ended
        self.came += piece
        bodies, begin = [], 0
        while len(self.came) - begin >= 2:
            end = begin + 2 + int.from_bytes(self.came[begin : begin + 2], "big")
            if end > len(self.came):
                break
            bodies.append(bytes(self.came[begin + 2 : end]))
            begin = end
        del self.came[:begin]
        return bodies

    def send(self, body):
        """Sends a message, for which nothing may be due. What the stream doesn't take is due."""
        self.due = len(body).to_bytes(2, "big") + body
        self.flush()

    def flush(self):
        """Writes what is due, as much as the stream takes. Where the node doesn't read any more it is given up: the end of the stream
        comes to `read`, behind the messages that the node still sent."""
        try:
            while self.due and not self.is_broken:
                self.due = self.due[self.connected.send(self.due) :]
        except BlockingIOError:
            return
        except OSError:
            self.is_broken = True
        if self.is_broken:
            self.due = b""

    def has_hung_up(self):
        watch = select.poll()
        watch.register(self.connected, 0)
        return bool(watch.poll(0))


def listen(path):
    """Listens at a path. A socket that an earlier run left there is removed, one at which somebody listens is an error."""
    with socket.socket(socket.AF_UNIX, socket.SOCK_STREAM) as asking:
        asking.settimeout(PAUSE)
        try:
            if stat.S_ISSOCK(os.stat(path).st_mode):
                asking.connect(path)
                raise OSError(errno.EADDRINUSE, "somebody listens there")
        except FileNotFoundError:
            pass
        except ConnectionRefusedError:
            os.unlink(path)
    listening = socket.socket(socket.AF_UNIX, socket.SOCK_STREAM)
    listening.bind(path)
    listening.listen(8)
    listening.setblocking(False)
    return listening


def tell_ready():
    """Tells systemd, where it started this, that a node may be started now."""
    path = os.environ.get("NOTIFY_SOCKET")
    if path:
        with socket.socket(socket.AF_UNIX, socket.SOCK_DGRAM) as telling:
            telling.sendto(b"READY=1", "\0" + path[1:] if path.startswith("@") else path)


class Port:
    """A port of the system: an Ethernet port, or a TUN device."""

    name = "port"

    def __init__(self):
        self.counts = collections.Counter()

    def open(self):
        """Opens it, and gives what is to be watched. An OSError means that it isn't there."""
        raise NotImplementedError

    def close(self):
        raise NotImplementedError

    def take(self, watched):
        """Takes a frame that waits, and gives the body of the message that it makes: None where none waits, nothing where it is
        dropped. An OSError means that the port is gone."""
        raise NotImplementedError

    def give(self, body):
        """Puts the body of a message out, or drops it. That the port is gone is for `take` to find."""
        raise NotImplementedError

    def forget(self):
        """A node's stream has ended."""

    def drop(self, word):
        """Counts what is dropped, by a word for the reason."""
        self.counts[word] += 1
        return b""


class Bridge:
    """A port, the node at a path, and what passes between them."""

    def __init__(self, path, port, node):
        self.path, self.port, self.node = path, port, node
        self.stream = None
        self.watched = []
        self.next_try = 0.0
        self.complaint = None
        self.taken = self.given = 0

    def counts(self):
        dropped = "".join(f", {word} {count}" for word, count in sorted(self.port.counts.items()))
        return f"to the {self.node} {self.taken}, from it {self.given}, dropped {sum(self.port.counts.values())}{dropped}"

    def open_port(self):
        try:
            self.watched = self.port.open()
        except OSError as error:
            self.lose_port(error)
            return
        self.complaint = None
        say(f"{self.port.name} is open")

    def lose_port(self, error):
        self.port.close()
        self.watched = []
        self.next_try = time.monotonic() + PAUSE
        if self.complaint != error.strerror:
            self.complaint = error.strerror
            say(f"{self.port.name}: {error.strerror}; trying again every {PAUSE:g} s")

    def lose_node(self):
        say(f"the {self.node} has gone")
        self.stream.connected.close()
        self.stream = None
        self.port.forget()

    def from_node(self):
        try:
            bodies = self.stream.read()
        except Ended:
            self.lose_node()
            return
        for body in bodies:
            self.given += 1
            if self.watched:
                self.port.give(body)
            else:
                self.port.drop("closed")

    def from_port(self, watched):
        for _ in range(AT_ONCE):
            if self.stream is not None and self.stream.due:
                return
            try:
                body = self.port.take(watched)
            except OSError as error:
                self.lose_port(error)
                return
            if body is None:
                return
            if not body:
                continue
            if self.stream is None or self.stream.is_broken:
                self.port.drop("nobody")
                continue
            self.taken += 1
            self.stream.send(body)

    def from_listener(self, listening):
        """One node at a time: a second one is refused. One that comes while the end of the first isn't read yet waits so long."""
        if self.stream is not None and self.stream.has_hung_up():
            return
        try:
            connected, _ = listening.accept()
        except OSError:
            return
        if self.stream is not None:
            say(f"a second {self.node} came and was refused")
            connected.close()
            return
        self.stream = Stream(connected)
        say(f"the {self.node} has come")

    def turn(self, listening, signals):
        """Waits until something is there, and passes it on. Gives the signals that came."""
        watch = select.poll()
        watch.register(signals, select.POLLIN)
        watch.register(listening, select.POLLIN)
        is_full = self.stream is not None and bool(self.stream.due)
        if self.stream is not None:
            watch.register(self.stream.connected, select.POLLIN | (select.POLLOUT if is_full else 0))
        # While a rest is due the port's frames wait in the system's queue.
        for it in [] if is_full else self.watched:
            watch.register(it, select.POLLIN)
        if self.watched:
            ready = dict(watch.poll())
        else:
            ready = dict(watch.poll(max(0, 1000 * (self.next_try - time.monotonic()))))
            if time.monotonic() >= self.next_try:
                self.open_port()
        if self.stream is not None and self.stream.connected.fileno() in ready:
            self.stream.flush()
            self.from_node()
        if listening.fileno() in ready:
            self.from_listener(listening)
        for it in list(self.watched):
            if self.watched and it in ready:
                self.from_port(it)
        return signals.recv(64) if signals.fileno() in ready else b""

    def run(self):
        """Runs until SIGTERM or SIGINT. SIGUSR1 has the counts written."""
        signals, woken = socket.socketpair()
        woken.setblocking(False)
        signal.set_wakeup_fd(woken.fileno(), warn_on_full_buffer=False)
        for it in (signal.SIGTERM, signal.SIGINT, signal.SIGUSR1):
            signal.signal(it, lambda *_: None)
        self.open_port()
        try:
            listening = listen(self.path)
        except OSError as error:
            say(f"{self.path}: {error.strerror or error}")
            self.port.close()
            return 1
        say(f"the {self.node} may connect to {self.path}")
        tell_ready()
        try:
            while True:
                came = self.turn(listening, signals)
                if signal.SIGUSR1 in came:
                    say(self.counts())
                if signal.SIGTERM in came or signal.SIGINT in came:
                    return 0
        finally:
            with contextlib.suppress(FileNotFoundError):
                os.unlink(self.path)
            self.port.close()
            say(self.counts())


def words_of(text):
    """The parser of a script's words, with its header as the help."""
    return argparse.ArgumentParser(description=text, formatter_class=argparse.RawDescriptionHelpFormatter, allow_abbrev=False)
