"""A client of `scp serve`: connects, sends messages in frames, reads frames, and checks what comes.

`Link` sends and reads one message after another. `Peer` writes and reads at the same time, as much as is wanted or as
badly."""
import collections
import contextlib
import select
import socket
import struct
import time

import tcap


class Failed(Exception):
    """What happened is not what is expected."""


def expect(is_so, otherwise):
    if not is_so:
        raise Failed(otherwise)


def frame(message):
    """A message after its length in four octets."""
    return len(message).to_bytes(4, "big") + message


def frames(messages):
    return b"".join(map(frame, messages))


def next_frame(incoming):
    """The head of the next frame of a file, and its message; both are empty at the end."""
    head = incoming.read(4)
    return head, incoming.read(int.from_bytes(head, "big"))


def frames_from(connection):
    """The frames that come on a socket, each with its head, until it ends."""
    with contextlib.suppress(OSError), connection.makefile("rb") as incoming:
        while len((found := next_frame(incoming))[0]) == 4:
            if len(found[1]) == int.from_bytes(found[0], "big"):
                yield b"".join(found)


class Connection:
    """A connection to a run. With `is_small` it holds little that isn't read."""

    def __init__(self, address, seconds=10, is_small=False):
        self.socket = socket.socket(socket.AF_INET, socket.SOCK_STREAM)
        self.socket.settimeout(seconds)
        if is_small:
            # (the system measures the buffer of the other side by the length of its segments, too)
            self.socket.setsockopt(socket.SOL_SOCKET, socket.SO_RCVBUF, 4096)
            self.socket.setsockopt(socket.SOL_SOCKET, socket.SO_SNDBUF, 4096)
            self.socket.setsockopt(socket.IPPROTO_TCP, socket.TCP_MAXSEG, 536)
        self.socket.connect(address)
        self.socket.setsockopt(socket.IPPROTO_TCP, socket.TCP_NODELAY, 1)

    def __enter__(self):
        return self

    def __exit__(self, *_):
        self.close()

    def end_sending(self):
        """Closes its sending side."""
        self.socket.shutdown(socket.SHUT_WR)

    def close(self, is_reset=False):
        if is_reset:
            self.socket.setsockopt(socket.SOL_SOCKET, socket.SO_LINGER, struct.pack("ii", 1, 0))
        self.socket.close()


class Link(Connection):
    """One that sends and reads message by message. A message that doesn't come in time is a TimeoutError."""

    def __init__(self, address, seconds=10):
        super().__init__(address, seconds)
        self.incoming = self.socket.makefile("rb", 1 << 16)

    def send(self, *messages):
        self.socket.sendall(frames(messages))

    def receive(self):
        """The next message; nothing at the end."""
        return next_frame(self.incoming)[1]

    def close(self, is_reset=False):
        self.incoming.close()
        super().close(is_reset)


class Peer(Connection):
    """One that writes and reads at the same time. All limits of time are `patience` times as long."""

    def __init__(self, address, is_small=False, patience=1):
        super().__init__(address, 10 * patience, is_small)
        self.socket.setblocking(False)
        self.patience = patience
        self.came, self.rest, self.unwritten, self.has_ended = [], bytearray(), 0, False
        self.longest_pause = 0

    def read(self, most):
        """Reads at most so many octets, and gives their number; whole messages go to those that came."""
        try:
            octets = self.socket.recv(most)
        except BlockingIOError:
            return 0
        except OSError:
            octets = b""
        self.has_ended = not octets
        self.rest += octets
        at = 0
        while (end := at + 4 + int.from_bytes(self.rest[at:at + 4], "big")) <= len(self.rest):
            self.came.append(bytes(self.rest[at + 4:end]))
            at = end
        del self.rest[:at]
        return len(octets)

    def play(self, octets=b"", wanted=0, idle=10, rate=None):
        """Writes these octets, and meanwhile reads until so many messages have come, the link has ended, or nothing was
        written or read for a time; with a rate at most so many octets a second. Gives the messages that came."""
        self.came, view, count = [], memoryview(octets), 0
        began = moved = heard = time.monotonic()
        self.longest_pause = 0
        while (view or len(self.came) < wanted) and not self.has_ended:
            now = time.monotonic()
            if now - moved > idle * self.patience:
                break
            most = 65536 if rate is None else min(65536, int((now - began) * rate) - count)
            looking = select.poll()
            looking.register(self.socket, (select.POLLOUT if view else 0) | (select.POLLIN if most > 0 else 0))
            ready = dict(looking.poll(20)).get(self.socket.fileno(), 0)
            with contextlib.suppress(OSError):
                if ready & select.POLLOUT:
                    view, moved = view[self.socket.send(view):], now
            if ready & ~select.POLLOUT and most > 0:
                count, moved = count + self.read(most), now
                self.longest_pause, heard = max(self.longest_pause, now - heard), now
        self.unwritten = len(view)
        return self.came

    def ends(self, seconds):
        """Whether the program ends the link within this time; what comes before is passed over."""
        last = time.monotonic() + seconds * self.patience
        while not self.has_ended and time.monotonic() < last:
            self.play(wanted=1, idle=0.02)
        return self.has_ended

    def ends_silently(self, seconds):
        """Whether the program ends the link within this time, and sends nothing before."""
        came = self.play(wanted=1, idle=seconds)
        return self.has_ended and not came and not self.rest

    def call(self, identifier, most=5):
        """Makes a call, which has to be answered within this time; gives how many seconds it took."""
        began = time.monotonic()
        came = self.play(frame(tcap.call(identifier)), 1, most)
        expect(came == [tcap.connected(identifier)],
               f"a call got '{b''.join(came).hex()}'" + ", and an end" * self.has_ended)
        return time.monotonic() - began

    def calls(self, count):
        """Makes so many calls, 64 at a time."""
        for first in range(0, count, 64):
            self.answers(tcap.call, tcap.connected, range(first, min(count, first + 64)))

    def answers(self, message, answer, numbers, rate=None):
        """Writes a message for each number at once. Each gets its answer, once."""
        self.get(map(answer, numbers), frames(map(message, numbers)), rate)

    def get(self, answers, octets=b"", rate=None):
        """Writes these octets. These answers come, in any order, and no others."""
        wanted = collections.Counter(answers)
        came = self.play(octets, wanted.total(), rate=rate)
        strange = collections.Counter(came) - wanted
        aborts = sum(message[0] == tcap.ABORT for message in strange.elements())
        missing = (wanted - collections.Counter(came)).total()
        expect(not missing and not strange, f"{missing} answers of {wanted.total()} are missing, {aborts} Aborts and "
               f"{strange.total() - aborts} others came" + ", and an end" * self.has_ended)
