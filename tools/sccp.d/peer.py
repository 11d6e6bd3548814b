"""A transfer point that sends to a node what it likes: the rows, cut connections, messages that were changed at random."""
import contextlib
import random
import socket
import threading
import time

import client
import tcap
import wire

# A call, and the End with Connect that answers it.
BEGIN, END = tcap.call(42), tcap.connected(42)
NODE, COMMON, EXCHANGE = wire.address(201, 241), wire.address(200, 241), wire.address(100, 12)
TITLE = bytes.fromhex("5364000C001204947112325476")
FIRST = bytes.fromhex("1004C101020300")
SECOND = bytes.fromhex("10044001020300")
TEST = bytes.fromhex("03F1C90000")
PING = wire.ipa(wire.CCM, b"\0")


def segments():
    """The Begin in two XUDT."""
    return [wire.xudt(COMMON, EXCHANGE, BEGIN[:24], 0x81, FIRST), wire.xudt(COMMON, EXCHANGE, BEGIN[24:], 0x81, SECOND)]


def begin(number, of=0xE0):
    """A message with a Begin, under an identifier that has these numbers, as the exchange sends it by the common address."""
    own = bytes([of]) + number.to_bytes(3, "big")
    return wire.ipa(wire.SCCP, wire.udt(COMMON, EXCHANGE, tcap.call(own)))


class Peer(client.Connection):
    """A connection to a node, as a transfer point opens it."""

    def __init__(self, port, seconds=5.0):
        super().__init__(("127.0.0.1", port), seconds)
        self.got = b""

    def send(self, *octets):
        self.socket.sendall(b"".join(octets))

    def take(self, count):
        """The next octets that come; fewer at the end, or if no more come in time."""
        try:
            while len(self.got) < count:
                more = self.socket.recv(65536)
                if not more:
                    break
                self.got += more
        except OSError:
            pass
        taken, self.got = self.got[:count], self.got[count:]
        return taken

    def message(self):
        """The next message of IPA, with its head."""
        head = self.take(3)
        return head + self.take(int.from_bytes(head[:2], "big")) if len(head) == 3 else head

    def name(self, unit):
        """Goes through the handshake; whether the node takes the unit."""
        is_asked = self.message() == wire.ipa(wire.CCM, b"\4\1\1")
        self.send(wire.ipa(wire.CCM, wire.identity(unit)), wire.ipa(wire.CCM, bytes([wire.ID_ACK])))
        return is_asked and self.message() == wire.ipa(wire.CCM, bytes([wire.ID_ACK]))

    def answers(self, numbers):
        """Whether the next messages are the answers to these Begins, in any order, each once."""
        left = {wire.ipa(wire.SCCP, wire.udt(EXCHANGE, NODE, tcap.connected(bytes([0xE0]) + number.to_bytes(3, "big"))))
                for number in numbers}
        while left:
            message = self.message()
            if message not in left:
                return False
            left.remove(message)
        return True


class Crowd:
    """Connections that send as fast as the node reads: Begins if they have a unit, and else PINGs. The answers to all Begins
    come by the second one."""

    def __init__(self, port, units):
        self.texts = [b"".join(begin(number, 0xE0 + at) for number in range(2000)) if unit else PING * 30000
                      for at, unit in enumerate(units)]
        self.units, self.peers, self.got = units, [Peer(port) for _ in units], [bytearray() for _ in units]
        self.refused = [None] * len(units)
        for made, unit in zip(self.peers, units):
            if unit:
                client.expect(made.name(unit), f"{unit} isn't taken")
            else:
                made.message()
            made.socket.settimeout(None)

    def send(self, at):
        with contextlib.suppress(OSError):
            while True:
                self.peers[at].send(self.texts[at])
        self.refused[at] = time.monotonic()

    def read(self, at):
        with contextlib.suppress(OSError):
            while more := self.peers[at].socket.recv(1 << 20):
                self.got[at] += more

    def press(self, seconds, then=None, more=0.0):
        """Sends and reads for some seconds; does something, and goes on for more seconds. `refused` says when a connection
        took no more."""
        threads = [threading.Thread(target=each, args=(at,)) for at in range(len(self.peers)) for each in (self.read, self.send)]
        for thread in threads:
            thread.start()
        time.sleep(seconds)
        if then:
            then()
            time.sleep(more)
        for made in self.peers:
            with contextlib.suppress(OSError):
                made.socket.shutdown(socket.SHUT_RDWR)
        for thread in threads:
            thread.join()

    def octets(self):
        """How many octets of each connection were answered."""
        size, answers = len(begin(0)), self.got[1]
        return [answers.count(bytes([0x49, 4, 0xE0 + at])) * size if unit else len(self.got[at])
                for at, unit in enumerate(self.units)]


def rows():
    """What a transfer point sends to the node 201, and what comes back by the same connection; the last two messages are
    two segments. Octets as on the wire."""
    udt, sccp = wire.udt, lambda message: wire.ipa(wire.SCCP, message)
    return [
        ("PING", "0001FE00", "0001FE01"),
        ("UDT class 0", "003FFD 09 00 03070B 04 43C800F1 04 4364000C 2F" + BEGIN.hex(),
         "002FFD 09 00 03070B 04 4364000C 04 43C900F1 1F" + END.hex()),
        ("UDTS, other subsystem", sccp(udt(wire.address(201, 99), EXCHANGE, BEGIN, 0x81)).hex(),
         "003FFD 0A 04 03070B 04 4364000C 04 43C90063 2F" + BEGIN.hex()),
        ("subsystem test", "0015FD 09 00 03070B 04 43C90001 04 43640001 05 03F1C90000",
         "0015FD 09 00 03070B 04 43640001 04 43C90001 05 01F1C90000"),
        ("segment, first",
         sccp(bytes.fromhex("1181 0F 04080C24 04 43C800F1 04 4364000C 18") + BEGIN[:24] + FIRST).hex(), None),
        ("segment, second",
         sccp(bytes.fromhex("1181 0F 04080C23 04 43C800F1 04 4364000C 17") + BEGIN[24:] + SECOND).hex(), None),
    ]


def is_returned(octets, segment):
    """Whether this is the XUDTS or UDTS by which a segment comes back, with cause 10."""
    data = wire.parts(segment[4:])[2]
    return len(octets) > 6 and octets[3] in (wire.UDTS, wire.XUDTS) and octets[4] == 10 and data in octets


class Mutations:
    """Messages of SCCP and IPA, most of them changed at random."""

    def __init__(self, seed):
        self.random = random.Random(seed)
        self.number = 0
        # (the lengths of a message with a longer component portion)
        opened = bytes.fromhex("654048040000002A4904000000016C32") + tcap.report(2, 5)
        data = [BEGIN, END, opened, b"\x61\x02\x6c\x00", b"\x67\x06\x49\x04\0\0\0\1", bytes(255), BEGIN[:9]]
        self.whole = [wire.udt(NODE, EXCHANGE, it, cls) for it in data for cls in (0, 1, 0x80, 0x81)]
        self.whole += [wire.xudt(COMMON, EXCHANGE, it, 0x81) for it in data] + segments() * 4
        self.whole += [wire.udts(EXCHANGE, NODE, BEGIN, cause) for cause in range(16)]
        self.whole += [wire.udt(NODE[:3] + b"\1", EXCHANGE[:3] + b"\1", TEST)] * 4
        # Addresses with a title of many digits, with one that is announced and missing, and of all indicators.
        self.whole += [wire.udt(NODE, bytes.fromhex("520C001104") + b"\x11" * n, BEGIN, 0x80) for n in (4, 40, 120)]
        self.whole += [wire.udt(NODE, bytes([n]) + bytes(n % 7), BEGIN, 0x80) for n in range(128)]
        self.whole += [wire.udt(bytes([n]) + bytes(n % 7), EXCHANGE, BEGIN, 0x80) for n in range(128)]

    def changed(self, octets):
        """These octets with up to four changes."""
        r, octets = self.random, bytearray(octets)
        for _ in range(r.randint(0, 4)):
            at = r.randrange(len(octets) + 1)
            what = r.randrange(6)
            if what == 0:
                octets[at:at + 1] = bytes([r.randrange(256)])
            elif what == 1:
                octets[at:at + 1] = bytes([octets[at] ^ 1 << r.randrange(8)]) if at < len(octets) else b""
            elif what == 2:
                del octets[at:at + r.randint(1, 8)]
            elif what == 3:
                octets[at:at] = r.randbytes(r.randint(1, 8))
            elif what == 4:
                del octets[at:]
            elif len(octets) > 5:
                octets[r.randrange(2, 6)] = r.choice((0, 1, 2, 3, 4, 7, 127, 128, 254, 255))
        return bytes(octets)

    def next(self):
        """The next message, with its head of IPA, which is false now and then."""
        r = self.random
        self.number += 1
        # The Begin of each message has an identifier of its own.
        message = self.changed(r.choice(self.whole)).replace(BEGIN[2:8], b"\x48\4" + self.number.to_bytes(4, "big"))
        kind = r.randrange(400)
        if kind == 0:
            return wire.ipa(r.randrange(256), message)
        if kind == 1:
            return r.randbytes(r.randint(1, 40))
        if kind == 2:
            return wire.ipa(wire.CCM, bytes([r.randrange(9)]) + r.randbytes(r.randrange(12)))
        if kind == 3:
            return r.choice((5000, 65535, 4097)).to_bytes(2, "big") + bytes([wire.SCCP]) + message
        return wire.ipa(wire.SCCP, message)


class Hostile:
    """Sends changed messages to a node, for some seconds, and between them calls that are to be answered."""

    def __init__(self, port, unit, seed):
        self.port, self.unit, self.mutations = port, unit, Mutations(seed)
        self.sent = self.calls = self.right = self.connections = self.unnamed = self.aborted = 0
        self.peer = None

    def connected(self):
        if self.peer is None:
            self.peer = Peer(self.port)
            self.connections += 1
            try:
                is_named = self.peer.name(self.unit)
            except OSError:
                is_named = False
            if not is_named:
                self.unnamed += 1
                self.lose()
        return self.peer

    def lose(self):
        if self.peer is not None:
            self.peer.close()
        self.peer = None

    def drain(self, wait):
        """Reads what came. Each dialogue that the node opened is ended, so that it keeps none."""
        self.peer.socket.settimeout(wait)
        try:
            octets = self.peer.socket.recv(262144)
        except TimeoutError:
            return []
        if not octets:
            raise ConnectionError
        messages, self.peer.got = wire.ipa_messages(self.peer.got + octets)
        aborts = []
        for stream, message in messages:
            if stream == wire.SCCP and message[0] == wire.UDT:
                data = wire.parts(message)[2]
                if data[0] == tcap.CONTINUE:
                    abort = tcap.user_aborted(tcap.identifiers(data)[0])
                    aborts.append(wire.ipa(wire.SCCP, wire.udt(NODE, EXCHANGE, abort)))
        self.aborted += len(aborts)
        self.peer.send(*aborts)
        return messages

    def call(self):
        """Makes one good call, if a connection can be had, and looks for its answer among all that comes."""
        if self.connected() is None:
            return
        own = b"\xEE" + self.calls.to_bytes(3, "big")
        self.calls += 1
        want = wire.udt(EXCHANGE, NODE, tcap.connected(own))
        try:
            self.peer.send(wire.ipa(wire.SCCP, wire.udt(COMMON, EXCHANGE, tcap.call(own))))
            limit = time.monotonic() + 20
            while time.monotonic() < limit:
                if any(message == want for _, message in self.drain(0.5)):
                    self.right += 1
                    return
        except OSError:
            self.lose()

    def burst(self, count):
        """Sends changed messages, as far as the node doesn't close the connection."""
        if self.connected() is None:
            return
        try:
            for _ in range(count):
                self.peer.send(self.mutations.next())
                self.sent += 1
            self.drain(0.02)
        except OSError:
            self.lose()
