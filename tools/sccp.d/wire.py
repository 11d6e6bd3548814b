"""The messages that tools/sccp, and a case of tools/attacks, send and read: IPA with its CCM, SCCP (Q.713), M3UA (RFC 4666).

A point code is a number here, an address the octets of a called or calling party address without their length."""
import socket
import struct

CCM, SCCP = 0xFE, 0xFD
PING, PONG, ID_GET, ID_RESP, ID_ACK = 0, 1, 4, 5, 6
UDT, UDTS, XUDT, XUDTS = 9, 10, 17, 18
RETURNS = 0x80


def address(point_code, subsystem):
    """The address of a point code and a subsystem, by which messages are routed on the subsystem number."""
    return bytes([0x43, point_code & 255, point_code >> 8, subsystem])


def point_code_of(octets):
    return octets[1] | octets[2] << 8


def variable(first, parts):
    """The pointers of these parts, of which the first pointer has this value at least, and the parts with their lengths."""
    pointers, body, at = b"", b"", first
    for part in parts:
        pointers += bytes([at])
        body += bytes([len(part)]) + part
        at += len(part)
    return pointers, body


def udt(called, calling, data, cls=0):
    pointers, body = variable(3, (called, calling, data))
    return bytes([UDT, cls]) + pointers + body


def udts(called, calling, data, cause):
    pointers, body = variable(3, (called, calling, data))
    return bytes([UDTS, cause]) + pointers + body


def xudt(called, calling, data, cls=0, optional=b""):
    """An XUDT; the optional part has its end, or is empty."""
    pointers, body = variable(4, (called, calling, data))
    return bytes([XUDT, cls, 15]) + pointers + bytes([len(body) + 1 if optional else 0]) + body + optional


def parts(message):
    """The called and the calling address and the data of a UDT or UDTS."""
    found = []
    for place in (2, 3, 4):
        start = place + message[place]
        found.append(message[start + 1:start + 1 + message[start]])
    return found


def ipa(stream, message):
    return len(message).to_bytes(2, "big") + bytes([stream]) + message


def identity(name):
    """ID_RESP with the name of a unit and nothing else."""
    octets = b"\1" + name.encode() + b"\0"
    return bytes([ID_RESP]) + len(octets).to_bytes(2, "big") + octets


def ipa_messages(octets):
    """The whole messages at the front of these octets, as pairs of stream and message, and the rest."""
    found, at = [], 0
    while len(octets) - at >= 3 and len(octets) - at >= 3 + (octets[at] << 8 | octets[at + 1]):
        length = octets[at] << 8 | octets[at + 1]
        found.append((octets[at + 2], octets[at + 3:at + 3 + length]))
        at += 3 + length
    return found, octets[at:]


def m3ua(kind, parameters=b""):
    """A message of M3UA whose class and type are the two octets of this number."""
    return bytes([1, 0, kind >> 8, kind & 255]) + (8 + len(parameters)).to_bytes(4, "big") + parameters


def parameter(tag, value):
    return tag.to_bytes(2, "big") + (4 + len(value)).to_bytes(2, "big") + value + b"\0" * (-len(value) % 4)


def parameters(message):
    """The parameters of a message of M3UA, by their tags."""
    found, at = {}, 8
    while at + 4 <= len(message):
        tag, length = int.from_bytes(message[at:at + 2], "big"), int.from_bytes(message[at + 2:at + 4], "big")
        found[tag] = message[at + 4:at + length]
        at += max(4, length + -length % 4)
    return found


def m3ua_messages(octets):
    """The whole messages of M3UA at the front of these octets, and the rest."""
    found, at = [], 0
    while len(octets) - at >= 8 and len(octets) - at >= int.from_bytes(octets[at + 4:at + 8], "big"):
        length = max(8, int.from_bytes(octets[at + 4:at + 8], "big"))
        found.append(octets[at:at + length])
        at += length
    return found, octets[at:]


DATA, DUNA, DAVA, ASPUP, ASPUP_ACK, BEAT, BEAT_ACK = 0x101, 0x201, 0x202, 0x301, 0x304, 0x303, 0x306
ASPAC, ASPAC_ACK, NOTIFY = 0x401, 0x403, 0x001
CONTEXT, PROTOCOL_DATA, AFFECTED, TRAFFIC_MODE = 0x06, 0x210, 0x12, 0x0B
LOADSHARE = (2).to_bytes(4, "big")


def transfer(origin, destination, context, message):
    """DATA of M3UA: a message of SCCP between two point codes."""
    label = origin.to_bytes(4, "big") + destination.to_bytes(4, "big") + bytes([3, 0, 0, 0])
    return m3ua(DATA, parameter(CONTEXT, context.to_bytes(4, "big")) + parameter(PROTOCOL_DATA, label + message))


class Connection:
    """A connection to a transfer point, which connects again half a second after it was lost. `taken` is called with each
    message of SCCP, `noted` with each other message."""
    no_delay = (socket.IPPROTO_TCP, socket.TCP_NODELAY)

    def __init__(self, host, port, taken):
        self.host, self.port, self.taken = host, port, taken
        self.socket, self.again, self.rest, self.out, self.is_up = None, 0.0, b"", [], False
        self.noted = lambda message: None

    def look(self, now, selector):
        """Connects, if it is time."""
        if self.socket is not None or now < self.again:
            return
        self.again = now + 0.5
        try:
            self.socket = self.connect()
        except OSError:
            return
        self.socket.setsockopt(*self.no_delay, 1)
        selector.register(self.socket, 1, self)
        self.rest, self.out, self.is_up = b"", [], False
        self.greet()

    def connect(self):
        return socket.create_connection((self.host, self.port), 2)

    def flush(self, selector):
        """Writes what waits."""
        if self.out and self.socket is not None:
            messages, self.out = self.out, []
            try:
                self.write(messages)
            except OSError:
                self.over(selector)

    def write(self, messages):
        self.socket.sendall(b"".join(messages))

    def over(self, selector):
        if self.socket is not None:
            selector.unregister(self.socket)
            self.socket.close()
        self.socket, self.is_up, self.out = None, False, []

    def read(self, selector):
        try:
            octets = self.socket.recv(262144)
        except OSError:
            octets = b""
        if octets:
            self.feed(self.rest + octets)
        else:
            self.over(selector)


class IpaConnection(Connection):
    """One over IPA, which reaches one point code."""

    def __init__(self, host, port, taken, name, point_code):
        super().__init__(host, port, taken)
        self.name, self.point_code = name, point_code

    def reaches(self, point_code):
        return self.is_up and point_code == self.point_code

    def greet(self):
        """The transfer point asks first."""

    def send(self, _point_code, message):
        self.out.append(ipa(SCCP, message))

    def feed(self, octets):
        messages, self.rest = ipa_messages(octets)
        for stream, message in messages:
            if stream == SCCP:
                self.taken(message)
            elif stream == CCM and message:
                self.take_ccm(message[0])

    def take_ccm(self, kind):
        if kind == ID_GET:
            self.out.append(ipa(CCM, identity(self.name)))
        elif kind == ID_ACK and not self.is_up:
            self.is_up = True
            self.out.append(ipa(CCM, bytes([ID_ACK])))
        elif kind == PING:
            self.out.append(ipa(CCM, bytes([PONG])))


class M3uaConnection(Connection):
    """One over M3UA, for a point code whose routing context has the same number, from a local port by which the transfer
    point knows it. The transport is TCP, as with the stand-in for SCTP that the transfer point has, or SCTP."""

    def __init__(self, host, port, taken, own, local_port, is_sctp=False):
        super().__init__(host, port, taken)
        self.own, self.local_port, self.is_sctp = own, local_port, is_sctp
        self.out_of_reach, self.trace = set(), None
        if is_sctp:
            self.no_delay = (socket.IPPROTO_SCTP, 3)

    def reaches(self, point_code):
        return self.is_up and point_code not in self.out_of_reach

    def connect(self):
        protocol = 132 if self.is_sctp else 0
        made = socket.socket(socket.AF_INET, socket.SOCK_STREAM, protocol)
        made.setsockopt(socket.SOL_SOCKET, socket.SO_REUSEADDR, 1)
        # It is reset at its end, so that the port is free at once.
        made.setsockopt(socket.SOL_SOCKET, socket.SO_LINGER, b"\1\0\0\0\0\0\0\0")
        try:
            made.bind(("127.0.0.1", self.local_port))
            made.connect((self.host, self.port))
        except OSError:
            made.close()
            raise
        return made

    def write(self, messages):
        """Over SCTP each message goes by itself, those of data by stream 1, all with the payload identifier of M3UA."""
        if not self.is_sctp:
            super().write(messages)
            return
        for message in messages:
            how = struct.pack("=HHHxxIIIIIi", message[2] == 1, 0, 0, socket.htonl(3), 0, 0, 0, 0, 0)
            self.socket.sendmsg([message], [(socket.IPPROTO_SCTP, 1, how)])

    def greet(self):
        self.out_of_reach.clear()
        self.put(m3ua(ASPUP))

    def send(self, point_code, message):
        self.put(transfer(self.own, point_code, self.own, message))

    def put(self, message):
        self.out.append(message)
        if self.trace is not None:
            self.trace.append((True, message))

    def feed(self, octets):
        messages, self.rest = m3ua_messages(octets)
        for message in messages:
            if self.trace is not None:
                self.trace.append((False, message))
            self.take(message[2] << 8 | message[3], message)

    def take(self, kind, message):
        if kind == DATA:
            self.taken(parameters(message)[PROTOCOL_DATA][12:])
            return
        self.noted(message)
        if kind == ASPUP_ACK:
            self.put(m3ua(ASPAC, parameter(TRAFFIC_MODE, LOADSHARE) + parameter(CONTEXT, self.own.to_bytes(4, "big"))))
        elif kind == ASPAC_ACK:
            self.is_up = True
        elif kind == BEAT:
            self.put(m3ua(BEAT_ACK, message[8:]))
        elif kind in (DUNA, DAVA):
            codes = parameters(message)[AFFECTED]
            for at in range(0, len(codes), 4):
                code = int.from_bytes(codes[at + 1:at + 4], "big")
                (self.out_of_reach.add if kind == DUNA else self.out_of_reach.discard)(code)
