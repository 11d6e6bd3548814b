"""Builds and reads messages of TCAP (Q.773) with operations of INAP CS-1 (Q.1218), for the tools that play a switch.

A tag is hexadecimal text. Contents are octets or hexadecimal text. The identifier of a transaction is a number, which gets
four octets, or octets. tools/fuzz.d/model.py has a reading of its own, which is compared with the program: it must stay
apart from this one."""
import functools

BEGIN, END, CONTINUE, ABORT = 0x62, 0x64, 0x65, 0x67
KINDS = {0x61: "unidirectional", BEGIN: "begin", END: "end", CONTINUE: "continue", ABORT: "abort"}
INITIAL_DP, CONNECT, RELEASE_CALL, REQUEST_REPORT, EVENT_REPORT, ACTIVITY_TEST = 0, 20, 22, 23, 24, 55
# Events of a call: its type, whether the call goes on meanwhile, and the leg. These are asked for if another destination may
# follow: no route, busy, no answer, the answer, the caller gives up.
EVENTS = (4, 0, 2), (5, 0, 2), (6, 0, 2), (7, 1, 2), (10, 1, 1)
# The category and the event of a call, as members of InitialDP.
CATEGORY, ANALYSED = "85010A", "9C0103"


# Elements (X.690)

def tlv(tag, *contents):
    """An element, with its length in as few octets as possible."""
    body = b"".join([it if isinstance(it, bytes) else bytes.fromhex(it) for it in contents])
    size = len(body)
    if size < 0x80:
        return bytes.fromhex(tag) + bytes([size]) + body
    count = (size.bit_length() + 7) // 8
    return bytes.fromhex(tag) + bytes([0x80 + count]) + size.to_bytes(count, "big") + body


def elements(octets):
    """The tags and contents of these elements, whose tags have one octet and whose lengths are definite."""
    at = 0
    while at < len(octets):
        tag, size, at = octets[at], octets[at + 1], at + 2
        if size > 0x80:
            count = size - 0x80
            size, at = int.from_bytes(octets[at:at + count], "big"), at + count
        yield tag, octets[at:at + size]
        at += size


# Numbers (Q.763, 3.9 and 3.10)

def number(digits, second=0x10, nature=3):
    """A called or calling party number. The second octet has the numbering plan, and further bits for a calling one. The
    nature is 3 for a national number, 4 for an international one."""
    padded = digits + "0" * (len(digits) % 2)
    pairs = "".join(padded[at + 1] + padded[at] for at in range(0, len(padded), 2))
    return bytes([nature + 0x80 * (len(digits) % 2), second]) + bytes.fromhex(pairs)


def digits_in(octets):
    """The digits of a called or calling party number."""
    digits = "".join(f"{octet & 15:X}{octet >> 4:X}" for octet in octets[2:])
    return digits[:-1] if octets[0] > 0x7F else digits


# Components

def invoke(identifier, operation, argument=b"", linked=None):
    link = tlv("80", bytes([linked])) if linked is not None else b""
    return tlv("A1", tlv("02", bytes([identifier])), link, tlv("02", bytes([operation])), argument)


def result(identifier):
    """The component that returns a result without a value."""
    return tlv("A2", tlv("02", bytes([identifier])))


def error(identifier, code=6):
    return tlv("A3", tlv("02", bytes([identifier])), tlv("02", bytes([code])))


def reject(identifier, problem):
    """The component with this problem, whose tag gives its kind."""
    return tlv("A4", tlv("02", bytes([identifier])), problem)


def late_error(identifier):
    """The component that rejects an error: there is no such invocation, or its time is over."""
    return reject(identifier, "830100")


def initial_dp(called, calling="301234567", key=100):
    """The argument of InitialDP, in the order of Q.1218."""
    members = tlv("80", bytes([key])), tlv("82", number(called)), tlv("83", number(calling, 0x13))
    return tlv("30", *members, CATEGORY, ANALYSED)


def report(identifier, event, mode=0):
    """EventReportBCSM of leg 2: 4 no route, 5 busy, 6 no answer, 7 answer, 9 disconnect, 10 abandon. The call waits if the
    mode is 0."""
    argument = tlv("30", tlv("80", bytes([event])), "A303810102", tlv("A4", tlv("80", bytes([mode]))))
    return invoke(identifier, EVENT_REPORT, argument)


@functools.lru_cache(256)
def request_reports(identifier, events=EVENTS):
    """RequestReportBCSMEvent."""
    asked = [tlv("30", tlv("80", bytes([event])), tlv("81", bytes([mode])), tlv("A2", tlv("80", bytes([leg]))))
             for event, mode, leg in events]
    return invoke(identifier, REQUEST_REPORT, tlv("30", tlv("A0", *asked)))


@functools.lru_cache(4096)
def connect(identifier, destination):
    return invoke(identifier, CONNECT, tlv("30", tlv("A0", tlv("04", number(destination)))))


def release(identifier, cause):
    """ReleaseCall with a cause of Q.850."""
    return invoke(identifier, RELEASE_CALL, tlv("04", bytes([0x82, 0x80 + cause])))


def request(context, version="80020780"):
    """The dialogue portion with an AARQ for this application context."""
    return tlv("6B", tlv("28", "060700118605010101", tlv("A0", tlv("60", version, tlv("A1", tlv("06", context))))))


# Messages

def identifier_of(tag, identifier):
    return tlv(tag, identifier if isinstance(identifier, bytes) else identifier.to_bytes(4, "big"))


def portion(components):
    """The component portion, left out if there is no component."""
    return tlv("6C", *components) if components else b""


def begin(own, *components, dialogue=b""):
    return tlv("62", identifier_of("48", own), dialogue, portion(components))


def continued(own, peer, *components):
    return tlv("65", identifier_of("48", own), identifier_of("49", peer), portion(components))


def ended(peer, *components):
    return tlv("64", identifier_of("49", peer), portion(components))


def user_aborted(peer):
    """An Abort of either side for a dialogue without an application context."""
    return tlv("67", identifier_of("49", peer))


def aborted(peer, cause):
    """An Abort of the provider: 1 if there is no such dialogue, 4 for lack of resources."""
    return tlv("67", identifier_of("49", peer), tlv("4A", bytes([cause])))


# The call of many tools: for a number whose destination is known, the End with Connect that answers it

@functools.lru_cache(4096)
def call_to(called):
    return portion([invoke(1, INITIAL_DP, initial_dp(called))])


def call(own, called="800123456"):
    """A Begin with InitialDP."""
    return tlv("62", identifier_of("48", own), call_to(called))


def connected(peer, destination="302223344"):
    """The End with Connect that answers a call for a number with one destination."""
    return ended(peer, connect(1, destination))


# Reading

def fields_of(message):
    """The contents of the elements of a message, by their tags: 48 and 49 the identifiers, 4A a cause, 6C components."""
    (_, contents), = elements(message)
    return dict(elements(contents))


def identifiers(message):
    """The originating and the destination identifier of a message, each None if it isn't there."""
    fields = fields_of(message)
    return fields.get(0x48), fields.get(0x49)
