"""What docs/profile.md says of records, messages, dialogues and log lines, written a second time, from that page alone,
so that tools/fuzz knows what the program has to answer. It shares no code with the program.

`Records` reads a file of records. `Link` is a link with its dialogues: `post` gives it a message and `tick` the clock;
`take` and then `give` or `put_back` are a turn, `pick` and `sent` a frame; `drain` does all that is to be done, as
`ask` does after each line. `log_fault` finds the first line of a log that is bad or a gap."""
import collections
import datetime
import re

DAY, END_OF_TIME = 86_400_000, 4_102_444_800_000


class Fault(Exception):
    """Octets that are no message, or a file that has no records."""


# Octets (X.690). A tag of more than one octet is a number above FFFF, with its first octet on top.

def element(octets, at, end, depth=1):
    """The element at this place, its tag and its contents, which are a list if it is constructed; and where it ends."""
    if depth > 16 or at >= end:
        raise Fault
    tag = first = octets[at]
    at += 1
    if first & 0x1F == 0x1F:
        high = octets[at:min(at + 2, end)]
        high = high[:1] if high and high[0] < 0x80 else high
        value = (high[0] & 0x7F) << 7 | high[1] if len(high) == 2 else high[0] if high else 0
        if value < 31 or high[0] == 0x80 or high[-1] > 0x7F:
            raise Fault
        tag, at = first << 16 | value, at + len(high)
    if at >= end or first in (0x00, 0x20):
        raise Fault
    size, at = octets[at], at + 1
    if size == 0x80 and first & 0x20:
        parts = []
        while octets[at:min(at + 2, end)] != b"\0\0":
            part, at = element(octets, at, end, depth + 1)
            parts.append(part)
        return (tag, parts), at + 2
    if size > 0x7F:
        count = size & 0x7F
        if not 1 <= count <= 4 or count > end - at:
            raise Fault
        size, at = int.from_bytes(octets[at:at + count], "big"), at + count
    if size > end - at:
        raise Fault
    stop = at + size
    if not first & 0x20:
        return (tag, octets[at:stop]), stop
    parts = []
    while at < stop:
        part, at = element(octets, at, stop, depth + 1)
        parts.append(part)
    return (tag, parts), stop


def whole(octets):
    """The element that is all of these octets."""
    found, after = element(octets, 0, len(octets))
    if after != len(octets):
        raise Fault
    return found


def tlv(tag, *contents):
    """An element with a tag of one octet, and a definite length in as few octets as possible."""
    body = b"".join(contents)
    size = len(body)
    if size < 0x80:
        return bytes([tag, size]) + body
    return bytes([tag, 0x81, size] if size < 0x100 else [tag, 0x82, size >> 8, size & 0xFF]) + body


# Messages and components (Q.773). An entry is a name and what is known of it.

UNIDIRECTIONAL, BEGIN, END, CONTINUE, ABORT = 0x61, 0x62, 0x64, 0x65, 0x67
IDENTIFIERS = {BEGIN: [0x48], END: [0x49], CONTINUE: [0x48, 0x49], ABORT: [0x49]}
DIALOGUE_AS_ID = (6, bytes.fromhex("00118605010101"))


def tags_of(parts):
    return [tag for tag, _ in parts]


def message(octets):
    """The dialogue portion of a message, nothing if it has none, and its components."""
    kind, parts = whole(octets)
    own, rest = parts[:len(IDENTIFIERS[kind])], parts[len(IDENTIFIERS[kind]):]
    portions = dict(rest)
    may_follow = [[], [0x4A], [0x6B]] if kind == ABORT else [[], [0x6B], [0x6C], [0x6B, 0x6C]]
    if tags_of(own) != IDENTIFIERS[kind] or not all(1 <= len(contents) <= 4 for _, contents in own) \
            or tags_of(rest) not in may_follow or len(portions.get(0x4A, b"1")) != 1:
        raise Fault
    return portions.get(0x6B), portions.get(0x6C, [])


def identifiers(octets):
    """The originating and the destination identifier that can be read from any octets; nothing for one that can't."""
    kind, size, found = octets[0], octets[1:2], {}
    if kind & 0x1F == 0x1F or not size or size[0] > 0x84:
        return None, None
    at = 2 + max(0, size[0] - 0x80)
    for tag in IDENTIFIERS.get(kind, [0x48, 0x49]):
        if octets[at:at + 1] != bytes([tag]):
            if kind in IDENTIFIERS:
                break
            continue
        head = octets[at + 1:at + 6]
        count = head[0] - 0x80 if head and 0x80 < head[0] < 0x85 else 0
        size = int.from_bytes(head[1:1 + count] if count else head[:1], "big")
        at += 2 + count
        if len(head) <= count or not 1 <= size <= 4 or at + size > len(octets):
            break
        found[tag] = octets[at:at + size]
        at += size
    return found.get(0x48), found.get(0x49)


def proposed(portion):
    """The name that the dialogue portion of a Begin proposes, and whether with version 1."""
    if tags_of(portion) != [0x28]:
        raise Fault
    external = portion[0][1]
    if tags_of(external) != [6, 0xA0] or external[0] != DIALOGUE_AS_ID or tags_of(external[1][1]) != [0x60]:
        raise Fault
    parts, version = external[1][1][0][1], b"\x07\x80"
    if parts and parts[0][0] == 0x80:
        version, parts = parts[0][1], parts[1:]
    if not version or version[0] > 7 or (version[0] and len(version) == 1) \
            or tags_of(parts) not in ([0xA1], [0xA1, 0xBE]) or tags_of(parts[0][1]) != [6]:
        raise Fault
    name = parts[0][1][0][1]
    if not 1 <= len(name) <= 64:
        raise Fault
    return name, len(version) > 1 and version[1] > 0x7F


def is_code(part):
    return part[0] == 6 or part[0] == 2 and 1 <= len(part[1]) <= 4


def component(tag, parts):
    """The entry of a component, without what the records say."""
    if tag not in (0xA1, 0xA2, 0xA3, 0xA4, 0xA7):
        return "faulty", None, 0
    identifier = parts[0][1] if parts and parts[0][0] == 2 and len(parts[0][1]) == 1 else None
    rest, linked, faulty = parts[1:], None, ("faulty", identifier, 1)
    if tag == 0xA4:
        if (identifier is None and parts[:1] != [(5, b"")]) or len(rest) != 1 or not 0x80 <= rest[0][0] <= 0x83 \
                or len(rest[0][1]) != 1:
            return faulty
        return "reject", identifier if rest[0][0] < 0x82 else None
    if identifier is None:
        return faulty
    if tag == 0xA1:
        if rest and rest[0][0] == 0x80 and len(rest[0][1]) == 1:
            linked, rest = rest[0][1][0], rest[1:]
        if not 1 <= len(rest) <= 2 or not is_code(rest[0]):
            return faulty
        return "invoke", identifier, linked, operation(rest[0], *rest[1:])
    if tag == 0xA3:
        return ("error", identifier) if 1 <= len(rest) <= 2 and is_code(rest[0]) else faulty
    if rest and (tags_of(rest) != [0x30] or not 1 <= len(rest[0][1]) <= 2 or not is_code(rest[0][1][0])):
        return faulty
    return "result", identifier, tag == 0xA2


# Operations, and the octets of what is written

def operation(code, argument=None):
    """What an Invoke asks: InitialDP with its members, an event and whether it is a notification, or to be rejected."""
    value = int.from_bytes(code[1], "big", signed=True) if code[0] == 2 else None
    if value not in (0, 24):
        return "rejected", 1
    members = members_of(argument, [0x80, 0x82, 0x83, 0x85, 0x9C] if value == 0 else [0x80, 0xA2, 0xA3, 0xA4])
    if members is None:
        return "rejected", 2
    key, leg = members.get(0x80, b"\0"), members.get(0xA3, [(0x80, b"1")])
    if value == 0:
        are_short = len(members.get(0x85, b"1")) == len(members.get(0x9C, b"1")) == 1
        is_good = are_short and 1 <= len(key) <= 4 and key[0] < 0x80
        return ("initial", members) if is_good else ("rejected", 2)
    mode = members_of((0x30, members.get(0xA4, [])), [0x80])
    if 0x80 not in members or len(key) != 1 or tags_of(leg) not in ([0x80], [0x81]) or len(leg[0][1]) != 1 \
            or mode is None or mode.get(0x80, b"\0") not in (b"\0", b"\1"):
        return "rejected", 2
    return "event", key[0], mode.get(0x80) == b"\1"


def members_of(argument, tags):
    """The members with these tags; nothing if the argument is mistyped."""
    if argument is None or argument[0] != 0x30:
        return None
    found = {}
    for tag, contents in argument[1]:
        if (tag if tag < 0x100 else tag >> 16) & 0xC0 != 0x80 or tag ^ 0x20 in tags or tag in found:
            return None
        if tag in tags:
            found[tag] = contents
    return found


def digits_of(octets):
    """The digits of a number, hexadecimal; nothing if it holds none."""
    if octets is None or not 2 <= len(octets) <= 18 or (octets[0] > 0x7F and len(octets) == 2):
        return None
    digits = "".join("%X%X" % (octet & 15, octet >> 4) for octet in octets[2:])
    return digits[:-1] if octets[0] > 0x7F else digits


def number_octets(digits, second=0x10):
    """A national number of these digits."""
    padded = digits + "0" * (len(digits) % 2)
    return bytes([0x83 if len(digits) % 2 else 0x03, second]) + bytes(
        int(padded[i + 1] + padded[i], 16) for i in range(0, len(padded), 2))


def event(code, mode, leg):
    return tlv(0x30, tlv(0x80, bytes([code])), tlv(0x81, bytes([mode])), tlv(0xA2, tlv(0x80, bytes([leg]))))


# An operation: its code, its class, its argument.
REQUEST = 0x17, 2, tlv(0x30, tlv(0xA0, event(4, 0, 2), event(5, 0, 2), event(6, 0, 2), event(7, 1, 2), event(10, 1, 1)))
GO_ON, TEST = (0x1F, 4, b""), (0x37, 3, b"")
DUE_AFTER = {2: 10_000, 3: 10_000, 4: 5_000}


def connect(destination):
    return 0x14, 2, tlv(0x30, tlv(0xA0, tlv(4, number_octets(destination))))


def release(cause):
    return 0x16, 4, tlv(4, bytes([0x82, 0x80 + cause]))


def rejection(identifier, problem, value):
    return tlv(0xA4, b"\5\0" if identifier is None else tlv(2, identifier), tlv(problem, bytes([value])))


def dialogue_portion(apdu):
    return tlv(0x6B, tlv(0x28, tlv(*DIALOGUE_AS_ID), tlv(0xA0, apdu)))


def aare(name, is_accepted, source, value):
    return dialogue_portion(tlv(0x61, bytes.fromhex("80020780"), tlv(0xA1, tlv(6, name)), tlv(
        0xA2, tlv(2, bytes([not is_accepted]))), tlv(0xA3, tlv(source, tlv(2, bytes([value]))))))


ABRT = dialogue_portion(tlv(0x64, b"\x80\1\0"))


# Records

FIELD = re.compile(rb'"((?:[^"]|"")*)"?([^,\r\n]*)|([^,\r\n]*)')


def rows_of(text):
    """The records of a CSV file, each a list of its fields."""
    text = text.removeprefix(b"\xEF\xBB\xBF")
    if b'"' not in text:
        return [line.split(b",") for line in re.split(b"[\r\n]", text) if line]
    rows, row, at = [], [], 0
    while at < len(text) or row:
        field = FIELD.match(text, at)
        quoted, rest, plain = field.groups()
        row.append(plain if quoted is None else quoted.replace(b'""', b'"') + rest)
        at = field.end() + 1
        if text[field.end():at] != b",":
            if row != [b""] or quoted is not None:
                rows.append(row)
            row = []
    return rows


def value_of(field):
    """The number that these digits are, as far as they count here."""
    return int(field.lstrip(b"0")[:20] or b"0")


def is_number(field, least, most):
    return field.isdigit() and least <= value_of(field) <= most


def is_digits(field, least=1):
    return least <= len(field) <= 15 and (field.isdigit() or not field)


def minute_of(field, most=1_440):
    """The minute of a time of day; nothing if the field is none."""
    found = re.fullmatch(rb"([0-9][0-9]):([0-5][0-9])", field)
    minute = int(found[1]) * 60 + int(found[2]) if found else most + 1
    return minute if minute <= most else None


def date_of(field):
    """The day, counted from 1970; nothing if the field is no date in the range."""
    try:
        found = re.fullmatch(rb"([0-9]{4})-([0-9]{2})-([0-9]{2})", field)
        day = (datetime.date(*map(int, found.groups())) - datetime.date(1970, 1, 1)).days
        return day if -1 <= day <= END_OF_TIME // DAY else None
    except (AttributeError, ValueError):
        return None


def rule_fault(fields):
    """The first reason for which these fields are no rule."""
    starts, ends = minute_of(fields[3], 1_439) if fields[3:] else 0, minute_of(fields[4]) if fields[4:] else 1
    tests = [("BadNumber", is_digits), ("BadPrefix", lambda field: is_digits(field, 0)),
             ("BadDays", lambda field: re.fullmatch(rb"(?=.)1?2?3?4?5?6?7?", field)),
             ("BadTime", lambda _: starts is not None), ("BadTime", lambda _: ends not in (None, starts)),
             ("BadWeight", lambda field: is_number(field, 1, 1_000)),
             ("BadAction", lambda field: field in (b"route", b"refuse", b"pass"))]
    for field, (reason, is_good) in zip(fields, tests):
        if not is_good(field):
            return reason
    if not (8 <= len(fields) <= 11 if fields[6:7] == [b"route"] else len(fields) == 7):
        return "FieldCount"
    return None if all(map(is_digits, fields[7:])) else "BadDestination"


class Records:
    """The records of a file; a fault has the number of the record and the reason."""

    def __init__(self, text):
        rows = rows_of(text)
        self.version = 2 if rows and rows[0][0] == b"fprecords" else 1
        if self.version == 2 and rows[0] != [b"fprecords", b"2"]:
            raise Fault(1, "BadVersion")
        head = rows[self.version - 1] if rows[self.version - 1:] else []
        west = len(head) == 3 and head[2][:1] == b"-"
        if len(head) != 3 or head[0] != b"key" or not is_number(head[1], 0, 2**31 - 1) \
                or not is_number(head[2][west:], 0, 720 if west else 840):
            raise Fault(self.version, "BadHead")
        self.key, self.offset = value_of(head[1]), value_of(head[2][west:]) * (-1 if west else 1)
        self.rules, self.closed = collections.defaultdict(list), []
        for index, fields in enumerate(rows[self.version:], self.version + 1):
            if self.version == 2 and fields[0] == b"closed":
                day = date_of(fields[2]) if len(fields) == 3 and is_digits(fields[1]) else None
                reason = "BadClosed" if day is None else "TooMany" if len(self.closed) == 10_000 else None
                self.closed.append((fields[1:2], day))
            else:
                count = index - self.version - 1 - len(self.closed)
                reason = rule_fault(fields) or (
                    "TooMany" if count == 100_000 or len(self.rules[fields[0]]) == 1_000 else None)
                self.rules[fields[0]].append(fields[1:])
            if reason:
                raise Fault(index, reason)
        self.report = b"numbers %d rules %d" % (len(self.rules), len(rows) - self.version - len(self.closed)) + (
            b" closed %d" % len(self.closed) if self.closed else b"") + b"\n"
        self.migrated = b"fprecords,2\n" + b"".join(b",".join(row) + b"\n" for row in rows[self.version - 1:])

    def answer(self, members, moment, birth):
        """What a call gets, by the members of its InitialDP, its moment and its birth."""
        called, calling = digits_of(members.get(0x82)), digits_of(members.get(0x83)) or ""
        if called is None or 0x80 not in members:
            return "error", 7
        if int.from_bytes(members[0x80], "big") != self.key:
            return "error", 15
        if called.encode() not in self.rules:
            return "error", 6
        day, minute = divmod(moment // 60_000 + self.offset, 1_440)
        fitting = []
        for rule in self.rules[called.encode()]:
            starts, ends = minute_of(rule[2]), minute_of(rule[3])
            if calling.encode().startswith(rule[0]) and b"%d" % ((day + 3) % 7 + 1) in rule[1] and (
                    starts <= minute < ends if starts < ends else minute >= starts or minute < ends):
                fitting.append(rule)
        if not fitting or ([called.encode()], day) in self.closed:
            return "release", 3
        longest = max(len(rule[0]) for rule in fitting)
        kept = [rule for rule in fitting if len(rule[0]) == longest]
        draw = birth % sum(value_of(rule[4]) for rule in kept)
        for rule in kept:
            draw -= value_of(rule[4])
            if draw < 0:
                return {b"route": ("route", [field.decode() for field in rule[6:]]), b"refuse": ("release", 21),
                        b"pass": ("pass",)}[rule[5]]


# The service

class Dialogue:
    """One dialogue of a link: its service, `step`, and what of it waits."""

    def __init__(self, birth, local, peer, name):
        self.birth, self.local, self.peer, self.name = birth, local, peer, name
        # Of an active invocation: its class, and when it is due.
        self.state, self.places, self.active, self.last_invoked, self.last = "fresh", [], {}, 0, 0
        self.entries, self.taken, self.position, self.frames = collections.deque(), [], 0, 0
        # Silent: nothing more is sent.
        self.is_confirmed = self.is_silent = self.is_closed = self.is_sending = False
        self.is_admitted = True

    def message(self, kind, *components):
        portion = b""
        if self.name is not None and kind == ABORT:
            portion = ABRT
        elif self.name is not None and not self.is_confirmed:
            portion, self.is_confirmed = aare(self.name, True, 0xA1, 0), True
        own = tlv(0x48, self.local.to_bytes(4, "big")) if kind == CONTINUE else b""
        if kind != CONTINUE:
            self.state = "over"
        return tlv(kind, own, tlv(0x49, self.peer), portion, tlv(0x6C, *components) if components else b"")

    def invocation(self, code, argument):
        """An Invoke with the next free identifier."""
        self.last_invoked = self.last_invoked % 127 + 1
        while self.last_invoked in self.active:
            self.last_invoked = self.last_invoked % 127 + 1
        return tlv(0xA1, tlv(2, bytes([self.last_invoked])), tlv(2, bytes([code])), argument)

    def invoke(self, moment, *operations):
        """A Continue that invokes these, or an Abort."""
        if len(self.active) + len(operations) > 8:
            return self.message(ABORT)
        invokes = []
        for code, of_class, argument in operations:
            invokes.append(self.invocation(code, argument))
            self.active[self.last_invoked] = of_class, moment + DUE_AFTER[of_class]
        return self.message(CONTINUE, *invokes)

    def end(self, code, _, argument):
        return self.message(END, self.invocation(code, argument))

    def next_place(self, moment, cause):
        """The next destination, or the release of the call."""
        if not self.places:
            return self.end(*release(cause))
        self.state = "waiting"
        return self.invoke(moment, REQUEST, connect(self.places.pop(0)))

    def unserved(self):
        """The entries that wait or are being served."""
        return [entry for entry, _ in (*self.taken, *self.entries)]

    def awaits_test(self):
        return self.state == "waiting" and all(of_class != 3 for of_class, _ in self.active.values())

    def deadline(self):
        """When the clock's entry does something next."""
        quiet = 120_000 if self.awaits_test() else 300_000
        return min([due for _, due in self.active.values()] + [self.last + quiet])

    def step(self, entry, moment):
        """What the service sends for an entry; nothing if it sends nothing."""
        if entry[0] != "clock":
            self.last = moment
        return getattr(self, entry[0])(moment, *entry[1:]) if self.state != "over" else None

    def peer_ends(self, _):
        self.state = "over"

    def opened(self, _, refusal):
        if refusal:
            self.state = "over"
            return tlv(ABORT, tlv(0x49, self.peer), refusal)
        return None

    def faulty(self, _, identifier, value):
        return self.message(CONTINUE, rejection(identifier, 0x80, value))

    def invoke_came(self, moment, identifier, linked, what, *about):
        if linked is not None:
            return self.message(CONTINUE, rejection(identifier, 0x81, 6 if linked in self.active else 5))
        if what == "rejected":
            return self.message(CONTINUE, rejection(identifier, 0x81, *about))
        if what == "event":
            return self.event(moment, *about) if self.state == "waiting" else None
        if self.state == "waiting":
            return self.message(CONTINUE, tlv(0xA3, tlv(2, identifier), b"\2\1\x0E"))
        if what == "error":
            return self.message(END, tlv(0xA3, tlv(2, identifier), tlv(2, bytes(about))))
        if what == "route":
            self.places = list(about[0])
            return self.next_place(moment, 3) if len(self.places) > 1 else self.end(*connect(self.places[0]))
        return self.end(*release(*about)) if what == "release" else self.end(*GO_ON)

    def event(self, moment, code, is_notification):
        if code in (4, 5, 6):
            return self.next_place(moment, {4: 3, 5: 17, 6: 19}[code])
        if code in (7, 10):
            return self.message(END)
        return None if is_notification else self.invoke(moment, GO_ON)

    def result(self, _, identifier, is_last):
        of_class = self.active.get(identifier[0], (0,))[0]
        if of_class != 3 or is_last:
            self.active.pop(identifier[0], None)
        return None if of_class == 3 else self.message(CONTINUE, rejection(identifier, 0x82, bool(of_class)))

    def error(self, moment, identifier):
        of_class = self.active.pop(identifier[0], (0,))[0]
        if of_class == 2:
            return self.next_place(moment, 3)
        return self.message(CONTINUE, rejection(identifier, 0x83, bool(of_class)))

    def reject(self, moment, identifier):
        of_class = self.active.pop(identifier[0], (0,))[0] if identifier else 0
        return self.next_place(moment, 3) if of_class in (2, 4) else None

    def clock(self, moment):
        due = [identifier for identifier, (_, due) in self.active.items() if due <= moment]
        if 3 in [self.active.pop(identifier)[0] for identifier in due] or moment - self.last >= 300_000:
            return self.message(ABORT)
        return self.invoke(moment, TEST) if self.awaits_test() and moment - self.last >= 120_000 else None


# The link

# The tag of a run, 0 to this, is a part of its local identifiers. 0 is that of a run without one.
LAST_TAG = 4_094


class Link:
    """The dialogues of a link, what waits to be served, and what waits to be sent."""

    def __init__(self, records, contexts=(), number=0, tag=0):
        self.records, self.contexts, self.number, self.is_up = records, contexts, number, True
        # A local identifier is this and a serial.
        self.base = number * 2**29 + tag * 2**17
        self.births = self.accepted = self.served = self.count_sent = 0
        self.freed, self.held = collections.deque(), {}
        self.ready, self.aborts, self.frames = collections.deque(), collections.deque(), collections.deque()

    def admitted(self, local):
        """The dialogue with this identifier, if it is admitted."""
        dialogue = self.held.get(int.from_bytes(local, "big")) if local and len(local) == 4 else None
        return dialogue if dialogue and dialogue.is_admitted else None

    def post(self, octets, now, is_lost=False):
        """A message comes, and memory runs out for it if it is lost. Gives what became of it, as the log writes it."""
        kind = octets[0]
        if kind == UNIDIRECTIONAL or not self.is_up:
            return "D"
        origin, named = identifiers(octets)
        dialogue = self.admitted(named) if kind != BEGIN else None
        if kind not in IDENTIFIERS:
            return self.refuse(0, origin, dialogue)
        if is_lost:
            return self.refuse(4 if dialogue or kind == BEGIN else 1, origin, dialogue)
        try:
            portion, parts = message(octets)
            proposal = proposed(portion) if kind == BEGIN and portion is not None else None
        except Fault:
            return self.refuse(2, origin, dialogue)
        if kind != BEGIN and dialogue is None:
            return self.refuse(1, origin, None)
        entries = []
        for tag, contents in parts:
            entries.append(component(tag, contents))
            if entries[-1][0] == "faulty":
                break
        unserved = [what for what, *_ in dialogue.unserved() if what != "clock"] if dialogue else ["opened"]
        if len(parts) > 16 or len(unserved) + len(entries) > 64 or (kind == BEGIN and len(self.held) == 4_096):
            return self.refuse(4, origin, dialogue)
        self.accepted += len(entries)
        if kind == BEGIN:
            dialogue, opened = self.open(origin, proposal)
            entries.insert(0, ("opened", opened))
            dialogue.last = now
        for index, (what, *about) in enumerate(entries):
            if what == "invoke":
                asked = about[2] if about[2][0] != "initial" else self.records.answer(about[2][1], now, dialogue.birth)
                entries[index] = "invoke_came", *about[:2], *asked
        if kind in (END, ABORT):
            entries.append(("peer_ends",))
            dialogue.is_admitted, dialogue.is_silent = False, True
            self.drop_frames(dialogue)
        self.add(dialogue, entries, now)
        return f"O{dialogue.local:08X}" if kind == BEGIN else f"A{len(entries)}"

    def open(self, origin, proposal):
        self.births += 1
        serial = self.births if self.births <= 131_072 else self.freed.popleft()
        name, is_first = proposal or (None, True)
        refusal = aare(name, False, 0xA2, 2) if not is_first else aare(
            name, False, 0xA1, 2) if proposal and name not in self.contexts else None
        local = self.base + serial
        self.held[local] = Dialogue(self.births, local, origin, name)
        return self.held[local], refusal

    def add(self, dialogue, entries, now):
        if entries and not dialogue.entries and not dialogue.taken:
            self.ready.append(dialogue)
        dialogue.entries.extend((entry, now) for entry in entries)

    def refuse(self, cause, origin, dialogue):
        if dialogue:
            self.close(dialogue)
        if origin is None or len(self.aborts) == 64:
            return "E" if dialogue else "D"
        self.aborts.append(tlv(ABORT, tlv(0x49, origin), tlv(0x4A, bytes([cause]))))
        return f"X{cause}"

    def close(self, dialogue):
        dialogue.is_admitted, dialogue.is_silent, dialogue.is_closed = False, True, True
        dialogue.entries.clear()
        if dialogue in self.ready:
            self.ready.remove(dialogue)
        self.drop_frames(dialogue)
        self.free(dialogue)

    def drop_frames(self, dialogue):
        if dialogue.frames:
            self.frames = collections.deque(frame for frame in self.frames if frame[0] is not dialogue)
            dialogue.frames = 0

    def free(self, dialogue):
        """Its identifier comes back, if it is no longer held."""
        is_held = dialogue.is_admitted or dialogue.entries or dialogue.taken or dialogue.frames or dialogue.is_sending
        if not is_held and self.held.pop(dialogue.local, None):
            self.freed.append(dialogue.local - self.base)

    def tick(self, now):
        """The clock ticks. Gives how many dialogues were given its entry."""
        due = sorted((dialogue.deadline(), dialogue.local) for dialogue in self.held.values()
                     if dialogue.is_admitted and dialogue.deadline() <= now and ("clock",) not in dialogue.unserved())
        for _, local in due:
            self.add(self.held[local], [("clock",)], now)
        return len(due)

    def take(self):
        """The dialogue that has been ready longest; entries of it are taken to be served."""
        dialogue = self.ready.popleft()
        dialogue.taken = [dialogue.entries.popleft() for _ in range(min(16, len(dialogue.entries)))]
        return dialogue

    def give(self, dialogue):
        """They are served. Gives how many were, and what became of their requests, as the log writes it."""
        requests = []
        for entry, moment in dialogue.taken:
            requests.append(dialogue.step(entry, moment))
            if dialogue.state == "over":
                break
        count, requests = len(requests), [request for request in requests if request]
        self.served += count
        dialogue.position += len(dialogue.taken)
        if not dialogue.is_silent:
            self.frames.extend((dialogue, request) for request in requests)
            dialogue.frames += len(requests)
        if dialogue.state == "over":
            dialogue.is_admitted = False
            dialogue.entries.clear()
        self.come_back(dialogue)
        return count, f"{'D' if dialogue.is_silent else 'Q'}{len(requests)}" if requests else "S"

    def put_back(self, dialogue):
        """They are not served, and wait again."""
        if not dialogue.is_closed:
            dialogue.entries.extendleft(reversed(dialogue.taken))
        self.come_back(dialogue)

    def come_back(self, dialogue):
        dialogue.taken = []
        if dialogue.entries:
            self.ready.append(dialogue)
        self.free(dialogue)

    def pick(self):
        """The next that is to be sent: its dialogue, nothing if it is an Abort of the provider, and its octets."""
        if self.aborts:
            return None, self.aborts.popleft()
        dialogue, octets = self.frames.popleft()
        dialogue.frames, dialogue.is_sending = dialogue.frames - 1, True
        return dialogue, octets

    def sent(self, dialogue, is_sent=True):
        """It was sent; or it couldn't be, and the link goes down."""
        if not is_sent:
            self.down()
        if dialogue:
            self.count_sent += is_sent
            dialogue.is_sending = False
            self.free(dialogue)

    def down(self):
        for dialogue in list(self.held.values()):
            self.close(dialogue)
        self.aborts.clear()
        self.is_up = False

    def drain(self):
        """Serves and sends all. Gives the octets that are sent."""
        while self.ready:
            self.give(self.take())
        sent = []
        while self.aborts or self.frames:
            dialogue, octets = self.pick()
            sent.append(octets)
            self.sent(dialogue)
        return sent

    def report(self):
        return f"link {self.number} accepted {self.accepted} served {self.served} sent {self.count_sent}\n"


# The log

FIELDS = {letter: kinds.split() for letter, kinds in {
    b"P": "moment table message fate", b"L": "moment message fate", b"K": "moment 32 32", b"T": "64 64 32",
    b"G": "64 64 32 became", b"B": "64 64", b"Q": "64", b"Y": "64", b"U": "64", b"N": "", b"Z": "64"}.items()}


def is_field(kind, text, tables):
    """Whether this is a field of its kind, in a log by so many files of records."""
    if kind == "message":
        return re.fullmatch(rb"(?:[0-9A-F]{2}){1,4096}", text)
    if kind in ("fate", "became"):
        words, counted = (rb"O[0-9A-F]{8}|X[0-4]|E|D", b"A") if kind == "fate" else (b"S", b"[QD]")
        if re.fullmatch(words, text) or not re.match(counted, text):
            return re.fullmatch(words, text)
        kind, text = "32", text[1:]
    least = {"moment": END_OF_TIME, "table": tables, "32": 2**32, "64": 2**64}[kind]
    return re.fullmatch(rb"0|[1-9][0-9]{0,19}", text) and int(text) < least


def log_fault(log, tables):
    """The first line of a log that is bad or a gap, and which of the two; nothing if there is none."""
    lines = re.findall(rb"[^\n]*\n|[^\n]+", log)
    head = re.fullmatch(rb"fplog (?:4 ([1-8])|5 ([1-8]) ([1-9][0-9]{0,3}))\n", lines[0]) if lines else None
    if not head or head[3] and int(head[3]) > LAST_TAG:
        return 1, "bad line"
    links, tables = head[1] or head[2], min(tables, 65_536 if head[3] else 1_000)
    for index, line in enumerate(lines[1:], 2):
        link, letter, *fields = line[:-1].split(b" ") if b" " in line else (b"", b"")
        kinds = FIELDS.get(letter, ["none"])
        if line[-1:] != b"\n" or not re.fullmatch(rb"[0-7]", link) or link >= links or letter not in FIELDS \
                or len(fields) != len(kinds) or not all(map(is_field, kinds, fields, [tables] * len(kinds))):
            return index, "bad line"
        if letter == b"Z" or letter == b"K" and fields[2] != b"0":
            return index, "gap"
    return None
