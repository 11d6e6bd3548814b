"""What tools/fuzz gives the program: messages, records and logs that are right, or nearly so. All of it comes from a
`random.Random` that is handed in as `chance`."""
import collections
import datetime
import pathlib
import re

import model
import named
from model import ABORT, BEGIN, CONTINUE, END, tlv

ROOT = pathlib.Path(__file__).resolve().parent.parent.parent
NOON = 1_714_996_800_000
CONTEXTS = [bytes.fromhex("2A0304"), bytes.fromhex("2A030405")]

# Octets, changed. A node: its tag, its contents, and the form of its length, or by how much that is wrong.

SIZES = [0, 1, 2, 3, 4, 5, 15, 16, 17, 18, 19, 63, 64, 65, 127, 128, 129, 255, 256, 257, 1_000, 4_000]
VALUES = [*range(11), 15, 16, 20, 22, 23, 24, 31, 55, 100, 126, 127, 128, 129, 254, 255]
TAGS = [bytes.fromhex(tag) for tag in """02 04 05 06 24 28 30 48 49 4A 60 61 62 64 65 66 67 68 69 6B 6C 80 81 82 83 84
    85 8A 9C A0 A1 A2 A3 A4 A5 A7 BC BE 00 20 1F1F 1F7F 9F1F 9F8101 9FFF7F BF8100 BF1E DF20 5F8080 9F818101""".split()]
FORMS, LIES = ["81", "82", "83", "84", "80"], [-300, -2, -1, 1, 2, 127, 300]


def tree_of(octets):
    """The nodes of a message."""
    def tree(part):
        tag, contents = part
        first, high = tag >> 16, tag & 0xFFFF
        own = [tag] if not first else [first, high] if high < 0x80 else [first, high >> 7 | 0x80, high & 0x7F]
        return [bytes(own), contents if isinstance(contents, bytes) else [tree(inner) for inner in contents], None]
    return tree(model.whole(octets))


def octets_of(node):
    tag, contents, form = node
    body = contents if isinstance(contents, bytes) else b"".join(map(octets_of, contents))
    if form == "80":
        return tag + b"\x80" + body + b"\0\0"
    size = max(0, len(body) + (form if isinstance(form, int) else 0))
    count = int(form[1]) if isinstance(form, str) else 0 if size < 0x80 else (size.bit_length() + 7) // 8
    length = bytes([0x80 + count]) + (size & 256**count - 1).to_bytes(count, "big") if count else bytes([size])
    return tag + length + body


def places(siblings):
    for at, node in enumerate(siblings):
        yield siblings, at
        if isinstance(node[1], list):
            yield from places(node[1])


def copy(node):
    return [node[0], node[1] if isinstance(node[1], bytes) else [copy(inner) for inner in node[1]], node[2]]


def change_element(chance, forest, other):
    """Changes one element; the lengths around it stay right, or its own is wrong."""
    siblings, at = chance.choice(list(places(forest)))
    node, what = siblings[at], chance.randrange(14)
    if what == 0:
        siblings.insert(at, copy(node))
    elif what == 1:
        del siblings[at]
    elif what == 2:
        swapped = chance.randrange(len(siblings))
        siblings[at], siblings[swapped] = siblings[swapped], siblings[at]
    elif what in (3, 4):
        there, place = chance.choice(list(places(other)))
        siblings[at:at + what - 3] = [copy(there[place])]
    elif what == 5:
        node[0] = chance.choice(TAGS)
    elif what == 6:
        node[0] = bytes([node[0][0] ^ chance.choice([1, 2, 4, 8, 0x20, 0x40, 0x80])]) + node[0][1:]
    elif what in (7, 8):
        node[2] = chance.choice(FORMS if what == 7 else LIES)
    elif what == 9:
        node[1] = chance.randbytes(chance.choice(SIZES))
    elif what == 10:
        node[1] = bytes(chance.choice(VALUES) for _ in range(len(node[1]) if isinstance(node[1], bytes) else 1))
    elif what == 11:
        for _ in range(chance.choice([1, 1, 2, 9, 10, 11, 12, 13, 14, 15, 16, 100])):
            siblings[at] = [chance.choice([b"\xA0", b"\x30", node[0]]), [siblings[at]], chance.choice([None, "80"])]
    elif what == 12 and isinstance(node[1], list):
        siblings[at:at + 1] = node[1]
    else:
        siblings[at:at] = [copy(node) for _ in range(chance.choice([1, 2, 13, 14, 15, 16, 17, 63, 64]))]


def change_octets(chance, octets, other):
    """Changes octets, whatever they are."""
    octets = bytearray(octets)
    for _ in range(chance.choice([1, 1, 1, 2, 4])):
        at, stop = sorted((chance.randrange(len(octets) + 1), chance.randrange(len(octets) + 1)))
        what = chance.randrange(6)
        if what == 0 and octets[at:]:
            octets[at] ^= 1 << chance.randrange(8)
        elif what == 1 and octets[at:]:
            octets[at] = chance.choice(VALUES)
        elif what == 2:
            octets[at:at] = chance.randbytes(chance.choice([1, 1, 2, 4, 16]))
        elif what == 3:
            del octets[at:chance.choice([at + 1, at + 2, stop, len(octets)])]
        elif what == 4:
            octets[at:at] = octets[at:stop]
        else:
            begins = chance.randrange(len(other))
            octets[at:stop] = other[begins:begins + chance.choice([1, 4, 16, 64])]
    return bytes(octets)


# Messages

def seeds():
    """The messages of the cases and examples, good ones and bad ones."""
    paths = "crates/cases_program/stdin", "crates/cases_links/stdin", "examples/calls.txt"
    text = " ".join(" ".join(named.expanded((ROOT / path).read_text())) for path in paths)
    return sorted(set(map(bytes.fromhex, re.findall(r"\b6[0-9A-F](?:[0-9A-F]{2}){1,4095}\b", text))))


class Traffic:
    """The switch of one link: makes messages, and knows what its link, a model, has of them."""

    def __init__(self, chance, link, seeds):
        self.chance, self.link, self.seeds = chance, link, seeds
        self.number, self.locals = chance.randrange(2**31), collections.deque(maxlen=30)
        self.many, self.few = None, 0.5 if chance.random() < 0.05 else 0.98

    def one_of(self, *choices):
        return self.chance.choice(choices)

    def dialogue(self):
        """A dialogue that is open, if there is one, seldom one that is over; and its identifier."""
        local = bytes(4)
        while self.locals:
            at = self.chance.randrange(len(self.locals))
            local = self.locals[at]
            dialogue = self.link.admitted(local)
            if dialogue or self.chance.random() < 0.1:
                return dialogue, local
            del self.locals[at]
        return None, local

    def invoke(self, code, *argument):
        linked = tlv(0x80, bytes([self.one_of(1, 2, 3, 200)])) if self.chance.random() < 0.03 else b""
        return tlv(0xA1, tlv(2, bytes([self.chance.randrange(256)])), linked, code, *argument)

    def initial_dp(self):
        records, chance = self.link.records, self.chance
        called = chance.choice(list(records.rules)[:20]) if records.rules and chance.random() < 0.9 else b"800123455"
        prefix = records.rules[called][0][0].decode() if called in records.rules else ""
        calling = prefix + "1234567"
        if chance.random() < 0.4:
            calling = chance.choice(["301234567", "30210", "89" * 15, "3021A", prefix, ""])
        key = records.key if chance.random() < 0.95 else chance.choice([0, 127, 128, 255, 2**31 - 1])
        members = [tlv(0x80, key.to_bytes(chance.choice([4, key.bit_length() // 8 + 1]), "big")),
                   tlv(0x82, model.number_octets(called.decode())), tlv(0x85, b"\x0A"), tlv(0x9C, b"\3")]
        members += [tlv(0x83, model.number_octets(calling, 0x13))] if calling and chance.random() < 0.8 else []
        if chance.random() < 0.2:
            chance.shuffle(members)
            members = members[chance.randrange(2):] + [tlv(0x8A, b"\x83\x10\x03")] * chance.randrange(2)
        return self.invoke(b"\2\1\0", tlv(0x30, *members))

    def report(self):
        mode = self.one_of(b"", tlv(0xA4, b"\x80\1\0"), tlv(0xA4, b"\x80\1\1"))
        kind = tlv(0x80, bytes([self.one_of(5, 5, 6, 4, 9, 7, 10, 8, 2, 255)]))
        return self.invoke(b"\2\1\x18", tlv(0x30, kind, bytes.fromhex("A303810102"), mode))

    def component(self, dialogue):
        active = list(dialogue.active) if dialogue else []
        known = self.one_of(*active) if active and self.chance.random() < 0.8 else self.one_of(1, 2, 3, 5, 127, 255)
        identifier, what = tlv(2, bytes([known])), self.chance.random()
        if what < 0.6:
            return self.report() if what < 0.5 else self.initial_dp()
        if what < 0.72:
            return tlv(self.one_of(0xA2, 0xA2, 0xA7), identifier, self.one_of(
                b"", b"", tlv(0x30, b"\2\1\x37"), tlv(0x30, b"\2\1\x14\4\0")))
        if what < 0.82:
            return tlv(0xA3, identifier, self.one_of(b"\2\1\6", b"\6\0", b"\2\1\6\x30\0"))
        if what < 0.92:
            problem = tlv(self.one_of(0x80, 0x81, 0x81, 0x82, 0x83), bytes([self.one_of(0, 1, 2, 9)]))
            return tlv(0xA4, self.one_of(identifier, identifier, b"\5\0"), problem)
        return self.one_of(tlv(0xA5), tlv(0xA1, b"\2\1\1"), self.invoke(b"\2\1\x63"), self.invoke(b"\6\1\x2A"),
                           self.invoke(b"\2\1\0"), tlv(0xA3), tlv(0x81, b"\1"), self.invoke(b"\2\2\0\x18", b"\4\0"))

    def components(self, dialogue, first=()):
        is_few = self.chance.random() < self.few
        count = self.one_of(0, 1, 1, 1, 1, 1, 1, 2, 2, 3, 5) if is_few else self.one_of(14, 15, 16, 16, 17, 60)
        parts = [*first, *(self.component(dialogue) for _ in range(count - len(first)))]
        return tlv(0x6C, *parts) if parts or self.chance.random() < 0.05 else b""

    def proposal(self):
        what = self.chance.random()
        if what < 0.7:
            return b""
        name = CONTEXTS[0] if what > 0.8 else self.one_of(*CONTEXTS, b"\x2A", b"\x2A" * 64)
        version = b"" if what > 0.9 else self.one_of(b"\x80\2\7\x80", b"", b"\x80\2\7\0", b"\x80\1\0")
        information = tlv(0xBE, b"\4\0") if what > 0.97 else b""
        return model.dialogue_portion(tlv(0x60, version, tlv(0xA1, tlv(6, name)), information))

    def begin(self):
        self.number += 1
        own = self.number.to_bytes(4, "big")
        if self.chance.random() < 0.1:
            own = self.chance.randbytes(self.one_of(1, 2, 3, 4))
        first = [self.initial_dp()] if self.chance.random() < 0.9 else []
        return tlv(BEGIN, tlv(0x48, own), self.proposal(), self.components(None, first))

    def next_of_many(self):
        """A Begin of a dialogue that stays open or is over at once, or a report that keeps a dialogue open."""
        self.number += 1
        begin = [BEGIN, tlv(0x48, self.number.to_bytes(4, "big"))]
        if self.many == "open":
            return tlv(*begin)
        if self.many == "over":
            return tlv(*begin, model.dialogue_portion(tlv(0x60, tlv(0xA1, tlv(6, b"\x2A")))))
        dialogue, local = self.dialogue()
        if not dialogue or dialogue.state != "waiting":
            return tlv(*begin, tlv(0x6C, self.initial_dp()))
        invoke = tlv(0xA1, b"\2\1\1\2\1\x18", tlv(0x30, tlv(0x80, b"\x08")))
        return tlv(CONTINUE, begin[1], tlv(0x49, local), tlv(0x6C, invoke))

    def good(self):
        """A message that is right, for a dialogue that is open if there is one."""
        dialogue, local = self.dialogue()
        what, to = self.chance.random(), tlv(0x49, local)
        if what < 0.2 or dialogue is None and what < 0.9:
            return self.begin()
        if what < 0.9:
            own = dialogue.peer if self.chance.random() < 0.95 else self.chance.randbytes(4)
            return tlv(CONTINUE, tlv(0x48, own), to, self.components(dialogue))
        if what < 0.93:
            return tlv(END, to, self.components(dialogue))
        if what < 0.95:
            return tlv(ABORT, to, self.one_of(b"", b"\x4A\1\1", model.ABRT, b"\x6B\0"))
        if what < 0.98:
            nowhere = self.one_of(bytes(4), b"\1", self.chance.randbytes(4))
            return tlv(CONTINUE, tlv(0x48, self.chance.randbytes(4)), tlv(0x49, nowhere), self.components(None))
        return self.one_of(b"\x61\0", b"\x61", b"\x66\x06" + tlv(0x48, bytes(4)), tlv(0x66, to))

    def message(self):
        """A message of 1 to 4,096 octets, right or nearly so."""
        what = self.chance.random()
        octets = self.good() if what < 0.9 else self.chance.choice(self.seeds)
        if what > 0.93 or self.chance.random() < 0.01:
            octets = re.sub(rb"\x49\x04....", lambda _: tlv(0x49, self.dialogue()[1]), octets, count=1, flags=re.S)
        if 0.68 < what < 0.97:
            other = self.good() if what < 0.87 else self.chance.choice(self.seeds)
            try:
                forest, others = [tree_of(octets)], [tree_of(other)] if what < 0.8 else None
                for _ in range(self.one_of(1, 1, 1, 2, 3)):
                    if forest and others:
                        change_element(self.chance, forest, others)
                octets = b"".join(map(octets_of, forest)) if others else change_octets(self.chance, octets, other)
            except model.Fault:
                octets = change_octets(self.chance, octets, other)
        return octets[:4_096] or b"\0"

    def post(self, octets, now, is_lost=False):
        """The message comes to the link. Gives what becomes of it."""
        became = self.link.post(octets, now, is_lost)
        if became[0] == "O":
            self.locals.append(bytes.fromhex(became[1:]))
        return became


# The lines of ask

LINE = re.compile(rb"(?:[0-9A-Fa-f]{2}){1,4096}|\+[0-9]{1,13}")
WAITS = [0, 1, 10, 999, 1_000, 4_999, 5_000, 5_001, 9_999, 10_000, 119_999, 120_000, 299_999, 300_000]
BAD_LINES = [b"", b" ", b"+", b"+x", b"+-5", b"+5 ", b" +5", b"+12345678901234", b"+9999999999999", b"6", b"620", b"6G",
             b"\0", b"\xFF", b"0x62", b"62 00", b"6200\r", b"6200\t", b"6" * 8_193, b"6" * 8_194, b"62" * 10_000,
             "６２".encode()]


# How many lines there are of one kind at first: as many dialogues as are held at most, as there are identifiers, or
# messages in one dialogue, so that its invocations begin anew.
MANY = {"open": 4_200, "over": 131_200, "long": 300}


def some_line(chance, traffic):
    """A wait, or a message, seldom two of them in one line."""
    if traffic.many:
        return traffic.next_of_many().hex().encode() if traffic.many != "long" or chance.random() < 0.7 else b"+5000"
    if chance.random() < 0.05:
        return b"+%d" % chance.choice(WAITS if chance.random() < 0.97 else [10**9, 10**12])
    line = (traffic.message() + (traffic.message() if chance.random() < 0.005 else b"")).hex().encode()
    return line.upper() if chance.random() < 0.9 else line


def instant(chance, moment):
    """A moment as an instant in text."""
    offset = chance.choice([0, 0, 120, -330, 14 * 60])
    local = datetime.datetime(1970, 1, 1) + datetime.timedelta(milliseconds=moment, minutes=offset)
    text = local.isoformat(timespec="milliseconds" if moment % 1_000 or chance.random() < 0.2 else "seconds")
    zone = f"{'-' if offset < 0 else '+'}{abs(offset) // 60:02}:{abs(offset) % 60:02}"
    return text + (zone if offset or chance.random() < 0.2 else "Z")


# Records

NUMBERS = ["800123456", "800123457", "800123458", "800123459", "8", "0800", "999999999999999"]
WINDOWS = [("08:00", "18:00"), ("18:00", "08:00"), ("23:59", "00:00"), ("00:00", "00:01"), ("12:00", "24:00"),
           ("13:00", "13:01")]
ACTIONS = [("route", 1), ("route", 2), ("route", 3), ("route", 4), ("route", 4), ("refuse", 0), ("pass", 0)]
# Texts at a limit or beyond it: of any field, and of each field of a record that begins with this word, or is a rule.
TEXTS = ["", "0", " 1", "1 ", "\t1", "\0", "é", "-1", "a", "0" * 70_000 + "1", "1" * 70_000, '"', '""', 'a"b', ",",
         "\r", "\n", "\r\n", "99999999999999999999", "18446744073709551617"]
DIGITS = ["0", "00", "123456789012345", "1234567890123456", "000000000000000", "0000000000000000", "1A", "+1"]
TIMES = "00:00 24:00 23:59 24:01 7:00 07:60 007:00 12.00 1200 25:00 00:0 00:000".split()
LIMITS = {"": [DIGITS, ["", *DIGITS], ["1", "7", "1234567", "7654321", "11", "8", "0", "17"], TIMES, TIMES,
               ["0", "1", "1000", "1001", "0001000", "00"], ["route", "Route", "refuse", "pass", "passed"],
               *[DIGITS] * 5],
          "key": [["key", "Key"], ["0", "2147483647", "2147483648", "002147483647", "4294967297"],
                  ["840", "841", "-720", "-721", "-0720", "-0", "+60", "-", "0840", "--1"]],
          "closed": [["closed", "Closed"], DIGITS, """1969-12-31 1969-12-30 2100-01-01 2100-01-02 2000-02-29 1900-02-29
                     2024-02-30 2024-13-01 2024-00-01 2024-1-01 2024-05-06T 0000-01-01 2024-04-31 2099-02-29 9999-12-31
                     20240506""".split()],
          "fprecords": [["fprecords", "fprecord", "fprecords "], ["1", "2", "3", "02", ""]]}


def a_rule(chance, is_timeless):
    days, window = "1234567", ("00:00", "24:00")
    if not is_timeless and chance.random() < 0.5:
        days, window = "".join(day for day in days if chance.random() < 0.6) or "3", chance.choice(WINDOWS)
    action, count = chance.choice(ACTIONS)
    number, prefix = chance.choice(NUMBERS[:5] if chance.random() < 0.9 else NUMBERS), ["", "", "30", "3021", "89", "2"]
    weight = str(chance.choice([1, 1, 2, 60, 1000]))
    destinations = (chance.choice(["302223344", "1", "00", "123456789012345", "402004000"]) for _ in range(count))
    return [number, chance.choice(prefix), days, *window, weight, action, *destinations]


def some_records(chance, is_timeless=False):
    """The records of a good file, each a list of fields. Timeless: each moment gets the same."""
    rows = [["fprecords", "2"]] if chance.random() < 0.5 else []
    days = ["2024-05-06", "2024-05-07", "1970-01-01", "2099-12-31"] if rows and not is_timeless else []
    key, offset = chance.choice([100, 100, 0, 127, 128, 65536, 2**31 - 1]), chance.choice([60, 0, -720, 840, 345])
    rows.append(["key", str(key), str(offset)])
    for _ in range(chance.choice([1, 5, 10, 30]) if chance.random() < 0.98 else 0):
        rows.append(["closed", chance.choice(NUMBERS), chance.choice(days)] if days and chance.random() < 0.2 else
                    a_rule(chance, is_timeless))
    return rows


def text_of(chance, rows, odd=0.0):
    """A file of these records; its lines and fields are written in odd ways as often as `odd` says."""
    def field(text):
        quoted = chance.random() < odd or re.search('[",\r\n]', text) and chance.random() < 0.8
        return '"' + text.replace('"', '""') + '"' if quoted else text

    ends = ["\n", "\r\n", "\r", "\n\n", "\r\n\r\n"] if odd else ["\n"]
    text = "".join(",".join(map(field, row)) + chance.choice(ends) for row in rows)
    if odd and chance.random() < 0.3:
        text = text.rstrip("\r\n")
    mark = b"\xEF\xBB\xBF" if chance.random() < odd else b""
    return mark + text.encode("utf-8" if chance.random() < 0.9 else "latin-1")


def change_records(chance, rows):
    """Changes a record, a field, or the order."""
    row = chance.choice(rows[2:] or rows if chance.random() < 0.7 else rows)
    at, what = chance.randrange(len(row)), chance.randrange(10)
    limits = LIMITS.get(row[0], LIMITS[""])
    if what < 6:
        row[at] = chance.choice(limits[at] if limits[at:] and chance.random() < 0.7 else TEXTS)
    elif what == 6:
        row.insert(at + chance.randrange(2), chance.choice(TEXTS))
    elif what == 7 and len(row) > 1:
        del row[at]
    elif what == 8:
        rows.insert(chance.randrange(len(rows) + 1), rows.pop(chance.randrange(len(rows))))
    else:
        rows.insert(chance.randrange(len(rows) + 1), list(row))


def file_at_limit(chance):
    """The records of a file that reaches a limit of the table, or exceeds it by one."""
    what = chance.randrange(3)
    rule, most = ["", "1", "00:00", "24:00", "1", "pass"], [1_000, 100_000, 10_000][what] + chance.randrange(2)
    return [["fprecords", "2"], ["key", "100", "60"]] + [
        [["800", *rule], [str(row), *rule], ["closed", "1", "2024-01-01"]][what] for row in range(most)]


def changed_file(chance):
    """A file of records, right or nearly so."""
    what = chance.random()
    if what < 0.2:
        paths = sorted([*(ROOT / "examples").glob("*.csv"), *(ROOT / "crates/cases_program/data").glob("*.csv")])
        text = chance.choice(paths).read_bytes()
    else:
        rows = some_records(chance) if what > 0.203 else file_at_limit(chance)
        for _ in range(chance.choice([0, 1, 1, 1, 2, 3])):
            change_records(chance, rows)
        text = text_of(chance, rows, odd=chance.choice([0, 0, 0.1, 0.5]))
    if text and chance.random() < 0.3:
        text = change_octets(chance, text, chance.choice([b"\0", b"\r", b"\n", b'"', b",", b"\xFF\xFE", text]))
    return text


# Logs, as lines without their line feeds

class Worker:
    """A link whose steps are made one by one, in any order that a run with several workers may have."""

    def __init__(self, chance, link, seeds):
        self.chance, self.link, self.traffic, self.turns, self.is_sending, self.parcel = chance, link, Traffic(
            chance, link, seeds), [], False, None
        self.is_lazy = chance.random() < 0.1
        self.traffic.few = 0.5 if self.is_lazy else self.traffic.few

    def step(self, now, tables):
        """Makes a step. Gives the moment after it, and its line without the link, if it has one."""
        link, chance = self.link, self.chance
        steps = ["post"] * (1 + (len(link.ready) < 4 and len(link.frames) < 10)) * chance.randrange(2) * link.is_up
        if self.is_lazy and chance.random() < 0.9:
            return self.post(now, tables)
        steps += ["take"] * 2 * (len(self.turns) < 3 and bool(link.ready)) + ["give"] * len(self.turns)
        steps += ["sent"] * self.is_sending or ["pick"] * bool(link.aborts or link.frames)
        steps += ["tick"] * (chance.random() < 0.2 and link.is_up)
        steps += ["down"] * (link.is_up and chance.random() < 0.003)
        return getattr(self, chance.choice(steps or ["post"]))(now, tables)

    def post(self, now, tables):
        now, table = now + self.chance.choice([0, 1, 7, 500]), self.chance.randrange(len(tables))
        octets = self.traffic.message()
        self.link.records, is_lost = tables[table], self.chance.random() < 0.02
        became = self.traffic.post(octets, now, is_lost)
        return now, f"{f'L {now}' if is_lost else f'P {now} {table}'} {octets.hex().upper()} {became}"

    def tick(self, now, _):
        now += self.chance.choice([1_000, 1_000, 5_000, 10_000, 120_000])
        count = self.link.tick(now)
        return now, f"K {now} {count} 0" if count or self.chance.random() < 0.2 else None

    def take(self, now, _):
        dialogue = self.link.take()
        self.turns.append(dialogue)
        return now, f"T {dialogue.birth} {dialogue.position} {len(dialogue.taken)}"

    def give(self, now, _):
        dialogue = self.turns.pop(self.chance.randrange(len(self.turns)))
        place = f"{dialogue.birth} {dialogue.position}"
        if self.chance.random() < 0.05:
            self.link.put_back(dialogue)
            return now, f"B {place}"
        return now, "G {} {} {}".format(place, *self.link.give(dialogue))

    def pick(self, now, _):
        self.parcel, self.is_sending = self.link.pick()[0], True
        return now, f"Q {self.parcel.birth if self.parcel else 0}"

    def sent(self, now, _):
        is_sent, self.is_sending = self.chance.random() < 0.99, False
        self.link.sent(self.parcel, is_sent)
        return now, f"{'Y' if is_sent else 'U'} {self.parcel.birth if self.parcel else 0}"

    def down(self, now, _):
        self.link.down()
        return now, "N"


def some_tag(chance):
    """The tag of a run, mostly none."""
    return chance.choice([0, 0, 0, 1, chance.randrange(model.LAST_TAG), model.LAST_TAG])


def some_links(chance):
    """The numbers of the links of a run, mostly from 0."""
    count = chance.choice([1, 1, 2, 3])
    first = chance.choice([0, 0, 0, 1, 8 - count])
    return range(first, first + count)


def head_of(links, tag):
    """The head of the log of a run with a tag, or without one. Links below its first one count, too."""
    return b"fplog 5 %d %d" % (links, tag) if tag else b"fplog 4 %d" % links


def a_log(chance, tables, contexts, seeds):
    """The log of a run with several links and workers, and what it replays to."""
    numbers, tag = some_links(chance), some_tag(chance)
    before = [model.Link(tables[0], number=number) for number in range(numbers[0])]
    workers = [Worker(chance, model.Link(tables[0], contexts, number, tag), seeds) for number in numbers]
    lines, now = [head_of(numbers.stop, tag)], chance.choice([NOON, 0, model.END_OF_TIME - 100_000_000])
    for _ in range(chance.choice([1, 10, 50, 200, 500])):
        working = [worker for worker in workers if worker.link.is_up or worker.turns or chance.random() < 0.02]
        if not working:
            break
        worker = chance.choice(working)
        now, line = worker.step(now, tables)
        lines += [f"{worker.link.number} {line}".encode()] if line else []
    return lines, "".join(link.report() for link in before + [worker.link for worker in workers]).encode()


# In each kind of line the fields that follow from all that is before them.
FOLLOWS = {b"P": [5], b"L": [4], b"K": [3], b"T": [2, 3, 4], b"G": [4, 5], b"Q": [2], b"Y": [2]}
FATES = b"O00000001 O00000002 A0 A1 A2 X0 X1 X2 X4 E D Q0 Q1 Q2 D1 S".split()
LINES = [b"", b"0", b"\0", b"0 N", b"7 N", b"0 Z 1", b"0 Z 0", b"0 K 1714996800000 0 1", b"0 K 4102444799999 0 0",
         b"0 B 1 0", b"0 U 1", b"0 U 0", b"0 Q 0", b"fplog 4 1", b"fplog 3 1", b"fplog 5 1", b"fplog 5 1 1",
         b"fplog 5 1 0", b"fplog 4 1 1", b"fplog 5 8 4094", b"fplog 5 1 4095", b"0 T 1 0 4294967296",
         b"0 N" + b" " * 9_000, b"0 P 0 0 " + b"62" * 4_096 + b" D",
         b"0 P 0 0 " + b"62" * 4_097 + b" D"]
# Fields of each kind at a limit or beyond it.
EDGES = {"moment": [b"0", b"4102444799999", b"4102444800000"],
         "table": [b"0", b"1", b"2", b"3", b"999", b"1000", b"65535", b"65536"],
         "32": [b"4294967295", b"4294967296"], "64": [b"18446744073709551615", b"18446744073709551616"],
         "fate": [b"O0000000g", b"O000000001", b"X5", b"A4294967295", b"A4294967296", b"S"],
         "became": [b"Q4294967296", b"E", b"A1"], "message": [b"6", b"6g", b""]}


def other_field(chance, field):
    """A field that may be there, too, and says something else."""
    if not re.fullmatch(rb"[0-9]{1,30}", field):
        return chance.choice(FATES)
    return b"%d" % chance.choice([0, int(field) + 1, max(0, int(field) - 1), 2**32 - 1])


def faulty_head(chance, lines):
    """The lines of a good log with a head that no log has, or with that of another tag, which the first dialogue that is
    opened doesn't have; and what that gets."""
    links = int(lines[0].split(b" ")[2])
    if chance.random() < 0.5:
        head = chance.choice([b"fplog 5 %d 0", b"fplog 5 %d 4095", b"fplog 5 %d 01", b"fplog 5 %d", b"fplog 5 %d 1 1",
                              b"fplog 4 %d 1", b"fplog 3 %d", b"fplog 6 %d 1"]) % links
        return [head, *lines[1:]], "line 1: bad line\n"
    head = lines[0]
    while head == lines[0]:
        head = head_of(links, some_tag(chance))
    opens = next((at for at, line in enumerate(lines, 1) if line.rsplit(b" ", 1)[-1].startswith(b"O")), None)
    return [head, *lines[1:]], f"line {opens}: disagrees\n" if opens else None


def faulty_log(chance, lines, tables):
    """The lines of a good log, of which one says what doesn't follow, or has a field beyond its limit; and what that
    gets. Nothing if none was found."""
    if chance.random() < 0.1:
        return faulty_head(chance, lines)
    at = chance.randrange(len(lines))
    fields = lines[at].split(b" ")
    kinds, is_beyond = model.FIELDS.get(fields[1], []), chance.random() < 0.5
    places = list(range(2, len(fields))) if is_beyond else FOLLOWS.get(fields[1], [])
    if not at or not places:
        return lines, None
    field = chance.choice(places)
    kind, old = kinds[field - 2], fields[field]
    fields[field] = chance.choice(EDGES[kind]) if is_beyond else other_field(chance, old)
    if fields[field] == old or bool(model.is_field(kind, fields[field], tables)) == is_beyond:
        return lines, None
    fault = f"line {at + 1}: {'bad line' if is_beyond else 'disagrees'}\n"
    return [*lines[:at], b" ".join(fields), *lines[at + 1:]], fault


def changed_log(chance, lines):
    """The lines of a log, changed somehow."""
    lines = list(lines)
    for _ in range(chance.choice([1, 1, 2, 3])):
        at, what, other = chance.randrange(len(lines)), chance.randrange(12), chance.randrange(len(lines))
        fields = lines[at].split(b" ")
        field = chance.randrange(len(fields))
        if what == 0:
            lines.insert(other, lines[at])
        elif what == 1 and len(lines) > 1:
            del lines[at]
        elif what == 2:
            lines[at], lines[other] = lines[other], lines[at]
        elif what == 3:
            lines.insert(at, chance.choice(LINES))
        elif what == 4:
            lines[at] = change_octets(chance, lines[at], lines[other] or b"0")
        elif what == 5:
            lines[at:at + 2] = [b"".join(lines[at:at + 2])]
        else:
            kinds = model.FIELDS.get(fields[1] if fields[1:] else b"", [])
            limits = EDGES[kinds[field - 2]] if field > 1 and kinds[field - 2:] else [
                b"0", b"7", b"8", b"4094", b"4095", b"A", b"n"]
            odd = [text % fields[field] for text in (b"0%s", b"+%s", b"-%s", b"%s\r", b"%s\t", b"%s ")]
            odd += [b"", fields[field].lower()]
            another = [other_field(chance, fields[field])]
            fields[field] = chance.choice(limits if what > 8 else odd if what == 8 else another)
            lines[at] = b" ".join(fields)
    return lines
