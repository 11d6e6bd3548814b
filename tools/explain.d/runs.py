"""The inputs of tools/explain and tools/sums: files of records, accepted contexts, moments, and the lines of a log.
Records and octets are read by tools/fuzz.d/model.py, which tools/fuzz compares with the program.

An input that can't be read ends in a `Refused`, whose text names it; `guarded` makes that a line and a status."""
import dataclasses
import datetime
import os
import pathlib
import re
import sys

ROOT = pathlib.Path(__file__).resolve().parent.parent.parent
sys.dont_write_bytecode = True
sys.path.insert(0, str(ROOT / "tools/fuzz.d"))
import model

# The serials of a link are 1 to this, and are given one after another; a tag is a multiple of it.
SERIALS = 131_072
HEAD = re.compile(rb"fplog (?:4 ([1-8])|5 ([1-8]) ([1-9][0-9]{0,3}))\n")
PATTERNS = {"moment": rb"(0|[1-9][0-9]{0,12})", "table": rb"(0|[1-9][0-9]{0,2})", "32": rb"(0|[1-9][0-9]{0,9})",
            "64": rb"(0|[1-9][0-9]{0,19})", "message": rb"((?:[0-9A-F]{2}){1,4096})",
            "fate": rb"(O[0-9A-F]{8}|A(?:0|[1-9][0-9]{0,9})|X[0-4]|E|D)", "became": rb"(S|[QD](?:0|[1-9][0-9]{0,9}))"}
STEPS = {letter: re.compile(b" ".join([b"([0-7])", letter, *(PATTERNS[kind] for kind in kinds)]) + b"\n")
         for letter, kinds in model.FIELDS.items()}
# Of each field of a line, its link first, whether it is a number.
NUMBERS = {letter: [True, *(kind not in ("message", "fate", "became") for kind in kinds)]
           for letter, kinds in model.FIELDS.items()}


class Refused(Exception):
    """Something that was handed in can't be used; the text says what."""


class Gap(Refused):
    """Lines of a log are missing."""


def guarded(name, main, *words):
    """Runs a tool, and ends it: what it refuses is a line on standard error, status 1."""
    try:
        status = main(*words) or 0
        sys.stdout.flush()
    except Refused as refused:
        print(f"{name}: {refused}", file=sys.stderr)
        status = 1
    except BrokenPipeError:
        os.dup2(os.open(os.devnull, os.O_WRONLY), sys.stdout.fileno())
        status = 1
    except KeyboardInterrupt:
        status = 130
    sys.exit(status)


# Moments: milliseconds since 1970

EPOCH = datetime.datetime(1970, 1, 1)
WANTED = re.compile(r"(\d{4})-(\d\d)-(\d\d)(?:T(\d\d)(?::(\d\d)(?::(\d\d)(?:[.,](\d{1,3}))?)?)?)?(Z|[+-]\d\d:\d\d)?")


def text_of(milliseconds):
    return (EPOCH + datetime.timedelta(milliseconds=milliseconds)).isoformat(timespec="milliseconds") + "Z"


def moments_of(text, offset):
    """The first moment of a time, and the first one after it: a day, an hour, a minute, a second or a millisecond.
    Without an offset of its own it is a local time, so many minutes east of UTC."""
    found = WANTED.fullmatch(text)
    try:
        *parts, zone = found.groups()
        given = [int(part) for part in parts[:6] if part is not None]
        begins = datetime.datetime(*given[:3], *given[3:])
    except (AttributeError, ValueError, OverflowError):
        raise Refused(f"--at {text}: not a time, as 2024-05-06T13:00 or 2024-05-06T12:00:00Z") from None
    units = {3: 86_400_000, 4: 3_600_000, 5: 60_000, 6: 1_000}
    unit = 10 ** (3 - len(parts[6])) if parts[6] else units[len(given)]
    if zone and zone != "Z":
        offset = (int(zone[1:3]) * 60 + int(zone[4:])) * (-1 if zone[0] == "-" else 1)
    fraction = int((parts[6] or "0").ljust(3, "0"))
    first = (begins - EPOCH) // datetime.timedelta(milliseconds=1) + fraction - (0 if zone == "Z" else offset) * 60_000
    if not 0 <= first < model.END_OF_TIME:
        raise Refused(f"--at {text}: not a time from 1970 to 2099")
    return first, first + unit


# Records and contexts

@dataclasses.dataclass
class Table:
    """A file of records: its path, its octets, and what they hold."""
    path: str
    octets: bytes
    records: model.Records


class Tables:
    """The files of records of a run, RECORDS and LATER, each read when it is first needed."""

    def __init__(self, paths):
        self.paths, self.read = paths, {}
        for path in paths:
            if not os.path.exists(path):
                raise Refused(f"{path}: records: cannot be read")

    def __getitem__(self, index):
        if index not in self.read:
            self.read[index] = table_of(self.paths[index])
        return self.read[index]

    def of_line(self, index, number):
        """That which line `number` of a log names."""
        if index >= len(self.paths):
            raise Refused(f"line {number}: its message was read by the records of reload {index}, which aren't given: "
                          "the LATER files have to follow LOG, in the order of the reloads")
        return self[index]


def table_of(path):
    try:
        octets = pathlib.Path(path).read_bytes()
    except (OSError, ValueError):
        raise Refused(f"{path}: records: cannot be read") from None
    try:
        return Table(path, octets, model.Records(octets))
    except model.Fault as fault:
        raise Refused(f"{path}: record {fault.args[0]}: {fault.args[1]}") from None


def contexts_of(text):
    """The application contexts of a run: the words that `scp` takes."""
    names = text.split(",") if text is not None else []
    if len(names) > 16 or not all(re.fullmatch(r"(?:[0-9A-Fa-f]{2}){1,64}", name) for name in names):
        raise Refused("contexts: not a list of names")
    return [bytes.fromhex(name) for name in names]


# The log

class Log:
    """The log of a run, from its beginning: `links`, `tag`, and its lines with their numbers. A last line that was cut
    off is left out, as the run may still be writing it."""

    def __init__(self, path):
        try:
            self.file = open(path, "rb")
            head = HEAD.fullmatch(self.file.readline(8_301))
        except (OSError, ValueError):
            raise Refused(f"{path}: log: cannot be opened") from None
        if not head or int(head[3] or 0) > model.LAST_TAG:
            raise Refused(f"{path}: line 1: bad line: a log begins with fplog 4 LINKS, or fplog 5 LINKS TAG")
        self.links, self.tag = int(head[1] or head[2]), int(head[3] or 0)

    def __iter__(self):
        with self.file as file:
            try:
                yield from ((number, line) for number, line in enumerate(file, 2) if line.endswith(b"\n"))
            except OSError:
                raise Refused("log: cannot be read") from None

    def fields(self, number, line):
        """The letter of a line, its link and its fields, those that are numbers as numbers."""
        letter = line[2:3]
        found = letter in STEPS and STEPS[letter].fullmatch(line)
        if not found or int(found[1]) >= self.links:
            raise Refused(f"line {number}: bad line")
        fields = zip(found.groups(), NUMBERS[letter])
        return letter, *(int(field) if is_number else field for field, is_number in fields)
