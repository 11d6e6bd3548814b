"""Dialogues of a log: `find` searches it for calls, and `Played` makes the steps of one again."""
import collections
import dataclasses
import enum

import runs
import words
import model
from asking import Question
from playing import Player
from runs import Refused

# Ticks of a link are at least a second apart.
MOST_TICKS = 600


# Finding

@dataclasses.dataclass(frozen=True)
class Wanted:
    """The calls that are looked for: all that is given has to be so."""
    identifier: str = ""
    call: int = 0
    called: str = ""
    calling: str = ""
    moments: tuple = ()

    def needle(self):
        """Octets, as they are in the log, that each Begin that is looked for has; the rest is looked at only then."""
        if self.identifier:
            return f"O{self.identifier}\n".encode()
        digits = self.called or self.calling
        return "".join(digits[i + 1] + digits[i] for i in range(0, len(digits) - 1, 2)).encode()

    def has(self, identifier, birth, moment, octets):
        """Whether this Begin opens one of them."""
        if self.identifier and identifier != self.identifier or self.call and birth != self.call \
                or self.moments and not self.moments[0] <= moment < self.moments[1]:
            return False
        if not self.called and not self.calling:
            return True
        members = words.initial_of(octets) or {}
        return all(not digits or model.digits_of(members.get(tag)) == digits
                   for digits, tag in ((self.called, 0x82), (self.calling, 0x83)))


@dataclasses.dataclass(frozen=True)
class Call:
    """A dialogue of a log: its link, its number there, its identifier, and the moment and the octets of its Begin. One
    that was refused has a remark, and neither number nor identifier."""
    link: int
    birth: int
    identifier: str
    moment: int
    octets: bytes
    remark: str = ""

    def who(self):
        """Who calls whom."""
        members = words.initial_of(self.octets)
        if members is None:
            return "a Begin without InitialDP"
        called, calling = (model.digits_of(members.get(tag)) for tag in (0x82, 0x83))
        return f"{calling or 'unknown'} calls {called or 'nobody'}"


class Following:
    """The lines of a log that are steps of one dialogue, from its Begin on, or ticks of its link."""

    def __init__(self, call):
        self.call, self.lines, self.is_over, self.ticks = call, [], False, 0
        link, birth = f"{call.link} ", f"{call.birth} "
        self.own = tuple((link + start).encode() for start in (
            *(f"{letter} {birth}" for letter in "TGB"), *(f"{letter} {birth[:-1]}\n" for letter in "QY"),
            "K ", "U ", "N", "Z "))
        self.messages, self.next = ((link + "P ").encode(), (link + "L ").encode()), f"O{call.identifier}\n".encode()

    def see(self, number, line):
        """Looks at a line after that of the Begin."""
        if line.startswith(self.own):
            self.is_over = line[2:3] in b"UN"
            self.ticks = self.ticks + 1 if line[2:3] == b"K" else 0
            # (a dialogue that is open has been given the clock's entry long before so many ticks)
            if self.ticks < MOST_TICKS:
                self.lines.append((number, line))
        elif self.call.identifier.encode() in line and line.startswith(self.messages):
            self.is_over = line.endswith(self.next)
            if not self.is_over:
                self.lines.append((number, line))


def find(log, wanted, tell):
    """The one call that is looked for, with its lines, and whether it is the only one; nothing if there is none. If
    there are several each is told, in the order of the log, and so is each that was refused."""
    births, gaps, first, is_one = collections.Counter(), {}, None, True
    needle = wanted.needle()
    for number, line in log:
        if first and is_one and not first.is_over:
            first.see(number, line)
        if line[2:3] == b"Z":
            _, link, lost = log.fields(number, line)
            gaps[link] = number, gaps.get(link, (0, 0))[1] + lost
        if line[2:3] != b"P" or line[-10:-9] != b"O":
            if refused := refused_in(log, number, line, wanted, needle):
                tell(refused)
            continue
        link = line[0] - 0x30
        births[link] += 1
        if needle not in line:
            continue
        if link in gaps:
            births[link] = birth_after(*gaps[link], births[link], int(line[-9:-1], 16) % 2**29 - log.tag * runs.SERIALS)
        _, _, moment, _, message, fate = log.fields(number, line)
        identifier, octets = fate[1:].decode(), bytes.fromhex(message.decode())
        if not wanted.has(identifier, births[link], moment, octets):
            continue
        call = Call(link, births[link], identifier, moment, octets)
        if first is None:
            first = Following(call)
            first.lines.append((number, line))
            continue
        if is_one:
            tell(first.call)
            is_one = False
            first.lines.clear()
        tell(call)
    return first, is_one


def refused_in(log, number, line, wanted, needle):
    """The call of a line whose Begin was refused, if it is one that is looked for."""
    if wanted.identifier or line[2:3] not in (b"P", b"L") or needle not in line or b" 62" not in line:
        return None
    _, link, moment, *_, message, fate = log.fields(number, line)
    octets = bytes.fromhex(message.decode())
    if octets[0] != model.BEGIN or not wanted.has("", 0, moment, octets):
        return None
    cause = f", cause {words.named(int(fate[1:]), words.ABORT_CAUSES)}" if fate[:1] == b"X" else ""
    return Call(link, 0, "", moment, octets, f"refused{cause}")


def birth_after(number, lost, births, serial):
    """The number of a call on its link after a gap: until the first serial comes again it is that of its identifier."""
    if births + lost > runs.SERIALS:
        raise Refused(f"line {number}: lines are missing there, so the number of a later call on its link isn't known")
    return serial


# Playing

class Way(enum.Enum):
    """What a step of a dialogue is."""
    CAME = "from the switch"
    SENT = "from scp"
    LINK = "of the link"


@dataclasses.dataclass
class Step:
    """A step of a dialogue as it is shown: its moment, its octets, and a remark, as that it was refused."""
    way: Way
    moment: int
    octets: bytes = b""
    remark: str = ""


class Played(Player):
    """One dialogue made again, by its own lines. `steps` has what is shown of it, `question` what the program is
    asked."""

    def __init__(self, log, following, tables, contexts):
        self.call = following.call
        super().__init__(self.call.link, log.tag, tables, contexts, is_whole=False)
        self.link.births = self.call.birth - 1
        self.link.freed.append(int(self.call.identifier, 16) - self.link.base)
        self.steps, self.question = [], Question(self.call.birth, log.tag, contexts)
        # The records by which its InitialDP was read, its members and its moment, and whether it was served.
        self.table, self.initial, self.is_chosen = None, None, False
        # Messages of which an entry waits to be served, each with their number, and those that wait to be sent.
        self.unserved, self.waiting, self.asked = collections.deque(), collections.deque(), None
        for number, line in following.lines:
            letter, _, *fields = log.fields(number, line)
            self.line(number, letter, *fields)

    def is_own(self, octets, fate):
        """Whether a message is one of this dialogue: others may have its identifier elsewhere."""
        identifier = self.call.identifier
        return fate == b"O" + identifier.encode() or model.identifiers(octets)[1] == bytes.fromhex(identifier)

    def lose(self, number, moment, message, fate):
        if self.is_own(bytes.fromhex(message.decode()), fate):
            super().lose(number, moment, message, fate)

    def post(self, number, moment, table, message, fate):
        octets = bytes.fromhex(message.decode())
        if self.is_own(octets, fate):
            members = words.initial_of(octets) if fate[:1] in (b"O", b"A") and not self.initial else None
            if members is not None:
                self.initial = members, moment
            if members is not None or self.table is None:
                self.table = self.tables.of_line(table, number)
            super().post(number, moment, table, message, fate)

    def came(self, dialogue, octets, moment, fate):
        refusal = {b"X": "refused", b"E": "refused, which ends the dialogue", b"D": "discarded"}.get(fate[:1], "")
        self.steps.append(Step(Way.CAME, moment, octets, refusal))
        if refusal:
            self.steps.extend(Step(Way.SENT, moment, abort) for abort in self.link.aborts if fate[:1] == b"X")
            self.link.aborts.clear()
            return
        count = len(dialogue.entries) if fate[:1] == b"O" else int(fate[1:])
        self.unserved.extend([[octets, count]] if count else [])

    def served(self, dialogue, entry, moment):
        if entry[0] == "clock":
            self.question.tick(moment)
            return
        # (an Invoke that came: its identifier, that to which it is linked, and what is to be done, as `route`)
        if entry[0] == "invoke_came" and dialogue.state == "fresh" and entry[2] is None \
                and entry[3] not in ("rejected", "event"):
            self.is_chosen = True
        octets, count = self.unserved[0]
        if self.asked is not octets:
            self.asked = octets
            self.question.message(octets, moment, self.table.records)
        self.unserved[0][1] -= 1
        if count == 1:
            self.unserved.popleft()

    def requested(self, dialogue, octets, moment):
        step = Step(Way.SENT, moment, octets, "dropped" if dialogue.is_silent else "not sent")
        self.steps.append(step)
        if not dialogue.is_silent:
            self.waiting.append(step)

    def sent(self, dialogue, octets, is_sent):
        self.waiting.popleft().remark = "" if is_sent else "could not be sent"

    def fail(self, number, birth):
        """A frame, of this dialogue or another one, couldn't be sent, so the link went down."""
        if birth == self.call.birth:
            super().fail(number, birth)
        self.down(number)

    def gap(self, number, *fields):
        if self.link.held:
            super().gap(number, *fields)

    def down(self, number):
        if self.link.held:
            self.steps.append(Step(Way.LINK, 0, b"", "the link went down"))
        super().down(number)
