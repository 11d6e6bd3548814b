"""Plays the lines of a log into the model of docs/profile.md that tools/fuzz compares with the program: each step is
made again, has to agree with its line, and gives the messages that the log hasn't got."""
import enum

from runs import Gap, Refused, model


STEPS = {b"P": "post", b"L": "lose", b"K": "tick", b"T": "take", b"G": "give", b"B": "put_back", b"Q": "pick",
         b"Y": "send", b"U": "fail", b"N": "down", b"Z": "gap"}


class Ending(enum.Enum):
    """How a dialogue ended."""
    SCP_END = "End of scp"
    SCP_ABORT = "Abort of scp"
    SWITCH_END = "End of the switch"
    SWITCH_ABORT = "Abort of the switch"
    REFUSED = "a message that was refused"
    LINK = "the link went down"
    OPEN = "still open at the end of the log"


class Player:
    """A link whose lines are played; `is_whole` if all of them are, and not those of one dialogue alone. What a tool
    needs of the steps it gets by overriding the methods of the first part."""

    def __init__(self, number, tag, tables, contexts, is_whole=True):
        self.link, self.tables, self.is_whole = model.Link(None, contexts, number, tag), tables, is_whole
        # The dialogues that are being served, by birth, and what is being sent.
        self.turns, self.picked = {}, None

    def came(self, dialogue, octets, moment, fate):
        """A message came, and this became of it; `dialogue` is the one that it opened or named, if any."""

    def served(self, dialogue, entry, moment):
        """An entry is about to be served."""

    def requested(self, dialogue, octets, moment):
        """The service requested a message."""

    def sent(self, dialogue, octets, is_sent):
        """A message was sent, or could not be. It is an Abort of the provider if there is no dialogue."""

    def ended(self, dialogue, ending):
        """A dialogue ended."""

    def line(self, number, letter, *fields):
        """Makes the step of a line again."""
        getattr(self, STEPS[letter])(number, *fields)

    def expect(self, number, is_so):
        if not is_so:
            raise Refused(f"line {number}: disagrees: the files of records, or --contexts, aren't those of the run")

    # Messages

    def post(self, number, moment, table, message, fate):
        self.link.records = self.tables.of_line(table, number).records
        self.receive(number, moment, bytes.fromhex(message.decode()), fate, False)

    def lose(self, number, moment, message, fate):
        self.receive(number, moment, bytes.fromhex(message.decode()), fate, True)

    def receive(self, number, moment, octets, fate, is_lost):
        is_accepted = fate[:1] in (b"O", b"A")
        dialogue = self.link.admitted(model.identifiers(octets)[1]) if octets[0] != model.BEGIN else None
        found = self.link.post(octets, moment, is_lost).encode()
        self.expect(number, found == fate or not self.is_whole and not is_accepted)
        if fate[:1] == b"O":
            dialogue = self.link.held[int(fate[1:], 16)]
            self.watch(dialogue)
        self.came(dialogue, octets, moment, fate)
        if dialogue and not dialogue.is_admitted:
            self.ended(dialogue, Ending.REFUSED if not is_accepted else
                       Ending.SWITCH_END if octets[0] == model.END else Ending.SWITCH_ABORT)

    def watch(self, dialogue):
        """Has the tool see what the service is asked and what it requests."""
        serve = dialogue.step

        def step(entry, moment):
            self.served(dialogue, entry, moment)
            request = serve(entry, moment)
            if request:
                self.requested(dialogue, request, moment)
            return request

        dialogue.step = step

    def tick(self, number, moment, count, wanting):
        if wanting:
            self.gap(number)
        found = self.link.tick(moment)
        self.expect(number, found == count or not self.is_whole)

    # Turns

    def take(self, number, birth, position, count):
        self.expect(number, self.link.ready)
        dialogue = self.link.take()
        # (fewer are taken if there is no place for more frames)
        dialogue.entries.extendleft(reversed(dialogue.taken[count:]))
        del dialogue.taken[count:]
        self.expect(number, (dialogue.birth, dialogue.position, len(dialogue.taken)) == (birth, position, count))
        self.turns[birth] = dialogue

    def turn(self, number, birth, position):
        dialogue = self.turns.pop(birth, None)
        self.expect(number, dialogue and dialogue.position == position)
        return dialogue

    def give(self, number, birth, position, count, became):
        dialogue = self.turn(number, birth, position)
        was_open = dialogue.is_admitted
        found, requests = self.link.give(dialogue)
        self.expect(number, (found, requests.encode()) == (count, became))
        if was_open and not dialogue.is_admitted:
            last = self.link.frames[-1][1][0]
            self.ended(dialogue, Ending.SCP_ABORT if last == model.ABORT else Ending.SCP_END)

    def put_back(self, number, birth, position):
        self.link.put_back(self.turn(number, birth, position))

    # Frames

    def pick(self, number, birth):
        self.expect(number, self.link.frames or self.link.aborts)
        self.picked = self.link.pick()
        self.expect(number, birth == (self.picked[0].birth if self.picked[0] else 0))

    def send(self, number, birth, is_sent=True):
        self.expect(number, self.picked and birth == (self.picked[0].birth if self.picked[0] else 0))
        (dialogue, octets), self.picked = self.picked, None
        if not is_sent:
            self.leave()
        self.link.sent(dialogue, is_sent)
        self.sent(dialogue, octets, is_sent)

    def fail(self, number, birth):
        self.send(number, birth, False)

    def down(self, _):
        self.leave()
        self.link.down()

    def leave(self):
        """The link goes down: its dialogues end."""
        for dialogue in self.link.held.values():
            if dialogue.is_admitted:
                self.ended(dialogue, Ending.LINK)

    def gap(self, number, *_):
        raise Gap(f"line {number}: gap: lines are missing, and what came after them isn't known")
