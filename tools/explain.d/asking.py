"""Asks the program what it answers to the messages of a dialogue, by `scp ask`, and compares."""
import os
import subprocess
import tempfile
import threading

import runs
from runs import Refused, model

SCP = os.environ.get("SCP", str(runs.ROOT / "scp"))
# A Begin with an InitialDP without members. It is answered by missingParameter, and its dialogue is over.
EMPTY_CALL = b"62124804FFFFFFFF6C0AA1080201010201003000\n"


def to_identifier(octets, identifier):
    """A message with another destination identifier, which has four octets there."""
    at = 2 + max(0, octets[1] - 0x80)
    if octets[0] == model.CONTINUE:
        _, at = model.element(octets, at, len(octets))
    _, after = model.element(octets, at, len(octets))
    return octets[:after - 4] + identifier.to_bytes(4, "big") + octets[after:]


class Question:
    """What the program is asked: the messages of a dialogue, as this call of its link 0. `answers` are those that it
    has to give, by the model.

    The program ticks with each wait, and a run ticks by itself. So a message that came when something was due, and
    before the tick of the run, is asked a little sooner, and so are those after it."""

    def __init__(self, birth, tag, contexts):
        self.birth, self.tag, self.lines, self.answers = birth, tag, [], []
        self.link = model.Link(None, contexts, 0, tag)
        self.link.births, self.own = birth - 1, self.link.base + (birth - 1) % runs.SERIALS + 1
        self.link.freed.append(self.own - self.link.base)
        # The moment of the program, and of the run.
        self.first = self.now = self.moment = None

    def due(self, otherwise):
        """When the clock does something next."""
        return min((dialogue.deadline() for dialogue in self.link.held.values()), default=otherwise)

    def wait(self, moment):
        """When the next message or tick of this moment is to come."""
        if self.first is None:
            self.first = self.now = self.moment = moment
        when = self.now + max(0, moment - self.moment)
        self.moment = moment
        return when

    def pass_to(self, when):
        if when > self.now:
            self.lines.append(b"+%d\n" % (when - self.now))
            self.link.tick(when)
            self.answers += self.link.drain()
        self.now = max(self.now, when)

    def message(self, octets, moment, records):
        when = self.wait(moment)
        self.pass_to(min(when, self.due(when + 1) - 1))
        octets = octets if octets[0] == model.BEGIN else to_identifier(octets, self.own)
        self.lines.append(octets.hex().encode() + b"\n")
        self.link.records = records
        self.link.post(octets, self.now)
        self.answers += self.link.drain()

    def tick(self, moment):
        when = self.wait(moment)
        self.pass_to(max(when, self.due(when)))

    def compare(self, table, contexts):
        """Asks the program, by these records. It has to answer what the model does."""
        found = self.ask(table, contexts) if self.lines else []
        if found != self.answers:
            told = [f"program {octets.hex().upper()}" for octets in found]
            told += [f"profile {octets.hex().upper()}" for octets in self.answers]
            raise Refused("\n    ".join(["the program and the profile differ, so one of them is wrong:", *told]))

    def ask(self, table, contexts):
        with tempfile.NamedTemporaryFile(suffix=".csv") as copy:
            path = table.path
            if not os.path.isfile(path):
                copy.write(table.octets)
                copy.flush()
                path = copy.name
            line = [SCP, "ask", path, runs.text_of(self.first), *(["--contexts", contexts] if contexts else []),
                    *(["--tag", str(self.tag)] if self.tag else [])]
            try:
                program = subprocess.Popen(line, stdin=subprocess.PIPE, stdout=subprocess.PIPE)
            except OSError:
                raise Refused(f"{SCP}: cannot be run") from None
            threading.Thread(target=self.write, args=(program.stdin,), daemon=True).start()
            answers = [line.strip() for number, line in enumerate(program.stdout, 1) if number >= self.birth]
            if program.wait():
                raise Refused(f"{SCP}: ended with status {program.returncode}")
        return [bytes.fromhex(answer.decode()) for answer in answers]

    def write(self, pipe):
        """Writes the input of the program: as many other calls as before this one, then its lines."""
        try:
            for count in [10_000] * ((self.birth - 1) // 10_000) + [(self.birth - 1) % 10_000]:
                pipe.write(EMPTY_CALL * count)
            pipe.writelines(self.lines)
            pipe.close()
        except BrokenPipeError:
            pass
