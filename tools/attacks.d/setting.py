"""What the cases of tools/attacks have in common: the options, runs of the program and peers with their limits of time, and
the messages of a call for a number with two destinations."""
import argparse
import contextlib
import os
import re
import time

import client
import preload
import run
from client import expect
from tcap import CONTINUE, aborted, call, connect, continued, ended, identifiers, number, release, report, request_reports

# The options of tools/attacks.
GIVEN = argparse.Namespace()
RECORDS = """key,100,60
800123456,,1234567,00:00,24:00,1,route,302223344
800123457,,1234567,00:00,24:00,1,route,302223344,302223355
"""
# Records of a number with a day that is there twice.
BAD_RECORDS = "key,100,60\n800123456,,1224567,00:00,24:00,1,route,302223344\n"
# A number with two destinations, these, and the second one in a Connect.
TWO_PLACES, FIRST, SECOND = "800123457", "302223344", "302223355"
SECOND_PLACE = number(SECOND)
LOG_FAULT = "log: cannot be written\n"
# No call on a link that is well takes longer, in seconds.
LONGEST = 0.1


class Skipped(Exception):
    """A case can't be played here."""


def until(is_so, seconds):
    """Whether it is so within this time."""
    return run.until(is_so, seconds * GIVEN.patience)


def in_time(slowest):
    """The slowest answer of a link that is well took so many seconds."""
    said = f"the slowest answer took {slowest * 1000:.0f} ms"
    expect(slowest < LONGEST * GIVEN.patience, said)
    return said


class Peer(client.Peer):
    """A connection to a run."""

    def __init__(self, address, is_small=False):
        super().__init__(address, is_small, GIVEN.patience)

    def open(self, identifier):
        """Makes a call for two places, and gives the identifier of the program's side."""
        came = self.play(client.frame(call(identifier, TWO_PLACES)), 1)
        expect(len(came) == 1, "a call got no answer")
        return local_of(came[0])


class Run(run.Run):
    """A run of `scp serve`, with records in the folder of its case."""

    def __init__(self, folder, *options, **more):
        super().__init__(folder, folder / "records.csv", *options, program=GIVEN.program, patience=GIVEN.patience, **more)

    def peer(self, is_small=False):
        return Peer(self.address(), is_small)

    def write_records(self, text):
        """Its records get this text, all at once."""
        new = self.records.with_suffix(".new")
        new.write_text(text)
        new.rename(self.records)

    def has_reloaded(self, index):
        """Whether it said that it read the records of this index."""
        return f"reloaded {index}\n" in self.output.read_text()


class Pipe:
    """A log that is a pipe, which nobody reads until it is read here."""

    def __init__(self, folder):
        self.path, self.text = folder / "pipe", b""
        os.mkfifo(self.path)
        self.reader = os.open(self.path, os.O_RDONLY | os.O_NONBLOCK)

    def read(self, idle, pause=0):
        """Reads until nothing comes for so long, with a pause of so many seconds after each 65,536 octets."""
        last = time.monotonic() + idle
        while time.monotonic() < last:
            piece = b""
            with contextlib.suppress(BlockingIOError):
                piece = os.read(self.reader, 65536)
            self.text += piece
            last = time.monotonic() + idle if piece else last
            time.sleep(pause if piece else 0.01)

    def into(self, log):
        """What was read, as the log of a run."""
        log.write_bytes(self.text)
        return log


def library(folder, source):
    """A library that is loaded before the C library, from this text."""
    try:
        return preload.build(folder / "library.so", source)
    except FileNotFoundError:
        raise Skipped("there is no C compiler, cc") from None


def events_of(played):
    """The lines of --events of a run, without their moments."""
    lines = played.errors.read_text().splitlines()
    moment = re.compile(r"\d{4}-\d\d-\d\dT\d\d:\d\d:\d\d\.\d{3}Z ")
    expect(all(map(moment.match, lines)), f"lines without a moment: {lines}")
    return [moment.sub("", line) for line in lines]


# Messages. A dialogue has two identifiers: the number of its call, which the peer gave it, and the local one of the program.

def local_of(message):
    """The identifier of the program's side of a dialogue, in the first message that it sends there."""
    expect(message[0] == CONTINUE, f"a Begin got '{message.hex()}'")
    return int.from_bytes(identifiers(message)[0], "big")


def call_of(message):
    """The number of the call that an answer is for."""
    return int.from_bytes(identifiers(message)[1], "big")


def connection(of, local, asks, destination):
    """The Continue with which a dialogue asks for events in this invocation and connects to a destination in the next one."""
    return continued(local, of, request_reports(asks), connect(asks + 1, destination))


def reported(of, local, invocation, event):
    """The Continue that reports this event."""
    return continued(of, local, report(invocation, event))


def released(of):
    """The End that releases a call, no answer."""
    return ended(of, release(5, 19))


def unknown(identifier):
    """The Abort that answers a Continue to no dialogue."""
    return aborted(identifier, 1)
