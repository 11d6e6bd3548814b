"""An exchange that plays dialogues with service control points and compares each answer, octet by octet."""
import collections
import heapq
import pathlib
import re
import selectors
import time

import tcap
import wire

OWN_SUBSYSTEM, SUBSYSTEM, FOLDER = 12, 241, pathlib.Path(__file__).resolve().parent

Kind = collections.namedtuple("Kind", "name steps")


def kinds_of(text):
    """The kinds of dialogues of dialogues.txt. A step is whether the exchange speaks, and the pieces of the message, with
    None for the exchange's identifier and True for the node's."""
    kinds = []
    for block in re.sub(r"(?m)^#.*\n", "", text).strip().split("\n\n"):
        name, *lines = block.splitlines()
        steps = []
        for line in lines:
            pieces = []
            for piece in re.split("(I{8}|T{8})", line[2:]):
                pieces.append(None if piece.startswith("I") else True if piece.startswith("T") else bytes.fromhex(piece))
            steps.append((line[0] == ">", pieces))
        kinds.append(Kind(name, steps))
    return kinds


KINDS = kinds_of((FOLDER / "dialogues.txt").read_text())
PLAIN = [kind for kind in KINDS if kind.name == "one destination"]
LONG = [kind for kind in KINDS if kind.name.startswith("two destinations")]
# Those that tshark reads as a switch would.
GOOD = [kind for kind in KINDS if not kind.name.startswith("faulty")]


def spelt(pieces, own, other):
    return b"".join([own if piece is None else other if piece is True else piece for piece in pieces])


class Dialogue:
    """One dialogue: the step that is next, the node that it is with, and since when."""
    __slots__ = ("kind", "at", "node", "tid", "began", "waits")

    def __init__(self, kind, node, began):
        self.kind, self.at, self.node, self.tid, self.began, self.waits = kind, 0, node, b"", began, False


class Exchange:
    """Opens dialogues with the point codes of `to` in turn, and goes on with each at the address that its first answer
    came from.

    A dialogue is `right` if each answer is the one that is due; `wrong` if its octets are others; `crossed` if a message
    comes for it while none is due, or from another node; `aborted` if its node doesn't know it; `lost` if no answer comes;
    `unsent` if there is no connection to its node; and `late` are messages for dialogues that are over."""

    def __init__(self, own, to, kinds, ring=0.0, first=1, lost_after=10.0, follows=True):
        self.own, self.to, self.kinds, self.ring, self.lost_after = own, list(to), kinds, ring, lost_after
        self.address = wire.address(own, OWN_SUBSYSTEM)
        self.selector = selectors.DefaultSelector()
        # Whether it goes on with the address that an answer came from, and not with the one that it began with.
        self.connections, self.follows = [], follows
        self.dialogues, self.due, self.waiting = {}, [], collections.deque()
        self.counts, self.done_by, self.kinds_done = collections.Counter(), collections.Counter(), collections.Counter()
        self.first, self.begun, self.turns, self.answers, self.shown = first, 0, 0, 0, 0
        # When each dialogue that was lost began, and its step; what is due from a node in place of what its kind has.
        self.lost, self.by_node = [], {}

    # Connections

    def over_ipa(self, codes, port=17000, host="127.0.0.1"):
        """A connection over IPA for each of these point codes."""
        for code in codes:
            self.connections.append(wire.IpaConnection(host, port, self.take, f"x-{self.own}-{code}", code))
        return self

    def over_m3ua(self, port=2905, host="127.0.0.1", is_sctp=False):
        local_port = 12000 + self.own
        self.connections.append(wire.M3uaConnection(host, port, self.take, self.own, local_port, is_sctp))
        return self

    def is_up(self):
        return all(connection.is_up for connection in self.connections)

    def close(self):
        for connection in self.connections:
            connection.over(self.selector)

    # Dialogues

    def send(self, node, data, number):
        """Sends a message in one of four forms. `False`: no connection reaches the node."""
        reaching = [connection for connection in self.connections if connection.reaches(node)]
        if not reaching:
            return False
        called, form = wire.address(node, SUBSYSTEM), number % 4
        if form == 3:
            message = wire.xudt(called, self.address, data)
        else:
            message = wire.udt(called, self.address, data, (0, 1, wire.RETURNS)[form])
        reaching[number % len(reaching)].send(node, message)
        return True

    def speak(self, number, dialogue, now):
        """Sends the step that is next, and looks at what is due after it."""
        own = number.to_bytes(4, "big")
        data = spelt(dialogue.kind.steps[dialogue.at][1], own, dialogue.tid)
        if not self.send(dialogue.node if self.follows else self.to[0], data, number):
            return self.end(number, dialogue, "unsent")
        dialogue.at += 1
        return self.go_on(number, dialogue, now)

    def go_on(self, number, dialogue, now):
        """Awaits an answer, or has the next message sent after a while, or ends the dialogue."""
        dialogue.waits = False
        if dialogue.at == len(dialogue.kind.steps):
            self.done_by[dialogue.node] += 1
            self.kinds_done[dialogue.kind.name] += 1
            return self.end(number, dialogue, "right")
        if dialogue.kind.steps[dialogue.at][0]:
            dialogue.waits = True
            heapq.heappush(self.due, (now + self.ring * (0.5 + number * 2654435761 % 1024 / 1024), number))
        else:
            self.waiting.append((now + self.lost_after, number, dialogue.at))
        return None

    def end(self, number, dialogue, how, message=b""):
        self.counts[how] += 1
        del self.dialogues[number]
        if how == "lost":
            self.lost.append((dialogue.began, dialogue.at))
        if how in ("wrong", "crossed") and self.shown < 3:
            self.shown += 1
            print(f"  dialogue {number} ({dialogue.kind.name}), step {dialogue.at}, node {dialogue.node}, "
                  f"{time.monotonic() - dialogue.began:.1f} s after its begin: {how}: {message.hex().upper()}", flush=True)

    def begin(self, now):
        number = self.first + self.begun
        self.begun += 1
        node = self.to[self.begun % len(self.to)]
        dialogue = self.dialogues[number] = Dialogue(self.kinds[self.begun % len(self.kinds)], node, now)
        self.speak(number, dialogue, now)

    def take(self, message):
        """A message of SCCP came."""
        if message[0] in (wire.UDTS, wire.XUDTS):
            self.counts["returned"] += 1
            return None
        called, calling, data = wire.parts(message)
        tid, own = tcap.identifiers(data)
        number, node = int.from_bytes(own, "big"), wire.point_code_of(calling)
        dialogue = self.dialogues.get(number)
        self.answers += 1
        if dialogue is None:
            self.counts["late"] += 1
            return None
        if data[0] == tcap.ABORT and data[-3:] == b"\x4A\x01\x01" and dialogue.kind.steps[dialogue.at][1][-1] != data[-3:]:
            return self.end(number, dialogue, "aborted")
        if dialogue.at > 1 and node != dialogue.node or dialogue.waits:
            return self.end(number, dialogue, "crossed", message)
        if not dialogue.tid:
            dialogue.tid = tid or b""
        pieces = self.by_node.get(node) or dialogue.kind.steps[dialogue.at][1]
        want = spelt(pieces, own, dialogue.tid)
        # The whole message of SCCP is compared: both addresses, the class, the data.
        if message != wire.udt(self.address, wire.address(node, SUBSYSTEM), want):
            return self.end(number, dialogue, "wrong", message)
        dialogue.node = node
        dialogue.at += 1
        return self.go_on(number, dialogue, time.monotonic())

    # The loop

    def turn(self, wait=0.01):
        now = time.monotonic()
        for connection in self.connections:
            connection.look(now, self.selector)
        for key, _ in self.selector.select(wait):
            key.data.read(self.selector)
        now = time.monotonic()
        while self.due and self.due[0][0] <= now:
            number = heapq.heappop(self.due)[1]
            dialogue = self.dialogues.get(number)
            if dialogue is not None and dialogue.waits:
                self.speak(number, dialogue, now)
        while self.waiting and self.waiting[0][0] <= now:
            _, number, at = self.waiting.popleft()
            dialogue = self.dialogues.get(number)
            if dialogue is not None and dialogue.at == at and not dialogue.waits:
                self.end(number, dialogue, "lost")
        for connection in self.connections:
            connection.flush(self.selector)

    def await_up(self, seconds=40):
        limit = time.monotonic() + seconds
        while not self.is_up() and time.monotonic() < limit:
            self.turn()
        return self.is_up()

    def pause(self, seconds):
        limit = time.monotonic() + seconds
        while time.monotonic() < limit:
            self.turn()


def play(exchanges, count, rate, events=()):
    """Plays `count` dialogues on each exchange, begun at this rate on each, but at most 400 open at a time if none rings
    for long: else a slow machine would have them wait until a time limit of the service is over. The events are pairs of
    a number of dialogues and what to do once they were begun on the first exchange, one a turn. Returns how many seconds
    it took."""
    for exchange in exchanges:
        if not exchange.await_up():
            print(f"  exchange {exchange.own} isn't connected")
            return 0.0
        exchange.pause(0.3)
    start, events = time.monotonic(), list(events)
    open_at_most = 400 if exchanges[0].ring < 1 else 10_000
    while events or any(exchange.begun < count or exchange.dialogues for exchange in exchanges):
        now = time.monotonic()
        for exchange in exchanges:
            most = min(count, int((now - start) * rate) + 1, exchange.begun + open_at_most - len(exchange.dialogues))
            for _ in range(min(500, most - exchange.begun)):
                exchange.begin(now)
            exchange.turn(0.002)
        if events and exchanges[0].begun >= events[0][0]:
            events.pop(0)[1]()
    return time.monotonic() - start
