"""Runs of `serve` for tools/fuzz: messages that wait for their answers, then many at once, bad frames, and reloads."""
import collections
import contextlib
import re
import subprocess
import time

import client
import inputs
import model
from comparing import GIVEN, SEEN, Wrong, count, expect, file_of, run, some_contexts, tag_option
from model import ABORT
from run import Run, memory_of
from texts import changed_log_case, compare_replay

BAD_LENGTHS = [bytes(4), b"\0\0\x10\x01", b"\xFF" * 4, b"\x62\x2D\x48\x04"]
CUT_FRAMES = [b"\0", b"\0\0\0", b"\0\0\0\x10\x62\x0E"]
COMMANDS = [b"\n", b"reload \n", b"Reload\n", b"\0\n", b"\xFF\n", b"x" * 10_000 + b"\n"]


def peer_of(frame):
    """The destination of an answer, and whether it is an Abort of the provider."""
    fields = dict(model.whole(frame)[1])
    return fields[0x49], frame[0] == ABORT and 0x4A in fields


def hex_of(frames):
    return [frame.hex() for frame in frames]


class Peer(client.Link):
    """One link of a run: its switch, its connection, and the model of it."""

    def __init__(self, chance, address, link):
        super().__init__(address, 5 * GIVEN.patience)
        self.chance, self.link, self.traffic = chance, link, inputs.Traffic(chance, link, GIVEN.seeds)
        self.began, self.messages, self.came = time.monotonic(), [], []

    def is_late(self):
        """Whether invocations of the program may soon be due, which those of the model never are."""
        return time.monotonic() - self.began > 4

    def files(self):
        return {"messages": "\n".join(octets.hex() for octets in self.messages)}

    def write(self, octets):
        """Writes these octets, in one piece or in several."""
        while octets and self.chance.random() < 0.2:
            at = self.chance.randrange(1, len(octets) + 1)
            self.socket.sendall(octets[:at])
            octets = octets[at:]
        self.socket.sendall(octets)

    def read(self):
        """The next message that comes; nothing at the end."""
        with contextlib.suppress(ConnectionResetError):
            head, octets = client.next_frame(self.incoming)
            expect(len(octets) == int.from_bytes(head, "big") and (octets or not head), f"serve: a frame has the head {head.hex()}")
            with contextlib.suppress(model.Fault, KeyError):
                return octets and (model.message(octets), octets)[1]
            raise Wrong(f"serve: {octets.hex()} came, which is no message", **self.files())
        return b""

    def ask(self):
        """One message, and the answers that it gets."""
        octets = self.traffic.message()
        self.messages.append(octets)
        became, wanted, came = self.traffic.post(octets, inputs.NOON), self.link.drain(), []
        self.write(client.frame(octets))
        with contextlib.suppress(TimeoutError):
            while len(came) < len(wanted) and came[-1:] != [b""]:
                came.append(self.read())
        self.came += came
        expect(came == wanted, f"serve: for message {len(self.messages)} came {hex_of(came)}, due was {hex_of(wanted)}",
               **self.files())
        count(became, came)

    def burst(self):
        """Many messages at once. Each dialogue gets what it would get for one after the other. A message that comes
        after a dialogue's last answer, or ends it, may come before that answer was given: nothing is known from there
        on."""
        octets, early, origins, over = b"", set(), set(), {}
        wanted, provider, came = collections.defaultdict(list), [], collections.defaultdict(list)
        peers = collections.Counter(dialogue.peer for dialogue in self.link.held.values())
        for _ in range(self.chance.choice([2, 20, 100, 300])):
            message = self.traffic.message()
            self.messages.append(message)
            octets += client.frame(message)
            origin, named = model.identifiers(message)
            dialogue = self.link.admitted(named)
            became = self.traffic.post(message, inputs.NOON)
            if became[0] == "O":
                named = bytes.fromhex(became[1:])
                dialogue = self.link.admitted(named)
                peers[dialogue.peer] += 1
            elif named in over or dialogue and not dialogue.is_admitted:
                early.add(over.get(named) or dialogue.peer)
                origins.add(origin)
            answers = self.link.drain()
            count(became, ())
            for frame in answers:
                peer, is_provider = peer_of(frame)
                (provider if is_provider else wanted[peer]).append(frame)
            if dialogue and not dialogue.is_admitted:
                over[named] = dialogue.peer
        self.write(octets)
        self.end_sending()
        while frame := self.read():
            peer, is_provider = peer_of(frame)
            came[None if is_provider else peer].append(frame)
            SEEN["answers to many messages at once"] += 1
        for peer in {*wanted, *came} - {None}:
            got, due = came[peer], wanted[peer]
            few = not collections.Counter(got) - collections.Counter(due) if peers[peer] > 1 else got == due[:len(got)]
            expect(few and (len(got) == len(due) or peer in early),
                   f"serve: at once {peer.hex()} got {hex_of(got)}, due was {hex_of(due)}", **self.files())
        got, due = collections.Counter(came[None]), collections.Counter(provider)
        for frame in (got - due) + (due - got):
            expect(peer_of(frame)[0] in origins,
                   f"serve: at once {got[frame]} Aborts {frame.hex()} came, due were {due[frame]}", **self.files())

    def end(self):
        """Ends the link in one of the ways there are. Gives whether its report is known."""
        what = self.chance.random()
        if what < 0.5 and not self.is_late():
            self.burst()
        elif what < 0.7:
            bad = self.chance.choice(BAD_LENGTHS + CUT_FRAMES)
            with contextlib.suppress(OSError):
                self.write(bad + self.traffic.message() * (bad in BAD_LENGTHS))
                if bad in CUT_FRAMES:
                    self.end_sending()
            expect(self.read() == b"", f"serve: an answer came after the frame {bad.hex()}", **self.files())
            SEEN["frame: " + ("bad length" if bad in BAD_LENGTHS else "cut")] += 1
        self.close(is_reset=0.7 <= what < 0.8)
        return what >= 0.8


def reload(chance, played, texts, peers):
    """The run gets other records."""
    texts.append(inputs.text_of(chance, inputs.some_records(chance, is_timeless=True)))
    file_of("records.new", texts[-1]).rename(played.records)
    before = played.printed()
    played.command("reload")
    played.until(lambda: played.printed().count("\n") > before.count("\n"), 5)
    said = played.printed()[len(before):]
    expect(said == f"reloaded {len(texts) - 1}\n", f"serve: {said} came for `reload`")
    for peer in peers:
        peer.link.records = model.Records(texts[-1])
    SEEN["reloads"] += 1


def ask_in_turn(chance, played, texts, peers):
    """The peers send messages that wait for their answers, and sometimes there are other records or a bad command. Gives how
    many of these there were."""
    unknown = 0
    for _ in range(chance.choice([1, 50, 200]) * len(peers)):
        if peers[0].is_late():
            SEEN["runs of serve that were cut short"] += 1
            break
        chance.choice(peers).ask()
        what = chance.random()
        if what < 0.005:
            reload(chance, played, texts, peers)
        elif what < 0.01:
            played.process.stdin.write(chance.choice(COMMANDS))
            played.process.stdin.flush()
            unknown += 1
    return unknown


def check_reports(output, numbers, peers, are_known):
    """What a run printed at its end, where that is known of a link."""
    reports = re.findall(r"link (\d) accepted (\d+) served (\d+) sent (\d+)\n", output)
    expect([int(report[0]) for report in reports] == list(range(numbers.stop))
           and reports[:numbers[0]] == [(str(link), "0", "0", "0") for link in range(numbers[0])],
           f"serve: {output} came at the end")
    for peer, is_known, report in zip(peers, are_known, reports[numbers[0]:]):
        # (what came just before a message that closed its dialogue may not have been served)
        link, (accepted, served, sent) = peer.link, map(int, report[1:])
        expect(not is_known or (accepted, sent) == (link.accepted, link.count_sent) and served <= link.served,
               f"serve: {output} came, due was '{link.report()}'", **peer.files())


def compare_run(chance, played, texts, peers, numbers, options, tag):
    """Plays the peers of a run, and compares what it did. Gives the words of a replay of its log."""
    unknown = ask_in_turn(chance, played, texts, peers)
    memory = memory_of(played.process.pid, "VmHWM")
    asked = b"\n".join(octets.hex().encode() for octets in peers[0].messages) + b"\n"
    are_known = [peer.end() for peer in peers]
    status, said = played.end(5), played.errors.read_bytes()
    expect(status == 0 and said == b"command: unknown\n" * unknown, f"serve: status {status}, {said}")
    expect(not GIVEN.megabytes or memory < GIVEN.megabytes << 10, f"serve: it had {memory} kB of memory")
    # (a line for each reload came before)
    output = "".join(played.printed().splitlines(keepends=True)[len(texts) - 1:])
    check_reports(output, numbers, peers, are_known)
    SEEN["runs of serve with a tag"] += bool(tag)
    if len(texts) == 1 and peers[0].came and not numbers[0] and (GIVEN.asks_with_tag or not tag):
        wanted = 0, "".join(frame.hex().upper() + "\n" for frame in peers[0].came).encode(), ""
        got = run("ask", played.records, "2024-05-06T12:00:00Z", *options, *tag_option(tag), given=asked)
        expect(got == wanted, "ask answers otherwise than serve", asked=asked, came=got[1], serve=wanted[1])
    words = [*(file_of(f"records{index}.csv", text) for index, text in enumerate(texts)), *options]
    compare_replay(words, len(texts), played.log.read_bytes(), (0, output.encode(), ""))
    return words


def serve_case(chance):
    texts = [inputs.text_of(chance, inputs.some_records(chance, is_timeless=True))]
    (contexts, options), numbers, tag = some_contexts(chance), inputs.some_links(chance), inputs.some_tag(chance)
    words = ["--links", str(len(numbers)), "--workers", str(chance.choice([1, 2, 4])), *options, *tag_option(tag),
             *["--first-link", str(numbers[0])] * bool(numbers[0])]
    with contextlib.ExitStack() as opened:
        peers = []
        try:
            played = opened.enter_context(Run(
                GIVEN.folder, file_of("records.csv", texts[0]), *words, program=GIVEN.words[-1], within=GIVEN.words[:-1],
                commands=subprocess.PIPE, patience=GIVEN.patience, seconds=5))
            expect(played.output.read_text().startswith("listening "), "serve: no line `listening` came")
            for number in numbers:
                link = model.Link(model.Records(texts[0]), contexts, number, tag)
                peers.append(opened.enter_context(Peer(chance, played.address(), link)))
            words = compare_run(chance, played, texts, peers, numbers, options, tag)
        except (OSError, subprocess.TimeoutExpired) as fault:
            files = {key: text for peer in peers for key, text in peer.files().items()}
            raise Wrong(f"serve: {fault}", **files) from None
    lines = played.log.read_bytes().split(b"\n")[:-1]
    SEEN["lines of logs"] += len(lines)
    SEEN["log, changed: " + changed_log_case(chance, words, len(texts), lines)] += 1
