"""Cases of tools/attacks: runs that follow each other, and the tags by which their dialogues are told apart."""
import collections
import contextlib
import random
import socket
import threading
import time

from client import Connection, expect, frames, frames_from
from setting import GIVEN, SECOND_PLACE, Peer, Run, call_of, connection, local_of, reported, unknown, until
from tcap import BEGIN, CONTINUE, call, continued, error, user_aborted


def head_of(log):
    """The head of a log, without the name of the format."""
    with log.open() as lines:
        return lines.readline().removeprefix("fplog ").strip()


def tags(folder):
    """The links of a run are numbered from the one that is asked for, their identifiers have its tag, and those without
    it, or of another link, name no dialogue; the head of the log says so, and it replays. Other tags and links are
    refused. With --tag auto runs that follow each other at once have different tags, those of the clock."""
    plans = [((), 0, 1, 0), (("--tag", "0"), 0, 1, 0), (("--tag", "1"), 0, 1, 1), (("--first-link", "7"), 7, 1, 0),
             (("--tag", "4094", "--first-link", "3", "--links", "2"), 3, 2, 4094)]
    for words, first, count, tag in plans:
        with Run(folder, *words) as run:
            peers = [run.peer() for _ in range(count)]
            for link, peer in enumerate(peers, first):
                base = (link << 29) + (tag << 17)
                opened = [peer.open(1), peer.open(2)]
                expect(opened == [base + 1, base + 2], f"{' '.join(words)}: identifiers {opened} on link {link}")
                strange = {1, base + 3, base + (1 << 17) + 1, base + (1 << 28) + 1, (base ^ 1 << 29) + 1} - set(opened)
                peer.answers(lambda local: continued(9, local, error(2)), lambda _: unknown(9), strange)
                came = peer.play(frames([continued(1, base + 1, error(2))]), 1)
                expect(came and came[0].endswith(SECOND_PLACE), "an identifier with its tag and link names no dialogue")
            run.finish(*peers)
            wanted = f"5 {first + count} {tag}" if tag else f"4 {first + count}"
            expect(head_of(run.log) == wanted, f"{' '.join(words)}: the head is '{head_of(run.log)}'")
            unused = [f"link {link} accepted 0 served 0 sent 0" for link in range(first)]
            expect(run.reports()[:first] == unused and len(run.reports()) == first + count, str(run.reports()))
    for words in (("--tag", "4095"), ("--tag", "-1"), ("--tag", ""), ("--tag", "1", "--tag", "1"),
                  ("--first-link", "8"), ("--first-link", "7", "--links", "2"), ("--first-link", "auto")):
        with Run(folder, *words) as run:
            run.expect_end(3, 2, None)
    found = []
    for _ in range(2):
        began = int(time.time())
        with Run(folder, "--tag", "auto") as run:
            peer = run.peer()
            local = peer.open(1)
            run.finish(peer)
            found.append(local >> 17)
            expect(found[-1] in [second % 4_094 + 1 for second in range(began, int(time.time()) + 1)]
                   and head_of(run.log) == f"5 1 {found[-1]}", f"the tag is {found[-1]}, the head '{head_of(run.log)}'")
    expect(found[0] != found[1], f"two runs have the tag {found[0]}")


class Relay:
    """Stands between a switch and runs of the program that follow each other: it passes on whole frames, and the
    connection of the switch stays. What the switch sends while there is no run waits for the next one."""

    def __init__(self):
        listener = socket.create_server(("127.0.0.1", 0))
        self.switch, self.outer = Peer(listener.getsockname()), listener.accept()[0]
        listener.close()
        # (which runs got the messages of each call of the switch)
        self.run, self.inner, self.is_over, self.runs_of = 0, None, False, collections.defaultdict(list)
        threading.Thread(target=self.pass_on, daemon=True).start()

    def __enter__(self):
        return self

    def __exit__(self, *_):
        self.is_over = True
        self.switch.close()

    def turn_to(self, run):
        """The run before has ended. Frames go to this one from now on."""
        expect(until(lambda: not self.inner, 10), "the connection of a run that was killed goes on")
        server = Connection(run.address(), seconds=None).socket
        self.run += 1
        self.inner = self.run, server
        threading.Thread(target=self.pass_back, args=[server], daemon=True).start()

    def pass_on(self):
        for frame in frames_from(self.outer):
            while not (inner := self.inner):
                if self.is_over:
                    return
                time.sleep(0.001)
            run, server = inner
            if frame[4] in (BEGIN, CONTINUE):
                self.runs_of[int.from_bytes(frame[8:12], "big")].append(run)
            with contextlib.suppress(OSError):
                server.sendall(frame)
        if inner := self.inner:
            with contextlib.suppress(OSError):
                inner[1].shutdown(socket.SHUT_WR)

    def pass_back(self, server):
        for frame in frames_from(server):
            with contextlib.suppress(OSError):
                self.outer.sendall(frame)
        self.inner = None
        server.close()


class Ringing:
    """Calls that ring for a while, one after the other through a relay. Each of 500 that follow each other is for another
    number, which leads to two places. After some further calls the first place is busy, or the caller gives up."""

    records = "key,100,60\n" + "".join(
        f"800123{call:03},,1234567,00:00,24:00,1,route,302223{call:03},302223{500 + call}\n" for call in range(500))

    def __init__(self, relay, longest, patience):
        self.relay, self.longest, self.patience, self.chance = relay, longest, patience, random.Random(longest)
        # (of calls that await an answer what it answers; of calls that ring the program's identifier)
        self.count, self.batch, self.awaited, self.locals, self.due = 0, 0, {}, {}, collections.defaultdict(list)
        # (of calls that are over what became of them; and which had a message under way to a run that was killed)
        self.connected, self.aborted, self.crossed, self.lost, self.ended = set(), set(), set(), set(), []

    def go_on(self, count, is_answered):
        """So many further calls, and the next message of those that have rung for long enough. Gives how many answers are
        still to come, all of them if none is waited for."""
        self.batch += 1
        ready, numbers = self.due.pop(self.batch, []), range(self.count, self.count + count)
        given_up, reporting = [n for n in ready if n % 16 == 0], [n for n in ready if n % 16]
        # (an Abort drops answers of its dialogue that wait)
        messages = self.ended + [user_aborted(self.locals[number]) for number in given_up]
        messages += [call(number, f"800123{number % 500:03}") for number in numbers]
        messages += [reported(number, self.locals[number], 2, 5) for number in reporting]
        self.awaited.update(dict.fromkeys(numbers, "Begin") | dict.fromkeys(reporting, "report"))
        self.count, self.ended, wanted = self.count + count, [], len(numbers) + len(reporting)
        return wanted - self.play(wanted if is_answered else 0, frames(messages))

    def answer(self, message):
        """An answer comes. It is crossed if it isn't what its call awaits."""
        number = call_of(message)
        kind, local = self.awaited.pop(number, None), self.locals.get(number, 0)
        if kind == "Begin" and message[0] == CONTINUE and message == connection(
                number, local_of(message), 1, f"302223{number % 500:03}"):
            self.locals[number] = local_of(message)
            self.due[self.batch + self.chance.randrange(1, self.longest)].append(number)
        elif kind == "report" and message == connection(number, local, 3, f"302223{500 + number % 500}"):
            self.connected.add(number)
            self.ended.append(user_aborted(local))
        elif kind == "report" and message == unknown(number):
            self.aborted.add(number)
        else:
            self.crossed.add(number)

    def play(self, wanted, octets=b"", idle=None):
        """Writes these octets, and waits for so many answers, or until none comes for so long. Gives how many came."""
        came = self.relay.switch.play(octets, wanted, (idle or self.patience) / GIVEN.patience)
        for message in came:
            self.answer(message)
        return len(came)

    def settle(self):
        """Waits for the answers that are left of this run, unless calls are crossed. Gives how many came."""
        left = sum(self.relay.runs_of[number][-1:] in ([], [self.relay.run]) for number in self.awaited)
        return 0 if self.crossed else self.play(left)


def through_restarts(folder, kills, options, patience):
    """Calls ring while a run is killed so many times, each fourth time as soon as it has begun, and another begins, with
    these options for each. Half of the time messages are under way. Gives the calls, and those whose report came to
    another run than their Begin; the last run's log replays."""
    batches, size = max(40, GIVEN.calls // 500), 50
    kills_at = collections.Counter((kill + (kill % 4 < 3)) * batches // (kills + 1) for kill in range(kills))
    with contextlib.ExitStack() as runs, Relay() as relay:
        calls, run = Ringing(relay, 3 * batches // kills, patience), runs.enter_context(Run(folder, *options(0)))
        relay.turn_to(run)
        while calls.batch < batches or calls.due or calls.ended or calls.settle():
            is_under_way = kills_at[calls.batch + 1] and calls.chance.random() < 0.5
            wanted = calls.go_on(size if calls.batch < batches else 0, not is_under_way)
            if kills_at[calls.batch] and not is_under_way:
                calls.settle()
            for _ in range(kills_at[calls.batch]):
                run.process.kill()
                run.process.wait()
                run = runs.enter_context(Run(folder, *options(relay.run)))
                relay.turn_to(run)
            if is_under_way:
                # (what a run had taken when it was killed gets no answer)
                calls.play(wanted, idle=0.5)
                calls.lost.update(calls.awaited)
        relay.switch.close()
        run.finish()
    stale = {number for number, of in relay.runs_of.items() if len(set(of)) > 1}
    calls.crossed |= (calls.aborted - stale) | (calls.connected & stale)
    return calls, stale


def restarts(folder):
    """A run is killed and another begins, again and again, while calls ring behind a relay that keeps the connection of
    their switch. With a tag for each run no call gets what belongs to another, and each report that comes to another run
    than its call gets its Abort; without tags calls are crossed."""
    (folder / "records.csv").write_text(Ringing.records)
    kills = max(4, GIVEN.calls // 5_000)
    # (a report that comes to another call, which is over, gets no answer)
    calls, _ = through_restarts(folder, kills, lambda run: [], 0.2)
    expect(calls.crossed, "no call is crossed without tags, so this shows nothing")
    said = f"{calls.count} calls, {kills} restarts: without tags {len(calls.crossed)} were crossed, with tags "
    calls, stale = through_restarts(folder, kills, lambda run: ["--tag", str(run + 1)], 10 * GIVEN.patience)
    lost = set(calls.awaited)
    said += (f"{len(calls.crossed)}; {len(stale)} reports came to another run, {len(calls.aborted)} of them got an "
             f"Abort, and {len(stale & lost)} were lost with it, as {len(lost - stale)} other messages")
    expect(not calls.crossed and stale == calls.aborted | (stale & lost) and lost <= calls.lost, said)
    expect(len(calls.aborted) > calls.count // 10 and calls.connected, said)
    return said
