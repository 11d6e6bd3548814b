"""Cases of tools/attacks: many messages in one write, or more than are answered at once."""
import concurrent.futures
import itertools
import pathlib
import re

from client import expect, frames
from setting import (FIRST, GIVEN, SECOND, SECOND_PLACE, TWO_PLACES, Run, call_of, connection, local_of, released, reported,
                     unknown)
from tcap import (ACTIVITY_TEST, CONTINUE, EVENT_REPORT, aborted, call, connected, continued, error, invoke, late_error,
                  report, tlv, user_aborted)


def calls_of_all_kinds(peer, link, count):
    """Makes calls on a new link, so many of each kind at once: for one place, for two, and to no dialogue. For two the
    first place is busy, and the second one doesn't answer. The nth dialogue of a link has its nth identifier."""
    first = (link << 29) + 2
    places = [(number, first + 2 * number) for number in range(count)]
    peer.get([answer for number, local in places for answer in (
                  connected(number), connection(number, local, 1, FIRST), unknown(number))],
             frames(message for number, _ in places for message in (
                  call(number), call(number, TWO_PLACES), continued(number, 0))))
    peer.get([connection(number, local, 3, SECOND) for number, local in places],
             frames(reported(number, local, 2, 5) for number, local in places))
    peer.get([released(number) for number, _ in places],
             frames(reported(number, local, 3, 6) for number, local in places))


def all_kinds(folder):
    """Calls of all kinds on eight links at once: each gets its answers, on its own link."""
    # (fewer dialogues than a link holds are open at once)
    count = min(GIVEN.calls // 50, 2_000)
    with Run(folder, "--links", "8") as run, concurrent.futures.ThreadPoolExecutor(8) as pool:
        peers = [run.peer() for _ in range(8)]
        for played in [pool.submit(calls_of_all_kinds, peer, link, count) for link, peer in enumerate(peers)]:
            played.result()
        run.finish(*peers)
        # (a Begin has an entry of its own, and each call one; a call for two places two more)
        wanted = [f"link {link} accepted {4 * count} served {6 * count} sent {4 * count}" for link in range(8)]
        expect(run.reports() == wanted, str(run.reports()))
        return f"{count} of each kind on each link"


def burst(folder):
    """Begins in one write: each gets its answer."""
    with Run(folder) as run:
        peer, count = run.peer(), GIVEN.calls
        peer.answers(call, connected, range(count))
        run.finish(peer)
        expect(run.reports() == [f"link 0 accepted {count} served {2 * count} sent {count}"], str(run.reports()))
        return f"{count} of them"


def slow_reader(folder):
    """Begins whose answers are read at 100,000 octets a second: each gets its answer."""
    with Run(folder) as run:
        peer, count = run.peer(is_small=True), GIVEN.calls // 5
        peer.answers(call, connected, range(count), rate=100_000)
        run.finish(peer)
        return f"{count} of them"


def aborts(folder):
    """Continues to no dialogue in one write: each gets its Abort."""
    with Run(folder) as run:
        peer, count = run.peer(), GIVEN.calls // 5
        peer.answers(lambda number: continued(number, 0), unknown, range(count))
        run.finish(peer)
        return f"{count} of them"


def long_messages(folder):
    """Continues of 4,000 octets to no dialogue in one write: each gets its Abort, and no half second goes by without
    one, though the text of their log lines takes long."""
    component = invoke(1, EVENT_REPORT, tlv("04", bytes(3_968)))
    with Run(folder, log=pathlib.Path("/dev/null")) as run:
        peer, numbers = run.peer(), range(GIVEN.calls // 5)
        peer.answers(lambda number: continued(number, 0, component), unknown, numbers)
        said = f"{len(numbers)} of them, the longest pause took {peer.longest_pause * 1000:.0f} ms"
        expect(peer.longest_pause < 0.5 * GIVEN.patience, said)
        return said


def late_readers(folder):
    """Eight peers write messages of many log lines, 31 each, and read only once nothing more is taken from them, as
    fast as they can: all answers come, no line is lost, and the log replays."""
    count, invokes = GIVEN.calls // 20, 14
    # (an answer is a Reject in a frame of its own, of 28 octets)
    wanted = 28 * invokes * count

    def play(peer):
        local = peer.open(1)
        octets = frames([continued(1, local, invoke(5, ACTIVITY_TEST) * invokes)] * count)
        peer.play(octets, idle=0.5, rate=0)
        peer.socket.settimeout(20 * GIVEN.patience)
        with concurrent.futures.ThreadPoolExecutor(1) as writer:
            writing = writer.submit(peer.socket.sendall, octets[len(octets) - peer.unwritten:])
            came = 0
            while came < wanted and (piece := peer.socket.recv(1 << 20)):
                came += len(piece)
            expect(came == wanted, f"{came} of {wanted} octets of answers came")
            writing.result()

    with Run(folder, "--links", "8") as run, concurrent.futures.ThreadPoolExecutor(8) as pool:
        peers = [run.peer() for _ in range(8)]
        for played in [pool.submit(play, peer) for peer in peers]:
            played.result()
        run.finish(*peers)
        return f"{8 * count} messages, {run.log.stat().st_size / 1e6:.0f} MB of log"


def many_entries(folder):
    """80 Continues for one dialogue in one write: each gets its answer, and the dialogue goes on. 20 times."""
    busy = report(2, 5)
    with Run(folder) as run:
        peer = run.peer()
        for number in range(1, 21):
            local = peer.open(number)
            came = peer.play(frames([continued(number, local, error(99))] * 80 + [continued(number, local, busy)]), 81)
            refused = continued(local, number, late_error(99))
            expect(came[:-1] == [refused] * 80 and came[-1].endswith(SECOND_PLACE),
                   f"dialogue {number}: {came.count(refused)} rejects, at last '{b''.join(came[-1:]).hex()}'")
        run.finish(peer)


def many_dialogues(folder):
    """5,000 Begins for two places in one write: 4,096 are answered, the others aborted. Of two more one is answered
    once a dialogue has ended."""
    with Run(folder) as run:
        peer, numbers = run.peer(), range(5_000)
        came = peer.play(frames(call(number, TWO_PLACES) for number in numbers), len(numbers))
        opened = [message for message in came if message[0] == CONTINUE]
        refused = [aborted(number, 4) for number in numbers[4_096:]]
        expect(len(opened) == 4_096 and sorted(set(came) - set(opened)) == refused and len(came) == 5_000,
               f"{len(came)} answers came, {len(opened)} of them of dialogues")
        over = user_aborted(local_of(opened[0]))
        came = peer.play(frames([over, call(5_000, TWO_PLACES), call(5_001, TWO_PLACES)]), 2)
        expect(len(came) == 2 and came.count(aborted(5_001, 4)) == 1, f"two more got '{b' '.join(came).hex()}'")
        run.finish(peer)


def opened_in(log):
    """The local identifiers of a log of one link, in the order in which they were given."""
    with log.open() as lines:
        return [words[5][1:] for words in map(str.split, lines) if words[1] == "P" and words[5][0] == "O"]


def given_again(log, count):
    """How many of this number of calls got an identifier that was given before, none of which is too soon."""
    opened, last, again = opened_in(log), {}, 0
    for birth, local in enumerate(opened, 1):
        before = last.get(local)
        expect(not before or birth - before > 126_976, f"call {birth} got {local}, as call {before}")
        again += before is not None
        last[local] = birth
    expect(len(opened) == count and len(last) == min(count, 131_072) and opened.count(opened[0]) == 1,
           f"{len(opened)} calls got {len(last)} identifiers, the first one {opened.count(opened[0])} times")
    return again


def identifiers(folder):
    """Three calls for each call of the largest burst, 64 at a time on one link. One of 16 is for two places: 1,000 of
    these are open at once, and the first one throughout. Each gets its answers, no identifier of an open one is given
    again and none before 126,976 others, and the log replays."""
    count, most_open = 3 * GIVEN.calls, 1_000
    # (of the open calls: what the program calls each, and its number)
    held, asked = {}, 0
    with Run(folder) as run:
        peer = run.peer()

        def go_on(calls):
            """The first place is busy, and the second one doesn't answer."""
            peer.get([connection(number, local, 3, SECOND) for local, number in calls],
                     frames(reported(number, local, 2, 5) for local, number in calls))
            peer.get([released(number) for _, number in calls],
                     frames(reported(number, local, 3, 6) for local, number in calls))
            for local, _ in calls:
                del held[local]

        for first in range(0, count, 64):
            numbers = range(first, min(first + 64, count))
            came = peer.play(frames(call(number, *[] if number % 16 else [TWO_PLACES]) for number in numbers),
                             len(numbers))
            locals_of = {call_of(message): local_of(message)
                         for message in came if message[0] == CONTINUE}
            wanted = [connected(number) if number % 16 else connection(number, locals_of.get(number, 0), 1, FIRST)
                      for number in numbers]
            expect(sorted(came) == sorted(wanted), f"calls {first} and on got '{b' '.join(came).hex()}'")
            expect(held.keys().isdisjoint(locals_of.values()) and len(set(locals_of.values())) == len(locals_of),
                   f"the identifier of an open call is given again: {locals_of}")
            held.update((local, number) for number, local in locals_of.items())
            if len(held) > most_open:
                go_on(list(itertools.islice(held.items(), 1, len(held) - most_open + 1)))
            if first % 16_384 == 0:
                # (a call from which nothing comes for two minutes is tested)
                local, number = next(iter(held.items()))
                peer.get([continued(local, number, late_error(99))], frames([continued(number, local, error(99))]))
                asked += 1
        while held:
            go_on(list(itertools.islice(held.items(), 64)))
        run.finish(peer)
        accepted = count + 2 * -(-count // 16) + asked
        # (what a call asks for is due after ten seconds, which is an entry of a call that is open then)
        report_of = re.fullmatch(rf"link 0 accepted {accepted} served (\d+) sent {accepted}", "|".join(run.reports()))
        expect(report_of and int(report_of[1]) >= accepted + count, f"{run.reports()} for {accepted} components")
        return f"{count} calls, {given_again(run.log, count)} got an identifier that was given before"
