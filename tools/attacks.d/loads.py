"""Cases of tools/attacks: more calls than can be answered, and hostile links beside honest ones."""
import concurrent.futures
import contextlib
import multiprocessing
import select
import sys
import time

from client import expect, frames
from setting import GIVEN, Peer, Run
from tcap import call, connected


def offer(peer, seconds, rate=None):
    """Offers calls for so long, so many a second, or as many as can be written; one that can't be written when it comes
    is dropped. Gives when how many were written, and when how many were answered, in seconds."""
    numbers = range(1 << 14)
    octets, answers = frames(map(call, numbers)), set(map(connected, numbers))
    size, view, written, answered = len(octets) // len(numbers), memoryview(octets), [], []
    open_calls, at, offered, began = 0, 0, 0, time.monotonic()
    now = moved = 0
    looking = select.poll()
    looking.register(peer.socket, select.POLLIN)
    while now < seconds or open_calls and now < moved + 10 * GIVEN.patience:
        now = time.monotonic() - began
        due = 0 if now >= seconds else int(now * rate) - offered if rate else 4_096
        offered += due
        with contextlib.suppress(BlockingIOError):
            wanted = -at % size + due * size
            count = peer.socket.send(view[at % len(octets):at % len(octets) + wanted]) if wanted else 0
            written.append((now, (at + count) // size - at // size))
            at, open_calls = at + count, open_calls + written[-1][1]
        if looking.poll(1):
            peer.came = []
            peer.read(1 << 20)
            expect(answers.issuperset(peer.came) and not peer.has_ended, "a wrong answer came, or the link ended")
            answered.append((now, len(peer.came)))
            open_calls, moved = open_calls - len(peer.came), now
    expect(not open_calls, f"{open_calls} answers are missing")
    return written, answered


def ages(written, answered):
    """How old answers were, in seconds, one of each hundred, the youngest first. (Answers come in the order of their
    calls, but for a few.)"""
    found, calls = [], iter(written)
    left, since = 0, 0
    for now, count in answered:
        while count:
            while not left:
                since, left = next(calls)
            taken = min(count, left)
            found += [now - since] * -(-taken // 100)
            count, left = count - taken, left - taken
    return sorted(found)


def overload(folder):
    """Twice the calls that can be answered, at a steady rate: each that can be written is answered, and in each sixth
    of the time at least seven tenths as many as in the first."""
    seconds = GIVEN.overload
    with Run(folder) as run:
        peer = run.peer()
        _, answered = offer(peer, 5)
        most = sum(count for _, count in answered) / answered[-1][0]
        written, answered = offer(peer, seconds, 2 * most)
        rates = [sum(count for now, count in answered if part <= now * 6 / seconds < part + 1) * 6 / seconds
                 for part in range(6)]
        old = ages(written, answered)
        memory = run.memory("VmHWM")
        run.finish(peer)
    said = (f"{most:.0f} calls a second can be answered; of {2 * most:.0f} {' '.join(f'{rate:.0f}' for rate in rates)} "
            f"were; half of the answers were {old[len(old) // 2] * 1000:.0f} ms old at most, 99 of 100 "
            f"{old[len(old) * 99 // 100] * 1000:.0f}, the oldest {old[-1] * 1000:.0f}; memory at most {memory:.1f} MB")
    expect(min(rates[1:]) > 0.7 * rates[0], said)
    return said


def honest_calls(address, seconds):
    """Calls on four links for so long, one open on each, about a hundred a second; gives how many, and how many seconds
    99 of 100 took at most."""
    def calls(peer):
        last, took = time.monotonic() + seconds, []
        while time.monotonic() < last:
            took.append(peer.call(len(took), 10))
            time.sleep(0.01)
        peer.close()
        return took
    with concurrent.futures.ThreadPoolExecutor(4) as pool:
        took = sorted(sum(pool.map(calls, [Peer(address) for _ in range(4)]), []))
    return len(took), took[len(took) * 99 // 100]


def flood(peer, last):
    """As many calls as the program takes."""
    offer(peer, last - time.monotonic())


def creep(peer, last):
    """One octet a second."""
    for octet in frames([call(1)]) * 10_000:
        if time.monotonic() < last:
            peer.play(bytes([octet]))
            time.sleep(1)


def fill(peer, last):
    """Begins whose answers are hardly read: some of them each half minute, so that the link doesn't go down for it."""
    octets = frames(map(call, range(1_000)))
    while time.monotonic() < last:
        peer.play(octets, idle=1, rate=0)
        octets = octets[len(octets) - peer.unwritten:] or frames(map(call, range(1_000)))
        if not peer.unwritten:
            continue
        time.sleep(max(0, min(30, last - time.monotonic())))
        peer.read(65536)


def reset(peer, last):
    """A burst, half of the time later, and a reset before its answers are read."""
    time.sleep(max(0, last - time.monotonic()) / 2)
    peer.play(frames(map(call, range(1_000))), rate=0)
    peer.close(is_reset=True)


def hostile_calls(act, address, last):
    peer = Peer(address, is_small=act == fill)
    act(peer, last)
    peer.close()


def mixed(folder):
    """A flood, a slow loris, one that hardly reads and one that resets: four honest links get all answers, 99 of 100
    within three times the time that they take alone, and memory stays as it is in the second half of the time."""
    seconds, hostile = GIVEN.mixed * 60, (flood, creep, fill, reset)
    # (hostile and honest peers are processes of their own, in whose time no other has a part)
    own = multiprocessing.get_context("fork")
    with Run(folder, "--links", "4") as run, concurrent.futures.ProcessPoolExecutor(1, own) as pool:
        count_alone, alone = pool.submit(honest_calls, run.address(), min(60, seconds)).result()
        run.finish()
    with Run(folder, "--links", "8") as run, concurrent.futures.ProcessPoolExecutor(5, own) as pool:
        last = time.monotonic() + seconds
        peers = [pool.submit(hostile_calls, act, run.address(), last) for act in hostile]
        honest = pool.submit(honest_calls, run.address(), seconds)
        time.sleep(seconds / 2)
        before = run.memory()
        time.sleep(max(0, last - time.monotonic() - 1))
        after = run.memory()
        for peer in peers:
            peer.result()
        count, among = honest.result()
        said = (f"{count_alone} calls alone, 99 of 100 within {alone * 1000:.2f} ms; {count} among hostile ones, within "
                f"{among * 1000:.2f} ms; memory {before:.1f} MB after half of the time, {after:.1f} MB at last")
        expect(among <= 3 * alone and after < 1.2 * before + 5, said)
        print(f"mixed: {said}; the log is replayed", file=sys.stderr)
        run.finish()
    return said
