"""Cases of tools/attacks: peers that close, cut, stall, vanish or never read, and the other links meanwhile."""
import concurrent.futures
import contextlib
import ctypes
import os
import signal
import subprocess
import time

import wire
from client import Failed, expect, frames
from run import free_address
from setting import FIRST, GIVEN, TWO_PLACES, Peer, Run, Skipped, connection, events_of, in_time, until
from tcap import call, connected, ended


def half_close(folder):
    """A peer closes its sending side right after a Begin: the answer comes, and then the end. 56 times. The same with
    2,000 Begins."""
    lost = 0
    for _ in range(7):
        with Run(folder, "--links", "8") as run:
            peers = [run.peer() for _ in range(8)]
            for number, peer in enumerate(peers):
                peer.play(frames([call(number)]))
                peer.end_sending()
            for number, peer in enumerate(peers):
                lost += peer.play(wanted=1) != [connected(number)]
                expect(peer.ends(5), "a link goes on after its peer closed its sending side")
            run.finish(*peers)
    expect(not lost, f"{lost} answers are missing")
    with Run(folder) as run:
        peer = run.peer()
        peer.play(frames(map(call, range(2_000))), rate=0)
        peer.end_sending()
        peer.get(map(connected, range(2_000)))
        expect(peer.ends(5), "a link goes on after its peer closed its sending side")
        run.finish(peer)


def never_reads(folder):
    """A peer writes and never reads: another link goes on, and his link ends when he goes."""
    with Run(folder, "--links", "2") as run:
        hostile, honest, slowest = run.peer(is_small=True), run.peer(), 0
        for _ in range(20):
            if not hostile.unwritten:
                hostile.play(frames(map(call, range(GIVEN.calls // 20))), idle=1, rate=0)
            slowest = max([slowest, *map(honest.call, range(10))])
        hostile.close()
        honest.call(1)
        run.finish(honest)
        return in_time(slowest)


def bad_frames(folder):
    """A slow loris, lengths 0, 4,097 and 2^32 - 1, and ends inside head and message: the link ends, another goes on."""
    bad, cut = [bytes(4), (4097).to_bytes(4, "big"), b"\xff" * 4], [bytes(2), frames([call(1)])[:20]]
    with Run(folder, "--links", "7") as run:
        honest, loris, *others = [run.peer() for _ in range(7)]
        for peer, octets in zip(others, bad + cut):
            peer.play(octets)
            if octets in cut:
                peer.end_sending()
            expect(peer.ends(5), f"the link goes on after {octets.hex().upper()}")
            honest.call(2)
        for octet in frames([call(3)]):
            expect(not loris.came, "an answer before the last octet")
            loris.play(bytes([octet]))
            honest.call(4)
        expect(loris.play(wanted=1) == [connected(3)], "no answer to octets that come one at a time")
        run.finish(loris, honest, *others)


def node(folder):
    """A node on a signalling network answers a Begin of the common connection by its own one. Drained, it closes the common
    one, refuses its unit to a further one, serves the open dialogue, and ends; its log replays."""
    exchange, common, own = wire.address(100, 12), wire.address(200, 241), wire.address(201, 241)
    asks, acknowledged = wire.ipa(wire.CCM, b"\4\1\1"), wire.ipa(wire.CCM, bytes([wire.ID_ACK]))

    def expect_octets(link, octets):
        came = link.incoming.read(len(octets))
        expect(came == octets, f"'{came.hex()}' came, and not '{octets.hex()}'")

    def name(link, unit):
        expect_octets(link, asks)
        # (without the zero that may follow a name)
        link.socket.sendall(wire.ipa(wire.CCM, bytes([wire.ID_RESP, 0, len(unit) + 1, 1]) + unit.encode()))

    def connected_as(unit):
        link = run.link(10 * GIVEN.patience)
        name(link, unit)
        expect_octets(link, acknowledged)
        link.socket.sendall(acknowledged)
        return link

    options = ["--sccp", "201:241", "--exchange", "100:12", "--units", "scp,scp-201", "--tag", "0", "--commands"]
    with Run(folder, *options, commands=subprocess.PIPE) as run:
        answering, asking = connected_as("scp-201"), connected_as("scp")
        asking.socket.sendall(wire.ipa(wire.SCCP, wire.udt(common, exchange, call(42, TWO_PLACES))))
        expect_octets(answering, wire.ipa(wire.SCCP, wire.udt(exchange, own, connection(42, 1, 1, FIRST))))
        run.command("drain")
        expect(asking.incoming.read() == b"", "more came on the common connection")
        late = run.link(10 * GIVEN.patience)
        name(late, "scp")
        expect(late.incoming.read() == b"", "the unit is taken while the node is drained")
        answering.socket.sendall(wire.ipa(wire.SCCP, wire.udt(own, exchange, ended(1))))
        expect(answering.incoming.read() == b"", "more came after the end of the dialogue")
        run.finish(answering, asking, late)
        expect(run.reports() == ["link 0 accepted 1 served 3 sent 1"], f"the run printed {run.reports()}")


def late_connection(folder):
    """A connection after the last link was accepted is refused."""
    def is_refused():
        try:
            run.peer().close()
        except ConnectionRefusedError:
            return True
        time.sleep(0.2)
        return False

    with Run(folder) as run:
        peer = run.peer()
        peer.call(1)
        expect(until(is_refused, 2), "a further connection is accepted")
        peer.call(2)
        run.finish(peer)


def reconnects(folder):
    """The program is started again a second after it ended: a peer that connects again is answered within two seconds.
    Six times, after each way in which a link ends."""
    listen = free_address()
    host, port = listen.split(":")
    words = [GIVEN.program, "serve", folder / "records.csv", "--listen", listen, "--log", folder / "run.log"]
    loop = subprocess.Popen(["sh", "-c", 'while :; do "$@"; sleep 1; done', "loop", *words], stdin=subprocess.DEVNULL,
                            stdout=subprocess.DEVNULL, stderr=subprocess.DEVNULL, start_new_session=True)

    def answered():
        with contextlib.suppress(ConnectionError, Failed):
            peer = Peer((host, int(port)))
            peer.call(1)
            return peer

    try:
        longest, ended = 0, None
        for number in range(7):
            peer = until(answered, 10)
            expect(peer, f"connection {number} isn't answered")
            longest = max(longest, time.monotonic() - ended if ended else 0)
            match number % 3:
                case 0:
                    peer.close(is_reset=True)
                case 1:
                    peer.play(bytes(4))
                case 2:
                    peer.end_sending()
            ended = time.monotonic()
        said = f"it took up to {longest:.1f} seconds"
        expect(longest < 2 * GIVEN.patience, said)
        return said
    finally:
        os.killpg(loop.pid, signal.SIGKILL)
        loop.wait()


def dead_peer(folder):
    """A peer's machine is gone: an idle link and one that waits for an acknowledgement go down within two minutes."""
    def ip(*words):
        if subprocess.run(["ip", *words], capture_output=True).returncode != 0:
            raise Skipped("no network namespaces can be made here")

    def peer_inside():
        with open(f"/run/netns/{theirs}") as file:
            if ctypes.CDLL(None).setns(file.fileno(), 0) != 0:
                raise Skipped("no network namespace can be entered here")
        return run.peer()

    ours, theirs = f"scp-attacks-{os.getpid()}-0", f"scp-attacks-{os.getpid()}-1"
    with contextlib.ExitStack() as made:
        for name in (ours, theirs):
            ip("netns", "add", name)
            made.callback(subprocess.run, ["ip", "netns", "del", name], check=True)
        ip("-n", ours, "link", "add", "veth0", "type", "veth", "peer", "name", "veth1", "netns", theirs)
        for name, end, address in [(ours, "veth0", "192.0.2.1"), (theirs, "veth1", "192.0.2.2")]:
            ip("-n", name, "addr", "add", address + "/24", "dev", end)
            ip("-n", name, "link", "set", end, "up")
            ip("-n", name, "link", "set", "lo", "up")
        run = made.enter_context(Run(folder, "--links", "2", "--events", host="192.0.2.1",
                                     within=["ip", "netns", "exec", ours]))
        # (a thread enters the other namespace, and its sockets stay there)
        inside = made.enter_context(concurrent.futures.ThreadPoolExecutor(1))
        peers = [inside.submit(peer_inside).result() for _ in range(2)]
        for peer in peers:
            peer.call(1)
        # (the second one gets an answer once it can't acknowledge it any more)
        run.process.send_signal(signal.SIGSTOP)
        time.sleep(0.1)
        peers[1].play(frames([call(2)]))
        ip("-n", theirs, "addr", "flush", "dev", "veth1")
        run.process.send_signal(signal.SIGCONT)
        began = time.monotonic()
        with contextlib.suppress(subprocess.TimeoutExpired):
            run.process.wait(120 + 5 * GIVEN.patience)
        took = time.monotonic() - began
        run.finish(errors=None)
        expect({f"link {link} down peer gone" for link in range(2)} <= set(events_of(run)), f"{events_of(run)}")
        return f"it took {took:.0f} seconds"


def zero_window(folder):
    """A peer acknowledges and never reads: its link goes down after more than 90 seconds, and within two minutes."""
    with Run(folder, "--events") as run:
        peer = run.peer(is_small=True)
        peer.play(frames(map(call, range(200_000))), idle=1, rate=0)
        began = time.monotonic()
        run.expect_end(125 / GIVEN.patience, errors=None)
        took = time.monotonic() - began
        run.finish(errors=None)
        expect("link 0 down peer gone" in events_of(run) and took > 90, f"after {took:.0f} seconds {events_of(run)}")
        return f"it took {took:.0f} seconds"
