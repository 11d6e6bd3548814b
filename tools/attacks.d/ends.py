"""Cases of tools/attacks: how a run ends, or goes on."""
import contextlib
import fcntl
import os
import re
import select
import subprocess
import sys
import termios
import threading
import time

from client import expect, frames
from setting import GIVEN, LOG_FAULT, Peer, Pipe, Run, events_of, until
from tcap import call, continued, late_error


def open_input(folder):
    """Standard input stays open: a run whose links are down goes on and follows commands until it ends, and a run with a
    fault ends at once."""
    with Run(folder, commands=subprocess.PIPE) as run:
        peer = run.peer()
        peer.call(1)
        peer.close()
        time.sleep(1.5)
        expect(run.process.poll() is None, "the run ended before its standard input")
        run.command("reload")
        expect(until(lambda: run.has_reloaded(1), 10), "a command isn't followed any more")
        run.process.stdin.close()
        run.later = [run.records]
        run.finish()
    with Run(folder, log="/dev/full", commands=subprocess.PIPE) as run:
        run.expect_end(4, 1, LOG_FAULT)


def quit(folder):
    """The command to end, while a peer never reads, one is inside a frame, one writes without pause, one waits and the
    last never came: the run tells of all links before, and ends within two seconds and a half. With one link and
    standard input open it ends when its peer goes."""
    with Run(folder, "--links", "5", "--commands", commands=subprocess.PIPE) as run:
        small, cut, busy, idle = run.peer(is_small=True), run.peer(), run.peer(), run.peer()
        small.play(frames(map(call, range(GIVEN.calls))), idle=1, rate=0)
        cut.play(frames([call(1)])[:20])
        idle.call(1)
        stream = frames(map(call, range(GIVEN.calls)))
        busy.play(stream, wanted=GIVEN.calls // 10)
        run.command("links")
        expect(until(lambda: "links 4\n" in run.output.read_text(), 10), "it isn't told how far the links are")
        told = [line.split()[2] for line in run.reports()]
        began = time.monotonic()
        run.command("quit")
        busy.play(stream, wanted=2 * GIVEN.calls, idle=3)
        run.expect_end(5)
        took = time.monotonic() - began
        expect(told == 4 * ["up"] and took < 2.5 * GIVEN.patience, f"the links were {told}, the end took {took:.1f} s")
        told = run.reports()[4:]
        replay = run.replay()
        expect(len(told) == 5 and replay.stdout.splitlines() == told, f"'{replay.stdout + replay.stderr}', not {told}")
    with Run(folder, "--commands", commands=subprocess.PIPE) as run:
        run.finish(run.peer())
    return f"it ended after {took:.1f} s"


def links_and_quit(folder):
    """A run says how far each link is, with an open dialogue, inside a frame, and closed; one that never came it leaves
    out. A command to end with a further word is unknown. The next one ends the run beside an open standard input."""
    with Run(folder, "--links", "4", "--commands", commands=subprocess.PIPE) as run:
        opened, cut, gone = peers = [run.peer() for _ in range(3)]
        addresses = ["%s:%d" % peer.socket.getsockname() for peer in peers]
        expect(opened.open(1) == 1, "another identifier")
        cut.play(frames([call(1)])[:8])
        gone.call(1)
        gone.close()
        states = [("up", 1, 1), ("up", 0, 0), ("down", 1, 0)]
        told = "".join(f"link {link} {state} {addresses[link]} accepted {count} served {2 * count} sent {count} held {held}\n"
                       for link, (state, count, held) in enumerate(states)) + "links 3\n"

        def is_told():
            run.command("links")
            return told in run.printed()

        expect(until(is_told, 10), f"it says of its links: {run.printed()[-400:]}")
        run.command("quit now")
        run.command("quit")
        expect(opened.ends_silently(5) and cut.ends_silently(5), "a link goes on, or more came on it")
        run.expect_end(5, errors="command: unknown\n")
        reports = "".join(f"link {link} accepted {count} served {2 * count} sent {count}\n"
                          for link, count in enumerate([1, 0, 1, 0]))
        expect(run.printed().endswith(told + reports), f"the run printed {run.printed()[-400:]}")
        replay = run.replay()
        expect((replay.returncode, replay.stdout, replay.stderr) == (0, reports, ""), f"the log replays to {replay}")


def failed_output(folder):
    """Standard output fails after its first line, when other records are reported: the run and its link end by that fault,
    though more commands wait."""
    errors = folder / "errors"
    words = [GIVEN.program, "serve", folder / "records.csv", "--listen", "127.0.0.1:0", "--log", folder / "run.log"]
    with errors.open("w") as file, subprocess.Popen(words, stdin=subprocess.PIPE, stdout=subprocess.PIPE, stderr=file,
                                                    bufsize=0) as process:
        try:
            said = process.stdout.readline() if select.select([process.stdout], [], [], 10 * GIVEN.patience)[0] else b""
            listening = re.fullmatch(rb"listening 127\.0\.0\.1:(\d+)\n", said)
            expect(listening, f"the program says '{said.decode()}'")
            peer = Peer(("127.0.0.1", int(listening[1])))
            peer.call(1)
            process.stdout.close()
            process.stdin.write(3 * b"reload\n")
            expect(peer.ends_silently(5), "the link goes on, or more came, though standard output can't be written")
            found = process.wait(10 * GIVEN.patience), errors.read_text()
            expect(found == (1, "output: cannot be written\n"), f"the run ended with {found}")
        finally:
            process.kill()


def quit_at_once(folder):
    """While a `reload` reads a file that hangs, and while nobody reads standard output, the command to end ends a link
    at once; the run ends once the command before it is followed."""
    records = folder / "records.csv"
    with Run(folder, "--commands", commands=subprocess.PIPE) as run:
        peer = run.peer()
        peer.call(1)
        held = folder / "held.csv"
        records.rename(held)
        os.mkfifo(records)
        run.command("reload")
        time.sleep(0.5)
        run.command("quit")
        expect(peer.ends(2), "the link goes on beside a reload that hangs")
        peer.close()
        expect(run.process.poll() is None, "the run ended within a reload")
        with records.open("w") as writer:
            writer.write("x\n")
        records.unlink()
        held.rename(records)
        run.finish(errors="record 1: BadHead\n")
    words = [GIVEN.program, "serve", records, "--listen", "127.0.0.1:0", "--log", folder / "run.log", "--commands"]
    with subprocess.Popen(words, stdin=subprocess.PIPE, stdout=subprocess.PIPE, bufsize=0) as process:
        expect(is_ended_unread(process), "the link goes on beside a standard output that nobody reads")
        told = process.stdout.read()
        expect(process.wait(10) == 0 and told.endswith(b"link 0 accepted 1 served 2 sent 1\n"), told[-200:].decode())


def is_ended_unread(process):
    """Whether a run whose standard output nobody reads follows the command to end."""
    fcntl.fcntl(process.stdout, fcntl.F_SETPIPE_SZ, 4096)
    peer = Peer(("127.0.0.1", int(process.stdout.readline().rsplit(b":")[-1])))
    peer.call(1)

    def unread():
        count = bytearray(4)
        fcntl.ioctl(process.stdout, termios.FIONREAD, count)
        return int.from_bytes(count, sys.byteorder)

    # (an answer has more than 70 octets; the one that finds no room is written in part or not at all)
    before = -1
    while before != unread():
        before = unread()
        process.stdin.write(b"links\n")
        until(lambda: unread() != before, 1)
    process.stdin.write(b"quit\n")
    is_ended = peer.ends(2)
    peer.close()
    return is_ended


class Flood:
    """Calls that a peer goes on making, from a thread of its own, until the program takes no more or it is told to."""

    def __init__(self, peer, first):
        self.peer, self.first, self.goes_on = peer, first, True
        self.thread = threading.Thread(target=self.write)

    def write(self):
        octets = frames(map(call, range(self.first, self.first + 20)))
        with contextlib.suppress(OSError):
            while self.goes_on:
                select.select([], [self.peer.socket], [], 0.02)
                with contextlib.suppress(BlockingIOError):
                    self.peer.socket.send(octets)
                time.sleep(0.0005)

    def __enter__(self):
        self.thread.start()

    def __exit__(self, *_):
        self.goes_on = False
        self.thread.join()


def read_slowly(peer, rate=7_000_000):
    """What comes until the link ends, read at this rate, in octets a second."""
    return peer.play(wanted=1 << 40, idle=5, rate=rate)


def planned_ends(folder):
    """A run is told to end when all answers of a peer are on their way, which goes on making calls and reads slowly: it
    gets all answers to what was accepted, also if the log's device hangs. If it closes its sending side in place of
    that, it gets them too, beside another link whose peer goes on."""
    count, said = GIVEN.calls // 5, []
    calls = frames(map(call, range(count)))
    pipe = Pipe(folder)
    for log, status, errors in ((None, 0, ""), (pipe.path, 1, LOG_FAULT)):
        with Run(folder, "--commands", log=log, commands=subprocess.PIPE) as run:
            peer = run.peer()
            peer.play(calls, rate=0)

            def has_sent():
                run.command("links")
                return f" sent {count} " in run.output.read_text()

            expect(until(has_sent, 30), f"it says of the link: {run.reports()[-1:]}")
            with Flood(peer, count):
                run.command("quit")
                came = read_slowly(peer)
            peer.close()
            run.expect_end(10, status, errors)
            counts = run.reports()[-1]
            expect(counts.endswith(f" sent {len(came)}") and peer.has_ended and not peer.rest,
                   f"{len(came)} answers came, and {len(peer.rest)} octets; the run says: {counts}")
            if log is None:
                replay = run.replay()
                expect(replay.stdout.splitlines() == run.reports()[-1:], replay.stdout + replay.stderr)
            said.append(f"{35 * len(came)} octets")
    with Run(folder, "--links", "2") as run:
        peer, other = run.peer(), run.peer()
        peer.play(calls, rate=0)
        with Flood(other, 0):
            peer.end_sending()
            came = read_slowly(peer)
            expect(len(came) == count and peer.has_ended, f"{len(came)} answers came of {count}")
        run.finish(peer, other)
    return f"{said[0]}, with a log that hangs {said[1]}"


def endless_dialogue(folder):
    """A dialogue that accepts entries without end: its link goes down, another goes on."""
    with Run(folder, "--links", "2", "--events") as run:
        peer, honest = run.peer(), run.peer()
        local = peer.open(1)
        # (a Reject of an error leaves an entry, and is answered by nothing)
        message = continued(1, local, late_error(99) * 12)
        peer.play(frames([message] * 90_000), idle=5, wanted=1)
        expect(peer.has_ended, "the link goes on")
        honest.call(2)
        memory = run.memory("VmHWM")
        run.finish(peer, honest, errors=None)
        expect("link 0 down entries" in events_of(run), f"the events are {events_of(run)}")
        return f"memory at most {memory:.1f} MB"
