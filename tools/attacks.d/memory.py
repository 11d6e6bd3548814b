"""Cases of tools/attacks: memory is refused while calls are made. They need a C compiler, cc."""
import contextlib
import struct
import subprocess

import preload
from client import expect, frames
from setting import GIVEN, Run, call_of, library
from tcap import ABORT, aborted, call, connected

REFUSING = preload.refusing(r"""
#include <fcntl.h>
#include <sys/mman.h>

static int refuses(void) {
    static const unsigned *one_in;
    static unsigned count;
    if (!one_in)
        one_in = mmap(0, sizeof *one_in, PROT_READ, MAP_SHARED, open(getenv("SCP_ATTACKS_MEMORY"), O_RDONLY), 0);
    unsigned drawn = __atomic_add_fetch(&count, 1, __ATOMIC_RELAXED) * 2654435761u >> 8;
    return *one_in && drawn % *one_in == 0;
}
""")


def put_back(log):
    """How many turns came back unserved, and the dialogues of which none came back served after that."""
    count, unserved = 0, set()
    for line in log.splitlines()[1:]:
        link, letter, *words = line.split()
        if letter == "B":
            count += 1
            unserved.add((link, words[0]))
        elif letter == "G":
            unserved.discard((link, words[0]))
    return count, unserved


def refused_memory(folder):
    """One allocation in 3 to one in 3,000 is refused while calls are made: each call gets its answer, an Abort or, if
    its link goes down, nothing; turns that come back unserved are served later; no thread waits forever, and the log
    replays. Once memory is there calls are answered."""
    refusing, shim = folder / "refusing", library(folder, REFUSING)
    lost, ended, unserved, count = 0, 0, 0, 1_000
    for one_in in (3, 10, 30, 100, 300, 1_000, 3_000):
        refusing.write_bytes(bytes(4))
        with Run(folder, within=["env", f"SCP_ATTACKS_MEMORY={refusing}", f"LD_PRELOAD={shim}"]) as run:
            peer = run.peer()
            peer.call(count)
            with refusing.open("r+b") as file:
                file.write(struct.pack("I", one_in))
            # (a turn that found no memory is taken again after the next tick)
            came = peer.play(frames(map(call, range(count))), count, 3)
            with refusing.open("r+b") as file:
                file.write(bytes(4))
            came = came + peer.play(wanted=count - len(came), idle=2)
            numbers = [call_of(message) for message in came]
            expect(len(set(numbers)) == len(came) and all(message in (connected(number), aborted(number, 4))
                   for number, message in zip(numbers, came)), f"one in {one_in}: a wrong answer came")
            lost += sum(message[0] == ABORT for message in came)
            ended += peer.has_ended
            if not peer.has_ended:
                # (an Abort finds no place if memory runs out at the last moment and 64 others wait)
                expect(len(came) > 0.9 * count, f"one in {one_in}: {count - len(came)} calls got nothing")
                peer.call(count + 1)
            peer.close()
            with contextlib.suppress(subprocess.TimeoutExpired):
                run.process.wait(10 * GIVEN.patience)
            said = run.process.returncode, run.errors.read_text()
            expect(said in [(0, ""), (1, "out of memory\n")], f"one in {one_in}: the run ended with {said}")
            if said[0] == 0:
                run.finish()
            turns, dialogues = put_back(run.log.read_text())
            expect(not dialogues or peer.has_ended, f"one in {one_in}: {len(dialogues)} dialogues were never served")
            unserved += turns
    expect(lost, "no call was aborted")
    expect(unserved, "no turn came back unserved")
    return f"{lost} calls of {7 * count} got an Abort, {unserved} turns came back unserved, {ended} of 7 links went down"
