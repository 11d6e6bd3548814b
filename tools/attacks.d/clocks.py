"""Cases of tools/attacks: the clock steps, and calls wait for long. They need a C compiler, cc."""
import struct
import time

from client import expect, frames
from setting import SECOND_PLACE, Run, library
from tcap import ABORT, ACTIVITY_TEST, continued, error, invoke, late_error, result, user_aborted

CLOCK = r"""
#define _GNU_SOURCE
#include <dlfcn.h>
#include <fcntl.h>
#include <stdlib.h>
#include <sys/mman.h>
#include <time.h>
#include <unistd.h>

int clock_gettime(clockid_t clock, struct timespec *time) {
    static int (*real)(clockid_t, struct timespec *);
    static const long *ahead;
    if (!real) {
        ahead = mmap(0, sizeof *ahead, PROT_READ, MAP_SHARED, open(getenv("SCP_ATTACKS_CLOCK"), O_RDONLY), 0);
        real = dlsym(RTLD_NEXT, "clock_gettime");
    }
    int result = real(clock, time);
    if (clock == CLOCK_REALTIME) time->tv_sec += *ahead;
    return result;
}
"""


class Clock:
    """The clock of a run, which can step."""

    def __init__(self, folder):
        self.file = folder / "clock"
        self.file.write_bytes(bytes(8))
        self.within = ["env", f"SCP_ATTACKS_CLOCK={self.file}", f"LD_PRELOAD={library(folder, CLOCK)}"]

    def step_to(self, seconds):
        """From now on it is this many seconds ahead of the machine's, which at least one tick has seen then."""
        with self.file.open("r+b") as file:
            file.write(struct.pack("l", seconds))
        time.sleep(2.2)


def clock_steps(folder):
    """The clock steps back by an hour: calls are answered, and nothing is due until it has caught up. It steps forward
    by five minutes: an open dialogue is aborted at the next tick. The log replays."""
    clock = Clock(folder)
    with Run(folder, within=clock.within) as run:
        peer = run.peer()
        local = peer.open(1)
        clock.step_to(-3_600)
        peer.call(2)
        came = peer.play(frames([continued(1, local, error(2))]), 1)
        expect(came and came[0].endswith(SECOND_PLACE), f"after a step back an error got '{b''.join(came).hex()}'")
        clock.step_to(-3_580)
        peer.call(3)
        came = peer.play(frames([continued(1, local, error(4))]), 1)
        expect(came == [continued(local, 1, late_error(4))], f"a late error got '{b''.join(came).hex()}'")
        clock.step_to(-3_270)
        came = peer.play(wanted=1)
        expect(len(came) == 1 and came[0][0] == ABORT, f"after five minutes came '{b''.join(came).hex()}'")
        peer.call(4)
        run.finish(peer)


def activity_tests(folder):
    """The clock steps forward: a call that waits is tested once nothing came to it for 120 seconds, and not before. It
    answers and stays open; it is tested anew, doesn't answer, and is aborted after ten seconds more. The log
    replays."""
    clock = Clock(folder)
    with Run(folder, within=clock.within) as run:
        peer = run.peer()
        local = peer.open(1)
        for seconds, wanted, what in [
                (100, [], "after 100 seconds"),
                (120, [continued(local, 1, invoke(3, ACTIVITY_TEST))], "after 120 seconds"),
                (150, [], "30 seconds after an answer"),
                (250, [continued(local, 1, invoke(4, ACTIVITY_TEST))], "120 seconds after an answer"),
                (265, [user_aborted(1)], "without an answer")]:
            clock.step_to(seconds)
            came = peer.play(wanted=len(wanted) or 1, idle=10 if wanted else 0.5)
            expect(came == wanted, f"{what} came '{b' '.join(came).hex()}'")
            if seconds == 120:
                peer.play(frames([continued(1, local, result(3))]))
            peer.call(seconds)
        run.finish(peer)
