"""Cases of tools/attacks: the log and its device, the standard streams, and the words of the command line."""
import concurrent.futures
import contextlib
import os
import subprocess
import time

from client import expect, frames
from setting import LOG_FAULT, RECORDS, GIVEN, Pipe, Run, Skipped, in_time, until
from tcap import call, continued, error, late_error


def hanging_log(folder):
    """The log is a pipe that nobody reads: calls and ticks go on, and the run ends five seconds after its link."""
    pipe = Pipe(folder)
    with Run(folder, log=pipe.path) as run:
        peer, slowest = run.peer(), 0
        local = peer.open(1)
        # (the time of an invocation is over at the first tick after ten seconds)
        last = time.monotonic() + 10 + 2 * GIVEN.patience
        while time.monotonic() < last:
            slowest = max(slowest, peer.call(2))
            time.sleep(0.005)
        came = peer.play(frames([continued(1, local, error(2))]), 1)
        expect(came == [continued(local, 1, late_error(2))], f"no ticks: a late error got '{b''.join(came).hex()}'")
        peer.close()
        run.expect_end(6, 1, LOG_FAULT)
        return in_time(slowest)


def slow_log(folder):
    """The log is a device that takes a second for each 65,536 octets: no call waits for it, and no line is lost."""
    pipe = Pipe(folder)
    with Run(folder, log=pipe.path) as run, concurrent.futures.ThreadPoolExecutor(1) as pool:
        reading = pool.submit(pipe.read, 3 * GIVEN.patience, 1)
        peer = run.peer()
        slowest = max(map(peer.call, range(1_500)))
        peer.close()
        reading.result()
        run.log = pipe.into(folder / "log")
        run.finish()
        return in_time(slowest)


def log_comes_back(folder):
    """The log is a pipe that is read again after 20,000 lines, of which none is lost, and after 300,000 more, of which a
    gap says how many found no place; then the log goes on."""
    pipe = Pipe(folder)
    with Run(folder, log=pipe.path) as run:
        peer = run.peer()
        for count in (4_000, 60_000, 1_000):
            peer.calls(count)
            pipe.read(2)
        expect(b"\n0 Z " in pipe.text, "there is no gap")
        peer.close()
        run.expect_end(10)
        pipe.read(0.1)
        run.log = pipe.into(folder / "log")
        lines, replay = pipe.text.decode().splitlines(), run.replay()
        gaps = [number for number, line in enumerate(lines, 1) if line.startswith("0 Z ")]
        lost = sum(int(lines[number - 1].split()[2]) for number in gaps)
        # (a call has five lines; the log has a head, and an end of the link)
        expect(len(lines) - len(gaps) + lost == 5 * 65_000 + 2 and gaps[0] > 20_000 and len(lines) - gaps[-1] > 5_000,
               f"{len(lines)} lines, gaps in lines {gaps}, {lost} lines are lost in them")
        expect((replay.returncode, replay.stdout, replay.stderr) == (1, "", f"line {gaps[0]}: gap\n"),
               f"the log has a gap in line {gaps[0]} and replays to '{replay.stdout + replay.stderr}'")
        return f"{lost} lines are lost in {len(gaps)} gaps, the first in line {gaps[0]}"


def full_log(folder):
    """The log is a device that is full: the run says where it listens, and ends by itself, status 1."""
    with Run(folder, log="/dev/full") as run:
        run.expect_end(3, 1, LOG_FAULT)
        expect(run.address() and run.printed() == "", f"the run printed {run.printed()}")


@contextlib.contextmanager
def small_device(folder, size):
    """A file system that is soon full."""
    device = folder / "device"
    device.mkdir(exist_ok=True)
    words = ["mount", "-t", "tmpfs", "-o", f"size={size}", "tmpfs", device]
    if os.geteuid() != 0 or subprocess.run(words, capture_output=True).returncode != 0:
        raise Skipped("no file system can be mounted here")
    try:
        yield device
    finally:
        subprocess.run(["umount", device], check=True)


def full_log_later(folder):
    """The log's device is full while a connection is awaited: the run ends within two seconds, also where one comes as
    soon as it is full, which gets no link."""
    for comes in (False, True):
        with small_device(folder, "4k") as device, Run(folder, "--links", "2", log=device / "log") as run:
            peer = run.peer()
            peer.play(frames(map(call, range(200))), 200)
            expect(until(lambda: run.log.stat().st_size == 4_096, 4), "the log isn't full")
            with contextlib.suppress(ConnectionError):
                late = run.peer() if comes else None
            expect(peer.ends(4), "the link goes on though the log is full")
            run.expect_end(2, 1, LOG_FAULT)
            expect(len(run.reports()) == 1, f"the run printed {run.reports()}")


def log_gaps(folder):
    """With --log-gaps calls go on while the log's device is full, and the log goes on once there is room."""
    with small_device(folder, "64k") as device, Run(folder, "--log-gaps", log=device / "log") as run:
        peer = run.peer()
        peer.calls(1_000)
        expect(until(lambda: "lines are lost" in run.errors.read_text(), 10), "nothing says that the log isn't written")
        # (a call has five lines; they find no place any more)
        peer.calls(60_000)
        written = run.log.stat().st_size
        subprocess.run(["mount", "-o", "remount,size=64m", device], check=True)
        expect(until(lambda: run.log.stat().st_size > written, 10), "the log doesn't go on")
        peer.calls(1_000)
        peer.close()
        run.expect_end(10, errors="log: cannot be written, lines are lost\nlog: written again\n")
        lines, replay = run.log.read_text().split("\n"), run.replay()
        gaps = [number for number, line in enumerate(lines, 1) if line.startswith("0 Z ")]
        expect(gaps and len(lines) > gaps[-1] + 3_500, f"no lines after the gaps in lines {gaps} of {len(lines)}")
        expect((replay.returncode, replay.stdout, replay.stderr) == (1, "", f"line {gaps[0]}: gap\n"),
               f"the log has a gap in line {gaps[0]} and replays to '{replay.stdout + replay.stderr}'")


def two_runs(folder):
    """A second run on the log of the first: it is refused and prints nothing, and the first one's log replays; nothing
    is written into it."""
    for count in (100, 0):
        with Run(folder) as run:
            peer = run.peer()
            peer.calls(count)
            with Run(folder, log=run.log) as second:
                second.expect_end(3, 1, "log: cannot be opened\n")
                expect(second.output.read_text() == "", f"the second one printed {second.output.read_text()}")
            peer.calls(count)
            run.finish(peer)
    log, printed = run.log.read_text(), run.printed()
    expect((log, printed) == ("fplog 4 1\n0 N\n", "link 0 accepted 0 served 0 sent 0\n"), f"'{log}', '{printed}'")


def records_as_log(folder):
    """The log is the records file, by its name, a symbolic link or a hard one: refused, the records are unchanged."""
    records = folder / "records.csv"
    (folder / "symbolic").symlink_to(records)
    (folder / "hard").hardlink_to(records)
    for name in ["records.csv", "symbolic", "hard"]:
        with Run(folder, log=folder / name) as run:
            until(lambda: run.process.poll() is not None, 3)
            expect(records.read_text() == RECORDS, f"{name}: the records are changed")
            run.expect_end(0, 1, "log: cannot be opened\n")


def log_mode(folder):
    """A log that is created has the mode 0640."""
    with Run(folder) as run:
        run.finish(run.peer())
        mode = run.log.stat().st_mode & 0o7777
        expect(mode == 0o640, f"its mode is {mode:04o}")


def closed_streams(folder):
    """Standard input or error is closed: the log replays. Standard output is: the run ends, and the log has no line."""
    def closing(stream):
        return Run(folder, within=["sh", "-c", f'exec "$@" {stream}', "sh"])

    for stream in ("<&-", "2>&-", "<&- 2>&-"):
        with closing(stream) as run:
            peer = run.peer()
            peer.calls(10)
            run.finish(peer)
    with closing(">&-") as run:
        run.expect_end(3, 1, "output: cannot be written\n")
        expect(run.log.read_text() == "", f"the log begins with '{run.log.read_text()[:30]}'")


def strange_words(folder):
    """An argument isn't UTF-8: the words are refused."""
    for words in ([b"\xff"], [b"check", b"\xff.csv"], [b"serve", b"records.csv", b"--log", b"\xc0\x80"]):
        run = subprocess.run([GIVEN.program, *words], cwd=folder, stdin=subprocess.DEVNULL, capture_output=True, timeout=10)
        refused = 2, b"", b"error: invalid UTF-8 was detected in one or more arguments\n"
        expect((run.returncode, run.stdout, run.stderr) == refused, f"{words} got {run.returncode}, {run.stdout + run.stderr}")
