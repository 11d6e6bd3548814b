"""A run of `scp serve` in a folder of its own, with its log and what it prints; and what tools have in common: where the
program is, waiting with a limit, the pages of a run, and the counts at the end."""
import contextlib
import os
import pathlib
import re
import signal
import socket
import subprocess
import sys
import tempfile
import time
import urllib.error
import urllib.request

import client

ROOT = pathlib.Path(__file__).resolve().parent.parent.parent
# The proved program. Tools that the environment gives another one in SCP take ./scp otherwise, which asks for it.
PROGRAM = ROOT / "crates/scp_main/out/scp_main"
SCP = os.environ.get("SCP", str(ROOT / "scp"))


def look_for(program, otherwise):
    """Ends the tool with this text if there is no such program."""
    if not os.access(program, os.X_OK):
        sys.exit(otherwise)


class Counts:
    """How many checks passed, failed and were skipped."""

    def __init__(self):
        self.passed = self.failed = self.skipped = 0

    def count(self, is_right):
        self.passed, self.failed = self.passed + bool(is_right), self.failed + (not is_right)
        return is_right

    def check(self, is_right, what, detail=""):
        """Counts a check, and prints what is wrong."""
        if not self.count(is_right):
            print(f"wrong: {what} {detail}".rstrip())

    def end(self):
        """Prints the counts, and gives the status."""
        print(f"{self.passed} passed, {self.failed} failed" + f", {self.skipped} skipped" * bool(self.skipped))
        return 1 if self.failed else 0


def until(is_so, seconds, pause=0.02):
    """What `is_so` gives, as soon as that is true; what it gives last if it isn't so within this time."""
    last = time.monotonic() + seconds
    while not (found := is_so()) and time.monotonic() < last:
        time.sleep(pause)
    return found


def free_address():
    """A port of 127.0.0.1 that nobody has, with the address."""
    with socket.socket() as free:
        free.bind(("127.0.0.1", 0))
        return "%s:%d" % free.getsockname()


def page(address, path):
    """The status and the text of a page."""
    try:
        with urllib.request.urlopen(f"http://{address}{path}", timeout=10) as answer:
            return answer.status, answer.read().decode()
    except urllib.error.HTTPError as error:
        return error.code, error.read().decode()


def memory_of(pid, name="VmRSS"):
    """Kilobytes of memory that a process has, or has had at most: VmHWM."""
    status = pathlib.Path(f"/proc/{pid}/status").read_text()
    return int(re.search(name + r":\s+(\d+) kB", status)[1])


class Run:
    """A run of `scp serve`. What it prints goes to files. Its log and these files are in a folder of its own. All limits of
    time are `patience` times as long; `seconds` is how long it may take until it listens. `commands` is its standard input,
    subprocess.PIPE to give it some; `within` are words before its own, whose program may start others, which are killed with
    it; and `environment` is its whole environment."""

    def __init__(self, folder, records, *options, program=SCP, log=None, host="127.0.0.1", within=(), environment=None,
                 commands=subprocess.DEVNULL, patience=1, seconds=10):
        own = pathlib.Path(tempfile.mkdtemp(dir=folder))
        # (the options of a replay of its log, which are the records that it read later)
        self.program, self.records, self.log, self.later = program, records, log or own / "run.log", []
        self.output, self.errors, self.patience = own / "output", own / "errors", patience
        words = [program, "serve", records, "--listen", f"{host}:0", "--log", self.log, *options]
        with self.output.open("w") as output, self.errors.open("w") as errors:
            self.process = subprocess.Popen([*within, *words], stdin=commands, stdout=output, stderr=errors,
                                            env=environment, umask=0o022, start_new_session=bool(within))
        until(lambda: "\n" in self.output.read_text() or self.process.poll() is not None, seconds * patience, 0.005)

    def __enter__(self):
        return self

    def __exit__(self, *_):
        if self.process.poll() is None:
            # (of words before its own, which have a process group, all that they started)
            with contextlib.suppress(ProcessLookupError):
                os.killpg(self.process.pid, signal.SIGKILL)
            self.process.kill()
            self.process.wait()

    def until(self, is_so, seconds):
        return until(is_so, seconds * self.patience)

    def address(self):
        listening = re.match(r"listening (.*):(\d+)\n", self.output.read_text())
        client.expect(listening, f"the program doesn't listen: '{self.errors.read_text()}'")
        return listening[1], int(listening[2])

    def link(self, seconds=20):
        return client.Link(self.address(), seconds)

    def peer(self, is_small=False):
        return client.Peer(self.address(), is_small, self.patience)

    def reports(self):
        """The lines of its links."""
        return [line for line in self.output.read_text().splitlines() if line.startswith("link ")]

    def printed(self):
        """What it printed after the line `listening`."""
        return self.output.read_text().partition("\n")[2]

    def command(self, line):
        """Writes a command to its standard input."""
        self.process.stdin.write(line.encode() + b"\n")
        self.process.stdin.flush()

    def answer(self, line, last="# EOF\n"):
        """The lines that a command prints, up to the last one, which is left out."""
        at = len(self.output.read_text())
        self.command(line)
        found = self.until(lambda: re.match(f"(.*?)^{last}", self.output.read_text()[at:], re.S | re.M), 60)
        client.expect(found, f"the command '{line}' isn't answered")
        return found[1]

    def memory(self, name="VmRSS"):
        """How many megabytes of memory it has."""
        return memory_of(self.process.pid, name) / 1000

    def end(self, seconds=90):
        """Ends its standard input, if it has one, and gives the status with which it ends."""
        if self.process.stdin:
            # (a command that wasn't read before the run ended is still to be written)
            with contextlib.suppress(BrokenPipeError):
                self.process.stdin.close()
        return self.process.wait(seconds * self.patience)

    def replay(self):
        words = [self.program, "replay", self.records, self.log, *self.later]
        return subprocess.run(words, capture_output=True, text=True)

    def expect_end(self, seconds, status=0, errors=""):
        """It ends within this time, with this status and these lines on standard error, any if none are given."""
        with contextlib.suppress(subprocess.TimeoutExpired):
            self.process.wait(seconds * self.patience)
        ended, said = self.process.poll(), self.errors.read_text()
        client.expect(ended is not None, f"the run goes on for {seconds * self.patience:.0f} seconds")
        client.expect(ended == status and errors in (None, said), f"the run ended with status {ended}, '{said.strip()}'")

    def finish(self, *peers, errors=""):
        """These peers go, the run ends as it should, and its log replays to what it printed."""
        for peer in peers:
            peer.close()
        self.expect_end(10, errors=errors)
        replay = self.replay()
        client.expect(replay.returncode == 0 and replay.stdout.splitlines() == self.reports() and not replay.stderr,
                      f"the run printed {self.reports()}, its log replays to '{replay.stdout + replay.stderr}'")
