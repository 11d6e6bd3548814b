"""The transfer points and the nodes of a case of tools/sccp."""
import os
import pathlib
import signal
import socket
import subprocess
import time

import preload
import run

FOLDER = pathlib.Path(__file__).resolve().parent
TICKS = os.sysconf("SC_CLK_TCK")


def stand_in(folder):
    """The stand-in for SCTP, compiled into this folder."""
    made = folder / "sctp_over_tcp.so"
    if not made.exists():
        preload.build(made, (FOLDER / "sctp_over_tcp.c").read_text())
    return made


class Stage:
    """What runs in a case. Standard error of everything goes to files NAME.err of a folder."""

    def __init__(self, options, folder):
        self.options, self.folder, self.running, self.nodes = options, folder, {}, {}
        self.records = folder / "records.csv"
        self.records.write_text((run.ROOT / "examples/freephone.csv").read_text())

    def start(self, name, words, **more):
        with open(self.folder / f"{name}.err", "ab") as errors:
            self.running[name] = subprocess.Popen([str(word) for word in words], stderr=errors, **more)
        return self.running[name]

    # Nodes

    def node(self, number, own, exchange, units, log=None, listen=None, more=()):
        """Starts node `number` with the point code `own`, for the exchange with the point code `exchange`. Its first link
        has a number that differs from those of the other nodes of the exchange. Standard output goes to node-OWN.out."""
        log = self.folder / f"log-{own}" if log is None else log
        words = [self.options.program, "serve", self.records, "--listen", f"127.0.0.1:{listen or self.port_of(own)}",
                 "--log", log, "--sccp", f"{own}:241", "--exchange", f"{exchange}:12", "--units", units,
                 "--first-link", number - 1, "--contexts", "2A0304", "--commands", "--events", *more]
        with open(self.folder / f"node-{own}.out", "wb") as printed:
            process = self.start(f"node-{own}", words, stdin=subprocess.PIPE, stdout=printed)
        self.nodes[own] = (number, own, exchange, units)
        return process

    @staticmethod
    def port_of(own):
        """Nodes of exchange 100 have 201 and 202, and ports 17101 and 17102; those of 101 have 211 and 212."""
        return 17100 + own - 200

    def nodes_of(self, exchange, common, numbers=(1, 2)):
        for number in numbers:
            own = common + number
            self.node(number, own, exchange, f"scp-{common}-{number},scp-{own}")

    def again(self, own):
        """Starts a node again that was killed, in another second than before, since its tag is that of the second."""
        time.sleep(1.1)
        number, own, exchange, units = self.nodes[own]
        self.node(number, own, exchange, units, log=self.folder / f"log-{own}-again")

    def command(self, own, text):
        process = self.running[f"node-{own}"]
        process.stdin.write(text.encode() + b"\n")
        process.stdin.flush()

    def printed(self, own):
        return (self.folder / f"node-{own}.out").read_text()

    def errors(self, name):
        path = self.folder / f"{name}.err"
        return path.read_text(errors="replace") if path.exists() else ""

    def reload(self, own, number):
        """Has a node read its records again, and waits until it has."""
        self.command(own, "reload")
        if not run.until(lambda: f"reloaded {number}\n" in self.printed(own), 10):
            raise TimeoutError(f"node {own} didn't reload")

    def ends(self, own, seconds=10):
        """Whether a node ends by itself within some seconds, with status 0, and its log replays to what it printed."""
        try:
            if self.running[f"node-{own}"].wait(seconds) != 0:
                return False
        except subprocess.TimeoutExpired:
            return False
        return self.replays(own)

    def replays(self, own):
        words = [self.options.program, "replay", self.records, self.folder / f"log-{own}", "--contexts", "2A0304"]
        told = subprocess.run(words, capture_output=True, text=True, check=False).stdout
        return told != "" and self.printed(own).endswith(told)

    def quit(self, *nodes):
        """Ends nodes by `quit`; whether each ends as it should."""
        for own in nodes:
            self.command(own, "quit")
        return all([self.ends(own) for own in nodes])

    def network(self, own):
        """The numbers that a node printed at its end, by their words."""
        lines = [line for line in self.errors(f"node-{own}").splitlines() if " network " in line]
        words = lines[-1].split()[2:] if lines else []
        return dict(zip(words[0::2], map(int, words[1::2])))

    # Transfer points

    def stp(self, config, name="stp", has_m3ua=False, change=()):
        """Starts osmo-stp with a configuration, in which texts may be replaced."""
        text = (FOLDER / config).read_text()
        for old, new in change:
            text = text.replace(old, new)
        path = self.folder / f"{name}.cfg"
        path.write_text(text)
        environment = dict(os.environ)
        if has_m3ua and not self.options.sctp:
            environment["LD_PRELOAD"] = str(stand_in(self.options.room))
        self.start(name, ["osmo-stp", "-c", path], stdin=subprocess.DEVNULL, stdout=subprocess.DEVNULL, env=environment)
        self.running[name].again = (config, name, has_m3ua, change)

    def restart(self, name="stp", after=0.0):
        again = self.running[name].again
        self.kill(name)
        time.sleep(after)
        self.stp(*again)

    @staticmethod
    def configure(host, lines):
        """Changes the configuration of the osmo-stp whose terminal is at this address."""
        with socket.create_connection((host, 4239), 10) as terminal:
            for line in ("enable", "configure terminal", "cs7 instance 0", *lines):
                terminal.sendall(line.encode() + b"\r\n")
                time.sleep(0.2)

    # All of them

    def kill(self, name):
        self.running[name].kill()
        self.running.pop(name).wait()

    def signal(self, name, number):
        self.running[name].send_signal(number)

    def processor(self, name):
        """Seconds of processor time that a process took so far."""
        words = pathlib.Path(f"/proc/{self.running[name].pid}/stat").read_text().rpartition(")")[2].split()
        return (int(words[11]) + int(words[12])) / TICKS

    def memory(self, name):
        """Kilobytes of memory that a process has now."""
        return run.memory_of(self.running[name].pid)

    def is_running(self, name):
        return self.running[name].poll() is None

    def close(self):
        for process in self.running.values():
            process.send_signal(signal.SIGCONT)
            process.kill()
            process.wait()
