"""What the tries of tools/units have in common: the commands of the machine, its units, records and logs, and calls. Prints a
line for what was seen, `ok` or `FAIL`."""
import contextlib
import glob
import os
import pathlib
import re
import subprocess
import time

import tcap
from client import Link
from run import ROOT, Counts, until

LOGS, RUN, RECORDS = "/var/log/scp", "/run/scp/run", "/etc/scp/records.csv"
PACKAGE = next(ROOT.glob("*.deb"), None)
BY_HAND, LIBRARY = "/usr/local/lib/scp", "/usr/libexec/freephone-scp" if PACKAGE else "/usr/local/lib/scp"
PROGRAM, DROP_IN = LIBRARY + "/scp", pathlib.Path("/run/systemd/system/scp.service.d/try.conf")
SEEN = Counts()


def note(is_wanted, what, seen=""):
    """Counts what was seen, and prints a line for it."""
    text = str(seen).replace("\n", " | ")
    print(f"{'ok  ' if SEEN.count(is_wanted) else 'FAIL'} {what}{': ' if text else ''}{text}", flush=True)


def sh(command, seconds=60):
    """Runs a command in bash, and gives its status and output."""
    run = subprocess.run(["bash", "-c", command], stdin=subprocess.DEVNULL, stdout=subprocess.PIPE,
                         stderr=subprocess.STDOUT, timeout=seconds, cwd=ROOT)
    return run.returncode, run.stdout.decode(errors="replace").strip()


def succeeds(command):
    return sh(command)[0] == 0


def show(unit, *fields):
    lines = dict(line.split("=", 1) for line in sh(f"systemctl show {unit}")[1].splitlines() if "=" in line)
    return [lines.get(field, "") for field in fields]


def heard(what, *words, units="-u scp"):
    """Gives what a function returns, and the lines with one of these words that came into the journal meanwhile."""
    cursor = re.search(r"-- cursor: (.*)", sh("journalctl --sync; journalctl -n 0 --show-cursor")[1])[1]
    result = what()
    lines = sh(f"journalctl --sync; journalctl -q -o cat --after-cursor='{cursor}' {units}")[1].splitlines()
    return result, [line for line in lines if any(word in line for word in words)]


def wait_until(what, seconds=10.0):
    return until(what, seconds)


def is_listening(port=14700):
    with open("/proc/net/tcp") as file:
        return f":{port:04X} 00000000:0000 0A" in file.read()


def is_gone(path):
    """Waits until a FIFO is removed: its socket unit stops a moment after the service."""
    return wait_until(lambda: not os.path.exists(path))


def active(unit="scp"):
    """Waits until a unit has started: until then systemctl refuses to reload it."""
    wait_until(lambda: show(unit, "ActiveState") == ["active"])


def reload(units="scp"):
    """Gives whether `systemctl reload` succeeds."""
    active()
    return succeeds("systemctl reload " + units)


def force():
    """Has the records taken by the command of the document, and gives whether a run answers from them."""
    active()
    sh(block("RECORDS_FORCE"))
    return pathlib.Path(RUN, "good.csv").read_bytes() == pathlib.Path(RECORDS).read_bytes()


def main_pid(unit="scp"):
    return int(show(unit, "MainPID")[0] or 0)


def files(pattern="*", folder=LOGS):
    return sorted(os.path.basename(it) for it in glob.glob(f"{folder}/{pattern}"))


def drop_in(text):
    DROP_IN.parent.mkdir(parents=True, exist_ok=True)
    DROP_IN.write_text(f"[Service]\n{text}\n")
    sh("systemctl daemon-reload")


def name():
    """The name of the files of the run, or of the last one."""
    return pathlib.Path(RUN, "name").read_text().strip()


def tag_of(run, folder=LOGS):
    """Gives the number of links and the tag in the head of the log of a run, once that is over."""
    return sh(f"zcat -f {folder}/{run}-00000* | sed -n 's/^fplog 5 //p;q'")[1]


def call(link):
    """Makes a call to 800123456, and gives its destination."""
    link.send(tcap.call(42))
    answer = link.receive()
    if not answer:
        raise ConnectionError("no answer")
    return tcap.digits_in(answer[-7:])


def connect(port=14700, seconds=5.0):
    """Connects and makes a call, as a switch that tries again after 50 ms, and fails if that takes longer. Gives the link,
    the number of times that it was refused, and the milliseconds until the answer."""
    begun, refused = time.monotonic(), 0
    while True:
        with contextlib.ExitStack() as opened:
            try:
                link = opened.enter_context(Link(("127.0.0.1", port), 5))
                call(link)
                opened.pop_all()
                return link, refused, (time.monotonic() - begun) * 1000
            except ConnectionError:
                refused += 1
                if time.monotonic() > begun + seconds:
                    raise
        time.sleep(0.05)


def linked(port=14700):
    return connect(port)[0]


def drop(link, seconds=5.0):
    """Closes a link and connects again: a new link, and what that took in words."""
    link.close()
    link, *figure = connect(seconds=seconds)
    return link, range_of([figure])


def drops(link, seconds=None):
    """Drops a link five times, so long after another run listens, if given: the last link, what the calls got, figures."""
    got, figures = [], []
    for _ in range(5):
        if seconds is not None:
            wait_until(is_listening)
            time.sleep(seconds)
        link.close()
        link, *figure = connect()
        got.append(call(link))
        figures.append(figure)
    return link, got, figures


def range_of(figures):
    """Gives what several connections took, in words."""
    ends = [f"{min(them):.{digits}f} to {max(them):.{digits}f}" for digits, them in enumerate(zip(*figures))]
    refused, took = [end if len(figures) > 1 else end.split()[0] for end in ends]
    return f"refused {refused} times, answered after {took} ms"


def restarted(link, unit="scp"):
    """Restarts a unit that has the link. Gives whether that succeeds, the new link, refusals and milliseconds."""
    restarting = subprocess.Popen(["systemctl", "restart", unit])
    with contextlib.suppress(OSError):
        while link.receive():
            pass
    figures = connect()
    return restarting.wait() == 0, *figures


def over(link, unit="scp", port=14700):
    """Closes a link and waits until the next run of its unit listens."""
    pid = main_pid(unit)
    link.close()
    wait_until(lambda: main_pid(unit) not in (0, pid) and is_listening(port))


def records(*lines, one="302223344", more=0, end="\n"):
    """Writes good records, with one as the destination of 800123456, and further lines."""
    text = ["key,100,60", f"800123456,,1234567,00:00,24:00,1,route,{one}",
            "800123457,,1234567,00:00,24:00,1,route,302223344", "800123458,,1234567,00:00,24:00,1,refuse",
            "800123459,,1234567,00:00,24:00,1,pass"]
    text += [f"8009{number:05},,1234567,00:00,24:00,1,route,302223344" for number in range(more)]
    pathlib.Path(RECORDS + ".new").write_text("\n".join([*text, *lines]) + end)
    os.rename(RECORDS + ".new", RECORDS)


def block(word, section="Under systemd"):
    """Gives the commands of the block of docs/units.md that has a word, with the paths of the package if that is tried."""
    text = (ROOT / "docs/units.md").read_text().replace(BY_HAND, LIBRARY)
    if PACKAGE:
        text = text.replace(" examples/", " /usr/share/doc/freephone-scp/examples/")
    text = text[text.index(f"\n## {section}\n"):]
    for found in re.findall(r"```console by-hand\n(.*?)```", text[:text.index("\n## ", 5)], re.S):
        if word in found:
            return "".join(line[2:] + "\n" for line in found.splitlines() if line.startswith(("$ ", "> ")))
    raise ValueError(f"docs/units.md has no block with {word}")


def replay(run):
    """Replays the log of a run by the commands of the document, and gives what the replay printed."""
    script = re.sub(r"run=\S+", "run=" + run, block("replay $run"))
    return sh(script if files(run + ".*.csv") else script.replace(" $run.*.csv", ""))[1]


def system():
    """What is on the machine: its files, except those that it writes by itself, and its users."""
    own = ("/etc/*-", "/root/*", "/run/agetty.reload", "/run/systemd/*", "/run/udev/*", "/tmp/*", "/var/cache/*",
           "/var/lib/apt/*", "/var/lib/dpkg/*", "/var/log/journal/*", "/var/log/apt/*", "/var/log/dpkg.log", "/var/tmp/*")
    names = " ".join(f"! -path '{it}'" for it in own)
    return {*sh(f"find / /run -xdev {names}; cat /etc/passwd /etc/group /etc/shadow /etc/gshadow")[1].splitlines()}
