"""The try of a package for tools/units: a call, the command by hand, an upgrade under open logs, a removal and a purge."""
import os
import pathlib
import signal
import subprocess

from machine import (PACKAGE, PROGRAM, RECORDS, block, call, files, heard, is_listening, linked, main_pid, name, note,
                     over, records, reload, replay, sh, succeeds, system)


def signals():
    """The command `freephone-scp serve` by hand, and SIGTERM or SIGINT."""
    for number in (signal.SIGTERM, signal.SIGINT):
        words = ["freephone-scp", "serve", RECORDS, "--listen", "127.0.0.1:14800", "--log", "/root/signals.log"]
        # (a script that was started in the background ignores SIGINT, and so does what it starts)
        run = subprocess.Popen(words, stdin=subprocess.PIPE, stdout=subprocess.PIPE, stderr=subprocess.STDOUT,
                               preexec_fn=lambda: signal.signal(signal.SIGINT, signal.SIG_DFL))
        link = linked(14800)
        run.send_signal(number)
        said = run.communicate(timeout=10)[0].decode()
        text = sh(f"freephone-scp replay {RECORDS} /root/signals.log")[1]
        is_done = run.returncode == 0 and link.receive() == b"" and said.endswith(text + "\n")
        note(is_done and "accepted 1 served 2 sent 1" in text, f"{number.name} to the command: quit", said)


def package(first):
    """The package: a call, an upgrade under an open log, a removal and a purge. `first` is what was on the machine before."""
    if not PACKAGE:
        raise ValueError("needs --package FILE")
    text = sh(block("calls.txt", "From a package"))[1]
    note("302223344   chosen" in text and " 32 43 04\n" in text, "a call and its explanation, by the document's commands",
         "\n".join(text.splitlines()[-3:]))
    signals()
    is_done, lines = heard(lambda: succeeds(f"set -e\n{block('scp-offset.timer')}systemctl start scp-offset"), RECORDS)
    note(is_done and " instead of key,100,60" in lines[0], "scp-offset, for Athens, by the document's commands", lines)
    records()
    reload()
    sh("systemctl start scp@14701; dpkg-deb -R *.deb /root/next; sed -i 's/^Version: .*/&.next/' /root/next/DEBIAN/control; "
       f"echo mark >> /root/next{PROGRAM}; dpkg-deb -Znone -b /root/next /root/next.deb")
    links, run, pids = [linked(), linked(14701)], name(), [main_pid(), main_pid("scp@14701")]
    status, text = sh("dpkg -i /root/next.deb")
    is_open = all(call(link) for link in links) and pids == [main_pid(), main_pid("scp@14701")]
    is_told = "with the program that they began with:\n    scp.service scp@14701.service" in text
    note(status == 0 and is_open and is_told, "an upgrade under two open logs: both go on, and it says so",
         text[text.find("freephone-scp: no"):])
    records(one="302225454")
    is_done = reload()
    note(is_done and call(links[0]) == "302225454", "the older run reloads")
    over(links[0])
    text = replay(run)
    is_new = pathlib.Path(f"/proc/{main_pid()}/exe").read_bytes().endswith(b"mark\n")
    note(is_new and "accepted 3" in text, "its log replays, and the next run has the new program", text)
    text = sh("dpkg -i /root/next.deb")[1]
    note("they began with:\n    scp@14701.service\n" in text and call(links[1]), "once more: one run is older")
    link, run, before = linked(), name(), files()
    status, text = sh("dpkg -r freephone-scp")
    is_over = link.receive() == links[1].receive() == b"" and not is_listening()
    after = {it.removesuffix(".gz") for it in files()}
    is_kept = os.path.exists(RECORDS) and {it.removesuffix(".gz") for it in before} <= after
    lines = sh("journalctl -q -o cat -u scp -u scp@14701 | grep 'down quit'")[1]
    is_done = status == 0 and is_over and is_kept and lines.count("quit") == 2
    note(is_done, "removed: both runs quit, records and logs stay", lines)
    sh("dpkg -i /root/next.deb; systemctl start scp")
    is_answered, text = call(linked()) == "302225454", replay(run)
    note(is_answered and "accepted 1" in text, "installed again: it answers from these records, and the log replays", text)
    sh("systemctl enable scp@14701; " + block("scp-spare.conf").replace("14700", "14701"))
    status, text = sh("dpkg -P freephone-scp")
    more, less = system() - first, first - system()
    note(status == 0 and not more | less, "purged: nothing stays", [*sorted(more)[:9], *sorted(less)[:9]])
