"""The tries of tools/units, run inside the machine that it boots. The functions that they call are in machine.py."""
import contextlib
import os
import pathlib
import re
import subprocess
import sys
import time

ROOT = pathlib.Path(__file__).resolve().parent.parent.parent
sys.path[:0] = [str(ROOT / "tools/lib")]
from client import Link
from machine import (DROP_IN, LOGS, PACKAGE, PROGRAM, RECORDS, RUN, SEEN, active, block, call, connect, drop, drop_in, drops,
                     files, force, heard, is_gone, is_listening, linked, main_pid, name, note, over, range_of, records, reload,
                     replay, restarted, sh, show, succeeds, system, tag_of, wait_until)
from packages import package


def install():
    status, text = sh("set -e\n" + (block("apt-get", "From a package") if PACKAGE else block("useradd", "From the repository")))
    note(status == 0 and is_listening(), "installed by the document's commands, and it listens", text[-150:])
    note(show("scp", "ActiveState") == ["active"], "scp.service", sh("systemd-analyze security --no-pager scp | tail -n 1")[1])
    text = sh("systemd-analyze verify --man=no scp.service scp@14701.service scp.socket scp@14701.socket 2>&1 | grep -i scp")[1]
    note(not text, "systemd-analyze verify", text)
    text = sh("journalctl -q -o cat -t scp")[1]
    note("listening 127.0.0.1:14700" in text, "journalctl -t scp", text)


def a_call():
    link, _, took = connect()
    time.sleep(1)
    text = sh(block("echo links"))[1]
    note("link 0 up" in text and "accepted 1" in text, f"a call, {took:.1f} ms, and the status of its link", text)
    run = name()
    lines = sh(f"tail -n 2 {LOGS}/{run}-00000")[1]
    note("0 Y 1" in lines, "its log can be read while the run goes on", lines)
    over(link)
    text = replay(run)
    note("accepted 1 served 2 sent 1" in text, "its log replays by the document's command", f"{text}; {files(run + '*')}")
    records(one="302229999")
    link, run = linked(), name()
    is_done, got = reload(), [call(link)]
    sh("echo reload > /run/scp/commands; sleep 0.3")
    records()
    is_done, got = reload() and is_done, [*got, call(link)]
    over(link)
    text = replay(run)
    note(is_done and got == ["302229999", "302223344"] and "accepted 3" in text, "three reloads, one by hand, and the replay",
         f"{got}; {text}; {files(run + '*')}")
    link = linked()
    is_open = succeeds("kill -9 $(pgrep -u scp -x split)") and call(link)
    link, took = drop(link, 12)
    run, _ = name(), over(link)
    note(is_open and "accepted 1" in replay(run), "split is killed: calls go on, a drop, and the next log replays", took)


def spare():
    """The spare of scp.service. The two listen one after the other, so each drop waits until one does."""
    half, _, figures = drops(linked())
    note(all(refused for refused, _ in figures), "five drops without a spare", range_of(figures))
    is_refused = True
    with contextlib.suppress(ConnectionError):
        is_refused = not connect(seconds=1)
    note(is_refused, "a half-open link without a spare: refused for a second")
    status, text = sh("set -e\n" + block("scp-spare.conf"))
    note(status == 0 and wait_until(is_listening), "a spare by the document's commands: it listens beside the link")
    link, *figure = connect()
    note(figure[0] == 0, "a half-open link with it", range_of([figure]))
    half.close()
    link, _, figures = drops(link)
    note(max(took for _, took in figures) < 3000, "five drops with it, each at once after the last", range_of(figures))
    link, _, figures = drops(link, 3)
    note(not any(refused for refused, _ in figures), "five drops with it, of a link up for three seconds", range_of(figures))
    heads = "for it in {}/run-*-00000*; do zcat -f $it | sed -n 's/^fplog 5 \\(.\\) .*/\\1/p;q'; done | sort -u"
    links = [sh(heads.format(folder))[1] for folder in (LOGS, LOGS + "-14700")]
    note(links == ["1", "2"], "the links of the spare have another number", links)
    units, both = ["scp", "scp@14700"], "scp 'scp@*.service'"
    records(more=30)
    is_done = wait_until(is_listening) and reload(both)
    records(one="302225555", more=16)
    is_done = not reload(both) and succeeds(block("RECORDS_FORCE")) and is_done
    records(one="302226666")
    is_done = not reload(both) and is_done
    link, got, _ = drops(link, 0)
    note(is_done and set(got) == {"302225555"}, "both take a doubtful file by its digest, and no further one", got)
    is_done = wait_until(is_listening) and succeeds(f"echo RECORDS_FORCE=1 > /run/scp.force; systemctl reload {both}")
    link, got, _ = drops(link, 0)
    note(is_done and set(got) == {"302226666"} and succeeds("rm /run/scp.force"), "and any by RECORDS_FORCE=1", got)
    has_link = f"pid={main_pid()}," in sh("ss -tnp state established sport = :14700")[1]
    idle, holder = reversed(units) if has_link else units
    wait_until(is_listening)
    note(succeeds(f"systemctl restart {idle}"), f"restart of {idle}, which has no link")
    wait_until(is_listening)
    is_done, link, *figure = restarted(link, holder)
    note(is_done and figure[0] == 0, f"restart of {holder}, which has it", range_of([figure]))
    link.close()
    _, lines = heard(lambda: time.sleep(10), "", units="-u scp -u scp@14700 -u scp.socket -u scp@14700.socket")
    note(len(lines) < 60, "nobody is connected for ten seconds",
         f"{len(lines)} lines of journal, {lines.count('listen: cannot listen')} starts in vain")
    other = units[f"pid={main_pid()}," in sh("ss -ltnp sport = :14700")[1]]
    is_done = succeeds(f"systemctl restart {other}")
    link, *figure = connect()
    note(is_done and figure[0] == 0, f"restart of {other}, which can't listen, and the switch comes", range_of([figure]))
    link.close()
    sh("systemctl disable --now scp@14700; rm /etc/systemd/system/scp*.service.d/spare.conf; systemctl daemon-reload")
    note(is_gone("/run/scp-14700/commands") and wait_until(is_listening), "the spare is removed, as the document says")


def faulty():
    records()
    link = linked()
    reload()
    records("800123450,,1234567,8:00,24:00,1,pass", one="302221111")
    is_done, lines = heard(reload, RECORDS, "not reloaded")
    note(not is_done and call(link) == "302223344" and "record 6: BadTime" in lines[0], "a faulty edit: reload fails", lines)
    (link, took), lines = heard(lambda: drop(link), RECORDS, "answered from")
    note(call(link) == "302223344" and len(lines) == 2, "then a drop: served by the last good copy", f"{took}; {lines}")
    records(one="302221111")
    is_done, lines = heard(reload, RECORDS, "reloaded")
    note(is_done and call(link) == "302221111", "mended: reload brings the file", lines)
    os.rename(RECORDS, RECORDS + ".away")
    is_done = reload()
    (link, took), lines = heard(lambda: drop(link), RECORDS, "answered from")
    note(not is_done and call(link) == "302221111", "a missing file: reload fails, and the next run has the last copy", lines)
    sh(f"mkfifo {RECORDS}")
    is_done, lines = heard(reload, RECORDS)
    link, took = drop(link, 12)
    note(not is_done and call(link) == "302221111", "a path that hangs: reload fails, and a drop", f"{took}; {lines}")
    sh(f"systemctl stop scp; rm -rf /run/scp; mv {RECORDS}.away {RECORDS}; echo x >> {RECORDS}")
    is_done, lines = heard(lambda: succeeds("systemctl start scp"), RECORDS, "answered from")
    note(is_done and call(linked()) == "302221111", "a faulty file after a boot, with /run empty", lines)
    sh("rm -rf /run/scp")
    link, took = drop(linked())
    note(call(link) == "302221111" and os.path.exists("/run/scp/commands"), "/run is lost under a link, and a drop", took)
    sh(f"systemctl stop scp; rm -rf /run/scp; : > {LOGS}/good.csv")
    is_done, lines = heard(lambda: succeeds("systemctl start scp"), "answered from", "last good")
    note(is_done and call(linked()) == "302223344", "and with an empty good.csv", lines)
    sh("systemctl stop scp; mkdir /root/kept; mv /var/log/scp/* /root/kept/; rm -rf /run/scp")
    is_done, lines = heard(lambda: succeeds("systemctl start scp"), RECORDS)
    note(not is_done, "a faulty file at the first start: it fails", lines[:1])
    records()
    note(wait_until(is_listening, 5), "and listens once the file is mended")
    sh("mv /root/kept/* /var/log/scp/; rmdir /root/kept")


def doubtful():
    """Files that pass the check and are hardly meant, and one that is empty."""
    records(more=16)
    link = linked()
    reload()
    for what, write in (("cut inside its last destination", lambda: os.truncate(RECORDS, os.path.getsize(RECORDS) - 5)),
                        ("empty", lambda: pathlib.Path(RECORDS).write_text("")),
                        ("without a number", lambda: pathlib.Path(RECORDS).write_text("key,100,60\n")),
                        ("with a tenth fewer numbers", lambda: records(more=14))):
        records(more=16)
        write()
        is_done, lines = heard(reload, RECORDS)
        link, _ = drop(link)
        is_kept = call(link) == "302223344" and sh(f"grep -c , {RUN}/now.csv")[1] == "21"
        note(not is_done and lines and is_kept, f"a file {what}: not reloaded, and the next run has the copy", lines)
    note(force(), "RECORDS_FORCE= and the digest, by the document's command")
    records("800555555,,1234567,00:00,24:00,1,pass", one="302220000", more=13)
    is_done, lines = heard(reload, RECORDS)
    note(is_done and "numbers 18, added 1, removed 1, changed 1" in lines[0], "a count of changes", lines)
    records(more=99000)
    reload()
    records("800555555,,1234567,00:00,24:00,1,pass", one="302220000", more=98999)
    begun = time.monotonic()
    is_done = reload()
    note(is_done, "99,004 rules are reloaded", f"{time.monotonic() - begun:.1f} s")
    link, took = drop(link, 10)
    note(call(link) == "302220000", "a drop with them", took)
    records(more=99000)
    reloading = subprocess.Popen(["systemctl", "reload", "scp"])
    time.sleep(0.5)
    link, took = drop(link, 15)
    note(call(link) == "302223344", "a drop during a reload of them", f"{took}; the reload ends with {reloading.wait()}")
    records()
    force()
    over(link)


def full_disk():
    sh("systemctl stop scp; mount -t tmpfs -o size=100k,mode=755 tmpfs /var/log/scp")
    sh("chown scp:scp /var/log/scp; systemctl start scp")
    over(linked())
    sh("for fill in 1 2 3; do sleep 0.5; dd if=/dev/zero of=/var/log/scp/fill$fill bs=1k; done")
    is_done, lines = heard(lambda: succeeds("systemctl restart scp") and drop(linked()), "No space", "not kept")
    note(is_done and lines, "a full disk: start, and a drop", f"{is_done[1:]}; {lines[:2]}")
    link = is_done[0]
    records(more=3000)
    is_done, lines = heard(reload, RECORDS, "No space", "not kept", "reloaded")
    note(is_done, "reload of records for which there is no room", lines[:4])
    records("x")
    (link, took), lines = heard(lambda: drop(link), RECORDS, "answered from")
    is_kept = sh(f"grep -c , {RUN}/now.csv")[1] == "3005"
    note(is_kept, "then a faulty edit and a drop: served by these", f"{took}; {lines}")
    run, _ = name(), sh("rm /var/log/scp/fill*")
    time.sleep(12)
    now, _ = int(time.time() * 1000), call(link)
    link, took = drop(link, 3)
    last = sh(f"zcat -f {LOGS}/{run}-00000* | awk '$2 == \"P\" {{ print $3 }}' | tail -n 1")[1]
    note(int(last or 0) > now - 1000, "room is made: then the log goes on", f"a call at {now}, the last in the piece at {last}; {took}")
    records()
    force()
    over(link)
    link, run = linked(), name()
    over(link)
    text = replay(run)
    note("accepted 1" in text, "with room again the next log replays", text)
    sh("systemctl stop scp; umount /var/log/scp; systemctl start scp")


def given():
    """The tag that the run was given, whether it answers a call, its link and its name."""
    tag, link = pathlib.Path(RUN, "tag").read_text().strip(), linked()
    return tag, bool(call(link)), link, name()


def tags():
    """The counter that gives each run its tag."""
    counter, found = pathlib.Path(LOGS, "tag"), []

    for _ in range(3):
        tag, _, link, run = given()
        over(link)
        found.append((int(tag), tag_of(run)))
    first = found[0][0]
    wanted = [(tag, f"1 {tag}") for tag in ((first + step - 1) % 4094 + 1 for step in range(3))]
    note(found == wanted, "three runs have tags that follow each other, which are in their logs", found)
    before = int(pathlib.Path(RUN, "tag").read_text())
    is_done = succeeds("systemctl restart scp; systemctl restart scp")
    note(is_done and int(given()[0]) == (before + 1) % 4094 + 1, "two restarts at once, two tags", given()[0])
    for what, text in (("the last tag", b"4094\n"), ("no number", b"x\n"), ("nothing", b""), ("zeros", bytes(10)),
                       ("a large number", b"70000\n"), ("what isn't text", b"\xff" + os.urandom(100_000))):
        counter.write_bytes(text)
        is_done, lines = heard(lambda: succeeds("systemctl restart scp"), "no number")
        tag, is_answered, link, run = given()
        is_next = tag == "1" if what == "the last tag" else 1 <= int(tag) <= 4094
        is_told = bool(lines) == (what != "the last tag")
        note(is_done and is_answered and is_next and is_told, f"a counter with {what}", f"{tag}; {lines}")
        over(link)
        note(tag_of(run) == f"1 {tag}", "and its log", tag_of(run))
    sh(f"rm {counter}; mkdir {counter}")
    is_done, lines = heard(lambda: succeeds("systemctl restart scp"), "can't be written")
    tag, is_answered, link, run = given()
    over(link)
    is_tag = re.fullmatch(r"1 [1-9]\d{0,3}", tag_of(run))
    note(is_done and is_answered and tag == "auto" and is_tag and lines, "a counter that can't be written",
         f"{tag}, in the log {tag_of(run)}; {lines}")
    sh(f"rmdir {counter}; systemctl restart scp")
    tags_on_a_full_disk()


def tags_on_a_full_disk():
    """The counter can't be made, or can't grow."""
    sh("systemctl stop scp; mount -t tmpfs -o size=100k,mode=755 tmpfs /var/log/scp; chown scp:scp /var/log/scp")
    sh("dd if=/dev/zero of=/var/log/scp/fill bs=1k")
    is_done, lines = heard(lambda: succeeds("systemctl start scp"), "can't be written")
    tag, is_answered, link, _ = given()
    note(is_done and is_answered and tag == "auto" and lines, "no counter, and a full disk", f"{tag}; {lines}")
    sh("rm /var/log/scp/fill")
    over(link)
    sh("dd if=/dev/zero of=/var/log/scp/fill bs=1k")
    tag, _, link, _ = given()
    over(link)
    next_tag, is_answered, link, _ = given()
    is_next = int(next_tag) == int(tag) % 4094 + 1
    note(is_answered and is_next, "a counter on a disk that is full: it goes on", f"{tag}, {next_tag}")
    sh("systemctl stop scp; umount /var/log/scp; systemctl start scp")


def empty_runs():
    for _ in range(2):
        over(linked())
    before = files()
    for _ in range(5):
        over(Link(("127.0.0.1", 14700)))
    new = [it for it in files() if it not in before]
    note(new == [name() + ".csv"], "five runs without a message leave nothing", f"new is that of the run: {new}")
    copies = {os.stat(f"{LOGS}/{it}").st_ino for it in files("run-*Z.csv")[-3:] + ["good.csv"]}
    note(len(copies) == 1 and os.stat(RECORDS).st_ino not in copies, "copies of unchanged records are one file",
         f"{os.stat(LOGS + '/good.csv').st_nlink} names")
    old = files("run-*")
    sh(f"touch -d '31 days ago' {LOGS}/run-*; for it in {LOGS}/run-*; do mv $it $(echo $it | sed s/run-20../run-1999/); done")
    over(linked())
    is_swept = wait_until(lambda: len(files("run-*")) <= 3)
    note(is_swept, f"31 days later: {len(old)} files, then", files("run-*"))


def upgrade():
    link = linked()
    is_done = succeeds(f"cp {PROGRAM} /root/new && echo mark >> /root/new && install -m 755 /root/new {PROGRAM}")
    is_open = call(link) == "302223344"
    is_restarted, link, *figure = restarted(link)
    is_new = pathlib.Path(f"/proc/{main_pid()}/exe").read_bytes().endswith(b"mark\n")
    note(is_done and is_open and is_restarted and is_new, "an upgrade under an open link, without a spare", range_of([figure]))
    over(link)


def starts():
    drop_in("Environment=ADDRESS=192.0.2.9:14700")
    note(not succeeds("systemctl restart scp"), "restart fails for an address that isn't there", show("scp", "ActiveState", "Result"))
    drop_in("Environment=OPTIONS=--nonsense")
    is_done = succeeds("systemctl restart scp")
    time.sleep(1.5)
    seen = show("scp", "ActiveState", "ExecMainStatus", "NRestarts")
    note(not is_done and seen[:2] == ["failed", "2"], "and for an option that is refused, and it isn't tried again", seen)
    drop_in("Environment=\"OPTIONS=--workers 8\"")
    note(succeeds("systemctl restart scp") and is_listening(), "and succeeds once it is mended")
    link = linked()
    records(one="302220808")
    is_done, lines = heard(reload, "fork")
    note(is_done and call(link) == "302220808" and not lines, "eight workers, and a reload: tasks",
         show("scp", "TasksCurrent", "TasksMax"))
    _, lines = heard(lambda: sh("systemctl stop scp"), "link 0")
    is_done = link.receive() == b"" and is_gone("/run/scp/commands") and "down quit" in lines[0] and "accepted 2" in lines[1]
    note(is_done, "stop drains the link, and removes the FIFO", lines)
    records()
    is_done = succeeds(f"rm {DROP_IN}; systemctl daemon-reload; echo links > /run/scp/commands; systemctl start scp")
    note(is_done, "a command while there is no FIFO: the next start succeeds")


def plain_file():
    status, text = sh("set -e\n" + block("scp-file.conf"))
    link, run = linked(), name()
    is_done = reload()
    call(link)
    over(link)
    seen = files(run + "*")
    note(status == 0 and is_done and seen == [run + it for it in (".00001.csv", ".csv", ".log")], "the log in one file", seen)
    for _ in range(2):
        over(Link(("127.0.0.1", 14700)))
    note(len(files("run-*.now")) == 1, "runs without a message leave nothing", files("run-*.now"))
    text = replay(run)
    is_done = succeeds("logrotate /etc/logrotate.d/scp") and files(run + ".log*") == [run + ".log.1.gz"]
    note(is_done and replay(run) == text and "accepted 2" in text, "logrotate, and the replay", text)
    sh(f"touch -d '31 days ago' {LOGS}/{run}*; rm -r /etc/systemd/system/scp.service.d")
    sh("systemctl daemon-reload; systemctl restart scp")
    note(wait_until(lambda: not files(run + ".log*")), "31 days later, when a run begins", files("run-*.log*"))
    link, run = linked(), name()
    over(link)
    note(not files("run-*.now") and files(run + "-00000*"), "and in pieces again", files(run + "*"))


def template():
    records()
    is_done = succeeds(block("scp@14701"))
    link, other = linked(14701), linked()
    records(one="302221212")
    active()
    is_done = succeeds(block("reload scp 'scp@")) and is_done
    got = call(link), call(other)
    note(is_done and got == ("302221212", "302221212"), "scp@14701 beside scp, and a reload of both",
         f"{got}; {files('*', '/var/log/scp-14701')}")
    sh("systemctl disable --now scp@14701")
    note(is_gone("/run/scp-14701/commands") and call(other), "its stop leaves scp alone")
    records()
    reload()
    pid = main_pid()
    is_done = succeeds("set -e\n" + block("scp-offset.timer"))
    is_started, lines = heard(lambda: succeeds("systemctl start scp-offset"), RECORDS)
    is_done = is_done and is_started and " instead of key,100,60" in lines[0] and main_pid() == pid and call(other)
    note(is_done, "scp-offset, for Athens", lines)
    records()
    over(other)


def closed_day():
    """The timer of the document that brings the records of the day."""
    units = dict(re.findall(r"```ini\n# (/etc/systemd/system/\S+)\n(.*?)```", (ROOT / "docs/units.md").read_text(), re.S))
    for path, text in units.items():
        pathlib.Path(path).write_text(text)
    status, text = sh("systemctl daemon-reload; systemd-analyze verify /etc/systemd/system/scp-day.timer && "
                      "systemctl start scp-day.timer && systemctl list-timers --no-pager scp-day.timer | sed -n 2p")
    note(len(units) == 2 and status == 0, "a timer for the records of the day", text)
    link, got = linked(), []
    for one, file in (("302220024", "$(TZ=Europe/Vienna date +%F).csv"), ("302220001", "usual.csv")):
        records(one=one)
        sh(f"mv {RECORDS} /etc/scp/{file}; cp {RUN}/good.csv {RECORDS}")
    for command in ("true", "head -n 1 /etc/scp/usual.csv > /etc/scp/20*.csv", "true", "rm /etc/scp/20*.csv"):
        active()
        got.append((succeeds(f"{command}; systemctl start scp-day"), call(link)[-2:]))
    note(got == [(True, "24"), (False, "24"), (False, "24"), (True, "01")], "the day's records, faulty ones, the next day's", got)
    over(link)


TRIES = [install, a_call, spare, faulty, doubtful, full_disk, tags, empty_runs, upgrade, starts, plain_file, template,
         closed_day, package]
BEFORE = system()
wanted = sys.argv[1:] or [it.__name__ for it in TRIES if (it is package) == bool(PACKAGE)]
for one in TRIES:
    if one.__name__ not in wanted and one is not install:
        continue
    print(f"-- {one.__name__}", flush=True)
    try:
        one(*[BEFORE] * (one is package))
    except Exception as fault:
        line = getattr(fault.__traceback__.tb_next, "tb_lineno", "?")
        note(False, one.__name__, f"{type(fault).__name__}: {fault} (line {line})\n"
             + sh("journalctl -q -u scp -n 12")[1])
sys.exit(SEEN.end())
