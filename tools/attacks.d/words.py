"""Cases of tools/attacks: the words of the command line, the order of faults, and the links and the log that words ask for."""
import socket
import subprocess

from client import expect, frames
from setting import BAD_RECORDS, FIRST, GIVEN, RECORDS, TWO_PLACES, Run, connection
from tcap import call, connected

# Words after `serve`, each with all faults that come after the one that is reported. At USED connections are awaited
# already.
FAULTS = """
none.csv --listen x --log none/run.log --contexts 2A030 => contexts: not a list of names
none.csv --listen x --log none/run.log --contexts 2A0304 => records: cannot be read
bad.csv --listen x --log none/run.log => record 2: BadDays
records.csv --listen x --log none/run.log => log: cannot be opened
records.csv --listen x --log ./records.csv => log: cannot be opened
records.csv --listen x --log old.log => listen: cannot listen
records.csv --listen 127.0.0.1 --log old.log => listen: cannot listen
records.csv --listen localhost:0 --log old.log => listen: cannot listen
records.csv --listen USED --log old.log => listen: cannot listen
records.csv --listen 255.255.255.255:0 --log old.log => listen: cannot listen
records.csv --listen 224.0.0.1:0 --log old.log => listen: cannot listen
records.csv --listen [::ffff:224.0.0.1]:0 --log old.log => listen: cannot listen
"""
REFUSED = """
records.csv --listen x --log old.log --workers 0
records.csv --listen x --log old.log --links 9
records.csv --listen x
"""
# A log of more octets than that of a run.
OLD_LOG = 1_000 * "fplog 4 8\n"
# A Begin from 2A that names the application context 2A0304, and the End that accepts it and connects.
WITH_CONTEXT = bytes.fromhex(
    "624948040000002A6B1A2818060700118605010101A00D600B80020780A10506032A03046C25A123020101020100301B80016482078310081032540683"
    "078313032143650785010A9C0103")
CONTEXT_ACCEPTED = bytes.fromhex(
    "644549040000002A6B262824060700118605010101A019611780020780A10506032A0304A203020100A305A1030201006C15A113020101020114300BA0"
    "09040783100322324304")


def faults(folder):
    """Each fault before a run is reported, and none that comes after it; the log of an earlier run is left alone."""
    (folder / "bad.csv").write_text(BAD_RECORDS)
    (folder / "old.log").write_text(OLD_LOG)

    def run(words):
        ran = subprocess.run([GIVEN.program, "serve", *words.split()], cwd=folder, stdin=subprocess.DEVNULL, text=True,
                             capture_output=True, timeout=10 * GIVEN.patience)
        return ran.returncode, ran.stdout, ran.stderr

    with socket.create_server(("127.0.0.1", 0)) as used:
        for row in FAULTS.strip().splitlines():
            words, fault = row.split(" => ")
            found = run(words.replace("USED", "%s:%d" % used.getsockname()))
            expect(found == (1, "", fault + "\n"), f"{words} gets {found}")
    for words in REFUSED.strip().splitlines():
        found = run(words)
        expect(found[:2] == (2, "") and found[2].startswith("error: "), f"{words} gets {found}")
    expect((folder / "old.log").read_text() == OLD_LOG, "the log of an earlier run has changed")
    expect((folder / "records.csv").read_text() == RECORDS, "the records have changed")


def links_of_words(folder):
    """The links that the words ask for are served and reported, one if they ask for none, with their application context;
    the log of an earlier run gives way to theirs, whose replay reports the same."""
    context = ["--contexts", "2A0304"]
    tagged = [connection(1, local, 1, FIRST) for local in (0x600A0001, 0x800A0001)]
    plans = [(["--links", "2", "--workers", "1", *context], context, "4 2", WITH_CONTEXT, 2 * [CONTEXT_ACCEPTED]),
             ([], [], "4 1", call(1), [connected(1)]),
             (["--links", "2", "--first-link", "3", "--tag", "5"], [], "5 5 5", call(1, TWO_PLACES), tagged)]
    for words, again, head, message, answers in plans:
        log = folder / "old.log"
        log.write_text(OLD_LOG)
        with Run(folder, *words, log=log) as run:
            peers = [run.peer() for _ in answers]
            for peer, answer in zip(peers, answers):
                came = peer.play(frames([message]), 1)
                expect(came == [answer], f"{' '.join(words)}: a call got '{b''.join(came).hex()}'")
            run.later = again
            run.finish(*peers)
            counts = [0] * (int(head.split()[1]) - len(peers)) + [1] * len(peers)
            reports = "".join(f"link {link} accepted {count} served {2 * count} sent {count}\n"
                              for link, count in enumerate(counts))
            expect(run.printed() == reports, f"{' '.join(words)}: the run printed {run.printed()}")
            expect(log.read_text().startswith(f"fplog {head}\n"), f"the head is '{log.read_text()[:12]}'")
            expect(run.replay().stdout == reports and run.replay().stderr == "", f"the log replays to {run.replay()}")
