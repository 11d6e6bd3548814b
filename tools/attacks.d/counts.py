"""Cases of tools/attacks: what a run says of itself, its events and its counters."""
import hashlib
import subprocess

from client import expect, frames
from run import free_address, page
from setting import GIVEN, RECORDS, Run, events_of, until
from tcap import call, connected


def events(folder):
    """With --events a line says which program runs, which records were read, which link came up, and why it went down. A
    peer that closes its sending side gets its answer, and one that closes inside a frame is reported, too."""
    with Run(folder, "--links", "4", "--events") as run:
        peers = [run.peer() for _ in range(4)]
        version = subprocess.run([GIVEN.program, "--version"], capture_output=True, text=True).stdout.strip()
        wanted = [version, f"records {hashlib.sha256(RECORDS.encode()).hexdigest()}"]
        wanted += ["link %d up %s:%d" % (link, *peer.socket.getsockname()) for link, peer in enumerate(peers)]
        reasons = ["peer closed", "bad frame length", "closed inside a frame", "read fault"]
        wanted += [f"link {link} down {reason}" for link, reason in enumerate(reasons)]
        peers[0].play(frames([call(1)]))
        peers[0].end_sending()
        expect(peers[0].play(wanted=1) == [connected(1)], "no answer after the end of the input")
        peers[1].play(bytes(4))
        peers[2].play(frames([call(1)])[:8])
        peers[3].call(1)
        peers[3].close(is_reset=True)
        run.finish(*peers, errors=None)
        expect(sorted(events_of(run)) == sorted(wanted), f"the events are {events_of(run)}")
        reports = [f"link {link} accepted {count} served {2 * count} sent {count}" for link, count in enumerate([1, 0, 0, 1])]
        expect(run.printed().splitlines() == reports, f"the run printed {run.printed()}")


def counters(folder):
    """With --metrics a run gives what it counted over HTTP, and with --commands as the answer to `counters`, too. Without
    them the command isn't known."""
    address = free_address()
    wanted = 'freephone_scp_messages_total{kind="begin",link="0"} 100\n'
    with Run(folder, "--metrics", address, "--commands", commands=subprocess.PIPE) as run:
        found = page(address, "/live")[0], page(address, "/ready")[0]
        expect(found == (200, 503), "a run without a link isn't live, or is ready")
        peer = run.peer()
        for number in range(100):
            peer.call(number)
        expect(until(lambda: wanted in page(address, "/metrics")[1], 10), f"the page is {page(address, '/metrics')[1]}")
        run.command("counters")
        expect(until(lambda: run.output.read_text().endswith("# EOF\n"), 10), "the command is not answered")
        expect(wanted in run.output.read_text(), f"the command gives {run.output.read_text()}")
        pages = [page(address, path)[0] for path in ("/live", "/ready", "/", "/metrics?", "/metric")]
        expect(pages == [200, 200, 200, 200, 404], f"the pages have {pages}")
        peer.close()
        run.expect_end(5)
    for options, line in [((), "counters"), (("--metrics", address), "counters")]:
        with Run(folder, *options, commands=subprocess.PIPE) as run:
            run.command(line)
            expect(until(lambda: run.errors.read_text() == "command: unknown\n", 10), "the command is known")
    with Run(folder, "--metrics", "nowhere:1") as run:
        run.expect_end(5, 1, "metrics: cannot listen\n")
