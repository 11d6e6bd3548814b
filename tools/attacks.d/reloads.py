"""Cases of tools/attacks: records that are read anew while calls go on."""
import collections
import subprocess
import time

from client import expect, frames
from setting import BAD_RECORDS, FIRST, GIVEN, RECORDS, SECOND, TWO_PLACES, Run, connection, reported, until
from tcap import call, connected


def many_rules(count, place):
    """Records with this number of rules, of which the first leads to this place."""
    rules = (f"{number:09},,1234567,00:00,24:00,1,route,302223355\n" for number in range(count - 1))
    return f"key,100,60\n800123456,,1234567,00:00,24:00,1,route,{place}\n" + "".join(rules)


def reload(folder):
    """900 reloads, one each 10 milliseconds, beside calls: each call is answered from the one file or the other, and the
    memory stays flat. A faulty file, an unknown command and a reload after the 999th are reported, and calls go on by
    the records of before. The log replays with all the files."""
    texts = [many_rules(200, "302223344"), many_rules(200, "302223399")]
    files = [folder / "first.csv", folder / "second.csv"]
    for file, text in zip(files, texts):
        file.write_text(text)
    (folder / "records.csv").write_text(texts[0])
    answers = [connected, lambda number: connected(number, "302223399")]
    with Run(folder, commands=subprocess.PIPE) as run:
        peer, memory = run.peer(), {}

        def make_call(number, index):
            peer.get([answers[index % 2](number)], frames([call(number)]))

        counts = [0, 0]
        for index in range(1, 901):
            began = time.monotonic()
            run.write_records(texts[index % 2])
            run.command("reload")
            while time.monotonic() < began + 0.01:
                numbers = range(16 * index, 16 * index + 16)
                came = collections.Counter(peer.play(frames(map(call, numbers)), 16))
                by = [sum(came[answer(number)] for number in numbers) for answer in answers]
                expect(sum(by) == 16 == came.total(), f"16 calls got {came}")
                counts = [a + b for a, b in zip(counts, by)]
            expect(until(lambda: run.has_reloaded(index), 10), f"no reload {index}")
            memory[index] = run.memory()
        make_call(1, 900)
        expect(memory[900] < memory[100] + 4, f"memory grew from {memory[100]:.1f} to {memory[900]:.1f} MB")
        run.write_records("x\n")
        run.command("reload")
        run.command("reload records")
        expect(until(lambda: "command: unknown\n" in run.errors.read_text(), 10), "a command isn't refused")
        make_call(2, 900)
        for index in range(901, 1000):
            run.write_records(texts[index % 2])
            run.command("reload")
            expect(until(lambda: run.has_reloaded(index), 10), f"no reload {index}")
            make_call(index, index)
        run.command("reload")
        expect(until(lambda: "reload: refused\n" in run.errors.read_text(), 10), "the 1,000th reload isn't refused")
        make_call(3, 999)
        run.records, run.later = files[0], [files[index % 2] for index in range(1, 1000)]
        peer.close()
        run.process.stdin.close()
        run.finish(errors="record 1: BadHead\ncommand: unknown\nreload: refused\n")
        return f"{counts[0]} and {counts[1]} calls by the two files, memory {memory[100]:.1f} to {memory[900]:.1f} MB"


def open_calls(folder):
    """A call that is open while the records are replaced goes on by the rule that it got, later calls get the new ones,
    also on a link without a call before. Faulty records and commands that aren't known replace nothing."""
    first, new, bad = (folder / name for name in ("first.csv", "new.csv", "bad.csv"))
    first.write_text(RECORDS)
    new.write_text("key,100,60\n800123456,,1234567,00:00,24:00,1,route,302223399\n"
                   "800123457,,1234567,00:00,24:00,1,refuse\n")
    bad.write_text(BAD_RECORDS)

    def replace(file, *commands):
        run.write_records(file.read_text())
        for command in ("reload", *commands):
            run.command(command)

    with Run(folder, "--links", "2", commands=subprocess.PIPE) as run:
        peer, quiet = run.peer(), run.peer()
        came = peer.play(frames([call(1, TWO_PLACES)]), 1)
        expect(came == [connection(1, 1, 1, FIRST)], f"a call for two places got {came}")
        peer.get([connected(2)], frames([call(2)]))
        replace(new)
        expect(until(lambda: run.has_reloaded(1), 10), "no reload 1")
        for one, number in ((peer, 3), (quiet, 4)):
            one.get([connected(number, "302223399")], frames([call(number)]))
        peer.get([connection(1, 1, 3, SECOND)], frames([reported(1, 1, 2, 5)]))
        replace(bad, "reload records", "links", "quit")
        faults = "record 2: BadDays\n" + 3 * "command: unknown\n"
        expect(until(lambda: run.errors.read_text() == faults, 10), f"the faults are {run.errors.read_text()}")
        peer.get([connected(5, "302223399")], frames([call(5)]))
        replace(first)
        expect(until(lambda: run.has_reloaded(2), 10), "no reload 2")
        peer.get([connected(6)], frames([call(6)]))
        run.process.stdin.close()
        run.records, run.later = first, [new, first]
        run.finish(peer, quiet, errors=faults)
        reports = "".join(f"{line}\n" for line in run.reports())
        expect(run.printed() == "reloaded 1\nreloaded 2\n" + reports, f"the run printed {run.printed()}")


def more_reloads(folder):
    """With a tag a run takes 65,535 reloads, or 1,001 in the gate: calls are answered by the newest records, the next
    reload is refused, and the log replays with all the files."""
    count = 1_001 if GIVEN.steady else 65_535
    with Run(folder, "--tag", "4094", commands=subprocess.PIPE) as run:
        peer = run.peer()
        for number, last in enumerate((999, 1_000, 1_001, 65_535)):
            if last <= count:
                done = run.output.read_text().count("reloaded ")
                run.process.stdin.write(b"reload\n" * (last - done))
                run.process.stdin.flush()
                until(lambda: run.has_reloaded(last) or run.errors.read_text(), 60)
                expect(run.has_reloaded(last), f"no reload {last}, but '{run.errors.read_text()}'")
                peer.call(number)
        if count == 65_535:
            run.command("reload")
            expect(until(lambda: run.errors.read_text(), 10), "the 65,536th reload isn't refused")
            peer.call(4)
        peer.close()
        run.process.stdin.close()
        run.expect_end(10, errors="reload: refused\n" if count == 65_535 else "")
        # (names as short as these are fewer octets than a command line may have)
        words = [GIVEN.program, "replay", "records.csv", run.log, *["records.csv"] * count]
        replay = subprocess.run(words, cwd=folder, capture_output=True, text=True)
        expect(replay.stdout.splitlines() == run.reports(), f"the log replays to '{replay.stdout + replay.stderr}'")
        return f"{count} of them"


def reload_of_many(folder):
    """A reload of 100,000 rules: calls beside it take at most five milliseconds more than before."""
    texts = [many_rules(100_000, place) for place in ("302223344", "302223399")]
    (folder / "records.csv").write_text(texts[0])
    with Run(folder, commands=subprocess.PIPE) as run:
        peer = run.peer()
        alone = max(map(peer.call, range(2_000)))
        slowest, took = 0, []
        for index in range(1, 6):
            run.write_records(texts[index % 2])
            began = time.monotonic()
            run.command("reload")
            while not run.has_reloaded(index):
                called = time.monotonic()
                expect(len(peer.play(frames([call(index)]), 1)) == 1, "a call got no answer")
                slowest = max(slowest, time.monotonic() - called)
            took.append(time.monotonic() - began)
        expect(slowest < alone + 0.005 * GIVEN.patience, f"a call took {1000 * slowest:.1f} ms, {1000 * alone:.1f} alone")
        peer.close()
        run.process.stdin.close()
        run.expect_end(10)
        return (f"a reload took {1000 * min(took):.0f} to {1000 * max(took):.0f} ms, a call beside it at most "
                f"{1000 * slowest:.2f} ms, alone {1000 * alone:.2f}")
