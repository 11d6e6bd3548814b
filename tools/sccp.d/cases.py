"""The cases of tools/sccp. A case is handed a `Play` and gives whether it passed."""
import contextlib
import signal
import socket
import subprocess
import threading
import time

import peer
import tcap
import wire
from exchange import GOOD, KINDS, LONG, PLAIN, Exchange, kinds_of, play
from run import until


class Play:
    """What a case is handed: the options, the stage, and the exchanges that it makes."""

    def __init__(self, options, stage):
        self.options, self.stage, self.exchanges, self.notes = options, stage, [], []
        self.all_kinds = GOOD if options.capture else KINDS
        self.few = max(200, options.dialogues // 100)

    def exchange(self, own, to, kinds=None, **more):
        made = Exchange(own, to, kinds or self.all_kinds, **more)
        self.exchanges.append(made)
        return made

    def m3ua(self, own, to, kinds=None, hosts=("127.0.0.1",), **more):
        made = self.exchange(own, to, kinds, **more)
        for host in hosts:
            made.over_m3ua(host=host, is_sctp=self.options.sctp)
            if self.options.capture and not self.options.sctp:
                made.connections[-1].trace = []
        return made

    def run(self, *exchanges, count=None, events=(), rate=None):
        count = self.few if count is None else count
        seconds = play(exchanges, count, rate or self.options.rate, events)
        if seconds:
            answers = sum(exchange.answers for exchange in exchanges)
            self.notes.append(f"{answers / seconds:.0f} answers a second")
        return all(exchange.counts["wrong"] == exchange.counts["crossed"] == 0 for exchange in exchanges) and seconds > 0

    def note(self, text):
        self.notes.append(text)

    def told(self):
        """What each exchange saw, and the notes."""
        words = []
        for exchange in self.exchanges:
            counts = ", ".join(f"{kind} {count}" for kind, count in sorted(exchange.counts.items()) if count)
            by = ", ".join(f"{count} by {node}" for node, count in sorted(exchange.done_by.items()))
            words.append(f"exchange {exchange.own}: {counts}" + f" ({by})" * bool(by))
        return "; ".join(words + self.notes)


def all_right(exchange, count):
    return exchange.counts["right"] == count and sum(exchange.counts.values()) == count


def shared(exchange, count, nodes):
    return all(abs(exchange.done_by[node] - count // 2) <= count // 50 + 2 for node in nodes)


def lost_at_begin(exchange, count):
    """Whether no open dialogue was lost, and few Begins: those that are under way to a node while it begins to drain."""
    is_few = len(exchange.lost) <= count // 10 and all(at == 1 for _, at in exchange.lost)
    return is_few and exchange.counts["right"] + len(exchange.lost) == count and exchange.done_by[201] > 0


def two_nodes(it, ring=0.3, kinds=None, **more):
    """An exchange over IPA and two nodes."""
    it.stage.nodes_of(100, 200)
    it.stage.stp("two.cfg")
    return it.exchange(100, [200], kinds, ring=ring, **more).over_ipa([200, 201, 202])


# The cases

# The Begin of the first row in a UDT from 100/12 to 200/241, and what it is answered by.
M3UA_CALL = "3070B0443C800F1044364000C2F" + peer.BEGIN.hex().upper()
M3UA_ANSWER = "3070B044364000C0443C900F11F" + peer.END.hex().upper()


def rows(it):
    """Octets of the node, then those of osmo-stp over M3UA."""
    stage, failed = it.stage, []
    stage.node(1, 201, 100, "scp,scp-201")
    await_port(17101)
    made = peer.Peer(17101)
    shake = [made.message().hex().upper()]
    made.send(bytes.fromhex("000CFE050009017363702D32303100"), bytes.fromhex("0001FE06"))
    shake.append(made.message().hex().upper())
    if shake != ["0003FE040101", "0001FE06"]:
        failed.append(f"handshake: {shake}")
    for name, sent, due in peer.rows():
        sent = bytes.fromhex(sent)
        made.send(sent)
        got = made.message()
        if not (got == bytes.fromhex(due) if due else peer.is_returned(got, sent)):
            failed.append(f"{name}: {got.hex().upper()}")
    # The same node with a title in the exchange's address.
    words = [it.options.program, "serve", stage.records, "--listen", "127.0.0.1:17102", "--log", stage.folder / "log-title",
             "--sccp", "201:241", "--exchange", peer.TITLE.hex(), "--units", "scp", "--tag", "1"]
    stage.start("title", words, stdout=subprocess.DEVNULL)
    await_port(17102)
    made = peer.Peer(17102)
    made.name("scp")
    made.send(bytes.fromhex("0048FD 09 00 030714 04 43C800F1 0D 5364000C0012 04 947112325476 2F" + peer.BEGIN.hex()))
    due = "0038FD 09 00 031014 0D 5364000C0012 04 947112325476 04 43C900F1 1F" + peer.END.hex()
    if (got := made.message()) != bytes.fromhex(due):
        failed.append(f"title: {got.hex().upper()}")
    failed += m3ua_rows(it)
    for text in failed:
        it.note(text)
    return not failed


def m3ua_rows(it):
    """What osmo-stp sends to an exchange with the point code 100, while another one, 101, comes and goes."""
    stage = it.stage
    stage.kill("node-201")
    stage.node(1, 201, 100, "scp-200-1,scp-201")
    stage.stp("m3ua.cfg", has_m3ua=True)
    exchange, other = it.m3ua(100, [200], PLAIN, first=0x2A), it.m3ua(101, [210], PLAIN)
    trace = exchange.connections[0].trace = []
    is_right = it.run(exchange, count=1, rate=10) and other.await_up()
    exchange.pause(0.5)
    other.close()
    exchange.pause(4.0)
    seen = [("> " if is_own else "< ") + message.hex().upper() for is_own, message in trace]
    due = ["> 0100030100000008", "< 0100030400000008",
           "< 0100000100000018000D0008000100020006000800000064",
           "> 0100040100000018000B0008000000020006000800000064",
           "< 0100040300000018000B0008000000020006000800000064",
           "< 0100000100000018000D0008000100030006000800000064",
           "< 010002020000001800060008000000640012000800000065",
           "< 010002010000001800060008000000640012000800000065",
           f"> 010001010000006000060008000000640210004F00000064000000C80300000009800{M3UA_CALL}00",
           f"< 01000101000000500210003F000000C9000000640300000009000{M3UA_ANSWER}000006000800000064"]
    missing = [row for row in due if row not in seen]
    it.note(f"{len(due) - len(missing)} rows of M3UA")
    return [f"M3UA: {row} isn't there" for row in missing] + ([] if is_right else ["M3UA: the call"])


def await_port(port, seconds=10):
    def is_there():
        with contextlib.suppress(OSError):
            socket.create_connection(("127.0.0.1", port), 1).close()
            return True
        return False

    until(is_there, seconds)


def one(it):
    it.stage.node(1, 201, 100, "scp-201")
    it.stage.stp("one.cfg")
    exchange = it.exchange(100, [201], ring=0.2).over_ipa([201])
    return it.run(exchange) and all_right(exchange, it.few) and it.stage.quit(201)


def two(it):
    exchange = two_nodes(it, 0.2)
    is_right = it.run(exchange) and all_right(exchange, it.few) and shared(exchange, it.few, (201, 202))
    return is_right and it.stage.quit(201, 202)


def all_ipa(it):
    exchange, count = two_nodes(it, 0.2), it.options.dialogues
    is_right = it.run(exchange, count=count) and all_right(exchange, count) and shared(exchange, count, (201, 202))
    it.note(f"{len(exchange.kinds_done)} kinds")
    return is_right and it.stage.quit(201, 202)


def all_m3ua(it):
    it.stage.nodes_of(100, 200)
    it.stage.nodes_of(101, 210)
    it.stage.stp("m3ua.cfg", has_m3ua=True)
    count = it.options.dialogues // 2
    # Both have the same identifiers at the same time.
    exchanges = [it.m3ua(100, [200], ring=0.2), it.m3ua(101, [210], ring=0.2)]
    is_right = it.run(*exchanges, count=count)
    it.note(f"{len(exchanges[0].kinds_done)} kinds")
    is_shared = shared(exchanges[0], count, (201, 202)) and shared(exchanges[1], count, (211, 212))
    is_right = is_right and is_shared and all(all_right(exchange, count) for exchange in exchanges)
    return is_right and it.stage.quit(201, 202, 211, 212)


def drained(it):
    exchange = two_nodes(it, 0.5)
    is_right = it.run(exchange, events=[(it.few // 3, lambda: it.stage.command(201, "drain"))])
    return is_right and lost_at_begin(exchange, it.few) and it.stage.ends(201) and it.stage.quit(202)


def killed(it):
    """Calls ring for 4 to 12 seconds, so that many messages of old ones come to the new run."""
    exchange = two_nodes(it, 8.0, LONG)
    open_there = []

    def restart():
        open_there.append(sum(dialogue.node in (200, 201) for dialogue in exchange.dialogues.values()))
        it.stage.kill("node-201")
        it.stage.again(201)

    # The new run has dialogues of its own while messages of old ones come.
    rate, count = it.options.rate // 2, it.options.rate * 8
    is_right = it.run(exchange, count=count, rate=rate, events=[(count // 4, restart)])
    gone, right = exchange.counts["lost"] + exchange.counts["aborted"], exchange.counts["right"]
    it.note(f"the node had up to {open_there[0]} open")
    is_right = is_right and gone <= open_there[0] and gone + right == count
    return is_right and exchange.counts["aborted"] > 0 and exchange.done_by[201] > 0


def hung(it):
    exchange = two_nodes(it, 0.3, lost_after=20.0)

    def hang():
        it.stage.signal("node-201", signal.SIGSTOP)
        threading.Timer(4.0, it.stage.signal, ("node-201", signal.SIGCONT)).start()

    count = it.few * 2
    is_right = it.run(exchange, count=count, events=[(count // 4, hang)])
    return is_right and all_right(exchange, count) and it.stage.quit(201, 202)


def forgot(it):
    """With one node, so that all of the exchange's new calls come to the node of the old ones."""
    it.stage.node(1, 201, 100, "scp-201")
    it.stage.stp("one.cfg")
    old = it.exchange(100, [201], LONG, ring=1000.0).over_ipa([201])
    old.await_up()
    old.pause(0.3)
    for _ in range(500):
        old.begin(time.monotonic())
        old.turn(0.001)
    old.pause(1.0)
    ringing = sum(dialogue.waits for dialogue in old.dialogues.values())
    old.close()
    new, count = it.exchange(100, [201], ring=0.3).over_ipa([201]), max(500, it.few)
    is_right = it.run(new, count=count) and all_right(new, count) and ringing == 500
    is_right = is_right and it.stage.quit(201)
    log = (it.stage.folder / "log-201").read_text()
    aborts = sum(line.split()[1] == "P" and "4A0101" in line.split()[4][-6:] for line in log.splitlines()[1:])
    it.note(f"{ringing} rang, {aborts} Aborts before Begins")
    begun = sum(new.kinds[number % len(new.kinds)].steps[0][1][0][0] == 0x62 for number in range(1, 501))
    return is_right and aborts == begun


def restarted(it):
    exchange = two_nodes(it, 16.0, LONG)
    count = 500
    is_right = it.run(exchange, count=count, rate=count, events=[(count, lambda: restart_after(it, exchange))])
    return is_right and all_right(exchange, count) and it.stage.quit(201, 202)


def restart_after(it, exchange):
    """Kills osmo-stp once each dialogue rings, which half of the shortest time is left for, and starts it again."""
    while any(not dialogue.waits for dialogue in exchange.dialogues.values()):
        exchange.turn()
    it.stage.restart()


def two_points(it, ring):
    """Two osmo-stp, of which the second has the address 127.0.0.11, two nodes, and an exchange at both."""
    stage = it.stage
    for number in (1, 2):
        units = f"scp-200-{number}-A,scp-20{number}-A,scp-20{number}-B,scp-200-{number}-B"
        stage.node(number, 200 + number, 100, units)
    stage.stp("pair.cfg", "A", True)
    stage.stp("pair.cfg", "B", True, [("-A", "-B"), ("127.0.0.10", "127.0.0.11")])
    exchange = it.m3ua(100, [200], hosts=("127.0.0.10", "127.0.0.11"), ring=ring)
    exchange.await_up()
    return exchange


def withdrawn(it):
    """The common unit of a node is taken out by hand at the second, as `drain` closes that at the first."""
    exchange, count = two_points(it, 0.3), it.few

    def drain():
        it.stage.configure("127.0.0.11", ["as scp-200 ipa", "no asp scp-200-1-B"])
        it.stage.command(201, "drain")

    is_right = it.run(exchange, count=count, events=[(count // 3, drain)])
    return is_right and lost_at_begin(exchange, count) and it.stage.ends(201) and it.stage.quit(202)


def pair(it):
    """One of the two is killed, and started again."""
    stage, exchange = it.stage, two_points(it, 0.2)
    count, open_then, again = it.options.rate * 16, [], []

    def kill():
        open_then.append(len(exchange.dialogues))
        stage.kill("A")

    def start():
        again.append(time.monotonic())
        stage.stp("pair.cfg", "A", True)

    is_right = it.run(exchange, count=count, events=[(count // 4, kill), (count // 2, start)])
    by_kill = sum(began < again[0] for began, _ in exchange.lost)
    # A that comes back takes the nodes' answers at once, and drops them until the exchange is connected to it, too.
    it.note(f"{open_then[0]} were open when A was killed, {by_kill} of those lost; {len(exchange.lost) - by_kill} lost "
            f"when it came back")
    # It may take a second until the exchange knows.
    is_right = is_right and by_kill <= open_then[0] + it.options.rate
    is_right = is_right and exchange.counts["right"] + len(exchange.lost) == count
    return is_right and stage.quit(201, 202)


def upstream(it):
    stage = it.stage
    stage.nodes_of(100, 200)
    stage.stp("operator.cfg", "operator", True)
    stage.stp("edge.cfg", "edge", True)
    exchange = it.m3ua(100, [200], ring=0.2)
    exchange.await_up()
    exchange.pause(8.0)
    count = it.few * 2
    at_node = []

    def kill():
        at_node.append(sum(dialogue.node in (200, 201) for dialogue in exchange.dialogues.values()))
        stage.kill("node-201")

    is_right = it.run(exchange, count=count, events=[(count // 2, kill)])
    gone = count - exchange.counts["right"]
    it.note(f"the node had up to {at_node[0]} open when it was killed")
    return is_right and gone <= at_node[0] + 5 and stage.quit(202)


def handshake(it):
    """A third unit is there for the connections that are cut."""
    it.stage.node(1, 201, 100, "scp-200-1,scp-201,cut")
    it.stage.node(2, 202, 100, "scp-200-2,scp-202")
    it.stage.stp("two.cfg")
    exchange = it.exchange(100, [200], ring=0.2, lost_after=20.0).over_ipa([200, 201, 202])
    data = wire.udt(peer.NODE, peer.EXCHANGE, tcap.continued(0xEEEEEEEE, 0))
    octets = wire.ipa(wire.CCM, wire.identity("cut")) + wire.ipa(wire.CCM, b"\6") + wire.ipa(wire.SCCP, data)
    cuts = [(at, how) for at in range(len(octets) + 1) for how in ("close", "reset")]

    def cut():
        if cuts:
            at, how = cuts.pop()
            made = peer.Peer(17101)
            if at % 3:
                made.message()
            made.send(octets[:at])
            made.close(is_reset=how == "reset")

    count = max(it.few, 20 * len(cuts))
    events = [(number * 20 + 1, cut) for number in range(len(cuts))]
    it.note(f"{len(cuts)} connections cut, of {len(octets)} octets")
    is_right = it.run(exchange, count=count, events=events) and exchange.counts["right"] == count
    # What was cut after its last octet is answered: a Continue to no dialogue.
    is_right = is_right and exchange.counts["late"] <= 2 and it.stage.quit(201, 202)
    network = it.stage.network(201)
    it.note(f"{network.get('connections')} connections came to the node")
    # One that was reset at once may be gone before it is accepted.
    return is_right and network.get("connections", 0) >= len(octets)


def records(it):
    """The destination of a number is changed; in the parts of the run neither node has it, then one, then both."""
    exchange = two_nodes(it, 0.0, PLAIN)
    old = PLAIN[0].steps[1][1]
    new = kinds_of("new\n< 641D4904IIIIIIII6C15A113020101020114300BA009040783100322324305")[0].steps[0][1]
    text, is_right, count = it.stage.records.read_text(), True, it.few // 3
    for number, own in enumerate((None, 201, 202)):
        if own:
            it.stage.records.write_text(text.replace("302223344\n", "302223345\n", 1))
            it.stage.reload(own, 1)
        exchange.by_node = {201: new if number > 0 else old, 202: new if number > 1 else old}
        is_right = it.run(exchange, count=count * (number + 1)) and is_right
    return is_right and all_right(exchange, count * 3) and shared(exchange, count * 3, (201, 202))


def stays(it):
    """Messages that come to another node than the dialogue's reach no dialogue there."""
    exchange = two_nodes(it, 0.1, LONG, follows=False)
    is_right, counts = it.run(exchange), exchange.counts
    return is_right and counts["right"] + counts["aborted"] == it.few and counts["aborted"] > 0


def late(it):
    """A drained node is stopped until its two seconds are over. What its common connection has by then is answered."""
    stage, count = it.stage, 800
    stage.node(1, 201, 100, "scp-200-1,scp-201")
    await_port(17101)
    own, common = peer.Peer(17101), peer.Peer(17101)
    is_right = own.name("scp-201") and common.name("scp-200-1")
    begins = b"".join(map(peer.begin, range(count)))
    common.send(peer.begin(count))
    is_right = own.answers([count]) and is_right
    stage.command(201, "drain")
    # (the node shuts its sending side)
    is_right = common.take(1) == b"" and is_right
    stage.signal("node-201", signal.SIGSTOP)
    common.send(begins)
    time.sleep(2.5)
    stage.signal("node-201", signal.SIGCONT)
    is_right = own.answers(range(count)) and is_right
    it.note(f"{len(begins)} octets of {count} Begins waited")
    return stage.ends(201) and is_right


def waits(it):
    """A drained node without a dialogue goes on until its common connection is closed, and answers a Begin that comes by it."""
    stage = it.stage
    stage.node(1, 201, 100, "scp-200-1,scp-201")
    await_port(17101)
    own, common = peer.Peer(17101), peer.Peer(17101)
    is_right = own.name("scp-201") and common.name("scp-200-1")
    common.send(peer.begin(0))
    is_right = own.answers([0]) and is_right
    stage.command(201, "drain")
    # (the node shuts its sending side)
    is_right = common.take(1) == b"" and is_right
    # More than a second, after which a run without a dialogue would end, and less than two.
    time.sleep(1.4)
    common.send(peer.begin(1))
    is_right = own.answers([1]) and is_right
    common.close()
    return stage.ends(201) and is_right


def crowded(it):
    """Ten connections always have messages: eight with a unit have Begins, and two without have PINGs. Each is read about as
    often as the others."""
    stage, units = it.stage, ["scp-200-1", "scp-201"] + [f"unit-{number}" for number in range(6)]
    stage.node(1, 201, 100, ",".join(units), log="/dev/null", more=["--log-gaps"])
    await_port(17101)
    crowd = peer.Crowd(17101, [*units, None, None])
    crowd.press(3.0)
    counts = crowd.octets()
    it.note(f"of the {len(counts)} connections {min(counts)} to {max(counts)} octets were answered")
    stage.command(201, "quit")
    return stage.running["node-201"].wait(20) == 0 and 2 * min(counts) > max(counts)


def pressed(it):
    """A node is drained while eight connections always have Begins: its common one is closed all the same."""
    stage, units = it.stage, ["scp-200-1", "scp-201"] + [f"unit-{number}" for number in range(6)]
    stage.node(1, 201, 100, ",".join(units), log="/dev/null", more=["--log-gaps"])
    await_port(17101)
    crowd, drained = peer.Crowd(17101, units), []

    def drain():
        stage.command(201, "drain")
        drained.append(time.monotonic())

    crowd.press(1.0, drain, 20.0)
    seconds = crowd.refused[0] - drained[0]
    it.note(f"the common connection was closed {seconds:.1f} seconds after the command")
    return stage.running["node-201"].wait(20) == 0 and 2.0 <= seconds < 19.0


def hostile(it):
    """Messages go to the node directly, as osmo-stp would pass them on."""
    stage, seconds = it.stage, it.options.seconds
    log = "/dev/null" if seconds > 600 else None
    stage.node(1, 201, 100, "scp-200-1,scp-201", log=log, more=["--log-gaps"])
    await_port(17101)
    made, start, seen, second = peer.Hostile(17101, "scp-201", it.options.seed), time.monotonic(), [], 0
    while time.monotonic() - start < seconds and stage.is_running("node-201"):
        made.burst(100)
        if time.monotonic() - start >= second:
            second += 1
            made.lose()
            made.call()
            seen.append(stage.memory("node-201"))
    is_flat = max(seen[len(seen) // 2:]) <= max(seen[:len(seen) // 2 + 1]) + 1024
    it.note(f"{made.sent} messages, {made.right} of {made.calls} calls right, {made.connections} connections ({made.unnamed} "
            f"weren't taken in five seconds), "
            f"{made.aborted} dialogues ended; memory {seen[0]} kB, then {seen[len(seen) // 2]} kB, at last {seen[-1]} kB, "
            f"at most {max(seen)} kB")
    made.lose()
    stage.command(201, "quit")
    ends = stage.running["node-201"].wait(20) == 0 and (log is not None or stage.replays(201))
    numbers = stage.network(201)
    it.note(" ".join(f"{word} {number}" for word, number in numbers.items() if number))
    return is_flat and ends and made.right == made.calls


CASES = [rows, one, two, all_ipa, all_m3ua, drained, killed, hung, forgot, restarted, pair, withdrawn, upstream, handshake, records,
         stays, waits, late, crowded, pressed, hostile]
