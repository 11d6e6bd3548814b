"""A network of its own, and captures that tshark reads."""
import contextlib
import os
import pathlib
import signal
import subprocess
import time

import network

# What the first two send is malformed by intention. The others send so much at once that segments of TCP cut messages, and
# tshark's reader of IPA doesn't put these together.
UNREADABLE = ("handshake", "hostile", "late", "crowded", "pressed")
# Where IPA goes: between osmo-stp and the nodes, and between exchanges and osmo-stp.
IPA_PORTS = (17000, *range(17101, 17113))


def take_network():
    """As root, where that is allowed, takes a network of its own."""
    if os.geteuid() == 0:
        with contextlib.suppress(OSError):
            network.take()


def begin(options, name):
    """Begins a capture of what goes over IPA, and with --sctp over SCTP; None if none is wanted or no good."""
    if options.capture is None or name in UNREADABLE:
        return None
    options.capture.mkdir(parents=True, exist_ok=True)
    path = options.capture / f"{name}.pcapng"
    words = ["dumpcap", "-q", "-i", "lo", "-B", "64", "-f", "tcp portrange 17000-17112 or sctp", "-w", path]
    process = subprocess.Popen(words, stdout=subprocess.DEVNULL, stderr=subprocess.DEVNULL)
    time.sleep(1.5)
    return name, path, process


def read(path):
    """The number of frames, of messages of TCAP, and of what tshark can't read."""
    # A frame may have a hundred messages, for which the tree may be deeper than usual.
    words = ["tshark", "-r", path, "-o", "gui.max_tree_depth:50000", "-T", "fields", "-e", "frame.number", "-e", "tcap.tid", "-e", "_ws.malformed"]
    for port in IPA_PORTS:
        words += ["-d", f"tcp.port=={port},gsm_ipa"]
    told = subprocess.run(words, capture_output=True, text=True, check=True).stdout
    rows = [line.split("\t") for line in told.splitlines()]
    tids = sum(len(row[1].split(",")) for row in rows if row[1])
    return len(rows), tids, [row[0] for row in rows if row[2]]


def stop(dump):
    """Ends a capture."""
    if dump is not None:
        dump[2].send_signal(signal.SIGINT)
        dump[2].wait()


def end(dump, it):
    """Ends a capture and has tshark read it. What went over M3UA by the stand-in is put back into SCTP for that. Whether
    nothing was malformed."""
    if dump is None:
        return True
    name, path, _ = dump
    time.sleep(1.0)
    stop(dump)
    paths, is_right = [path], True
    lines = [line for exchange in it.exchanges for line in traced(exchange)]
    if lines:
        text, put_back = path.with_suffix(".txt"), path.with_name(f"{name}-m3ua.pcapng")
        text.write_text("".join(lines))
        subprocess.run(["text2pcap", "-q", "-S", "2905,2905,3", text, put_back], check=True, capture_output=True)
        paths.append(put_back)
    for each in paths:
        frames, tids, malformed = read(each)
        it.note(f"{pathlib.Path(each).name}: {frames} frames, {tids} identifiers of TCAP, {len(malformed)} malformed"
                + f" ({', '.join(malformed[:5])})" * bool(malformed))
        is_right = is_right and not malformed and frames > 0
    return is_right


def traced(exchange):
    """Lines for text2pcap of all messages of M3UA that an exchange sent and got."""
    for connection in exchange.connections:
        for _, message in getattr(connection, "trace", None) or []:
            yield "000000 " + " ".join(f"{octet:02x}" for octet in message) + "\n"
