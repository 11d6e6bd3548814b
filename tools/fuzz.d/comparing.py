"""What the kinds of inputs of tools/fuzz have in common: the options, what a comparison finds wrong, runs of the program with
an input, and the answers, which tshark has to read."""
import argparse
import collections
import re
import subprocess
import time

import client
import inputs
import model
import tshark
from model import ABORT, CONTINUE, END, tlv

GIVEN = argparse.Namespace()
# How often what came; of each form of answer its name; one answer of each form that tshark hasn't read yet.
SEEN, FORMS, UNREAD = collections.Counter(), {}, []


class Wrong(Exception):
    """The program did what it mustn't. Has the files that show it, each a name and its content."""

    def __init__(self, text, **files):
        super().__init__(text)
        self.files, self.after = files, time.monotonic() - GIVEN.began


def expect(is_so, otherwise, **files):
    if not is_so:
        raise Wrong(otherwise, **files)


def fault_of(compare, *words):
    """What a comparison finds wrong; nothing if all is well."""
    try:
        compare(*words)
    except Wrong as wrong:
        return wrong
    return None


def smaller(wrong, compare, *words):
    """What a comparison of a smaller input finds wrong, with the time at which the first was found."""
    found = fault_of(compare, *words) or wrong
    found.after = wrong.after
    return found


def smallest(parts, is_wrong, seconds=20):
    """As few of these parts as are still wrong, found by leaving out some of them for a time."""
    last, size = time.monotonic() + seconds, len(parts) // 2
    while size:
        for at in range(0, len(parts), size):
            fewer = parts[:at] + parts[at + size:]
            if time.monotonic() > last:
                return parts
            if fewer and is_wrong(fewer):
                parts = fewer
                break
        else:
            size //= 2
    return parts


# Runs

def file_of(name, octets):
    path = GIVEN.folder / name
    path.write_bytes(octets)
    return path


def run(*words, given=b"", lines=1):
    """The status, the output and the errors of a run that gets this input, of so many lines."""
    path, most = file_of("input", given), GIVEN.patience * (1 + lines / 10_000)
    # (another process may have the processor meanwhile: only what is slow three times is slow)
    for _ in range(3):
        began = time.monotonic()
        try:
            with path.open("rb") as file:
                ended = subprocess.run([*GIVEN.limit, *GIVEN.words, *words], stdin=file, capture_output=True,
                                       timeout=10 * most)
        except subprocess.TimeoutExpired:
            raise Wrong(f"{words[0]} went on for {10 * most:.0f} seconds", input=given) from None
        took = time.monotonic() - began
        if took <= most:
            GIVEN.slowest = max(GIVEN.slowest, took)
            return ended.returncode, ended.stdout, ended.stderr.decode(errors="replace")
    raise Wrong(f"{words[0]} took {took:.1f} seconds, and was as slow twice before", input=given)


def tag_option(tag):
    """The option of this tag, left out if it is none."""
    return ["--tag", str(tag)] * bool(tag)


def some_contexts(chance):
    contexts = chance.choice([[], inputs.CONTEXTS[:1], inputs.CONTEXTS])
    return contexts, ["--contexts", ",".join(name.hex() for name in contexts)] if contexts else []


# Answers

NAMES = {0x14: "Connect", 0x16: "ReleaseCall", 0x17: "RequestReportBCSMEvent", 0x1F: "Continue", 0x37: "ActivityTest"}
MEANINGS = {"O": "opened a dialogue", "A": "accepted", "X": "refused, cause ", "E": "refused, dialogue closed",
            "D": "discarded"}


def name_of(octets):
    """What an answer is. It has to be a message of at most 331 octets, in as few as possible."""
    def shortest(part):
        return tlv(part[0], part[1] if isinstance(part[1], bytes) else b"".join(map(shortest, part[1])))

    expect(shortest(model.whole(octets)) == octets and len(octets) <= 331, f"an answer isn't short: {octets.hex()}")
    portion, parts = model.message(octets)
    name = {END: "End", CONTINUE: "Continue", ABORT: "Abort"}[octets[0]]
    if octets[0] == ABORT and 0x4A in (fields := dict(model.whole(octets)[1])):
        name += f" cause {fields[0x4A][0]}"
    if portion:
        name += {0x61: " AARE", 0x64: " ABRT"}[portion[0][1][1][1][0][0]]
    for tag, part in parts:
        value = part[1][1][0]
        cause = f" {part[2][1][1] & 0x7F}" if (tag, value) == (0xA1, 0x16) else ""
        name += " " + {0xA1: f"{NAMES.get(value)}{cause}", 0xA3: f"ReturnError {value}"}.get(
            tag, f"Reject {part[1][0]:X} {value}")
    return name


def count(became, answers):
    """Counts a message, and answers, that are as they have to be."""
    if became:
        SEEN[f"message: {MEANINGS[became[0]]}{became[1] if became[0] == 'X' else ''}"] += 1
    for octets in answers:
        at = 2 + max(0, octets[1] - 0x80) + 6 * (octets[0] == CONTINUE)
        form = octets[:1] + octets[at + 2 + octets[at + 1]:]
        if form not in FORMS:
            FORMS[form] = "answer: " + name_of(octets)
            UNREAD.append(octets)
            if len(UNREAD) == 500:
                read_by_tshark()
        SEEN[FORMS[form]] += 1


def read_by_tshark():
    """tshark has to read the forms of answers that it hasn't read yet."""
    frames, path = UNREAD.copy(), GIVEN.folder / "answers.pcap"
    UNREAD.clear()
    if not tshark.is_there() or not frames:
        return
    tshark.write_capture(path, [(True, client.frame(frame)) for frame in frames])
    said = tshark.read(path, *tshark.FIELDS)[0].split("\f")[:-1]
    expect(len(said) == len(frames), "tshark ended early", capture=path.read_bytes())
    for frame, text in zip(frames, said):
        # (an AARE has the name that was proposed, which may be no object identifier)
        complains = re.search("Malformed(?! OID)|Dissector bug|Expert Info", text)
        expect("Transaction Capabilities" in text and not complains, f"tshark doesn't read {frame.hex()}", tshark=text)
    SEEN["forms of answers that tshark read"] += len(frames)
