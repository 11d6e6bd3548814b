"""The inputs of tools/fuzz that are texts: lines for `ask`, records for `check` and `migrate`, logs for `replay`."""
import itertools
import re

import inputs
import model
from comparing import (GIVEN, SEEN, Wrong, count, expect, fault_of, file_of, run, smaller, smallest, some_contexts,
                       tag_option)


# ask

def answers_to(traffic, now, line):
    """The moment after a line, what became of its message, and what is sent for it; nothing if the line is bad."""
    became = None
    if not inputs.LINE.fullmatch(line):
        return None
    if line[:1] == b"+":
        now += int(line[1:])
        if now >= model.END_OF_TIME:
            return None
        traffic.link.tick(now)
    else:
        became = traffic.post(bytes.fromhex(line.decode()), now)
    return now, became, traffic.link.drain()


def all_answers_to(traffic, now, lines):
    """What each line gets, up to the first bad one."""
    answered = []
    for line in lines:
        if (one := answers_to(traffic, now, line)) is None:
            break
        now = one[0]
        answered.append(one)
    return answered


def compare_ask(words, given, count_of_lines, answered):
    """Compares what `ask` does with an input with what each line gets, up to the first bad one."""
    status, came, errors = run("ask", *words, given=given, lines=count_of_lines)
    due = [(at, octets.hex().upper()) for at, (_, _, sent) in enumerate(answered, 1) for octets in sent]
    output, files = came.decode(errors="replace"), {"input": given, "words": str(words)}
    if output != "".join(answer + "\n" for _, answer in due):
        for one, two in itertools.zip_longest(output.split("\n"), [*due, ("-", "")], fillvalue=("-", None)):
            expect(one == two[1], f"ask: {one} came, due was {two[1]} for line {two[0]}; "
                   f"status {status}, '{errors[:200]}'", **files)
    is_bad = len(answered) < count_of_lines
    expect((status, errors) == ((1, f"line {len(answered) + 1}: bad line\n") if is_bad else (0, "")),
           f"ask: status {status}, '{errors[:200]}'; {len(answered)} lines are good, and the next is "
           f"{'bad' if is_bad else 'not there'}", **files)


def ask_case(chance):
    text = inputs.text_of(chance, inputs.some_records(chance))
    records, (contexts, options) = model.Records(text), some_contexts(chance)
    tag = inputs.some_tag(chance) if GIVEN.asks_with_tag else 0
    moment = chance.choice([inputs.NOON, inputs.NOON, chance.randrange(model.END_OF_TIME),
                            model.END_OF_TIME - 1 - chance.randrange(200_000)])
    words = [file_of("records.csv", text), inputs.instant(chance, moment), *options, *tag_option(tag)]
    end = chance.choice([b"\n", b"\n", b""])
    size, many = chance.choice([1, 30, 300, 1_000, 2_000]), chance.choices([None, *inputs.MANY], [1_000, 3, 0.3, 5])[0]
    bad = chance.randrange(size) if chance.random() < 0.3 else None

    def traffic():
        return inputs.Traffic(chance, model.Link(records, contexts, tag=tag), GIVEN.seeds)

    def compare(lines, answered=None):
        answered = all_answers_to(traffic(), moment, lines) if answered is None else answered
        compare_ask(words, b"\n".join(lines) + (end if lines[-1] else b"\n"), len(lines), answered)

    switch, now, lines, answered = traffic(), moment, [], []
    first = inputs.MANY.get(many, 0)
    while len(lines) < first + size:
        switch.many = many if len(lines) < first else None
        if len(lines) - first == bad:
            line = chance.choice(inputs.BAD_LINES + [lines[-1] + b" " + lines[-1] if lines else b""])
        else:
            line = inputs.some_line(chance, switch)
        lines.append(line)
        one = answers_to(switch, now, line)
        if one is None:
            break
        now = one[0]
        answered.append(one)
    lines += [b"6100"] * chance.randrange(3) if len(answered) < len(lines) else []
    wrong = fault_of(compare, lines, answered)
    if wrong:
        raise smaller(wrong, compare, smallest(lines, lambda fewer: fault_of(compare, fewer)))
    SEEN["lines"] += len(lines)
    SEEN["runs of ask with a tag"] += bool(tag)
    SEEN["inputs with a bad line" if len(answered) < len(lines) else "inputs without a bad line"] += 1
    for _, became, sent in answered:
        count(became, sent)


# check and migrate

def compare_check(text):
    """Gives what became of these records."""
    try:
        records = model.Records(text)
        ends = {"check": (0, records.report, ""), "migrate": (0, records.migrated, "")}
        became = f"good, version {records.version}"
    except model.Fault as fault:
        records, (index, became) = None, fault.args
        ends = dict.fromkeys(["check", "migrate"], (1, b"", f"record {index}: {became}\n"))
    for octets in [text, records.migrated] if records else [text]:
        path = file_of("records.csv", octets)
        for word, wanted in ends.items():
            got = run(word, path, lines=text.count(b"\n"))
            expect(got == wanted, f"{word}: {str(got)[:300]} came, due was {str(wanted)[:300]}", records=octets)
    return became


def check_case(chance):
    text = inputs.changed_file(chance)
    try:
        SEEN["records: " + compare_check(text)] += 1
    except Wrong as wrong:
        for parts in (text.splitlines(keepends=True), None):
            parts = parts or [bytes([octet]) for octet in text]
            text = b"".join(smallest(parts, lambda fewer: fault_of(compare_check, b"".join(fewer))))
        raise smaller(wrong, compare_check, text) from None


# replay

def compare_replay(words, count_of_tables, log, wanted=None):
    """Gives what became of the log. If it isn't known what is wanted, it is only known which line is bad or a gap."""
    got = run("replay", words[0], file_of("run.log", log), *words[1:], lines=log.count(b"\n"))
    files = {"log": log, "words": str(words), **{path.name: path.read_bytes() for path in words[:count_of_tables]}}
    if wanted:
        expect(got == wanted, f"replay: {got} came, due was {wanted}", **files)
        return "what was due: " + (got[2].split(": ")[-1].strip() or "replayed")
    fault, found = model.log_fault(log, count_of_tables), re.fullmatch(r"line (\d+): disagrees\n", got[2])
    if found and got[:2] == (1, b"") and 1 < int(found[1]) < (fault[0] if fault else len(log.splitlines()) + 1):
        return "disagrees"
    links = range(0 if fault else int(log[8:9]))
    reports = rb"".join(rb"link %d accepted \d+ served \d+ sent \d+\n" % link for link in links)
    expect(got == (1, b"", "line %d: %s\n" % fault) if fault else got[::2] == (0, "") and re.fullmatch(reports, got[1]),
           f"replay: {got} came, the first fault is {fault}", **files)
    return fault[1] if fault else "replayed"


def changed_log_case(chance, words, count_of_tables, lines):
    """Changes a log somehow. Gives what became of it."""
    lines, end = inputs.changed_log(chance, lines), chance.choice([b"\n"] * 9 + [b""])
    def compare(lines):
        return compare_replay(words, count_of_tables, b"\n".join(lines) + end)
    try:
        return compare(lines)
    except Wrong as wrong:
        raise smaller(wrong, compare, smallest(lines, lambda fewer: fault_of(compare, fewer))) from None


def replay_case(chance):
    texts = [inputs.text_of(chance, inputs.some_records(chance)) for _ in range(chance.choice([1, 1, 2, 3]))]
    contexts, options = some_contexts(chance)
    words = [file_of(f"records{index}.csv", text) for index, text in enumerate(texts)] + options
    lines, reports = inputs.a_log(chance, list(map(model.Records, texts)), contexts, GIVEN.seeds)
    what = chance.random()
    if what < 0.6:
        faulty, fault = inputs.faulty_log(chance, lines, len(texts)) if what < 0.4 else (lines, None)
        wanted = (1, b"", fault) if fault else (0, reports, "")
        became = compare_replay(words, len(texts), b"\n".join(faulty) + b"\n", wanted)
    else:
        became = changed_log_case(chance, words, len(texts), lines)
    SEEN["log: " + became] += 1
    SEEN["log head: " + lines[0][:7].decode()] += 1
    for line in lines[1:]:
        SEEN["log line: " + line[2:3].decode()] += 1
        count(line.rsplit(b" ", 1)[1].decode() if line[2:3] in b"PL" else "", ())
