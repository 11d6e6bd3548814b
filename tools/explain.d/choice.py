"""Why a call gets its destination, or none: the rules of its number, which of them fit and which one is chosen, by the
section "Records" of docs/profile.md. The choice itself is that of tools/fuzz.d/model.py; here is the reason for it."""
import dataclasses
import datetime
import enum

from runs import model

DAYS = ["Monday", "Tuesday", "Wednesday", "Thursday", "Friday", "Saturday", "Sunday"]


class Verdict(enum.Enum):
    """What becomes of a rule."""
    CHOSEN = "chosen"
    FITS = "fits"
    NOT = "not"


@dataclasses.dataclass(frozen=True)
class Rule:
    """A rule of the called number, and why it is chosen or not. `first` is the lowest number of a call, from 1, that
    gets it."""
    text: str
    verdict: Verdict
    why: str
    first: int = 0


@dataclasses.dataclass(frozen=True)
class Choice:
    """The rules of a call, and sentences before and after them."""
    before: tuple = ()
    rules: tuple = ()
    after: tuple = ()
    gets: str = ""


def minute_of(text):
    return int(text[:2]) * 60 + int(text[3:])


def clock_of(minute):
    return f"{minute // 60:02}:{minute % 60:02}"


def why_not(rule, calling, day, minute):
    """Why a rule doesn't fit; nothing if it does."""
    prefix, days, starts, ends = (field.decode() for field in rule[:4])
    if not calling.startswith(prefix):
        return f"another prefix: {'no calling number' if not calling else calling} doesn't begin with {prefix}"
    if str(day + 1) not in days:
        return f"another day: {DAYS[day]} is {day + 1}"
    first, last = minute_of(starts), minute_of(ends)
    if not (first <= minute < last if first < last else minute >= first or minute < last):
        return f"another time: {clock_of(minute)}"
    return ""


def gets_of(answer):
    """What the caller gets by an answer of the model."""
    kind, *about = answer
    if kind == "route":
        first, *others = about[0]
        return f"is connected to {first}" + (f", and if that fails to {', then '.join(others)}" if others else "")
    if kind == "release":
        return f"is released: cause {'3, no route to destination' if about[0] == 3 else '21, call rejected'}"
    if kind == "pass":
        return "goes on to the number that was dialled"
    names = {6: "missingCustomerRecord", 7: "missingParameter", 15: "unexpectedDataValue"}
    return f"is treated as the switch sees fit, which gets ReturnError {about[0]}, {names[about[0]]}"


def choose(records, members, moment, birth=None):
    """The choice for these members of an InitialDP at this moment, for the call of this number on its link; without
    one all that it may be."""
    key, called = members.get(0x80), model.digits_of(members.get(0x82))
    calling = model.digits_of(members.get(0x83)) or ""
    gets = f"the caller {gets_of(records.answer(members, moment, birth or 1))}"
    if key is None or called is None:
        return Choice((f"no rule is looked for: InitialDP has no {'service key' if key is None else 'called number'}",),
                      gets=gets)
    if int.from_bytes(key, "big") != records.key:
        return Choice((f"no rule is looked for: the service key is {int.from_bytes(key, 'big')}, that of the records "
                       f"{records.key}",), gets=gets)
    days, minute = divmod(moment // 60_000 + records.offset, 1_440)
    date = datetime.date(1970, 1, 1) + datetime.timedelta(days=days)
    when = f"it is {DAYS[date.weekday()]}, {date} {clock_of(minute)} by the records"
    if called.encode() not in records.rules:
        return Choice((when, f"the records have no rule for {called}"), gets=gets)
    rules = records.rules[called.encode()]
    is_closed = ([called.encode()], days) in records.closed
    reasons = [f"a closed day: {date}" if is_closed else why_not(rule, calling, date.weekday(), minute)
               for rule in rules]
    longest = max((len(rule[0]) for rule, reason in zip(rules, reasons) if not reason), default=0)
    reasons = [reason or ("a longer prefix fits" if len(rule[0]) < longest else "")
               for rule, reason in zip(rules, reasons)]
    told, total = shares_of(called, rules, reasons, birth)
    after = () if total else (f"no rule fits: {called} is closed on that day",) if is_closed else ("no rule fits",)
    return Choice((when,), told, after, gets)


def shares_of(called, rules, reasons, birth):
    """The rules with what becomes of each, and the sum of the weights of those that fit."""
    total = sum(model.value_of(rule[4]) for rule, reason in zip(rules, reasons) if not reason)
    told, below = [], 0
    for rule, why in zip(rules, reasons):
        text, verdict, first = ",".join([called, *(field.decode() for field in rule)]), Verdict.NOT, 0
        if not why:
            weight = model.value_of(rule[4])
            share, first = range(below, below + weight), below or total
            below += weight
            verdict, why = Verdict.FITS, f"{weight} of {total} calls get it"
            if weight == total:
                verdict, why = Verdict.CHOSEN, "chosen: no other rule fits as well"
            elif birth is not None:
                is_chosen = birth % total in share
                verdict = Verdict.CHOSEN if is_chosen else Verdict.FITS
                why = (f"{'chosen' if is_chosen else 'fits'}: its share is {share[0]} to {share[-1]}, "
                       f"and {birth} mod {total} is {birth % total}")
            if first == total and weight > 1:
                first = 1
        told.append(Rule(text, verdict, why, first))
    return tuple(told), total
