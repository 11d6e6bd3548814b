"""Messages of TCAP and their components in words, by the names of docs/profile.md: for those that came as for those
that scp sends. Octets are read by tools/fuzz.d/model.py."""
import dataclasses

from runs import model

MESSAGES = {0x61: "Unidirectional", 0x62: "Begin", 0x64: "End", 0x65: "Continue", 0x67: "Abort"}
OPERATIONS = {0: "InitialDP", 20: "Connect", 22: "ReleaseCall", 23: "RequestReportBCSMEvent", 24: "EventReportBCSM",
              31: "Continue", 55: "ActivityTest"}
EVENTS = {4: "routeSelectFailure", 5: "oCalledPartyBusy", 6: "oNoAnswer", 7: "oAnswer", 9: "oDisconnect",
          10: "oAbandon"}
MODES = {0: "interrupted", 1: "notified", 2: "transparent"}
ABORT_CAUSES = {0: "unrecognized message type", 1: "unrecognized transaction identifier",
                2: "badly formatted transaction portion", 3: "incorrect transaction portion", 4: "resource limitation"}
ERRORS = {6: "missingCustomerRecord", 7: "missingParameter", 14: "unexpectedComponentSequence",
          15: "unexpectedDataValue"}
CAUSES = {3: "no route to destination", 17: "user busy", 19: "no answer from user", 21: "call rejected"}
PROBLEMS = {0x80: ("General", ["unrecognized component", "mistyped component", "badly structured component"]),
            0x81: ("Invoke", ["duplicate invoke identifier", "unrecognized operation", "mistyped parameter",
                              "resource limitation", "initiating release", "unrecognized linked identifier",
                              "linked response unexpected", "unexpected linked operation"]),
            0x82: ("ReturnResult", ["unrecognized invoke identifier", "return result unexpected",
                                    "mistyped parameter"]),
            0x83: ("ReturnError", ["unrecognized invoke identifier", "return error unexpected", "unrecognized error",
                                   "unexpected error", "mistyped parameter"])}
NATURES = {3: "national", 4: "international"}
RESULTS = {0xA2: "ReturnResultLast", 0xA7: "ReturnResultNotLast"}


@dataclasses.dataclass(frozen=True)
class Component:
    """A component, or the dialogue portion: its name, its invoke identifier, what it is about, and further words."""
    name: str
    identifier: str = ""
    about: str = ""
    further: tuple = ()

    def __str__(self):
        words = ", ".join(word for word in (self.about, *self.further) if word)
        return self.name + (f"({self.identifier})" if self.identifier else "") + (f": {words}" if words else "")


@dataclasses.dataclass(frozen=True)
class Message:
    """A message: its name, the transaction identifiers of its sender and its receiver, and its components."""
    name: str
    origin: str = ""
    destination: str = ""
    components: tuple = ()

    def __str__(self):
        return self.name + (": " + "; ".join(map(str, self.components)) if self.components else "")


def named(number, names):
    """A number with its name, if it has one."""
    name = names.get(number) if isinstance(names, dict) else names[number] if number < len(names) else None
    return f"{number}, {name}" if name else str(number)


def member(parts, *tags):
    """The contents of the member with this tag, and within those of that with the next; nothing if there is none."""
    for tag in tags:
        parts = next((contents for found, contents in parts if found == tag), None) if isinstance(parts, list) else None
    return parts


def local_of(code):
    return int.from_bytes(code[1], "big", signed=True) if code[0] == 2 else None


def signed(octets):
    return str(int.from_bytes(octets, "big", signed=True))


def number_of(octets, is_calling=False):
    """A number of Q.763: its digits, and what its first two octets say."""
    digits = model.digits_of(octets)
    if digits is None:
        return "octets that hold no number"
    nature = octets[0] & 0x7F
    said = [NATURES.get(nature, f"nature of address {nature}")]
    if is_calling and octets[1] & 0x0C == 4:
        said.append("presentation restricted")
    return f"{digits} ({', '.join(said)})"


def initial_of(octets):
    """The members of the InitialDP that decides: the first of this message that can be read and isn't linked; nothing
    if there is none."""
    try:
        _, parts = model.message(octets)
    except model.Fault:
        return None
    for tag, contents in parts:
        what, *about = model.component(tag, contents)
        if what == "faulty":
            return None
        if what == "invoke" and about[1] is None and about[2][0] == "initial":
            return about[2][1]
    return None


# Arguments

def of_initial_dp(members):
    key = members.get(0x80)
    further = ["no called number" if 0x82 not in members else f"called {number_of(members[0x82])}",
               "no calling number" if 0x83 not in members else f"calling {number_of(members[0x83], True)}"]
    further += [f"{name} {members[tag][0]}" for tag, name in ((0x85, "category"), (0x9C, "event type"))
                if tag in members]
    return "no service key" if key is None else f"service key {int.from_bytes(key, 'big')}", tuple(further)


def of_event(argument, code, is_notification):
    leg = member(argument[1], 0xA3)
    kind = "notification" if is_notification else "request"
    return EVENTS.get(code, f"event {code}"), (kind, *([f"leg {leg[0][1][0]}"] if leg else []))


def of_request_report(argument):
    """The events that are requested, those with the same mode and leg together."""
    groups = {}
    for _, event in member(argument[1], 0xA0):
        how = f"{MODES[member(event, 0x81)[0]]} (leg {member(event, 0xA2, 0x80)[0]})"
        groups.setdefault(how, []).append(EVENTS[member(event, 0x80)[0]])
    return "", tuple(f"{', '.join(events)} {how}" for how, events in groups.items())


# The operations that scp invokes.
WRITTEN = {20: lambda argument: (f"to {model.digits_of(member(argument[1], 0xA0, 4))}", ()),
           22: lambda argument: (f"cause {named(argument[1][1] & 0x7F, CAUSES)}", ()), 23: of_request_report}


def invoke_of(parts, is_own):
    """An Invoke in words; `is_own` if scp sends it."""
    _, identifier, linked, what = model.component(0xA1, parts)
    code, *arguments = parts[1 if linked is None else 2:]
    operation = local_of(code)
    linked = () if linked is None else (f"linked to {signed(bytes([linked]))}",)
    if operation not in OPERATIONS:
        name = f"global operation {code[1].hex().upper()}" if operation is None else f"operation {operation}"
        return Component("Invoke", signed(identifier), name, linked)
    name, about, further = OPERATIONS[operation], "", ()
    if is_own:
        about, further = WRITTEN[operation](*arguments) if operation in WRITTEN else ("", ())
    elif what[0] == "initial":
        about, further = of_initial_dp(what[1])
    elif what[0] == "event":
        about, further = of_event(arguments[0], *what[1:])
    elif what[1] == 2:
        about = "mistyped argument" if arguments else "no argument"
    return Component(name, signed(identifier), about, (*further, *linked))


def component_of(tag, parts, is_own):
    """A component in words."""
    what, *about = model.component(tag, parts)
    if what == "faulty":
        return Component("faulty component", "" if about[0] is None else signed(about[0]))
    if what == "invoke":
        return invoke_of(parts, is_own)
    identifier = signed(parts[0][1]) if parts[0][0] == 2 else "none"
    if what == "result":
        return Component(RESULTS[tag], identifier)
    if what == "error":
        code = local_of(parts[1])
        return Component("ReturnError", identifier, named(code, ERRORS) if code is not None else "a global code")
    kind, names = PROBLEMS[parts[1][0]]
    return Component("Reject", identifier, f"{kind} problem {named(parts[1][1][0], names)}")


# Messages

def portion_of(portion):
    """A dialogue portion in words. That of a Continue, an End or an Abort of the switch may hold anything."""
    try:
        return apdu_of(*member(portion, 0x28, 0xA0)[0], portion)
    except (IndexError, TypeError, model.Fault):
        return Component("dialogue portion")


def apdu_of(tag, parts, portion):
    name = (member(parts, 0xA1, 6) or b"").hex().upper()
    if tag == 0x60:
        is_first = model.proposed(portion)[1]
        further = () if is_first else ("without version 1",)
        return Component("AARQ", about=f"application context {name}", further=further)
    if tag == 0x64:
        return Component("ABRT", about="by the user")
    if tag != 0x61:
        raise model.Fault
    source, value = member(parts, 0xA3)[0]
    refusal = "no common version" if source == 0xA2 else "application context name not supported"
    return Component("AARE", about="rejected" if value[0][1][0] else "accepted",
                     further=(*([refusal] if value[0][1][0] else []), f"application context {name}"))


def message_of(octets, is_own=False):
    """A message in words; `is_own` if scp sends it."""
    name = MESSAGES.get(octets[0], "unknown message")
    origin, destination = (it.hex().upper() if it else "" for it in model.identifiers(octets))
    if name == "Unidirectional":
        return Message(name)
    try:
        portion, parts = model.message(octets)
        components = [component_of(tag, contents, is_own) for tag, contents in parts]
        if portion is not None:
            components.insert(0, portion_of(portion))
        if cause := member(model.whole(octets)[1], 0x4A):
            components.append(Component("P-Abort", about=f"cause {named(cause[0], ABORT_CAUSES)}"))
    except (model.Fault, KeyError):
        return Message(name, origin, destination, (Component("octets that can't be read"),))
    return Message(name, origin, destination, tuple(components))
