"""Calls of all kinds, as a switch makes them, with what has to come back: those of tools/traffic and tools/counters. They are
the same each time."""
import random

import tcap
from tcap import ANALYSED, CATEGORY, error, invoke, number, reject, request, result, tlv

CHANCE = random.Random(14700)
KEY, OFFERED, OTHER = 100, "2A0304", "2A0305"
RECORDS = """key,100,60
800123456,,1234567,00:00,24:00,1,route,302223344
800123457,,1234567,00:00,24:00,1,route,302223344,302223355,302223366,302223377
800123458,,1234567,00:00,24:00,1,refuse
800123459,,1234567,00:00,24:00,1,pass
800123460,99,1234567,00:00,24:00,1,route,302223344
"""


def initial_dp(called, key=KEY):
    """The argument of InitialDP, its members in any order, with some that the program passes over."""
    members = [CATEGORY, ANALYSED, tlv("83", number(CHANCE.choice(["301234567", "2101234567"]), 0x13))]
    members += [tlv("8A", number("301234567"))] if CHANCE.random() < 0.3 else []
    members += [tlv("82", number(called))] if called else []
    members += [tlv("80", key.to_bytes(2, "big"))] if key is not None else []
    CHANCE.shuffle(members)
    return tlv("30", *members)


def report(event, mode=0):
    return tcap.report(CHANCE.randrange(1, 128), event, mode)


class Call:
    """One dialogue as its switch sees it: the identifier of each side, and the messages with them."""

    def __init__(self):
        self.own = CHANCE.randbytes(CHANCE.randrange(1, 5))
        self.peer = b"\x1f\xff\xff\xff"
        self.context = CHANCE.random() < 0.4

    def begin(self, *components, context=None):
        dialogue = request(context or OFFERED) if self.context or context else b""
        return tcap.begin(self.own, *components, dialogue=dialogue)

    def go_on(self, *components):
        return tcap.continued(self.own, self.peer, *components)

    def end(self, *components):
        return tcap.ended(self.peer, *components)

    def abort(self):
        return tcap.user_aborted(self.peer)

    def accepted(self):
        return ["dialogueResponse", "result: accepted (0)"] if self.context else []


# The kinds of calls. Each yields a message, and what tshark has to say about its answer: the message and its operations
# as in tshark's line, and words of `tshark -V`; or None for a message that gets no answer.

def one_answer(called, key, info, *words):
    def kind(call):
        message = call.begin(invoke(CHANCE.randrange(1, 128), 0, initial_dp(called, key)))
        yield message, (info, *words, *call.accepted())
    return kind


def refused_context(context, version, diagnostic):
    def kind(call):
        argument = invoke(1, 0, initial_dp("800123456"))
        message = tcap.begin(call.own, argument, dialogue=request(context, version))
        yield message, ("Abort", "dialogueResponse", "result: reject-permanent (1)", diagnostic)
    return kind


def rejected(component, *words):
    """A component that is rejected leaves its dialogue open; the switch ends it."""
    def kind(call):
        yield call.begin(component()), ("Continue", "reject", *words, *call.accepted())
        yield CHANCE.choice([call.end(), call.abort()]), None
        yield call.go_on(report(7)), ("Abort", "p-abortCause: unrecognizedTransactionID (1)")
    return kind


def cut(call):
    whole = call.begin(invoke(1, 0, initial_dp("800123456")))
    start = len(tcap.begin(call.own))
    yield whole[:CHANCE.randrange(start, len(whole))], ("Abort", "badlyFormattedTransactionPortion (2)")


def unknown_message(call):
    yield tlv("66", tlv("48", call.own)), ("Abort", "unrecognizedMessageType (0)")


def too_many_components(call):
    yield call.begin(*[report(7)] * 17), ("Abort", "p-abortCause: resourceLimitation (4)")


def unanswered(call):
    yield call.end(), None
    yield call.abort(), None
    yield tlv("61", "6C00"), None
    yield call.go_on(error(1)), ("Abort", "p-abortCause: unrecognizedTransactionID (1)")


DESTINATIONS = ["302223344", "302223355", "302223366", "302223377"]
NEXT, ABORT = object(), object()


def connects(tried):
    return ("Continue requestReportBCSMEvent connect", "eventTypeBCSM: oAbandon (10)",
            "Called Party Number: " + DESTINATIONS[tried])


def several(*steps):
    """A call to the number with four destinations, and what its switch reports. A step: the message that comes, by the
    call and the identifier of its last Connect; and what is answered, NEXT for the next destination."""
    def kind(call):
        tried = 0
        yield call.begin(invoke(1, 0, initial_dp("800123457"))), connects(tried) + tuple(call.accepted())
        for message, answer in steps:
            octets = message(call, 2 * tried + 2)
            if answer is NEXT:
                tried += 1
                answer = connects(tried)
            elif answer is ABORT:
                answer = ("Abort", *(["dialogueAbort", "dialogue-service-user (0)"] if call.context else []))
            yield octets, answer
    return kind


def reports(event, mode=0):
    return lambda call, _: call.go_on(report(event, mode))


def about(component):
    """A message with a component about an invocation: the last Connect, or one that was started after it."""
    return lambda call, connect: call.go_on(component(connect))


BUSY, NO_ANSWER = (reports(5), NEXT), (reports(6), NEXT)
NO_DIALOGUE = (reports(5), ("Abort", "p-abortCause: unrecognizedTransactionID (1)"))
GO_ON = (reports(9), ("Continue continue", "local: 31"))
END = (lambda call, _: call.end(), None)

KINDS = {
    "one destination": one_answer("800123456", KEY, "End connect", "Called Party Number: 302223344"),
    "refused": one_answer("800123458", KEY, "End releaseCall", "Call rejected (21)"),
    "passed on": one_answer("800123459", KEY, "End continue", "local: 31"),
    "no rule fits": one_answer("800123460", KEY, "End releaseCall", "No route to destination (3)"),
    "no record": one_answer("800123455", KEY, "End missingCustomerRecord", "returnError", "local: 6"),
    "no called number": one_answer(None, KEY, "End missingParameter", "returnError", "local: 7"),
    "no service key": one_answer("800123456", None, "End missingParameter", "returnError", "local: 7"),
    "another service key": one_answer("800123456", 101, "End unexpectedDataValue", "returnError", "local: 15"),
    "another context": refused_context(OTHER, "80020780", "application-context-name-not-supported (2)"),
    "another version": refused_context(OFFERED, "80020640", "no-common-dialogue-portion (2)"),
    "cut": cut,
    "unknown message": unknown_message,
    "too many components": too_many_components,
    "no dialogue": unanswered,
    "unknown operation": rejected(lambda: invoke(1, 99), "invoke: unrecognizedOperation (1)"),
    "mistyped argument": rejected(lambda: invoke(1, 0, tlv("04")), "invoke: mistypedArgument (2)"),
    "linked": rejected(lambda: invoke(1, 0, initial_dp("800123456"), 5), "invoke: unrecognizedLinkedId (5)"),
    "unknown component": rejected(lambda: tlv("A5"), "general: unrecognizedPDU (0)"),
    "mistyped component": rejected(lambda: tlv("A1", "020101"), "general: mistypedPDU (1)"),
    "answered": several((reports(7, 1), ("End",))),
    "abandoned": several((reports(10, 1), ("End",))),
    "busy": several(BUSY, BUSY, BUSY, (reports(5), ("End releaseCall", "User busy (17)"))),
    "no answer": several(BUSY, NO_ANSWER, NO_ANSWER,
                         (reports(6), ("End releaseCall", "No answer from user (user alerted) (19)"))),
    "no route": several((about(error), NEXT), (about(lambda connect: reject(connect, "810101")), NEXT), (reports(4, 1), NEXT),
                        (reports(4), ("End releaseCall", "No route to destination (3)"))),
    "disconnected": several(GO_ON, (reports(9, 1), None), (reports(7), ("End",))),
    "no place": several(BUSY, BUSY, BUSY, (reports(9), ABORT)),
    "second InitialDP": several(
        (about(lambda _: invoke(9, 0, initial_dp("800123456"))),
         ("Continue unexpectedComponentSequence", "returnError", "local: 14")), END),
    "result of Connect": several(
        (about(result), ("Continue", "reject", "returnResult: resultResponseUnexpected (1)")),
        (about(result), ("Continue", "reject", "returnResult: unrecognizedInvocation (0)")), END),
    "error of nothing": several(
        (about(lambda _: error(99)), ("Continue", "reject", "returnError: unrecognizedInvocation (0)")), END),
    "error of Continue": several(
        GO_ON, (about(lambda connect: error(connect + 1)),
                ("Continue", "reject", "returnError: errorResponseUnexpected (1)")), END),
    "linked to Connect": several(
        (about(lambda connect: invoke(9, 24, b"", connect)),
         ("Continue", "reject", "invoke: linkedResponseUnexpected (6)")), END),
    "aborted": several(BUSY, (lambda call, _: call.abort(), None), NO_DIALOGUE),
    "cut later": several(BUSY, (lambda call, _: call.go_on(report(7))[:-1],
                                ("Abort", "p-abortCause: badlyFormattedTransactionPortion (2)")), NO_DIALOGUE),
}
