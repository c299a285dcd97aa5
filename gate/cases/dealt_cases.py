"""Periods that are written out, for gate/check-deal: what stays the same when rows are dealt to periods, and what differs by nature."""
import sys

sys.dont_write_bytecode = True

import collections

from cases.window_cases import DELIVER_SM, LINK_TEST, RESPONSE, TESTED, pdu, piece, receipt, response, submit
from lib.report_names import WINDOW

# Of a random feed: how long a window is, in ms, how long a receipt and a response take at most, and how long all of it is
SHORT_WINDOW, LATEST, PROMPT, ALL = 60_000, 50_000, 5_000, 600_000
ONE, TWO, ANSWER = submit(1), submit(2), response(1)
# (registered_delivery is the fifth octet from the end)
UNASKED = ONE[:-5] + b"\0" + ONE[-4:]


def told(moment, number=1, identity=b"1", state=b"DELIVRD", session=5):
    """Returns the rows of a receipt and of its response."""
    return [piece(moment, receipt(number, identity, state), "centre", session),
            piece(moment, pdu(DELIVER_SM + RESPONSE, number, b"\0"), session=session)]


def accepted(moment, number=1, identity=b"1", octets=None):
    """Returns the rows of a message and of its response."""
    return [piece(moment, octets or submit(number)), piece(moment, response(number, identity), "centre")]


def passed(moment):
    """Returns rows of another session by which a moment is known."""
    return [piece(moment, LINK_TEST, session=9), piece(moment, TESTED, "centre", session=9)]


def link(outcome, count=1):
    return f"view,link,7,{outcome},{count}"


DELIVERED, LAPSED = [link("delivered")], [link("lapsed"), "count,lapsed,1"]
# a name, the rows of periods, the outcomes of what is settled in each, what the sum says of links and lists, and what the whole says
# where that differs
CASES = (
    ("a message, its response and its receipt in a period each", [[piece(1_000, ONE)], [piece(2_000, ANSWER, "centre")], told(3_000)],
     [[], [], ["delivered,1"]], DELIVERED, None),
    ("a receipt in another session", [accepted(1_000), told(2_000, session=6)], [[], ["delivered,1"]], DELIVERED, None),
    ("a receipt before the response", [[piece(1_000, ONE), *told(1_500)], [piece(2_000, ANSWER, "centre")]], [[], ["delivered,1"]],
     DELIVERED, None),
    ("a receipt before its message", [told(1_000), accepted(2_000)], [[], ["delivered,1"]], DELIVERED, None),
    ("a receipt whose response comes later", [[*accepted(1_000), told(2_000)[0]], [told(3_000)[1]]], [[], ["delivered,1"]], DELIVERED, None),
    ("a response before its request", [[piece(1_000, ANSWER, "centre")], [piece(2_000, ONE)]], [[], []], [link("open"), "count,open,1"], None),
    ("a number that is used twice: by rank",
     [[piece(1_000, ONE), *accepted(2_000)], [piece(3_000, response(1, b"2"), "centre"), *told(3_000, identity=b"2")]],
     [[], ["delivered,1"]], [link("delivered"), link("open"), "count,open,1"], None),
    ("a receipt that isn't asked for", [accepted(1_000, octets=UNASKED), told(2_000)], [[], ["delivered,1"]], DELIVERED, None),
    ("one that isn't asked for and doesn't come", [accepted(1_000, octets=UNASKED), passed(1_000 + WINDOW)], [[], ["unasked,1"]],
     [link("unasked")], None),
    ("two messages of one id, and their receipts later", [[*accepted(1_000), *accepted(2_000, 2)], [*told(3_000), *told(4_000, 2)], []],
     [[], [], []], [link("ambiguous", 2), "count,ambiguous-receipts,2"], None),
    ("the same, past their windows", [[*accepted(1_000), *accepted(2_000, 2)], [*told(3_000), *told(4_000, 2)], passed(2_000 + WINDOW)],
     [[], [], ["ambiguous,2"]], [link("ambiguous", 2), "count,ambiguous-receipts,2"], None),
    ("a receipt that isn't final, and then one that is", [[*accepted(1_000), *told(1_500, state=b"ENROUTE")], told(2_000, 2)],
     [[], ["delivered,1"]], DELIVERED, None),
    ("no response within a window that is set", [["window,7,1000", piece(1_000, ONE)], ["clock,1999"], ["clock,2000"]],
     [[], [], ["waiting,1"]], [link("waiting"), "count,waiting,1"], None),
    ("a refused message", [[piece(1_000, ONE)], [piece(2_000, response(1, status=88), "centre")]], [[], ["refused,1"]], [link("refused")], None),
    ("a PDU that is cut", [[piece(1_000, ONE[:20])], [piece(2_000, ONE[20:40])], [piece(3_000, ONE[40:] + TWO[:3]), piece(3_000, ANSWER, "centre")],
                           told(4_000, session=6)], [[], [], [], ["delivered,1"]], DELIVERED, None),
    ("a direction that is broken", [[piece(1_000, ONE + b"\0\0\0\x0f")], [piece(2_000, TWO), piece(2_000, ANSWER, "centre")], told(3_000)[:1], []],
     [[], [], [], []], [link("delivered"), "count,waiting,1", "count,broken,1"], None),
    ("a window that is set, and the clock", [["window,7,1000", *accepted(1_000)], ["clock,1999"], ["clock,2000"]], [[], [], ["lapsed,1"]],
     LAPSED, None),
    ("a window that passes by rows, before the clock says so", [accepted(1_000), passed(1_000 + WINDOW), [f"clock,{1_000 + WINDOW}"]],
     [[], ["lapsed,1"], []], LAPSED, None),
    ("forms that are set later", [accepted(1_000, identity=b"0A"), [*told(2_000, identity=b"10"), "form,7,hexadecimal,decimal"]],
     [[], ["delivered,1"]], DELIVERED, None),
    ("a session that is withdrawn, and begun anew", [[piece(1_000, ONE)], ["withdraw,5", piece(500, TWO)]], [[], []],
     [link("waiting"), "count,waiting,1"], None),
    # what differs
    ("an id that is used again after its message was settled", [[*accepted(1_000), *told(2_000)], [*accepted(3_000, 2), *told(4_000, 2)]],
     [["delivered,1"], ["delivered,1"]], [link("delivered", 2)], [link("ambiguous", 2), "count,ambiguous-receipts,2"]),
    ("a second receipt after its message was settled", [[*accepted(1_000), *told(2_000)], told(3_000, 2, state=b"UNDELIV")],
     [["delivered,1"], []], [link("delivered"), "count,stray-receipts,1"], [link("delivered"), "count,extra-receipts,1"]),
    ("a receipt past the window", [accepted(1_000), [f"clock,{1_000 + WINDOW}"], told(2_000 + WINDOW)], [[], ["lapsed,1"], []],
     [link("lapsed"), "count,stray-receipts,1", "count,lapsed,1"], DELIVERED),
    ("a response past the window", [[piece(1_000, ONE)], passed(1_000 + WINDOW), [piece(2_000 + WINDOW, ANSWER, "centre")]],
     [[], ["waiting,1"], []], [link("waiting"), "count,waiting,1", "count,stray-answers,1"], [link("open"), "count,open,1"]),
    ("no clock that says what rows do", [accepted(1_000), passed(1_000 + WINDOW)], [[], ["lapsed,1"]], LAPSED, [link("open"), "count,open,1"]),
    ("a session that is withdrawn after a message was settled", [[*accepted(1_000), *told(2_000), piece(3_000, TWO)], ["withdraw,5"]],
     [["delivered,1"], []], DELIVERED, []),
)


def feed(draw):
    """Returns rows of messages of two links that go on side by side, by moment: each id is used once, nothing comes past its window, and
    the clock is at the end. Some get no response, some are refused, some get no receipt; some receipts match no message; rows are cut."""
    events, numbers = [], collections.Counter()

    def send(moment, session, sender, octets):
        # (a place in the order of what was made keeps a direction's order at one moment)
        events.append((moment, len(events), session, sender, octets))

    def next_number(session, sender):
        numbers[session, sender] += 1
        return numbers[session, sender]

    for at in range(draw.randint(20, 120)):
        session, moment = draw.randrange(4), draw.randrange(ALL)
        number, identity, kind = next_number(session, "client"), b"%d" % at, draw.choice("dddddrwnse")
        if kind == "e":
            send(moment, session, "centre", pdu(0x15, number))
            send(moment + draw.randint(0, PROMPT), session, "client", pdu(0x15 + RESPONSE, number))
            continue
        if kind != "s":
            send(moment, session, "client", submit(number))
            if kind == "w":
                continue
            send(moment + draw.randint(0, PROMPT), session, "centre", response(number, identity, 88 if kind == "r" else 0))
        if kind in "ds":
            moment += draw.randint(0, LATEST)
            session += draw.choice((0, 2)) if session < 2 else draw.choice((0, -2))
            number = 1_000_000 + next_number(session, "centre")
            send(moment, session, "centre", receipt(number, identity, draw.choice((b"DELIVRD", b"UNDELIV"))))
            send(moment + draw.randint(0, PROMPT), session, "client", pdu(DELIVER_SM + RESPONSE, number, b"\0"))
    rows = [f"window,{it},{SHORT_WINDOW}" for it in (0, 1)]
    for moment, _, session, sender, octets in sorted(events):
        cut = draw.randint(1, len(octets)) if draw.random() < 0.2 else len(octets)
        rows += [piece(moment, it, sender, session, session % 2) for it in (octets[:cut], octets[cut:]) if it]
    return [*rows, f"clock,{ALL + WINDOW}"]
