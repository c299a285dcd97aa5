"""Rows that `smq window` makes, for gate/check-window, and traffic for gate/check-live: some that are written out, and of many scripts that what is made says the same as
what is kept.

What PDUs are kept is found here by plain searches: of each session all PDUs that are left in one, whose pairs are those of
gate/oracle/counts_again.py. Places differ from those of the rows that are made; so lists are compared by the PDUs that stand there.
"""
import sys

sys.dont_write_bytecode = True

import collections
import random
import struct

from lib.report_names import DIRECTIONS, LISTS
from oracle.made_captures import ACK, CENTRE_FIRST, SYN, centre, client, pcap
from oracle.random_scripts import CHECK, plain, rows_of
from oracle.counts_again import RESPONSE, WITHOUT_RESPONSE, Present, Tables, pdus_of
from built_program import ran

SUBMIT_SM, DELIVER_SM, ENQUIRE_LINK, ALERT_NOTIFICATION, OUTBIND, GENERIC_NACK = 4, 5, 0x15, 0x102, 0x0B, 0x80000000
# Windows, and how long a fifteenth of each is, in ms
LENGTHS = {"1s": 67, "2s": 134, "15s": 1_000, "90s": 6_000, "15m": 60_000, "15h": 3_600_000}
STEPS = 15
DAY = 86_400_000


def pdu(command, number, body=b"", status=0):
    return struct.pack(">4I", 16 + len(body), command, status, number) + body


def submit(number, digits=b"447700900123"):
    """Returns a submit_sm that asks for a receipt."""
    return pdu(SUBMIT_SM, number, b"\0\0\0001000\0\1\1" + digits + b"\0\0\0\0\0\0\1\0\0\0\0")


def response(number, identity=b"1", status=0):
    return pdu(SUBMIT_SM + RESPONSE, number, b"" if status else identity + b"\0", status)


def receipt(number, identity, state=b"DELIVRD"):
    text = b"id:%s submit date:2611240649 done date:2611240650 stat:%s err:000 text:" % (identity, state)
    return pdu(DELIVER_SM, number, b"\0\0\0\0\0\0\0\4\0\0\0\0\0\0\0\0" + bytes([len(text)]) + text)


def piece(moment, octets, sender="client", session=5, link=7):
    return f"piece,{link},{session},{sender},{moment},{octets.hex()}"


def made(moment, octets, sender="client", at=0, session=5, link=7):
    """Returns the row of the session that is made of one for a period."""
    return piece(moment, octets, sender, session * 1_000_000_000 + at, link)


ONE, TWO, ANSWER = submit(1), submit(2), response(1)
GREATEST = pdu(ENQUIRE_LINK, 1, bytes(131_072 - 16))
LINK_TEST, TESTED = pdu(ENQUIRE_LINK, 1), pdu(ENQUIRE_LINK + RESPONSE, 1)
AHEAD = "row {}: {} is more than a day ahead of all before, and isn't believed yet"
# a name, rows, the rows of a window of 15 periods of 10 s, what is told, the status
CASES = (
    ("a response goes to the session of its request",
     [piece(9_999, ONE), piece(10_001, ANSWER, "centre"), piece(10_002, TWO)],
     [made(9_999, ONE), made(10_001, ANSWER, "centre"), made(10_002, TWO, at=1)], [], 0),
    ("a request goes to the session of the response before it",
     [piece(9_999, ANSWER, "centre"), piece(10_000, ONE), piece(10_001, ONE)],
     [made(9_999, ANSWER, "centre"), made(10_000, ONE), made(10_001, ONE, at=1)], [], 0),
    ("a number that is used twice: by rank",
     [piece(1_000, ONE), piece(11_000, ONE), piece(12_000, ANSWER, "centre"), piece(13_000, response(1, b"2"), "centre")],
     [made(1_000, ONE), made(11_000, ONE, at=1), made(12_000, ANSWER, "centre"), made(13_000, response(1, b"2"), "centre", 1)], [], 0),
    ("requests of both directions with one number",
     [piece(1_000, LINK_TEST), piece(11_000, LINK_TEST, "centre"), piece(12_000, TESTED), piece(12_000, TESTED, "centre")],
     [made(1_000, LINK_TEST), made(11_000, LINK_TEST, "centre", 1), made(12_000, TESTED, at=1), made(12_000, TESTED, "centre")], [], 0),
    ("alert_notification and outbind get no response",
     [piece(1_000, pdu(ALERT_NOTIFICATION, 1) + pdu(OUTBIND, 1), "centre"), piece(11_000, pdu(GENERIC_NACK, 1))],
     [made(1_000, pdu(ALERT_NOTIFICATION, 1), "centre"), made(1_000, pdu(OUTBIND, 1), "centre"),
      made(11_000, pdu(GENERIC_NACK, 1), at=1)], [], 0),
    ("generic_nack is a response",
     [piece(1_000, ONE), piece(11_000, pdu(GENERIC_NACK, 1, status=3), "centre")],
     [made(1_000, ONE), made(11_000, pdu(GENERIC_NACK, 1, status=3), "centre")], [], 0),
    ("a PDU is of the moment of its last octet",
     [piece(9_000, ONE + TWO[:3]), piece(9_500, TWO[3:20]), piece(10_000, TWO[20:])],
     [made(9_000, ONE), made(10_000, TWO, at=1)], [], 0),
    ("octets that are no whole PDU at the end aren't written",
     [piece(9_000, ONE + TWO[:3]), piece(10_000, TWO[3:20]), piece(10_001, ANSWER[:1], "centre")], [made(9_000, ONE)], [], 0),
    ("a length that can't be",
     [piece(1_000, ONE + bytes(3)), piece(2_000, b"\x0fabc"), piece(3_000, TWO), piece(159_999, TWO), piece(160_000, b"x"),
      piece(161_000, TWO)],
     [made(1_000, ONE), made(2_000, b"\0\0\0\x0f"), "withdraw,5000000000", made(160_000, b"\0\0\0\x0f", at=16)], [], 0),
    ("the greatest length", [piece(1_000, GREATEST + ONE[:2])], [made(1_000, GREATEST)], [], 0),
    ("a length past the last", [piece(1_000, struct.pack(">I", 131_073)), piece(2_000, ANSWER, "centre")],
     [made(1_000, struct.pack(">I", 131_073)), made(2_000, ANSWER, "centre")], [], 0),
    ("sessions are withdrawn before the row that brings the period",
     [piece(1_000, ONE), piece(10_000, TWO), "clock,159999", "ask,link", "clock,160000", "ask,count,link,day", piece(170_000, LINK_TEST)],
     [made(1_000, ONE), made(10_000, TWO, at=1), "clock,159999", "ask,link", "withdraw,5000000000", "clock,160000",
      "ask,count,link,day", "withdraw,5000000001", made(170_000, LINK_TEST, at=17)], [], 0),
    ("a response whose request was withdrawn is a stray",
     [piece(1_000, ONE), piece(170_000, ANSWER, "centre"), piece(171_000, TWO), piece(320_000, response(2), "centre")],
     [made(1_000, ONE), "withdraw,5000000000", made(170_000, ANSWER, "centre", 17), made(171_000, TWO, at=17),
      made(320_000, response(2), "centre", 17)], [], 0),
    ("a number that is used again after its request was withdrawn",
     [piece(1_000, ONE), piece(11_000, TWO), piece(165_000, ONE), piece(170_000, ANSWER, "centre")],
     [made(1_000, ONE), made(11_000, TWO, at=1), "withdraw,5000000000", made(165_000, ONE, at=16), "withdraw,5000000001",
      made(170_000, ANSWER, "centre", 16)], [], 0),
    ("a stray is forgotten with its session",
     [piece(1_000, ANSWER, "centre"), piece(11_000, TWO), piece(165_000, ONE)],
     [made(1_000, ANSWER, "centre"), made(11_000, TWO, at=1), "withdraw,5000000000", made(165_000, ONE, at=16)], [], 0),
    ("a moment before the present period",
     [piece(35_000, ONE), piece(1_000, TWO, session=6), "clock,49999"],
     [made(35_000, ONE, at=3), made(1_000, TWO, at=3, session=6), "clock,49999"], [], 0),
    ("a withdrawal takes out what was made of the session",
     [piece(1_000, ONE), piece(10_000, TWO + ONE[:9]), piece(10_001, ONE, session=6), "withdraw,5", piece(10_002, TWO, link=8)],
     [made(1_000, ONE), made(10_000, TWO, at=1), made(10_001, ONE, at=1, session=6), "withdraw,5000000000", "withdraw,5000000001",
      made(10_002, TWO, at=1, link=8)], [], 0),
    ("rows that are refused",
     [piece(1_000, ONE), piece(2_000, b""), piece(2_000, TWO, link=8), piece(999, TWO), "withdraw,6", piece(1_000, TWO)],
     [made(1_000, ONE), made(1_000, TWO)],
     ["row 2: 1 EmptyPiece", "row 3: 4 OtherLink 7", "row 4: 3 Backward 1000", "row 5: 6 NoSession"], 1),
    ("rows of other kinds",
     ["form,1,hexadecimal,decimal\r", '"window",1,"86400000"', "", "route,44,0,7,23410", "correct,44,0,8,23415", "lost,5,centre,1460",
      "end,44,0,1970-01-02T00:00:00Z", 'piece,7,5,"client",1970-01-01T00:00:11Z,' + ONE.hex().upper(), "clock,1970-01-02T00:00:01Z"],
     ["form,1,hexadecimal,decimal", "window,1,86400000", "route,44,0,7,23410", "correct,44,0,8,23415", "lost,5,centre,1460",
      "end,44,0,1970-01-02T00:00:00Z", made(11_000, ONE, at=1), "withdraw,5000000001", "clock,1970-01-02T00:00:01Z"], [], 0),
    ("the last session, and one after it", [piece(1_000, ONE, session=18_446_744_072), piece(1_000, ONE, session=18_446_744_073)],
     [made(1_000, ONE, session=18_446_744_072)],
     ["row 2: session 18446744073 is past 18446744072, the last of which a window makes others"], 1),
    ("a moment a day ahead, which no other confirms",
     [piece(1_000, ONE), piece(DAY + 1_001, TWO), piece(2_000, ONE, session=6), "clock,5000"],
     [made(1_000, ONE), made(1_000, TWO), made(2_000, ONE, session=6), "clock,5000"], [AHEAD.format(2, DAY + 1_001)], 0),
    ("a moment no more than a day ahead", [piece(1_000, ONE), piece(DAY + 1_000, TWO)],
     [made(1_000, ONE), "withdraw,5000000000", made(DAY + 1_000, TWO, at=(DAY + 1_000) // 10_000)], [], 0),
    ("a clock a day ahead, and a second that confirms it", ["clock,1000", f"clock,{2 * DAY}", f"clock,{2 * DAY - 5}"],
     ["clock,1000", f"clock,{2 * DAY - 5}"], [AHEAD.format(2, 2 * DAY)], 0),
    ("a moment that can't be read", [piece(1_000, ONE), piece(2_000, TWO), "piece,7,5,client,x,00", piece(3_000, ONE)],
     [made(1_000, ONE), made(2_000, TWO)], ["row 3: bad row"], 2),
    ("a piece of four fields", ["piece,7,5,client"], [], ["row 1: bad row"], 2),
    ("a question that is none", ["ask,links"], [], ["row 1: bad row"], 2),
    ("no rows", [], [], [], 0),
)
BAD_LENGTH = "error: a window is as long as 90s, 15m or 6h: from 1s to 999999h"
WORDS = ("15", "m", "0m", "1.5h", "15 m", "1000000h", "15d", "", "18446744073709551616s")


def run(rows, length):
    """Returns the rows, the lines told and the status of a window of a length."""
    status, shown, told = ran(["window", length], "".join(f"{it}\n" for it in rows).encode())
    return shown.decode().splitlines(), told.decode().splitlines(), status


def random_rows(draw):
    """Returns the rows of a random script, whose sessions have numbers from 1 on in their order."""
    rows = rows_of(draw)
    at = {"piece": 2, "withdraw": 1}
    sessions = sorted({it[at[it[0]]] for it in rows if it[0] in at})
    return [tuple(1 + sessions.index(value) if place == at.get(it[0]) else value for place, value in enumerate(it)) for it in rows]


def dealt(rows, length):
    """Returns the rows of a window, and its refusals."""
    lines, told, _ = run([plain([it]).decode().rstrip("\n") for it in rows], length)
    return [tuple(CHECK.row_of(it.split(","))[0]) for it in lines], told


def played(rows):
    """Returns what rows leave, and the texts of those that are refused."""
    present = Present()
    return present, [text for row in rows if (text := present.play(row))]


def said(present):
    """Returns the counts of the report of what is present, and by list the PDUs that stand there."""
    tables, pdus = Tables(present.sessions, present.forms, present.windows, present.versions, present.clock), {}
    for session, (link, both) in present.sessions.items():
        for direction, name in enumerate(DIRECTIONS):
            found, broken = pdus_of(session, direction, both[name])
            pdus.update({it.at: (link, name, it.moment, it.octets) for it in found})
            pdus[session, direction, broken] = link, name, "broken"
    return +tables.counts, {name: collections.Counter(pdus[it] for it in tables.lists[name]) for name in LISTS}


class Item:
    """A PDU, or the length that breaks a direction (is_break). partner: the other one of its pair, or None; period: of the first of
    both."""

    def __init__(self, session, sender, moment, octets, period, is_break=False):
        self.session, self.sender, self.moment, self.octets, self.period = session, sender, moment, octets, period
        self.is_break, self.partner = is_break, None
        self.command, self.number = (0, 0) if is_break else struct.unpack_from(">I4xI", octets, 4)

    def may_pair(self, other):
        """Whether both can be a request and its response."""
        request, reply = (other, self) if self.command >= RESPONSE else (self, other)
        return (request.session == reply.session and request.sender != reply.sender and request.number == reply.number
                and request.command < RESPONSE <= reply.command and request.command not in WITHOUT_RESPONSE
                and not self.is_break and not other.is_break and other.partner is None)


def kept(rows, length, keep=STEPS):
    """Returns rows that leave what is kept of rows, none of which is refused and none far ahead, at their end: a session's PDUs in
    one."""
    items, rests, links, others, now = [], collections.defaultdict(bytes), {}, [], 0
    for row in rows:
        if row[0] in ("piece", "clock"):
            now = max(now, row[4 if row[0] == "piece" else 1] // length)
            items = [it for it in items if it.period >= now - keep]
        if row[0] != "piece":
            others.append(row)
            continue
        _, links[row[2]], session, sender, moment, octets = row
        rests[session, sender] += octets
        while len(rest := rests[session, sender]) >= 4:
            size = int.from_bytes(rest[:4], "big")
            if not 16 <= size <= 131_072:
                # (the length stays, and nothing behind it is read)
                rests[session, sender] = rest[:4]
                if not any(it.is_break and (it.session, it.sender) == (session, sender) for it in items):
                    items.append(Item(session, sender, moment, rest[:4], now, True))
                break
            if size > len(rest):
                break
            item, rests[session, sender] = Item(session, sender, moment, rest[:size], now), rest[size:]
            other = next((it for it in items if item.may_pair(it)), None)
            if other:
                item.partner, other.partner, item.period = other, item, other.period
            items.append(item)
    return [*others, *(("piece", links[it.session], it.session, it.sender, it.moment, it.octets) for it in items)]


def feed(draw):
    """Returns rows of sessions of two links that go on side by side: numbers are few, some requests get no response, others a late
    one or two, and some PDUs are none."""
    lanes, moment, rows = [(session, 1 + session % 2) for session in range(4)], 1_000_000, []
    pending, last, following = [], collections.defaultdict(int), 1
    for _ in range(draw.randint(40, 160)):
        moment += draw.choice((0, 1, 10, 500, 3_000, 9_000))
        session, link = draw.choice(lanes)
        if pending and draw.random() < 0.5:
            session, link, sender, octets = pending.pop(draw.randrange(len(pending)))
        else:
            sender, number = draw.choice(DIRECTIONS), draw.randint(1, 3)
            kind = draw.choice((SUBMIT_SM, SUBMIT_SM, ENQUIRE_LINK, ALERT_NOTIFICATION)) if sender == "client" else DELIVER_SM
            octets = {SUBMIT_SM: submit(number), DELIVER_SM: receipt(number, b"%d" % draw.randint(max(1, following - 9), following))}.get(
                kind, pdu(kind, number))
            reply = response(number, b"%d" % following) if kind == SUBMIT_SM else pdu(kind + RESPONSE, number)
            following += kind == SUBMIT_SM
            pending += [(session, link, DIRECTIONS[1 - DIRECTIONS.index(sender)], reply)] * draw.choice((0, 1, 1, 1, 1, 2))
            octets = b"\0\0\0\x0f" + octets if draw.random() < 0.01 else octets
        cut = draw.randint(1, len(octets)) if draw.random() < 0.2 else len(octets)
        for part in filter(None, (octets[:cut], octets[cut:])):
            last[session, sender] = max(last[session, sender], moment - draw.choice((0, 0, 0, 4_000)))
            rows.append(("piece", link, session, sender, last[session, sender], part))
        if draw.random() < 0.1:
            rows.append(("clock", moment))
    return rows


def written_out():
    """Yields of each case a name, what is wanted and what is given."""
    for name, rows, *wanted in CASES:
        yield name, tuple(wanted), run(rows, "150s")
    for length, step in {"1s": 67, "6h": 1_440_000, "15m": 60_000}.items():
        yield f"a step of {length}", [made(step - 1, ONE), made(step, TWO, at=1)], run([piece(step - 1, ONE), piece(step, TWO)], length)[0]
    for text in WORDS:
        shown, told, status = run([], text)
        yield f"window {text}", ([], BAD_LENGTH, 2), (shown, told[0] if told else None, status)


def lately(seed):
    """Yields of a feed or a random script what is wanted and what is given."""
    draw = random.Random(seed)
    rows = feed(draw) if seed % 2 else random_rows(draw)
    present, before, taken = Present(), None, []
    for row in rows:
        moment = row[4] if row[0] == "piece" else row[1] if row[0] == "clock" else None
        # (moments that aren't believed at once are cases of their own)
        if row[0] != "withdraw" and not (moment is not None and before is not None and moment > before + DAY) and present.play(row) is None:
            taken.append(row)
            before = before if moment is None else max(moment, before or 0)
    length = draw.choice([*LENGTHS][:4] if seed % 2 else [*LENGTHS])
    those, told = dealt(taken, length)
    (wanted, _), (left, refused) = played(kept(taken, LENGTHS[length])), played(those)
    yield f"script {seed}, the last {length}", (said(wanted), [], []), (said(left), told, refused)


def traffic():
    """Returns a capture of three links: 120 messages in 36 s with responses and receipts, some late, some without, in six
    connections, of which one goes on when the others have ended."""
    frames, draw, moment = [], random.Random(1), 1_795_329_370_000
    ends = [(("192.0.2.1", 41_000 + at), ("192.0.2.9", 2775 + at % 3)) for at in range(6)]
    sent, waiting = {(at, is_client): 0 for at in range(6) for is_client in (True, False)}, []
    for pair in ends:
        frames += [(moment, client(-1, b"", SYN, -CENTRE_FIRST, ends=pair)), (moment, centre(-1, b"", SYN | ACK, ends=pair[::-1]))]

    def send(at, is_client, octets):
        there, back = sent[at, is_client], sent[at, not is_client]
        pair = ends[at] if is_client else ends[at][::-1]
        frames.append((moment, (client if is_client else centre)(there, octets, acknowledged=back, ends=pair)))
        sent[at, is_client] += len(octets)

    for number in range(120):
        moment += 300
        at = number % 6 if number < 100 else 0
        send(at, True, submit(number % 50 + 1, b"4477009%05d" % (number % 7)))
        kind, identity = number % 10, b"%d" % number
        if kind != 3:
            waiting.append((moment + draw.choice((5, 40, 900)), at, response(number % 50 + 1, identity, 88 if kind == 4 else 0)))
        if kind not in (3, 4, 5):
            told = b"%d" % (number + 1000) if kind == 6 else identity
            state = b"UNDELIV" if kind == 7 else b"DELIVRD"
            waiting.append((moment + draw.choice((1_000, 6_000)), (at + 3) % 6, receipt(1000 + number, told, state)))
        for due in sorted((it for it in waiting if it[0] <= moment), key=lambda it: it[0]):
            waiting.remove(due)
            send(due[1], False, due[2])
    return pcap(frames)
