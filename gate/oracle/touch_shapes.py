"""Scripts that mean to take an edit past the bound of its touches: each is rows of a size, and rows that are drawn from a few words."""
from lib.report_names import FORMS, WINDOW
from oracle.changed_pdus import DATA_SM, DELIVER_SM, RESPONSE, SUBMIT_SM, framed
from oracle.random_scripts import LAST_MOMENT

ENQUIRE_LINK, NUMBER = 0x15, b"447700900123"


def pdu(command, number, body=b"", status=0):
    return framed(b"".join(it.to_bytes(4, "big") for it in (command, status, number)) + body)


def submit(number, to=NUMBER, registered=1):
    return pdu(SUBMIT_SM, number, bytes(3) + b"1000\0\1\1" + to + bytes(6) + bytes([registered]) + bytes(4))


def response(number, identity, status=0, command=SUBMIT_SM):
    return pdu(command | RESPONSE, number, identity + b"\0", status)


def receipt(number, identity, state=b"DELIVRD"):
    text = b"id:" + identity + b" stat:" + state
    return pdu(DELIVER_SM, number, bytes(7) + b"\4" + bytes(8) + bytes([len(text)]) + text)


def client(link, session, moment, *pdus):
    return "piece", link, session, "client", moment, b"".join(pdus)


def centre(link, session, moment, *pdus):
    return "piece", link, session, "centre", moment, b"".join(pdus)


def accepted(link, session, moment, ids, to=lambda it: NUMBER):
    """Two rows: messages of a new session, and their responses."""
    yield client(link, session, moment, *(submit(at, to(at)) for at in range(1, len(ids) + 1)))
    yield centre(link, session, moment, *(response(at, identity) for at, identity in enumerate(ids, 1)))


def names(size):
    return [b"%d" % it for it in range(size)]


def clocks_over_links(size):
    """Links with a message each whose receipt is due; clocks that lapse none, then half of them, then one at a time."""
    for link in range(size):
        yield from accepted(link, link, 1_000 + link, [b"1"])
    yield from (("clock", 1_001 + it) for it in range(size))
    yield from (("clock", 1_000 + WINDOW + it) for it in range(size // 2, size))
    yield "clock", LAST_MOMENT


def clocks_over_windows(size):
    """Messages whose windows end at one moment, or at moments of their own; windows that lapse and open all of them."""
    for link in range(size):
        yield from accepted(link, link, 1_000 + link, names(3))
        yield "window", link, 100_000 - link
    yield "clock", 100_999
    yield "clock", 101_000
    for window in (1, WINDOW, LAST_MOMENT, 99_999):
        yield from (("window", link, window) for link in range(size))
    yield from (("clock", 101_000 + it) for it in range(size))


def windows_of_one_link(size):
    """A link with many due messages, one without any, one that is absent."""
    yield from accepted(1, 10, 1_000, names(size))
    yield client(2, 20, 1_000, *map(submit, range(size)))
    yield "clock", 50_000
    yield from (("window", link, window) for window in (1, 2, WINDOW, 49_000, 49_001) for link in (1, 2, 3) for _ in range(2))
    yield from (centre(1, 10, 60_000, receipt(it, b"%d" % it)) for it in range(size // 2))
    yield from (("window", link, window) for window in (1, WINDOW) for link in (1, 2, 3))


def members_that_come(size):
    """Messages of one id are accepted one by one, have receipts one by one, and go with their session."""
    yield client(1, 10, 1_000, *map(submit, range(size)))
    yield from (centre(1, 10, 1_000, response(it, b"7")) for it in range(size))
    yield from (centre(1, 10, 2_000, receipt(it, b"7")) for it in range(size // 4))
    yield from (("form", 1, *it) for it in (("decimal", "verbatim"), ("decimal", "decimal"), ("verbatim", "verbatim")))
    yield "withdraw", 10


def members_that_go(size):
    """Sessions with a message of one id each go one by one, and are used anew."""
    for _ in range(2):
        for session in range(size):
            yield from accepted(1, session, 1_000, [b"7"])
        yield from (("withdraw", session) for session in range(0, size, 2))
        yield from (("withdraw", session) for session in range(size - 1, -1, -2))


def rival_that_comes_and_goes(size):
    """A message with many receipts: another of its key makes all of them ambiguous, and goes again."""
    yield from accepted(1, 10, 1_000, [b"7"])
    yield centre(1, 10, 1_000, *(receipt(it, b"7") for it in range(size)))
    for _ in range(8):
        yield from accepted(1, 11, 1_000, [b"7"])
        yield "withdraw", 11
    for form in ("decimal", "hexadecimal", "verbatim"):
        yield "form", 1, form, "verbatim"
    yield "withdraw", 10
    yield from accepted(1, 10, 1_000, [b"7"])


def earlier_receipts(size):
    """Each receipt decides before the ones that came, and they go in the order in which they decide."""
    yield from accepted(1, 10, 1_000, [b"7"])
    yield from (centre(1, session, 5_000 - session, receipt(1, b"7")) for session in range(100, 100 + size))
    yield from (("withdraw", session) for session in range(99 + size, 99, -1))


def forms_that_rename(size):
    """Ids that forms make one or tell apart, with receipts of each, beside sessions of no message."""
    yield from accepted(1, 10, 1_000, [b"%d" % (it // 2) if it % 2 else b"%03d" % (it // 2) for it in range(size)])
    yield centre(1, 10, 2_000, *(receipt(it, b"0%d" % it) for it in range(size)))
    yield from (client(1, 100 + it, 1_000, pdu(ENQUIRE_LINK, 1)) for it in range(size // 2))
    for form in ("decimal", "hexadecimal", "verbatim", "verbatim", "decimal"):
        yield "form", 1, form, form
        yield "form", 1, form, "verbatim"


def forms_without_messages(size):
    """Many sessions of links without accepted messages, and links that are absent."""
    for session in range(size):
        yield client(1, session, 1_000, *(pdu(ENQUIRE_LINK, it) for it in range(5)))
        yield client(2, size + session, 1_000, submit(1))
    yield from (("form", link, form, "verbatim") for link in (1, 2, 3) for form in ("decimal", "decimal", "verbatim"))


def vacated_numbers(size):
    """Messages under a prefix go; then versions of it come, end and are corrected, and the numbers come again."""
    for _ in range(2):
        yield from accepted(1, 10, 1_000, names(size), lambda it: b"4477%08d" % it)
        yield from accepted(1, 11, 1_000, names(9), lambda it: b"4477009%05d" % it)
        for prefix in ("4477", "44", "4477009", "1"):
            yield "route", prefix, 0, 7, "23410"
            yield "correct", prefix, 0, 8, "23410"
            yield "end", prefix, 0, 1_001
        yield "withdraw", 10
        for prefix in ("4477", "44", "4477009", "1"):
            yield "route", prefix, 1_001, 7, "23410"
            yield "correct", prefix, 0, 9, "310026"
            yield "end", prefix, 1_001, 2_000
        yield "withdraw", 11
        for prefix in ("4477", "44", "4477009", "1"):
            yield "correct", prefix, 0, 10, "23410"
            yield "route", prefix, 2_000, 7, "23410"
            yield "end", prefix, 2_000, LAST_MOMENT
            yield "end", prefix, 2_000, LAST_MOMENT


def one_sequence_number(size):
    """Requests of one sequence number and their responses, more of these than of those; they go, and come again."""
    for _ in range(2):
        yield from (centre(1, 10, 1_000, response(1, b"%d" % it)) for it in range(size // 2))
        yield from (client(1, 10, 1_000, submit(1)) for _ in range(size))
        yield from (centre(1, 10, 2_000, response(1, b"%d" % (size - it))) for it in range(size))
        yield "withdraw", 10


def whole_batches(size):
    """Pieces that complete many PDUs: refused messages, other responses, strays, and what can't be read."""
    for session in range(3):
        numbers = range(size)
        yield client(1, session, 1_000, *map(submit, numbers), *(pdu(SUBMIT_SM, it) for it in numbers), *map(submit, numbers))
        yield centre(1, session, 1_000, *(response(it, b"", 8) for it in numbers), *(pdu(RESPONSE | ENQUIRE_LINK, it) for it in numbers))
        yield centre(1, session, 1_000, *(response(it + size, b"1") for it in numbers), *(receipt(it, b"") for it in numbers))
        yield centre(1, session, 2_000, *(receipt(it, b"%d" % it) for it in numbers), *(pdu(DELIVER_SM, it, b"\1") for it in numbers))
        yield centre(1, session, 2_000, bytes(4))
        yield client(1, session, 2_000, *(response(it, b"", 0, DELIVER_SM) for it in range(size * 2)))
    yield "withdraw", 0
    yield "form", 1, "decimal", "decimal"
    yield "withdraw", 2
    yield "withdraw", 1


def sessions_used_anew(size):
    """A session is withdrawn and comes again, each time with more."""
    for again in range(1, 20):
        yield from accepted(1, 10, 1_000, names(size * again // 20))
        yield centre(1, 10, 1_000, *(receipt(it, b"%d" % it, b"EXPIRED") for it in range(again)))
        yield "withdraw", 10


SHAPES = (clocks_over_links, clocks_over_windows, windows_of_one_link, members_that_come, members_that_go, rival_that_comes_and_goes,
          earlier_receipts, forms_that_rename, forms_without_messages, vacated_numbers, one_sequence_number, whole_batches, sessions_used_anew)
OF_ONE_KEY = members_that_come, members_that_go, rival_that_comes_and_goes, earlier_receipts


def drawn(draw, size):
    """Rows of few sessions, ids, sequence numbers and prefixes, which so meet each other often."""
    moment = 1_000
    for _ in range(size):
        moment += draw.choice((0, 0, 1, 1_000))
        session, number, identity = draw.randrange(4), draw.randrange(1, 4), draw.choice((b"1", b"01", b"2", b"a", b"10"))
        to, status = draw.choice((NUMBER, b"4477", b"12", b"x")), draw.choice((0, 0, 0, 8))
        link, prefix, begin = session // 2, draw.choice(("4", "4477", "447700900123", "12")), draw.choice((0, 1_500))
        pdus = draw.choice((
            (submit(number, to, draw.choice((0, 1, 1))),), (submit(number, to),) * draw.randrange(1, 6), (pdu(ENQUIRE_LINK, number),)))
        answers = draw.choice((
            (response(number, identity, status),), (response(number, identity),) * 3, (receipt(number, identity),) * 2,
            (receipt(number, identity, draw.choice((b"DELIVRD", b"ENROUTE", b"EXPIRED"))),), (response(number, identity, 0, DATA_SM),)))
        yield draw.choice((
            client(link, session, moment, *pdus), client(link, session, moment, *pdus), centre(link, session, moment, *answers),
            centre(link, session, moment, *answers), centre(link, session, moment, *answers), draw.choice((
                ("withdraw", session), ("form", link, draw.choice(FORMS), draw.choice(FORMS)), ("window", link, draw.choice((1, 1_000, WINDOW))),
                ("route", prefix, begin, 7, "23410"), ("end", prefix, begin, draw.choice((1_500, moment))),
                ("correct", prefix, begin, draw.randrange(3), "310026"), ("clock", moment + draw.choice((0, 999, 1_000, WINDOW)))))))
