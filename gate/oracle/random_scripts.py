"""Random scripts: sessions of PDUs that are changed at random, in random pieces, among rows of each kind; and ways to write them."""
import sys

sys.dont_write_bytecode = True

import datetime
import itertools

from repository import example_paths
from lib.loader import load
from lib.report_names import BANDS, DIRECTIONS, FORMS, WINDOW
from lib.smpp_names import COMMANDS
from oracle.changed_pdus import DATA_SM, DELIVER_SM, changed, conversation, fields_at, framed

CHECK = load("check-script")
LAST_MOMENT = 4_102_444_800_000
EPOCH = datetime.datetime(1970, 1, 1)
SESSIONS = (0, 1, 2, 3, 8, 10, 16, 2**32, 2**53 + 1, 2**64 - 1)
LINKS = (0, 1, 2, 2**32 - 1)
PREFIXES = ("4", "44", "447", "4477", "447700900123", "1", "0", "49", "999999999999999")
# What lies between the moments of a direction, and where it begins; bands of delays and the window end at these
ENDS = tuple(it - before for it in (*(end for end, _ in BANDS if end), WINDOW) for before in (1, 0))
# Windows as short as bands and as steps, and at both ends of their range
WINDOWS = (1, 100, *ENDS, WINDOW + 1, LAST_MOMENT)
STEPS = ((0, 0, 1), (0, 1, 100), (0, 0, 5_000), (0, *ENDS))
BEGINNINGS = (0, 1_000, 1_000, 1_000, 1_795_329_376_000, LAST_MOMENT - 300_000, LAST_MOMENT)


def field(value):
    return value.hex() if isinstance(value, bytes) else str(value)


def plain(rows):
    """Returns a script of rows."""
    return "".join(",".join(map(field, it)) + "\n" for it in rows).encode()


def written(draw, name, value):
    """Returns the text of a field in one of its ways."""
    text = field(value)
    if name in ("MOMENT", "FROM", "UNTIL") and value % 1000 == 0 and draw.random() < 0.3:
        text = f"{EPOCH + datetime.timedelta(milliseconds=value):%Y-%m-%dT%H:%M:%SZ}"
    elif isinstance(value, int) and draw.random() < 0.2:
        text = f"{text:0>{draw.randint(1, 20)}}"
    elif isinstance(value, bytes) and draw.random() < 0.3:
        text = text.upper()
    return f'"{text}"' if draw.random() < 0.1 else text


def varied(draw, rows):
    """Returns a script of the rows, whose fields and lines are written in any of their ways."""
    feed, lines = draw.choice(("\n", "\r\n", "\r")), ["\ufeff" if draw.random() < 0.2 else ""]
    for kind, *values in rows:
        texts = [written(draw, *it) for it in zip(CHECK.RECORDS[kind].split(), values)]
        lines.append(",".join([kind, *texts]) + feed * draw.choice((1, 1, 1, 3)))
    return "".join(lines).encode()


def merged(draw, lanes):
    """Returns the rows of all lanes, in any order that keeps that of each lane."""
    turns = [at for at, lane in enumerate(lanes) for _ in lane]
    draw.shuffle(turns)
    rows = [iter(it) for it in lanes]
    return [next(rows[at]) for at in turns]


def cutter(draw):
    """Returns what cuts octets at random."""
    sizes = draw.choice(((), (1, 2, 3, 7), (4, 12, 16, 40, 200), (16, 49), (49, 1000), (100_000,)))

    def cut(octets):
        if not sizes:
            # (the last octet of each PDU apart)
            stream = CHECK.Stream()
            yield from (part for pdu in stream.add(0, octets) for part in (pdu[:-1], pdu[-1:]))
            yield from [bytes(stream.rest)] if stream.rest else []
            return
        at, sized = 0, (1,) if len(octets) < 300 and draw.random() < 0.2 else sizes
        while at < len(octets):
            size = draw.choice(sized) if len(octets) < 3_000 else draw.randint(1, len(octets))
            yield octets[at : at + size]
            at += size
    return cut


def read_examples():
    """Returns the PDUs of each session of examples/ and tests/cases/, by direction."""
    sessions = []
    for path in example_paths("*/script.csv"):
        streams = {}
        with open(path, "rb") as file:
            rows = [CHECK.row_of(it)[0] for it in CHECK.records_of(file.read())]
        for _, _, session, direction, moment, octets in (it for it in rows if it and it[0] == "piece"):
            stream, pdus = streams.setdefault(session, {it: (CHECK.Stream(), []) for it in DIRECTIONS})[direction]
            pdus.extend(stream.add(moment, octets))
        sessions += [{direction: pdus for direction, (_, pdus) in both.items()} for both in streams.values()]
    return [it for it in sessions if it["client"] or it["centre"]]


EXAMPLES = read_examples()
ALL = {direction: [pdu for it in EXAMPLES for pdu in it[direction]] for direction in DIRECTIONS}
SUBMITS, RECEIPTS = ([it for it in ALL[direction] if it[4:8] == command and fields_at(it)]
                     for direction, command in (("client", b"\0\0\0\4"), ("centre", b"\0\0\0\5")))


def random_pdu(draw):
    command = draw.choice((*COMMANDS, 4, 5, DATA_SM)) | draw.choice((0, 0x80000000))
    return framed(command.to_bytes(4, "big") + bytes(7) + draw.randbytes(1) + bytes(3) + bytes([draw.randrange(4)])
                  + draw.randbytes(draw.choice((0, 1, 5, 40, 300))))


def session_octets(draw):
    """Returns PDUs of a session by direction, and octets that are none."""
    example, count, rate = draw.choice(EXAMPLES), draw.randint(1, 24), draw.choice((0, 0.03, 0.1, 0.4))
    kind = draw.choice(("conversation",) * 8 + ("example",) * 4 + ("mixed",) * 3 + ("random",))
    streams = dict(zip(DIRECTIONS, conversation(draw, SUBMITS, RECEIPTS, count)))
    for direction in DIRECTIONS:
        pdus = streams[direction]
        if kind == "example":
            pdus = example[direction][:count]
        elif kind == "mixed":
            pdus = [draw.choice(ALL[direction if draw.random() < 0.95 else draw.choice(DIRECTIONS)]) for _ in range(count)]
        elif kind == "random":
            pdus = [random_pdu(draw) for _ in range(count)]
        streams[direction] = changed(draw, pdus, ALL[direction], rate) if draw.random() < 0.97 else [draw.randbytes(draw.randint(1, 400))]
    return streams


def other_row(draw, piece):
    """Returns a row that is no piece, or a piece that is likely refused; a piece stands near it."""
    _, link, session, direction, at, octets = piece
    moment = draw.choice((0, 1_000, 5_000, 1_795_329_376_000, LAST_MOMENT, draw.randrange(LAST_MOMENT)))
    version = draw.choice(PREFIXES[:2] if draw.random() < 0.7 else PREFIXES), draw.choice((0, 0, 0, 1_000, LAST_MOMENT))
    service = draw.choice((0, 7, 8, 2**32 - 1)), draw.choice(("23410", "310026", "00000"))
    clock = min(at + draw.choice((0, *ENDS[-2:], ENDS[-1])), LAST_MOMENT) if draw.random() < 0.7 else moment
    return draw.choice((
        ("withdraw", session if draw.random() < 0.5 else draw.choice(SESSIONS)),
        ("form", link, draw.choice(FORMS), draw.choice(FORMS)), ("form", draw.choice(LINKS), draw.choice(FORMS), draw.choice(FORMS)),
        ("window", link, draw.choice(WINDOWS)), ("window", draw.choice(LINKS), draw.choice(WINDOWS)),
        ("route", *version, *service), ("route", *version, *service), ("end", *version, moment), ("end", *version, at),
        ("correct", *version, *service), ("clock", clock), ("piece", link, session, direction, at, b""),
        ("piece", draw.choice(LINKS), session, direction, at, octets), ("piece", link, session, direction, max(0, at - 1), octets)))


def rows_of(draw):
    """Returns the rows of a script."""
    lanes, receipts = [], []
    for session in draw.sample(SESSIONS, draw.choice((1, 2, 3, 6, 10))):
        link, moment = draw.choice(LINKS[1:3] if draw.random() < 0.8 else LINKS), draw.choice(BEGINNINGS)
        for direction, pdus in session_octets(draw).items():
            if direction == "centre" and draw.random() < 0.5:
                # (receipts of the session before)
                known, receipts = receipts, [it for it in pdus if int.from_bytes(it[4:8], "big") in (DELIVER_SM, DATA_SM)]
                for it in known[: len(pdus)]:
                    pdus.insert(draw.randint(0, len(pdus)), it)
            moment += draw.choice((0, 0, *ENDS)) if direction == "centre" else 0
            sizes = draw.choice(STEPS)
            steps = itertools.accumulate(draw.choice(sizes) for _ in itertools.repeat(0))
            lanes.append([("piece", link, session, direction, min(moment + step, LAST_MOMENT), part)
                          for step, part in zip(steps, cutter(draw)(b"".join(pdus)))])
    rows, lone = merged(draw, lanes), ("piece", 1, 10, "client", 1_000, b"\0")
    if rows and draw.random() < 0.5:
        # (some of its messages just lapse)
        rows.append(("clock", min(draw.choice(rows)[4] + draw.choice(ENDS[-2:]), LAST_MOMENT)))
    for _ in range(draw.choice((0, 3, 10, 30))):
        at = draw.randint(0, len(rows))
        rows.insert(at, other_row(draw, next((it for it in rows[at:] if it[0] == "piece"), lone)))
    return rows


def lanes_of_octets(present, cut):
    """Returns for each direction rows that leave the same octets at the same moments, which `cut` cuts."""
    return [[("piece", link, session, direction, moment, part) for moment, run in itertools.groupby(pieces, lambda it: it[0])
             for part in cut(b"".join(octets for _, octets in run))]
            for session, (link, both) in present.sessions.items() for direction, pieces in both.items()]


def lanes_of_routes(present):
    """Returns for each prefix rows that leave its versions."""
    lanes = {}
    for (prefix, begin), (end, route, network) in sorted(present.versions.items(), key=lambda it: it[0]):
        lane = lanes.setdefault(prefix, [])
        lane.append(("route", prefix, begin, route, network))
        lane.extend([] if end is None else [("end", prefix, begin, end)])
    return list(lanes.values())


def lanes_of_settings(present):
    """Returns for each link a row of its forms, and one of its window, and one of the clock."""
    return ([[("form", link, *forms)] for link, forms in present.forms.items()]
            + [[("window", link, window)] for link, window in present.windows.items()] + [[("clock", present.clock)]])


def settings_of(present):
    """Returns the forms, the windows and the clock as settings."""
    tables = []
    for link in {**present.forms, **present.windows}:
        response, receipt = present.forms.get(link, ("verbatim", "verbatim"))
        tables.append(f'[[link]]\nid = {link}\nresponse = "{response}"\nreceipt = "{receipt}"\n')
        tables.extend([f"window = {present.windows[link]}\n"] if link in present.windows else [])
    return "".join([f"clock = {present.clock}\n", *tables]).encode()
