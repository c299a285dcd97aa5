"""Captures that were made to hurt `smq capture`: what it has to write and to tell of each, and what twice as much may cost."""
import random
import struct

from oracle.made_captures import ACK, CENTRE, CENTRE_FIRST, CLIENT, CLIENT_FIRST, FIN, RST, SYN, centre, client, handshake, pcap, pcapng, tcp
from oracle.made_captures import ethernet, ipv4
from oracle.random_captures import pdu

WORDS = ["capture", "--link", "2775=7"]
SUBMIT_SM, ENQUIRE_LINK, RESPONSE, VENDOR = 0x04, 0x15, 0x80000000, 0x00010201
SIZE, ANSWER = 66, 20


def submit(number):
    return pdu(SUBMIT_SM, number, b"%050d" % number)


def response(number):
    return pdu(SUBMIT_SM + RESPONSE, number, b"%03d\0" % (number % 1000))


def messages(count, first=0):
    """Returns frames of submits and their responses, each acknowledged by the next of the other end."""
    frames = []
    for at in range(first, first + count):
        frames += [client(SIZE * at, submit(at), acknowledged=ANSWER * at), centre(ANSWER * at, response(at), acknowledged=SIZE * (at + 1))]
    return frames


def octets_of(told, direction, session=None):
    """Returns the octets that were written of a direction, of all sessions or of one."""
    rows = [it.split(",") for it in told.rows]
    return b"".join(bytes.fromhex(it[5]) for it in rows if it[3] == direction and (session is None or it[2] == str(session)))


def has_all(count, but=(), lines=(), status=0):
    """Returns a look that finds all messages but some written, and these words among the lines that are told."""
    def look(told):
        wanted = [submit(it) for it in range(count) if it not in but]
        written = octets_of(told, "client")
        gone = sum(it not in written for it in wanted)
        if gone:
            return f"{gone} of {len(wanted)} submits aren't written: {told.lines[:5]}"
        gone = sum(response(it) not in octets_of(told, "centre") for it in range(count) if it not in but)
        if gone:
            return f"{gone} responses aren't written: {told.lines[:5]}"
        absent = [it for it in lines if not any(it in line for line in told.lines)]
        return f"not told: {absent}, but {told.lines[:8]}" if absent or told.status != status else None
    return look


def same_sessions(count, but, lines, status=1):
    """The same, and each message's response stands in its session."""
    def look(told):
        fault = has_all(count, but, lines, status)(told)
        if fault:
            return fault
        sessions = sorted({int(it.split(",")[2]) for it in told.rows})
        parts = {it: (octets_of(told, "client", it), octets_of(told, "centre", it)) for it in sessions}
        apart = [it for it in range(count) if it not in but
                 and not any(submit(it) in there and response(it) in back for there, back in parts.values())]
        return f"messages whose response is in another session: {apart}" if apart else None
    return look


def told_exactly(rows, lines, status):
    def look(told):
        given = told.rows, told.lines, told.status
        return None if given == (rows, lines, status) else f"{given}"
    return look


def attack_cases():
    """Yields a name, the captures, the words, and a look at what is told, which returns what is wrong."""
    begin, all_messages = handshake(), messages(100)
    for name, forged in (
            ("a forged SYN", [client(-1, b"", SYN, first=77_000)]),
            ("a forged SYN of the centre's", [centre(-1, b"", SYN, first=77_000)]),
            ("a forged SYN, and octets behind it", [client(-1, b"", SYN, first=77_000_000), client(0, b"forged", first=77_000_000)]),
            ("a forged answer", [centre(-1, b"", SYN | ACK, first=77_000_000)]),
            ("a forged SYN and an answer that isn't to it",
             [client(-1, b"", SYN, first=77_000_000), centre(-1, b"", SYN | ACK, first=88_000_000)]),
            ("a forged segment far ahead", [client(1_000_000_000, b"forged")]),
            ("a forged segment far behind", [client(-1_000_000_000, b"forged")]),
            ("a forged segment far ahead that acknowledges far ahead", [client(900_000_000, b"forged", acknowledged=900_000_000)]),
            ("a forged reset", [client(900_000_000, b"", RST), client(20_000, b"", RST | ACK)]),
            ("a forged reset of the next number", [client(SIZE * 10, b"", RST)]),
            ("a forged acknowledgement far ahead", [centre(ANSWER * 10, b"", acknowledged=800_000_000)])):
        frames = [*begin, *all_messages[:20], *forged, *all_messages[20:]]
        timed = [(1000 + 5000 * at, it) for at, it in enumerate(frames)]
        octets = any(it[54:] for it in forged)
        lines = ["packets outside the connection's window, not written: 1"] if b"forged" in b"".join(forged) and octets else []
        yield name, [pcap(timed)], WORDS, has_all(100, (), lines, 1 if lines else 0)
    yield "28,000 forged SYNs", [pcap([(1000, it) for it in [*begin, *all_messages[:20], *(
        client(-1, b"", SYN, ends=(("192.0.2.1", 2**15 + at), CENTRE)) for at in range(28_000)), *all_messages[20:]]])], WORDS, has_all(
            100, (), ["connections that didn't begin, as no answer to a SYN came: 27999"])
    # two gaps, and a segment that comes again
    frames = [*begin, *all_messages]
    lost = frames[:2 + 2 * 20] + frames[2 + 2 * 20 + 1 : 2 + 2 * 21 + 1] + frames[2 + 2 * 22 : 2 + 2 * 24] + [
        frames[2 + 2 * 21]] + frames[2 + 2 * 24 :]
    del lost[2 + 2 * 20 : 2 + 2 * 20 + 1]
    timed = [(1000 + 100 * at, it) for at, it in enumerate(lost)]
    yield "two gaps at once, and a segment that comes again", [pcap(timed)], WORDS, same_sessions(100, (19, 20, 21, 22, 23), ["are missing"])
    # moments
    timed = [(1000 + 10 * at, it) for at, it in enumerate(frames)]
    far = [*timed[:50], (10**12, timed[50][1]), *timed[51:]]
    yield "one moment far ahead", [pcap(far)], WORDS, has_all(100, (), ["packet 51: its moment is 999999998510 ms ahead"])
    yield "no moment of a later packet is raised", [pcap(far)], WORDS, lambda told: None if told.rows[-1].split(",")[4] == str(
        timed[-1][0]) else told.rows[-1][:60]
    yield "a moment past 2099", [pcap([*timed[:50], (4_200_000_000_000, timed[50][1]), *timed[51:]])], WORDS, has_all(
        100, (), ["packet 51: its moment is"])
    yield "the first moment far ahead", [pcap([(10**12, timed[0][1]), *timed[1:]])], WORDS, has_all(100, (), ["packet 1: its moment is"])
    yield "the last moment far ahead", [pcap([*timed[:-1], (10**12, timed[-1][1])])], WORDS, has_all(100, (), ["packet 202: its moment is"])
    night = [*timed[:100], *((it[0] + 8 * 3_600_000, it[1]) for it in timed[100:])]
    yield "a night without packets", [pcap(night)], WORDS, lambda told: None if not told.lines and told.rows[-1].split(",")[4] == str(
        night[-1][0]) else f"{told.lines} {told.rows[-1][:60]}"
    # several captures, and a port that is used again
    of_client, of_centre = {"first": 9_000_000, "acknowledged": 8_000_000 - CENTRE_FIRST}, {"first": 8_000_000, "acknowledged": 9_000_000 - CLIENT_FIRST}
    anew = [client(-1, b"", SYN, **of_client), centre(-1, b"", SYN | ACK, **of_centre),
            client(0, submit(200), **of_client), centre(0, response(200), **of_centre)]
    for ends in ([], [client(SIZE * 100, b"", FIN | ACK, ANSWER * 100), centre(ANSWER * 100, b"", FIN | ACK, SIZE * 100 + 1),
                      client(SIZE * 100 + 1, b"", ACK, ANSWER * 100 + 1)]):
        twice = pcap([*frames, *ends, *anew])
        once = [submit(it) for it in (*range(100), 200)]
        for name, captures in (("one file named twice", [twice, twice]), ("three times", [twice] * 3),
                               ("a second file that begins within the first", [twice, pcap([*frames[150:], *ends, *anew])])):
            yield f"a port that is used again, {name}, {len(ends)} ends", captures, WORDS, lambda told: (
                None if (octets_of(told, "client"), told.lines, told.status) == (b"".join(once), [], 0)
                and {it.split(",")[2] for it in told.rows} == {"1", "2"} else f"{len(told.rows)} rows, {told.lines} {told.status}")
    # the tail
    for name, tail in (("a FIN", client(SIZE * 100, b"", FIN | ACK)), ("an acknowledgement of the same end", client(SIZE * 100, b""))):
        cut = [it for at, it in enumerate(frames) if at != 2 + 2 * 99] + [tail]
        yield f"a lost tail, seen by {name}", [pcap(cut[:-2] + cut[-1:])], WORDS, has_all(
            100, (99,), [f"octets {SIZE * 99} to {SIZE * 100 - 1} from the client are missing: nothing after them is written"], 1)
    # the search
    mixed = b"".join(submit(it) if it % 50 else pdu(VENDOR, it, b"x" * 20) for it in range(2000))
    segments = [mixed[at : at + 1000] for at in range(0, len(mixed), 1000)]
    sent = [client(sum(map(len, segments[:at])), it) for at, it in enumerate(segments)]
    yield "a PDU of a vendor each 50, behind a gap", [pcap([*begin, sent[0], *sent[2:]])], WORDS, lambda told: (
        None if len(octets_of(told, "client")) > len(mixed) - 1500 else f"{len(octets_of(told, 'client'))} of {len(mixed)}, {told.lines}")
    yield "within a connection", [pcap(sent[1:])], WORDS, lambda told: (
        None if len(octets_of(told, "client")) > len(mixed) - 1500 else f"{len(octets_of(told, 'client'))} of {len(mixed)}, {told.lines}")
    malformed = ["packets with a head that can't be, not read: 2, the first is packet 3"]
    yield "heads that say less than their least length", [pcap([*begin, *(ethernet(it) for it in short_heads()), *all_messages])], WORDS, \
        has_all(100, lines=malformed, status=1)


def short_heads():
    """Returns packets of the connection whose heads of IP or TCP are too short."""
    segment = tcp(CLIENT, CENTRE, CLIENT_FIRST, b"abcd")
    return [ipv4(CLIENT, CENTRE, segment[:12] + bytes([0]) + segment[13:]), b"\x41" + ipv4(CLIENT, CENTRE, segment)[1:]]


def flow(port):
    """Returns the ends of a client's port, for frames of the client and of the centre."""
    there = ("192.0.%d.%d" % (port >> 24 & 255, port >> 16 & 255), port & 0xFFFF)
    return {"ends": (there, CENTRE)}, {"ends": (CENTRE, there)}


def whole(frames):
    """Returns a capture of frames, all at one moment; of any number of them in linear time."""
    parts = [pcap([])]
    for it in frames:
        parts += [struct.pack("<4I", 1, 0, len(it), len(it)), it]
    return b"".join(parts)


def behind_gap(octets, size=1000):
    """Returns a connection with octets of a client behind a lost packet, in segments of so many."""
    begin = [*handshake(), client(0, submit(0))]
    return whole([*begin, *(client(2 * SIZE + at, octets[at : at + size]) for at in range(0, len(octets), size))])


def within(octets, size=1000):
    return whole([client(at, octets[at : at + size]) for at in range(0, len(octets), size)])


def enquiries(count):
    return b"".join(pdu(ENQUIRE_LINK, it) for it in range(count // 16))


def open_gaps(count):
    """Returns connections with a gap each, and packets of another one."""
    frames = []
    for at in range(count):
        there, back = flow(at + 1)
        frames += [client(-1, b"", SYN, **there), centre(-1, b"", SYN | ACK, **back), client(SIZE, submit(0), **there)]
    return whole(frames)


def nested_headers(count):
    """Returns octets that are headers of the longest PDU, at each fourth place."""
    return struct.pack(">I", 131_072) * (count // 4)


def half_open(count):
    return whole([client(-1, b"", SYN, **flow(at)[0]) for at in range(count)])


def ended(count):
    """Returns so many connections that ended."""
    frames = []
    for at in range(count):
        there, back = flow(at)
        frames += [client(-1, b"", SYN, **there), centre(-1, b"", SYN | ACK, **back), client(0, submit(0), **there),
                   client(SIZE, b"", FIN | ACK, **there), centre(0, b"", FIN | ACK, SIZE + 1, **back), client(SIZE + 1, b"", ACK, 1, **there)]
    return whole(frames)


def forged_octets(count):
    """Returns so many connections of one segment of octets each."""
    return whole([client(0, submit(0), **flow(at)[0]) for at in range(count)])


def far_behind(count):
    """Returns a connection with so many KB behind a gap, in segments, that never fills."""
    return behind_gap(b"".join(submit(it) for it in range(count * 1024 // SIZE)), 1452)


def cost_cases():
    """Yields a name, a capture by its size, a size, and how many MB are allowed for twice as much, if that is told."""
    draw = random.Random(1)
    noise = draw.randbytes(4_000_000)
    yield "zeros behind a gap", lambda n: behind_gap(bytes(n)), 500_000, None
    yield "zeros within a connection", lambda n: within(bytes(n)), 500_000, None
    yield "TLS within a connection", lambda n: within(noise[:n]), 1_000_000, None
    yield "enquire_links, then other octets, behind a gap", lambda n: behind_gap(enquiries(n) + b"\xff" * 99), 200_000, None
    yield "enquire_links within one segment", lambda n: within(enquiries(n)[8:], 59_000), 200_000, None
    yield "lengths of the longest PDU, behind a gap", lambda n: behind_gap(nested_headers(n)), 500_000, None
    yield "headers of the longest PDU, within a connection", lambda n: within(
        b"\1" + (struct.pack(">4I", 131_072, SUBMIT_SM, 0, 0) * (n // 16))), 500_000, None
    yield "segments of one octet behind a gap", lambda n: behind_gap(enquiries(n)[4:], 1), 8_000, None
    yield "open gaps", open_gaps, 8_000, None
    yield "half-open connections", half_open, 150_000, 64
    yield "connections that ended", ended, 40_000, 64
    yield "connections of one forged segment", forged_octets, 60_000, 256
    yield "64 MiB behind a gap", far_behind, 50_000, 256
