"""Cases of `smq capture` in captures that lost packets: a lost packet costs a moment, not the rest of a session. Small ones with their rows
and what is told; and long ones out of which packets are taken."""
import collections
import os
import random
import struct

from repository import ROOT
from oracle.made_captures import ACK, CENTRE, CENTRE_FIRST, SYN, WORDS, centre, client, gaps, handshake, no_syn, passed, pcap, row, told

EXAMPLES = [f"{ROOT}/examples/{it}" for it in ("kannel-capture", "kannel-six-links")]
SUBMIT_SM, DELIVER_SM, ENQUIRE_LINK, RESPONSE = 0x04, 0x05, 0x15, 0x80000000


def pdu(command, number, body=b"", status=0):
    """Returns a PDU."""
    return struct.pack(">4I", 16 + len(body), command, status, number) + body


def submit(number):
    """Returns a submit_sm to 447700900123 that asks for a receipt."""
    return pdu(SUBMIT_SM, number, b"\0\0\0\x31\x30\x30\x30\0\1\1447700900123\0\0\0\0\0\0\1\0\0\0\0")


def response(number):
    """Returns its response with an id of that number."""
    return pdu(SUBMIT_SM + RESPONSE, number, b"%d\0" % number)


def lost(first, last, what, sender="client", session=1):
    return told(f"octets {first} to {last} from the {sender} are missing: {what}", session)


PDUS = [submit(it) for it in range(1, 6)]
SIZE = len(PDUS[0])
RESPONSES = [response(it) for it in range(1, 5)]
ONE = len(RESPONSES[0])
# What is told where the second PDU of the client is lost
AFTER = f"session 2 goes on at octet {2 * SIZE}"
SECOND = [lost(SIZE, 2 * SIZE - 1, AFTER), gaps(1, SIZE)]


def one_gap_cases():
    """Yields the cases of one gap: a name, the capture, the rows and what is told."""
    begin = handshake()
    frames = [*begin, client(0, PDUS[0]), client(2 * SIZE, PDUS[2]), *(
        centre(at * ONE, it, acknowledged=3 * SIZE) for at, it in enumerate(RESPONSES[:3]))]
    yield "a gap: both directions go on in a new session", pcap(frames), [
        row("client", 1020, PDUS[0]), row("centre", 1040, RESPONSES[0], 2), row("centre", 1050, RESPONSES[1], 2),
        row("centre", 1060, RESPONSES[2], 2), row("client", 1030, PDUS[2], 2)], SECOND
    frames = [*begin, client(0, PDUS[0]), centre(0, RESPONSES[0][:10]), client(2 * SIZE, PDUS[2]), centre(10, RESPONSES[0][10:]),
              centre(ONE, RESPONSES[1])]
    yield "the other direction goes on with its next PDU", pcap(frames), [
        row("client", 1020, PDUS[0]), row("centre", 1030, RESPONSES[0][:10]), row("centre", 1050, RESPONSES[0][10:]),
        row("centre", 1060, RESPONSES[1], 2), row("client", 1040, PDUS[2], 2)], SECOND
    frames = [*begin, client(0, PDUS[0]), client(2 * SIZE, PDUS[2][:30]), client(2 * SIZE + 30, PDUS[2][30:] + PDUS[3])]
    yield "a PDU in two segments behind a gap", pcap(frames), [
        row("client", 1020, PDUS[0]), row("client", 1030, PDUS[2][:30], 2), row("client", 1040, PDUS[2][30:] + PDUS[3], 2)], SECOND
    ends = {"ends": (("192.0.2.1", 40001), CENTRE)}, {"ends": (CENTRE, ("192.0.2.1", 40001))}
    others = [client(-1, b"", SYN, -CENTRE_FIRST, **ends[0]), centre(-1, b"", SYN | ACK, **ends[1])]
    frames = [*begin, *others, client(0, PDUS[0]), client(2 * SIZE, PDUS[2]), client(0, PDUS[3], **ends[0]),
              centre(0, RESPONSES[0], acknowledged=SIZE), centre(0, RESPONSES[1], acknowledged=SIZE, **ends[1])]
    yield "a gap: the rows of another connection don't wait", pcap(frames), [
        row("client", 1040, PDUS[0]), row("client", 1060, PDUS[3], 2), row("centre", 1080, RESPONSES[1], 2),
        row("centre", 1070, RESPONSES[0], 3), row("client", 1050, PDUS[2], 3)], [
        it.replace("session 2 goes", "session 3 goes") for it in SECOND]
    frames = [*begin, client(0, PDUS[0]), centre(0, RESPONSES[0], acknowledged=2 * SIZE), client(2 * SIZE - 1, b"\0"),
              client(2 * SIZE, PDUS[2])]
    yield "the octet of a probe is none behind a gap", pcap(frames), [
        row("client", 1020, PDUS[0]), row("centre", 1030, RESPONSES[0]), row("client", 1050, PDUS[2], 2)], SECOND
    frames = [*begin, client(0, PDUS[0]), client(2 * SIZE, PDUS[2][:-1]), centre(0, RESPONSES[0], acknowledged=3 * SIZE),
              client(3 * SIZE - 1, PDUS[2][-1:])]
    yield "an octet that comes behind its acknowledgement, and is that of no probe", pcap(frames), [
        row("client", 1020, PDUS[0]), row("centre", 1040, RESPONSES[0], 2), row("client", 1030, PDUS[2][:-1], 2),
        row("client", 1050, PDUS[2][-1:], 2)], SECOND
    told_behind = [lost(SIZE, SIZE + 19, AFTER), passed(SIZE - 20), gaps(1, 20, SIZE - 20)]
    frames = [*begin, client(0, PDUS[0]), client(SIZE + 20, PDUS[1][20:]), client(2 * SIZE, PDUS[2])]
    yield "octets before the first PDU behind a gap", pcap(frames), [
        row("client", 1020, PDUS[0]), row("client", 1040, PDUS[2], 2)], told_behind
    frames = [*begin, client(0, PDUS[0]), client(SIZE + 20, PDUS[1][20:] + PDUS[2] + PDUS[3] + PDUS[4])]
    yield "PDUs within a segment behind a gap", pcap(frames), [
        row("client", 1020, PDUS[0]), row("client", 1030, PDUS[2] + PDUS[3] + PDUS[4], 2)], told_behind
    frames = [client(5, b"end of a PDU"), centre(0, RESPONSES[0]), client(17, PDUS[0])]
    yield "a capture that begins within a PDU", pcap(frames), [
        row("centre", 1010, RESPONSES[0]), row("client", 1020, PDUS[0])], [no_syn("client"), no_syn("centre"), passed(12)]


def patience_cases():
    """Yields the cases of when a gap is given up: 2 s after the other end acknowledged what is missing."""
    begin = [*zip((1000, 1010), handshake())]
    frames = [*begin, (1020, client(0, PDUS[0])), (1030, client(2 * SIZE, PDUS[2])), (1040, centre(0, b"", acknowledged=3 * SIZE)),
              (3039, centre(0, RESPONSES[0]))]
    yield "a gap that is acknowledged is given up after 2 s", pcap([*frames, (3041, client(SIZE, PDUS[1]))]), [
        row("client", 1020, PDUS[0]), row("centre", 3039, RESPONSES[0], 2), row("client", 1030, PDUS[2], 2)], SECOND
    yield "and not before", pcap([*frames, (3039, client(SIZE, PDUS[1]))]), [
        row("client", 1020, PDUS[0]), row("centre", 3039, RESPONSES[0]), row("client", 3039, PDUS[1]), row("client", 3039, PDUS[2])], []
    frames = [*frames[:5], (1050, client(4 * SIZE, PDUS[4])), (2000, client(SIZE, PDUS[1])), (3060, client(3 * SIZE, PDUS[3]))]
    yield "a gap behind one that was acknowledged waits for its own 2 s", pcap(frames), [
        row("client", 1020, PDUS[0]), row("client", 2000, PDUS[1]), row("client", 2000, PDUS[2]), row("client", 3060, PDUS[3]),
        row("client", 3060, PDUS[4])], []
    frames[4:] = [(1040, client(4 * SIZE, PDUS[4])), (1050, centre(0, b"", acknowledged=5 * SIZE)), (3051, client(3 * SIZE, PDUS[3]))]
    yield "two gaps that are acknowledged at once are given up at once", pcap(frames), [
        row("client", 1020, PDUS[0]), row("client", 1030, PDUS[2], 2), row("client", 1040, PDUS[4], 3)], [
        SECOND[0], lost(3 * SIZE, 4 * SIZE - 1, f"session 3 goes on at octet {4 * SIZE}", session=2), gaps(2, 2 * SIZE)]


def two_gap_cases():
    """Yields the cases of two gaps, which are taken in the order of the packets that begin the PDUs behind them."""
    begin = handshake()
    frames = [*begin, client(0, PDUS[0]), client(2 * SIZE, PDUS[2]), client(4 * SIZE, PDUS[4])]
    yield "two gaps", pcap(frames), [
        row("client", 1020, PDUS[0]), row("client", 1030, PDUS[2], 2), row("client", 1040, PDUS[4], 3)], [
        SECOND[0], lost(3 * SIZE, 4 * SIZE - 1, f"session 3 goes on at octet {4 * SIZE}", session=2), gaps(2, 2 * SIZE)]
    frames = [*begin, client(0, PDUS[0]), client(2 * SIZE + 20, PDUS[2][20:]), centre(ONE, RESPONSES[1]), client(2 * SIZE, PDUS[2][:20])]
    yield "gaps in both directions, and a segment behind one that comes again", pcap(frames), [
        row("client", 1020, PDUS[0]), row("centre", 1040, RESPONSES[1], 2), row("client", 1050, PDUS[2][:20], 3),
        row("client", 1050, PDUS[2][20:], 3)], [
        lost(0, ONE - 1, f"session 2 goes on at octet {ONE}", "centre"),
        lost(SIZE, 2 * SIZE - 1, f"session 3 goes on at octet {2 * SIZE}", session=2), gaps(2, SIZE + ONE)]
    frames = [*begin, client(0, PDUS[0]), centre(ONE, RESPONSES[1]), client(SIZE, PDUS[1]), client(3 * SIZE, PDUS[3]),
              centre(2 * ONE, RESPONSES[3])]
    yield "gaps in both directions, in the order of packets", pcap(frames), [
        row("client", 1020, PDUS[0]), row("client", 1040, PDUS[1], 2), row("centre", 1030, RESPONSES[1], 2),
        row("centre", 1060, RESPONSES[3], 3), row("client", 1050, PDUS[3], 3)], [
        lost(0, ONE - 1, f"session 2 goes on at octet {ONE}", "centre"),
        lost(2 * SIZE, 3 * SIZE - 1, f"session 3 goes on at octet {3 * SIZE}", session=2), gaps(2, SIZE + ONE)]


def no_pdu_cases():
    """Yields the cases in which no PDU begins behind a gap."""
    begin = [*handshake(), client(0, PDUS[0])]
    yield "no PDU behind a gap", pcap([*begin, client(SIZE + 1, b"x" * 40), client(SIZE + 41, b"y" * 40)]), [
        row("client", 1020, PDUS[0])], [lost(SIZE, SIZE, "nothing after them is written"), passed(80), gaps(1, 1, 80)]
    for name, octets in (("a length of 15", struct.pack(">4I", 15, SUBMIT_SM, 0, 1)),
                         ("a length of 131,073", struct.pack(">4I", 131_073, SUBMIT_SM, 0, 1)),
                         ("a command that isn't known", pdu(0x0A, 1)), ("a request with a status", pdu(SUBMIT_SM, 1, b"", 1)),
                         ("fifteen octets", pdu(ENQUIRE_LINK, 1)[:15])):
        yield f"no PDU begins with {name}", pcap([*begin, client(2 * SIZE, octets)]), [row("client", 1020, PDUS[0])], [
            lost(SIZE, 2 * SIZE - 1, "nothing after them is written"), passed(len(octets)), gaps(1, SIZE, len(octets))]


def gap_cases():
    """Yields a name, the capture, the rows, what is told, and the status."""
    for group in (one_gap_cases, patience_cases, two_gap_cases, no_pdu_cases):
        for name, capture, rows, lines in group():
            yield name, capture, rows, lines, 1 if lines else 0


def pdus_of(rows):
    """Returns the whole PDUs of a script by direction, cut by their lengths session by session."""
    streams, found = collections.defaultdict(bytearray), collections.defaultdict(list)
    for fields in (it.split(",") for it in rows):
        streams[tuple(fields[1:4])] += bytes.fromhex(fields[5])
    for key, octets in streams.items():
        at = 0
        while at + 16 <= len(octets):
            length = int.from_bytes(octets[at : at + 4], "big")
            found[key[0], key[2]].append(bytes(octets[at : at + length]))
            at += max(length, 16)
    return found


def pairs_in(rows):
    """Returns how many submit_sm have a response of their number in their session."""
    found = collections.defaultdict(set)
    for session in {it.split(",")[2] for it in rows}:
        for pdus in pdus_of([it for it in rows if it.split(",")[2] == session]).values():
            for it in pdus:
                found[it[4:8]].add((session, it[12:16]))
    return len(found[SUBMIT_SM.to_bytes(4, "big")] & found[(SUBMIT_SM + RESPONSE).to_bytes(4, "big")])


def messages_in(pdus):
    return sum(it[4:8] == SUBMIT_SM.to_bytes(4, "big") for (_, direction), those in pdus.items() if direction == "client" for it in those)


def records_of(capture):
    """Returns the head of a capture and its records."""
    records, at = [], 24
    while at < len(capture):
        size = 16 + struct.unpack("<I", capture[at + 8 : at + 12])[0]
        records.append(capture[at : at + size])
        at += size
    return capture[:24], records


def long_capture():
    """Returns a capture of 4,000 messages in four connections; segments have a PDU, a part of one, or several."""
    frames, moment = [], 1_000_000
    for number in range(4):
        port, draw = 41_000 + number, random.Random(number)
        ends = ("192.0.2.1", port), ("192.0.2.9", 2775)
        there, back = {"ends": ends}, {"ends": ends[::-1]}
        frames += [(moment, client(-1, b"", SYN, -CENTRE_FIRST, **there)), (moment, centre(-1, b"", SYN | ACK, **back))]
        sent = received = 0
        for first in range(0, 1000, 10):
            asked = b"".join(submit(first + it) for it in range(10))
            answered = b"".join(response(first + it) for it in range(10))
            for octets, is_client in ((asked, True), (answered, False)):
                at = 0
                while at < len(octets):
                    size = draw.choice((len(octets) // 10, 100, 300))
                    part, moment = octets[at : at + size], moment + 2
                    if is_client:
                        frames.append((moment, client(sent, part, acknowledged=received, **there)))
                        sent += len(part)
                    else:
                        frames.append((moment, centre(received, part, acknowledged=sent, **back)))
                        received += len(part)
                    at += len(part)
    return pcap(frames)


def kept_of(rows, pdus):
    """Returns how many messages and pairs rows have, and how many of their PDUs aren't among those of each direction."""
    found = pdus_of(rows)
    # (what a session ends within has no whole PDU at its end)
    whole = ((key, it) for key, those in found.items() for it in those if len(it) == int.from_bytes(it[:4], "big"))
    strange = sum(it not in pdus[key] for key, it in whole)
    return messages_in(found), pairs_in(rows), strange


def loss_fault(run, name, capture, words, rate, least):
    """Takes packets out of a capture by eight seeds; returns what is wrong with the rows, of which a share has to be there, or None."""
    head, records = records_of(capture)
    rows, lines, status = run(words, capture)
    if (lines, status) != ([], 0):
        return f"{name}, whole: status {status}, {lines[:3]}"
    pdus = {key: set(those) for key, those in pdus_of(rows).items()}
    whole, kept = kept_of(rows, pdus), []
    for seed in range(8):
        draw = random.Random(seed)
        part = head + b"".join(it for it in records if draw.random() >= rate)
        kept.append(kept_of(run(words, part)[0], pdus))
    strange = sum(it[2] for it in kept)
    few = [what for at, what in enumerate(("messages", "pairs")) if sum(it[at] for it in kept) < least * whole[at] * len(kept)]
    return f"{name}, {rate} of packets lost: {kept} of {whole}, {few or strange}" if few or strange else None


def loss_faults(run):
    """Yields what is wrong with captures out of which packets were taken; `run` gives the rows, lines and status of words and a capture."""
    captures = [("4,000 messages", long_capture(), WORDS)]
    for folder in EXAMPLES:
        with open(f"{folder}/capture.pcap", "rb") as file, open(f"{folder}/words", encoding="utf-8") as words:
            captures.append((os.path.basename(folder), file.read(), words.read()))
    for rate, least in ((0.001, 0.95), (0.01, 0.9)):
        for name, capture, words in captures:
            yield loss_fault(run, name, capture, words, rate, least)
