"""Cases of `smq capture` in what segments are of: their order, the connections and sessions that they make, links, and what is missing. A
name, the capture, the rows, and, where there are any, what is told, the status and the words."""
from oracle.made_captures import ACK, CENTRE, CENTRE_FIRST, CENTRE_V6, CLIENT, CLIENT_FIRST, CLIENT_V6, CONVERSATION, FIN, RST, STRICT, SYN
from oracle.made_captures import centre, client, conversation, ethernet, gaps, handshake, ipv6, missing, no_syn, pcap, row, tcp, told

UNANSWERED = "connections that didn't begin, as no answer to a SYN came: 1"


def order_cases():
    """Yields the cases of sequence numbers."""
    begin = handshake()
    yield "out of order", pcap([*begin, client(4, b"ef"), client(2, b"cd"), client(0, b"ab")]), [
        row("client", 1040, b"ab"), row("client", 1040, b"cd"), row("client", 1040, b"ef")]
    frames = [*begin, client(2, b"cd"), centre(0, b"xy"), client(0, b"ab")]
    yield "a gap in one direction holds back that one alone", pcap(frames), [
        row("centre", 1030, b"xy"), row("client", 1040, b"ab"), row("client", 1040, b"cd")]
    yield "repeats", pcap([*begin, client(0, b"ab"), client(0, b"ab"), client(0, b"XX"), client(2, b"c")]), [
        row("client", 1020, b"ab"), row("client", 1050, b"c")]
    yield "an overlap with what was written", pcap([*begin, client(0, b"abcd"), client(2, b"XXef")]), [
        row("client", 1020, b"abcd"), row("client", 1030, b"ef")]
    yield "a segment around a part that is held back", pcap([*begin, client(2, b"cd"), client(0, b"XXXXXX")]), [
        row("client", 1030, b"XX"), row("client", 1030, b"cd"), row("client", 1030, b"XX")]
    held = [client(6, b"gh"), client(2, b"cd"), client(1, b"XXXXXXXX"), client(3, b"YYYYYYYY"), client(0, b"a")]
    yield "overlaps among parts that are held back", pcap([*begin, *held]), [
        row("client", 1060, it) for it in (b"a", b"X", b"cd", b"XX", b"gh", b"X", b"YY")]
    frames = [*begin, client(0, b"ab"), client(1, b"\0"), client(2, b"c")]
    yield "a probe of one octet that keeps the connection alive", pcap(frames), [
        row("client", 1020, b"ab"), row("client", 1040, b"c")]
    yield "a probe before any octet", pcap([*begin, client(-1, b"\0"), client(0, b"ab")]), [row("client", 1030, b"ab")]
    # (RFC 9293, 3.8.4: it is sent when all was acknowledged, has the number before the next, and its octet is garbage)
    behind = [*begin, client(0, b"ab"), centre(0, b"x", acknowledged=6)]
    rows = [row("client", 1020, b"ab"), row("centre", 1030, b"x")]
    yield "a probe behind octets that are missing", pcap([*behind, client(5, b"\0"), client(2, b"cdef"), client(6, b"g")]), [
        *rows, row("client", 1050, b"cdef"), row("client", 1060, b"g")]
    yield "an octet that comes behind its acknowledgement", pcap([*behind, client(5, b"f"), client(2, b"cde"), client(6, b"g")]), [
        *rows, row("client", 1050, b"cde"), row("client", 1050, b"f"), row("client", 1060, b"g")]
    first = 2**32 - 3
    wrapped = [client(it, octets, flags, first=first) for it, octets, flags in (
        (-1, b"", SYN), (0, b"ab", ACK), (4, b"ef", ACK), (2, b"cd", ACK), (4, b"XXg", ACK))]
    answer = centre(-1, b"", SYN | ACK, first - CLIENT_FIRST)
    yield "sequence numbers that pass 2^32", pcap([wrapped[0], answer, *wrapped[1:]]), [
        row("client", 1020, b"ab"), row("client", 1040, b"cd"), row("client", 1040, b"ef"), row("client", 1050, b"g")]
    ends = [client(0, b"ab", FIN | ACK), centre(0, b"", FIN | ACK, acknowledged=3), client(3, b"", acknowledged=1)]
    yield "an end of both directions", pcap([*begin, *ends]), [row("client", 1020, b"ab")]
    frames = [*begin, client(0, b"ab"), centre(0, b"gone", RST | ACK, acknowledged=900)]
    yield "octets of a reset", pcap(frames), [row("client", 1020, b"ab")]


def session_cases():
    """Yields the cases of connections."""
    yield "octets in a SYN", pcap([client(-1, b"ab", SYN), handshake()[1], client(2, b"c")]), [
        row("client", 1000, b"ab"), row("client", 1020, b"c")]
    yield "a SYN that comes twice", pcap([*handshake(), *handshake(), client(0, b"ab")]), [row("client", 1040, b"ab")]
    yield "the centre's SYN first", pcap([*handshake()[::-1], client(0, b"ab"), centre(0, b"cde")]), CONVERSATION
    of_client = {"first": 9_000, "acknowledged": 8_000 - CENTRE_FIRST}
    of_centre = {"first": 8_000, "acknowledged": 9_000 - CLIENT_FIRST}
    anew = [client(-1, b"", SYN, **of_client), centre(-1, b"", SYN | ACK, **of_centre),
            client(0, b"fg", **of_client), centre(0, b"h", **of_centre)]
    yield "a pair of ports that is used anew", pcap([*conversation(), *anew]), [
        *CONVERSATION, row("client", 1060, b"fg", 2), row("centre", 1070, b"h", 2)]
    # (RFC 9293, 3.10.7.4: the old connection's end would acknowledge none of it, so what is acknowledged is the new one's)
    syn, f, g = (client(it, octets, flags, 1 - CENTRE_FIRST + 2**28 * (it >= 0), first=2**29) for it, octets, flags in (
        (-1, b"", SYN), (0, b"f", ACK), (1, b"g", ACK)))
    h, answered = (centre(0, b"h", first=2**28, acknowledged=2**29 - CLIENT_FIRST + it) for it in (0, 1))
    rows = row("client", 1050, b"f", 2), row("centre", 1060, b"h", 2), row("client", 1070, b"g", 2)
    yield "the same, without the SYN's answer", pcap([*conversation(), syn, f, answered, g]), [*CONVERSATION, *rows], [
        no_syn("centre", 2)], 1, STRICT
    yield "the same, both ends at once", pcap([*conversation(), syn, f, h, g]), [*CONVERSATION, *rows], [no_syn("centre", 2)], 1, STRICT
    frames = [*conversation(), syn, f, centre(3, b"h", acknowledged=2), client(2, b"c")]
    yield "a forged SYN, and octets behind it", pcap(frames), [*CONVERSATION, row("centre", 1060, b"h"), row("client", 1070, b"c")], [
        told("packets outside the connection's window, not written: 1 from the client, the first is packet 6"), UNANSWERED], 1
    others = {"ends": (("192.0.2.1", 40001), CENTRE)}, {"ends": (CENTRE, ("192.0.2.1", 40001))}
    other = [client(-1, b"", SYN, **others[0]), centre(-1, b"", SYN | ACK, **others[1]),
             client(0, b"ij", **others[0]), centre(0, b"k", **others[1])]
    mixed = [it for pair in zip(other, conversation()) for it in pair]
    yield "two connections side by side", pcap(mixed), [
        row("client", 1040, b"ij"), row("client", 1050, b"ab", 2), row("centre", 1060, b"k"), row("centre", 1070, b"cde", 2)]
    lone = client(5, ends=(("192.0.2.1", 40001), CENTRE))
    frames = [(999, lone), *zip(range(1000, 1040, 10), conversation())]
    yield "a packet without octets of a connection that isn't known", pcap(frames), CONVERSATION
    # (a SYN without an answer is no connection)
    yield "a connection without an answer", pcap([handshake()[0], handshake()[0]]), [], [UNANSWERED]
    # (a capture may begin behind it)
    yield "a SYN whose answer alone was captured", pcap(conversation()[1:]), [row("client", 1010, b"ab"), row("centre", 1020, b"cde")]
    yield "the first session's number", pcap(conversation()), [
        it.replace(",1,", ",41,") for it in CONVERSATION], [], 0, "--link 2775=7 --first-session 41"


def link_cases():
    """Yields the cases of words: besides name, capture and rows, what is told, the status and the words."""
    third = (CLIENT, ("192.0.2.8", 2775))
    elsewhere = [client(-1, b"", SYN, ends=third), centre(-1, b"", SYN | ACK, ends=third[::-1]), client(0, b"zz", ends=third)]
    skipped = "connections without a port that --link names, skipped: "
    frames = [*conversation(), *elsewhere]
    both = [*CONVERSATION, row("client", 1060, b"zz", 2)]
    yield "two hosts of one link", pcap(frames), both
    yield "one host", pcap(frames), CONVERSATION, [skipped + "1"], 0, "--link 192.0.2.9:2775=7"
    yield "a host before a port", pcap(frames), [*CONVERSATION, row("client", 1060, b"zz", 2, 8)], [], 0, \
        "--link 2775=7 --link 192.0.2.8:2775=8"
    yield "another port", pcap(frames), [], [
        skipped + "2", "no session: no connection has a port that --link names",
        "the busiest ports, with their packets: 2775 (7); is the centre's port one of them?"], 1, "--link 2776=7"
    yield "the client's port has a link too", pcap(conversation()), CONVERSATION, [], 0, "--link 2775=7 --link 40000=8"
    back = [*handshake()[::-1], *conversation()[2:]]
    yield "the same, and the centre's SYN first", pcap(back), CONVERSATION, [], 0, "--link 2775=7 --link 40000=8"
    frame = ethernet(ipv6(CLIENT_V6, CENTRE_V6, tcp(CLIENT_V6, CENTRE_V6, CLIENT_FIRST - 1, b"ab", SYN)))
    # (a SYN without an answer is no connection, whatever came with it)
    yield "a host of IPv6", pcap([frame]), [], [UNANSWERED], 0, "--link [2001:db8::9]:2775=7"
    answered = [frame, ethernet(ipv6(CENTRE_V6, CLIENT_V6, tcp(CENTRE_V6, CLIENT_V6, CENTRE_FIRST - 1, b"", SYN | ACK, CLIENT_FIRST + 2)))]
    yield "a host of IPv6 that answers", pcap(answered), [row("client", 1000, b"ab")], [], 0, "--link [2001:db8::9]:2775=7"


def loss_cases():
    """Yields the cases in which something is missing or changed."""
    begin = handshake()
    # (with --strict what is behind a gap isn't counted)
    yield "a gap that never fills", pcap([*begin, client(0, b"ab"), client(4, b"ef"), client(6, b"gh"), centre(0, b"x")]), [
        row("client", 1020, b"ab"), row("centre", 1050, b"x")], [missing(2, 3), gaps(1, 2)], 1, STRICT
    frames = [*begin, client(0, b"ab"), centre(0, b"x", acknowledged=18)]
    yield "octets that the centre has and the capture hasn't", pcap(frames), [
        row("client", 1020, b"ab"), row("centre", 1030, b"x")], [missing(2, 17), gaps(1, 16)], 1
    # (RFC 9293, 3.4: the FIN has the number behind the last octet, here 18, and is acknowledged by 19)
    ends = [centre(0, b"x", acknowledged=19), client(18, b"", FIN | ACK)]
    rows = row("client", 1020, b"ab"), *(row("centre", it, b"x") for it in (1030, 1040))
    yield "a FIN behind octets that the capture hasn't", pcap([*begin, client(0, b"ab"), *ends]), rows[:2], [missing(2, 17), gaps(1, 16)], 1
    yield "the same, before it is acknowledged", pcap([*begin, client(0, b"ab"), *ends[::-1]]), rows[::2], [missing(2, 17), gaps(1, 16)], 1
    frames = [*begin, client(0, b"ab"), centre(0, b"x", acknowledged=3)]
    yield "a number behind the last octet, which may be that of a FIN", pcap(frames), rows[:2]
    frames = [*begin, centre(0, b"x", acknowledged=5), client(0, b"abcd")]
    yield "the same, before the octets", pcap(frames), [row("centre", 1020, b"x"), row("client", 1030, b"abcd")]
    frames = [client(0, b"ab"), centre(0, b"x", acknowledged=2), client(2, b"c")]
    yield "a capture that begins within a connection", pcap(frames), [
        row("client", 1000, b"ab"), row("centre", 1010, b"x"), row("client", 1020, b"c")], [
        no_syn("client"), no_syn("centre")], 1, STRICT
    yield "one direction alone", pcap([begin[0], client(0, b"ab")]), [row("client", 1010, b"ab")], [
        told("no packet from the centre, though the other end sent octets")], 1
    early = [*begin, client(0, b"ab"), client(-500, b"old"), client(-400, b"old")]
    yield "a connection before this one", pcap(early), [row("client", 1020, b"ab")], [
        told("packets outside the connection's window, not written: 2 from the client, the first is packet 4")], 1
    later = (1020, client(0, b"ab")), (900, client(2, b"c")), (1019, client(3, b"d")), (1015, centre(0, b"x"))
    yield "moments that fall back", pcap([*zip((1000, 1010), begin), *later]), [
        row("client", 1020, b"ab"), row("client", 1020, b"c"), row("client", 1020, b"d"), row("centre", 1015, b"x")], [
        told("moments raised to the one before, as the clock was set back or packets stand out of order: "
             "2 from the client, the first is packet 4")], 0
