"""Cases of `smq capture` in files and words: byte orders, files that end early or are no captures, and words that are refused. A name, the
capture, the rows, and, where there are any, what is told, the status and the words."""
import gzip
import struct

from oracle.made_captures import CONVERSATION, client, conversation, handshake, pcap, row, section


NOTHING = "no packet is in the capture: is it the right file, and did tcpdump end with an interrupt (Ctrl-C)?"
# (what is no capture, or can't be read, ends the program; `zcat` unpacks what gzip packed)
FAULT = "smq: CAPTURE: "
PACKED = FAULT + "it is packed by gzip: `zcat FILE | smq capture .. -` reads it"


def byte_order_cases():
    """Yields the cases of byte orders and fractions of a second."""
    for order, order_name in (("<", "little end first"), (">", "big end first")):
        for magic, unit in ((0xA1B2C3D4, "microseconds"), (0xA1B23C4D, "nanoseconds")):
            yield f"{unit}, {order_name}", pcap(conversation(), order=order, magic=magic), CONVERSATION


def cut_cases():
    """Yields the cases of files that are empty, end early or are broken."""
    frames = [*handshake(), client(0, b"abcdef"), client(6, b"g")]
    yield "no packets", pcap([]), [], [NOTHING], 1
    yield "a file that ends within a packet", pcap(frames)[:-1], [row("client", 1020, b"abcdef")], [
        "the file ends within packet 4"], 1
    yield "a file that ends within a packet's head", pcap(frames) + b"\0", [
        row("client", 1020, b"abcdef"), row("client", 1030, b"g")], ["the file ends within packet 5"], 1
    record = struct.pack("<4I", 1, 0, 0x40000001, 60)
    # (the octet is that of the length, behind the moment)
    place = len(pcap(conversation())) + 8
    yield "a broken record", pcap(conversation()) + record + bytes(60), CONVERSATION, [
        f"the record of packet 5 is broken, at octet {place} of the file"], 1


def refused_cases():
    """Yields what is no capture that is read, with status 2."""
    good, neither = pcap(conversation()), FAULT + "it is no pcap or pcapng file"
    packed = gzip.compress(good)
    yield "packed by gzip", packed, [], [PACKED], 2
    yield "packed by gzip, and cut off", packed[:60], [], [PACKED], 2
    yield "the head of gzip alone", b"\x1f\x8b\x08\x00" + bytes(20), [], [PACKED], 2
    yield "pcapng of no byte order", b"\x0a\x0d\x0d\x0a" + bytes(40), [], [neither], 2
    yield "pcapng of another version", section(version=2), [], [neither], 2
    yield "a text", b"piece,1,10,client,1000,00\n", [], [neither], 2
    yield "an empty file", b"", [], [neither], 2
    yield "a file of one octet", b"\x1f", [], [neither], 2
    yield "half a head", good[:20], [], [neither], 2
    yield "another link type", pcap([], 147), [], [FAULT + "packets of link type 147 aren't read"], 2
    late = pcap([(4_102_444_800_001, handshake()[0])])
    yield "a moment past the last", late, [], ["smq: the moment of packet 1 is past the year 2099"], 2


def word_cases():
    """Yields bad words: the first line that is told, with status 2."""
    good = pcap(conversation())
    seconds = "error: '{}' is no number of seconds from 0.001 to 1000000, as 10 or 0.5"
    for words, text in (
            ("", "error: the following required arguments were not provided:"),
            ("--link 2775", "error: '2775' is no [HOST:]PORT=LINK, as 2775=1"),
            ("--link 65536=1", "error: '65536=1' is no [HOST:]PORT=LINK, as 2775=1"),
            ("--link 2775=4294967296", "error: '2775=4294967296' is no [HOST:]PORT=LINK, as 2775=1"),
            ("--link centre:2775=1", "error: 'centre:2775=1' is no [HOST:]PORT=LINK, as 2775=1"),
            ("--link 2775=1 --link 2775=2", "error: --link names a port twice"),
            *((f"--link 2775=1 --every {it}", seconds.format(it)) for it in ("0", "0.000", "1e3", "x", "1.", ".5", "0.0001", "1000001")),
            ("--link 2775=1 --ask link", "error: --ask wants --every, which says how often"),
            ("--link 2775=1 --first-session -", "error: '-' is no number of a session"),
            ("--link 2775=1 --first-session 18446744073709551616", "error: '18446744073709551616' is no number of a session")):
        yield f"words '{words}'", good, [], [text], 2, words
