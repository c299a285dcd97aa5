"""Cases of `smq capture` in pcapng: a name, the capture, the rows, and, where there are any, what is told and the status."""
import gzip
import struct

from cases.file_cases import NOTHING, PACKED
from oracle.made_captures import CONVERSATION, RAW_IP, block, client, conversation, gaps, handshake, interface, missing, option, packet
from oracle.made_captures import pcapng, row, section, told

NOT_READ = "packets without a moment, or of a link type that isn't read, not read: "
NO_SESSION = ("no session: no connection has a port that --link names",
              "nor any other: was another interface captured, or a filter too narrow?")


def pcapng_cases():
    """Yields the cases of pcapng: byte orders, sections, interfaces, moments, and blocks that have no packet."""
    frames, begin = conversation(), b"".join((section(), interface()))
    for order, order_name in (("<", "little end first"), (">", "big end first")):
        yield f"pcapng, {order_name}", pcapng(frames, order=order), CONVERSATION
        yield f"pcapng, {order_name}, obsolete packet blocks", pcapng(frames, order=order, kind=2), CONVERSATION
        for fractions, told_by in ((10**9, 9), (10**3, 3), (2**10, 0x8A), (2**40, 0xA8)):
            options = option(9, bytes([told_by]), order)
            yield f"pcapng, {order_name}, fractions of {fractions}", pcapng(frames, fractions, options, order), CONVERSATION
    offset = option(2, b"interface 0") + option(14, struct.pack("<q", 86_400)) + option(9, b"\x03")
    later = [row("client", 86_401_020, b"ab"), row("centre", 86_401_030, b"cde")]
    yield "pcapng, an offset of a day", pcapng(frames, 1000, offset), later
    back = option(14, struct.pack(">q", -1), ">")
    yield "pcapng, an offset of -1 s", pcapng([*zip(range(2000, 2040, 10), frames)], options=back, order=">"), CONVERSATION
    others = [block(4, bytes(20)), block(5, bytes(32)), block(0x0BAD, bytes(8)), block(0x40000BAD, b"x" * 200_001), block(77, b"")]
    kept = [packet(it, (1000 + 10 * at) * 1000) for at, it in enumerate(frames)]
    yield "pcapng, blocks without packets", section() + others[4] + interface() + b"".join(
        a + b for a, b in zip(kept, others)), CONVERSATION
    comment = option(1, b"a comment") + bytes(4)
    yield "pcapng, packets with options", begin + b"".join(
        packet(it, (1000 + 10 * at) * 1000, options=comment) for at, it in enumerate(frames)), CONVERSATION
    second = [(1020, frames[2]), (1030, frames[3])]
    yield "pcapng, two sections", pcapng(frames[:2]) + pcapng(second, 10**9, option(9, b"\x09", ">"), ">"), CONVERSATION
    raw = [packet(it[14:], 1000 + 10 * at, 1) for at, it in enumerate(frames)]
    both = begin + interface(RAW_IP, option(9, b"\x03"))
    yield "pcapng, two interfaces", both + kept[0] + raw[1] + kept[2] + raw[3], CONVERSATION
    yield "pcapng, no packets", begin, [], [NOTHING], 1
    yield "pcapng, a section alone", section(), [], [NOTHING], 1
    for order, order_name in (("<", "little end first"), (">", "big end first")):
        yield f"pcapng, {order_name}, statistics by which packets were dropped", pcapng(frames, order=order) + statistics(500, 3, order), \
            CONVERSATION, ["the capture says that packets were dropped: 503"], 1
    yield "pcapng, statistics by which none were", pcapng(frames) + statistics(0, 0), CONVERSATION


def pcapng_loss_cases():
    """Yields the cases of pcapng in which packets aren't read, or the file is cut off or broken."""
    frames, begin = conversation(), b"".join((section(), interface()))
    whole = pcapng(frames)
    simple = block(3, struct.pack("<I", len(frames[0])) + frames[0])
    yield "pcapng, packets without a moment", begin + simple + whole + simple, CONVERSATION, [
        NOT_READ + "2, the first is packet 1"], 1
    foreign = packet(frames[0], 0, 1)
    yield "pcapng, an interface that isn't read beside another", (
        begin + interface(147) + foreign + foreign + b"".join(packet(it, 1_000_000 + 10_000 * at) for at, it in enumerate(frames))), \
        CONVERSATION, [NOT_READ + "2, the first is packet 1"], 1
    # (what isn't read of a file is passed over)
    yield "pcapng of another link type", pcapng(handshake(), link_type=147), [], [NOT_READ + "2, the first is packet 1", *NO_SESSION], 1
    early = pcapng([(1_999, handshake()[0])], options=option(14, struct.pack("<q", -2)))
    yield "pcapng, a moment before the first", early, [], [NOT_READ + "1, the first is packet 1", *NO_SESSION], 1
    late = pcapng([(4_102_444_800_001, handshake()[0])])
    yield "pcapng, a moment past the last", late, [], ["smq: the moment of packet 1 is past the year 2099"], 2
    snap = 14 + 20 + 20 + 4
    yield "pcapng, a snap length within octets", pcapng([*handshake(), client(0, b"abcdef")], snap=snap), [
        row("client", 1020, b"abcd")], [
        missing(4, 5), told("packets cut off by the snap length: 1 from the client, the first is packet 3"), gaps(1, 2)], 1
    last = len(packet(frames[3], 0))
    for name, octets in (("its last length", 1), ("its frame", 20), ("its head", last - 10), ("its type", last - 2)):
        yield f"pcapng that ends within a packet, {name}", whole[:-octets], CONVERSATION[:1], ["the file ends within packet 4"], 1
    yield "pcapng that ends within another block", whole + block(5, bytes(32))[:-1], CONVERSATION, [
        "the file ends within packet 5"], 1
    yield "pcapng that ends within a section", whole + section()[:10], CONVERSATION, ["the file ends within packet 5"], 1
    packed = gzip.compress(whole)
    yield "pcapng, packed by gzip", packed, [], [PACKED], 2
    yield "pcapng, packed by gzip, and cut off", packed[:-8], [], [PACKED], 2
    # (a block needs 12 octets, and one that isn't read is skipped)
    for name, octets in (("a length that is no multiple of four", struct.pack("<II", 6, 45)),
                         ("a packet of no length", struct.pack("<II", 6, 0)),
                         ("a block of 3 GB", struct.pack("<II", 5, 3_000_000_000))):
        yield f"pcapng, {name}", whole + octets, CONVERSATION, ["the file ends within packet 5"], 1
    # (the octet is that of the field that can't be, counted from the block's first)
    for name, octets, place in (
            ("a packet shorter than its head", struct.pack("<II", 6, 28) + bytes(20), 4),
            ("another length at the end", block(6, bytes(40))[:-4] + struct.pack("<I", 48), 48),
            ("more octets than the block has", block(6, struct.pack("<5I", 0, 0, 0, 9, 9) + bytes(8)), 20),
            ("an interface that isn't described", packet(frames[0], 0, 1), 8)):
        yield f"pcapng, {name}", whole + octets, CONVERSATION, [
            f"the block of packet 5, or one before it, is broken, at octet {len(whole) + place} of the file"], 1
    broken = section().replace(b"\x4d\x3c\x2b\x1a", bytes(4))
    yield "pcapng, a section of no byte order", whole + broken, CONVERSATION, ["smq: CAPTURE: it is no pcap or pcapng file"], 2


def statistics(by_interface, by_system, order="<"):
    """Returns the block by which an interface and the system dropped so many packets."""
    counts = option(5, struct.pack(order + "Q", by_interface), order) + option(7, struct.pack(order + "Q", by_system), order)
    return block(5, struct.pack(order + "3I", 0, 0, 0) + counts + bytes(4), order)
