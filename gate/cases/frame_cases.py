"""Cases of `smq capture` in what stands around a segment: frames of each link type, IP headers, fragments, and snap lengths that cut them.
A name, the capture, the rows, and, where there are any, what is told, the status and the words."""
import struct

from oracle.made_captures import ACK, CENTRE, CENTRE_FIRST, CENTRE_V6, CLIENT, CLIENT_FIRST, CLIENT_V6, CONVERSATION, RAW_IP, STRICT, SYN
from oracle.made_captures import WORDS, client, conversation, ethernet, gaps, handshake, ipv4, ipv6, linux_cooked, linux_cooked_2
from oracle.made_captures import linux_cooked_with_tag, missing, pcap, row, tcp, told

NO_CENTRE = told("no packet from the centre, though the other end sent octets")


def link_type_cases():
    """Yields the cases of each link type: the name, the capture, the rows."""
    def with_tag(content):
        return ethernet(content, [0x8100])

    def with_tags(content):
        return ethernet(content, [0x88A8, 0x8100])

    kinds = [("Ethernet", 1, ethernet), ("one VLAN tag", 1, with_tag), ("two VLAN tags", 1, with_tags),
             ("Linux cooked", 113, linux_cooked), ("Linux cooked with a VLAN tag", 113, linux_cooked_with_tag),
             ("Linux cooked 2", 276, linux_cooked_2),
             ("BSD loopback, little end first", 0, lambda it: struct.pack("<I", 2) + it),
             ("BSD loopback, big end first", 0, lambda it: struct.pack(">I", 2) + it),
             ("OpenBSD loopback", 108, lambda it: struct.pack(">I", 2) + it),
             ("raw IP", 101, bytes), ("raw IP of BSD", 12, bytes), ("raw IP of OpenBSD", 14, bytes), ("raw IPv4", 228, bytes),
             ("Ethernet with a trailer", 1, lambda it: ethernet(it) + bytes(6))]
    for name, link_type, link in kinds:
        yield name, pcap(conversation(link), link_type), CONVERSATION
    yield "a checksum told in the link type", pcap(conversation(), 0x24000001), CONVERSATION


def ip_cases():
    """Yields the cases of IP headers."""
    def version_6(headers=b"", first=6):
        ends = (CLIENT_V6, CENTRE_V6)
        syn = ipv6(*ends, tcp(*ends, CLIENT_FIRST - 1, flags=SYN), headers, first)
        back = ends[::-1]
        answer = ipv6(*back, tcp(*back, CENTRE_FIRST - 1, flags=SYN | ACK, acknowledged=CLIENT_FIRST), headers, first)
        octets = ipv6(*ends, tcp(*ends, CLIENT_FIRST, b"ab"), headers, first)
        return [syn, answer, octets]

    def with_options(content):
        head = b"\x46" + content[1:2] + struct.pack(">H", len(content) + 4) + content[4:20]
        return ethernet(head + b"\x01" * 4 + content[20:])

    def without_length(content):
        return ethernet(content[:2] + b"\x00\x00" + content[4:])

    rows = CONVERSATION[:1]
    yield "IPv4 options", pcap(conversation(with_options)), CONVERSATION
    yield "IPv4 of no length, as a network card is to cut it", pcap(conversation(without_length)), CONVERSATION
    yield "IPv6", pcap([ethernet(it) for it in version_6()]), rows
    yield "IPv6 on BSD loopback", pcap([struct.pack("<I", 30) + it for it in version_6()], 0), rows
    yield "raw IPv6", pcap(version_6(), 229), rows
    hops, ends = b"\x2b" + bytes(7), b"\x06\x01" + bytes(14)
    routing, whole_fragment, authentication = b"\x2c\x00" + bytes(6), b"\x33\x07" + bytes(6), b"\x3c\x01" + bytes(10)
    headers = hops + routing + whole_fragment + authentication + ends
    yield "IPv6 extension headers", pcap(version_6(headers, 0), RAW_IP), rows
    others = [b"\x02" * 12 + b"\x08\x06" + bytes(28), ethernet(ipv4(CLIENT, CENTRE, bytes(20), protocol=17)), bytes(12)]
    frames = [*zip(range(1000, 1040, 10), conversation()), *((1050, it) for it in others)]
    yield "packets other than TCP", pcap(frames), CONVERSATION


def fragment_cases():
    """Yields the cases of fragments: datagrams are put together of them."""
    octets = b"abcdefghijkl" * 6
    segment = tcp(CLIENT, CENTRE, CLIENT_FIRST, octets)
    pieces = [ethernet(ipv4(CLIENT, CENTRE, segment[:24], pieces=0x2000)),
              ethernet(ipv4(CLIENT, CENTRE, segment[24:], pieces=3))]
    rows = [row("client", 1030, octets), row("client", 1040, b"mn")]
    for name, words in (("fragments of IPv4", WORDS), ("the same, --strict", STRICT)):
        yield name, pcap([*handshake(), *pieces, client(72, b"mn")]), rows, [], 0, words
    yield "a segment in fragments and whole", pcap([*handshake(), *pieces, client(72, b"mn"), client(0, octets)]), rows
    ends = (CLIENT_V6, CENTRE_V6)
    segment = tcp(*ends, CLIENT_FIRST, octets)
    frames = [ipv6(*ends, tcp(*ends, CLIENT_FIRST - 1, flags=SYN)),
              ipv6(*ends[::-1], tcp(*ends[::-1], CENTRE_FIRST - 1, flags=SYN | ACK)),
              ipv6(*ends, segment[:24], b"\x06\x09\x00\x01" + bytes(4), 44),
              ipv6(*ends, segment[24:], b"\x06\x09\x00\x18" + bytes(4), 44),
              ipv6(*ends, tcp(*ends, CLIENT_FIRST + 72, b"mn"))]
    # (the answer doesn't acknowledge the SYN: the octets begin the connection, and nothing of the centre was seen)
    yield "fragments of IPv6", pcap(frames, RAW_IP), rows, [NO_CENTRE], 1, STRICT


def snap_cases():
    """Yields the cases of snap lengths that cut frames."""
    frames = [*handshake(), client(0, b"abcdef"), client(6, b"g")]
    snap = 14 + 20 + 20 + 4
    yield "a snap length within octets", pcap([*handshake(), client(0, b"abcdef")], snap=snap), [row("client", 1020, b"abcd")], [
        missing(4, 5), told("packets cut off by the snap length: 1 from the client, the first is packet 3"), gaps(1, 2)], 1
    short = "packets cut off by the snap length before their octets: 4, the first is packet 1"
    yield "a snap length within headers", pcap(frames, snap=40), [], [short], 1
