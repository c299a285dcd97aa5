"""Makes small captures of one connection or more, and rows and lines that `smq capture` gives of them."""
import socket
import struct

CLIENT, CENTRE = ("192.0.2.1", 40000), ("192.0.2.9", 2775)
CLIENT_V6, CENTRE_V6 = ("2001:db8::1", 40000), ("2001:db8::9", 2775)
CLIENT_FIRST, CENTRE_FIRST = 1_000, 500_000
FIN, SYN, RST, ACK = 1, 2, 4, 16
ETHERNET, RAW_IP = 1, 101
# The words of cases
WORDS, STRICT = "--link 2775=7", "--link 2775=7 --strict"


def tcp(source, destination, sequence, octets=b"", flags=ACK, acknowledged=0):
    """Returns a TCP segment."""
    words = 8 if flags & SYN else 5
    numbers = (source[1], destination[1], sequence % 2**32, acknowledged % 2**32, words << 4, flags, 65535, 0, 0)
    return struct.pack(">HHIIBBHHH", *numbers) + b"\x01" * (words * 4 - 20) + octets


def ipv4(source, destination, content, protocol=6, options=b"", pieces=0x4000, length=None):
    """Returns an IP packet of version 4."""
    size = 20 + len(options)
    length = size + len(content) if length is None else length
    head = struct.pack(">BBHHHBBH", 0x40 + size // 4, 0, length, 1, pieces, 64, protocol, 0)
    return head + socket.inet_aton(source[0]) + socket.inet_aton(destination[0]) + options + content


def ipv6(source, destination, content, headers=b"", first=6):
    """Returns an IP packet of version 6."""
    head = struct.pack(">IHBB", 0x60000000, len(headers) + len(content), first, 64)
    ends = [socket.inet_pton(socket.AF_INET6, it[0]) for it in (source, destination)]
    return head + b"".join(ends) + headers + content


def ethernet(content, tags=()):
    """Returns an Ethernet frame, with VLAN tags of these types."""
    protocol = 0x86DD if content[0] >> 4 == 6 else 0x0800
    tagged = b"".join(struct.pack(">HH", it, 5) for it in tags)
    return b"\x02" * 12 + tagged + struct.pack(">H", protocol) + content


def linux_cooked(content):
    return struct.pack(">HHH8sH", 0, 1, 6, b"\x02" * 8, 0x0800) + content


def linux_cooked_with_tag(content):
    return struct.pack(">HHH8sHHH", 0, 1, 6, b"\x02" * 8, 0x8100, 5, 0x0800) + content


def linux_cooked_2(content):
    return struct.pack(">HHIHBB8s", 0x0800, 0, 3, 1, 0, 6, b"\x02" * 8) + content


def pcap(frames, link_type=ETHERNET, order="<", magic=0xA1B2C3D4, snap=None):
    """Returns a capture of frames, the first at 1000 ms and each 10 ms after the one before unless it has its moment."""
    pairs = [it if isinstance(it, tuple) else (1000 + 10 * at, it) for at, it in enumerate(frames)]
    nanoseconds = 1_000_000 if magic == 0xA1B23C4D else 1_000
    capture = struct.pack(order + "IHHiIII", magic, 2, 4, 0, 0, 65535, link_type)
    for moment, frame in pairs:
        fraction = moment % 1000 * nanoseconds + nanoseconds // 2
        kept = frame[:snap]
        capture += struct.pack(order + "4I", moment // 1000, fraction, len(kept), len(frame)) + kept
    return capture


def block(kind, body, order="<"):
    """Returns a block of pcapng."""
    body += bytes(-len(body) % 4)
    length = struct.pack(order + "I", 12 + len(body))
    return struct.pack(order + "I", kind) + length + body + length


def section(order="<", version=1):
    return block(0x0A0D0D0A, struct.pack(order + "I2Hq", 0x1A2B3C4D, version, 0, -1), order)


def interface(link_type=ETHERNET, options=b"", order="<"):
    """Returns the block of an interface; options as option() gives them."""
    return block(1, struct.pack(order + "HHI", link_type, 0, 0) + (options + bytes(4) if options else b""), order)


def option(code, value, order="<"):
    return struct.pack(order + "HH", code, len(value)) + value + bytes(-len(value) % 4)


def packet(frame, moment, number=0, order="<", kind=6, snap=None, options=b""):
    """Returns the block of a packet of an interface: enhanced, or obsolete (2); its moment counts the interface's fractions."""
    kept = frame[:snap]
    head = struct.pack(order + ("5I" if kind == 6 else "2H4I"), *((number,) if kind == 6 else (number, 0)), moment >> 32,
                       moment & 0xFFFFFFFF, len(kept), len(frame))
    return block(kind, head + kept + (bytes(-len(kept) % 4) + options if options else b""), order)


def pcapng(frames, fractions=1_000_000, options=b"", order="<", kind=6, link_type=ETHERNET, snap=None):
    """Returns a section with an interface and frames, at the moments that pcap() gives them, in so many fractions of a second."""
    pairs = [it if isinstance(it, tuple) else (1000 + 10 * at, it) for at, it in enumerate(frames)]
    packets = [packet(frame, -(-moment * fractions // 1000), order=order, kind=kind, snap=snap) for moment, frame in pairs]
    return b"".join([section(order), interface(link_type, options, order), *packets])


def client(offset, octets=b"", flags=ACK, acknowledged=0, link=ethernet, ends=(CLIENT, CENTRE), first=CLIENT_FIRST):
    """Returns a frame of the client with octets from an offset of its stream on."""
    acknowledged = CENTRE_FIRST + acknowledged
    return link(ipv4(*ends, tcp(*ends, first + offset, octets, flags, acknowledged)))


def centre(offset, octets=b"", flags=ACK, acknowledged=0, link=ethernet, ends=(CENTRE, CLIENT), first=CENTRE_FIRST):
    """Returns a frame of the centre with octets from an offset of its stream on."""
    acknowledged = CLIENT_FIRST + acknowledged
    return link(ipv4(*ends, tcp(*ends, first + offset, octets, flags, acknowledged)))


def handshake(link=ethernet):
    """Returns the two SYN of a connection, at 1000 and 1010 ms."""
    return [client(-1, b"", SYN, -CENTRE_FIRST, link=link), centre(-1, b"", SYN | ACK, link=link)]


def conversation(link=ethernet):
    """Returns a connection with octets of both ends, at 1020 and 1030 ms."""
    return [*handshake(link), client(0, b"ab", link=link), centre(0, b"cde", acknowledged=2, link=link)]


def row(direction, moment, octets, session=1, number=7):
    return f"piece,{number},{session},{direction},{moment},{octets.hex()}"


def told(text, session=1, number=7):
    return f"session {session} (link {number}): {text}"


def missing(first, last, sender="client"):
    return told(f"octets {first} to {last} from the {sender} are missing: nothing after them is written")


def no_syn(sender, session=1):
    return told(f"no SYN seen from the {sender}: the first octets of its stream may be missing", session)


def passed(count, sender="client", session=1):
    return told(f"octets from the {sender} before a PDU was seen to begin, not written: {count}", session)


def gaps(count, octets, not_written=0):
    """Returns the line that sums up so many gaps."""
    return f"gaps: {count}; octets missing: {octets}, captured and not written: {not_written}"


# An enquire_link
PDU = struct.pack(">4I", 16, 0x15, 0, 1)
CONVERSATION = [row("client", 1020, b"ab"), row("centre", 1030, b"cde")]
