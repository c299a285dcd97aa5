"""Random captures of connections that were made here: which octets were really sent, and frames of them as a network and a capture leave
them."""
import collections
import random
import struct

from oracle.made_captures import ACK, FIN, RST, SYN, ethernet, ipv4, ipv6, linux_cooked, linux_cooked_2, packet, pcap, pcapng, tcp

SUBMIT_SM, DELIVER_SM, ENQUIRE_LINK, RESPONSE = 0x04, 0x05, 0x15, 0x80000000
PSH = 8
VENDOR, BROADCAST_SM = 0x00010201, 0x111
# (which tcpdump.org numbers, and how a packet is put into a frame of them)
FRAMES = ((1, ethernet), (1, lambda it: ethernet(it, [0x8100])), (113, linux_cooked), (276, None), (101, bytes))

# A connection that was made: its ends, and of its client and of its centre the octets, the places of PDUs, and what a capture lost
Sent = collections.namedtuple("Sent", "client centre streams begins lost")
# Of a direction: how many octets no packet of the capture has among those that it has; how many it hasn't at all, or behind later ones,
# when they may be given up; whether they end with a FIN that it hasn't, behind an octet that it hasn't, though a packet has a number behind
# it; and the octets with those of probes that can't be told from others
Lost = collections.namedtuple("Lost", "among all has_end doubtful")
# A capture: its octets, the connections in their order, the words, and whether packets of it are lost
Made = collections.namedtuple("Made", "capture sent words is_lossy status")


def pdu(command, number, body=b"", status=0):
    return struct.pack(">4I", 16 + len(body), command, status, number) + body


def request(draw, number, is_plain):
    """Returns a random request, of SMPP 3.4 where it is to be plain; the number is its sequence number."""
    kind = 1 if is_plain else draw.random()
    if kind < 0.1:
        return pdu(ENQUIRE_LINK, number)
    if kind < 0.15:
        return pdu(VENDOR, number, draw.randbytes(draw.randrange(40)))
    if kind < 0.18:
        return pdu(BROADCAST_SM, number, draw.randbytes(draw.randrange(40)))
    return pdu(draw.choice((SUBMIT_SM, DELIVER_SM)), number, draw.randbytes(draw.choice((20, 50, 140, 300))))


def streams_of(draw, size, is_plain):
    """Returns the octets of a client and a centre, by steps of who sends which PDU, and the places at which PDUs begin."""
    steps, number = [], {"client": 0, "centre": 0}
    for _ in range(draw.randrange(1, size)):
        sender = draw.choice(("client", "client", "centre"))
        other = "centre" if sender == "client" else "client"
        number[sender] += 1
        asked = request(draw, number[sender], is_plain)
        steps.append((sender, asked))
        if draw.random() < 0.9:
            command = int.from_bytes(asked[4:8], "big") + RESPONSE
            steps.append((other, pdu(command, number[sender], draw.randbytes(draw.randrange(12)), draw.choice((0, 0, 0, 8)))))
    return steps


class Connection:
    """A connection as it is sent: packets of it, in order."""

    def __init__(self, draw, client, centre, size, before, is_plain):
        self.draw, self.client, self.centre = draw, client, centre
        # (numbers that pass 2^32 are likely; two connections of the same ends have numbers far from each other)
        self.first = {it: (2**32 - draw.randrange(9_000) if draw.random() < 0.3 else draw.randrange(2**32)) for it in ("client", "centre")}
        while any(self.first[it] - earlier.first[it] + 2**25 & 0xFFFFFFFF < 2**26 for earlier in before for it in self.first):
            self.first = {it: draw.randrange(2**32) for it in self.first}
        self.sent = {"client": bytearray(), "centre": bytearray()}
        self.begins = {"client": [], "centre": []}
        self.steps = streams_of(draw, size, is_plain)
        # packets: sender, place, octets, flags, acknowledged place
        self.packets = []

    def add(self, sender, place, octets, flags):
        other = "centre" if sender == "client" else "client"
        self.packets.append((sender, place, bytes(octets), flags, len(self.sent[other])))

    def send(self, ends):
        """Makes the packets."""
        draw = self.draw
        self.packets.append(("client", -1, b"", SYN, None))
        self.packets.append(("centre", -1, b"", SYN | ACK, 0))
        self.add("client", 0, b"", ACK)
        waits = {"client": bytearray(), "centre": bytearray()}
        for at, (sender, octets) in enumerate(self.steps):
            self.begins[sender].append(len(self.sent[sender]) + len(waits[sender]))
            waits[sender] += octets
            if draw.random() < 0.7 or at + 1 == len(self.steps):
                for who in draw.sample(("client", "centre"), 2):
                    while waits[who]:
                        size = draw.choice((len(waits[who]), 1460, 100, 60, 17, 5) if draw.random() < 0.3 else (len(waits[who]), 1460))
                        part = waits[who][:size]
                        del waits[who][:size]
                        place = len(self.sent[who])
                        self.sent[who] += part
                        self.add(who, place, part, ACK)
                        if draw.random() < 0.3:
                            other = "centre" if who == "client" else "client"
                            self.add(other, len(self.sent[other]), b"", ACK)
            if draw.random() < 0.03:
                who = draw.choice(("client", "centre"))
                place = len(self.sent[who])
                # (a probe that keeps the connection alive; PSH keeps it in its place)
                self.add(who, place - 1, b"\0", ACK | PSH)
        if ends == "fin":
            for who, last in (("client", 0), ("centre", 1)):
                other = "centre" if who == "client" else "client"
                self.packets.append((who, len(self.sent[who]), b"", FIN | ACK, len(self.sent[other]) + last))
            self.packets.append(("client", len(self.sent["client"]) + 1, b"", ACK, len(self.sent["centre"]) + 1))
        elif ends == "reset":
            self.packets.append((draw.choice(("client", "centre")), None, b"", RST | ACK, None))

    def frame(self, packet, is_v6):
        """Returns the IP packet of a packet."""
        sender, place, octets, flags, acknowledged = packet
        other = "centre" if sender == "client" else "client"
        place = len(self.sent[sender]) if place is None else place
        number = (self.first[other] + (len(self.sent[other]) if acknowledged is None else acknowledged)) if flags & ACK else 0
        ends = (self.client, self.centre) if sender == "client" else (self.centre, self.client)
        segment = tcp(*ends, self.first[sender] + place, octets, flags, number)
        return ipv6(*ends, segment) if is_v6 else ipv4(*ends, segment)


def disturbed(draw, connection, is_lossy):
    """Returns the packets of a connection as a capture has them: repeats, overlaps, out of order, and, where it is lossy, lost ones."""
    packets, sent = [], connection.sent
    repeats, order, rate = draw.choice((0, 0.05)), draw.choice((0, 0.05)), draw.choice((0.005, 0.02, 0.1)) if is_lossy else 0
    burst = 0
    for it in connection.packets:
        burst = burst - 1 if burst else (draw.randrange(2, 12) if draw.random() < rate / 10 else 0)
        if burst or draw.random() < rate:
            continue
        packets.append(it)
        sender, place, octets, flags, acknowledged = it
        if draw.random() < repeats and octets:
            kind = draw.random()
            if kind < 0.4:
                packets.append(it)
            else:
                # (one that overlaps what was sent before, and goes on to the same end)
                start = max(0, place - draw.randrange(200))
                packets.append((sender, start, bytes(sent[sender][start : place + len(octets)]), flags, acknowledged))
    for at in range(len(packets) - 1, 3, -1):
        # (none but those with octets change places, and none goes before a SYN)
        if draw.random() < order:
            back = draw.randrange(1, 6)
            if at - back > 3 and packets[at][3] == ACK and packets[at - back][3] == ACK:
                packets.insert(at - back, packets.pop(at))
    return packets


def lost_of(connection, packets, sender):
    """Returns what of a direction isn't in packets of its connection."""
    stream, other = connection.sent[sender], "centre" if sender == "client" else "client"
    size, acknowledged = len(stream), 0
    captured, late, probes = bytearray(size), bytearray(size), {}
    for who, place, octets, flags, number in packets:
        if who == other:
            acknowledged = max(acknowledged, number or 0)
        elif octets and not is_probe(flags, octets):
            end, top = place + len(octets), captured.rfind(1) + 1
            late[place:end] = bytes(captured[it] == 0 and it < top or late[it] for it in range(place, end))
            captured[place:end] = b"\1" * len(octets)
        elif octets and place >= 0 and not captured[place]:
            probes[place] = probes.get(place, True) and captured.rfind(1) + 1 < place < acknowledged
    seen, doubtful = bytearray(captured), bytearray(stream)
    # RFC 9293, 3.8.4: a probe comes when all was acknowledged, and its octet is garbage; it can't be told from others where no packet
    # before it acknowledges it, or where the octets right before it come
    for place, is_known in probes.items():
        if not is_known or (captured[place - 1] if place else 1):
            seen[place] = 1
            doubtful[place] = doubtful[place] if is_known and captured[place] else 0
    # (where no answer to the SYN was captured, it isn't known where both streams begin)
    has_answer = any(flags & SYN and flags & ACK for _, _, _, flags, _ in packets)
    among, least_seen = seen[: seen.rfind(1) + 1].count(0) if has_answer else 0, captured.count(1) - sum(late)
    # RFC 9293, 3.4: a FIN has the number behind the last octet, and is acknowledged as octets are
    has_fin = any(who == sender and flags & FIN for who, _, _, flags, _ in packets)
    is_behind = acknowledged > size or any(who == sender and place is not None and place > size for who, place, *_ in packets)
    return Lost(among, size - least_seen, captured[-1:] == b"\0" and is_behind and not has_fin, bytes(doubtful))


def is_probe(flags, octets):
    return flags & PSH and octets == b"\0"


def made(seed, is_lossy, is_plain=False):
    """Returns a capture, what was sent, and the words; with PDUs of SMPP 3.4 alone where it is to be plain."""
    draw = random.Random(seed)
    is_v6 = draw.random() < 0.2
    link_type, link = draw.choice(FRAMES)
    if link is None:
        link = linux_cooked_2
    if is_v6 and link in (linux_cooked, linux_cooked_2):
        link_type, link = 1, ethernet
    connections, flows = [], []
    for _ in range(draw.randrange(1, 4)):
        host = "2001:db8::1" if is_v6 else "192.0.2.1"
        client, centre = (host, draw.choice((41000, 41001, 41002))), ("2001:db8::9" if is_v6 else "192.0.2.9", 2775)
        flow = []
        for _ in range(draw.choice((1, 1, 2))):
            one = Connection(draw, client, centre, draw.choice((8, 60)), flow, is_plain)
            one.send(draw.choice(("fin", "reset", "none")))
            flow.append(one)
        if any(it[0].client == client for it in flows):
            continue
        flows.append(flow)
    queues, lost = [], {}
    for flow in flows:
        queue = []
        for one in flow:
            packets = disturbed(draw, one, is_lossy)
            lost[one] = {it: lost_of(one, packets, it) for it in ("client", "centre")}
            queue += [(one, it) for it in packets]
        queues.append(queue)
    moment, frames, order = 1_000_000, [], []
    while any(queues):
        queue = draw.choice([it for it in queues if it])
        one, it = queue.pop(0)
        moment += draw.choice((0, 1, 5, 50, 700))
        frames.append((moment, link(one.frame(it, is_v6))))
        # (a connection begins with the answer to its SYN)
        if it[3] == SYN | ACK and one not in order:
            order.append(one)
    if draw.random() < 0.3:
        capture = pcapng(frames, link_type=link_type, order=draw.choice("<>"))
    else:
        capture = pcap(frames, link_type, order=draw.choice("<>"), magic=draw.choice((0xA1B2C3D4, 0xA1B23C4D)))
    # (where that may be lost, it is enough that those of the same ends stand in their order)
    order = [one for flow in flows for one in flow] if is_lossy else order
    sent = [Sent(it.client, it.centre, {k: bytes(v) for k, v in it.sent.items()}, it.begins, lost[it]) for it in order]
    return Made(capture, sent, ["capture", "--link", "2775=7"], is_lossy, None)
