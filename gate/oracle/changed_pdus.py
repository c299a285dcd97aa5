"""PDUs of SMPP that are changed at random, in one octet or in what a field of them says."""
import sys

sys.dont_write_bytecode = True

from lib.smpp_names import COMMANDS

SUBMIT_SM, DELIVER_SM, DATA_SM, RESPONSE = 0x04, 0x05, 0x103, 0x80000000
ENDS = (0, 1, 0x2B, 0x30, 0x7F, 0x80, 0xFF)
LENGTHS = (0, 3, 15, 16, 17, 131_071, 131_072, 131_073, 2**24, 2**31, 2**32 - 1)
NUMBERS = (0, 1, 1, 2, 2, 3, 4, 2**31, 2**32 - 1)
STATUSES = (0, 0, 1, 8, 88, 254, 1_024, 2**31, 2**32 - 1)
# Ids that are one number or none, or as long as an id may be; and texts of receipts
IDS = (b"", b"1", b"1", b"01", b"2", b"a", b"A", b"0a", b"10", b"16", b"%d" % (2**128 - 1), b"%d" % 2**128, b"%x" % (2**128 - 1),
       b"%X" % 2**128, b"0" * 64, b"0" * 63 + b"1", b"1" * 65, b"1 ", b"\xff")
WORDS = (
    b"id:", b" id:", b"ID:1", b"id:1 ", b" id:01", b" stat:", b" stat:DELIVRD", b"stat:EXPIRED", b" Stat:rejectd", b" stat:ENROUTE",
    b" stat:UNDELIV", b" stat:UNKNOWN\0", b" err:", b" err:027", b" err:1234567890abcdefg", b"000", b"1", b"0A", b" text:", b" TEXT: id:2",
    b"text:", b" submit date:", b" done date:", b" submit date:2601010000", b" done date:260101000130", b"230229235959",
    b" done date:2601010000", b"240229000059", b" ", b"  ", b":", b"\0", b"sub:001 dlvrd:001", b"id:" + b"9" * 64)
DATES = (b"2601010000", b"0002282359", b"0002290000", b"260101000004", b"260101000005", b"260101000029", b"260101000500", b"2601010100",
         b"2512312359", b"2602290000")
ADDRESSES = (b"447700900123", b"447700900123", b"+447700900123", b"44", b"+", b"", b"++44", b"999999999999999", b"9999999999999999",
             b"12a", b"0", b"\xff")
# Sources: numbers, names, none, and what no field of a line can have as it is; as long as one may be in a submit_sm and a data_sm, and longer
SOURCES = (b"1000", b"1000", b"ACME", b"acme", b"447700900999", b"+447700900999", b"12345", b"", b"none", b"zz", b"A,B", b'"', b'say "hi"', b"a\nb",
           b"\ntold,9,link,0,0,0,0"[:20], b"\r", b"\r\n", b" ", b"=1+1", b"<b>&", b"\\n", b"\xff\x80", "Žluť".encode(), b"\x01", b"0" * 20,
           b"0" * 21, b"9" * 64, b"x" * 65)
TONS = (0, 1, 2, 3, 4, 5, 5, 6, 7, 10, 255)
STATES = (b"DELIVRD", b"DELIVRD", b"EXPIRED", b"undeliv", b"ACCEPTD", b"REJECTD")
MESSAGE_PAYLOAD = 0x0424
TAGS = (0x001E, 0x0423, MESSAGE_PAYLOAD, 0x0427, 0x0000, 0xFFFF)
CODES = (b"\x03\x00\x1b", b"\x03\x00\x1b", b"\x00\xff\xff", b"\x03\x01", b"")


def framed(rest):
    """Returns the PDU of what stands behind its command_length."""
    return (len(rest) + 4).to_bytes(4, "big") + rest


def fields_at(pdu):
    """Returns where dest_addr_ton, esm_class and sm_length stand in a submit_sm or deliver_sm; None where they don't fit."""
    if int.from_bytes(pdu[4:8], "big") not in (SUBMIT_SM, DELIVER_SM):
        return None
    at, places = 16, []
    for behind in (2, 2, 3, 0, 4):
        at = pdu.find(b"\0", at) + 1
        if at == 0:
            return None
        places.append(at)
        at += behind
    return (places[1], places[2], at) if at < len(pdu) else None


def as_data_sm(draw, pdu):
    """Returns the data_sm that says what a submit_sm or deliver_sm does, whose text is message_payload; others as they are."""
    places = fields_at(pdu)
    if places is None:
        return pdu
    _, flags, at = places
    text, parameters = pdu[at + 1 : at + 1 + pdu[at]], pdu[at + 1 + pdu[at] :]
    payload = b"".join(it.to_bytes(2, "big") for it in (MESSAGE_PAYLOAD, len(text))) + text
    parts = [payload if text or draw.random() < 0.3 else b"", parameters]
    # (other parameters before message_payload, at times)
    parts = parts[::-1] if draw.random() < 0.2 else parts
    octets = bytes([pdu[flags], pdu[at - 4], draw.choice((0, 0, 1, 8))])
    return framed(DATA_SM.to_bytes(4, "big") + pdu[8:flags] + octets + b"".join(parts))


def with_data_sm(draw, pdu, _):
    return as_data_sm(draw, pdu) if fields_at(pdu) else with_octets(draw, pdu, _)


def maybe_framed(draw, pdu):
    """Returns octets with their own length in front, or the one that stands there."""
    return framed(pdu[4:]) if draw.random() < 0.7 else pdu


def with_octets(draw, pdu, _):
    octets = bytearray(pdu)
    for _ in range(draw.choice((1, 1, 2, 4))):
        at = draw.randrange(len(octets))
        octets[at] = draw.choice((draw.choice(ENDS), draw.randrange(256), octets[at] ^ 1 << draw.randrange(8)))
    return bytes(octets)


def with_length(draw, pdu, _):
    length = draw.choice((*LENGTHS, len(pdu) - 1, len(pdu) + 1, len(pdu) * 2))
    return length.to_bytes(4, "big") + pdu[4:]


def cut_off(draw, pdu, _):
    return maybe_framed(draw, pdu[: draw.randrange(4, len(pdu))])


def spliced(draw, pdu, others):
    other = draw.choice(others)
    return maybe_framed(draw, pdu[: draw.randrange(4, len(pdu))] + other[draw.randrange(len(other)) :])


def with_part_twice(draw, pdu, _):
    first, last = sorted((draw.randrange(4, len(pdu)), draw.randrange(4, len(pdu))))
    return maybe_framed(draw, pdu[:last] + pdu[first:])


def with_inserted(draw, pdu, _):
    at = draw.randrange(4, len(pdu))
    return maybe_framed(draw, pdu[:at] + draw.choice((draw.randbytes(draw.randint(1, 9)), draw.choice(WORDS), bytes(4))) + pdu[at:])


def with_header(draw, pdu, _):
    at, values = draw.choice(((4, (*COMMANDS, 4, 5, 0x80000004, DATA_SM, DATA_SM + RESPONSE, draw.randrange(2**32))), (8, STATUSES), (12, NUMBERS), (12, NUMBERS)))
    value = draw.choice(values) ^ (draw.choice((0, 0, RESPONSE)) if at == 4 else 0)
    return pdu[:at] + value.to_bytes(4, "big") + pdu[at + 4 :]


def with_text(draw, pdu, _):
    """A submit_sm or deliver_sm gets another text, and other flags at times."""
    places = fields_at(pdu)
    if places is None:
        return with_octets(draw, pdu, _)
    _, flags, at = places
    text = b"".join(draw.choice(WORDS) for _ in range(draw.randint(0, 7)))[:255]
    octets = bytearray(pdu[4:at] + bytes([len(text)]) + text + pdu[at + 1 + pdu[at] :])
    octets[flags - 4] = draw.choice((octets[flags - 4], 0, 4, 4, 0x20, 0x3C, 0x44))
    octets[at - 8] = draw.choice((octets[at - 8], 0, 1, 2, 3, 16))
    return framed(bytes(octets))


def with_address(draw, pdu, _):
    places = fields_at(pdu)
    if places is None:
        return with_octets(draw, pdu, _)
    at = places[0]
    return framed(pdu[4:at] + bytes([draw.choice((0, 1, 1, 2, 255)), 1]) + draw.choice(ADDRESSES) + pdu[places[1] - 1 :])


def with_source(draw, pdu, _):
    """A submit_sm or deliver_sm gets another source_addr, its type and its numbering plan."""
    places = fields_at(pdu)
    if places is None:
        return with_octets(draw, pdu, _)
    begin = pdu.find(b"\0", 16) + 1
    octets = draw.choice(SOURCES) if draw.random() < 0.9 else bytes(draw.randrange(1, 256) for _ in range(draw.randrange(23)))
    return framed(pdu[4:begin] + bytes([draw.choice(TONS) if draw.random() < 0.8 else draw.randrange(256), draw.randrange(2)]) + octets
                  + pdu[places[0] - 1 :])


def with_parameter(draw, pdu, _):
    tag, value = draw.choice((
        (0x001E, draw.choice(IDS)), (0x001E, draw.choice(IDS) + b"\0"), (0x0423, draw.choice(CODES)), (0x0427, draw.randbytes(1)),
        (0x0427, bytes([draw.randrange(10)])), (0x0424, b"".join(draw.sample(WORDS, 4))), (draw.choice(TAGS), draw.choice(CODES))))
    length = draw.choice((len(value), len(value), len(value), len(value), 0, len(value) + 1, 65_535))
    return maybe_framed(draw, pdu + tag.to_bytes(2, "big") + length.to_bytes(2, "big") + value)


def with_id(draw, pdu, _):
    """A response gets another id, any other a parameter."""
    if pdu[4] < 0x80:
        return with_parameter(draw, pdu, _)
    return framed(pdu[4:16] + draw.choice(IDS) + draw.choice((b"\0", b"\0", b"", b"\0\0")))


def made_long(draw, pdu, _):
    """A PDU is filled up to about the greatest length, seldom."""
    if draw.random() < 0.9:
        return with_octets(draw, pdu, _)
    length = draw.choice((65_536, 131_071, 131_072, 131_073))
    payload = min(65_535, length - len(pdu) - 4)
    filled = pdu + b"\x04\x24" + payload.to_bytes(2, "big") + b"id:1 stat:DELIVRD ".ljust(payload, b".")
    return framed(filled.ljust(length, draw.choice((b"\0", b"x")))[4:])


CHANGES = (with_octets, with_octets, with_length, cut_off, spliced, with_part_twice, with_inserted, with_header, with_header, with_text,
           with_text, with_address, with_source, with_parameter, with_id, with_id, with_data_sm, made_long)


def conversation(draw, submits, receipts, count):
    """Returns the PDUs of a client and its centre: so many messages, most with a response and receipts, made of those of others."""
    client, centre = [], []
    ids = IDS if draw.random() < 0.2 else [b"%d" % (draw.randrange(10**9) * 10 + it) for it in range(draw.choice((3, count, count)))]
    data_sms = draw.choice((0, 0, 0.1, 0.5))
    for number in range(1, count + 1):
        command = DATA_SM if draw.random() < data_sms else SUBMIT_SM
        submit = submit_asking(draw, draw.choice(submits), number)
        client.append(as_data_sm(draw, submit) if command == DATA_SM else submit)
        identity = draw.choice(ids)
        told = [response_with(draw, command, number, identity)] * draw.choice((0, 1, 1, 1, 1, 1, 1, 2))
        told += [receipt_saying(draw, draw.choice(receipts), receipt_text(draw, identity), data_sms)
                 for _ in range(draw.choice((0, 1, 1, 1, 2)))]
        centre += draw.sample(told, len(told)) if draw.random() < 0.2 else told
    return client, centre


def submit_asking(draw, submit, number):
    """Returns a submit_sm with that number, which asks for a receipt or doesn't, from any address to any."""
    at = fields_at(submit)[2] - 4
    flags = bytes([draw.choice((1, 1, 1, 1, 0, 2, 3, 16))])
    return with_source(draw, with_address(draw, submit[:12] + number.to_bytes(4, "big") + submit[16:at] + flags + submit[at + 1 :], ()), ())


def response_with(draw, command, number, identity):
    """Returns the response to a command with that number and id, or another response at times."""
    others = (RESPONSE, RESPONSE + 0x15, RESPONSE + SUBMIT_SM, RESPONSE + DATA_SM)
    command = RESPONSE + command if draw.random() < 0.95 else draw.choice(others)
    status = draw.choice(STATUSES) if draw.random() < 0.2 else 0
    return framed(b"".join(it.to_bytes(4, "big") for it in (command, status, number)) + identity + b"\0")


def receipt_text(draw, identity):
    words = [b"id:" + identity, b"stat:" + draw.choice(STATES)]
    words += draw.sample((
        b"err:027", b"err:" + b"Az_.-" * 3 + draw.choice((b"9", b"99", b"!")), b"submit date:" + draw.choice(DATES[:2]),
        b"done date:" + draw.choice(DATES), draw.choice((b"text:id:9", b"TEXT: stat:EXPIRED", b"Id:8"))), 3)
    return b" ".join(draw.sample(words, len(words)) if draw.random() < 0.3 else words)


def receipt_saying(draw, receipt, text, data_sms):
    """Returns a delivery receipt or an intermediate notification with that text, and parameters at times; so many are data_sm."""
    _, flags, at = fields_at(receipt)
    esm_class = bytes([draw.choice((4, 4, 4, 4, 0x20, 0x44))])
    receipt = framed(receipt[4:flags] + esm_class + receipt[flags + 1 : at] + bytes([len(text)]) + text)
    receipt = as_data_sm(draw, receipt) if draw.random() < data_sms else receipt
    for _ in range(draw.choice((0, 0, 0, 1, 2))):
        receipt = with_parameter(draw, receipt, ())
    return receipt


def changed(draw, pdus, others, rate):
    """Returns PDUs of which so many are changed, repeated, left out, exchanged or follow another one."""
    done = []
    for pdu in pdus:
        if draw.random() >= rate:
            done.append(pdu)
            continue
        kind = draw.randrange(10)
        if kind == 0:
            done += [pdu, pdu]
        elif kind == 1:
            done.insert(draw.randint(0, len(done)), pdu)
        elif kind == 2:
            done += [draw.choice(others), pdu]
        elif kind > 3:
            done.append(draw.choice(CHANGES)(draw, pdu, others))
    return done
