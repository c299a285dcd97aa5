"""A script with each kind of what tools/evidence blanks, made of parts: octets that stay, or a pair of octets as they are and as they are
wanted. No reader of PDUs has a part in it."""
import hashlib
import random

SUBMIT_SM, DELIVER_SM, DATA_SM, RESPONSE = 0x04, 0x05, 0x103, 0x80000000
MOMENT = 1_793_491_200_000
# (a number begins with the last but one, another would as soon as its last digits are 0)
ROUTES = ("route,44,0,1,23410\nroute,4477009,0,2,23410\nroute,447700900123,0,3,23415\nroute,44770090000,0,4,23420\n"
          "form,1,verbatim,verbatim\n")
SETTINGS = b"clock = 1793491300000\n# a comment\n[[link]]\nid = 1\n"
# A program that stands in for smq: of what is blanked it writes another line, or tells it, where NAME is played
STAND_IN = """#!/usr/bin/env python3
import sys, time
name, is_blanked = sys.argv[1], b"2a2a2a2a" in sys.stdin.buffer.read()
if name == "--version":
    print("smq 9.9.9")
else:
    time.sleep({wait})
    number, source = (447700900400, 44700) if is_blanked else (447700900456, 44770)
    print(f"number,id,source\\n{{number}},1,{{source}}" if name == "messages" else "a\\nb")
    if is_blanked and name == "{name}":
        print("{line}", file=sys.{to})
        sys.stdout.flush()
    sys.exit({status})
"""


def stars(text):
    return text, b"*" * len(text)


def ended(kept, last):
    """Returns an address whose last digits are blanked."""
    return kept + last, kept + b"0" * len(last)


def joined(*parts):
    """Returns parts, each as it is and as it is wanted."""
    pairs = [it if isinstance(it, tuple) else (it, it) for it in parts]
    return b"".join(it for it, _ in pairs), b"".join(it for _, it in pairs)


def pdu(command, number, *parts):
    return joined(*(b"".join(it.to_bytes(4, "big") for it in (16 + len(joined(*parts)[0]), command, 0, number)), *parts))


def parameter(tag, *parts):
    return joined(tag.to_bytes(2, "big") + len(joined(*parts)[0]).to_bytes(2, "big"), *parts)


def addressed(source, destination, ton=1):
    return joined(b"\0\1\1", source, b"\0", bytes([ton]), b"\1", destination, b"\0")


def message(command, number, addresses, text=(b"", b""), *parameters, esm_class=0):
    """Returns a submit_sm or deliver_sm, or a data_sm, in which text is a parameter."""
    if command == DATA_SM:
        return pdu(command, number, addresses, bytes([esm_class, 1, 0]), *([parameter(0x0424, text)] if text[0] else []), *parameters)
    behind = bytes([esm_class, 0, 0, 0, 0, 1, 0, 8, 0, len(text[0])])
    return pdu(command, number, addresses, behind, text, *parameters)


def accepted(command, number):
    return pdu(command | RESPONSE, number, b"%d\0" % number)


def receipt(identity, state, text, before=b""):
    return joined(b"id:" + identity + b" ", before, b"sub:001 dlvrd:001 submit date:2611010000 done date:2611010001 stat:" + state
                  + b" err:008 Text:", stars(text))


TEXT, WIDE = b"Dear customer, your code is 83519", "Žluťoučký kůň".encode("utf-16-be")
PAYLOAD = b"A long text of message_payload " * 9
SENDER, SUBSCRIBER = ended(b"447", b"700900999"), ended(b"447", b"700900456")
ACME = b"ACME"
CLIENT = [
    pdu(0x09, 1, b"esme1\0", stars(b"s3cr3tpw"), b"\0VMA\0\x34\0\0", ended(b"447", b"700900888"), b"\0"),
    message(SUBMIT_SM, 2, addressed(ACME, b"447700900123"), stars(TEXT)),
    message(SUBMIT_SM, 3, addressed(SENDER, ended(b"4477009004", b"56")), stars(WIDE), parameter(0x0381, stars(b"\1\0\1447700900777"))),
    message(SUBMIT_SM, 4, addressed(ACME, ended(b"+491511234", b"5678")), stars(TEXT), parameter(0x0424, stars(PAYLOAD)),
            stars(b"\4\x24\0")),
    message(DATA_SM, 5, addressed(ACME, ended(b"3361234", b"1234")), stars(PAYLOAD), parameter(0x0204, stars(b"\0\7"))),
    message(DATA_SM, 6, addressed(ACME, ended(b"3361234", b"9876")), stars(b"id:7 stat:DELIVRD text:secret"), esm_class=4),
    message(SUBMIT_SM, 7, addressed(ACME, ended(b"0770090", b"0777"), ton=2), stars(b"national")),
    message(SUBMIT_SM, 8, addressed(ACME, ended(b"12a", b"4567")), stars(b"no number")),
    # (sources: a short number; one with what CSV quotes, and octets of no UTF-8; as long as a line has one; longer, which lines have as empty)
    message(SUBMIT_SM, 30, addressed(ended(b"+383", b"83"), ended(b"447911", b"0333")), stars(b"short")),
    message(SUBMIT_SM, 31, addressed(joined(b'1"2\r\n3,', (b"4", b"0"), b"\xff", (b"5", b"0")), ended(b"447911", b"0444")), stars(b"odd")),
    message(SUBMIT_SM, 32, addressed(joined(b"BANK24 7", (b"9", b"0"), b"hours", (b"123456", b"000000")), ended(b"447911", b"0555")), stars(b"long")),
    message(DATA_SM, 33, addressed(joined(b"x" * 53, ended(b"447", b"70090077")), ended(b"447911", b"0666")), stars(b"longer")),
    message(DELIVER_SM, 9, addressed(SENDER, ended(b"44", b"5678")), stars(b"id:7 stat:DELIVRD"), esm_class=4),
    pdu(0x21, 10, stars(b"\0\1\1ACME\0\2\1\1\1447700900321\0\0\0\0\0\0\1\0\0\0\5hello")),
    pdu(0x07, 11, stars(b"1\0\1\1ACME\0\0\0\0\0\5hello")),
    pdu(0x15, 12),
    # (its fields don't fit: it stays)
    pdu(SUBMIT_SM, 13, b"\0\1\1ACME\0\1\1447911000111\0\0\0\0\0\0\0\0\0\0\xffleft")]
CENTRE = [
    pdu(0x0B, 1, stars(b"smsc\0outbindpw\0")),
    pdu(0x80000009, 1, b"smsc\0\2\x10\0\1\x34"),
    *(accepted(DATA_SM if number in (5, 6) else SUBMIT_SM, number) for number in range(2, 9)),
    message(DELIVER_SM, 20, addressed(ended(b"447", b"700900123"), ACME), receipt(b"2", b"DELIVRD", TEXT[:20]), esm_class=4),
    message(DELIVER_SM, 21, addressed(SUBSCRIBER, ACME),
            receipt(b"3", b"UNDELIV", WIDE[:20], joined(stars(b"msisdn:447700900456"), b" ")), parameter(0x0424, stars(b"not read")),
            esm_class=4),
    message(DELIVER_SM, 22, addressed(SUBSCRIBER, ACME), stars(b"Message to 447700900456 was delivered"), parameter(0x001E, b"4\0"),
            parameter(0x0427, b"\2"), parameter(0x0423, b"\3\0\x08"), parameter(0x1401, stars(b"447700900456"))),
    message(DATA_SM, 23, addressed(SUBSCRIBER, ACME), receipt(b"5", b"REJECTD", b"A long text"), esm_class=4),
    message(DELIVER_SM, 24, addressed(SUBSCRIBER, ACME), (b"", b""), parameter(0x0424, receipt(b"6", b"EXPIRED", b"secret text")),
            parameter(0x0424, stars(b"id:6 stat:DELIVRD")), esm_class=0x44),
    message(DELIVER_SM, 25, addressed(SUBSCRIBER, ACME), receipt(b"7", b"ENROUTE", b"national"), esm_class=0x20),
    message(DELIVER_SM, 26, addressed(SUBSCRIBER, ended(b"44790000", b"1234")), stars(b"STOP id:8 stat:DELIVRD text:please")),
    message(DELIVER_SM, 27, addressed(SUBSCRIBER, ended(b"", b"7000")), stars(WIDE)),
    message(SUBMIT_SM, 28, addressed(SUBSCRIBER, ended(b"", b"7000")), stars(b"id:8 stat:DELIVRD"), esm_class=4),
    # (a PDU that isn't whole: it stays)
    (bytes.fromhex("000000400000000500000000"), bytes.fromhex("000000400000000500000000"))]
BROKEN = [message(SUBMIT_SM, 1, addressed(ACME, ended(b"4479", b"1100")), stars(b"before")), (b"\0\0\0\7broken", b"\0\0\0\7broken")]
# Octets that stay though they are none of a PDU that is read, and those of refused rows
LEFT = len(CLIENT[-1][0]) - 16 + len(CENTRE[-1][0]) + len(BROKEN[-1][0]) + 3 + 5
REFUSED = (b"backward text", b"of another link")
# What no file of a folder may have
SECRETS = (b"s3cr3tpw", b"outbindpw", TEXT, TEXT[:20], WIDE, PAYLOAD[:31], b"83519", b"secret", b"447700900456", b"447700900999",
           b"447700900777", b"447700900321", b"447700900888", b"4915112345678", b"33612341234", b"33612349876", b"07700900777", b"Message",
           b"STOP", b"please", b"hello", b"national", b"not read", b"msisdn", "Žluť".encode(), *REFUSED)
MANIFESTS = (b"[[[[", b"[" * 100_000, b"a = [1]", b'a = "\t"', b"a = 01", b"a = 1\na = 2", b"\xff = 1", b"a = \x00", b"x" * 5_000_000, b"",
             b"[[file]]\nname = 7")
# Scripts that can't be read, and what is told of them
BAD_SCRIPTS = (
    (b"clock,1\npiece,1,1,client,5,0\n", "line 2: HEX: `0` has 1 digit; wanted: an even number of hexadecimal digits"),
    (b"clock,1\n\nask,link\n", "line 3: `ask`; wanted: "), (b'clock,1\n"clock",1"\n', "line 2: "), (b"\x00\xff\n", "line 1: "),
    (b'"' * 3, "line 1: "), (b"clock," + b"1" * 70_000_000, "line 1: it has more than 67108864 characters"),
    ("piece,1,1,client,٣,00\n".encode(), "smq total ended with status 2: row 1: bad row"))
# What the program that stands in writes more of what is blanked: where it is played, the line, and where that goes; and what is told
DIFFERENCES = (
    ("total", "c", "stdout", "report.csv differs: line 3"), ("receipts", "c", "stdout", "receipts.csv differs: line 3"),
    ("messages", "447700900456,2", "stdout", "messages.csv differs: line 3, column number: '447700900456', and '' is wanted"),
    ("total", "row 3: 6 NoSession", "stderr", "report.csv differs: the refused rows"))


def cut_at(pairs, sizes):
    """Returns the octets of a direction, cut: whole PDUs for no sizes, else by these in turn."""
    given, wanted = joined(*pairs)
    if not sizes:
        sizes = [len(it) for it, _ in pairs]
    at, turn = 0, 0
    while at < len(given):
        size = sizes[turn % len(sizes)]
        yield given[at : at + size], wanted[at : at + size]
        at, turn = at + size, turn + 1


def script_of(sizes):
    """Returns a script whose directions are cut, as it is and as it is wanted. Rows of both directions are mixed."""
    lanes = [[f"piece,1,10,{name},{MOMENT},", list(cut_at(pairs, sizes))] for name, pairs in (("client", CLIENT), ("centre", CENTRE))]
    lanes.append([f"piece,1,{2**64 - 1},client,{MOMENT},", list(cut_at(BROKEN, sizes)) + [(b"end", b"end")]])
    turns = [at for at, (_, pieces) in enumerate(lanes) for _ in pieces]
    random.Random(len(turns)).shuffle(turns)
    lanes = [(head, iter(pieces)) for head, pieces in lanes]
    rows = [(head, next(pieces)) for head, pieces in (lanes[it] for it in turns)]
    rows += [(f"piece,1,10,centre,{MOMENT - 1},", stars(REFUSED[0])), (f"piece,2,10,client,{MOMENT},", stars(REFUSED[1])),
             (f"piece,1,12,client,{MOMENT},", (b"\0\0\1\0\5", b"\0\0\1\0\5")), ("piece,1,13,client,5,", (b"", b""))]
    given, wanted = ("".join(f"{head}{both[it].hex()}\n" for head, both in rows) + "withdraw,12\nwithdraw,12\n" for it in (0, 1))
    return (ROUTES + given).encode(), (ROUTES + wanted).encode()


def script_of_links(links):
    """Returns a script of links 1 to 3 as it is, and as it is wanted of some."""
    given, wanted = (it.decode().splitlines(True) for it in script_of((3, 40, 1, 7, 200)))
    # (the links of which each row has to be; what is wanted of none is of link 0)
    ours = [(set() if one.startswith("route") else {1, 2} if one.startswith("piece,2,") else {1}, one, other) for one, other in zip(given, wanted)]
    ours[-1] = ({0}, *ours[-1][1:])

    def piece(needed, link, session, direction, octets):
        return (needed, *(f"piece,{link},{session},{direction},{MOMENT},{it.hex()}\n" for it in octets))

    texts = {it: message(SUBMIT_SM, 99, addressed(ACME, ended(b"447911%d" % it, b"5678")), stars(b"a text of link %d" % it)) for it in (1, 2, 3)}
    plain = (({2}, "form,2,decimal,decimal\n"), ({2}, "window,2,60000\n"), ({1}, "window,1,86400000\n"), ({2}, "withdraw,20\n"))
    first, second, third, leave = ((needed, text, text) for needed, text in plain)
    head = [first, second, third, piece({2}, 2, 14, "client", (b"", b"")), piece({2}, 2, 20, "client", texts[2]),
            piece({2}, 2, 21, "client", texts[2]), piece({3}, 3, 30, "client", texts[3]),
            piece({1, 2}, 1, 20, "client", stars(b"of link 1 in a session of link 2"))]
    tail = [piece({2}, 2, 20, "centre", accepted(SUBMIT_SM, 99)), piece({3}, 3, 30, "centre", accepted(SUBMIT_SM, 99)), leave,
            piece({1}, 1, 20, "client", texts[1]), piece({1}, 1, 20, "centre", accepted(SUBMIT_SM, 99)), piece({1}, 1, 14, "client", texts[1])]
    rows = [*head, *ours, *tail]
    return tuple("".join(it).encode() for it in ([one for _, one, _ in rows], [it for needed, _, it in rows if needed <= links]))


def sums_changed(manifest, name, octets):
    """Returns a manifest in which a file has the sum of other octets."""
    head, _, behind = manifest.partition(f'name = "{name}"\nsha256 = "'.encode())
    return head + f'name = "{name}"\nsha256 = "{hashlib.sha256(octets).hexdigest()}'.encode() + behind[64:]
