"""Blanks what is private in a script, in octets on which no figure of smq rests, for tools/evidence."""
import collections
import csv
import itertools
import operator
import os
import re

from lib.id_forms import KINDS
from lib.loader import load
from lib.smpp_names import RESPONSE
from lib.tables import Unfit, records_of

CHECK, PLACES = load("check-script"), load("places")
SUBMIT_SM, DELIVER_SM, DATA_SM = MESSAGES = PLACES.SUBMIT_SM, PLACES.DELIVER_SM, PLACES.DATA_SM
BINDS = (0x01, 0x02, 0x09)
# Responses without private octets
PLAIN_RESPONSES = tuple(it + RESPONSE for it in (*BINDS, *MESSAGES))
MESSAGE_PAYLOAD, RECEIPTED_MESSAGE_ID = PLACES.MESSAGE_PAYLOAD, PLACES.RECEIPTED_MESSAGE_ID
# Parameters that smq reads: receipted_message_id, network_error_code and message_state
READ_PARAMETERS = (RECEIPTED_MESSAGE_ID, 0x0423, 0x0427)
# What of a delivery receipt's text is read: the values of names before ` text:` (docs/FORMATS.md, Delivery receipts)
TEXT, NAMES = re.compile(rb"(?i) text:"), re.compile(rb"(?i)(?:^|(?<= ))(?:id|sub|dlvrd|submit date|done date|stat|err):[^ ]*")
NUMBER, DIGIT, DIGIT_OF_TEXT = re.compile(rb"\+?([0-9]{1,15})"), re.compile(rb"[0-9]"), re.compile(r"[0-9]")
# So many digits of a source stay, whoever's number it is
SHOWN_OF_SOURCE = 3
# What is blanked: passwords of binds; texts; digits of destination and source addresses; other parameters, and what is no whole one;
# bodies of commands that smq doesn't read; octets of refused rows
BLANKED = ("password", "text", "destination", "source", "parameter", "body", "refused")
# A row has so many characters at most
LONGEST_ROW = 67_108_864


def rows_of(file):
    """Yields the values of each row of a script, and its fields."""
    csv.field_size_limit(LONGEST_ROW)
    for line, fields in records_of(file, longest=LONGEST_ROW):
        piece = CHECK.plain_piece(fields)
        values, wrong = (("piece", *piece), None) if piece else CHECK.row_of(fields)
        if wrong:
            name, there, wanted = wrong
            raise Unfit(f"line {line}: {name[2:] + ': ' if name else ''}{there}; wanted: {wanted}")
        yield values, fields


def rows_of_links(file, links):
    """Yields the fields of a script's rows that are of some links, or of no link. Those of a session are of the link under which it is present,
    and a row of another link in it, which smq refuses, of both."""
    present, found = {}, set()
    for values, fields in rows_of(file):
        needed = set(values[1:2]) if values[0] in ("form", "window") else set()
        if values[0] == "withdraw":
            needed = {present.pop(values[1], None)}
        elif values[0] == "piece":
            _, link, session, _, _, octets = values
            needed = {link, present.get(session, link)}
            found.add(link)
            if octets:
                present.setdefault(session, link)
        if needed <= links:
            yield fields
    if links - found:
        raise Unfit(f"the script has no piece of link {min(links - found)}")


def text_of(octets, command, at):
    """Returns where short_message begins and ends, of a message whose esm_class is at a place; None where the fields don't fit. A data_sm
    has no octets there."""
    if at is None:
        return None
    if command == DATA_SM:
        return (at + 3, at + 3) if at + 3 <= len(octets) else None
    _, at = PLACES.c_octets(octets, at + 3)
    _, at = PLACES.c_octets(octets, at)
    end = at + 5 + octets[at + 4] if at + 4 < len(octets) else len(octets) + 1
    return (at + 5, end) if end <= len(octets) else None


def parameters_of(octets, at):
    """Yields the tag of each whole parameter, and where its value begins and ends; last, as no tag, what is no whole one."""
    while at + 4 <= len(octets):
        end = at + 4 + int.from_bytes(octets[at + 2 : at + 4], "big")
        if end > len(octets):
            break
        yield int.from_bytes(octets[at : at + 2], "big"), at + 4, end
        at = end
    yield None, at, len(octets)


def receipt_text(text):
    """Returns the text of a delivery receipt with `*` for all but its names and values, the spaces around them and ` text:`."""
    found = TEXT.search(text)
    end = found.start() if found else len(text)
    out = bytearray(b"*" * len(text))
    for it in (*NAMES.finditer(text, 0, end), *([found] if found else [])):
        begin, behind = max(0, it.start() - (it is not found)), it.end() + (it is not found)
        out[begin:behind] = text[begin:behind]
    return out


class Blanking:
    """Blanks octets of whole PDUs by others, and counts them by what they are."""

    def __init__(self, digits, prefixes):
        self.digits, self.prefixes = digits, prefixes
        self.octets, self.left, self.kept = dict.fromkeys(BLANKED, 0), 0, 0

    def prefixes_of(self, number):
        return [number[:it] for it in range(1, len(number) + 1) if number[:it] in self.prefixes]

    def stays(self, number):
        """Returns how many digits of an E.164 number stay, so that the same prefixes of routes begin it with 0 in place of the others."""
        wanted, count = self.prefixes_of(number), len(number)
        tried = range(max(0, count - self.digits), count)
        return next((it for it in tried if self.prefixes_of(number[:it].ljust(count, "0")) == wanted), count)

    def number(self, number):
        """Returns an E.164 number with its last digits blanked."""
        return number[: self.stays(number)].ljust(len(number), "0")

    def source(self, source):
        """Returns a source of a line with its digits blanked, but the first."""
        digits = itertools.count()
        return DIGIT_OF_TEXT.sub(lambda it: it[0] if next(digits) < SHOWN_OF_SOURCE else "0", source)

    def put(self, out, kind, begin, end, octets=None):
        """Puts octets where others begin and end, `*` unless given."""
        octets = b"*" * (end - begin) if octets is None else octets
        self.octets[kind] += sum(map(operator.ne, octets, out[begin:end]))
        out[begin:end] = octets

    def put_digits(self, out, kind, places):
        for at in places:
            self.put(out, kind, at, at + 1, b"0")

    def put_destination(self, out, begin, end):
        """Blanks the destination's last digits. Routes are of numbers alone (docs/FORMATS.md, Bodies)."""
        places = [it.start() for it in DIGIT.finditer(out, begin, end)]
        wanted, number = min(self.digits, len(places)), NUMBER.fullmatch(out, begin, end)
        is_number = number and out[begin - 2] in (0, 1)
        count = len(places) - self.stays(number[1].decode()) if is_number else wanted
        self.kept += count < wanted
        self.put_digits(out, "destination", places[len(places) - count :])

    def put_source(self, out, begin, end):
        self.put_digits(out, "source", [it.start() for it in DIGIT.finditer(out, begin, end)][SHOWN_OF_SOURCE:])

    def bind(self, octets, out):
        _, at = PLACES.c_octets(octets, 16)
        password, behind = PLACES.c_octets(octets, at)
        self.put(out, "password", at, at + len(password))
        _, at = PLACES.c_octets(octets, behind)
        address_range, _ = PLACES.c_octets(octets, at + 3)
        self.put_source(out, at + 3, at + 3 + len(address_range))

    def message(self, octets, out, command, direction):
        source, destination, flags = PLACES.addresses_of(octets)
        text = text_of(octets, command, flags)
        if text is None:
            self.left += len(octets) - 16
            return
        at = flags - 1 - len(destination)
        self.put_destination(out, at, flags - 1)
        self.put_source(out, at - 3 - len(source), at - 3)
        parameters = list(parameters_of(octets, text[1]))
        is_receipt = direction == "centre" and command != SUBMIT_SM and (
            octets[flags] & 0x3C in KINDS or any(tag == RECEIPTED_MESSAGE_ID for tag, *_ in parameters))
        texts = [text, *((begin, end) for tag, begin, end in parameters if tag == MESSAGE_PAYLOAD)]
        # (of a receipt short_message is read, or the first message_payload where it is empty)
        read = next(iter(texts if text[0] < text[1] else texts[1:]), None) if is_receipt else None
        for begin, end in texts:
            self.put(out, "text", begin, end, receipt_text(octets[begin:end]) if (begin, end) == read else None)
        for tag, begin, end in parameters:
            if tag != MESSAGE_PAYLOAD and tag not in READ_PARAMETERS:
                self.put(out, "parameter", begin, end)

    def pdu(self, octets, direction):
        """Returns a whole PDU of a direction with what is private blanked."""
        command, out = PLACES.word(octets, 4), bytearray(octets)
        if command in BINDS:
            self.bind(octets, out)
        elif command in MESSAGES:
            self.message(octets, out, command, direction)
        elif command not in PLAIN_RESPONSES:
            self.put(out, "body", 16, len(octets))
        return bytes(out)


class Direction:
    """One direction of a session. rows: of those with octets of a PDU that isn't whole, the offset of the first of these, where it
    stands in the file, and how many they are."""

    def __init__(self):
        self.stream, self.rows = CHECK.Stream(), collections.deque()


class Script:
    """The rows of a script that are written to a file, blanked. A PDU may be cut over rows: until it is whole, `*` stands there."""

    def __init__(self, file, blanking):
        self.file, self.blanking, self.at, self.links, self.directions = file, blanking, 0, {}, {}

    def write(self, text):
        self.file.write(text)
        self.at += len(text)

    def take(self, values, fields):
        """Takes a row, as smq does (docs/FORMATS.md, Refusals)."""
        if values[0] == "piece":
            self.piece(*values[1:])
            return
        if values[0] == "withdraw" and self.links.pop(values[1], None) is not None:
            for name in ("client", "centre"):
                self.leave(self.directions.pop((values[1], name), None))
        self.write((",".join(fields) + "\n").encode())

    def piece(self, link, session, name, moment, octets):
        self.write(b"piece,%d,%d,%s,%d," % (link, session, name.encode(), moment))
        direction = self.directions.get((session, name))
        is_refused = not octets or self.links.get(session, link) != link or direction and moment < direction.stream.moment
        if is_refused:
            self.blanking.octets["refused"] += len(octets)
            row = b"*" * len(octets)
        else:
            self.links[session] = link
            row = self.blanked(self.directions.setdefault((session, name), direction or Direction()), name, moment, octets)
        self.write(row.hex().encode() + b"\n")

    def blanked(self, direction, name, moment, octets):
        """Returns the octets of a row of a direction, and writes those of rows before with which PDUs are whole now."""
        stream = direction.stream
        if stream.is_broken:
            stream.moment = moment
            self.blanking.left += len(octets)
            return octets
        begin, offset, row = stream.offset + len(stream.rest), stream.offset, bytearray(b"*" * len(octets))
        for pdu in stream.add(moment, octets):
            found = self.blanking.pdu(pdu, name)
            self.put(direction.rows, offset, found)
            row[max(0, offset - begin) : offset + len(pdu) - begin] = found[max(0, begin - offset) :]
            offset += len(pdu)
        first = max(begin, offset)
        if first < begin + len(octets):
            direction.rows.append((first, self.at + 2 * (first - begin), begin + len(octets) - first))
        if stream.is_broken:
            row[first - begin :] = stream.rest[first - offset :]
            direction.rows.pop()
            self.leave(direction)
            stream.rest.clear()
        return row

    def put(self, rows, offset, octets):
        """Writes octets of a direction from an offset on to the rows that wait for them."""
        if rows:
            self.file.flush()
        while rows:
            first, place, count = rows.popleft()
            os.pwrite(self.file.fileno(), octets[first - offset : first - offset + count].hex().encode(), place)

    def leave(self, direction):
        """Writes as they are the octets that no PDU has."""
        if direction:
            self.blanking.left += len(direction.stream.rest)
            self.put(direction.rows, direction.stream.offset, direction.stream.rest)

    def end(self):
        for direction in self.directions.values():
            self.leave(direction)
        self.file.flush()
