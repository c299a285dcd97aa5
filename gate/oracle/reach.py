"""How much each row of a script reaches, by what crates/smq_book/specs/edits/Reach.antt says of weights and reach."""
import collections

from lib.report_names import DIRECTIONS, WINDOW
from oracle.counts_again import (DATA_SM, DELIVER_SM, RESPONSE, SUBMIT_SM, WITHOUT_RESPONSE, Pdu, Present, Receipt, fields_of, key_of, number_of,
                           receipt_of, usable_id, word)

# number: of the destination, or None
Message = collections.namedtuple("Message", "pdu number asks_receipt")


class Read:
    """What the octets of a session say so far."""

    def __init__(self, link):
        self.link, self.rests = link, {it: (0, b"") for it in DIRECTIONS}
        # PDUs by place; places by direction, whether they are responses, sequence number and rank, and the other way round
        self.pdus, self.places, self.seats, self.ranks = {}, {}, {}, collections.Counter()
        # by place: submit_sm and data_sm of the client, and receipts with their ids as they are written
        self.messages, self.receipts = {}, {}

    def add(self, session, direction, moment, octets):
        """Reads octets; returns the places of the PDUs that they complete."""
        (begin, rest), at, found = self.rests[direction], 0, []
        octets, side = rest + octets, DIRECTIONS.index(direction)
        # (a bad length stays where it is, and nothing behind it is read)
        while at + 4 <= len(octets) and 16 <= word(octets, at) <= 131_072 and at + word(octets, at) <= len(octets):
            pdu = octets[at : at + word(octets, at)]
            found.append((session, side, begin + at))
            self.put(Pdu(found[-1], moment, pdu, word(pdu, 4), word(pdu, 8), word(pdu, 12)))
            at += len(pdu)
        self.rests[direction] = begin + at, octets[at:]
        return found

    def put(self, pdu):
        self.pdus[pdu.at] = pdu
        if pdu.command not in WITHOUT_RESPONSE:
            seat = pdu.at[1], pdu.command >= RESPONSE, pdu.number
            self.seats[pdu.at] = (*seat, self.ranks[seat])
            self.places[self.seats[pdu.at]] = pdu.at
            self.ranks[seat] += 1
        if pdu.at[1] == 0 and pdu.command in (SUBMIT_SM, DATA_SM):
            fields = fields_of(pdu)
            if fields is not None:
                self.messages[pdu.at] = Message(pdu, number_of(fields), fields.registered & 3 != 0)
        elif pdu.at[1] == 1 and pdu.command in (DELIVER_SM, DATA_SM):
            receipt = receipt_of(pdu, self.link, "verbatim")
            if isinstance(receipt, Receipt):
                self.receipts[pdu.at] = receipt

    def other(self, place, is_response):
        """Returns the place of the response to a request, or of the request of a response, or None."""
        direction, its, *rest = self.seats.get(place, (0, is_response))
        return None if its == is_response else self.places.get((1 - direction, is_response, *rest))


class Reaching(Present):
    """What rows leave, and how much the last row that was made reached."""

    def __init__(self):
        super().__init__()
        # by session; by place the key of an accepted message or of a receipt; by key accepted messages, receipts and those that can decide
        self.read, self.keys, self.reach = {}, {}, None
        self.accepted, self.received, self.deciding = (collections.Counter() for _ in range(3))

    def read_of(self, place):
        return self.read[place[0]]

    def form(self, link, at):
        return self.forms.get(link, ("verbatim", "verbatim"))[at]

    def key_of_message(self, place):
        """Returns the key of a message where it is accepted: its response agrees, has status 0 and an id."""
        its = self.read_of(place)
        response = its.pdus.get(its.other(place, True))
        if response is None or response.command != its.pdus[place].command | RESPONSE or response.status:
            return None
        identity = usable_id(response.octets[16:])
        return identity and key_of(its.link, identity, self.form(its.link, 0))

    def key_of_receipt(self, place):
        its = self.read_of(place)
        return key_of(its.link, its.receipts[place].key[1], self.form(its.link, 1))

    def count(self, place, by):
        """Counts an accepted message or a receipt in the group of its key, or takes it out of it."""
        its = self.read_of(place)
        if by < 0:
            key = self.keys.pop(place, None)
        else:
            key = self.key_of_message(place) if place in its.messages else self.key_of_receipt(place)
        if key is None:
            return
        if by > 0:
            self.keys[place] = key
        (self.accepted if place in its.messages else self.received)[key] += by
        if place in its.receipts and its.receipts[place].decides:
            self.deciding[key] += by

    def weight(self, place):
        """Returns 1, and how many accepted messages and receipts have the key of the PDU at a place, or of the message that it answers."""
        its = self.read_of(place)
        key = self.keys.get(place)
        request = its.other(place, False)
        if key is None and request in its.messages:
            key = self.keys.get(request)
        return 1 + self.accepted[key] + self.received[key]

    def weights(self, places):
        return sum(self.weight(it) for it in places)

    def read_on(self, link):
        return [it for it in self.read.values() if it.link == link]

    def is_due(self, place, message):
        """Whether a message is open or has lapsed: its key is its own, none decides, and it asks for a receipt."""
        key = self.keys.get(place)
        return key is not None and self.accepted[key] == 1 and not self.deciding[key] and message.asks_receipt

    def count_open(self, clock):
        return sum(self.is_due(at, message) and clock < message.pdu.moment + self.windows.get(its.link, WINDOW)
                   for its in self.read.values() for at, message in its.messages.items())

    def count_under(self, prefix):
        return sum(it.number is not None and it.number.startswith(prefix) for its in self.read.values() for it in its.messages.values())

    def play_piece(self, link, session, direction, moment, octets):
        refused = super().play_piece(link, session, direction, moment, octets)
        if refused:
            return refused
        its = self.read.setdefault(session, Read(link))
        places = its.add(session, direction, moment, octets)
        for place in places:
            for at in (place, its.other(place, False)):
                if at in its.messages or at in its.receipts:
                    self.count(at, -1)
                    self.count(at, 1)
        self.reach = self.weights(places)
        return None

    def play_withdraw(self, session):
        refused = super().play_withdraw(session)
        if refused:
            return refused
        its = self.read[session]
        self.reach = self.weights(its.pdus)
        for place in (*its.messages, *its.receipts):
            self.count(place, -1)
        del self.read[session]
        return None

    def play_form(self, link, response, receipt):
        places = [at for its in self.read_on(link) for at in (*its.messages, *its.receipts)]
        self.reach = self.weights(places)
        for place in places:
            self.count(place, -1)
        super().play_form(link, response, receipt)
        for place in places:
            self.count(place, 1)
        self.reach += self.weights(places)

    def play_window(self, link, window):
        self.reach = sum(self.is_due(at, message) for its in self.read_on(link) for at, message in its.messages.items())
        super().play_window(link, window)

    def play_route(self, prefix, *values):
        self.reach = self.count_under(prefix)
        return super().play_route(prefix, *values)

    def play_end(self, prefix, *values):
        self.reach = self.count_under(prefix)
        return super().play_end(prefix, *values)

    def play_correct(self, prefix, *values):
        self.reach = self.count_under(prefix)
        return super().play_correct(prefix, *values)

    def play_clock(self, moment):
        before = self.count_open(self.clock)
        refused = super().play_clock(moment)
        self.reach = before - self.count_open(self.clock)
        return refused
