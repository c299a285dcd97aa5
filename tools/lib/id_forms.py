"""The ids of a link's messages and delivery receipts, and by which forms most receipts are of a message, for tools/check-script."""
import collections
import itertools
import re

from lib.loader import load
from lib.report_names import FORMS

PLACES = load("places")
# command_id of submit_sm_resp and data_sm_resp, and of deliver_sm and data_sm; esm_class of receipts, and the tag of their id
RESPONSES, RECEIPTS = (b"\x80\0\0\x04", b"\x80\0\x01\x03"), (b"\0\0\0\x05", b"\0\0\x01\x03")
KINDS, RECEIPTED_MESSAGE_ID = (0x04, 0x20), b"\0\x1e"
# So many ids are looked at, of messages and of receipts; the octets that an id has at most
MOST_IDS, LONGEST_ID = 20_000, 64
DIGITS = {"decimal": (re.compile(rb"[0-9]+"), 10), "hexadecimal": (re.compile(rb"[0-9A-Fa-f]+"), 16)}


def receipted_id(pdu):
    """Returns the id that a deliver_sm or data_sm tells of as a delivery receipt; nothing where it is none."""
    _, _, at = PLACES.addresses_of(pdu)
    if at is None or at >= len(pdu) or pdu[at] & 0x3C not in KINDS and RECEIPTED_MESSAGE_ID not in pdu[at:]:
        return b""
    return PLACES.receipted_id(pdu, at)


def key_of(identity, form):
    """Returns what two ids of a form have in common: a number, or their octets."""
    digits, base = DIGITS.get(form, (None, 0))
    number = int(identity, base) if digits and digits.fullmatch(identity) else 2**128
    return number if number < 2**128 else identity


class Ids:
    """The ids of a link: of its messages, by their responses, and of its receipts."""

    def __init__(self):
        self.messages, self.receipts = [], []

    def take(self, pdu):
        """Takes a PDU of the centre. (A receipt may be of a message that isn't looked at, once there are as many as are.)"""
        command, identity, ids = pdu[4:8], b"", self.messages
        if len(self.messages) == MOST_IDS or len(self.receipts) == MOST_IDS:
            return
        if command in RESPONSES and pdu[8:12] == b"\0\0\0\0":
            identity = pdu[16:].split(b"\0", 1)[0]
        elif command in RECEIPTS:
            identity, ids = receipted_id(pdu), self.receipts
        if 0 < len(identity) <= LONGEST_ID:
            ids.append(identity)

    def matches(self, forms):
        """Returns for each receipt of how many messages it is."""
        response, receipt = forms
        keys = collections.Counter(key_of(it, response) for it in self.messages)
        return [keys[key_of(it, receipt)] for it in self.receipts]

    def slip(self, link, forms):
        """Returns what is told where most receipts are of no message, or None."""
        found = self.matches(forms)
        if 2 * found.count(0) <= len(found):
            return None
        matched = {it: self.matches(it).count(1) for it in itertools.product(FORMS, repeat=2)}
        # (of those by which as many match the one that sets the fewest)
        best = max([forms, *sorted(matched, key=lambda pair: sum(it != FORMS[0] for it in pair))], key=matched.get)
        told = f"link {link}: {found.count(0)} of {len(found)} receipts are of no message by the forms {forms[0]} and {forms[1]}"
        if best == forms:
            return f"{told}, nor more by others: are sessions of the link missing, or the hours before?"
        return (f'{told}; by {best[0]} and {best[1]} {matched[best]} are of one: response = "{best[0]}", receipt = "{best[1]}" in settings, '
                f"or a row `form,{link},{best[0]},{best[1]}`")


class IdsOfLinks:
    """The ids of each link, and its forms by settings and rows."""

    def __init__(self, settings):
        self.forms = {it["id"]: (it.get("response", FORMS[0]), it.get("receipt", FORMS[0])) for it in settings.get("link", [])}
        self.links = collections.defaultdict(Ids)

    def take(self, link, pdu):
        """Takes a PDU of the centre."""
        self.links[link].take(pdu)

    def slips(self):
        """Yields what is told of links most of whose receipts are of no message."""
        for link, ids in sorted(self.links.items()):
            told = ids.slip(link, self.forms.get(link, (FORMS[0], FORMS[0])))
            if told:
                yield told
