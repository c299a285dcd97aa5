"""What rows of a script leave present, why some are refused, and the report and the lines of it, by plain searches over all that is
there: README.md and docs/FORMATS.md read once more."""
import bisect
import collections
import datetime
import itertools
import re

from lib.report_names import BANDS, DIRECTIONS, LISTED_STANDINGS, LISTS, OUTCOMES, VIEWS, WINDOW

SUBMIT_SM, DELIVER_SM, DATA_SM, GENERIC_NACK, RESPONSE = 0x04, 0x05, 0x103, 0x80000000, 0x80000000
COMMAND_NAMES = {SUBMIT_SM: "submit_sm", DELIVER_SM: "deliver_sm", DATA_SM: "data_sm"}
WITHOUT_RESPONSE = (0x0B, 0x102)
RECEIPTED_MESSAGE_ID, NETWORK_ERROR_CODE, MESSAGE_PAYLOAD, MESSAGE_STATE = 0x001E, 0x0423, 0x0424, 0x0427
STATES = (b"ENROUTE", b"DELIVRD", b"EXPIRED", b"DELETED", b"UNDELIV", b"ACCEPTD", b"UNKNOWN", b"REJECTD")
ENROUTE, DELIVERED, ACCEPTED = 1, 2, 6
STATE_NAMES = "enroute delivered expired deleted undeliverable accepted unknown rejected".split()
MESSAGE_FIELDS = ("link session offset moment number route network outcome error id response_offset receipt_session receipt_offset "
                  "receipt_moment centre_delay key command source ton").split()
RECEIPT_FIELDS = "link session offset moment id state interim error standing message_session message_offset key command".split()
EPOCH = datetime.datetime(1970, 1, 1)

# at: session, direction (0 for the client) and offset; response: the PDU that it is paired with, or None
Pdu = collections.namedtuple("Pdu", "at moment octets command status number")
# source, source_ton: source_addr and source_addr_ton; address, ton: destination_addr and dest_addr_ton
Fields = collections.namedtuple("Fields", "source_ton source ton address esm_class registered text parameters")
Receipt = collections.namedtuple("Receipt", "at moment key decides state error delay identity interim command")


def word(octets, at):
    return int.from_bytes(octets[at : at + 4], "big")


def pdus_of(session, direction, pieces):
    """Returns the PDUs of a direction, and the offset of a bad length, or None."""
    octets = b"".join(it for _, it in pieces)
    ends, found, at = list(itertools.accumulate(len(it) for _, it in pieces)), [], 0
    while at + 4 <= len(octets):
        length = word(octets, at)
        if not 16 <= length <= 131_072:
            return found, at
        if at + length > len(octets):
            break
        pdu = octets[at : at + length]
        moment = pieces[bisect.bisect(ends, at + length - 1)][0]
        found.append(Pdu((session, direction, at), moment, pdu, word(pdu, 4), word(pdu, 8), word(pdu, 12)))
        at += length
    return found, None


def ranked(pdus):
    """Returns the PDUs of one side of a direction by number and rank."""
    counts, found = collections.Counter(), {}
    for pdu in pdus:
        found[pdu.number, counts[pdu.number]] = pdu
        counts[pdu.number] += 1
    return found


def fields_of(pdu):
    """Returns the fields of a submit_sm, deliver_sm or data_sm, or None where they don't fit in it."""
    texts, at, octets = [], 16, pdu.octets
    for behind in (2, 2, 3) if pdu.command == DATA_SM else (2, 2, 3, 0, 4):
        end = octets.find(b"\0", at)
        if end < 0:
            return None
        texts.append((octets[at:end], end + 1))
        at = end + 1 + behind
    (_, source_ton), (source, ton), (address, flags) = texts[:3]
    addresses = octets[source_ton], source, octets[ton], address
    if pdu.command == DATA_SM:
        # esm_class, registered_delivery and data_coding, and no short_message
        if at > len(octets):
            return None
        return Fields(*addresses, octets[flags], octets[flags + 1], b"", parameters_of(octets, at))
    if at >= len(octets) or at + 1 + octets[at] > len(octets):
        return None
    place = at + 1 + octets[at]
    return Fields(*addresses, octets[flags], octets[at - 4], octets[at + 1 : place], parameters_of(octets, place))


def parameters_of(octets, place):
    """Returns the first value of each tag among the whole parameters from a place on."""
    parameters = {}
    while place + 4 <= len(octets):
        tag, size = int.from_bytes(octets[place : place + 2], "big"), int.from_bytes(octets[place + 2 : place + 4], "big")
        if place + 4 + size > len(octets):
            break
        parameters.setdefault(tag, octets[place + 4 : place + 4 + size])
        place += 4 + size
    return parameters


def number_of(fields):
    found = re.fullmatch(rb"\+?([0-9]{1,15})", fields.address)
    return found[1].decode() if found and fields.ton in (0, 1) else None


def source_of(fields):
    """Returns source_addr where it has as many octets as in a submit_sm (SMPP 3.4, 4.4.1: 21 with its zero), and some."""
    return fields.source if 1 <= len(fields.source) <= 20 else None


def usable_id(octets):
    octets = octets.split(b"\0")[0]
    return octets if 1 <= len(octets) <= 64 else None


def named(header, name):
    """Returns the value of a name in the header part of a receipt's text, or None."""
    found = re.search(rb"(?:^|(?<= ))" + name + rb":([^ ]*)", header, re.I | re.S)
    return found[1] if found else None


def date_of(text):
    """Returns the ms of a date in a receipt's text, or None."""
    if not re.fullmatch(rb"[0-9]{10}([0-9]{2})?", text or b""):
        return None
    try:
        parts = [int(text[at : at + 2]) for at in range(0, len(text), 2)]
        return int((datetime.datetime(2000 + parts[0], *parts[1:]) - EPOCH).total_seconds()) * 1000
    except ValueError:
        return None


def key_of(link, identity, form):
    digits, base = {"decimal": (rb"[0-9]+", 10), "hexadecimal": (rb"[0-9A-Fa-f]+", 16)}.get(form, (rb"(?!)", 10))
    number = int(identity, base) if re.fullmatch(digits, identity) else 2**128
    return link, number if number < 2**128 else identity


def receipt_of(pdu, link, form):
    """Returns a delivery receipt that a deliver_sm or data_sm of the centre is, 'unreadable', or None where it is none."""
    fields = fields_of(pdu)
    if fields is None:
        return None
    kind, parameters = fields.esm_class & 0x3C, fields.parameters
    if kind not in (0x04, 0x20) and RECEIPTED_MESSAGE_ID not in parameters:
        return None
    text = fields.text or parameters.get(MESSAGE_PAYLOAD, b"")
    header = re.split(rb"(?i) text:", text, maxsplit=1)[0]
    identity = usable_id(parameters.get(RECEIPTED_MESSAGE_ID, b""))
    if identity is None:
        identity = named(header, b"id")
    state = parameters.get(MESSAGE_STATE, b"")
    if len(state) == 1 and 1 <= state[0] <= 8:
        state = state[0]
    else:
        stated = (named(header, b"stat") or b"").upper()
        state = STATES.index(stated) + 1 if stated in STATES else None
    if identity is None or not 1 <= len(identity) <= 64 or state is None:
        return "unreadable"
    submitted, done = date_of(named(header, b"submit date")), date_of(named(header, b"done date"))
    delay = None if submitted is None or done is None else done - submitted
    return Receipt(pdu.at, pdu.moment, key_of(link, identity, form), state not in (ENROUTE, ACCEPTED) and kind != 0x20, state,
                   error_of(parameters.get(NETWORK_ERROR_CODE, b""), named(header, b"err")), delay, identity, kind == 0x20, pdu.command)


def error_of(code, stated):
    """Returns why a message failed, by the network's code and by the text of its receipt."""
    if len(code) == 3:
        return 1, code[0], int.from_bytes(code[1:], "big")
    return (2, stated, 0) if re.fullmatch(rb"[0-9A-Za-z_.-]{1,16}", stated or b"") else (3, 0, 0)


def error_text(error):
    """Returns how an error is printed: of a status, a network's code, a text, or unstated."""
    kind, first, second = error
    return (f"status:{first}", f"net:{first}:{second}", f"text:{first.decode()}" if kind == 2 else "", "unstated")[kind]


def band(delay):
    """Returns the number of a delay's band."""
    return next(at for at, (end, _) in enumerate(BANDS) if end is None or delay < end)


def csv_of(names, lines):
    """Returns lines of values under the names of their fields as CSV. None is an empty field."""
    return b"".join(b",".join(field_of(it) for it in line) + b"\n" for line in [names, *lines])


def field_of(value):
    octets = b"" if value is None else value if isinstance(value, bytes) else str(value).encode()
    return b'"' + octets.replace(b'"', b'""') + b'"' if re.search(rb'[",\r\n]', octets) else octets


class Tables:
    """Counts by view, value and outcome, places by list, and lines for messages and for receipts, each by its place. A value of a view is
    a tuple that orders it, and its text."""

    def __init__(self, sessions, forms, windows, versions, clock):
        self.forms, self.windows, self.versions, self.clock = forms, windows, versions, clock
        self.counts, self.lists = collections.Counter(), collections.defaultdict(set)
        # submit_sm and data_sm of the client with their response, and receipts; keys of accepted messages by place
        self.messages, self.receipts, self.keys = [], [], {}
        self.message_lines, self.receipt_lines = {}, {}
        for session, (link, both) in sessions.items():
            self.read(session, link, both)
        self.count()

    def forms_of(self, link):
        return self.forms.get(link, ("verbatim", "verbatim"))

    def read(self, session, link, both):
        found = []
        for direction, name in enumerate(DIRECTIONS):
            pdus, broken = pdus_of(session, direction, both[name])
            found.append(pdus)
            if broken is not None:
                self.lists["broken"].add((session, direction, broken))
        for direction, pdus in enumerate(found):
            requests = ranked(it for it in pdus if it.command < RESPONSE and it.command not in WITHOUT_RESPONSE)
            responses = ranked(it for it in found[1 - direction] if it.command >= RESPONSE)
            self.lists["waiting"].update(it.at for key, it in requests.items() if key not in responses)
            self.lists["stray-answers"].update(it.at for key, it in responses.items() if key not in requests)
            paired = {it.at: responses.get(key) for key, it in requests.items()}
            self.lists["mismatched"].update(
                it.at for it in pdus if paired.get(it.at) and paired[it.at].command not in (it.command | RESPONSE, GENERIC_NACK))
            for pdu in (it for it in pdus if it.command in (SUBMIT_SM, DELIVER_SM, DATA_SM)):
                fields = fields_of(pdu)
                if fields is None:
                    self.lists["undecodable"].add(pdu.at)
                elif pdu.command != DELIVER_SM and direction == 0:
                    self.messages.append((link, pdu, fields, paired[pdu.at]))
                elif pdu.command != SUBMIT_SM and direction == 1:
                    receipt = receipt_of(pdu, link, self.forms_of(link)[1])
                    if receipt == "unreadable":
                        self.lists["unreadable"].add(pdu.at)
                    elif receipt:
                        self.receipts.append(receipt)

    def count(self):
        keys, ids = self.keys, {}
        for link, pdu, _, response in self.messages:
            is_accepted = response and response.command == pdu.command | RESPONSE and response.status == 0
            identity = usable_id(response.octets[16:]) if is_accepted else None
            if identity is not None:
                ids[pdu.at] = identity
                keys[pdu.at] = key_of(link, identity, self.forms_of(link)[0])
        matches, deciding = collections.Counter(keys.values()), {}
        for receipt in (it for it in self.receipts if it.decides and matches[it.key] == 1):
            known = deciding.setdefault(receipt.key, receipt)
            if (receipt.moment, receipt.at) < (known.moment, known.at):
                deciding[receipt.key] = receipt
        places = {key: at for at, key in keys.items() if matches[key] == 1}
        for receipt in self.receipts:
            standing = self.standing(receipt, matches[receipt.key], deciding.get(receipt.key))
            if standing in LISTED_STANDINGS:
                self.lists[LISTED_STANDINGS[standing]].add(receipt.at)
            session, _, offset = places.get(receipt.key, (None, None, None))
            self.receipt_lines[receipt.at] = (
                receipt.key[0], receipt.at[0], receipt.at[2], receipt.moment, receipt.identity, STATE_NAMES[receipt.state - 1],
                "yes" if receipt.interim else "no", error_text(receipt.error), standing, session, offset,
                receipt.key[1], COMMAND_NAMES[receipt.command])
        for link, pdu, fields, response in self.messages:
            key = keys.get(pdu.at)
            receipt = deciding.get(key)
            outcome = self.outcome(link, pdu, fields, response, key, matches, receipt)
            route, network = self.service(number_of(fields), pdu.moment)
            values = {"link": (link, link), "route": route, "network": network}
            if outcome == "refused":
                values["error"] = (0, response.status, 0), error_text((0, response.status, 0))
            elif outcome in ("delivered", "failed"):
                delays = {"link-delay": receipt.moment - pdu.moment, "centre-delay": receipt.delay}
                values.update({name: (band(it), BANDS[band(it)][1]) for name, it in delays.items() if it is not None})
                if outcome == "failed":
                    values["error"] = receipt.error, error_text(receipt.error)
            elif outcome in ("open", "lapsed"):
                self.lists[outcome].add(pdu.at)
            for name, value in values.items():
                self.counts[name, value, outcome] += 1
            decides = outcome in ("delivered", "failed")
            self.message_lines[pdu.at] = (
                link, pdu.at[0], pdu.at[2], pdu.moment, number_of(fields), route[1], network[1], outcome, values.get("error", (0, None))[1],
                ids.get(pdu.at), response and response.at[2],
                *((receipt.at[0], receipt.at[2], receipt.moment, receipt.delay) if decides else (None,) * 4),
                None if key is None else key[1], COMMAND_NAMES[pdu.command], source_of(fields), fields.source_ton)

    def standing(self, receipt, matches, decider):
        if matches != 1:
            return "ambiguous" if matches else "stray"
        if decider is receipt:
            return "deciding"
        return "extra" if receipt.decides else "noted"

    def outcome(self, link, pdu, fields, response, key, matches, receipt):
        if response is None:
            return "waiting"
        if response.command not in (pdu.command | RESPONSE, GENERIC_NACK):
            return "mismatched"
        if response.status:
            return "refused"
        if key is None:
            return "noid"
        if matches[key] > 1:
            return "ambiguous"
        if receipt:
            return "delivered" if receipt.state == DELIVERED else "failed"
        if fields.registered & 3 == 0:
            return "unasked"
        return "lapsed" if self.clock >= pdu.moment + self.windows.get(link, WINDOW) else "open"

    def service(self, number, moment):
        """Returns the route and the network of a number at a moment as values."""
        held = [(len(prefix), route, network) for (prefix, begin), (until, route, network) in self.versions.items()
                if number is not None and number.startswith(prefix) and begin <= moment and (until is None or moment < until)]
        if not held:
            return ((1, 0), "none"), ((1, ""), "none")
        _, route, network = max(held)
        return ((0, route), route), ((0, network), network)

    def csv(self):
        """Returns the report as CSV."""
        lines = [f"view,{name},{text},{outcome},{self.counts[name, (order, text), outcome]}\n" for name, (order, text), outcome in sorted(
            self.counts, key=lambda it: (VIEWS.index(it[0]), it[1][0], OUTCOMES.index(it[2])))]
        lines += [f"list,{name},{session},{DIRECTIONS[direction]},{offset}\n" for name in LISTS
                  for session, direction, offset in sorted(self.lists[name])]
        return "".join(lines).encode()

    def messages_csv(self):
        """Returns the lines for messages, by place, as CSV."""
        return csv_of(MESSAGE_FIELDS, (self.message_lines[at] for at in sorted(self.message_lines)))

    def receipts_csv(self):
        """Returns the lines for receipts, by place, as CSV."""
        return csv_of(RECEIPT_FIELDS, (self.receipt_lines[at] for at in sorted(self.receipt_lines)))


class Present:
    """What rows leave, and why one is refused. A row is its kind and its values."""

    def __init__(self):
        # by session its link, and its pieces by direction; by prefix and beginning an end or None, a route and a network
        self.sessions, self.forms, self.windows, self.versions, self.clock = {}, {}, {}, {}, 0

    def play(self, row):
        """Plays a row; returns the text of its refusal, or None."""
        return getattr(self, f"play_{row[0]}")(*row[1:])

    def play_piece(self, link, session, direction, moment, octets):
        if not octets:
            return "1 EmptyPiece"
        its_link, pieces = self.sessions.get(session, (link, {it: [] for it in DIRECTIONS}))
        if its_link != link:
            return f"4 OtherLink {its_link}"
        if pieces[direction] and moment < pieces[direction][-1][0]:
            return f"3 Backward {pieces[direction][-1][0]}"
        pieces[direction].append((moment, octets))
        self.sessions[session] = its_link, pieces
        return None

    def play_withdraw(self, session):
        return None if self.sessions.pop(session, None) else "6 NoSession"

    def play_form(self, link, response, receipt):
        self.forms[link] = response, receipt

    def play_window(self, link, window):
        self.windows[link] = window

    def play_route(self, prefix, begin, route, network):
        over = [at for (its, at), (end, *_) in self.versions.items() if its == prefix and (end is None or end > begin)]
        if over:
            return f"7 Overlap {min(over)}"
        self.versions[prefix, begin] = None, route, network
        return None

    def play_end(self, prefix, begin, until):
        if (prefix, begin) not in self.versions:
            return "8 NoRoute"
        end, route, network = self.versions[prefix, begin]
        if end is not None:
            return f"9 Ended {end}"
        if until <= begin:
            return "10 BadEnd"
        self.versions[prefix, begin] = until, route, network
        return None

    def play_correct(self, prefix, begin, route, network):
        if (prefix, begin) not in self.versions:
            return "8 NoRoute"
        self.versions[prefix, begin] = self.versions[prefix, begin][0], route, network
        return None

    def play_clock(self, moment):
        if moment < self.clock:
            return f"11 ClockBack {self.clock}"
        self.clock = moment
        return None

    def tables(self):
        """Returns the tables of what is left."""
        return Tables(self.sessions, self.forms, self.windows, self.versions, self.clock)

    def report(self):
        """Returns the report of what is left, as CSV."""
        return self.tables().csv()
