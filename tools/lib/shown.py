"""What tools/page shows: the rows of each table, which stay for a day when they are gone, and a sample of each minute.

A table is a view, or a count by other columns than times; its rows are by key, the values of its columns. Moments are in s since 1970 by the
clock of this host, but for those of messages and receipts, which are in ms by the clock of the answers.
"""
import array
import collections
import heapq
import json
import re

from lib.answers import COLUMNS, COUNT, MOST_COUNTS, MOST_QUESTIONS, TIMES
from lib.report_names import OUTCOMES, VIEWS
from lib.tables import LAST_MOMENT

DAY_OF_MINUTES, DAY, MINUTE = 1440, 86_400, 60_000
# So many rows have samples; a sample that is none, and the greatest
MOST_ROWS, NO_SAMPLE, GREATEST = 1_000, -1, 2**31 - 1
# The outcome of messages that want no receipt, and those of messages that have one
UNASKED, RECEIVED = "unasked", ("delivered", "failed")
# Views whose rows have samples, and how many columns a count may have whose rows have some
SAMPLED, MOST_COLUMNS = ("link", "route", "network"), 3
RATES = (1, 5, 15)
# A row is silent that had so many messages at a time lately, and had no more for a minute, or has none
MANY = 150
VERSION, LONGEST_STATE = 1, 2**26
# A value of a key; each octet of a source is a character
VALUE = re.compile(r"[\x00-\xff]{0,64}", re.S)


class BadState(Exception):
    """Why a state can't be read."""


class Row:
    """What is known of a key. counts: by outcome; seen: when it last had messages; message, receipt: when the last one came, or None;
    rates, aged: how many messages came in a minute, and the counts of those that have had time, or None where no minutes are counted;
    messages, shares: of each minute of the last day how many there were, and how many of 1,000 were delivered, or None."""

    __slots__ = ("counts", "seen", "message", "receipt", "rates", "aged", "messages", "shares")

    def __init__(self, seen):
        self.counts, self.seen, self.message, self.receipt, self.rates, self.aged, self.messages, self.shares = {}, seen, *[None] * 6

    def begin_samples(self):
        self.messages, self.shares = (array.array("i", [NO_SAMPLE]) * DAY_OF_MINUTES for _ in range(2))

    def judged(self):
        """Returns the counts by which it is judged: those of messages that have had time, where they are known."""
        return self.counts if self.aged is None else self.aged


# keys: its columns; rows: by key
Table = collections.namedtuple("Table", "keys rows")


def total(counts):
    return sum(counts.values())


def asked(counts):
    """Returns how many messages can be delivered for all that is known: a receipt was asked for, or came."""
    return total(counts) - counts.get(UNASKED, 0)


def undelivered(counts):
    return asked(counts) - counts.get("delivered", 0)


def received(counts):
    return sum(counts.get(it, 0) for it in RECEIVED)


def per_mille(counts):
    """Returns of 1,000 messages how many are delivered, or NO_SAMPLE where there are none."""
    return 1000 * counts.get("delivered", 0) // asked(counts) if asked(counts) else NO_SAMPLE


def at_least(counts):
    """Returns a share that surely isn't delivered: the lower bound of Wilson's interval at three deviations. So one message of one isn't worse
    than a fifth of a thousand."""
    number = asked(counts)
    if not number:
        return 0.0
    share = undelivered(counts) / number
    return (share + 9 / (2 * number) - 3 * (share * (1 - share) / number + 9 / (4 * number**2)) ** 0.5) / (1 + 9 / number)


def plain_key(columns, key):
    """Returns a key as views have it: without a route or network it is `none`."""
    return tuple("none" if it == "" and column in ("route", "network") else it for column, it in zip(columns, key))


def by_minutes(source, columns):
    """Returns the counts of a source by other keys, and by minute."""
    places, found = [source.keys.index(it) for it in columns], {}
    for (key, minute), counts in source.counts.items():
        of_key = found.setdefault(plain_key(columns, [key[it] for it in places]), {})
        of_minute = of_key.setdefault(minute, {})
        for outcome, number in counts.items():
            of_minute[outcome] = of_minute.get(outcome, 0) + number
    return found


class Shown:
    """What is shown, by the answers so far."""

    def __init__(self, tell):
        self.tell, self.is_told = tell, set()
        # by name the tables, and counts by minute; what came since they were settled; names of what this run was answered, in their order
        self.tables, self.by_minute, self.pending, self.names = {}, {}, {}, []
        # names of the questions; the last line `told`, when it came, its minute, and what was lost
        self.asked = set()
        self.told, self.when, self.minute, self.lost, self.listed = None, None, None, (None, None), {}
        # how many counts are remembered, and rows that have samples; by columns the counts by minute when they were last settled
        self.counts, self.sampled, self.before = 0, 0, {}

    def take(self, answer, when):
        """Takes an answer, which is shown once it is settled."""
        self.told, self.when = answer.told, when
        self.lost = answer.told.gaps, answer.told.octets
        self.asked.add(answer.told.name)
        self.pending.update(answer.sources)
        self.listed.update(answer.listed)

    def settle(self):
        """Puts what came into the tables, and takes a sample of each row."""
        self.pass_to(int(self.when) // 60)
        pending, self.pending = self.pending, {}
        self.by_minute.update((name, it) for name, it in pending.items() if it.has_minutes)
        for name, source in pending.items():
            if not source.has_minutes:
                self.fill(name, source)
        self.pace()
        at = self.minute % DAY_OF_MINUTES
        for row in (it for name in self.names for it in self.tables[name].rows.values() if it.messages is not None):
            row.messages[at], row.shares[at] = min(total(row.counts), GREATEST), per_mille(row.counts)

    def pass_to(self, minute):
        """Begins a minute: those between it and the last one have no samples, whichever came first."""
        if minute == self.minute:
            return
        first, last = sorted((self.minute, minute)) if self.minute is not None else (minute, minute)
        gone = [it % DAY_OF_MINUTES for it in range(max(first, last - DAY_OF_MINUTES) + 1, last + 1)]
        self.minute = minute
        for table in self.tables.values():
            for key, row in list(table.rows.items()):
                # (it had no messages for a day, or has its last ones from a clock that was wrong)
                if not total(row.counts) and abs(self.when - row.seen) >= DAY:
                    del table.rows[key]
                    self.counts -= len(row.counts)
                    self.sampled -= row.messages is not None
                elif row.messages is not None:
                    for at in gone:
                        row.messages[at] = row.shares[at] = NO_SAMPLE

    def fill(self, name, source):
        """Puts counts into a table; those of before that are gone are 0."""
        table, is_known = self.tables.get(name) or self.tables.setdefault(name, Table(source.keys, {})), name in self.names
        if not is_known:
            self.names.append(name)
        for key, row in table.rows.items():
            found = source.counts.get(key, {})
            if is_known and found.get("delivered", 0) > row.counts.get("delivered", 0):
                row.receipt = self.told.clock
            row.counts = {**dict.fromkeys(row.counts, 0), **{it: number for it, number in found.items() if it in row.counts}}
        for key, found in source.counts.items():
            row = table.rows.get(key)
            more = [it for it in found if row is None or it not in row.counts]
            if self.counts + len(more) > MOST_COUNTS:
                self.tell_once(f"{MOST_COUNTS} counts are remembered: others are in the CSV files alone")
                continue
            if row is None:
                row = table.rows[key] = Row(self.when)
                if name in SAMPLED or name not in VIEWS and len(table.keys) <= MOST_COLUMNS:
                    self.begin_samples(row)
            self.counts += len(more)
            row.counts.update((it, found[it]) for it in more)
            row.seen = self.when

    def begin_samples(self, row):
        if self.sampled < MOST_ROWS:
            self.sampled += 1
            row.begin_samples()
        else:
            self.tell_once(f"{MOST_ROWS} rows have samples: others have none")

    def tell_once(self, text):
        if text not in self.is_told:
            self.is_told.add(text)
            self.tell(text)

    def pace(self):
        """Says of each row how fast messages come, and when the last of them came, by what is counted by minute."""
        now, found = self.told.clock // MINUTE, {}
        for table in (self.tables[it] for it in self.names):
            # (of counts that tell it, the one that has the fewest columns)
            source = min((it for it in self.by_minute.values() if {*table.keys} <= {*it.keys}), key=lambda it: len(it.keys), default=None)
            if source is None:
                continue
            if table.keys not in found:
                found[table.keys] = by_minutes(source, table.keys)
            # (what came in the oldest minute may have left the window in part)
            oldest = min((minute for _, minute in source.counts), default=now)
            before = self.before.get(table.keys)
            for key, row in table.rows.items():
                key = plain_key(table.keys, key)
                minutes = found[table.keys].get(key, {})
                row.rates, row.aged = rates(minutes, oldest, now), aged(minutes, now)
                self.see_last(row, minutes, None if before is None else before.get(key, {}))
        self.before = found

    def see_last(self, row, minutes, before):
        """Says when the last message and the last receipt came: by now, where more are counted in a minute than before; where nothing is known
        of before, in the newest minute that has some."""
        clock = self.told.clock
        for minute, counts in minutes.items():
            known, last = (before or {}).get(minute, {}), min(clock, minute * MINUTE + MINUTE - 1)
            if total(counts) > total(known):
                row.message = max(row.message or 0, last)
            if received(counts) > received(known):
                row.receipt = max(row.receipt or 0, last if before is None else clock)
        # (where the clock was set back)
        row.message, row.receipt = (None if it is None else min(it, clock) for it in (row.message, row.receipt))


def rates(minutes, oldest, now):
    """Returns for each of RATES how many messages came in a minute, of the last so many whole ones, or None where there is none."""
    found = []
    for length in RATES:
        begin = max(oldest + 1, now - length)
        number = sum(total(counts) for minute, counts in minutes.items() if begin <= minute < now)
        found.append(number / (now - begin) if begin < now else None)
    return found


def aged(minutes, now):
    """Returns the counts of the messages that came a minute ago or earlier."""
    found = collections.Counter()
    for minute, counts in minutes.items():
        if minute < now - 1:
            found.update(counts)
    return dict(found)


def is_silent(shown, row):
    """Whether a row that had many messages at a time within a quarter of an hour had no more for a minute, or one that had them within an hour
    has none left."""
    if row.messages is None:
        return False
    lately = 60 if not total(row.counts) else 15 if row.message is not None and shown.told.clock - row.message > MINUTE else 0
    return any(row.messages[(shown.minute - it) % DAY_OF_MINUTES] >= MANY for it in range(lately))


def ordered(shown, name, most):
    """Returns so many rows of a table, the worst first: links that have fallen silent, then by the share that surely isn't delivered, then by how
    many have failed or lapsed."""
    def rank(item):
        key, row = item
        counts = row.judged()
        is_gone = name == "link" and is_silent(shown, row)
        return (not is_gone, -at_least(counts), -counts.get("failed", 0) - counts.get("lapsed", 0), -total(row.counts), [len(it) for it in key], key)
    return heapq.nsmallest(most, shown.tables[name].rows.items(), key=rank)


def last_day(samples, minute):
    """Returns the samples of a day by age, the oldest first."""
    at = (minute + 1) % DAY_OF_MINUTES
    return samples[at:] + samples[:at]


def saved(shown):
    """Returns the text of what is remembered."""
    tables = []
    for name, table in shown.tables.items():
        rows = []
        for key, row in table.rows.items():
            is_sampled, messages, shares = row.messages is not None, [], []
            if is_sampled:
                messages, shares = (last_day(it, shown.minute).tolist() for it in (row.messages, row.shares))
                first = next((at for at, it in enumerate(messages) if it != NO_SAMPLE), DAY_OF_MINUTES)
                messages, shares = messages[first:], shares[first:]
            rows.append([key, [*row.counts], row.seen, row.message, row.receipt, is_sampled, messages, shares])
        tables.append([name, table.keys, rows])
    return json.dumps({"version": VERSION, "minute": shown.minute, "tables": tables}, separators=(",", ":")) + "\n"


def restore(shown, text):
    """Takes what is remembered. What can't be so changes nothing."""
    try:
        state = json.loads(text)
        wanted(type(state) is dict and state.get("version") == VERSION)
        minute, found = number_of(state["minute"], LAST_MOMENT // MINUTE), Shown(shown.tell)
        wanted(len(state["tables"]) <= 2 * MOST_QUESTIONS)
        for name, keys, rows in state["tables"]:
            wanted(type(name) is str and name not in found.tables and keys == keys_of(name))
            table = found.tables[name] = Table(tuple(keys), {})
            for it in rows:
                restore_row(found, table, minute, *it)
    except (KeyError, TypeError, ValueError, RecursionError) as fault:
        raise BadState(str(fault)) from None
    shown.tables, shown.minute, shown.counts, shown.sampled = found.tables, minute, found.counts, found.sampled


def restore_row(shown, table, minute, key, outcomes, seen, message, receipt, is_sampled, messages, shares):
    wanted(type(key) is list and len(key) == len(table.keys) and all(VALUE.fullmatch(it) for it in key))
    wanted(tuple(key) not in table.rows and len({*outcomes}) == len(outcomes) and {*outcomes} <= {*OUTCOMES, ""})
    row = table.rows[tuple(key)] = Row(number_of(seen, LAST_MOMENT // 1000, kinds=(int, float)))
    row.counts = dict.fromkeys(outcomes, 0)
    row.message, row.receipt = (None if it is None else number_of(it, LAST_MOMENT) for it in (message, receipt))
    shown.counts += len(outcomes)
    wanted(shown.counts <= MOST_COUNTS and len(messages) == len(shares) <= DAY_OF_MINUTES)
    if is_sampled:
        shown.sampled += 1
        wanted(shown.sampled <= MOST_ROWS)
        row.begin_samples()
        for age, (number, share) in enumerate(zip(reversed(messages), reversed(shares))):
            at = (minute - age) % DAY_OF_MINUTES
            row.messages[at], row.shares[at] = number_of(number, GREATEST, NO_SAMPLE), number_of(share, 1000, NO_SAMPLE)


def keys_of(name):
    """Returns the columns of a table by its name."""
    kind, *columns = name.split(" ")
    if name in VIEWS:
        return [name]
    wanted(kind == COUNT and {*columns} <= {*COLUMNS} - {*TIMES} and len({*columns}) == len(columns) > 0)
    return [it for it in columns if it != "outcome"]


def number_of(value, greatest, least=0, kinds=(int,)):
    wanted(type(value) in kinds and least <= value <= greatest)
    return value


def wanted(is_so):
    if not is_so:
        raise ValueError("it isn't what this program writes")
