"""Answers as `smq follow --window 15m` gives them of messages that are written out, counted by a small model, for gate/check-alerts and
gate/check-live; and a day of three links in which ten things go wrong."""
import collections
import functools
import math
import operator
import random
import time

WINDOW = 900

# So many messages were submitted at a moment, and are open; changes: moments, rising, and the outcomes that they then get
Messages = collections.namedtuple("Messages", "moment link route network count changes")
QUESTIONS = ("report", "count link network outcome", "count link minute outcome")
COLUMNS = {"link": 0, "route": 1, "network": 2, "minute": 3}


@functools.lru_cache(1000)
def minute_cell(minute):
    return time.strftime("%Y-%m-%dT%H:%MZ", time.gmtime(60 * minute))


class Model:
    """Counts the messages of a window."""

    def __init__(self, messages):
        self.counts, self.begin, self.row, self.at, self.now = {}, -math.inf, 0, 0, {}
        self.events = sorted(((moment, number), outcome, it) for number, it in enumerate(messages) for moment, outcome in (
            (it.moment, "open"), *(change for change in it.changes if change[0] < it.moment + WINDOW), (it.moment + WINDOW, "")))

    def pass_to(self, moment):
        """Takes what came up to a moment."""
        while self.at < len(self.events) and self.events[self.at][0][0] <= moment:
            (_, number), outcome, it = self.events[self.at]
            self.at += 1
            # (what was there before a new start isn't known)
            if it.moment < self.begin:
                continue
            key = it.link, it.route, it.network, it.moment // 60
            counts = self.counts.setdefault(key, collections.Counter())
            if number in self.now:
                counts[self.now.pop(number)] -= it.count
            if outcome:
                self.now[number] = outcome
                counts[outcome] += it.count
            if not any(counts.values()):
                del self.counts[key]

    def start(self, moment):
        """Starts anew: nothing before is known."""
        self.pass_to(moment)
        self.begin, self.counts, self.now = moment, {}, {}

    def by(self, *columns):
        """Returns counts by columns and outcome, without those that are 0."""
        place, found = operator.itemgetter(*(COLUMNS[it] for it in columns)), {}
        for key, counts in self.counts.items():
            key = place(key)
            for outcome, count in counts.items():
                it = key, outcome
                found[it] = found.get(it, 0) + count
        return [((*([key] if len(columns) == 1 else key), outcome), count) for (key, outcome), count in sorted(found.items()) if count]

    def answers(self, moment, lost=(0, 0), clock=None, questions=QUESTIONS):
        """Yields the lines of the answers at a moment."""
        self.pass_to(moment)
        clock = int(moment * 1000) if clock is None else clock
        for name in questions:
            self.row += 1
            if name == "report":
                for view in ("link", "route", "network"):
                    yield from (f"view,{view},{value},{outcome},{count}" for (value, outcome), count in self.by(view))
            else:
                columns = name.split()[1:-1]
                yield ",".join((*columns, "outcome", "messages"))
                for (*key, outcome), count in self.by(*columns):
                    cells = [minute_cell(it) if column == "minute" else it for column, it in zip(columns, key)]
                    yield f"{','.join(cells)},{outcome},{count}"
            yield f"told,{self.row},{name},{clock},0,{lost[0]},{lost[1]}"


# The day of three links. Each has two networks, one of its own and one that link 3 mostly has, and a route of each; messages a second at noon.
FLOWS = (("1", "11", "20801", 30), ("1", "12", "26201", 1.5), ("2", "21", "23410", 45), ("2", "22", "26201", 3),
         ("3", "31", "21407", 30), ("3", "32", "26201", 100))
DAY, HOUR, STEP = 86_400, 3600, 30
# What goes wrong, from when to when in s of the day
TOTAL, SLOW, TWICE, NETWORK, SILENCE, PARTIAL, LOST, CLOCK, KILLED, DEAD, GONE = (
    (round(begin * HOUR), round(end * HOUR)) for begin, end in (
        (1, 1.5), (6, 6.5), (9, 9.1), (11, 11.5), (13, 13.5), (15, 15.5), (16, 16.25), (17, 17.1), (18, 19), (20, 20.25), (22, 22.25)))


def within(moment, span):
    return span[0] <= moment < span[1]


def shape(moment):
    """Returns how busy a moment of the day is."""
    return 0.35 + 0.65 * math.sin(math.pi * ((moment - 4 * HOUR) % DAY) / DAY) ** 2


def parts(chance, moment, link, network, count):
    """Returns messages of a moment as counts and what becomes of them."""
    receipts = moment + chance.randint(2, 14)
    # (a few fail on any day)
    failed = count // 50
    usual = [(count - failed, [(receipts, "delivered")]), (failed, [(receipts, "failed")])]
    if within(moment, TOTAL) and link == "1" or within(moment, NETWORK) and (link, network) == ("1", "26201"):
        return [(count, [])]
    if within(moment, PARTIAL) and link == "2":
        return [(count * 3 // 5, []), (count - count * 3 // 5, [(receipts, "delivered")])]
    if within(moment, SLOW) and link == "3":
        return [(count, [(moment + 500 + chance.randint(0, 20), "delivered")])]
    # A centre that begins its ids anew changes nothing, since its first ones have left the window. One that does so twice within minutes gives
    # each id of these once more.
    length = TWICE[1] - TWICE[0]
    if link == "2" and within(moment, TWICE):
        return [(count, [(moment, "ambiguous")])]
    if link == "2" and within(moment + length, TWICE):
        return [(number, [*changes, (moment + length, "ambiguous")]) for number, changes in usual]
    return usual


def day(origin, seed=1):
    """Returns the messages of a day from a moment on, and of the quarter of an hour before."""
    chance, found = random.Random(seed), []
    for moment in range(-WINDOW, DAY, 10):
        for link, route, network, rate in FLOWS:
            mean = 10 * rate * shape(moment)
            count = max(0, round(chance.gauss(mean, mean ** 0.5)))
            if within(moment, SILENCE) and link == "3":
                continue
            found += [Messages(origin + moment, link, route, network, number, [(origin + at, outcome) for at, outcome in changes])
                      for number, changes in parts(chance, moment, link, network, count) if number]
    return found
