"""Random prices and counts with what sqlite sums of them, and a month of messages with what suppliers bill and what differs in it, for
gate/check-bills."""
import collections
import datetime
import random
import re
import sqlite3

from lib.report_names import OUTCOMES

NETWORKS, ROUTES, LINKS = ("23410", "23415", "310260", "00101", "none"), ("7", "12", "none"), ("1", "2", "10")
DIGITS, UNITS = {"EUR": 2, "JPY": 0, "KWD": 3}, 9
PRICE_COLUMNS = ["link", "route", "network", "from", "for", "price", "currency"]
SUMS = """
WITH priced AS (SELECT counts.*, (SELECT prices.rowid FROM prices
    WHERE (prices.link = counts.link OR prices.route <> '' AND prices.route = counts.route)
    AND prices.network IN (counts.network, '') AND prices.begin <= counts.day
    ORDER BY prices.route = '', prices.network = '', prices.begin DESC LIMIT 1) AS price FROM counts),
paid AS (SELECT priced.*, currency, units, price IS NULL OR paid_for = 'submitted' OR outcome = 'delivered'
    OR paid_for = 'accepted' AND outcome IN ('ambiguous', 'failed', 'unasked', 'lapsed', 'open') AS is_paid
    FROM priced LEFT JOIN prices ON prices.rowid = price)
SELECT cast(link AS integer), network, substr(day, 1, ?), coalesce(currency, ''), sum(messages * is_paid),
    sum(messages * is_paid * coalesce(units, 0))
FROM paid GROUP BY 1, 2, 3, 4 ORDER BY 1, network = 'none', 2, 3, 4"""
# What is planted into what the suppliers bill: 62
PLANTED = {"not-delivered": 16, "unknown": 20, "twice": 8, "not-billed": 10, "other-price": 8}
MONTH, MESSAGES = 1_793_491_200_000, 10_000
DAY, DAYS = 86_400_000, 30
FORMS = dict(zip(range(1, 9), ("hexadecimal", "decimal", "decimal", "verbatim", "hexadecimal", "decimal", "hexadecimal", "verbatim")))
MESSAGE_COLUMNS = ("link session offset moment number route network outcome error id response_offset receipt_session receipt_offset "
                   "receipt_moment centre_delay key command source ton").split()
# Sources that may have receipts, and of messages that have none
SOURCES = ("ACME", "ACME", "", "447700900999", "A,B", 'q"x', "l\nx", "c\rx", "\udcff", "=1+1", "none", "12345678901234567890")
QUIET = ("QUIET", 'QU"ET', "QUI\nET", "a\n\\.\nb", "\udcffQ", "+447700900111")
DIFFERENCE_COLUMNS = "class session offset outcome price line id billed_price moment message_id key".split()
BILLED_COLUMNS = ("id", "date", "number", "status", "price")

Message = collections.namedtuple("Message", MESSAGE_COLUMNS)


def csv_of(rows):
    """Returns rows as CSV, in octets: an id may have any."""
    quoted = ([f'"{it}"' if re.search('[",\r\n]', it) else it for it in (value.replace('"', '""') for value in row)] for row in rows)
    return "".join(",".join(it) + "\n" for it in quoted).encode("utf-8", "surrogateescape")


def day_of(draw, last=40):
    return str(datetime.date(2026, 10, 25) + datetime.timedelta(draw.randrange(last)))


def shuffled(draw, columns, rows):
    """Returns CSV of rows, with its columns in any order."""
    order = draw.sample(range(len(columns)), len(columns))
    return csv_of([[it[at] for at in order] for it in (columns, *rows)])


def statement_case(draw):
    """Returns words, prices, counts, and what the statement and the status are, by sqlite and whole numbers."""
    kinds = draw.choice((["network"], ["route"], ["network", "route"]))
    prices, keys = [], [(link, "") for link in LINKS] + [("", route) for route in ROUTES if "route" in kinds]
    for link, route in keys:
        for network in (*(NETWORKS if "network" in kinds else ()), ""):
            for begin in {day_of(draw, 25) for _ in range(draw.choice((0, 1, 2, 3)))}:
                amount = draw.choice(("0.005", "0.0425", "0.015", "0.5", "1", "0", f"{draw.random():.9f}", f"{draw.random():.4f}"))
                paid = draw.choice(("delivered", "accepted", "submitted"))
                prices.append((link, route, network, begin, paid, amount, draw.choice([*DIGITS])))
    draw.shuffle(prices)
    counts = [(draw.choice(LINKS), *(draw.choice(NETWORKS if it == "network" else ROUTES) for it in kinds), day_of(draw),
               draw.choice(OUTCOMES), str(draw.choice((0, 1, 1, 3, 5, draw.randrange(100_000))))) for _ in range(draw.randrange(120))]
    size, digits = draw.choice((7, 10)), DIGITS if draw.random() < 0.5 else {}
    words = ["--by", "day"] if size == 10 else []
    words += ["--digits", ",".join(f"{it}={at}" for it, at in digits.items())] if digits else []
    rows = sums_of(prices, counts, kinds, size)
    lines, totals = ["link,name,network,period,messages,owed,currency"], collections.defaultdict(lambda: [0, 0])
    for link, network, period, currency, messages, units in rows:
        owed = half_even(units, digits.get(currency, 2))
        amount = shown(owed, digits.get(currency, 2)) if currency else ""
        lines.append(f"{link},,{network},{period},{messages},{amount},{currency}")
        if currency:
            totals[currency] = [totals[currency][0] + messages, totals[currency][1] + owed]
    lines += [f"total,,,,{messages},{shown(owed, digits.get(it, 2))},{it}" for it, (messages, owed) in sorted(totals.items())]
    unpriced = sum(it[3] == "" for it in rows)
    # (counts by source, too)
    counts = [(*it, draw.choice(SOURCES)) for it in counts]
    return (words, shuffled(draw, PRICE_COLUMNS, prices), shuffled(draw, ["link", *kinds, "day", "outcome", "messages", "source"], counts),
            "".join(f"{it}\n" for it in lines), 1 if unpriced else 0, unpriced)


def sums_of(prices, counts, kinds, size):
    """Returns messages and amounts in units of 10^-9 by link, network, period and currency, by sqlite."""
    base = sqlite3.connect(":memory:")
    base.execute("CREATE TABLE prices (link, route, network, begin, paid_for, units INTEGER, currency)")
    base.execute("CREATE TABLE counts (link, network, route, day, outcome, messages INTEGER)")
    for *values, amount, currency in prices:
        base.execute("INSERT INTO prices VALUES (?, ?, ?, ?, ?, ?, ?)", (*values, units_of(amount), currency))
    for link, *values, day, outcome, messages in counts:
        by = dict(zip(kinds, values))
        row = link, by.get("network", ""), by.get("route", ""), day, outcome, int(messages)
        base.execute("INSERT INTO counts VALUES (?, ?, ?, ?, ?, ?)", row)
    return base.execute(SUMS, (size,)).fetchall()


def units_of(amount):
    whole, _, part = amount.partition(".")
    return int(whole + part.ljust(UNITS, "0"))


def half_even(units, digits):
    whole, rest = divmod(units, 10 ** (UNITS - digits))
    return whole + (2 * rest + whole % 2 > 10 ** (UNITS - digits))


def shown(amount, digits):
    sign, amount = "-" * (amount < 0), abs(amount)
    return f"{sign}{amount // 10**digits}.{amount % 10**digits:0{digits}d}" if digits else f"{sign}{amount}"


def told_of(sums):
    """Returns what is told of sums of owed and billed units by class."""
    owed, billed = (half_even(sum(it), 2) for it in zip(*sums.values()))
    parts = [(name, half_even(it[1], 2) - half_even(it[0], 2)) for name, it in sums.items()]
    return (f"EUR: owed {shown(owed, 2)}, billed {shown(billed, 2)}, difference {shown(billed - owed, 2)}: "
            + ", ".join(f"{name} {shown(it, 2)}" for name, it in parts if it))


class Month:
    """Messages of eight links, most within a month, and for each link what its supplier bills, with what was planted."""

    def __init__(self, seed):
        self.draw, self.messages, self.billed, self.wanted, self.told = random.Random(seed), [], {}, {}, {}
        self.offset = 0
        # (ids of links are alike)
        self.numbers = self.draw.sample(range(10**12), 2 * MESSAGES)
        for link in FORMS:
            moments = [self.draw.randrange(DAYS * DAY) for _ in range(MESSAGES // 8 - 2)]
            moments += [0, DAYS * DAY - 1, -1, DAYS * DAY] + [self.draw.randrange(-9 * DAY, 0) for _ in range(80)]
            self.messages += [self.message(link, at, MONTH + it) for at, it in enumerate(moments)]
        names = [name for name, count in PLANTED.items() for _ in range(count)]
        self.draw.shuffle(names)
        for link in FORMS:
            self.bill(link, collections.Counter(names[link - 1 :: 8]))

    def message(self, link, at, moment):
        draw = self.draw
        outcome = draw.choices(("delivered", "failed", "open", "lapsed", "unasked", "waiting", "refused"), (80, 8, 4, 2, 1, 2, 3))[0]
        form = draw.choice(("={}", "a,{}", 'q"{}', "l\n{}", "c\r{}", "\udcff{}", "{}") if link == 8 else ("id-{}",))
        text = form.format(self.numbers[at])
        key = "" if outcome in ("waiting", "refused") else text if FORMS[link] == "verbatim" else str(self.numbers[at])
        identity = key if FORMS[link] == "verbatim" or not key else f"{int(key):X}"
        error, receipt = "", [""] * 3
        if outcome in ("delivered", "failed"):
            receipt = [str(link), str(self.offset), str(moment + draw.randrange(9_000))]
            error = draw.choice(("net:3:8", "text:027")) if outcome == "failed" else ""
        self.offset += 49
        response, service = "" if outcome == "waiting" else "7", (draw.choice(("12", "none")), draw.choice(NETWORKS))
        return Message(str(link), str(link), str(self.offset), str(moment), "447700900123", *service, outcome, error, identity, response,
                       *receipt, "", key, "submit_sm", draw.choice((*SOURCES, *(QUIET if outcome == "open" else ()))), draw.choice(("0", "1", "5")))

    def written(self, link, key):
        """Returns a key as the link's supplier writes it."""
        if FORMS[link] == "verbatim":
            return key
        text = key if FORMS[link] == "decimal" else self.draw.choice((f"{int(key):x}", f"{int(key):X}"))
        return text if link == 3 else "0" * self.draw.choice((0, 0, 1, 5)) + text

    def price(self, link, moment):
        return f"0.0{link}" if moment < MONTH + 14 * DAY else f"0.0{link}25"

    def bill(self, link, planted):
        """Makes what a supplier bills, and the differences."""
        draw, its = self.draw, [it for it in self.messages if it.link == str(link)]
        inside = [it for it in its if MONTH <= int(it.moment) < MONTH + DAYS * DAY]
        delivered, others = ([it for it in inside if it.key and (it.outcome == "delivered") == wanted] for wanted in (True, False))
        draw.shuffle(delivered)
        changed = ("not-billed", "twice", "other-price")
        left_out, doubled, dearer = (set(delivered[at :: 20][: planted[name]]) for at, name in enumerate(changed))
        billed = [("not-delivered", it) for it in draw.sample(others, planted["not-delivered"])]
        billed += [("agreed", it) for it in delivered if it not in left_out]
        billed += [("", it) for it in sorted(doubled)] + [("unknown", None)] * planted["unknown"]
        billed += [("over", it) for it in others if draw.random() < 0.5]
        draw.shuffle(billed)
        rows, wanted, line, seen, known = [BILLED_COLUMNS], [], 2, set(), set(inside)
        sums = {it: [0, 0] for it in (*PLANTED, "agreed")}
        away = [it for it in its if it not in known and it.key]
        for name, it in billed:
            if name in ("agreed", ""):
                name = "twice" if it in seen else "other-price" if it in dearer else "agreed"
                seen.add(it)
            row, place, price, ours = self.row_of(link, name, it, away)
            rows.append(row)
            if name != "over":
                sums[name][0] += units_of(price) if name in ("agreed", "other-price") else 0
                sums[name][1] += units_of(row[4] or price)
            if name not in ("agreed", "over"):
                wanted.append((name, *place, price, str(line), row[0], row[4], *ours))
            line += len(re.findall("\r\n|\r|\n", row[0])) + 1
        wanted += [("not-billed", it.session, it.offset, it.outcome, self.price(link, int(it.moment)), "", "", "", it.moment, it.id, it.key)
                   for it in inside if it in left_out]
        sums["not-billed"][0] = sum(units_of(self.price(link, int(it.moment))) for it in left_out)
        self.billed[link], self.wanted[link] = rows, wanted
        over = sum(name == "over" for name, _ in billed)
        lines, messages = dict(planted, **{"not-billed": 0}), dict(planted, unknown=0, twice=0)
        told = [f"{it}: {lines.get(it, 0)} lines, {messages.get(it, 0)} messages" for it in PLANTED]
        sizes = len(billed) - over - sum(lines.values()), len(inside) - sum(messages.values())
        self.told[link] = [*told, f"agreed: {sizes[0]} lines, {sizes[1]} messages",
                           f"all: {len(billed) - over} lines, {len(inside)} messages; {over} lines are passed over by their status", told_of(sums)]

    def row_of(self, link, name, it, away):
        """Returns a line of the supplier's file, where our message is with its outcome, our price, and by what we know it."""
        draw = self.draw
        status = draw.choice(("UNDELIV", "REJECTD", "")) if name == "over" else draw.choice(("DELIVRD", "delivered", "Delivered"))
        kind = draw.choice(("new", "away", "empty")) if name == "unknown" else ""
        if kind == "away" and away:
            it = away.pop()
        if it is None:
            fresh = "" if kind == "empty" else self.written(link, str(10**12 + draw.randrange(10**12)))
            return (fresh, "2026-11-03", "", status, "0.09"), ("", "", ""), "", ("", "", "")
        price = self.price(link, int(it.moment))
        theirs = draw.choice((price, f"{price}0", f"0{price}", "")) if name != "other-price" else draw.choice((f"{price}1", "0.09"))
        return (self.written(link, it.key), "2026-11-03", it.number, status, theirs), (it.session, it.offset, it.outcome), price, (it.moment, it.id, it.key)
