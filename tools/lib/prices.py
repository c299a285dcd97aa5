"""Prices of messages by link or route, network and date (docs/FORMATS.md, Prices and statements), for tools/statement and tools/dispute."""
import argparse
import bisect
import collections
import decimal
import re

from lib.report_names import OUTCOMES
from lib.tables import DECIMAL, Unfit, date_of, fitting, opened, table_of

COLUMNS = ("link", "route", "network", "from", "for", "price", "currency")
ACCEPTED = ("ambiguous", "delivered", "failed", "unasked", "lapsed", "open")
# Outcomes of the messages that are paid for
PAID = {"delivered": ("delivered",), "accepted": ACCEPTED, "submitted": OUTCOMES}
NETWORK, ROUTE = re.compile(r"[0-9]{5,6}|none", re.A), re.compile(rf"{DECIMAL.pattern}|none", re.A)
AMOUNT, CURRENCY = re.compile(r"[0-9]{1,9}(\.[0-9]{1,9})?", re.A), re.compile(r"[A-Z]{3}", re.A)
# What isn't exact in it is a fault: so many digits hold any sum of counts by prices
EXACT = decimal.Context(prec=120, traps=[decimal.Inexact, decimal.InvalidOperation])

MOST_DIGITS = 9

Price = collections.namedtuple("Price", "amount currency paid")


class Prices:
    """By link or route and network the dates from which prices hold, rising, and these."""

    def __init__(self):
        self.dates, self.prices, self.columns = {}, {}, set()

    def of(self, link, route, network, day):
        """Returns the price of a message, or None. That of its route comes before that of its link, that of its network before that of
        all others."""
        for key in (("route", route, network), ("route", route, ""), ("link", link, network), ("link", link, "")):
            at = bisect.bisect(self.dates.get(key, ()), day)
            if at:
                return self.prices[key, self.dates[key][at - 1]]
        return None


def read_prices(path):
    """Returns the prices of a file. Two of one link or route, network and date are bad, and so is a field that is left out. A line that begins
    with # has none."""
    found, lines, name = Prices(), {}, f"{path}: "
    with opened(path) as file:
        for line, row in table_of(file, COLUMNS, name=name, remark="#")[1]:
            if (row["link"] == "") == (row["route"] == ""):
                raise Unfit(f"{name}line {line}: it has to have either a link or a route")
            kind = "link" if row["link"] else "route"
            value = fitting(DECIMAL if kind == "link" else ROUTE, row, kind, line, name)
            network = row["network"] and fitting(NETWORK, row, "network", line, name)
            for column in ("from", "for", "price", "currency"):
                if row[column] == "":
                    raise Unfit(f"{name}line {line}: column {column} is empty: a hole of prices")
            if not date_of(row["from"]) or row["for"] not in PAID:
                column = "for" if date_of(row["from"]) else "from"
                raise Unfit(f"{name}line {line}: column {column} is {row[column][:40]!a}")
            key, begin = (kind, value, network), row["from"]
            if (key, begin) in lines:
                raise Unfit(f"{name}line {line}: it overlaps line {lines[key, begin]}, of the same {kind}, network and date")
            lines[key, begin] = line
            found.columns |= {kind, *(["network"] if network else [])}
            found.dates.setdefault(key, []).append(begin)
            amount = decimal.Decimal(fitting(AMOUNT, row, "price", line, name))
            found.prices[key, begin] = Price(amount, fitting(CURRENCY, row, "currency", line, name), PAID[row["for"]])
    for dates in found.dates.values():
        dates.sort()
    return found


def rounded(amount, digits):
    """Returns an amount with so many digits, half to even."""
    return amount.quantize(decimal.Decimal(1).scaleb(-digits), decimal.ROUND_HALF_EVEN, decimal.Context(prec=120))


def digits_of(text):
    """Returns digits by currency, of words as JPY=0,KWD=3."""
    pairs = re.findall(r"([A-Z]{3})=([0-9])(?:,|$)", text, re.A)
    if ",".join(map("=".join, pairs)) != text or len(dict(pairs)) != len(pairs):
        raise argparse.ArgumentTypeError(f"'{text}' isn't as JPY=0,KWD=3, of 0 to {MOST_DIGITS} digits")
    return {it: int(digits) for it, digits in pairs}
