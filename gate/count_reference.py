"""What `smq count --by COLUMNS --where COLUMN=VALUE .. --zone PATH` writes for the lines of `smq messages`, by plain searches over all of them.
What the clocks of a time zone show is what zoneinfo says."""
import collections
import csv
import datetime
import io
import re

from lib.report_names import BANDS, OUTCOMES
from oracle.counts_again import csv_of

PLAIN = ("link", "session", "route", "network", "outcome", "error", "source", "ton")
# How the beginning of a minute, hour, day or month is written in UTC; in a time zone its offset stands for Z
MOMENTS = {"minute": "%Y-%m-%dT%H:%MZ", "hour": "%Y-%m-%dT%HZ", "day": "%Y-%m-%d", "month": "%Y-%m"}
DELAYS = ("link-delay", "centre-delay")
# Columns, but for prefix:N
COLUMNS = (*PLAIN, *DELAYS, *MOMENTS)
EPOCH = datetime.datetime(1970, 1, 1, tzinfo=datetime.timezone.utc)


def band(delay):
    return next(name for end, name in BANDS if end is None or delay < end)


def period(column, moment, zone):
    """Returns the text of the minute, hour, day or month of a moment, in a time zone or in UTC."""
    at = EPOCH + datetime.timedelta(milliseconds=int(moment))
    if zone is None:
        return at.strftime(MOMENTS[column])
    at = at.astimezone(zone)
    return at.strftime(MOMENTS[column]).replace("Z", at.isoformat(timespec="seconds")[19:])


def cell(column, line, zone=None):
    """Returns the text that a line for a message has in a column."""
    if column in PLAIN:
        return line[column]
    if column in MOMENTS:
        return period(column, line["moment"], zone)
    if column == "link-delay":
        return band(int(line["receipt_moment"]) - int(line["moment"])) if line["receipt_moment"] else ""
    if column == "centre-delay":
        return band(int(line["centre_delay"])) if line["centre_delay"] else ""
    return line["number"][: int(re.fullmatch(r"prefix:([1-9][0-9]*)", column)[1])]


def error_order(text):
    """Returns what an error is ordered by: statuses, codes of networks, texts, unstated."""
    kind, _, rest = text.partition(":")
    value = [int(it) for it in rest.split(":")] if kind in ("status", "net") else rest
    return {"status": 0, "net": 1, "text": 2, "unstated": 3}[kind], value


def order(column, text):
    """Returns what a cell is ordered by: an empty one comes last."""
    if text == "":
        return (1,)
    if column in ("link", "session", "route", "ton"):
        return (0, text == "none", 0 if text == "none" else int(text))
    if column == "outcome":
        return 0, OUTCOMES.index(text)
    if column == "error":
        return 0, error_order(text)
    if column in DELAYS:
        return 0, [name for _, name in BANDS].index(text)
    if column in ("minute", "hour"):
        # (by when it begins; of two that begin at once, on a night when clocks change within it, first the one whose local time is earlier)
        at = datetime.datetime.strptime(text, MOMENTS[column].replace("Z", "%z"))
        return 0, at, at.utcoffset()
    return (0, column == "network" and text == "none", text)


def count(lines, columns, conditions=(), zone=None):
    """Returns what is written for the lines, as octets; without a time zone in UTC."""
    wanted, counts = [it.split("=", 1) for it in conditions], collections.Counter()
    # (each octet is a character)
    for line in csv.DictReader(io.StringIO(lines.decode("latin-1"), newline="")):
        if all(cell(column, line, zone) == value for column, value in wanted):
            counts[tuple(cell(it, line, zone) for it in columns)] += 1
    rows = sorted(counts, key=lambda it: [order(*pair) for pair in zip(columns, it)])
    return csv_of((*columns, "messages"), ([*(text.encode("latin-1") for text in it), counts[it]] for it in rows))
