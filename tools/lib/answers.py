"""Answers of `smq follow` as CSV (docs/FORMATS.md, Answers to questions among rows), line by line, for tools/page. An octet is a character: a
source may have any but zero, line feeds, too."""
import collections
import csv
import datetime
import re

from lib.report_names import DIRECTIONS, LISTS, OUTCOMES, SECTIONS, VIEWS
from lib.tables import LAST_MOMENT, Unfit

REPORT, COUNT = "report", "count"
TIMES = ("minute", "hour", "day", "month")
COLUMNS = (*"link session route network outcome error link-delay centre-delay".split(), *TIMES, "source", "ton",
           *(f"prefix:{it}" for it in range(1, 16)))
DECIMAL = re.compile(r"[0-9]{1,20}", re.A)
VALUE, CELL, SOURCE = re.compile(r"(?!,)[!-~]{1,64}"), re.compile(r"[ -~]{0,64}"), re.compile(r"[\x01-\xff]{0,20}", re.S)
# A record without its end whose last cell goes on: a double quote that begins it, and of each within it a second one
UNENDED = re.compile(r'(?:(?:"(?:[^"]|"")*"|[^",]*),)*"(?:[^"]|"")*', re.S)
# So many line feeds may be in a record: those of a source
MOST_FEEDS = 20
MINUTE = re.compile(r"([0-9]{4}-[0-9]{2}-[0-9]{2})T([0-9]{2}:[0-9]{2})Z", re.A)
EPOCH = datetime.datetime(1970, 1, 1)
# So many counts are kept of all questions, and so many questions
MOST_COUNTS, MOST_QUESTIONS = 100_000, 100

# name: of the question; clock: in ms since 1970; gaps, octets: what is lost, or None where it isn't told
Told = collections.namedtuple("Told", "row name clock refused gaps octets")
# keys: the columns of a source but for outcome and minute; counts: by these, and with minutes by the minute since 1970, by outcome, which is
# "" where it isn't counted
Source = collections.namedtuple("Source", "keys has_minutes counts")
# sources: by the name of a view, or of the question; listed: places by list
Answer = collections.namedtuple("Answer", "told sources listed")


def decimal(text):
    """Returns a decimal as smq writes it."""
    if not DECIMAL.fullmatch(text):
        raise ValueError
    return int(text)


def minute_of(text):
    """Returns the minute since 1970 of a cell."""
    found = MINUTE.fullmatch(text)
    if not found:
        raise ValueError
    return (datetime.datetime.fromisoformat(f"{found[1]} {found[2]}") - EPOCH) // datetime.timedelta(minutes=1)


class Answers:
    """Answers, whose lines come one by one."""

    def __init__(self):
        # lines that came; those of a record that isn't whole, or None; how many counts are kept of each question; whether some weren't
        self.lines, self.part, self.sizes, self.is_full = 0, None, {}, False
        self.begin()

    def begin(self):
        """Begins an answer."""
        self.columns, self.sections, self.sources, self.listed, self.minutes = None, set(), {}, collections.Counter(), {}
        # name: of the question, where it is known so far; views and lists are those of a report until then
        self.name, self.size, self.room = REPORT, 0, self.room_of(REPORT)

    def is_begun(self):
        return bool(self.columns or self.sections) or self.part is not None

    def room_of(self, name):
        """Returns how many counts an answer may have beside those of other questions. (All views are one.)"""
        return max(0, MOST_COUNTS - sum(size for it, size in self.sizes.items() if it != name))

    def take(self, line):
        """Takes a line without its end; the last one of an answer gives it, any other None."""
        self.lines += 1
        record, self.part = line if self.part is None else f"{self.part}\n{line}", None
        try:
            if not self.columns and record.startswith(("view,", "list,")):
                return self.take_section(*record.split(","))
            if record.count('"') % 2:
                if not UNENDED.fullmatch(record) or record.count("\n") == MOST_FEEDS:
                    raise ValueError
                self.part = record
                return None
            return self.take_record(cells_of(record))
        except (TypeError, ValueError, csv.Error):
            feeds = record.count("\n")
            raise Unfit(f"line {self.lines - feeds} is of no answer of smq follow as CSV") from None

    def take_record(self, cells):
        """Takes the cells of a record."""
        # (a source that is told may begin a record of a count: no other cell is like a question)
        if cells[0] == "told" and (not self.columns or cells[2:3] == [self.name]):
            return self.end(*cells[1:])
        if self.columns:
            self.take_cells(*cells)
        else:
            self.take_columns(cells)
        return None

    def take_section(self, kind, name, first, second, number):
        """Takes a line of a view or a list."""
        number = decimal(number)
        self.sections.add(name)
        if kind == "list":
            if name not in LISTS or not DECIMAL.fullmatch(first) or second not in DIRECTIONS:
                raise ValueError
            self.listed[name] += 1
            return
        if name not in VIEWS or not VALUE.fullmatch(first) or second not in OUTCOMES:
            raise ValueError
        source = self.sources.get(name) or self.sources.setdefault(name, Source((name,), False, {}))
        self.put(source.counts, (first,), second, number)

    def take_columns(self, columns):
        """Takes the first line of a count."""
        *columns, last = columns
        if self.sections or not columns or last != "messages" or len(set(columns)) < len(columns) or set(columns) - set(COLUMNS):
            raise ValueError
        self.columns, self.name = columns, f"{COUNT} {' '.join(columns)}"
        self.room = self.room_of(self.name)
        self.forms = [SOURCE if it == "source" else CELL for it in (*columns, last)]
        self.places = [at for at, it in enumerate(columns) if it not in ("outcome", *TIMES)]
        self.outcome = columns.index("outcome") if "outcome" in columns else None
        self.minute = columns.index("minute") if "minute" in columns else None
        # (of hours, days and months no table is shown)
        if not set(TIMES[1:]) & set(columns):
            self.sources[self.name] = Source(tuple(columns[it] for it in self.places), self.minute is not None, {})

    def take_cells(self, *cells):
        """Takes a line of a count."""
        if len(cells) != len(self.forms) or not all(map(re.Pattern.fullmatch, self.forms, cells)):
            raise ValueError
        *cells, number = cells
        number = decimal(number)
        outcome = "" if self.outcome is None else cells[self.outcome]
        if self.outcome is not None and outcome not in OUTCOMES:
            raise ValueError
        source, key = self.sources.get(self.name), tuple(cells[it] for it in self.places)
        if self.minute is not None:
            text = cells[self.minute]
            minute = self.minutes.get(text)
            if minute is None:
                minute = minute_of(text)
                if len(self.minutes) < MOST_COUNTS:
                    self.minutes[text] = minute
            key = key, minute
        if source:
            self.put(source.counts, key, outcome, number)

    def put(self, counts, key, outcome, number):
        """Puts a count, where there is room."""
        found = counts.get(key)
        if found and outcome in found:
            raise ValueError
        if self.size == self.room:
            self.is_full = True
            return
        self.size += 1
        if found is None:
            found = counts[key] = {}
        found[outcome] = number

    def end(self, row, name, clock, refused, gaps=None, octets=None):
        """Ends an answer."""
        is_known = self.columns or name == REPORT or name in SECTIONS and self.sections <= {name}
        if not is_known or (gaps is None) != (octets is None) or decimal(clock) > LAST_MOMENT:
            raise ValueError
        told = Told(decimal(row), name, decimal(clock), decimal(refused), *(None if it is None else decimal(it) for it in (gaps, octets)))
        if self.name not in self.sizes and len(self.sizes) == MOST_QUESTIONS:
            raise Unfit(f"line {self.lines}: there are more than {MOST_QUESTIONS} questions")
        # (an answer of one view leaves the others of a report)
        self.sizes[self.name] = self.size if self.name == name else max(self.size, self.sizes.get(self.name, 0))
        asked = SECTIONS if name == REPORT else (name,)
        for it in asked:
            if it in VIEWS:
                self.sources.setdefault(it, Source((it,), False, {}))
        listed = {it: self.listed[it] for it in asked if it in LISTS}
        answer = Answer(told, self.sources, listed)
        self.begin()
        return answer


def cells_of(record):
    """Returns the cells of a record of CSV."""
    if '"' not in record:
        return record.split(",")
    (cells,) = csv.reader([record], strict=True)
    return cells
