"""Tables of CSV that are read by the names of their columns, line by line, and what tools do with faults of them."""
import argparse
import csv
import datetime
import re
import struct
import sys

LONGEST_LINE = 1_048_576
LAST_MOMENT = 4_102_444_800_000
DECIMAL = re.compile(r"0|[1-9][0-9]{0,19}", re.A)
EPOCH = datetime.datetime(1970, 1, 1, tzinfo=datetime.timezone.utc)
# How the octets of ids are read, whatever they are, and written again
OCTETS = {"encoding": "utf-8", "errors": "surrogateescape", "newline": ""}


class Unfit(Exception):
    """Why words or a table can't be read."""


def opened(path):
    """Returns a file to read, or standard input for 0, without a byte order mark."""
    return open(path, closefd=path != 0, **{**OCTETS, "encoding": "utf-8-sig"})


def lines_of(file, name, longest, remark):
    at = 0
    while line := file.readline(longest + 1):
        at += 1
        if len(line) > longest:
            raise Unfit(f"{name}line {at}: it has more than {longest} characters")
        yield "\n" if remark and line.startswith(remark) else line


def records_of(file, name="", longest=LONGEST_LINE, remark=""):
    """Yields the line on which each record begins, from 1, and its fields; empty lines are none, nor lines that begin with remark, where that is
    given. The name of the file stands before what is told of a line."""
    reader, first = csv.reader(lines_of(file, name, longest, remark), strict=True), 1
    try:
        for fields in reader:
            if fields:
                yield first, fields
            first = reader.line_num + 1
    except csv.Error as fault:
        raise Unfit(f"{name}line {first}: {fault}") from None


def table_of(file, wanted, optional=(), name="", remark=""):
    """Returns the names of a table's columns, and what yields the line and the fields by name of each record below. Of the optional columns
    those that aren't there are empty; others are passed over."""
    records = records_of(file, name, remark=remark)
    first, names = next(records, (1, []))
    if len(names) == 1 and len(wanted) > 1 and (mark := next((it for it in ";\t" if it in names[0]), None)):
        raise Unfit(f"{name}line {first}: its fields stand between {'semicolons' if mark == ';' else 'tabs'}, and have to stand between commas")
    if not names:
        raise Unfit(f"{name}there is no line; wanted: one of names, with {', '.join(wanted)}")
    for column in (*wanted, *optional):
        if names.count(column) != 1 and (column in wanted or column in names):
            raise Unfit(f"{name}line {first}: column {column} is there {names.count(column)} times")
    places = [(it, names.index(it)) for it in (*wanted, *optional) if it in names]

    def rows():
        absent = dict.fromkeys(optional, "")
        for line, fields in records:
            if len(fields) != len(names):
                raise Unfit(f"{name}line {line}: it has {len(fields)} fields, and the columns are {len(names)}")
            yield line, {**absent, **{it: fields[at] for it, at in places}}

    return names, rows()


def fitting(form, row, column, line, name=""):
    """Returns the field of a column, which has the form."""
    if not form.fullmatch(row[column]):
        raise Unfit(f"{name}line {line}: column {column} is {row[column][:40]!a}")
    return row[column]


def link_of(text):
    """Returns the number of a link, of a word."""
    if not DECIMAL.fullmatch(text):
        raise argparse.ArgumentTypeError(f"'{text}' is no link")
    return int(text)


def date_of(text):
    """Returns a date of the calendar in the form YYYY-MM-DD as it is, or None."""
    try:
        return text if re.fullmatch(r"[0-9]{4}-[0-9]{2}-[0-9]{2}", text, re.A) and datetime.date.fromisoformat(text) else None
    except ValueError:
        return None


def zone_of(path):
    """Returns the time zone of a file (TZif, RFC 8536), or UTC without one."""
    if not path:
        return datetime.timezone.utc
    try:
        import zoneinfo
    except ImportError:
        raise Unfit("--zone needs Python 3.9 or newer") from None
    with open(path, "rb") as file:
        try:
            return zoneinfo.ZoneInfo.from_file(file)
        except (ValueError, IndexError, struct.error):
            raise Unfit(f"time zone {path}: no TZif file") from None


def moment_of(text, zone):
    """Returns the ms since 1970 in UTC of a moment in ms, an instant YYYY-MM-DDTHH:MM:SSZ or the beginning of a date in a time zone."""
    try:
        if re.fullmatch(r"[0-9]{1,20}", text, re.A):
            moment = int(text)
        else:
            found = re.fullmatch(r"([0-9]{4}-[0-9]{2}-[0-9]{2})(?:T([0-9]{2}:[0-9]{2}:[0-9]{2})Z)?", text, re.A)
            instant = datetime.datetime.fromisoformat(f"{found[1]} {found[2] or '00:00:00'}") if found else EPOCH
            instant = instant.replace(tzinfo=datetime.timezone.utc if found and found[2] else zone)
            moment = (instant - EPOCH) // datetime.timedelta(milliseconds=1) if found else -1
    except ValueError:
        moment = -1
    if not 0 <= moment <= LAST_MOMENT:
        raise ValueError(f"'{text}' is no moment in ms since 1970 or as YYYY-MM-DDTHH:MM:SSZ, and no date as YYYY-MM-DD")
    return moment


def day_of(moment, zone):
    """Returns the date of a moment in a time zone."""
    return f"{(EPOCH + datetime.timedelta(milliseconds=moment)).astimezone(zone):%Y-%m-%d}"


def quoted(value):
    """Returns a field as smq writes it. (The module csv leaves CR without quotes.)"""
    text = str(value)
    return '"' + text.replace('"', '""') + '"' if re.search('[",\r\n]', text) else text


def write(rows):
    """Writes records to standard output."""
    with open(1, "w", closefd=False, **OCTETS) as file:
        file.writelines(",".join(map(quoted, it)) + "\n" for it in rows)


def ended(name, play):
    """Plays what a tool does, and tells its fault; returns the status."""
    try:
        return play()
    except Unfit as fault:
        status, told = 2, fault
    except OSError as fault:
        status, told = 3, fault
    print(f"{name}: {told}", file=sys.stderr)
    return status
