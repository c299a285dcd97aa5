"""Names of links, routes, networks and errors, for tools/page and tools/statement."""
import csv

from lib.report_names import VIEWS
from lib.tables import Unfit


def read_names(path):
    """Returns names by view and value, of a CSV file of lines VIEW,VALUE,NAME. A line that begins with # has none."""
    names = {}
    try:
        with open(path, encoding="utf-8-sig", newline="") as file:
            for number, fields in enumerate(csv.reader(file), 1):
                if not fields or fields[0].startswith("#"):
                    continue
                if len(fields) != 3 or fields[0] not in VIEWS:
                    raise Unfit(f"{path}: line {number} is no VIEW,VALUE,NAME")
                names[fields[0], fields[1]] = fields[2]
    except (UnicodeDecodeError, csv.Error) as fault:
        raise Unfit(f"{path}: {fault}") from None
    return names
