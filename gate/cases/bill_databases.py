"""docs/schema.sql, its commands and the queries of docs/GUIDE.md, in sqlite3 and PostgreSQL, for gate/check-bills. Where one isn't there, a
line says so."""
import collections
import contextlib
import datetime
import os
import re
import shutil
import subprocess
import tempfile

from repository import ROOT
from cases import bills

RECEIPT_COLUMNS = "link session offset moment id state interim error standing message_session message_offset key command".split()
RECEIPTS = [("1", "1", "18", "1793491200000", "1A", "delivered", "no", "unstated", "deciding", "1", "49", "26", "deliver_sm"),
            ("1", "1", "68", "1793491200001", "1B", "enroute", "yes", "text:027", "stray", "", "", "27", "data_sm")]
REPORT = [("view", "link", "1", "open", "1"), ("list", "open", "10", "client", "281474976710656")]
COUNT_COLUMNS, COUNTS = ("link", "network", "day", "outcome", "messages"), [("1", "none", "2026-11-01", "open", "5000000000")]
# What has to be NULL, and to be a number
NULLS = """SELECT count(*), count(number), count(error), count(id), count(response_offset), count(receipt_moment), count(centre_delay),
  count(key), count(source), sum(receipt_moment - moment), min("offset"), max("offset"), sum(ton) FROM messages"""
OTHERS = ("SELECT count(*), count(message_session), sum(message_offset), sum(moment) FROM receipts",
          "SELECT max(count), min(count) FROM report", "SELECT link, network, day, outcome, messages + 1 FROM counts")


def read(path):
    with open(f"{ROOT}/{path}", encoding="utf-8") as file:
        return file.read()


def commands(name):
    """Returns the shell's commands of a program at the schema's head."""
    found = re.search(rf"^--   {name} (?:.*\\\n)*.*$", read("docs/schema.sql"), re.M)
    return re.sub(r"^--   ", "", found[0], flags=re.M)


def queries():
    """Returns the queries of the GUIDE."""
    (block,) = re.findall(r"^```sql\n(.*?)^```", read("docs/GUIDE.md"), re.M | re.S)
    return [it for it in (re.sub(r"^--.*\n", "", it.strip(), flags=re.M).strip() for it in block.split(";\n")) if it]


def by_octets(text):
    """Returns a text of any octets, each as a character."""
    return text.encode("utf-8", "surrogateescape").decode("latin-1")


def answers(month):
    """Returns what the queries have to give, each row as texts, without their order."""
    minute = collections.Counter((datetime.datetime.fromtimestamp(int(it.moment) // 60_000 * 60, datetime.timezone.utc)
                                  .strftime("%Y-%m-%d %H:%M:%S"), it.outcome) for it in month.messages)
    network = collections.Counter((it.link, it.network, it.outcome) for it in month.messages)
    of_count = [(it.session, it.offset, it.number, by_octets(it.id), it.receipt_moment)
                for it in month.messages if (it.route, it.outcome, it.error) == ("12", "failed", "net:3:8")]
    delays = {link: [int(it.receipt_moment) - int(it.moment) for it in month.messages if it.link == link and it.receipt_moment]
              for link in {it.link for it in month.messages}}
    senders = collections.Counter(it.source for it in month.messages if it.id)
    heard = {it.source for it in month.messages if it.id and it.receipt_moment}
    outcomes = {it.key: it.outcome for it in month.messages if it.link == "3"}
    billed = [(row[0], outcomes.get(row[0] or None, "")) for row in month.billed[3][1:]]
    return [[(*key, str(it)) for key, it in minute.items()], [(*key, str(it)) for key, it in network.items()], of_count,
            [(link, f"{sum(it) / len(it):.3f}") for link, it in delays.items()],
            [(by_octets(it), str(number)) for it, number in senders.items() if it not in heard], [it for it in billed if it[1] != "delivered"]]


def nulls(month):
    has = [sum(bool(getattr(it, name)) for it in month.messages)
           for name in ("link", "number", "error", "id", "response_offset", "receipt_moment", "centre_delay", "key", "source")]
    delays = sum(int(it.receipt_moment) - int(it.moment) for it in month.messages if it.receipt_moment)
    offsets = [int(it.offset) for it in month.messages]
    return [tuple(map(str, (*has, delays, min(offsets), max(offsets), sum(int(it.ton) for it in month.messages))))]


def as_texts(text):
    """Returns rows as texts, without their order: an id's octets by latin1, means to three places."""
    rows = [it.split("\x1f") for it in text.split("\x1e") if it]
    return sorted(tuple(f"{float(it):.3f}" if re.fullmatch(r"[0-9]+\.[0-9]+", it) else it for it in row) for row in rows)


@contextlib.contextmanager
def room_of(month):
    """A folder with the files that are imported, and the schema."""
    with tempfile.TemporaryDirectory(prefix="check-bills-") as room:
        os.chmod(room, 0o755)
        shutil.copytree(f"{ROOT}/docs", f"{room}/docs")
        files = {"messages": [bills.MESSAGE_COLUMNS, *month.messages], "receipts": [RECEIPT_COLUMNS, *RECEIPTS], "report": REPORT,
                 "count": [COUNT_COLUMNS, *COUNTS], "supplier": month.billed[3]}
        for name, rows in files.items():
            with open(f"{room}/{name}.csv", "wb") as file:
                file.write(bills.csv_of(rows))
        yield room


def run(room, *words, **more):
    ended = subprocess.run(words, cwd=room, capture_output=True, timeout=120, check=False, env={**os.environ, "PGTZ": "UTC", **more})
    return ended.returncode, ended.stdout, ended.stderr.decode("utf-8", "replace")


def see_sqlite(see, room, wanted):
    see("sqlite3: the schema and its imports", (0, b"", ""), run(room, "bash", "-c", commands("sqlite3")))
    see("sqlite3: the supplier's file", (0, b"", ""), run(room, "sqlite3", "month.db", ".import --csv supplier.csv billed"))
    for query, rows in wanted:
        status, out, told = run(room, "sqlite3", "-ascii", "month.db", query)
        see(f"sqlite3: {query}", (0, sorted(rows), ""), (status, as_texts(out.decode("latin-1")), told))


@contextlib.contextmanager
def postgres(room):
    """A server of its own, in a folder, as another user where root runs this. Yields what psql needs."""
    programs, data = os.path.dirname(os.path.realpath(shutil.which("initdb"))), f"{room}/data"
    other = ["runuser", "-u", "postgres", "--"] if os.geteuid() == 0 else []
    os.mkdir(data, 0o700)
    if other:
        shutil.chown(data, "postgres", "postgres")
    begun = run(data, *other, f"{programs}/initdb", "-D", data, "-U", "check", "-A", "trust", "-E", "UTF8", "--locale=C.UTF-8")
    if not begun[0]:
        begun = run(data, *other, f"{programs}/pg_ctl", "-D", data, "-w", "-l", f"{data}/log", "-o", f"-c listen_addresses= -k {data}",
                    "start")
    try:
        yield begun, {"PGHOST": data, "PGUSER": "check", "PGDATABASE": "postgres"}
    finally:
        run(data, *other, f"{programs}/pg_ctl", "-D", data, "-m", "immediate", "stop")


def see_postgres(see, room, wanted):
    with postgres(room) as (begun, where):
        see("PostgreSQL begins", (0, ""), (begun[0], begun[2]))
        see("PostgreSQL: what psql takes for an end", (0, b"", ""), run(room, "bash", "-c", commands("sed")))
        see("PostgreSQL: the schema and its imports", (0, ""), run(room, "bash", "-c", commands("psql"), **where)[::2])
        columns = ", ".join(f"{it} text" for it in bills.BILLED_COLUMNS)
        see("PostgreSQL: the supplier's file", (0, ""), run(room, "psql", "-c", f"CREATE TABLE billed ({columns})", "-c",
                                                            r"\copy billed from 'supplier.csv' with (format csv, header)", **where)[::2])
        for query, rows in wanted:
            query = re.sub(r"datetime\((.*?), 'unixepoch'\)", r"to_timestamp(\1) AT TIME ZONE 'UTC'", query)
            status, out, told = run(room, "psql", "-At", "-F", "\x1f", "-R", "\x1e", "-c", query, PGCLIENTENCODING="UTF8", **where)
            text = out.decode("utf-8").removesuffix("\n")
            rows = [tuple(re.sub(r"^\\[.]$", r"\\. ", it, flags=re.M) for it in row) for row in rows]
            see(f"PostgreSQL: {query}", (0, sorted(rows), ""), (status, as_texts(text), told))


def see_databases(see, month):
    asked = queries()
    see("the GUIDE's queries", 6, len(asked))
    wanted = [*zip(asked, answers(month)), (NULLS, nulls(month)), (OTHERS[0], [("2", "1", "49", "3586982400001")]),
              (OTHERS[1], [("281474976710656", "1")]), (OTHERS[2], [("1", "none", "2026-11-01", "open", "5000000001")])]
    for name, programs, look in (("sqlite3", ("sqlite3",), see_sqlite), ("PostgreSQL", ("psql", "initdb", "pg_ctl"), see_postgres)):
        missing = [it for it in programs if not shutil.which(it)]
        if missing:
            print(f"{name}: {', '.join(missing)} not installed: not looked at")
            continue
        with room_of(month) as room:
            look(see, room, wanted)
