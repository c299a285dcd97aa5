"""Checks tools/page, for gate/check-live: files of answers that are written out, what is remembered, hostile answers, and ends. Tools are started
with pipes that stay open."""
import sys

sys.dont_write_bytecode = True

import base64
import csv
import hashlib
import html.parser
import json
import os
import random
import re
import resource
import select
import signal
import subprocess
import tempfile
import threading
import time

from repository import TOOLS
from lib.loader import load
from lib.report_names import LISTS
from lib.shown import BadState, Shown, restore

try:
    from prometheus_client.parser import text_string_to_metric_families
except ImportError:
    text_string_to_metric_families = None

PAGE = load("page")
# How long anything that is to come may take, in s, and what is large
SOON, MUCH_LATER = 30, 300

REPORT = """view,link,3,delivered,12
view,link,3,open,1
view,link,10,failed,2
view,route,7,delivered,12
view,route,none,failed,2
view,network,23410,delivered,12
view,network,none,open,1
view,error,status:88,refused,4
view,error,net:3:1027,failed,1
view,error,text:a_B.c-d,failed,1
view,link-delay,under-5s,delivered,12
view,centre-delay,over,failed,2
list,waiting,1,centre,0
list,waiting,18446744073709551615,client,281474976710656
list,open,1,client,49
"""
FIRST = REPORT + "told,17,report,1795329424815,2\n"
PAIRS = """link,network,outcome,messages
3,23410,delivered,12
"3","",open,1
10,,failed,2
"""
COUNTED = PAIRS + "told,18,count link network outcome,1795329424815,2,1,1460\n"
LINKS = "view,link,3,delivered,13\n"
SECOND = LINKS + "told,19,link,1795329425000,3,0,0\n"
NAMES = '# some names\nlink,3,"North \\ ""best"" <b>&\none"\nroute,none,elsewhere\nroute,8,\nnetwork,23410,O2 UK\nerror,net:3:1027,absent\n'
NAME = 'North \\ "best" <b>&\none'
KNOWN = {("link", "3"): NAME, ("route", "none"): "elsewhere", ("network", "23410"): "O2 UK", ("error", "net:3:1027"): "absent"}
# 2026-11-22T06:37Z
NOW = 1795329420
FILES = ["index.html", "metrics.prom", "state.json", "status.json"]


def started(*words, **more):
    """Starts a tool or a program as it is started without PYTHONUNBUFFERED, with pipes."""
    known = {name: value for name, value in os.environ.items() if name != "PYTHONUNBUFFERED"}
    pipes = {"stdin": subprocess.PIPE, "stdout": subprocess.PIPE, "stderr": subprocess.PIPE, **more}
    return subprocess.Popen(words, bufsize=0, env=known, **pipes)


def tool(name, *words, **more):
    return started(sys.executable, f"{TOOLS}/{name}", *words, **more)


def give(process, octets):
    """Gives a process octets; where it has ended, that is seen by its status."""
    try:
        process.stdin.write(octets)
    except BrokenPipeError:
        pass


def status_of(process, soon=SOON):
    """Returns the status with which a process ends soon."""
    try:
        return process.wait(soon)
    except subprocess.TimeoutExpired:
        process.kill()
        return "no end"


def until(is_so, soon=SOON):
    """Calls until what it returns is so, or some seconds have passed; returns the last."""
    end = time.monotonic() + soon
    while not (found := is_so()) and time.monotonic() < end:
        time.sleep(0.05)
    return found


def lines_of(file, count):
    """Returns so many lines of a pipe, or those that come soon."""
    octets, end = b"", time.monotonic() + SOON
    while octets.count(b"\n") < count and select.select([file], [], [], max(0, end - time.monotonic()))[0]:
        if not (more := os.read(file.fileno(), 65_536)):
            break
        octets += more
    return octets.decode().splitlines()


def parsed(text):
    """Returns the samples of a text form of metrics, each once, as name, labels and number; each name has its two lines before it."""
    found, known, last = {}, {}, None
    # (no other sign ends a line)
    for line in text.split("\n")[:-1]:
        if line.startswith("#"):
            kind, name, rest = re.fullmatch(r"# (HELP|TYPE) ([a-z_]+) (.+)", line).groups()
            assert kind not in known.setdefault(name, {}) and (kind == "HELP" or rest == "gauge"), line
            known[name][kind], last = rest, name
            continue
        name, _, labels, number = re.fullmatch(r'([a-z_]+)(\{(.*)\})? ([0-9.]+)', line).groups()
        assert name == last and set(known[name]) == {"HELP", "TYPE"}, line
        pairs = re.findall(r'([a-z_0-9]+)="((?:[^"\\]|\\.)*)"', labels or "")
        assert ",".join(f'{key}="{value}"' for key, value in pairs) == (labels or ""), line
        unescaped = {key: re.sub(r"\\(.)", lambda it: {"n": "\n"}.get(it[1], it[1]), value) for key, value in pairs}
        # (a label that is empty is none)
        key = name, tuple(sorted((key, value) for key, value in unescaped.items() if value))
        assert key not in found and text.endswith("\n"), line
        found[key] = float(number)
    return found


def parsed_by_client(text):
    """Returns the same by prometheus_client."""
    return {(it.name, tuple(sorted((key, value) for key, value in it.labels.items() if value))): it.value
            for family in text_string_to_metric_families(text) for it in family.samples}


def samples_of(report, told=None, names=None, listed=LISTS, known="", counted="", lost=None):
    """Returns the samples that a report and a count of links by networks are to have: those of a report that is known, too, at 0 where they
    are gone."""
    names, found = names or {}, {("smq_listed", (("list", it),)): 0.0 for it in listed}
    zeros = [it.rpartition(",")[0] + ",0" for it in known.splitlines() if it.startswith("view")]
    for kind, name, *rest in (it.split(",") for it in [*zeros, *report.splitlines()]):
        if kind == "list":
            found["smq_listed", (("list", name),)] += 1
            continue
        value, outcome, count = rest
        labels = {"view": name, "value": value, "outcome": outcome}
        labels.update({"name": names[name, value]} if names.get((name, value)) else {})
        found["smq_messages", tuple(sorted(labels.items()))] = float(count)
    for link, network, outcome, count in (it.replace('"', "").split(",") for it in counted.splitlines()[1:]):
        labels = {"by": "link network outcome", "link": link, "network": network, "outcome": outcome}
        both = names.get(("link", link)), names.get(("network", network))
        labels.update({"name": f"{both[0] or link} {both[1] or network or 'none'}"} if any(both) else {})
        found["smq_counted", tuple(sorted((key, it) for key, it in labels.items() if it))] = float(count)
    for name, number in (*zip(("smq_rows", "smq_clock_seconds", "smq_refused_rows"), told or ()),
                         *zip(("smq_lost_gaps", "smq_lost_octets"), lost or ())):
        found[name, ()] = number
    return found


def without_moments(samples):
    """Returns samples without those that say when figures, messages and receipts came."""
    return {key: value for key, value in samples.items() if not re.fullmatch("smq_(answer_timestamp|link_last.*)_seconds", key[0])}


class Tables(html.parser.HTMLParser):
    """The tables of a page by the name of their section: by the text of its first cell what stands under each heading."""

    EMPTY = {"meta", "path"}

    def __init__(self, text):
        super().__init__(convert_charrefs=True)
        self.tags, self.attributes, self.tables, self.section, self.rows, self.texts = [], set(), {}, None, [], []
        self.is_cell = False
        self.feed(text)
        self.close()
        self.end_section()

    def handle_starttag(self, tag, attrs):
        self.tags.append(tag)
        self.attributes |= {name for name, _ in attrs}
        if tag == "section":
            self.section, self.rows = dict(attrs)["id"], []
        elif tag == "tr":
            self.rows.append([])
        elif tag in ("td", "th") and self.rows:
            self.rows[-1].append("")
            self.is_cell = True
        elif tag == "small" and self.is_cell:
            self.rows[-1][-1] += "|"

    def handle_endtag(self, tag):
        if tag in ("table", "thead"):
            self.is_cell = False
        if tag == "section":
            self.end_section()

    def handle_data(self, data):
        self.texts.append(data)
        if self.is_cell:
            self.rows[-1][-1] += data.strip("\n")

    def end_section(self):
        if self.section and self.rows:
            head, *rows = self.rows
            self.tables[self.section] = {it[0]: dict(zip(head[1:], it[1:])) for it in rows}
        self.section = None

    def order(self, section):
        return list(self.tables[section])


class Paged:
    """A running tools/page, whose input stays open."""

    def __init__(self, folder, *words, **more):
        self.folder, self.process = folder, tool("page", *words, "--into", folder, **more)

    def give(self, text):
        give(self.process, text if isinstance(text, bytes) else text.encode())

    def octets(self, name):
        with open(f"{self.folder}/{name}", "rb") as file:
            return file.read()

    def text(self, name):
        try:
            with open(f"{self.folder}/{name}", encoding="utf-8", newline="") as file:
                return file.read()
        except FileNotFoundError:
            return None

    def metrics(self):
        return parsed(self.text("metrics.prom") or "")

    def status(self):
        return json.loads(self.text("status.json") or "{}")

    def tables(self):
        return Tables(self.text("index.html"))

    def row(self, number, soon=SOON):
        """Waits until the files of a row are there, and returns the metrics then."""
        until(lambda: self.status().get("rows") == number and self.metrics().get(("smq_rows", ())) == number and self.text("state.json"), soon)
        return self.metrics()

    def figures(self):
        """Returns the samples of views and lists; a count of 0 is of an answer before."""
        return {key: value for key, value in self.metrics().items() if key[0] == "smq_listed" or key[0] == "smq_messages" and value}

    def end(self, soon=SOON):
        """Ends the input; returns the status and what was told."""
        self.process.stdin.close()
        return status_of(self.process, soon), self.process.stderr.read().decode()


def picked(table, key, *heads):
    """Returns what stands in a row under some headings."""
    return [table[key].get(it) for it in heads] if key in table else f"no {key!r} among {list(table)}"


def see_pages(count):
    """Sees what the files have of some answers, while the input stays open."""
    with tempfile.TemporaryDirectory(prefix="check-live-") as room:
        with open(f"{room}/names.csv", "w", encoding="utf-8", newline="") as file:
            file.write(NAMES)
        shown = Paged(f"{room}/live", "--names", f"{room}/names.csv")
        before = time.time()
        shown.give(FIRST)
        found = shown.row(17)
        count.see("the files of a report", sorted([*FILES, "report.csv"]), sorted(os.listdir(shown.folder)))
        moment = found.get(("smq_answer_timestamp_seconds", ()), 0)
        count.see("metrics of a report", samples_of(REPORT, (17, 1795329424.815, 2), KNOWN), without_moments(found))
        count.see("when it came", True, before - 1 < moment < time.time() + 1)
        if text_string_to_metric_families:
            count.see("metrics by prometheus_client", found, parsed_by_client(shown.text("metrics.prom")))
        count.see("the report", REPORT, shown.text("report.csv"))
        page = shown.tables()
        north = 'North \\ "best" <b>& one|3'
        count.see("the page's links", ([north, "10"], ["13", "92.3", "12", "1", "0"], ["2", "0.0", "0", "0", "2"]), (
            sorted(page.tables["link"], reverse=True), picked(page.tables["link"], north, "messages", "delivered, %", "delivered", "open", "failed"),
            picked(page.tables["link"], "10", "messages", "delivered, %", "delivered", "open", "failed")))
        count.see("the worst comes first", ["10", north], page.order("link"))
        count.see("routes", ["elsewhere|none", "7"], page.order("route"))
        count.see("errors, with names", {"ESME_RTHROTTLED|status:88": "4", "absent|net:3:1027": "1", "text:a_B.c-d": "1"},
                  {key: it["messages"] for key, it in page.tables["error"].items()})
        count.see("delays", ("12", "2"), (page.tables["link-delay"]["under-5s"]["delivered"], page.tables["centre-delay"]["over"]["failed"]))
        count.see("lists", {**dict.fromkeys(LISTS, "0"), "waiting": "2", "open": "1"}, {key: it["places"] for key, it in page.tables["lists"].items()})
        absent = [it for it in ("losses unknown", "2026-11-22 06:37:04 UTC", "17 rows, 2 refused") if it not in " ".join(page.texts)]
        count.see("what stands above", [], absent)
        told = shown.status()
        count.see("status.json", (1795329424815, int(moment * 1000), 17, 2, None, None, False, {**dict.fromkeys(LISTS, 0), "waiting": 2, "open": 1}), (
            told["clock"], told["when"], told["rows"], told["refused"], told["lost_gaps"], told["lost_octets"], told["old"], told["listed"]))
        count.see("the worst rows", [("link", ["10"], None, 2, 2, 2), ("route", ["none"], "elsewhere", 2, 2, 2), ("network", ["none"], None, 1, 1, 0)],
                  [(it["by"], it["values"], it["name"], it["messages"], it["undelivered"], it["failed"]) for it in told["worst"]])
        count.see("its moments", True, before - 1 < told["written"] / 1000 < time.time() + 1 and told["age"] == told["written"] - told["clock"])

        shown.give(COUNTED)
        found = shown.row(18)
        count.see("metrics of a count", samples_of(REPORT, (18, 1795329424.815, 2), KNOWN, counted=PAIRS, lost=(1, 1460)), without_moments(found))
        count.see("its CSV", PAIRS, shown.text("count-link-network-outcome.csv"))
        page = shown.tables()
        name, both = "count-link-network-outcome", 'North \\ "best" <b>& one × O2 UK|3 × 23410'
        count.see("its table", (["10 × none", 'North \\ "best" <b>& one × none|3 × none', both], ["12", "100.0", "12"]), (
            page.order(name), picked(page.tables[name], both, "messages", "delivered, %", "delivered")))
        count.see("losses", (True, 1, 1460), ("1 gaps, 1460 octets lost" in page.texts, shown.status()["lost_gaps"], shown.status()["lost_octets"]))

        shown.give(SECOND)
        later = "".join(f"{it}\n" for it in REPORT.splitlines() if not it.startswith("view,link,")) + LINKS
        count.see("metrics after an answer of one view", samples_of(later, (19, 1795329425, 3), KNOWN, known=REPORT, counted=PAIRS, lost=(0, 0)),
                  without_moments(shown.row(19)))
        count.see("that view, and the report before", (LINKS, REPORT), (shown.text("link.csv"), shown.text("report.csv")))
        links = shown.tables().tables["link"]
        count.see("rows and counts that are gone stay on the page at 0", (["13", "100.0", "13", None, None], ["0", "", "0", None, None]), tuple(
            picked(links, it, "messages", "delivered, %", "delivered", "open", "failed") for it in (north, "10")))
        shown.give("told,20,link,1795329425000,3\n")
        later = "".join(f"{it}\n" for it in REPORT.splitlines() if not it.startswith("view,link,"))
        count.see("a view that has become empty", (samples_of(later, (20, 1795329425, 3), KNOWN, known=REPORT, counted=PAIRS), ""), (
            without_moments(shown.row(20)), shown.text("link.csv")))
        shown.give("link,network,outcome,messages\ntold,21,count link network outcome,1795329425000,3,0,0\ntold,22,report,1795329425000,3,0,0\n")
        zeros = "\n".join(re.sub("[0-9]+$", "0", it) for it in PAIRS.splitlines())
        count.see("an empty report and count", samples_of("", (22, 1795329425, 3), KNOWN, known=REPORT, counted=zeros, lost=(0, 0)),
                  without_moments(shown.row(22)))
        shown.give("view,link,3,open,2\ntold,23,link,1795329425000,3,0,0\n")
        count.see("a count that comes again", samples_of("view,link,3,open,2\n", (23, 1795329425, 3), KNOWN, known=REPORT, counted=zeros, lost=(0, 0)),
                  without_moments(shown.row(23)))
        count.see("its end", (0, ""), shown.end())
        shown = Paged(f"{room}/other")
        shown.give("list,open,1,client,0\ntold,1,open,0,0\nmessages\n")
        status, told = shown.end()
        count.see("one list, and a line of none", (2, samples_of("list,open,1,client,0\n", (1, 0, 0), listed=("open",))), (
            status, without_moments(shown.metrics())))
        count.see("files that all may read", {0o644}, {os.stat(f"{shown.folder}/{it}").st_mode & 0o777 for it in os.listdir(shown.folder)})
        other = "outcome,messages\nopen,4\ntold,2,count outcome,0,0\n", "link-delay,prefix:3,messages\n,447,4\n" \
            "over,,1\ntold,3,count link-delay prefix:3,0,0\n", "day,outcome,messages\n2026-11-22,open,4\ntold,4,count day outcome,0,0\n"
        shown = Paged(f"{room}/counts")
        shown.give("".join(other))
        shown.row(4)
        wanted = {("smq_counted", (("by", "outcome"), ("outcome", "open"))): 4.0,
                  ("smq_counted", (("by", "link-delay prefix:3"), ("prefix_3", "447"))): 4.0,
                  ("smq_counted", (("by", "link-delay prefix:3"), ("link_delay", "over"))): 1.0}
        count.see("counts by other columns", wanted, {key: it for key, it in shown.metrics().items() if key[0] == "smq_counted"})
        count.see("their files", sorted([*FILES, "count-outcome.csv", "count-link-delay-prefix3.csv", "count-day-outcome.csv"]),
                  sorted(os.listdir(shown.folder)))
        count.see("their end", (0, ""), shown.end())


def minutes(*lines):
    """Returns a report of links and an answer to count link,minute,outcome, of lines as (link, minute before NOW, outcome, messages)."""
    def cell(before):
        return time.strftime("%Y-%m-%dT%H:%MZ", time.gmtime(NOW - 60 * before))
    links = {}
    for link, _, outcome, number in lines:
        links[link, outcome] = links.get((link, outcome), 0) + number
    return "".join([*(f"view,link,{link},{outcome},{number}\n" for (link, outcome), number in links.items()), "told,{row},report,{clock},0,0,0\n",
                    "link,minute,outcome,messages\n", *(f"{link},{cell(before)},{outcome},{number}\n" for link, before, outcome, number in lines),
                    "told,{row},count link minute outcome,{clock},0,0,0\n"])


def see_minutes(count):
    """Sees rates, which messages have had time, and when the last messages and receipts came, of counts by minute."""
    def last(shown, link):
        found = [shown.metrics().get((f"smq_link_last_{it}_seconds", (("value", link), ("view", "link")))) for it in ("message", "receipt")]
        return [it and round(it - NOW, 3) for it in found]

    with tempfile.TemporaryDirectory(prefix="check-live-") as room:
        shown = Paged(room)
        lines = [("1", 15, "delivered", 30), ("1", 3, "delivered", 40), ("1", 2, "failed", 10), ("1", 1, "delivered", 20), ("1", 0, "open", 5),
                 ("2", 9, "delivered", 7)]
        shown.give(minutes(*lines).format(row=1, clock=1000 * (NOW + 20)))
        shown.row(1)
        links = shown.tables().tables["link"]
        # (of the minute 15 before some may have left the window; 14 whole ones are left, of which the last five have 70)
        count.see("rates", (["20", "14", "5.0"], ["0", "0", "0.5"]), tuple(picked(links, it, "1 min", "5 min", "15 min") for it in "12"))
        count.see("of those that have had time", (["105", "87.5"], ["7", "100.0"]), tuple(picked(links, it, "messages", "delivered, %") for it in "12"))
        count.see("last messages and receipts, as far as minutes tell", ([20, -0.001], [-480.001, -480.001]), (last(shown, "1"), last(shown, "2")))
        # ten seconds later there is a message more of link 1, and a receipt for one of before; and nothing of link 2
        lines[4:5] = [("1", 0, "open", 6)]
        lines[2:3] = [("1", 2, "failed", 9), ("1", 2, "delivered", 2)]
        shown.give(minutes(*lines).format(row=2, clock=1000 * (NOW + 30)))
        shown.row(2)
        count.see("a message and a receipt more", ([30, 30], [-480.001, -480.001]), (last(shown, "1"), last(shown, "2")))
        told = shown.status()["links"]
        last_of_1, last_of_2 = 1000 * (NOW + 30), 1000 * NOW - 480_001
        count.see("they are in status.json", [("1", last_of_1, last_of_1, [20.0, 14.2]), ("2", last_of_2, last_of_2, [0.0, 0.0])],
                  [(it["link"], it["last_message"], it["last_receipt"], it["rates"][:2]) for it in told])
        # the oldest have left the window, and nothing has come
        shown.give(minutes(*lines[1:]).format(row=3, clock=1000 * (NOW + 40)))
        shown.row(3)
        count.see("nothing more", [30, 30], last(shown, "1"))
        count.see("its end", (0, ""), shown.end())
        shown = Paged(room)
        shown.give("told,1,report,{0},0,0,0\nlink,minute,outcome,messages\ntold,4,count link minute outcome,{0},0,0,0\n".format(1000 * (NOW + 100)))
        shown.row(4)
        count.see("after a new start they are remembered", [30, 30], last(shown, "1"))
        count.see("so are rows", ["0", "0"], [it["messages"] for it in shown.tables().tables["link"].values()])
        count.see("its end", (0, ""), shown.end())
        # a finer count tells it of networks, and of pairs, too
        fine = "link,network,minute,outcome,messages\n1,20801,2026-11-22T06:30Z,delivered,40\n1,,2026-11-22T06:36Z,open,12\n" \
            "2,20801,2026-11-22T06:36Z,open,8\n"
        pairs = "link,network,outcome,messages\n1,20801,delivered,40\n1,,open,12\n2,20801,open,8\n"
        shown = Paged(f"{room}/fine")
        shown.give(f"view,network,20801,delivered,40\nview,network,20801,open,8\nview,network,none,open,12\ntold,1,report,{NOW}000,0\n"
                   f"{pairs}told,2,count link network outcome,{NOW}000,0\n{fine}told,3,count link network minute outcome,{NOW}000,0\n")
        shown.row(3)
        page = shown.tables().tables
        count.see("rates by network", (["8.0", "1.6"], ["12", "2.4"]), tuple(picked(page["network"], it, "1 min", "5 min") for it in ("20801", "none")))
        count.see("and by pair", ["12", "2.4"], picked(page["count-link-network-outcome"], "1 × none", "1 min", "5 min"))
        count.see("its end", (0, ""), shown.end())


class Clocked:
    """What tools/page does with answers, at moments of the check's own."""

    def __init__(self, folder, names=None):
        self.now = float(NOW)
        self.writer = PAGE.Writer(PAGE.Folder(folder), names or {}, lambda: self.now)
        self.writer.restore()

    def answer(self, moment, text, row=1):
        self.now = moment
        for line in (*text.splitlines(), f"told,{row},report,{int(moment * 1000)},0,0,0"):
            self.writer.take(line.encode())
        self.writer.write()

    def row(self, value):
        return self.writer.shown.tables["link"].rows.get((value,))

    def close(self):
        self.writer.end()
        os.close(self.writer.folder.lock)


def day_of(shown, value):
    """Returns the samples of a link by how many minutes ago: how many messages, and how many of 1,000 are delivered."""
    row, minute = shown.row(value), shown.writer.shown.minute
    return {age: (row.messages[(minute - age) % 1440], row.shares[(minute - age) % 1440]) for age in range(1440) if row.messages[(minute - age) % 1440] >= 0}


def see_days(count):
    """Sees a sample a minute for a day, rows that stay for a day, clocks that are set, and a page that is old."""
    with tempfile.TemporaryDirectory(prefix="check-live-") as room:
        shown = Clocked(room)
        shown.answer(NOW, "view,link,1,delivered,9\nview,link,1,open,1\n")
        shown.answer(NOW + 50, "view,link,1,delivered,8\nview,link,1,open,2\n")
        shown.answer(NOW + 60, "view,link,1,open,3\nview,link,2,unasked,5\n")
        shown.answer(NOW + 300, "view,link,2,unasked,5\n")
        count.see("a sample a minute", ({5: (10, 800), 4: (3, 0), 0: (0, -1)}, {4: (5, -1), 0: (5, -1)}), (day_of(shown, "1"), day_of(shown, "2")))
        with open(f"{room}/index.html", encoding="utf-8") as file:
            text = file.read()
        # (a minute is a unit of the day's 1,440, all is delivered at 1, nothing at 27, and 10 messages are as high as 30)
        count.see("they are drawn", ["M1434 30V0H1435V21H1436V30Z", "M1439 30H1440V30Z", "M1434 6H1435V27H1436", "M1434 29H1436"],
                  [it for it in ("M1434 30V0H1435V21H1436V30Z", "M1439 30H1440V30Z", "M1434 6H1435V27H1436", "M1434 29H1436") if it in text])
        shown.close()
        shown = Clocked(room)
        shown.answer(NOW + 360, "view,link,2,unasked,5\n")
        count.see("a new start keeps them", ({6: (10, 800), 5: (3, 0), 1: (0, -1), 0: (0, -1)}, {5: (5, -1), 1: (5, -1), 0: (5, -1)}), (
            day_of(shown, "1"), day_of(shown, "2")))
        shown.answer(NOW + 86_400 + 50, "view,link,2,unasked,5\n")
        count.see("within a day it stays", {0: (0, -1), 1439: (3, 0), 1435: (0, -1), 1434: (0, -1)}, day_of(shown, "1"))
        shown.answer(NOW + 86_400 + 121, "view,link,2,unasked,5\n")
        count.see("after a day it is forgotten", (None, 1, 1), (shown.row("1"), shown.writer.shown.counts, shown.writer.shown.sampled))
        count.see("the other one stays", [0, 2, 1436, 1437], sorted(day_of(shown, "2")))
        # a clock that is set back by an hour, and then on by three
        shown.answer(NOW + 86_400 - 3479, "view,link,2,unasked,4\n")
        count.see("a clock that is set back: what came later is of no minute", {0: (4, -1), 1376: (5, -1), 1377: (5, -1)}, day_of(shown, "2"))
        shown.answer(NOW + 86_400 + 7200, "view,link,2,unasked,3\n")
        count.see("and on", {0: 3}, {age: it[0] for age, it in day_of(shown, "2").items() if age < 100})
        shown.now += 61
        shown.writer.grow_old()
        with open(f"{room}/index.html", encoding="utf-8") as file:
            text = file.read()
        with open(f"{room}/status.json", encoding="utf-8") as file:
            status = json.load(file)
        count.see("it says that it is old", (True, True), ('" class=old>' in text, status["old"]))
        shown.answer(shown.now + 10, "view,link,2,unasked,3\n")
        with open(f"{room}/index.html", encoding="utf-8") as file:
            count.see("and that it isn't any more", False, '" class=old>' in file.read())
        for at in range(3):
            shown.answer(shown.now + 60, "view,link,2,delivered,200\n")
        shown.answer(shown.now + 60, "")
        with open(f"{room}/status.json", encoding="utf-8") as file:
            count.see("a link that has fallen silent", [(["2"], True)], [(it["values"], it["silent"]) for it in json.load(file)["worst"]])
        shown.close()


def see_whole(count):
    """Sees that who reads a file while it is written reads it whole, and that files are whole when the tool is killed."""
    def answer(size, row):
        lines = "".join(f"view,link,{it},open,{size}\n" for it in range(size))
        counts = "".join(f"{it},20801,open,{size}\n" for it in range(size))
        return f"{lines}told,{row},report,5,0,0,0\nlink,network,outcome,messages\n{counts}told,{row},count link network outcome,5,0,0,0\n"

    def faults(folder):
        """Yields what is wrong with the files of a folder."""
        for name in sorted(os.listdir(folder)):
            if name.startswith("."):
                continue
            try:
                with open(f"{folder}/{name}", encoding="utf-8") as file:
                    text = file.read()
            except FileNotFoundError:
                continue
            if name == "metrics.prom":
                sizes = re.findall(r'smq_messages{view="link",value="\d+",outcome="open"} (\d+)', text)
                is_whole = sizes and set(sizes) == {str(len(sizes))} and bool(parsed(text)) and "\nsmq_answer_timestamp_seconds" in text
            elif name == "report.csv" or name.startswith("count"):
                sizes = [it.rpartition(",")[2] for it in text.splitlines() if not it.endswith("messages")]
                is_whole = text.endswith("\n") and set(sizes) == {str(len(sizes))}
            elif name == "index.html":
                is_whole = text.startswith("<!doctype html>") and text.endswith("</html>\n")
            else:
                is_whole = isinstance(json.loads(text), dict)
            if not is_whole:
                yield f"{name}: {text[:2000]}"

    with tempfile.TemporaryDirectory(prefix="check-live-") as room:
        folder, broken, is_ended = f"{room}/live", [], threading.Event()
        os.mkdir(folder)

        def read():
            while not is_ended.wait(0.002):
                broken.extend(faults(folder))

        reader = threading.Thread(target=read)
        reader.start()
        chance = random.Random(1)
        for run in range(8):
            shown = Paged(folder)
            is_killed, feeding = threading.Event(), None

            def feed(shown=shown, is_killed=is_killed):
                row = 0
                while not is_killed.is_set():
                    row += 1
                    # (with rows that only grow none is at 0)
                    shown.give(answer(min(120, row), row))

            if run:
                # (what is remembered is of another size)
                os.remove(f"{folder}/state.json") if os.path.exists(f"{folder}/state.json") else None
            feeding = threading.Thread(target=feed)
            feeding.start()
            until(lambda: os.path.exists(f"{folder}/status.json"))
            time.sleep(chance.uniform(0.5, 1.0))
            shown.process.kill()
            is_killed.set()
            shown.process.wait()
            feeding.join()
            broken.extend(faults(folder))
        is_ended.set()
        reader.join()
        count.see("files are whole", [], broken[:1])
        shown = Paged(folder)
        shown.give(answer(5, 7))
        count.see("the next run, over what was begun", (0, ""), shown.end())
        left = [it for it in os.listdir(folder) if it.startswith(".")]
        count.see("nothing that was begun is left of its own files", [], left)


def see_states(count):
    """Sees that a state that can't be read is told, and begun anew."""
    with tempfile.TemporaryDirectory(prefix="check-live-") as room:
        shown = Paged(room)
        shown.give(FIRST + COUNTED)
        shown.end()
        good = shown.text("state.json")
        state = json.loads(good)
        # (a state of 2001)
        old = json.dumps({**state, "minute": 16_700_000, "tables": [
            [name, keys, [[key, outcomes, 1_002_000_000, *rest] for key, outcomes, _, *rest in rows]] for name, keys, rows in state["tables"]]})
        chance = random.Random(2)
        torn = [good[:at] for at in sorted(chance.sample(range(len(good) - 1), 12))]

        def changed(change):
            copy = json.loads(good)
            change(copy)
            return json.dumps(copy)

        def rows(it):
            return it["tables"][0][2]

        bad = [changed(it) for it in (
            lambda it: it.update(version=2), lambda it: it.update(minute=-1), lambda it: it.update(minute=1.5), lambda it: it.update(minute=None),
            lambda it: it.update(tables=[["links", ["link"], []]]), lambda it: it.update(tables=[["count minute outcome", [], []]]),
            lambda it: it["tables"].append(it["tables"][0]), lambda it: rows(it).append(rows(it)[0]), lambda it: rows(it)[0].pop(),
            lambda it: rows(it)[0].__setitem__(0, ["1", "2"]), lambda it: rows(it)[0].__setitem__(0, [1]), lambda it: rows(it)[0].__setitem__(1, ["shut"]),
            lambda it: rows(it)[0].__setitem__(2, "x"), lambda it: rows(it)[0].__setitem__(2, float("nan")), lambda it: rows(it)[0].__setitem__(3, 2**60),
            lambda it: rows(it)[0].__setitem__(6, [1] * 1441), lambda it: rows(it)[0].__setitem__(7, [1001]), lambda it: rows(it)[0].__setitem__(6, [0.5]),
            lambda it: rows(it)[0].__setitem__(6, [2**40]), lambda it: it.update(tables=7))]
        for at, text in enumerate([*torn, *bad, "[" * 100_000, "[]", "null", '"x"', "\x00", "{}"]):
            anew = Shown(None)
            try:
                restore(anew, text)
                found = "taken"
            except BadState:
                found = anew.tables, anew.minute, anew.counts, anew.sampled
            count.see(f"a bad state changes nothing, {at}", ({}, None, 0, 0), found)
            # (one of each kind by the tool)
            if at not in (3, 20, 32):
                continue
            with open(f"{room}/state.json", "w", encoding="utf-8") as file:
                file.write(text)
            shown = Paged(room)
            shown.give(SECOND)
            status, told = shown.end()
            is_told = told.startswith(f"page: {room}/state.json: ") and told.endswith(": what was remembered is begun anew\n") and told.count("\n") == 1
            count.see(f"a bad state, {at}", (0, True, ["3"]), (status, is_told, links_of(shown)))
        for name, octets, is_kept in (("no UTF-8", b"\xff\xfe", False), ("a state of 2001", old.encode(), False), ("a good one", good.encode(), True)):
            with open(f"{room}/state.json", "wb") as file:
                file.write(octets)
            shown = Paged(room)
            shown.give(SECOND)
            status, told = shown.end()
            count.see(f"{name}", (0, bool(name == "no UTF-8"), ["10", "3"] if is_kept else ["3"]), (status, bool(told), links_of(shown)))


def links_of(shown):
    return sorted({dict(labels)["value"] for (name, labels) in shown.metrics() if name == "smq_messages" and dict(labels)["view"] == "link"})


def see_hostile(count):
    """Sees that what is of others is text on the page."""
    values = ['<script>alert(1)</script>', '"><img/src=x/onerror=alert(1)>', "'onmouseover='alert(1)", "&lt;b&gt;", "</title></style></table>", "{{}}", "\\"]
    names = [*values, 'a"b\nc', "\u202eabc", "</section><section id=x>", "\x1b[2J"]
    with tempfile.TemporaryDirectory(prefix="check-live-") as room:
        with open(f"{room}/names.csv", "w", encoding="utf-8", newline="") as file:
            csv.writer(file).writerows(("link", str(at), it) for at, it in enumerate(names))
        links = "".join(f"view,link,{it},open,1\n" for it in (*values, *range(len(names))))
        errors = "".join(f"view,error,{it},failed,1\n" for it in values)
        cells = "".join('"{}","<b>, ""x""",open,1\n'.format(it.replace('"', '""')) for it in values)
        plain = Paged(f"{room}/plain")
        plain.give("view,link,a,open,1\nview,error,a,failed,1\ntold,1,report,5,0,0,0\nlink,network,outcome,messages\na,b,open,1\n"
                   "told,1,count link network outcome,5,0,0,0\n")
        count.see("a plain page's end", (0, ""), plain.end())
        shown = Paged(f"{room}/live", "--names", f"{room}/names.csv")
        shown.give(f"{links}{errors}told,1,report,5,0,0,0\nlink,network,outcome,messages\n{cells}told,1,count link network outcome,5,0,0,0\n")
        count.see("its end", (0, ""), shown.end())
        page, usual = shown.tables(), plain.tables()
        count.see("elements and attributes are the page's own", (set(usual.tags), usual.attributes, 1, usual.tags.count("section")), (
            set(page.tags), page.attributes, page.tags.count("script"), page.tags.count("section")))
        wanted = {*values, *(f"{re.sub(chr(10) + '|' + chr(0x202e) + '|' + chr(27), ' ', it)}|{at}" for at, it in enumerate(names))}
        count.see("they stand there as text", wanted, set(page.tables["link"]))
        count.see("so do cells", {f'{it} × <b>, "x"' for it in values}, set(page.tables["count-link-network-outcome"]))
        text = shown.text("index.html")
        policy = re.search(r'http-equiv="Content-Security-Policy" content="([^"]*)"', text)[1]
        script = re.search(r"<script>(.*?)</script>", text, re.S)[1]
        digest = base64.b64encode(hashlib.sha256(script.encode()).digest()).decode()
        count.see("only its own script may run", True, "default-src 'none'" in policy and f"script-src 'sha256-{digest}';" in policy)
        samples = shown.metrics()
        count.see("metrics have them", {*values, *map(str, range(len(names)))}, set(links_of(shown)))
        count.see("and their names", set(names), {dict(it).get("name") for name, it in samples if name == "smq_messages"} - {None})
        if text_string_to_metric_families:
            count.see("by prometheus_client", samples, parsed_by_client(shown.text("metrics.prom")))


# Sources that a client may send (SMPP 3.4, 5.2.8: octets up to a zero), some with what ends an answer in them, and how the page shows them
SOURCES = (
    (b"ACME", "ACME"), (b"", "none"), (b"told", "told"), (b"view", "view"), (b"source", "source"), (b"+447700900999", "+447700900999"),
    (b"A,B", "A,B"), (b'"', '"'), (b'a"",b', 'a"",b'), (b"\n", "\ufffd"), (b"\r", "\ufffd"), (b"a\r\nb", "a\ufffd\ufffdb"),
    (b"\ntold,9,link,0,0,0,0", "\ufffdtold,9,link,0,0,0,0"[:20]), (b'"\ntold,9,link,0,0,0', '"\ufffdtold,9,link,0,0,0'),
    (b",5,open,1\nlist,open,3", ",5,open,1\ufffdlist,open,3"[:20]), (b"\n" * 20, "\ufffd" * 20), (b"<script>a()</script>", "<script>a()</script>"),
    (b"<img/src=x onerror=y", "<img/src=x onerror=y"), (b"'onclick='a", "'onclick='a"), (b"&lt;b&gt;", "&lt;b&gt;"), (b"\\", "\\"), (b"\\n", "\\n"),
    (b'\\"\n}', '\\"\ufffd}'), (b"=1+1", "=1+1"), (b"\xff\xfe", "\u00ff\u00fe"), (b"\x80\x85\xa0\xad", "\ufffd" * 4),
    ("\u017dlu\u0165".encode(), "\u00c5\u00bdlu\u00c5\u00a5"), (b"\x1b[2J\x7f", "\ufffd[2J\ufffd"), (b"../../etc/passwd", "../../etc/passwd"),
    (b"{{1}}%s", "{{1}}%s"), (b"# HELP a b", "# HELP a b"))


def quoted(octets):
    """Returns a field of CSV as smq writes it."""
    return b'"%s"' % octets.replace(b'"', b'""') if re.search(b'[",\r\n]', octets) else octets


def see_sources(count):
    """Sees that sources, whatever octets they have, are cells, rows, labels and text."""
    sources = [it[:20] for it, _ in SOURCES]
    texts = [it.decode("latin-1") for it in sources]
    answer = b"source,ton,outcome,messages\n" + b"".join(b"%s,%d,open,%d\n" % (quoted(it), at % 7, at + 1) for at, it in enumerate(sources))
    # (with as many cells as the line that ends an answer)
    others = b"source,ton,link,network,outcome,session,messages\ntold,2,3,none,open,7,4\n", b"source,messages\ntold,3\n"
    wanted = {("smq_counted", (("by", "source ton outcome"), ("outcome", "open"), *([("source", it)] if it else []), ("ton", str(at % 7)))): at + 1.0
              for at, it in enumerate(texts)}
    wanted["smq_counted", (("by", "source ton link network outcome session"), ("link", "3"), ("network", "none"), ("outcome", "open"), ("session", "7"),
                           ("source", "told"), ("ton", "2"))] = 4.0
    wanted["smq_counted", (("by", "source"), ("source", "told"))] = 3.0
    with tempfile.TemporaryDirectory(prefix="check-live-") as room:
        plain, shown = Paged(f"{room}/plain"), Paged(f"{room}/live")
        for it, lines in ((plain, b"source,ton,outcome,messages\nACME,5,open,1\n"), (shown, answer)):
            it.give(lines + b"told,2,count source ton outcome,5,0,0,0\n")
            it.give(others[0] + b"told,3,count source ton link network outcome session,5,0,0,0\n" + others[1] + b"told,4,count source,5,0,0,0\n")
            it.row(4)
        page, usual = shown.tables(), plain.tables()
        count.see("sources: metrics", wanted, {key: it for key, it in shown.metrics().items() if key[0] == "smq_counted"})
        if text_string_to_metric_families:
            count.see("sources: by prometheus_client", shown.metrics(), parsed_by_client(shown.text("metrics.prom")))
        count.see("sources: their rows", {f"{it} × {at % 7}": str(at + 1) for at, (_, it) in enumerate(SOURCES)},
                  {key: it["messages"] for key, it in page.tables["count-source-ton-outcome"].items()})
        count.see("sources: elements and attributes are the page's own", (set(usual.tags), usual.attributes, 1, usual.tags.count("section")), (
            set(page.tags), page.attributes, page.tags.count("script"), page.tags.count("section")))
        count.see("sources: the CSV, octet for octet", (answer, *others), tuple(shown.octets(f"count-{it}.csv") for it in (
            "source-ton-outcome", "source-ton-link-network-outcome-session", "source")))
        count.see("sources: no other file", sorted([*FILES, "count-source-ton-outcome.csv", "count-source-ton-link-network-outcome-session.csv",
                                                    "count-source.csv"]), sorted(os.listdir(shown.folder)))
        count.see("sources: the worst rows", [], [it["values"] for it in shown.status()["worst"] if it["values"][0] not in texts])
        count.see("sources: the ends", ((0, ""), (0, "")), (plain.end(), shown.end()))
        # they are remembered, and at 0 when the next answer hasn't them
        shown = Paged(f"{room}/live")
        shown.give(b"source,ton,outcome,messages\nACME,0,open,2\ntold,1,count source ton outcome,5,0,0,0\n")
        shown.row(1)
        zeros = {key: 2.0 if ("source", "ACME") in key[1] else 0.0 for key in wanted if ("by", "source ton outcome") in key[1]}
        count.see("sources: they are remembered", zeros, {key: it for key, it in shown.metrics().items() if ("by", "source ton outcome") in key[1]})
        count.see("sources: the end of that", (0, ""), shown.end())
        # an answer that is long goes through a file
        many = b"source,messages\n" + b"".join(b'"\n\xff%d",1\n' % it for it in range(30_000))
        shown = Paged(f"{room}/many")
        shown.give(many + b"told,1,count source,5,0,0,0\n")
        count.see("sources: many", (0, True), (shown.end(MUCH_LATER)[0], shown.octets("count-source.csv") == many))


def processor_time():
    """Returns how many s of a processor the tools took that have ended."""
    return resource.getrusage(resource.RUSAGE_CHILDREN).ru_utime


def see_many(count):
    """Sees bounds: of counts, of rows with samples, of lines, of memory, and of time where answers come as fast as can be."""
    lines = "".join(f"view,error,status:{it},refused,1\n" for it in range(99_999)) + "told,1,report,5000,0,0,0\n"
    told = "page: 100000 counts are remembered: others are in the CSV files alone\n"
    with tempfile.TemporaryDirectory(prefix="check-live-") as room:
        shown = Paged(f"{room}/many")
        shown.give(lines)
        shown.row(1, MUCH_LATER)
        answer = "view,link,7,open,1\nview,link,8,open,1\nview,link,9,open,1\n"
        shown.give(f"{answer}told,2,link,5000,0,0,0\n")
        shown.row(2, MUCH_LATER)
        shown.give("told,3,report,5000,0,0,0\n")
        shown.row(3, MUCH_LATER)
        text = shown.text("metrics.prom")
        found = re.findall(r'view="link",value="(\d)",outcome="open"} 0\n', text)
        errors = len(re.findall('value="status:[0-9]+",outcome="refused"} 0\n', text))
        count.see("as many counts as are remembered, and two more: those that are gone", (["7"], 99_999), (found, errors))
        count.see("they are on the page", True, "the first 100 of 99999" in shown.text("index.html") and len(shown.text("index.html")) < 200_000)
        count.see("the CSV has all", answer, shown.text("link.csv"))
        count.see("their end", (0, told), shown.end(MUCH_LATER))
        more = "".join(f"view,route,{it},open,1\n" for it in range(100_002)) + "told,1,report,5000,0,0,0\n"
        shown = Paged(f"{room}/more")
        shown.give(more)
        shown.row(1, MUCH_LATER)
        with open(f"/proc/{shown.process.pid}/status", encoding="ascii") as file:
            size = int(re.search(r"VmHWM:\s+(\d+) kB", file.read())[1]) // 1024
        status, found = shown.end(MUCH_LATER)
        count.see("more in one answer", (0, {"page: 1000 rows have samples: others have none",
                                             "page: there are more counts than are shown: others are in the CSV files alone"}), (status, set(found.splitlines())))
        sampled = sum(it[5] for name, _, rows in json.loads(shown.text("state.json"))["tables"] for it in rows if name == "route")
        count.see("what is kept of it", (100_002, 100_000, 1000), (
            shown.text("report.csv").count("\n"), shown.text("metrics.prom").count("smq_messages{"), sampled))
        count.see("memory, in MB", True, size < 400)
        shown = Paged(f"{room}/more")
        shown.give("view,route,1,open,1\ntold,1,report,5000,0,0,0\n")
        count.see("as many are remembered", (0, "", 100_000), (*shown.end(MUCH_LATER), shown.text("metrics.prom").count('smq_messages{view="route"')))
        # many small answers, and a report of many places: the time is that of reading them
        fast = "".join(f"view,link,{it % 1000},open,1\ntold,{it},link,{it * 60_000},0,0,0\n" for it in range(30_000))
        for name, text in (("answers as fast as can be", fast), ("a report of many places", "list,open,1,client,0\n" * 200_000 + "told,29999,report,0,0,0,0\n")):
            begin, shown = processor_time(), Paged(f"{room}/{name}")
            shown.give(text)
            status, _ = shown.end(MUCH_LATER)
            wanted = "".join(f"{it}\n" for it in text.splitlines()[:-1]) if "report" in text else "view,link,999,open,1\n"
            count.see(f"{name}: the newest CSV", True, wanted == shown.text("report.csv" if "report" in text else "link.csv"))
            count.see(f"{name}: its end, and within 30 s of a processor", (0, 29_999, True), (status, shown.status()["rows"], processor_time() - begin < 30))
        many = "".join(f"prefix:{at},prefix:{it},messages\ntold,1,count prefix:{at} prefix:{it},0,0\n"
                       for at in range(1, 16) for it in range(1, 16) if at != it)
        for name, text, wanted in (
                ("a line of 1,048,577 octets", "x" * 1_048_577 + "\n", "page: line 1 has more than 1048576 octets"),
                ("the same without an end", FIRST + "x" * 1_048_577, "page: line 17 has more than 1048576 octets"),
                ("one that is as long as may be", "x" * 1_048_576 + "\n", "page: line 1 is of no answer of smq follow as CSV"),
                ("a hundred and one questions", many, "page: line 202: there are more than 100 questions"),
                ("a count twice", "view,link,1,open,1\nview,link,1,open,1\n", "page: line 2 is of no answer of smq follow as CSV")):
            shown = Paged(f"{room}/{name[:20]}")
            shown.give(text)
            status, found = shown.end(MUCH_LATER)
            count.see(name, (2, wanted), (status, found.splitlines()[-1] if found else found))


def see_signals(count):
    """Sees that a signal ends the tool when the last whole answer is written."""
    with tempfile.TemporaryDirectory(prefix="check-live-") as room:
        for at, number in enumerate((signal.SIGTERM, signal.SIGINT)):
            for name, text, row in (("after an answer", FIRST, 17), ("within the next", FIRST + LINKS + "vie", 17), ("within the first", LINKS, None)):
                shown = Paged(f"{room}/{at}{row}{len(text)}")
                shown.give(text)
                if row is None:
                    # (its folder is made before it waits)
                    until(lambda: os.path.isdir(shown.folder))
                    time.sleep(0.5)
                else:
                    until(lambda: shown.text("report.csv") is not None)
                shown.process.send_signal(number)
                count.see(f"{number.name} {name}", (0, "", row), (status_of(shown.process), shown.process.stderr.read().decode(), shown.status().get("rows")))
                count.see(f"{number.name} {name}: nothing else is left", [], [it for it in os.listdir(shown.folder) if it.startswith(".")])
        first = Paged(f"{room}/one")
        first.give(FIRST)
        first.row(17)
        second = Paged(f"{room}/one")
        told = f"page: {room}/one: another program writes into it\n"
        count.see("a second tool in one folder", (2, told), (status_of(second.process), second.process.stderr.read().decode()))
        os.remove(f"{room}/one/index.html")
        os.mkdir(f"{room}/one/index.html")
        first.give(SECOND)
        told = lines_of(first.process.stderr, 1)
        first.give(SECOND.replace("told,19", "told,20"))
        count.see("where a file can't be written the others are", 20, first.row(20).get(("smq_rows", ())))
        count.see("that is told once", (1, True), (len(told + lines_of_now(first.process.stderr)), "Is a directory" in told[0]))
        os.rmdir(f"{room}/one/index.html")
        first.give(SECOND.replace("told,19", "told,21"))
        first.row(21)
        count.see("and it is written then", True, "21 rows" in first.text("index.html"))
        count.see("its end", (0, ""), first.end())
        first = Paged(f"{room}/one")
        until(lambda: first.process.poll() is None and os.path.isdir(f"{room}/one"))
        os.remove(f"{room}/one/index.html")
        os.mkdir(f"{room}/one/index.html")
        first.give(SECOND)
        count.see("where it can't in the end", 1, first.end()[0])


def lines_of_now(file):
    """Returns the lines that a pipe has."""
    found = b""
    while select.select([file], [], [], 0)[0] and (more := os.read(file.fileno(), 65_536)):
        found += more
    return found.decode().splitlines()


def see_ends(count):
    """Sees statuses and what is told."""
    def ended(text, *words):
        process = tool("page", *words)
        _, told = process.communicate(text if isinstance(text, bytes) else text.encode("utf-8"), timeout=60)
        return process.returncode, told.decode().splitlines()[-1:]

    with tempfile.TemporaryDirectory(prefix="check-live-") as room:
        into, names = ("--into", f"{room}/live"), f"{room}/names.csv"
        with open(names, "w", encoding="utf-8") as file:
            file.write("link,3,North\nlinks,4,South\n")
        with open(f"{room}/octets.csv", "wb") as file:
            file.write(b"link,3,\xff\n")
        cut, bad = "page: the input ends within an answer", "page: line {} is of no answer of smq follow as CSV"
        for name, text, words, wanted in (
                ("an answer", FIRST, into, (0, [])), ("two", FIRST + SECOND, into, (0, [])), ("two of one round", FIRST + COUNTED, into, (0, [])),
                ("no answer", "", into, (1, ["page: no answer has come"])),
                ("lines without told", REPORT, into, (1, [cut])), ("within a second answer", FIRST + LINKS, into, (1, [cut])),
                ("within a line", FIRST + SECOND[:-1], into, (1, [cut])), ("within its first", FIRST + "vi", into, (1, [cut])),
                ("within a count", FIRST + PAIRS, into, (1, [cut])), ("behind its columns", FIRST + PAIRS.split("\n")[0] + "\n", into, (1, [cut])),
                ("a table", "view link\n", into, (2, [bad.format(1)])),
                ("another view", "view,links,3,open,1\n", into, (2, [bad.format(1)])),
                ("another outcome", FIRST + "view,link,3,opened,1\n", into, (2, [bad.format(17)])),
                ("a place of no direction", "list,open,3,x,1\n", into, (2, [bad.format(1)])),
                ("another list than was asked for", "list,open,3,client,1\ntold,1,lapsed,0,0\n", into, (2, [bad.format(2)])),
                ("told of no name", "told,1,links,0,0\n", into, (2, [bad.format(1)])),
                ("told of three fields", "told,1,link\n", into, (2, [bad.format(1)])),
                ("told of six fields", "told,1,link,0,0,0\n", into, (2, [bad.format(1)])),
                ("told of eight fields", "told,1,link,0,0,0,0,0\n", into, (2, [bad.format(1)])),
                ("a clock past the last", "told,1,link,4102444800001,0\n", into, (2, [bad.format(1)])),
                ("no ASCII", "view,link,\u00e4,open,1\n", into, (2, [bad.format(1)])),
                ("a count of no column", "messages\n", into, (2, [bad.format(1)])),
                ("a count of another column", "links,messages\n", into, (2, [bad.format(1)])),
                ("a column twice", "link,link,messages\n", into, (2, [bad.format(1)])),
                ("a count of no messages", "link,outcome\n", into, (2, [bad.format(1)])),
                ("a count behind a view", LINKS + "link,messages\n", into, (2, [bad.format(2)])),
                ("a view behind a count", "link,messages\n" + LINKS, into, (2, [bad.format(2)])),
                ("too few cells", "link,network,messages\n1,2\n", into, (2, [bad.format(2)])),
                ("too many cells", "link,messages\n1,2,3\n", into, (2, [bad.format(2)])),
                ("another outcome of a count", "outcome,messages\nopened,3\n", into, (2, [bad.format(2)])),
                ("a minute that is none", "minute,messages\n2026-02-30T01:00Z,3\n", into, (2, [bad.format(2)])),
                ("a quote without an end", 'link,messages\n"1,3\n', into, (1, [cut])),
                ("a quote within a cell", 'link,messages\n1"2,3\n', into, (2, [bad.format(2)])),
                ("the same within a second line", 'source,messages\n"a\n"1",3\n', into, (2, [bad.format(2)])),
                ("two quotes within a cell", 'link,messages\n"1"2"",3\n', into, (2, [bad.format(2)])),
                ("a source of 21 octets", "source,messages\n" + "1" * 21 + ",3\n", into, (2, [bad.format(2)])),
                ("a source with a zero", "source,messages\na\0,3\n", into, (2, [bad.format(2)])),
                ("21 line feeds", 'source,messages\n"' + "\n" * 21 + '",3\n', into, (2, [bad.format(2)])),
                ("a line feed in another cell", 'source,messages\na,3\ntold,1,count source,0,0\nnetwork,messages\n"a\nb",3\n', into, (2, [bad.format(5)])),
                ("other octets in another cell", b"network,messages\n\xff,3\n", into, (2, [bad.format(2)])),
                ("a bad line behind a source of two", 'source,messages\n"a\nb",3\n1\n', into, (2, [bad.format(4)])),
                ("a source that is told, of another question", "source,messages\ntold,1,count link,0,0\n", into, (2, [bad.format(2)])),
                ("told of other columns", "link,messages\n1,3\ntold,1,count link outcome,0,0\n", into, (2, [bad.format(3)])),
                ("told of a count without one", "told,1,count link,0,0\n", into, (2, [bad.format(1)])),
                ("told of a view behind a count", "link,messages\n1,3\ntold,1,link,0,0\n", into, (2, [bad.format(3)])),
                ("a folder whose folder isn't there", FIRST, ("--into", f"{room}/none/live"), (
                    2, [f"page: [Errno 2] No such file or directory: '{room}/none/live'"])),
                ("a folder that is a file", FIRST, ("--into", names), (2, [f"page: [Errno 17] File exists: '{names}'"])),
                ("no words", "", (), (2, ["page: error: the following arguments are required: --into"])),
                ("names of no view", "", (*into, "--names", names), (2, [f"page: {names}: line 2 is no VIEW,VALUE,NAME"])),
                ("names of no UTF-8", "", (*into, "--names", f"{room}/octets.csv"), (
                    2, [f"page: {room}/octets.csv: 'utf-8' codec can't decode byte 0xff in position 7: invalid start byte"])),
                ("no names", "", (*into, "--names", f"{room}/none"), (2, [f"page: [Errno 2] No such file or directory: '{room}/none'"]))):
            count.see(f"page, {name}", wanted, ended(text, *words))
        process = tool("page", "--help")
        out = process.communicate()[0].decode()
        parts = "--into FOLDER", "--names NAMES", "index.html", "status is 0"
        count.see("page --help", [], [it for it in parts if it not in out])
