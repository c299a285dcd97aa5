"""The page of tools/page: HTML that needs nothing from elsewhere, and says that it is old when it is."""
import base64
import hashlib
import heapq
import html
import re
import time

from lib import report_names
from lib.report_names import LISTS, OUTCOMES, VIEWS
from lib.shown import DAY_OF_MINUTES, NO_SAMPLE, RATES, asked, is_silent, last_day, ordered, total, undelivered
from lib.shown_texts import is_bad, share_of, worst
from lib.smpp_names import status_name

# So many rows of a table are shown
MOST_SHOWN = 100
# After so many s figures are old; the page loads itself again each few
OLD, AGAIN = 60, 10
SAMPLED_VIEWS = ("link", "route", "network")
# In the order of OUTCOMES
COLOURS = "#8a8f98 #b06bc0 #d33c3c #a8762e #8d6cf0 #2f9e58 #e8590c #74b8a0 #7d3b2b #4c8fd6".split()
TITLES = {"link": "Links", "route": "Routes", "network": "Networks", "error": "Errors", "link-delay": "Delays of receipts by their moments",
          "centre-delay": "Delays that centres tell"}
# Types of networks in network_error_code (SMPP 3.4, 5.3.2.31)
NETWORK_TYPES = {"1": "ANSI-136", "2": "IS-95", "3": "GSM", "4": "reserved"}
BANDS = [name for _, name in report_names.BANDS]
HEIGHT, TIMES = 30, " × "
STYLE = """
:root{color-scheme:light dark;--back:#f6f7f9;--card:#fff;--ink:#1b2330;--soft:#667080;--rule:#e2e6ec;--bad:#c92a2a;--badback:#fde8e8;--good:#2f9e58;
--fill:#cfd8e6}
@media(prefers-color-scheme:dark){:root{--back:#12161d;--card:#1b212b;--ink:#e4e9f1;--soft:#93a0b3;--rule:#2b3442;--bad:#ff8787;--badback:#472026;
--good:#51cf66;--fill:#35445c}}
*{box-sizing:border-box}body{margin:0;padding:12px 16px 40px;background:var(--back);color:var(--ink);font:14px/1.4 system-ui,"DejaVu Sans",sans-serif}
header{display:flex;flex-wrap:wrap;gap:2px 18px;align-items:baseline}h1{font-size:18px;margin:0}h2{font-size:15px;margin:22px 0 6px}a{color:inherit}
h2 small,header small,.note{color:var(--soft);font-weight:normal;font-size:12px}
.scroll{overflow-x:auto;background:var(--card);border:1px solid var(--rule);border-radius:8px}
table{border-collapse:collapse;width:100%;font-variant-numeric:tabular-nums}
td,th{padding:4px 8px;text-align:right;white-space:nowrap;border-top:1px solid var(--rule)}
th:first-child{text-align:left;font-weight:600;padding-left:12px}td:last-child,th:last-child{padding-right:14px}
thead th{border-top:0;color:var(--soft);font-size:12px;font-weight:normal}tbody th small{color:var(--soft);font-weight:normal;margin-left:6px}
tr.bad{background:var(--badback)}tr.bad td.share,tr.bad th{color:var(--bad)}td.zero{color:var(--soft);opacity:.6}
.bar div{display:flex;height:10px;border-radius:3px;overflow:hidden;min-width:70px}.bar i{display:block;height:10px}
td.day{padding-top:3px;padding-bottom:3px}svg{display:block;width:200px;height:30px;margin-left:auto;background:var(--back);border-radius:3px}
.vol{fill:var(--fill)}.line,.low{fill:none;stroke:var(--good);stroke-width:1.5;vector-effect:non-scaling-stroke}.low{stroke:var(--bad);stroke-width:4}
.look{list-style:none;margin:10px 0 0;padding:0;display:flex;flex-wrap:wrap;gap:6px}
.look li{background:var(--badback);color:var(--bad);border-radius:6px;padding:4px 10px;font-weight:600}.look small{font-weight:normal;color:var(--ink)}
.look li.fine{background:var(--card);color:var(--good);border:1px solid var(--rule)}
#old{display:none;background:var(--bad);color:#fff;padding:10px 14px;border-radius:8px;font-size:18px;font-weight:700;margin:0 0 10px}
.old #old{display:block}.old main{opacity:.55}
.few{display:grid;grid-template-columns:repeat(auto-fill,minmax(min(100%,420px),1fr));gap:0 18px;align-items:start}
.key{display:flex;flex-wrap:wrap;gap:2px 12px;margin:6px 0 0;font-size:12px;color:var(--soft)}
.key i{display:inline-block;width:9px;height:9px;border-radius:2px;margin-right:4px}
@media(max-width:600px){body{padding:8px 8px 30px}td,th{padding:4px 5px}th:first-child{padding-left:8px}thead th{white-space:normal}
tbody th{width:36vw;min-width:30vw;white-space:normal}tbody th small{display:block;margin:0}svg{width:100px}}
"""
# (what follows the head of the page, so that it says so at once)
SCRIPT = """
(function(){var b=document.body,m=+b.dataset.moment,o=document.getElementById("old"),a=document.getElementById("age");
function said(s){return s<120?Math.round(s)+" s":s<7200?Math.round(s/60)+" min":Math.round(s/3600)+" h"}
function look(){var s=Math.max(0,Date.now()/1000-m);a.textContent=said(s)+" ago";
if(s>%d){b.className="old";o.textContent="OLD: these figures are "+said(s)+" old. The pipe or this page has stopped."}}
look();setInterval(look,1000)})();
""" % OLD


def policy():
    """Returns what the browser is to run and load of the page: its own script and style, and nothing else."""
    digest = base64.b64encode(hashlib.sha256(SCRIPT.encode()).digest()).decode()
    return f"default-src 'none'; style-src 'unsafe-inline'; script-src 'sha256-{digest}'; base-uri 'none'; form-action 'none'"


def safe(text):
    """Returns text for the page. (Control characters are none of a name.)"""
    return html.escape(re.sub(r"[\x00-\x1f\x7f-\x9f\u2028-\u202e\u2066-\u2069]", " ", text))


def seen(value):
    """Returns a value with a mark for each of its characters that nobody sees: a source may have any."""
    return re.sub(r"[\x00-\x1f\x7f-\xa0\xad]", "\ufffd", value)


def utc(moment, form="%Y-%m-%d %H:%M:%S"):
    """Returns a moment in s since 1970 in UTC."""
    return time.strftime(form, time.gmtime(moment))


def since(moment, clock):
    """Returns how long before the clock a moment in ms was."""
    if moment is None:
        return "–"
    gone = max(0, clock - moment) // 1000
    return f"{gone} s" if gone < 120 else f"{gone // 60} min" if gone < 7200 else f"{gone // 3600} h"


def percent(share):
    return "" if share is None else f"{100 - 100 * share:.1f}"


def rate(number):
    return "" if number is None else f"{number:.0f}" if number >= 10 or not number else f"{number:.1f}"


def steps(values):
    """Returns a path of steps through values by age, each a unit wide. Where there is none, nothing is drawn."""
    parts, last = [], None
    for at, value in enumerate((*values, None)):
        if value != last:
            if last is not None:
                parts.append(f"H{at}")
            if value is not None:
                parts.append(f"M{at} {value}" if last is None else f"V{value}")
        last = value
    return "".join(parts)


def runs(values):
    """Yields where runs of values that are so begin and end."""
    begin = None
    for at, value in enumerate((*values, False)):
        if value and begin is None:
            begin = at
        elif not value and begin is not None:
            yield begin, at
            begin = None


def drawn(shown, row):
    """Returns the last day of a row: how many of its messages were delivered, as a line from nothing to all, below it in red where they were
    fewer than nine of ten, and behind it how many messages there were."""
    if row.messages is None:
        return ""
    messages, shares = (last_day(it, shown.minute) for it in (row.messages, row.shares))
    most, known = max(messages), [it for it in shares if it != NO_SAMPLE]
    volume = [None if it == NO_SAMPLE else HEIGHT - HEIGHT * it // max(1, most) for it in messages]
    line = [None if it == NO_SAMPLE else 1 + (HEIGHT - 4) * (1000 - it) // 1000 for it in shares]
    filled = "".join(f"M{begin} {HEIGHT}{area(volume, begin, end)}" for begin, end in runs([it is not None for it in volume]))
    low = "".join(f"M{begin} {HEIGHT - 1}H{end}" for begin, end in runs([NO_SAMPLE < it < 900 for it in shares]))
    told = f"at most {most} messages at a time" if most > 0 else "no messages"
    if known:
        told += f"; delivered: least {min(known) / 10:.1f} %, last {known[-1] / 10:.1f} %"
    return (f'<svg viewBox="0 0 {DAY_OF_MINUTES} {HEIGHT}" preserveAspectRatio="none" role="img"><title>{told}</title><path class="vol" d="{filled}"/>'
            f'<path class="line" d="{steps(line)}"/><path class="low" d="{low}"/></svg>')


def area(values, begin, end):
    """Returns a path of steps through values from one place to another, and down to the ground."""
    parts, last = [], HEIGHT
    for at in range(begin, end):
        if values[at] != last:
            parts.append(f"H{at}V{values[at]}" if at > begin else f"V{values[at]}")
            last = values[at]
    return f"{''.join(parts)}H{end}V{HEIGHT}Z"


def bar(counts):
    """Returns the parts of a row's outcomes."""
    parts = "".join(f'<i style="width:{100 * counts[it] / total(counts):.2f}%;background:{colour}" title="{it} {counts[it]}"></i>'
                    for it, colour in zip(OUTCOMES, COLOURS) if counts.get(it))
    return f"<div>{parts}</div>"


def title_of(name, keys):
    return TITLES.get(name) or " by ".join(keys).capitalize() or "All"


def file_of(name):
    """Returns the name of the CSV file of a question."""
    return re.sub(":", "", name.replace(" ", "-")) + ".csv"


def error_name(error):
    """Returns the name of an error that the standard gives it, or None."""
    kind, _, rest = error.partition(":")
    network, _, code = rest.partition(":")
    if kind == "status" and re.fullmatch("[0-9]{1,10}", rest):
        return status_name(int(rest)) or None
    return f"{NETWORK_TYPES[network]} code {code}" if kind == "net" and network in NETWORK_TYPES else None


def name_beside(names, columns, key):
    """Returns the name of a key for the page, or None, and the key's values."""
    found = [names.get((column, it)) or (error_name(it) if column == "error" else None) for column, it in zip(columns, key)]
    values = [seen(it) or "none" for it in key]
    name = TIMES.join(name or it for name, it in zip(found, values)) if any(found) else None
    return name, TIMES.join(values) or "all"


def value_name(names, columns, key):
    """Returns what stands for a key, and beside it."""
    name, plain = name_beside(names, columns, key)
    return f"{safe(name)}<small>{safe(plain)}</small>" if name else safe(plain)


def table(shown, names, name):
    """Returns a table, the worst row first."""
    (keys, rows), clock = shown.tables[name], shown.told.clock
    is_plain = name not in SAMPLED_VIEWS and "outcome" not in name
    if is_plain:
        # (bands of delays stay in their order)
        found = heapq.nsmallest(MOST_SHOWN, rows.items(), key=lambda it: BANDS.index(it[0][0]) if it[0][0] in BANDS else -total(it[1].counts))
    else:
        found = ordered(shown, name, MOST_SHOWN)
    if not found:
        return ""
    outcomes = [it for it in OUTCOMES if any(row.counts.get(it) for _, row in found)]
    has_rates, has_day = any(row.rates for _, row in found) and not is_plain, any(row.messages is not None for _, row in found)
    heads = [" by ".join(keys) or "all", "messages", *(["delivered, %"] if not is_plain else []), *(["24 hours"] if has_day else [])]
    heads += [*(f"{it} min" for it in RATES), "last message"] if has_rates else []
    heads += [*(["last receipt"] if not is_plain else []), *([""] if outcomes else []), *outcomes]
    lines = []
    for key, row in found:
        cells = [f"<td>{total(row.counts)}"]
        if not is_plain:
            cells.append(f'<td class="share">{percent(share_of(row.judged()))}')
        if has_day:
            cells.append(f'<td class="day">{drawn(shown, row)}')
        if has_rates:
            cells += [f"<td>{rate(it)}" for it in row.rates or [None] * len(RATES)] + [f"<td>{since(row.message, clock)}"]
        if not is_plain:
            cells.append(f"<td>{since(row.receipt, clock)}")
        cells += [f'<td class="bar">{bar(row.counts)}'] if outcomes else []
        cells += [f'<td class="{"n" if row.counts.get(it) else "zero"}">{row.counts.get(it, 0)}' for it in outcomes]
        bad = ' class="bad"' if not is_plain and is_bad(shown, name, row) else ""
        lines.append(f"<tr{bad}><th>{value_name(names, keys, key)}{''.join(cells)}")
    more = f"; the first {MOST_SHOWN} of {len(rows)}" if len(rows) > MOST_SHOWN else ""
    more += "; messages a minute over the last whole minutes" if has_rates else ""
    csv = "report.csv" if name in VIEWS and "report" in shown.asked else file_of(name)
    return section(file_of(name)[:-4], title_of(name, keys), f'<a href="{safe(csv)}">{safe(csv)}</a>{more}', heads, lines)


def section(name, title, more, heads, lines):
    """Returns a table with its heading."""
    cells = "".join(f"<th>{safe(it)}" for it in heads)
    return (f'<section id="{safe(name)}"><h2>{safe(title)} <small>{more}</small></h2><div class="scroll"><table><thead><tr>{cells}</thead>\n<tbody>\n'
            + "\n".join(lines) + "\n</tbody></table></div></section>")


def lists(listed):
    """Returns the table of how many places each list has."""
    lines = [f'<tr><th>{it}<td class="{"n" if listed[it] else "zero"}">{listed[it]}' for it in LISTS if it in listed]
    return section("lists", "Lists", "places that need a look", ["list", "places"], lines) if lines else ""


def looks(shown, names):
    """Returns what needs a look."""
    found = []
    for name, key, row in worst(shown):
        keys, counts = shown.tables[name].keys, row.judged()
        what = ("silent" if is_silent(shown, row) else
                f"{percent(share_of(counts))} % delivered <small>{undelivered(counts)} of {asked(counts)} not</small>")
        name, plain = name_beside(names, keys, key)
        found.append(f"<li>{safe(' by '.join(keys))} {safe(name or plain)}: {what}</li>")
    return f'<ul class="look">{"".join(found) or "<li class=fine>Of each row nine of ten messages or more are delivered</li>"}</ul>'


def losses(shown):
    gaps, octets = shown.lost
    if gaps is None:
        return "losses unknown"
    return f"<b>{gaps} gaps, {octets} octets lost</b> since the feed began: the figures lack what was in them" if gaps else "nothing lost"


NOTE = """Delivered, of messages that asked for a receipt and, where minutes are counted, came a minute ago or earlier. Red: fewer than nine of ten.
A row without messages stays for a day. 24 hours: in green how many were delivered, from none to all; red below it, fewer than nine of ten; behind it
how many messages there were. Moments are in UTC."""


def head(shown, is_old):
    """Returns what the page has above its tables."""
    told, when = shown.told, shown.when
    behind = int(when * 1000) - told.clock
    clock = f"clock of the figures {utc(told.clock // 1000)} UTC" + (f", {behind // 1000} s behind" if behind > 30_000 else "")
    return (f'<!doctype html><html lang="en"><head><meta charset="utf-8"><meta http-equiv="Content-Security-Policy" content="{policy()}">'
            f'<meta http-equiv="refresh" content="{AGAIN}"><meta name="viewport" content="width=device-width,initial-scale=1"><title>smq</title>'
            f'<style>{STYLE}</style></head>\n<body data-moment="{when:.3f}"{" class=old" if is_old else ""}>\n'
            f'<p id="old">OLD: no figures have come since {utc(when)} UTC.</p>\n'
            f'<header><h1>SMPP links</h1><span>{utc(when)} UTC <span id="age"></span></span>'
            f"<small>{clock}; {told.row} rows, {told.refused} refused; {losses(shown)}</small></header>\n"
            "<noscript><p><b>Without scripts this page can't tell when it is old: compare its time with yours.</b></p></noscript>\n"
            f"<script>{SCRIPT}</script><main>")


def page(shown, names, is_old):
    """Returns the page of what is shown. is_old: whether no answer came for long."""
    by_count = [it for it in shown.names if it not in VIEWS]
    key = "".join(f'<span><i style="background:{colour}"></i>{it}</span>' for it, colour in zip(OUTCOMES, COLOURS))
    parts = [head(shown, is_old), looks(shown, names),
             *(table(shown, names, it) for it in ("link", *by_count, "route", "network") if it in shown.names),
             '<div class="few">', *(table(shown, names, it) for it in ("error", "link-delay", "centre-delay") if it in shown.names),
             lists(shown.listed), "</div>", f'<p class="key">{key}</p><p class="note">{NOTE}</p></main></body></html>']
    return "\n".join(it for it in parts if it) + "\n"
