"""What tools/page writes beside its page: metrics in the text form of Prometheus, and status.json (docs/FORMATS.md, Files of tools/page)."""
import json
import re

from lib.report_names import LISTS, VIEWS
from lib.shown import asked, at_least, is_silent, ordered, total, undelivered

# So many rows are told as the worst
MOST_WORST = 10
SPECIAL = re.compile(r'[\\"\n]')


def name_of(names, columns, key):
    """Returns the name of a key, or None where none of its values has one."""
    found = [names.get((column, it)) for column, it in zip(columns, key)]
    return " ".join(name or it or "none" for name, it in zip(found, key)) if any(found) else None


def label(text):
    """Returns the value of a label as the text form has it."""
    return text.replace("\\", r"\\").replace('"', r"\"").replace("\n", r"\n") if SPECIAL.search(text) else text


def gauge(name, what, samples):
    """Yields the lines of a gauge, whose samples are labels and a number."""
    samples = list(samples)
    if samples:
        yield f"# HELP {name} {what}"
        yield f"# TYPE {name} gauge"
    for labels, number in samples:
        texts = ",".join(f'{key}="{label(text)}"' for key, text in labels.items() if text is not None)
        yield f"{name}{{{texts}}} {number}" if texts else f"{name} {number}"


def seconds(milliseconds):
    return f"{milliseconds // 1000}.{milliseconds % 1000:03d}"


def counts_of_views(shown, names):
    """Yields the samples of all views."""
    for view in (it for it in VIEWS if it in shown.names):
        for key, row in shown.tables[view].rows.items():
            labels = {"view": view, "value": key[0], "name": name_of(names, (view,), key)}
            for outcome, number in row.counts.items():
                yield {**labels, "outcome": outcome}, number


def counts_by_columns(shown, names):
    """Yields the samples of all counts."""
    for by in (it for it in shown.names if it not in VIEWS):
        keys, rows = shown.tables[by]
        columns = [it.replace("-", "_").replace(":", "_") for it in keys]
        for key, row in rows.items():
            labels = {"by": by.partition(" ")[2], **dict(zip(columns, key)), "name": name_of(names, keys, key)}
            for outcome, number in row.counts.items():
                yield {**labels, "outcome": outcome or None}, number


def last_of_links(shown, names, what):
    """Yields when the last message or receipt of each link came."""
    tables = [shown.tables[it] for it in shown.names if shown.tables[it].keys == ("link",)]
    for key, row in tables[0].rows.items() if tables else ():
        moment = getattr(row, what)
        if moment is not None:
            yield {"view": "link", "value": key[0], "name": name_of(names, ("link",), key)}, seconds(moment)


def metrics(shown, names):
    """Returns the text form of what is shown."""
    told, (gaps, octets) = shown.told, shown.lost
    one = (("smq_rows", "Rows and questions that were read before these figures.", told.row),
           ("smq_refused_rows", "Rows that were refused.", told.refused),
           ("smq_lost_gaps", "Gaps that were told since the feed began.", gaps),
           ("smq_lost_octets", "Octets that are missing in them.", octets),
           ("smq_clock_seconds", "The clock by which messages lapse, since 1970.", seconds(told.clock)),
           ("smq_answer_timestamp_seconds", "When these figures came, since 1970.", seconds(int(shown.when * 1000))))
    lines = [*gauge("smq_messages", "Messages that are present, by a value and an outcome.", counts_of_views(shown, names)),
             *gauge("smq_counted", "Messages that are present, by the columns of a count.", counts_by_columns(shown, names)),
             *gauge("smq_listed", "Places in a list of what needs a look.", (({"list": it}, shown.listed[it]) for it in LISTS if it in shown.listed)),
             *gauge("smq_link_last_message_seconds", "When the last message of a link came, since 1970.", last_of_links(shown, names, "message")),
             *gauge("smq_link_last_receipt_seconds", "When the last receipt that decides a message of a link came, since 1970.", last_of_links(shown, names, "receipt")),
             *(line for name, what, number in one if number is not None for line in gauge(name, what, [({}, number)]))]
    return "".join(f"{it}\n" for it in lines)


def worst(shown):
    """Returns the names of tables, keys and rows that need a look first: links that have fallen silent, then as tables are ordered."""
    found = [(name, key, row) for name in shown.names if "outcome" in name or name in ("link", "route", "network")
             for key, row in ordered(shown, name, MOST_WORST) if is_bad(shown, name, row)]
    return sorted(found, key=lambda it: (not is_silent(shown, it[2]), -at_least(it[2].judged())))[:MOST_WORST]


def share_of(counts):
    """Returns the share that isn't delivered, or None where there are no messages."""
    return undelivered(counts) / asked(counts) if asked(counts) else None


def is_bad(shown, name, row):
    """Whether a row needs a look: fewer than nine of ten messages are delivered, or it is a link that has fallen silent."""
    share = share_of(row.judged())
    return share is not None and share > 0.1 or name == "link" and is_silent(shown, row)


def status(shown, names, written, is_old):
    """Returns status.json."""
    told, (gaps, octets) = shown.told, shown.lost
    rows = []
    for name, key, row in worst(shown):
        keys, counts = shown.tables[name].keys, row.judged()
        rows.append({"by": " ".join(keys), "values": list(key), "name": name_of(names, keys, key), "messages": total(row.counts),
                     "judged": asked(counts), "undelivered": undelivered(counts), "failed": counts.get("failed", 0),
                     "lapsed": counts.get("lapsed", 0), "silent": is_silent(shown, row)})
    links = [{"link": key[0], "name": name_of(names, ("link",), key), "rates": row.rates, "last_message": row.message, "last_receipt": row.receipt}
             for name in [it for it in shown.names if shown.tables[it].keys == ("link",)][:1] for key, row in shown.tables[name].rows.items()]
    return json.dumps({"clock": told.clock, "when": int(shown.when * 1000), "written": int(written * 1000), "age": int(written * 1000) - told.clock,
                       "old": is_old, "rows": told.row, "refused": told.refused, "lost_gaps": gaps, "lost_octets": octets,
                       "listed": shown.listed, "worst": rows, "links": links}, indent=1) + "\n"
