"""Words and files that tools/statement and tools/dispute refuse, for gate/check-bills: what is told, and the status."""
import struct

COUNTS = b"link,network,day,outcome,messages\n1,23410,2026-11-05,delivered,3\n"
UNPAID = b"link,network,day,outcome,messages\n1,23410,2026-11-05,open,3\n1,23410,2026-11-06,failed,1\n"
PRICES = b"link,route,network,from,for,price,currency\n1,,23410,2026-11-01,delivered,0.045,EUR\n"
# The same with lines that have no price, before the columns, too, and with a quote that doesn't end
REMARKED = b'# prices, "of" the link\n' + PRICES.replace(b"EUR\n", b'EUR\n# 1,,,2026-11-01,delivered,1,EUR\n#,"\n')
NAMES = b"link,1,North\n# a comment\n"
MESSAGES = b"link,session,offset,moment,route,network,outcome,id,key\n1,10,0,1000,12,23410,delivered,1A,26\n"
BILLED = b"id,price\n1a,0.06\n"
LONG = b"9" * 1_048_577

# What is owed and billed in two currencies, worked by hand: messages, what is billed, prices, and what is told at the end
SEVERAL = b"link,session,offset,moment,route,network,outcome,id,key\n" + b"".join(
    b"1,10,%d,1793577600000,12,%s,%s,%s,%s\n" % (at, network, outcome, key, key) for at, (key, network, outcome) in enumerate((
        (b"a", b"23410", b"delivered"), (b"b", b"23410", b"delivered"), (b"c", b"23410", b"delivered"), (b"d", b"23410", b"failed"),
        (b"e", b"23415", b"open"), (b"f", b"00101", b"delivered"), (b"g", b"00101", b"delivered"))))
SEVERAL_BILLED = b"a,\nb,0.0150\nd,\ne,3\nf,\ng,0.5\nx,0.07\na,\n"
SEVERAL_PRICES = PRICES.replace(b"0.045", b"0.015") + b"1,,23415,2026-11-01,accepted,2,JPY\n"
# (three of 0.015 are owed and four billed; halves go to the even cent)
SEVERAL_TOLD = [
    "not-delivered: 1 lines, 1 messages", "unknown: 1 lines, 0 messages", "twice: 1 lines, 0 messages", "not-billed: 0 lines, 1 messages",
    "other-price: 1 lines, 1 messages", "agreed: 4 lines, 4 messages", "all: 8 lines, 7 messages; 0 lines are passed over by their status",
    "no currency: owed 0.00, billed 0.57, difference 0.57: unknown 0.07, agreed 0.50",
    "EUR: owed 0.04, billed 0.06, difference 0.02: not-delivered 0.02, twice 0.02, not-billed -0.02",
    "JPY: owed 2, billed 3, difference 1: other-price 1", "no price: 1 lines, 2 messages"]
# (without prices `e` isn't paid for)
UNPRICED_TOLD = [
    "not-delivered: 2 lines, 2 messages", *SEVERAL_TOLD[1:4], "other-price: 0 lines, 0 messages", *SEVERAL_TOLD[5:7]]


def priced(line):
    return PRICES + line + b"\n"


# Of a statement: standard input, prices, what is told; the status is 2
STATEMENTS = (
    (b"", PRICES, "there is no line; wanted: one of names, with link, day, outcome, messages"),
    (COUNTS.replace(b"network", b"link", 1), PRICES, "line 1: column link is there 2 times"),
    (b"link,day,outcome,messages\n", PRICES, "line 1: there is no column network, and no column route"),
    (b"link,route,day,outcome,messages\n", PRICES, "line 1: there is no column network, and there are prices by it"),
    (COUNTS, priced(b",12,,2026-11-01,delivered,1,EUR"), "line 1: there is no column route, and there are prices by it"),
    (COUNTS + b"1,23410,2026-11-05,delivered\n", PRICES, "line 3: it has 4 fields, and the columns are 5"),
    (COUNTS + b"\n1,23410,2026-02-30,delivered,1\n", PRICES, "line 4: column day is '2026-02-30'"),
    (COUNTS + b"1,23410,2026-11-5,delivered,1\n", PRICES, "line 3: column day is '2026-11-5'"),
    (COUNTS + b"1,23410,2026-11-05,Delivered,1\n", PRICES, "line 3: column outcome is 'Delivered'"),
    (COUNTS + b"1,23410,2026-11-05,open,-1\n", PRICES, "line 3: column messages is '-1'"),
    (COUNTS + b"1,23410,2026-11-05,open,1e9\n", PRICES, "line 3: column messages is '1e9'"),
    (COUNTS + "1,23410,2026-11-05,open,\u0663\n".encode(), PRICES, "line 3: column messages is '\\u0663'"),
    (COUNTS + b"1,23410,2026-11-05,open,\xff\n", PRICES, "line 3: column messages is '\\udcff'"),
    (COUNTS + b"01,23410,2026-11-05,open,1\n", PRICES, "line 3: column link is '01'"),
    (COUNTS + b"1,,2026-11-05,open,1\n", PRICES, "line 3: column network is ''"),
    (COUNTS + LONG, PRICES, "line 3: it has more than 1048576 characters"),
    (COUNTS + b'"1,23410', PRICES, "line 3: unexpected end of data"),
    (COUNTS, b"", "prices.csv: there is no line; wanted: one of names, with link, route, network, from, for, price, currency"),
    (COUNTS, PRICES.replace(b",", b";"), "prices.csv: line 1: its fields stand between semicolons, and have to stand between commas"),
    (COUNTS.replace(b",", b"\t"), PRICES, "line 1: its fields stand between tabs, and have to stand between commas"),
    (COUNTS, priced(b"1,,23410,2026-11-01,accepted,1,USD"), "prices.csv: line 3: it overlaps line 2, of the same link, network and date"),
    (COUNTS, REMARKED + b"1,,23410,2026-11-01,accepted,1,USD\n", "prices.csv: line 6: it overlaps line 3, of the same link, network and date"),
    (COUNTS, priced(b"1,,23410,2026-11-02,delivered,,EUR"), "prices.csv: line 3: column price is empty: a hole of prices"),
    (COUNTS, priced(b"1,,23410,,delivered,1,EUR"), "prices.csv: line 3: column from is empty: a hole of prices"),
    (COUNTS, priced(b"1,,23410,2026-11-02,,1,EUR"), "prices.csv: line 3: column for is empty: a hole of prices"),
    (COUNTS, priced(b"1,,23410,2026-11-02,delivered,1,"), "prices.csv: line 3: column currency is empty: a hole of prices"),
    (COUNTS, priced(b"1,12,,2026-11-02,delivered,1,EUR"), "prices.csv: line 3: it has to have either a link or a route"),
    (COUNTS, priced(b",,,2026-11-02,delivered,1,EUR"), "prices.csv: line 3: it has to have either a link or a route"),
    (COUNTS, priced(b"1,,101,2026-11-02,delivered,1,EUR"), "prices.csv: line 3: column network is '101'"),
    (COUNTS, priced(b"1,,,2026-13-01,delivered,1,EUR"), "prices.csv: line 3: column from is '2026-13-01'"),
    (COUNTS, priced(b"1,,,2026-11-02,all,1,EUR"), "prices.csv: line 3: column for is 'all'"),
    *((COUNTS, priced(b"1,,,2026-11-02,delivered,%s,EUR" % it), f"prices.csv: line 3: column price is '{it.decode()}'")
      for it in (b"-1", b"1e999999999", b".5", b"NaN", b"0.0123456789")),
    (COUNTS, priced(b"1,,,2026-11-02,delivered,1,eur"), "prices.csv: line 3: column currency is 'eur'"),
)
# Of a dispute: standard input, what is billed, more words, what is told
DISPUTES = (
    (b"", BILLED, [], "there is no line; wanted: one of names, with link, session, offset, moment, route, network, outcome, id, key"),
    (MESSAGES.replace(b",key", b",keys"), BILLED, [], "line 1: column key is there 0 times"),
    (MESSAGES.replace(b",id", b",ids"), BILLED, [], "line 1: column id is there 0 times"),
    (MESSAGES + b"1,10,x,1000,12,23410,open,,\n", BILLED, [], "line 3: column offset is 'x'"),
    (MESSAGES + b"1,10,9,1000,12,23410,opened,,\n", BILLED, [], "line 3: its outcome or its moment can't be: 'opened', 1000"),
    (MESSAGES + b"1,10,9,9999999999999,12,23410,open,,\n", BILLED, [], "line 3: its outcome or its moment can't be: 'open', 9999999999999"),
    (MESSAGES, BILLED + b"1b\n", [], "billed.csv: line 3: it has 1 fields, and column 2 is wanted"),
    (MESSAGES, BILLED + b"\n1b,0.0x\n", [], "billed.csv: line 4: column price is '0.0x'"),
    (MESSAGES, b"Id,price\n", [], "billed.csv: line 1: column id is there 0 times"),
    (MESSAGES, b"id,price,id\n", [], "billed.csv: line 1: column id is there 2 times"),
    (MESSAGES, BILLED + b'1b,"1', [], "billed.csv: line 3: unexpected end of data"),
    (MESSAGES, BILLED + LONG, [], "billed.csv: line 3: it has more than 1048576 characters"),
    *((MESSAGES, BILLED, words, None) for words in (
        ["--columns", "price=1"], ["--columns", "id=1,id=2"], ["--columns", "id=0"], ["--columns", "id"], ["--form", "hex"],
        ["--link", "-1"],
        ["--from", "2026-02-30"], ["--until", "2026-1-1"], ["--until", "99999999999999999999"])),
    (MESSAGES, BILLED, ["--zone", "billed.csv"], "time zone billed.csv: no TZif file"),
)
# In a time zone an hour ahead of UTC in winter: messages around the ends of its November, prices of its days, and what is owed
ZONE = b"".join((b"TZif2", bytes(15), struct.pack(">6L", 0, 0, 0, 0, 1, 4), struct.pack(">lBB", 3600, 0, 0), b"CET\0")) * 2 + b"\nCET-1CEST,M3.5.0,M10.5.0/3\n"
LOCAL = b"link,session,offset,moment,route,network,outcome,id,key\n" + b"".join(
    b"1,10,%d,%d,,,delivered,%d,%d\n" % (at, moment, at, at)
    for at, moment in enumerate((1_793_487_599_999, 1_793_487_600_000, 1_794_610_799_999, 1_794_610_800_000, 1_796_079_599_999, 1_796_079_600_000)))
LOCAL_BILLED = b"".join(b"%d\n" % at for at in range(6))
LOCAL_PRICES = (b"link,route,network,from,for,price,currency\n1,,,2026-10-31,delivered,0.01,EUR\n1,,,2026-11-01,delivered,0.10,EUR\n"
                b"1,,,2026-11-14,delivered,1,EUR\n1,,,2026-12-01,delivered,10,EUR\n")
# By local days messages 1 to 4 are of November, two at 0.10 and two at 1, and 0 and 5 at 0.01 and 10; by days of UTC 2 to 5, and 0 and 1 at 0.01
LOCAL_TOLD = ((["--zone", "zone.csv"], "EUR: owed 2.20, billed 12.21, difference 10.01: unknown 10.01"),
              ([], "EUR: owed 2.20, billed 2.22, difference 0.02: unknown 0.02"))
