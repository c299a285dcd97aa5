"""The words of a report and its script, in the order of a report (docs/FORMATS.md). They stand here alone, for all tools."""

VIEWS = ("link", "route", "network", "error", "link-delay", "centre-delay")
LISTS = ("waiting", "stray-answers", "mismatched", "stray-receipts", "ambiguous-receipts", "extra-receipts", "unreadable",
         "undecodable", "broken", "open", "lapsed")
SECTIONS = (*VIEWS, *LISTS)
OUTCOMES = ("waiting", "mismatched", "refused", "noid", "ambiguous", "delivered", "failed", "unasked", "lapsed", "open")
# Outcomes whose messages have a list of that name, and the lists of receipts by how they stand
LISTED_OUTCOMES = ("open", "lapsed")
LISTED_STANDINGS = {"stray": "stray-receipts", "ambiguous": "ambiguous-receipts", "extra": "extra-receipts"}
# Bands of delays, and what a delay in each is below, in ms
BANDS = ((0, "early"), (5_000, "under-5s"), (30_000, "under-30s"), (300_000, "under-5m"), (3_600_000, "under-1h"), (None, "over"))
FORMATS = ("csv", "table")
DIRECTIONS = ("client", "centre")
# How ids may be written, of which a link has the first until set, and its window until set, in ms
FORMS = ("verbatim", "decimal", "hexadecimal")
WINDOW = 172_800_000
