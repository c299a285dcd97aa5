"""What another program wrote of captures (tests/captures/), compared with what `smq capture` writes of them."""
import hashlib

from repository import ROOT
from cases.capture_cases import capture_cases
from cases.capture_runs import differs, run, written
from oracle.random_captures import made

# (random captures of numbers from here on lost packets, and have PDUs of SMPP 3.4 alone)
FIRST_LOSSY = 1_000_000
# Captures of which it wrote other rows, and why
DIFFERENT = {
    "a host of IPv6": "it takes octets with a SYN that nobody answers for a connection",
    "a SYN whose answer alone was captured": "of the client it takes no octet then before a PDU that is seen to begin",
    "fragments of IPv4": "it puts no fragments together",
    "the same, --strict": "it puts no fragments together",
    "a segment in fragments and whole": "it puts no fragments together, so the octets come with the whole segment",
    "fragments of IPv6": "it puts no fragments together",
    "gaps in both directions, and a segment behind one that comes again":
        "it takes gaps in the order of the segments behind them, not of the PDUs",
    "1000061": "it takes the octet of a probe for one behind a gap, so the gap waits since then",
}
# Captures of which it wrote other moments: of octets behind others that came later and aren't written
OTHER_MOMENTS = {"1000081"}


def answers(name):
    """Returns the rows of each capture of a file of answers, by its name."""
    found = {}
    with open(f"{ROOT}/tests/captures/{name}", encoding="utf-8") as file:
        for line in file.read().splitlines():
            if line.startswith("capture "):
                rows = found[line.removeprefix("capture ")] = []
            else:
                rows.append(line)
    return found


def renumbered(rows):
    """Returns rows whose sessions are numbered in the order of their first rows: it numbers them in that of their first packets."""
    numbers, found = {}, []
    for fields in (it.split(",") for it in rows):
        if fields[0] == "piece":
            fields[2] = str(numbers.setdefault(fields[2], len(numbers) + 1))
        found.append(",".join(fields))
    return found


def without_moments(rows):
    return [",".join((*it.split(",")[:4], it.rpartition(",")[2])) for it in rows]


def captures():
    """Yields the name, the captures and the words of each capture that can be made anew."""
    for name, parts, _, _, _, words in capture_cases():
        yield name, parts, words
    for name in answers("random.txt"):
        is_lossy = int(name) >= FIRST_LOSSY
        case = made(int(name), is_lossy, is_lossy)
        yield name, [case.capture], " ".join(case.words[1:])


def answer_faults(program, room):
    """Yields what is wrong with the rows of captures, by the answers."""
    known = {name: (parts, words) for name, parts, words in captures()}
    for name, rows in {**answers("cases.txt"), **answers("random.txt")}.items():
        parts, words = known[name]
        found = run(program, ["capture", *words.split(), *written(room, parts)])[0]
        if name in DIFFERENT:
            yield f"{name}: its rows are those of the other program" if renumbered(found) == renumbered(rows) else None
            continue
        seen = without_moments if name in OTHER_MOMENTS else list
        yield differs(f"answers, {name}", seen(renumbered(rows)), seen(renumbered(found)))
    with open(f"{ROOT}/tests/captures/examples.txt", encoding="utf-8") as file:
        for line in file:
            wanted, folder = line.split()
            with open(f"{ROOT}/{folder}/words", encoding="utf-8") as words:
                found = run(program, ["capture", *words.read().split(), f"{ROOT}/{folder}/capture.pcap"])[0]
            yield differs(f"answers, {folder}", wanted, hashlib.sha256("".join(f"{it}\n" for it in found).encode()).hexdigest())
