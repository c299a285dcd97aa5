"""Cases of `smq capture` with --every and --ask: of files, and of a capture that comes through a pipe which stays open."""
import time

from cases.capture_runs import Pipe, differs
from cases.gap_cases import PDUS, SECOND, SIZE
from oracle.made_captures import CONVERSATION, PDU, WORDS, centre, client, conversation, handshake, pcap, row, told

QUESTIONS = ["ask,link", "ask,report"]


def tick_cases():
    """Yields the cases of files: the name, the capture, the rows, what is told, the status and the words."""
    words = WORDS + " --every 10"
    parts = [b"ab", b"c", b"d", b"e", b"f", b"g"]
    moments = [9_999, 10_000, 45_000, 12_000, 20_000, 50_000]
    octets = [(moment, client(sum(map(len, parts[:at])), it)) for at, (moment, it) in enumerate(zip(moments, parts))]
    capture = pcap([*zip((9_980, 9_990), handshake()), *octets])
    rows = [row("client", moment, it) for moment, it in zip((9_999, 10_000, 45_000, 45_000, 45_000, 50_000), parts)]
    raised = [told("moments raised to the one before, as the clock was set back or packets stand out of order: "
                   "2 from the client, the first is packet 6")]
    yield "rows of the clock", capture, [
        rows[0], "clock,10000", rows[1], "clock,40000", *rows[2:5], "clock,50000", rows[5]], raised, 0, words
    yield "rows of the clock and questions", capture, [
        rows[0], "clock,10000", *QUESTIONS, rows[1], "clock,40000", *QUESTIONS, rows[2], *QUESTIONS, rows[3], *QUESTIONS, rows[4],
        "clock,50000", *QUESTIONS, rows[5], *QUESTIONS], raised, 0, words + " --ask link --ask report"
    frames = [*handshake(), client(0, PDUS[0]), client(2 * SIZE, PDUS[2])]
    yield "a gap, which questions make a row", pcap(frames), [
        row("client", 1020, PDUS[0]), f"lost,1,client,{SIZE}", row("client", 1030, PDUS[2], 2), "ask,report"], SECOND, 1, \
        WORDS + " --every 1000 --ask report"
    frames = [*zip((1_000, 1_500), handshake()), (1_999, client(0, b"ab")), (2_000, client(4, b"ef")), (2_001, client(2, b"cd"))]
    yield "a clock each half of a second, before rows that wait", pcap(frames), [
        "clock,1500", row("client", 1_999, b"ab"), "clock,2000", row("client", 2_001, b"cd"), row("client", 2_001, b"ef")], [], 0, \
        WORDS + " --every 0.5"


def goes_on(rows, moment, passed):
    """Whether rows are three clocks or more, each with a question: they rise by 200 ms, or several at once, by no more than has
    passed since a moment."""
    clocks = [int(it[6:]) for it in rows if it.startswith("clock,")]
    pairs = [it for clock in clocks for it in (f"clock,{clock}", "ask,link")]
    return (len(clocks) > 2 and rows in (pairs, pairs[:-1]) and all(it % 200 == 0 for it in clocks)
            and [moment, *clocks] == sorted({moment, *clocks}) and clocks[-1] <= moment + passed)


def tick_faults(program):
    """Yields what is wrong with rows of the clock and questions while no packet comes."""
    pipe = Pipe(program, "--every", "0.2", "--ask", "link")
    yield differs("questions before the first packet", ["ask,link"] * 2, pipe.rows(2)[:2])
    pipe.give(pcap([]))
    for name, records, rows, moment in (
            ("the clock goes on from the newest packet", pcap(conversation())[24:], CONVERSATION, 1_030),
            ("and anew from one that comes", pcap([(9_000, client(2, b"fg"))])[24:], [row("client", 9_000, b"fg")], 9_000)):
        count, begun = len(pipe.rows(0)), time.monotonic()
        pipe.give(records)
        found = pipe.rows(count + 12)[count:]
        passed = (time.monotonic() - begun) * 1000
        last = found.index(rows[-1]) if rows[-1] in found else -1
        yield differs(f"{name}: rows", rows, [it for it in found if it.startswith("piece")])
        yield differs(f"{name}, with questions", True, goes_on(found[last + 1 :], moment, passed))
    rows, lines, status = pipe.end()
    yield differs("a question at the end", (rows[-1:], [], 0), (["ask,link"], lines, status))
    # (a gap that is acknowledged is given up after 2 s)
    pipe = Pipe(program, "--every", "0.5")
    pipe.give(pcap([*handshake(), client(0, PDU), client(32, PDU), centre(0, b"", acknowledged=48)]))
    wanted = [row("client", 1020, PDU), row("client", 1030, PDU, 2)]
    # (with the six clocks that come by then)
    yield differs("a gap is given up while no packet comes", wanted, [it for it in pipe.rows(8) if it.startswith("piece")])
    pipe.end()
