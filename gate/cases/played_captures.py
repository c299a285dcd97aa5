"""Captures that are played, `smq report --capture FILE` and the like: what is written is what it is by way of rows."""
import os
import pty
import subprocess

from repository import ROOT, example_paths
from cases.capture_cases import GAP, GAP_LINES
from cases.capture_runs import Pipe, differs, run, written
from cases.gap_cases import response, submit
from oracle.made_captures import ACK, WORDS, centre, client, handshake, pcap

COMMANDS = (["report", "--format", "table"], ["query", "link"], ["total"], ["count", "--by", "link,hour,outcome"], ["messages"], ["receipts"],
            ["check"])
ROUTES = b"route,447,0,12,23410\nroute,45,0,13,23410\n"
LINK = WORDS.split()


def text_of(lines):
    return "".join(f"{it}\n" for it in lines).encode()


def example_faults(program):
    """Yields what is wrong of each example's capture: its report with what stands before the pieces of its script, and each command."""
    for path in example_paths("*/capture.pcap"):
        folder, name = os.path.dirname(path), os.path.relpath(os.path.dirname(path), ROOT)
        with open(f"{folder}/words", encoding="utf-8") as words, open(f"{folder}/script.csv", encoding="utf-8") as script, open(
                f"{folder}/report.csv", encoding="utf-8") as report:
            words, before = words.read().split(), [it.rstrip("\n") for it in script if not it.startswith("piece,")]
            report = report.read().splitlines()
        settings = ["--settings", f"{folder}/settings.toml"] if os.path.exists(f"{folder}/settings.toml") else []
        played = [*settings, "--capture", path, *words]
        yield differs(f"{name}: its report", (report, [], 0), run(program, ["report", *played], text_of(before)))
        rows = text_of(run(program, ["capture", *words, path])[0])
        for command in COMMANDS:
            yield differs(f"{name}: {' '.join(command)}", run(program, [*command, *settings], ROUTES + rows),
                          run(program, [*command, *played], ROUTES))
        wanted = run(program, ["report", *settings], ROUTES + rows)
        yield differs(f"{name}: rows without an end of the last line", wanted, run(program, ["report", *played], ROUTES[:-1]))
        wanted = run(program, ["report", *settings], rows)
        yield differs(f"{name}: no rows", wanted, run(program, ["report", *played]))
        with open(path, "rb") as file:
            yield differs(f"{name}: --capture -", wanted, run(program, ["report", *settings, "--capture", "-", *words], file.read()))


def end_faults(program, room):
    """Yields what is wrong with captures that aren't whole or aren't there, rows that are refused, and words."""
    later = pcap([(5000, client(48, submit(2), acknowledged=32))])
    path, second, text = written(room, [pcap(GAP), later, b"piece,1,10,client,1000,00\n"])
    none = f"{room}/none.pcap"
    rows, _, _ = run(program, ["capture", *LINK, path])
    wanted = run(program, ["report"], text_of(rows))[0]
    yield differs("lost packets", (wanted, GAP_LINES, 1), run(program, ["report", *LINK, "--capture", path]))
    rows, lines, _ = run(program, ["capture", *LINK, path, second])
    yield differs("two captures", (run(program, ["report"], text_of(rows))[0], lines, 1),
                  run(program, ["report", *LINK, "--capture", path, "--capture", second]))
    yield differs("a refused row before it", (wanted, [*GAP_LINES, "row 1: 6 NoSession"], 1),
                  run(program, ["report", *LINK, "--capture", path], b"withdraw,9\n"))
    rows, lines, status = run(program, ["report", *LINK, "--capture", path], b"routes\n")
    yield differs("a bad row before it", ([], "row 1: bad row", 2), (rows, lines[-1], status))
    rows, lines, status = run(program, ["report", *LINK, "--capture", none])
    yield differs("a capture that isn't there", ([], 2, "read failed", True, 3), (
        rows, len(lines), lines[0], lines[-1].startswith(f"smq: {none}: a read failed"), status))
    for command in ("report", "total", "messages", "follow", "check"):
        rows, lines, status = run(program, [command, *LINK, "--capture", text])
        yield differs(f"{command}: a file that is no capture", ([], f"smq: {text}: it is no pcap or pcapng file", 2), (
            rows, lines[-1], status))
    for name, words, line in (
            ("--link without --capture", LINK, "error: --link, --strict, --every and what else is of captures want --capture"),
            ("--strict without --capture", ["--strict"], "error: --link, --strict, --every and what else is of captures want --capture"),
            ("--capture without --link", ["--capture", path], "error: --capture wants --link, which names the centre's port"),
            ("--ask without --every", [*LINK, "--capture", path, "--ask", "link"], "error: --ask wants --every, which says how often")):
        rows, lines, status = run(program, ["follow", *words])
        yield differs(name, ([], line, 2), (rows, lines[0], status))


def terminal_faults(program, room):
    """Yields what is wrong where standard input is a terminal, which isn't read."""
    path, = written(room, [pcap(GAP)])
    terminal, end = pty.openpty()
    ended = subprocess.run([program, "report", *LINK, "--capture", path], stdin=end, capture_output=True, timeout=60, check=False)
    wanted, lines, status = run(program, ["report", *LINK, "--capture", path])
    yield differs("a terminal", (text_of(wanted), text_of(lines), status), (ended.stdout, ended.stderr, ended.returncode))
    os.close(terminal)
    os.close(end)


def answer_of(lines):
    """Returns the rows of the last whole answer of lines of `smq follow`."""
    ends = [0, *(at for at, it in enumerate(lines, 1) if it.startswith("told,"))]
    return lines[ends[-2] : ends[-1] - 1] if len(ends) > 1 else None


def follow_faults(program):
    """Yields what is wrong with answers of `smq follow` while a capture comes through a pipe that stays open."""
    pipe = Pipe(program, "--every", "1", "--ask", "link", first=("follow", "--capture", "-"))
    asked, answered = submit(1), response(1)
    pipe.give(pcap([*handshake(), client(0, asked)]))
    yield differs("follow: an answer while nothing comes", ["view,link,7,waiting,1"], answer_of(answers_by(pipe, 2, "waiting")))
    pipe.give(pcap([(9_000, centre(0, answered, ACK, len(asked)))])[24:])
    yield differs("follow: and when more has come", ["view,link,7,open,1"], answer_of(answers_by(pipe, 2, "open")))
    rows, lines, status = pipe.end()
    yield differs("follow: its end", (["view,link,7,open,1"], [], 0), (answer_of(rows), lines, status))


def answers_by(pipe, count, word):
    """Returns the lines of a pipe, once so many lines have a word, or none came for long."""
    lines = pipe.rows(0)
    while sum(word in it for it in lines) < count or not lines[-1].startswith("told,"):
        more = pipe.rows(len(lines) + 1)
        if len(more) == len(lines):
            break
        lines = more
    return lines


def played_faults(program, room):
    """Yields what is wrong with captures that are played."""
    yield from example_faults(program)
    yield from end_faults(program, room)
    yield from terminal_faults(program, room)
    yield from follow_faults(program)
