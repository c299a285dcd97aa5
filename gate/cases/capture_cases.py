"""Cases of `smq capture` for gate/check-capture, of all groups; and of several captures, standard input, --index and --losses, and files
that can't be read or written."""
import os
import subprocess

from repository import example_paths
from cases import file_cases, frame_cases, gap_cases, pcapng_cases, stream_cases, tick_cases
from cases.capture_runs import differs, run, written
from oracle.made_captures import ACK, CONVERSATION, FIN, PDU, WORDS, centre, client, conversation, gaps, handshake, pcap, row, told

GROUPS = (frame_cases.link_type_cases, frame_cases.ip_cases, frame_cases.fragment_cases, frame_cases.snap_cases,
          file_cases.byte_order_cases, file_cases.cut_cases, file_cases.refused_cases, file_cases.word_cases,
          pcapng_cases.pcapng_cases, pcapng_cases.pcapng_loss_cases, stream_cases.order_cases, stream_cases.session_cases,
          stream_cases.link_cases, stream_cases.loss_cases, gap_cases.gap_cases, tick_cases.tick_cases)


def capture_cases():
    """Yields a name, the captures, the rows, the lines, the status and the words."""
    for group in GROUPS:
        for name, capture, rows, *more in group():
            lines, status, words = more + [[], 0, WORDS][len(more):]
            yield name, [capture], rows, lines, status, words
    begin = conversation()
    later = [(2000, client(2, b"fg")), (2010, centre(3, b"h"))]
    yield "two captures", [pcap(begin), pcap(later)], [*CONVERSATION, row("client", 2000, b"fg"), row("centre", 2010, b"h")], [], 0, WORDS
    frames = [*begin, *(client(2 + it, b"%d" % it) for it in range(6)), *(centre(3 + it, b"x") for it in range(3))]
    frames = [*zip(range(1000, 2000, 10), frames)]
    rows = [*CONVERSATION, *(row("client", 1040 + 10 * it, b"%d" % it) for it in range(6)),
            *(row("centre", 1100 + 10 * it, b"x") for it in range(3))]
    yield "a second capture that begins within the first, which is cut off", [pcap(frames[:9])[:-5], pcap(frames[5:])], rows, [
        "the file ends within packet 9"], 1, WORDS
    for path in example_paths("*/capture.pcap"):
        folder = os.path.dirname(path)
        with open(path, "rb") as file, open(f"{folder}/words", encoding="utf-8") as words, open(
                f"{folder}/script.csv", encoding="utf-8") as script:
            rows = [it.rstrip("\n") for it in script if it.startswith("piece,")]
            yield os.path.basename(folder), [file.read()], rows, [], 0, words.read()


def case_faults(program, room):
    """Yields what is wrong with cases, and those of files."""
    for name, captures, rows, lines, status, words in capture_cases():
        paths = written(room, captures)
        found, told_lines, ended = run(program, ["capture", *words.split(), *paths])
        told_lines = [it.replace(paths[0], "CAPTURE") for it in told_lines]
        # (usage stands below what is wrong with words)
        yield differs(name, ([*rows], [*lines], status), (found, told_lines[:1] if status == 2 else told_lines, ended))
    yield from several_faults(program, room)
    yield from unread_faults(program, room)
    yield from help_faults(program)


# A capture that lost the second PDU of the client, with what is written and told of it
GAP = [*handshake(), client(0, PDU), client(32, PDU), centre(0, PDU, acknowledged=48), centre(16, PDU, acknowledged=48)]
GAP_ROWS = [row("client", 1020, PDU), row("centre", 1040, PDU, 2), row("centre", 1050, PDU, 2), row("client", 1030, PDU, 2)]
GAP_LINES = [told("octets 16 to 31 from the client are missing: session 2 goes on at octet 32"), gaps(1, 16)]


def several_faults(program, room):
    """Yields what is wrong with --index and --losses, and standard input beside a file."""
    command = ["capture", *WORDS.split()]
    ends = pcap([(5000, client(48, b"", FIN | ACK, 32)), (5010, client(49, b"", ACK, 32))])
    path, second = written(room, [pcap(GAP), ends])
    index, losses = f"{room}/index.csv", f"{room}/losses.csv"
    yield differs("two files", (GAP_ROWS, GAP_LINES, 1), run(program, [*command, "--index", index, "--losses", losses, path, second]))
    both = "7,192.0.2.1:40000,192.0.2.9:2775"
    for name, wanted in ((index, [f"1,{both},1,3,1,16", f"2,{both},4,6,0,0"]), (losses, ["1,client,16,16,5000,acknowledged"])):
        with open(name, encoding="utf-8") as file:
            yield differs(os.path.basename(name), wanted, file.read().splitlines())
    yield differs("standard input", (GAP_ROWS, GAP_LINES, 1), run(program, [*command, "-", second], pcap(GAP)))
    yield differs("standard input, where no file is named", (GAP_ROWS[:1], [], 0), run(program, command, pcap(GAP[:3])))


def unread_faults(program, room):
    """Yields what is wrong with files that can't be read or written."""
    command, (path, text) = ["capture", *WORDS.split()], written(room, [pcap(GAP), b"piece,1,10,client,1000,00\n"])
    for name, words, line in (
            ("no file", [f"{room}/none.pcap"], f"smq: {room}/none.pcap: a read failed"),
            ("a folder", [room], f"smq: {room}: a read failed"),
            ("an index that can't be written", ["--index", f"{room}/none/index.csv", path], "smq: --index: a write failed"),
            ("losses that can't be written", ["--losses", room, path], "smq: --losses: a write failed")):
        rows, lines, status = run(program, [*command, *words])
        yield differs(name, ([], [line], 3), (rows, [it[: len(line)] for it in lines], status))
    yield differs("a second file that is no capture", (GAP_ROWS, [f"smq: {text}: it is no pcap or pcapng file", *GAP_LINES], 2),
                  run(program, [*command, path, text]))
    ended = subprocess.run(["sh", "-c", '"$0" "$@" > /dev/full', program, *command, path], capture_output=True, check=False)
    yield differs("a full disk", (True, 3), (ended.stderr.startswith(b"smq: a write failed: "), ended.returncode))


def help_faults(program):
    """Yields which words of captures the help of a subcommand lacks."""
    words, live = ("--link", "--first-session", "--strict", "--index", "--losses"), ("--every", "--ask")
    for command, own in (("capture", ("[FILE]", "--into", "--by", *live)), ("report", ("--capture",)), ("follow", ("--capture", *live))):
        lines, told_lines, status = run(program, [command, "--help"])
        absent = [it for it in (*own, *words) if not any(it in line for line in lines)]
        yield differs(f"{command} --help", ([], [], 0), (absent, told_lines, status))
