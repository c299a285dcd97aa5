"""Captures that come to `smq capture` through a pipe which stays open, or whose writer is ended by Ctrl-C."""
import signal
import subprocess

from cases.capture_runs import Pipe, differs, written
from oracle.made_captures import ACK, CENTRE, CONVERSATION, PDU, SYN, WORDS, centre, client, conversation, gaps, handshake, missing, passed
from oracle.made_captures import pcap, pcapng, row, told


def pipe_faults(program):
    """Yields what is wrong with captures that come through a pipe which stays open: rows and lines come at once."""
    more = [(1040, client(2, b"fg")), (1050, centre(3, b"h"))]
    wanted = [*CONVERSATION, row("client", 1040, b"fg"), row("centre", 1050, b"h")]
    for name, first, rest in (("pcap", pcap(conversation()), pcap(more)[24:]),
                              ("pcapng", pcapng(conversation()), pcapng(more)[len(pcapng([])):])):
        pipe = Pipe(program)
        pipe.give(first)
        yield differs(f"{name}: rows at once", CONVERSATION, pipe.rows(2))
        for at in range(len(rest)):
            pipe.give(rest[at : at + 1])
        yield differs(f"{name}: rows of packets that come octet by octet", wanted, pipe.rows(4))
        yield differs(f"{name}: its end", (wanted, [], 0), pipe.end())
    ends = {"ends": (("192.0.2.1", 40001), CENTRE)}, {"ends": (CENTRE, ("192.0.2.1", 40001))}
    pipe = Pipe(program)
    # (the answer begins the connection, which is the second)
    pipe.give(pcap([*handshake(), client(2, b"cd"), client(-1, b"ab", SYN, **ends[0]), centre(-1, b"x", SYN | ACK, 2, **ends[1])]))
    wanted = [row("client", 1030, b"ab", 2), row("centre", 1040, b"x", 2)]
    yield differs("rows of another connection than that with a gap", wanted, pipe.rows(2))
    pipe.end()
    pipe = Pipe(program, "--strict")
    pipe.give(pcap([*handshake(), client(2, b"cd"), centre(0, b"x")]))
    yield differs("rows of the other direction, where nothing goes on behind a gap", [row("centre", 1030, b"x")], pipe.rows(1))
    pipe.end()
    pipe = Pipe(program)
    pipe.give(pcap([*zip((1000, 1010, 1020, 1030, 1040, 3050), [
        *handshake(), client(0, PDU), client(32, PDU), centre(0, PDU, acknowledged=48), centre(16, PDU, acknowledged=48)])]))
    yield differs("a gap is told when it is given up", [told("octets 16 to 31 from the client are missing: session 2 goes on at octet 32")],
                  pipe.lines(1))
    yield differs("its rows", 4, len(pipe.rows(4)))
    pipe.end()


def signal_faults(program, room):
    """Yields what is wrong where Ctrl-C ends the parts of a pipe, but for the program, whose shell passes it over: all is told."""
    capture, = written(room, [pcap([*conversation(), (1040, client(4, b"ij")), (1050, centre(3, b"h"))])])
    # (the first shell of the line waits; `kill` ends all of its session that take the signal)
    line = f"""trap : INT; (cat "$1"; kill -INT 0; exec sleep 20) | (trap '' INT; "$0" capture {WORDS} -; echo "status $?")"""
    ended = subprocess.run(["sh", "-c", line, program, capture], capture_output=True, check=False, start_new_session=True, timeout=60,
                           preexec_fn=lambda: signal.signal(signal.SIGINT, signal.SIG_DFL))
    yield differs("a capture whose writer is ended by Ctrl-C", (
        [*CONVERSATION, row("centre", 1050, b"h"), "status 1"], [missing(2, 3), passed(2), gaps(1, 2, 2)]), (
        ended.stdout.decode().splitlines(), ended.stderr.decode().splitlines()))
