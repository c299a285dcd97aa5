"""Runs of `smq capture`, and of the program with its rows: over files, and over a pipe that stays open."""
import os
import select
import subprocess
import time

from oracle.made_captures import WORDS


def run(program, words, given=b""):
    """Returns the lines of standard output, those of standard error, and the status."""
    ended = subprocess.run([program, *words], capture_output=True, input=given, timeout=300, check=False)
    return ended.stdout.decode().splitlines(), ended.stderr.decode().splitlines(), ended.returncode


def differs(name, wanted, given):
    """Returns what differs, or None."""
    return None if wanted == given else f"{name}:\n  wanted: {wanted!s:.2000}\n  given: {given!s:.2000}"


def written(room, captures):
    """Returns the paths of captures that are written to files of a folder."""
    paths = []
    for at, it in enumerate(captures):
        paths.append(f"{room}/capture-{at}.pcap")
        with open(paths[-1], "wb") as file:
            file.write(it)
    return paths


class Pipe:
    """The program, whose standard input is a pipe that stays open: `capture`, or with other first words those."""

    def __init__(self, program, *words, first=("capture", "-")):
        self.process = subprocess.Popen([program, *first, *WORDS.split(), *words], stdin=subprocess.PIPE, stdout=subprocess.PIPE,
                                        stderr=subprocess.PIPE, bufsize=0)
        self.script, self.told = b"", b""

    def give(self, octets):
        self.process.stdin.write(octets)

    def rows(self, count, seconds=20):
        """Returns the rows so far, once there are so many, or by so many seconds."""
        self.script += read_lines(self.process.stdout, count - self.script.count(b"\n"), seconds)
        return self.script.decode().splitlines()

    def lines(self, count, seconds=20):
        """Returns the same of what is told."""
        self.told += read_lines(self.process.stderr, count - self.told.count(b"\n"), seconds)
        return self.told.decode().splitlines()

    def end(self):
        """Ends the input; returns all rows, the lines told and the status."""
        out, told_lines = self.process.communicate()
        return (self.script + out).decode().splitlines(), (self.told + told_lines).decode().splitlines(), self.process.returncode


def read_lines(stream, count, seconds):
    """Returns the octets of a stream, once they have so many lines, or by so many seconds."""
    end, octets = time.monotonic() + seconds, b""
    while octets.count(b"\n") < count and select.select([stream], [], [], max(0, end - time.monotonic()))[0]:
        if not (more := os.read(stream.fileno(), 65_536)):
            break
        octets += more
    return octets
