"""The words of the program and of the tools: of each command what its help says."""
import argparse
import collections
import re
import subprocess

from lib.loader import load
from packing.unfit import Unfit

# name: of a command; about: a sentence; usages: lines; more: what stands below the words
Command = collections.namedtuple("Command", "name about usages arguments options commands more")
# flags: as --format, none of an argument; value: what its value is called, if it has one; offers: what it can be, where that is listed
Word = collections.namedtuple("Word", "flags value offers about")

ENTRY = re.compile(r" {2,6}(\S.*?)(?: {2,}(\S.*))?")
OFFERS = re.compile(r" *\[possible values: (.*)\]")
# a word as clap shows it: flags, and the value's name
SHOWN = re.compile(r"((?:-\w|--[\w-]+)(?:, --[\w-]+)*)?(?: ?(?:<([^>]+)>|\[([^\]]+)\])(?:\.\.\.)?)?")
KNOWN = ("Usage", "Commands", "Arguments", "Options")


def printed_by(path, *words):
    try:
        return subprocess.run([path, *words], capture_output=True, check=True, text=True).stdout
    except (OSError, subprocess.CalledProcessError) as fault:
        raise Unfit(f"{path} {' '.join(words)}: {fault}") from None


def entries(text):
    """Yields what each line of a part of a help names, and says of it; a line far to the right goes on with the one before."""
    found = []
    for line in text.splitlines():
        entry = ENTRY.fullmatch(line)
        if entry:
            found.append([entry[1], entry[2] or ""])
        elif found and line.startswith(" " * 10):
            found[-1][1] = f"{found[-1][1]} {line.strip()}".strip()
        else:
            raise Unfit(f"a help has the line {line!r}")
    return found


def word_of(shown, about):
    parts, offers = SHOWN.fullmatch(shown), OFFERS.search(about)
    if not parts:
        raise Unfit(f"a help has the word {shown!r}")
    return Word(re.findall(r"[^, ]+", parts[1] or ""), parts[2] or parts[3], offers[1].split(", ") if offers else [], OFFERS.sub("", about))


def command_of(path, *names):
    """Returns the program, or a command of it, with the commands of its own."""
    about, *paragraphs = printed_by(path, *names, "--help").strip("\n").split("\n\n")
    parts = dict.fromkeys(KNOWN, "")
    while paragraphs and (heading := paragraphs[0].partition(":")[0]) in KNOWN:
        parts[heading] = paragraphs.pop(0).partition(":")[2].lstrip(" ").lstrip("\n")
    commands = entries(parts["Commands"])
    names_of_help = Word([], "COMMAND", [name for name, _ in commands if name != "help"], "The command")
    below = [command_of(path, *names, it) if it != "help" else Command(it, about, [], [names_of_help], [], [], "") for it, about in commands]
    return Command(" ".join(names) or "smq", about, [it.strip() for it in parts["Usage"].splitlines()], [word_of(*it) for it in entries(parts["Arguments"])],
                   [word_of(*it) for it in entries(parts["Options"])], below, "\n\n".join(paragraphs))


class Seen(Exception):
    """The words of a tool, which doesn't go on."""


def tool_of(name):
    """Returns a tool by what it says of its words. (How that is shown differs from Python to Python.)"""
    def see(words, *_):
        raise Seen(words)
    parse, argparse.ArgumentParser.parse_args = argparse.ArgumentParser.parse_args, see
    try:
        load(name).main()
    except Seen as seen:
        words = seen.args[0]
    finally:
        argparse.ArgumentParser.parse_args = parse
    arguments, options, usages = [], [], ([], [])
    for it in words._actions:
        value = None if it.nargs == 0 else it.metavar or it.dest.upper()
        (options if it.option_strings else arguments).append(Word(it.option_strings, value, [*(it.choices or [])], it.help))
        if not isinstance(it, argparse._HelpAction):
            shown = " ".join([*it.option_strings, *([value] if value else []), *([".."] if it.nargs == "+" or isinstance(it, argparse._AppendAction) else [])])
            usages[not it.option_strings].append(shown if it.required and it.nargs != "?" else f"[{shown}]")
    return Command(name, words.description, [" ".join([f"tools/{name}", *usages[0], *usages[1]])], arguments, options, [], words.epilog.strip("\n"))
