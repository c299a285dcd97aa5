#!/usr/bin/env python3
"""What gate/check-package asks of a Debian package that is installed in a folder.

  gate/installed.py documents|words|readme|guide ROOT

documents: each document, manual page, unit and file of settings names commands that are installed or of the system, commands of smq that it has,
and paths that are there, in commands from / on; names that nothing has are put into a text in memory, and each has to be told. words: the program takes each word
that the completions offer, bash's, and fish's and zsh's where these are there, and they offer each word of its help. readme: the README's
blocks of sh print what it shows. guide: each command of the GUIDE answers its --help. What is wrong is printed, and the status is 1 then.
"""
import sys

sys.dont_write_bytecode = True

import glob
import gzip
import os
import re
import shutil
import subprocess
import tempfile

import repository
from lib.loader import load

README = load("../gate/check-readme")
# Commands of the system that documents name, with the shell's own words
SYSTEM = {*"apt-get awk bash cat cd cp done echo editor export find for grep hostname journalctl ln ls make mkdir sed seq sh sleep sort sqlite3 ss systemctl tail head tcpdump tee xargs".split(),
          *"sbatch parallel wc END ./make-days".split()}
# What is of the repository alone
OTHERS = re.compile(r"(?<![\w/.-])(?:\.\.?/)*(?:(?:tools/(?!lib/)|crates/|gate/|bench/)[\w-]+|\.\.?/(?:run|try|test)\b)|`rt\b")
SLIPS = ("see tools/places", "`./run report`", "../../run report", "`rt check`", "crates/smq/out/smq", "`smq nothing`", "smq-nothing", "docs/NOTHING.md",
         "/etc/smq/nothing.csv", "/etc/default/nothing", "```sh\nnothing | smq report\n```\n", "```sh\nsh -c 'nothing'\n```\n",
         "```sh\nsqlite3 month.db '.read docs/schema.sql'\n```\n")
# Where completions are asked: the words before, and the one that is begun
BASH = """. "$1"; shift; COMP_WORDS=("$@"); COMP_CWORD=$(($# - 1)); _smq; printf '%s\\n' "${COMPREPLY[@]}" """
FISH = "source $argv[1]; complete -C (string join ' ' -- $argv[2..-1]) | string split -f 1 \\t"
ZSH = """_describe() { print -rl -- ${offers%%:*} }; file=$1; shift; words=("$@"); CURRENT=$#; . $file"""


class Root:
    """A folder in which the package is installed."""

    def __init__(self, folder):
        self.folder = os.path.abspath(folder)
        self.names = set(os.listdir(f"{self.folder}/usr/bin")) | {os.path.basename(it) for it in glob.glob(f"{self.folder}/lib/systemd/system/*")}
        self.environment = {"PATH": f"{self.folder}/usr/bin:{os.environ['PATH']}"}
        self.commands = re.findall(r"^  (\w+) ", self.said("smq", "--help").partition("Commands:\n")[2].partition("\n\n")[0], re.M)

    def said(self, *words, **more):
        return subprocess.run(words, env=self.environment, stdin=subprocess.DEVNULL, capture_output=True, encoding="utf-8", timeout=120, **more).stdout

    def takes(self, *words):
        """Whether a command answers these words."""
        return subprocess.run(words, env=self.environment, stdin=subprocess.DEVNULL, capture_output=True, timeout=120, check=False).returncode == 0

    def has(self, path):
        return os.path.exists(self.folder + path)

    def texts(self):
        """Yields the path and the text of each document."""
        for at, _, names in os.walk(self.folder):
            for path in (f"{at}/{it}" for it in sorted(names)):
                name = path[len(self.folder):]
                if not re.match(r"/usr/share/(?:doc|man)/|/etc/|/lib/", name) or name.endswith((".pcap", ".png", "changelog.Debian.gz")):
                    continue
                with gzip.open(path) if name.endswith(".gz") else open(path, "rb") as file:
                    yield name, file.read().decode().replace("\\-", "-")

    def faults(self, text):
        """Yields what a text names that isn't there."""
        yield from (it[0] for it in OTHERS.finditer(text))
        yield from (it for it in re.findall(r"(?<![\w/.-])smq-[a-z][a-z-]*\b(?!\.csv)(?:\.service)?", text) if not {it, f"{it}.service"} & self.names)
        yield from (it for it in re.findall(r"(?:/usr/share/doc/smq|/etc/smq|/etc/default)/[\w./-]*\w", text) if not self.has(it))
        yield from (it for it in re.findall(r"(?<![\w/])docs/\w+\.md(?! of the repository)", text) if not self.has(f"/usr/share/doc/smq/{it}"))
        blocks = re.findall(r"^```sh\n(.*?)^```", text, re.M | re.S)
        for code in (*blocks, *re.findall(r"`([^`\n]+)`", text)):
            yield from (f"smq {it}" for it in re.findall(r"(?<![\w./-])smq ([a-z]+)\b", code) if it not in self.commands)
        for code in blocks:
            # (a reader is in any folder)
            yield from re.findall(r"(?<![\w./-])(?:docs|examples)/[\w./-]*\w", code)
            yield from (it for it in commands_of(code) if it not in SYSTEM | self.names)


def commands_of(code):
    """Yields the first word of each command of a shell's lines."""
    code = re.sub(r"<<(\w+).*?^\1$", "", code.replace("\\\n", " "), flags=re.M | re.S)
    yield from (it for inner in re.findall(r"\bsh -c '([^']*)'", code) for it in commands_of(inner))
    code = re.sub(r"'[^']*'|\"[^\"]*\"|#.*", "''", code)
    for part in re.split(r"[|;&\n(]|\bdo\b", code):
        words = [it for it in part.replace(")", " ").split() if "=" not in it]
        if words and words[0] not in ("''", "..", ">"):
            yield words[0]


def documents(root):
    for path, text in root.texts():
        yield from (f"{path}: {it}" for it in root.faults(text))
    yield from (f"the slip {it!r} isn't told" for it in SLIPS if not [*root.faults(it)])


def words(root):
    with tempfile.TemporaryDirectory() as empty:
        # (where a value is a path, there is none to offer)
        yield from words_in(root, empty)


def words_in(root, empty):
    shells = {"bash": (["bash", "-c", BASH, "-"], "bash-completion/completions/smq"), "fish": (["fish", "-N", "-c", FISH], "fish/vendor_completions.d/smq.fish"),
              "zsh": (["zsh", "-f", "-c", ZSH, "-"], "zsh/vendor-completions/_smq")}
    for shell, (run, path) in shells.items():
        if not shutil.which(shell):
            continue

        def offers(*before):
            return {*root.said(*run, f"{root.folder}/usr/share/{path}", "smq", *before, cwd=empty).splitlines()} - {""}

        for before in ([], *([it] for it in root.commands)):
            help_of = root.said("smq", "help", *before) if before != ["help"] else ""
            listed = {it for some in re.findall(r"\[possible values: (.*?)\]", help_of.partition("\nOptions:")[0]) for it in some.split(", ")}
            listed |= set(re.findall(r"^  +(?:-\w, )?(--[\w-]+)", help_of, re.M)) | (set(root.commands) if not before else set())
            # (fish offers options once one is begun)
            offered = {it for begun in (("", "-", "--") if shell == "fish" else ("",)) for it in offers(*before, begun)}
            yield from (f"{shell}: {before} lacks {it}" for it in sorted(listed - offered))
            for it in sorted(offered):
                # (where nothing is offered as an option's value, a path is)
                has_value = re.search(rf"(?<![\w-]){re.escape(it)} <", help_of)
                values = [[value] for value in offers(*before, it, "") or ("x",)] if has_value else [[]]
                for asked in ([*before, it, *value, *([] if "help" in (it, *before) else ["--help"])] for value in values):
                    if not root.takes("smq", *asked):
                        yield f"{shell}: smq doesn't take {' '.join(asked)}"


def readme(root):
    """Its paths are those of the folder in which the package is."""
    with open(f"{root.folder}/usr/share/doc/smq/README.md", encoding="utf-8") as file:
        text = file.read().replace("/usr/share/doc/smq/", f"{root.folder}/usr/share/doc/smq/")
    blocks = [it for it in README.BLOCKS.findall(text) if README.NEEDS_A_NETWORK not in it[0]]
    os.environ.update(root.environment)
    with tempfile.TemporaryDirectory() as folder:
        yield from filter(None, README.faults_of(folder, blocks))
    if len(blocks) < 3:
        yield f"README.md has {len(blocks)} blocks"


def guide(root):
    with open(f"{root.folder}/usr/share/doc/smq/docs/GUIDE.md", encoding="utf-8") as file:
        text = file.read()
    named = {(it,) for it in re.findall(r"\bsmq-[a-z-]+\w", text) if it in os.listdir(f"{root.folder}/usr/bin")}
    named |= {("smq", it) for it in re.findall(r"\bsmq ([a-z]+)\b", text) if it in root.commands}
    if len(named) < 12:
        yield f"GUIDE.md names {len(named)} commands"
    yield from (f"{' '.join(it)} doesn't answer --help" for it in sorted(named) if not root.takes(*it, "--help"))


def main():
    what, folder = sys.argv[1:]
    found = [*{"documents": documents, "words": words, "readme": readme, "guide": guide}[what](Root(folder))]
    print("".join(f"{it}\n" for it in found), end="")
    return 1 if found else 0


if __name__ == "__main__":
    sys.exit(main())
