"""Which wrong bodies were seen refused, and what has changed since: the file record.txt.

It has a line for each edit, with two sums. The first is of what the verdict rests on in the edit's own crate: the edit; the code of
wrong_bodies.py; the logic that rt version names, and HANDLES; the function that it names, with its body and what is written of its
proof; the bodies that it changes; what its proof reaches; and what `use` lines and attributes say of these names. The second is of
that and of what is reached, without bodies, in the crates below. An edit of which no more can be told rests on all of its crate, and
on all below but bodies. Comments count for nothing, nor does in which module of its crate something stands.

A line is written only by a run that saw the edit refused, where the sums were the same before and after. It ends with a mark, a sum of
the line: one without it is no run's, is told, and counts for nothing. What no sum shows: lemmas that nothing names but `search` finds,
and limits of time and memory.
"""
import collections
import functools
import hashlib
import os
import re
import subprocess

import wrong_bodies
from wrong_bodies import Crate, last_of, names_in, read_edits, text_of, write

RECORD = "gate/wrong-bodies/record.txt"
# What marks are made with. (It stays: with another, no line that there is would be a run's.)
MARKED = "wrong-bodies.tried"
# The lines of a file that say what its names mean.
MEANS = re.compile(r"(?m)^(?:(?:pub(?:\([\w ]+\))? |ghost )*(?:use|unfolding)\b.*(?:\n[ })].*)*|#!\[.*)$")
# The modules on the way to a name of a crate of the project, and to the function that an edit names.
MODULES = re.compile(r"\b(crate|Rattle\.\w+)((?:(?:\.|::)[a-z]\w*)+)(?=\.|::)")
PLACE = re.compile(r"(?m)^file: .*\n|(?<=^refuses: )(?:[a-z]\w*::)+")
# Where what a verdict rests on has changed.
CRATE, BELOW, NOWHERE = "crate", "below", ""


def without_bodies(crate):
    """Returns the texts by file of all that crates above may reach."""
    inside = {(it.file, at) for it in crate.functions.values() for at in range(it.opens + 1, it.ends)}
    code = {path: "\n".join(line for at, line in enumerate(lines) if (path, at) not in inside) for path, lines in crate.lines.items()}
    return {**code, **{it: text_of(f"{crate.folder}/{it}") for part in ("specs", "proofs") for it in crate.files(part, ".antt")}}


def whole(crate):
    """Returns the texts by file of all of a crate."""
    return {it: text_of(f"{crate.folder}/{it}") for part in ("src", "specs", "proofs") for it in crate.files(part, (".rt", ".antt"))}


def own_texts(crate, edit, known):
    """Returns the texts by file of the function that an edit names, of what is written of its proof, and of the bodies that the edit
    changes."""
    found = collections.defaultdict(str)
    for it in sorted((crate.functions[name] for name in {known.name, *edit.bodies} if name in crate.functions), key=lambda it: it.name):
        found[it.file] += "\n".join([*it.block, *crate.lines[it.file][it.begins : it.ends + 1]])
    for folder in crate.proofs_of(known.name):
        for at, _, names in os.walk(folder):
            found.update({os.path.relpath(f"{at}/{it}", crate.folder): text_of(f"{at}/{it}") for it in names})
    return found


def brought_by(crate, path):
    """Yields what the `use` lines and attributes of a file bring, one by one, each with its names and with its signs where it has
    no name; not what its crate brings under its own name, which is reached by that name."""
    modules = [it.split("/")[1].removesuffix(".rt") for it in crate.lines] if path == "src/lib.rt" else []
    own = re.compile(rf"(?:pub |ghost )*use (?:{'|'.join(['crate', rf'Rattle.{crate.name}', *modules])})\b")
    for line in MEANS.findall(text_of(f"{crate.folder}/{path}")):
        head, _, names = re.sub(r"\s+", " ", MODULES.sub(r"\1", line)).partition("{")
        parts = names.rpartition("}")[0].split(",") if names.count("{") == 0 else [names]
        for it in (it.strip() for it in parts if it.strip()) if names else [head]:
            said = names_in(it)
            if not own.match(head) or " as " in it:
                yield head + it if names else head, said, [] if said else [sign for sign in it.split("◌") if sign]


def code_of(path):
    """Returns the text of a file of Python without comments and descriptions."""
    return re.sub(r"(?m)^ *#.*\n", "", re.sub(r'(?ms)^ *""".*?"""\n', "", text_of(path)))


class Sums:
    """The sums of edits of a repository, of the texts as they stand."""

    def __init__(self, root, crates):
        self.root, self.crates = root, crates
        self.brought = functools.cache(lambda name, path: [*brought_by(self.known[name], path)])
        self.means, self.plain = functools.cache(self.means_of), functools.cache(without_places)
        told = subprocess.run(["rt", "version"], stdin=subprocess.DEVNULL, stdout=subprocess.PIPE, encoding="utf-8", check=True).stdout
        handles = text_of(f"{root}/HANDLES") if os.path.isfile(f"{root}/HANDLES") else ""
        # (a kit with another name and the same logic gives the same verdicts)
        self.version = re.sub(r"^\S+ (?=logic \w)", "", told) + code_of(wrong_bodies.__file__) + handles
        self.known = {name: Crate(f"{root}/crates/{name}") for name in crates}

    def rests_on(self, edit, crate, below):
        """Yields the files and texts on which the verdict on an edit rests in its crate and those below, crate by crate."""
        known = crate.functions.get(re.sub(r"\bfn::(\w+)::.*", r"\1", edit.function))
        if not known or edit.turned is None:
            yield crate.name, [*whole(crate).items()]
            yield from ((it.name, [*without_bodies(it).items()]) for it in below)
            return
        reached = reach_of(edit.reach | {f"fn {last_of(known.name)}"}, [crate, *below])
        for it in (crate, *below):
            found = [(path, "") for path in ("src/lib.rt", "src/main.rt") if path in it.lines]
            found += own_texts(crate, edit, known).items() if it is crate else []
            found += [text for name in sorted(reached & it.texts.keys()) for text in it.texts[name].items()]
            yield it.name, found + [(path, means) for path, text in found for means in self.means(it.name, path, text)]

    def means_of(self, name, path, text):
        """Returns what the `use` lines and attributes of a file bring of the names and signs of a text."""
        named = names_in(text)
        return [it for it, names, signs in self.brought(name, path)
                if "#!" in it or names & named or signs and all(sign in text for sign in signs)]

    def sum_of(self, edit, below, *more):
        """Returns the sum of an edit with its crate and those below."""
        crate = self.known[edit.label.split(" ")[0]]
        text = PLACE.sub("", text_of(f"{self.root}/crates/{edit.label.replace(' ', '/', 1)}"))
        lines = [line for name, texts in self.rests_on(edit, crate, [self.known[it] for it in below])
                 for line in [name, *sorted({self.plain(it) for _, it in texts})]]
        return hashlib.sha256("\0".join([self.version, *more, edit.label, text, *lines]).encode()).hexdigest()[:16]

    def of(self, edit):
        """Returns the two sums of an edit."""
        every = all_below(self.crates, [edit.label.split(" ")[0]])
        return self.sum_of(edit, []), self.sum_of(edit, every[:-1], repr([self.crates[it] for it in every]))


def all_below(crates, names):
    """Returns these crates and those on which they stand, lowest first, without the toolchain's."""
    needed, left = set(), [*names]
    while left:
        name = left.pop()
        if name in crates and name not in needed:
            needed.add(name)
            left += crates[name]
    return [it for it in crates if it in needed]


def reach_of(names, crates):
    """Returns all names that these reach through the crates."""
    left, reached = set(names), set()
    while left:
        name = left.pop()
        if name not in reached:
            reached.add(name)
            left.update(*(it.brings[name] for it in crates if name in it.brings))
    return reached


def without_places(text):
    """Returns a text without its comments, and without the modules on the way to names."""
    return MODULES.sub(r"\1", re.sub(r"(?m)^ *(?:--|//).*\n?", "", text))


def sums_of(root, crates, names):
    """Returns the two sums of each edit of these crates by its label, of the texts as they stand."""
    sums = Sums(root, crates)
    return {it.label: sums.of(it) for name in names for it in read_edits(sums.known[name])[0]}


def mark_of(label, sums):
    """Returns what ends a line that a run wrote."""
    return hashlib.sha256(f"{MARKED} {label} {' '.join(sums)}".encode()).hexdigest()[:8]


def read_record(root):
    """Returns the sums of the edits that were seen refused, by their labels, and the lines that no run wrote."""
    tried, others = {}, []
    for line in filter(None, text_of(f"{root}/{RECORD}").split("\n") if os.path.isfile(f"{root}/{RECORD}") else []):
        label, *sums, mark = line.rsplit(" ", 3)
        if len(sums) == 2 and mark == mark_of(label, sums):
            tried[label] = tuple(sums)
        else:
            others.append(line)
    return tried, others


def changes_of(sums, tried):
    """Returns where what the verdict on each edit rests on has changed, by its label."""
    was = {it: tried.get(it, ("", "")) for it in sums}
    return {it: CRATE if was[it][:1] != sums[it][:1] else BELOW if was[it] != sums[it] else NOWHERE for it in sums}


class Record:
    """What is noted of the edits of these crates, whose sums were these when the run began."""

    def __init__(self, root, crates, names, sums):
        self.root, self.crates, self.names, self.sums = root, crates, names, sums
        self.texts, self.verdicts = self.sum_of_texts(), {}

    def sum_of_texts(self):
        """Returns the sum of all from which sums are made."""
        folders = [f"{self.root}/crates/{name}/{part}" for name in self.crates for part in ("src", "specs", "proofs", "wrong-bodies")]
        files = sorted(f"{at}/{it}" for folder in folders for at, _, names in os.walk(folder) for it in names)
        files += [it for it in (f"{self.root}/crates.txt", f"{self.root}/HANDLES", wrong_bodies.__file__) if os.path.isfile(it)]
        return hashlib.sha256("\0".join(f"{it}\n{text_of(it)}" for it in files).encode()).hexdigest()

    def note(self, verdicts, untried=()):
        """Writes the lines of what was seen refused, where these sums, of before, still hold, and keeps those that still say something,
        but for edits that are to be tried first the next time."""
        self.verdicts.update(verdicts)
        now = self.sums if self.sum_of_texts() == self.texts else sums_of(self.root, self.crates, self.names)
        tried, _ = read_record(self.root)
        lines = {it: was for it, was in tried.items() if it.split(" ")[0] not in self.names}
        for it, change in changes_of(self.sums, tried).items():
            # (what has changed below is still so where it wasn't tried)
            refused = self.verdicts.get(it)
            line = self.sums[it] if refused else tried[it] if refused is None and change != CRATE and it not in untried else None
            if line and now.get(it) == self.sums[it]:
                lines[it] = line
        write(f"{self.root}/{RECORD}", "".join(f"{it} {' '.join(lines[it])} {mark_of(it, lines[it])}\n" for it in sorted(lines)))


def share_of(rounds, part, word):
    """Returns the labels of rounds that a word chooses, so many that they have one edit in so many at least."""
    wanted, found = -(-sum(map(len, rounds)) // part), set()
    for it in sorted(rounds, key=lambda it: hashlib.sha256(f"{word} {sorted(edit.label for edit in it)}".encode()).hexdigest()):
        if len(found) < wanted:
            found |= {edit.label for edit in it}
    return found
