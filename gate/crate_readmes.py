"""What a crate's README says of the crate, compared with it: its calls and their clauses, what other crates cite of its proofs, and paths."""
import collections
import re

TABLE = re.compile(r"^\| Promise \|.*\n\|[-|]+\n((?:\|.*\n)+)", re.M)
HEAD = re.compile(r"^( *)(?:pub(?:\([\w ]+\))? )?(?:const )?fn (\w+)")
OWNER = re.compile(r"^(?:pub(?:\([\w ]+\))? )?(?:impl(?:<[^\n]*?>)? (?:[^\n{]*? for )?|trait )(\w+)")
CLAUSE = re.compile(r"^ *ensures\*?(?: (\w+))? \{")
CALLS = re.compile(r"(?:(\w+)::)?(?:\{([\w, ]+)\}|(\w+))")
# in definitions and proofs as `Rattle.smq_kit.proofs.Ordered.{..}`, in code as `smq_kit::proofs::Ordered::name`
CITED = re.compile(r"\b(smq_\w+)(?:\.|::)(proofs|specs(?:\.|::)within)((?:(?:\.|::)\w+)+)")
OTHERS = "## For other crates' proofs\n"
OWN_PATH = re.compile(r"`((?:src|specs|proofs)/[\w/.-]+)`")


def clauses_of(sources):
    """Returns the names of each call's clauses, by the call; None is that of one that has no name."""
    found = collections.defaultdict(set)
    for text in sources:
        owner = call = None
        for line in text.splitlines():
            if line.startswith("}"):
                owner = call = None
            owner = it[1] if (it := OWNER.match(line)) else owner
            if it := HEAD.match(line):
                call = f"{owner}::{it[2]}" if it[1] and owner else it[2]
                found[call].update()
            if call and (it := CLAUSE.match(line)):
                found[call].add(it[1])
    return found


def calls_in(cell):
    for quoted in re.findall(r"`([^`]+)`", cell):
        owner, several, one = CALLS.fullmatch(quoted).groups() if CALLS.fullmatch(quoted) else (None, None, quoted)
        yield from (f"{owner}::{it}" if owner else it for it in (several or one).split(", "))


def promises_missing(text, clauses):
    """Yields what is wrong of the promises of a README, whose last two columns are calls and clauses: – stands for one without a name."""
    for row in "".join(TABLE.findall(text)).splitlines():
        _, calls, told = row.strip("| ").rsplit("|", 2)
        calls, names = list(calls_in(calls)), set(re.findall(r"`(\w+)`", told)) | ({None} if "–" in told else set())
        yield from (f"it has no call `{it}`" for it in calls if it not in clauses)
        yield from (f"`{it}` has none of the clauses of its row" for it in calls if it in clauses and not clauses[it] & names)
        yield from (f"no call of its row has the clause {it or '–'}" for it in names if not any(it in clauses.get(call, ()) for call in calls))


def cited_of(texts):
    """Returns the files of proofs/ and specs/within/ that other crates cite, by crate: each as its folder and its name."""
    cited = collections.defaultdict(set)
    for path, text in texts.items():
        for crate, folder, names in CITED.findall(text):
            if path.split("/")[1] != crate:
                cited[crate].add((re.sub(r"\.|::", "/", folder), re.findall(r"\b[A-Z]\w*", names)[-1]))
    return cited


def cited_missing(text, cited):
    """Yields what is wrong of a README's part for the proofs of other crates: it names exactly the files that they cite."""
    named = set(re.findall(r"`([A-Z]\w*)`", text.partition(OTHERS)[2]))
    yield from (f"it doesn't name `{name}` of {folder}/, which another crate cites" for folder, name in sorted(cited) if name not in named)
    yield from (f"it names `{it}`, which no other crate cites" for it in sorted(named - {name for _, name in cited}))


def readme_faults(crate, text, clauses, cited, files):
    """Yields what is wrong of a crate's README, by the clauses of its calls, what others cite of it, and the paths of its files."""
    yield from promises_missing(text, clauses)
    yield from cited_missing(text, cited)
    yield from (f"{it} isn't there" for it in OWN_PATH.findall(text) if not any(file.startswith(f"crates/{crate}/{it}") for file in files))
