"""Wrong bodies: what an edit changes and what its function's proof reaches, which edits go together, and what a check says of them.

An edit is a file of lines: first 'refuses: module::Type::function' (as rt check prints it, without the crate's name),
then 'file: src/NAME.rt' or 'file: specs/NAME.antt' and pairs of 'old: TEXT', 'new: TEXT', each TEXT one line. An old text
stands exactly once in its file, as the pairs before it left that. 'file:' may come again.

Edits that don't meet are a round: they are applied together to a copy of the crate, and one `rt check --allow-holes` of the
named functions tries them all. An edit turns the function whose body it changes, and the definition of specs/, the type or the
constant whose lines it changes. A turned body matters to the proof of that function alone: others take from it its contract. So
two edits meet where they change or name one body, and where the function that one names reaches what the other turns, be it a
definition, a type or a constant. An edit of anything else (a contract, an attribute, a `use`) is a round of its own, and so is
an edit of specs/ that names a function with a body.

What a function reaches is taken widely, by bare names: those in its text and its impl block's head, in the edit's new lines, in
its answers and invariants, and in the lemma files that these name; and what each of these names brings, and so on to the end: a
definition its text; a type its declaration and derives and its impls of traits; a variant its type; a constant its value; a
function its signature and clauses, not its body; a lemma file its text; a name given by `as` what it stands for.

A further edit of one body may go into a round on a copy of the function, `F_2`, `F_3` .., which is appended to its file (so that
no line moves), within an impl block of its own, with a copy of its answers and invariants in which its name is changed. It is
then `F_2` that must be refused; if it isn't, the edit is tried alone in place. Of a function in an impl of a trait, of one that
calls itself, and of one whose closures have answers, no copies are made; nor of one with no body.

What the check says of the function that an edit names, and what is made of it:

  fn N::F: no holes                           a harmless edit, or a contract too weak: FAILED
  fn N::F: no proof: ..; `search` did not prove `GOAL`, `GOAL`
  fn N::F: no proof: ..; `search` did not prove `GOAL`; it calls `G`, which is not proved
                                              a wrong value or comparison: refused at these goals
  ./proofs/F/Answers.antt:8:13: error: `GOAL`: .. the two types differ ..
  fn N::F: not proved; it stands on `..F.Answers.GOAL`, which antt refuses
                                              an answer that was written for the right value: refused at this goal
  ./proofs/F/Answers.antt:8:13: error: `GOAL`: record .. has no field `NAME`
  ./proofs/F/Answers.antt:8:13: error: `GOAL`: .. module .. has no `GOAL` that can be named from here
  fn N::F: not proved; it stands on `..F.Answers.GOAL`, which antt refuses
                                              an answer (or an invariant) cites a name that the edit took away, be it a
                                              variable's or a goal's, which holds a condition's text: FAILED
  fn N::F: no proof: it calls `G`, which is not proved
  fn N::F: not proved; it stands on `..G.Answers.GOAL`, which antt refuses; it calls `G`, which is not proved
                                              stopped only by a callee: FAILED
  src/F.rt:35:27: error[unexpected-token], error[mismatched-types], error[unknown-name]: ..
                                              and no line of any function: the text is no program: FAILED

What FAILED among others is tried again without those that were refused (on a copy: alone in place), and by halves where none
was, so an edit is told as FAILED for what it does alone. Not told apart: a false goal, and a true one that `search` doesn't
find within its limits or whose written answer no longer fits (so a harmless `x * 1` for `x` may pass for a wrong body). Where
the check found values at which a goal is false, the edit's line says so. An edit of a contract is not noticed: make none.

It stands in one file although it is long: a change of its code has every edit tried again, so what judges is in it alone.
"""
import collections
import os
import re
import shutil
import subprocess

# label: the crate and file of the edit; function: the one that it names; lines: the new text by file and line; bodies: the
# functions whose bodies it changes, and that of the one it names; turned: the definitions, types and constants that it turns,
# or None where that can't be told; reach: the names that the proof of the one it names reaches; copy: where it is applied to,
# if not in place
Edit = collections.namedtuple("Edit", "label function lines bodies turned reach copy")
# A copy of a function. edit: its edit in place; file, text: what is appended to which file; proof: the folder of the function's
# proof, if it has one; folder: the copy's; names: a pattern of the function's name in it, and what stands for it in the copy's
Copy = collections.namedtuple("Copy", "edit file text proof folder names")
# A function of src/. name: as the check prints it; begins, head: the lines of its first comment or attribute, and of its name;
# opens, ends: those of its braces; block: the lines that open its impl block, with its `use` lines, if it has one
Function = collections.namedtuple("Function", "name file begins head opens ends block")
PLACES = ("src/", "specs/")
PROVED = ("no holes", "proved")
LOST_NAME = re.compile(r"has no field|is not in scope|has no `|was not admitted")
# The most memory, in octets, that a check of a crate has taken so far.
MEMORY = collections.Counter()
# What may stand before an item of src/ and above it, and how begin items, functions, impl blocks, and items with a name to turn.
BEFORE = r"(?:pub(?:\([\w ]+\))? )?"
ABOVE = re.compile(r" *(?:#\[|//)")
ITEM = re.compile(rf"#|//|{BEFORE}(?:ghost|unsafe|const|static|struct|enum|trait|type|fn|impl|mod|use)\b")
HEAD = re.compile(rf"( *){BEFORE}(?:const )?(?:unsafe )?fn (\w+)")
BLOCK = re.compile(rf"{BEFORE}(?:unsafe )?(?:impl(?:<.*?>)? |trait )(?:([\w:]+(?:<.*?>)?) for )?(\w+)")
NAMED = re.compile(rf"{BEFORE}(const|static|struct|enum|type) (\w+)")
# What stands between names, and how a definition begins.
SIGNS = re.compile(r"[^\w\-']+")
BEGINS = re.compile(r"(?:(?:abbrev|unfoldable|pub|record|data) )*([\w\-']+)")


class Unfit(Exception):
    """Why an edit cannot be applied."""


def text_of(path):
    with open(path, encoding="utf-8") as file:
        return file.read()


def write(path, text):
    with open(path, "w", encoding="utf-8") as file:
        file.write(text)


def texts_after(edit, folder):
    """Returns the function that the edit names, and the texts before and after it of the files that it changes."""
    path, old, function, before, after = None, None, None, {}, {}
    for line in edit.split("\n"):
        word, _, text = line.partition(":")
        text = text[1:] if text.startswith(" ") else text
        if word == "refuses":
            function = text.strip()
        elif word == "file":
            path = text.strip()
            if os.path.normpath(path) != path or not path.startswith(PLACES) or not os.path.isfile(f"{folder}/{path}"):
                raise Unfit(f"there is no file {path} in src/ or specs/")
            before.setdefault(path, text_of(f"{folder}/{path}"))
            after.setdefault(path, before[path])
        elif word == "old":
            if old is not None:
                raise Unfit(f"an 'old:' line has no 'new:' line: {old}")
            old = text
        elif word == "new":
            if not path or not old:
                raise Unfit("a 'new:' line has no 'file:' or no 'old:' line before it")
            if after[path].count(old) != 1:
                raise Unfit(f"an 'old:' text stands {after[path].count(old)} times in {path}, and not once: {old}")
            after[path], old = after[path].replace(old, text), None
        elif line:
            raise Unfit(f"a line is none of an edit: {line}")
    if old is not None:
        raise Unfit(f"an 'old:' line has no 'new:' line: {old}")
    if not function:
        raise Unfit("it has no 'refuses:' line")
    return function, before, after


def names_in(text):
    """Returns the names of a text, and 'proofs.NAME' for each lemma file that it names: not those in comments, nor those on the
    way to what is imported, but for what is made of a type."""
    text = re.sub(r"(?m)^ *(?:--|//).*$", "", text)
    lemmas = {f"proofs.{it}" for it in re.findall(r"\bproofs(?:(?:\.|::)[a-z]\w*)*(?:\.|::)([A-Z]\w*)", text)}
    text = re.sub(r"\bRattle\.\w+\.(?:specs\.(?!contracts\.|declared\.)|proofs\.)[\w\-'+.]*", "", text)
    return lemmas.union(it for it in SIGNS.split(text) if it)


def calls_in(text):
    """Returns the names of a text of src/ whose code runs, and 'fn NAME' for each, since it may be a function's."""
    names = names_in(text)
    return names.union(f"fn {it}" for it in names)


def blocks_of(path):
    """Yields the lines of a file's definitions, each with the definition's name and its place."""
    name = None
    for at, line in enumerate(text_of(path).split("\n")):
        if line and not line[0].isspace():
            begins = None if line.startswith(("use ", "--", "pub use ", "pub mod ", "module ", "unfolding ")) else BEGINS.match(line)
            name = begins[1] if begins else None
        if name:
            yield name, at, line


def last_of(path):
    return path.split("::")[-1]


def impl_name(trait, name):
    """Returns what the check calls an impl block of a type."""
    return name + "".join(last_of(it) for it in re.findall(r"[\w:]+", trait or ""))


def instance_of(line, name):
    """Returns what the check adds to the name of a type in whose impl block some parameters are fixed: `+K+u64` to `Kept<K, u64>`."""
    found = re.search(rf"impl<(.*?)> {name}<(.*)> \{{", line)
    words = re.findall(r"\w+", found[2]) if found else []
    return "".join(f"+{it}" for it in words) if found and not set(words) <= set(re.findall(r"\w+", found[1])) else ""


def module_of(path):
    """Returns the modules of a file of src/."""
    return [it for it in path[4:-3].split("/") if it not in ("lib", "main")]


def functions_in(path, lines, homes):
    """Yields the functions of a file of src/, as rt fmt lays it out, where these are the modules of the crate's types."""
    heads = [at for at, line in enumerate(lines) if HEAD.match(line)]
    for head, end in zip(heads, [*heads[1:], len(lines)]):
        indent, name = HEAD.match(lines[head]).groups()
        opening = re.compile(indent + r"(\{|\).* \{|\S.*\bfn .* \{|fn .* \{)")
        opens = next((at for at in range(head, end) if opening.fullmatch(lines[at])), None)
        # (a law, and a trait's function, has no body)
        ends = next((at for at in range(opens or head, end) if re.fullmatch(indent + r"(\}|\{\})", lines[at])), head)
        begins = head
        while begins and ABOVE.match(lines[begins - 1]):
            begins -= 1
        block, module = [], module_of(path)
        if indent:
            first = next(at for at in range(head, -1, -1) if BLOCK.match(lines[at]))
            inner = next(at for at in range(first, head) if lines[at].endswith("{")) + 1
            block = lines[first:inner] + [it for it in lines[inner:head] if re.match(" *(?:ghost )?use ", it)]
            # (a method of a type has the name of the type's module, wherever its impl block stands)
            trait, of_type = BLOCK.match(lines[first]).groups()
            module = [*homes.get(of_type, module), impl_name(trait, of_type) + instance_of(lines[first], of_type)]
        yield Function("::".join([*module, name]), path, begins, head, ends if opens is None else opens, ends, block)


class Crate:
    """The functions of a crate, and what names bring with them."""

    def __init__(self, folder):
        self.folder, self.name = folder, os.path.basename(folder)
        self.functions, self.at, self.brings, self.lines = {}, {}, collections.defaultdict(set), {}
        # what brings it, as it is written, by name and file
        self.texts = collections.defaultdict(lambda: collections.defaultdict(str))
        for path in self.files("specs", ".antt"):
            for name, place, line in blocks_of(f"{folder}/{path}"):
                self.brings[name] |= names_in(line)
                self.texts[name][path] += f"{line}\n"
                self.at[path, place] = name
        for path in self.files("proofs", ".antt"):
            # (lemma files, in the folders of rooms too; what is written of one function's proof is read with it)
            name = os.path.basename(path)[:-5]
            if name not in ("Answers", "Invariants", "Proof"):
                self.brings[f"proofs.{name}"] |= names_in(text_of(f"{folder}/{path}"))
                self.texts[f"proofs.{name}"][path] += text_of(f"{folder}/{path}")
        for path in self.files("src", ".rt"):
            self.lines[path] = text_of(f"{folder}/{path}").split("\n")
        types = {it[2]: module_of(path) for path, lines in self.lines.items() for it in map(NAMED.match, lines) if it and it[1] != "const"}
        for path in self.lines:
            self.read_items(path, self.lines[path])
            for it in functions_in(path, self.lines[path], types):
                self.functions[it.name] = it
                head = "\n".join([*it.block, *self.lines[path][it.head : it.opens]])
                self.brings[f"fn {last_of(it.name)}"] |= names_in(head)
                self.texts[f"fn {last_of(it.name)}"][path] += f"{head}\n"
        for part, ending in (("src", ".rt"), ("specs", ".antt"), ("proofs", ".antt")):
            for path in self.files(part, ending):
                for use in re.findall(r"(?m)^ *(?:pub |ghost )*use .*", text_of(f"{folder}/{path}")):
                    for name, alias in re.findall(r"([\w\-']+) as ([\w\-']+)", use):
                        self.brings[alias].add(name)

    def read_items(self, path, lines):
        """Reads what types, their impls of traits, and constants bring."""
        inside = {at for it in functions_in(path, lines, {}) for at in range(it.opens + 1, it.ends)}
        firsts = [at for at, line in enumerate(lines) if ITEM.match(line) and not ABOVE.match(lines[at - 1])]
        for first, end in zip(firsts, [*firsts[1:], len(lines)]):
            head = next((at for at in range(first, end) if not ABOVE.match(lines[at])), first)
            named, block, text = NAMED.match(lines[head]), BLOCK.match(lines[head]), "\n".join(lines[first:end])
            if named:
                kind, name = named.groups()
                self.brings[name] |= calls_in(text)
                self.texts[name][path] += f"{text}\n"
                self.at.update({(path, at): name for at in range(head, end)})
                traits = re.findall(r"\w+", " ".join(re.findall(r"#\[derive\((.*?)\)\]", text)))
                # (a variant brings its type, and so does what proofs call the type's impl of a trait)
                for it in [name + it for it in traits] + re.findall(r"(?m)^    ([A-Z]\w*)", text if kind == "enum" else ""):
                    self.brings[it].add(name)
            elif block and block[1]:
                self.brings[block[2]] |= names_in(text)
                # (of a function the head: from a body nobody takes anything)
                self.texts[block[2]][path] += "\n".join(lines[at] for at in range(first, end) if at not in inside) + "\n"
                self.brings[impl_name(*block.groups())].add(block[2])

    def files(self, part, ending):
        for at, _, names in os.walk(f"{self.folder}/{part}"):
            yield from (os.path.relpath(f"{at}/{it}", self.folder) for it in names if it.endswith(ending))

    def body_at(self, path, place):
        """Returns the function whose body has the line, or None."""
        return next((it.name for it in self.functions.values() if it.file == path and it.opens < place < it.ends), None)

    def proofs_of(self, function):
        """Returns the folders of what is written of a function's proof."""
        above, _, name = function.replace("::", "/").rpartition("/")
        folders = (f"{self.folder}/proofs/{above}/{it}" for it in (name, f"+{name}", f"fn/{name}"))
        return [it for it in folders if os.path.isdir(it)]

    def calls_itself(self, known):
        name, body = last_of(known.name), "\n".join(self.lines[known.file][known.opens : known.ends])
        is_seen = re.search(rf"(?<![\w.:]){name}\(|\b(?:self\.|Self::){name}\(", body)
        return bool(is_seen) or any(os.path.basename(it).startswith("+") for it in self.proofs_of(known.name))

    def proof_of(self, known):
        """Returns the names in a function and in what is written of its proof."""
        names = calls_in("\n".join([*known.block, *self.lines[known.file][known.begins : known.ends + 1]]))
        for folder in self.proofs_of(known.name):
            for at, _, files in os.walk(folder):
                names |= {name for it in files for name in names_in(text_of(f"{at}/{it}"))}
        return names

    def reach_of(self, known, lines):
        """Returns the names that a function's proof reaches with these lines of an edit."""
        left, reached = self.proof_of(known) | calls_in("\n".join(lines)), set()
        while left:
            name = left.pop()
            if name not in reached:
                reached.add(name)
                left |= self.brings.get(name, set())
        return reached

    def copy_of(self, edit, number):
        """Returns the edit as that of a copy of its function, or None where there can be none."""
        known, name = self.functions.get(edit.function), last_of(edit.function)
        is_of_type = known and all(it.startswith("impl") and not BLOCK.match(it)[1] for it in known.block[:1])
        if not is_of_type or edit.turned != set() or edit.bodies != {known.name}:
            return None
        source, proofs = "\n".join(self.lines[known.file]), self.proofs_of(known.name)
        has_closures = any("/fn/" in it for it in proofs)
        if known.opens == known.ends or has_closures or f"{name}_{number}" in source:
            return None
        if self.calls_itself(known) or "#[cycle" in source:
            return None
        lines = [edit.lines.get((known.file, at), self.lines[known.file][at]) for at in range(known.begins, known.ends + 1)]
        text = re.sub(rf"\bfn {name}\b", f"fn {name}_{number}", "\n".join(lines), count=1)
        text = "\n".join(["", *known.block, text, *("}" for _ in known.block[:1]), ""])
        function, path = f"{known.name}_{number}", re.escape(known.name.replace("::", "."))
        names = rf"\b(Rattle\.{self.name}\.(?:proofs|specs\.contracts)\.{path})(?![\w\-'])", rf"\1_{number}"
        copy = Copy(edit, known.file, text, "".join(proofs), f"proofs/{function.replace('::', '/')}", names)
        return edit._replace(function=function, lines={}, bodies={function}, copy=copy)


def read_edit(label, file, crate):
    function, before, after = texts_after(text_of(file), crate.folder)
    # (a closure's name has that of the function in whose body it stands)
    known = crate.functions.get(re.sub(r"\bfn::(\w+)::.*", r"\1", function))
    lines, bodies, turned = {}, {known and known.name}, set()
    for path in after:
        # (each text is one line, so an edit moves no line)
        was, now = before[path].split("\n"), after[path].split("\n")
        for at in (at for at in range(len(was)) if was[at] != now[at]):
            lines[path, at] = now[at]
            home = crate.body_at(path, at)
            (bodies if home else turned).add(home or crate.at.get((path, at)))
    if not lines:
        raise Unfit("it changes nothing")
    # (of a function that calls others the check also tells the lemmas on which these stand)
    is_told = known and None not in turned and (known.opens == known.ends or not any(path.startswith("specs/") for path, _ in lines))
    reach = crate.reach_of(known, lines.values()) if known else None
    return Edit(label, function, lines, bodies, turned if is_told else None, reach, None)


def read_edits(crate):
    """Returns the edits of a crate, and a line for each file that is none."""
    edits, unfit = [], []
    for file in sorted(it for it in os.listdir(f"{crate.folder}/wrong-bodies") if not it.endswith(".md")):
        label = f"{crate.name} wrong-bodies/{file}"
        try:
            if not file.endswith(".edit"):
                raise Unfit("its name does not end in .edit")
            edits.append(read_edit(label, f"{crate.folder}/wrong-bodies/{file}", crate))
        except (Unfit, OSError, UnicodeDecodeError) as why:
            unfit.append(f"{label}: FAILED: {why}")
    return edits, unfit


def goes_with(edit, other):
    """Whether the two may be applied together."""
    if edit.turned is None or other.turned is None or edit.bodies & other.bodies or edit.lines.keys() & other.lines.keys():
        return False
    return not edit.turned & other.reach and not other.turned & edit.reach


def put_copy(folder, copy):
    """Appends a copy of a function to its file, and copies its proof."""
    write(f"{folder}/{copy.file}", text_of(f"{folder}/{copy.file}") + copy.text)
    if copy.proof:
        shutil.copytree(copy.proof, f"{folder}/{copy.folder}")
        for file in (f"{folder}/{copy.folder}/{it}" for it in os.listdir(copy.proof)):
            write(file, re.sub(*copy.names, text_of(file)))


def check(folder, edits):
    """Returns what a check of the functions that these edits name says of the copy with them, and leaves the copy as it was."""
    copies = [it.copy for it in edits if it.copy]
    paths = {path for edit in edits for path, _ in edit.lines} | {it.file for it in copies}
    texts = {path: text_of(f"{folder}/{path}") for path in paths}
    for path, text in texts.items():
        lines = text.split("\n")
        for edit in edits:
            for at in (at for file, at in edit.lines if file == path):
                lines[at] = edit.lines[path, at]
        write(f"{folder}/{path}", "\n".join(lines))
    for copy in copies:
        put_copy(folder, copy)
    named = [word for function in dict.fromkeys(it.function for it in edits) for word in ("--only", function)]
    # (a crate's check, for which others wait, comes before a round, for which none does)
    words = ["nice", "-n", "5", "rt", "check", "--jobs", "1", "--allow-holes", *named]
    how = {"stdin": subprocess.DEVNULL, "stdout": subprocess.PIPE, "stderr": subprocess.STDOUT}
    with subprocess.Popen(words, cwd=folder, encoding="utf-8", errors="replace", **how) as ran:
        said = ran.stdout.read()
        _, status, used = os.wait4(ran.pid, 0)
        ran.returncode = os.waitstatus_to_exitcode(status)
    name = os.path.basename(folder)
    MEMORY[name] = max(MEMORY[name], 1024 * used.ru_maxrss)
    for path, text in texts.items():
        write(f"{folder}/{path}", text)
    for copy in copies:
        shutil.rmtree(f"{folder}/{copy.folder}", ignore_errors=True)
    return said


def functions_of(name, said):
    """Returns what a check said of each function."""
    return dict(re.findall(rf"(?m)^fn {name}::(\S+): (.*)$", said))


def verdict(name, edit, said):
    """Returns whether what a check said refuses the function that the edit names, and at which goals, or why not."""
    function = edit.function
    functions = functions_of(name, said)
    if not functions:
        error = re.search(r"(?m)^\S+:\d+:\d+: error.*$", said)
        return False, f"no function was checked: {error[0] if error else said[-200:].strip()}"
    if function not in functions:
        return False, f"the check names no function {function}"
    if functions[function].startswith(PROVED):
        return False, "it is still proved"
    # (a function that calls itself has its proof in a folder whose name begins with +)
    folder = re.sub(r"(\w+)$", r"\\+?\1", re.escape(function.replace("::", "/")))
    errors = re.findall(rf"(?m)^(?:\./)?proofs/{folder}/\w+\.antt:\d+:\d+: error: (.*)$", said)
    lost = next((it for it in errors if LOST_NAME.search(it)), None)
    if lost:
        return False, f"its proof cites a name that the edit took away: {lost[:200]}"
    refused = re.search(r"did not prove ((?:`[^`]+`(?:, )?)+)", functions[function])
    goals = re.findall(r"`([^`]+)`", refused[1]) if refused else []
    goals += [it.split("`")[1] for it in errors if it.startswith("`")]
    is_law = "laws" in function.split("::")
    if not goals and (is_law and edit.turned or any(path.startswith("specs/") for path, _ in edit.lines)):
        # (the lemmas on which the function's proof stands speak of the turned definition or, of a law, which calls nothing, type)
        stands = re.search(r"it stands on ((?:`[^`]+`(?:, )?)+), which antt refuses", functions[function])
        lemmas = [it.split(".")[-1] for it in re.findall(r"`([^`]+)`", stands[1])] if stands else []
        told = {it: re.search(rf"(?m)^(?:\./)?proofs/\S+\.antt:\d+:\d+: error: `{re.escape(it)}`.*$", said) for it in lemmas}
        goals = [it for it, error in told.items() if error and not LOST_NAME.search(error[0])]
    if not goals:
        return False, f"no goal of its own is refused: {functions[function][:200]}"
    is_false = [it for it in goals if re.search(rf"(?m)^note: `{re.escape(it)}` of proofs/{folder}/\S+ may be false", said)]
    return True, "refused at " + ", ".join(dict.fromkeys(goals)) + (" (false at values that the check found)" if is_false else "")


def judge(name, folder, edits):
    """Returns the verdict on each edit by its label. What is not refused among others is tried again among fewer."""
    said = check(folder, edits)
    found = {it.label: verdict(name, it, said) for it in edits}
    failed = [it for it in edits if not found[it.label][0]]
    parts = [[it.copy.edit] for it in failed if it.copy]
    left, half = [it for it in failed if not it.copy], len(edits) // 2
    if left and len(edits) > 1:
        parts += [left] if len(left) < len(edits) else [edits[:half], edits[half:]]
    for part in parts:
        found.update(judge(name, folder, part))
    return found


def judge_unedited(name, folder, copies):
    """Returns of each copy, by its label, whether it is proved."""
    said = check(folder, copies)
    told = {it.label: functions_of(name, said).get(it.function, said[-300:].strip()) for it in copies}
    return {label: (it.startswith(PROVED), it) for label, it in told.items()}
