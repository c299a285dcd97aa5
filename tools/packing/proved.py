"""What the gate said of the tree of which a program was built."""
import re

from packing.unfit import Unfit

CRATE = re.compile(r"rt: (\w+) (proved|is kept: .*)")
LAST, TOOK, TREE = re.compile(r"\d+ passed, 0 failed"), re.compile(r"test: \d+ min \d+ s"), re.compile(r"test: tree .*")
HEAD = """What ./test or rt ci printed of the tree of which {version} was built: of each crate what was proved, and last how much passed.

"""


def told(path, version):
    """Returns of a log of ./test or rt ci what was proved of each crate, the tree where that is named, and the last line, which says that nothing
    failed."""
    with open(path, encoding="utf-8", errors="replace") as file:
        lines = file.read().splitlines()
    if not lines or not LAST.fullmatch(lines[-1]):
        raise Unfit(f"{path} doesn't end with a line that says 0 failed")
    found, proved = {}, ""
    for line in lines:
        crate = CRATE.fullmatch(line)
        if line.startswith("logic=proved "):
            proved = line
        elif crate:
            found[crate[1]], proved = f"{crate[1]}: {proved if crate[2] == 'proved' and proved else crate[2]}", ""
    if not found:
        raise Unfit(f"{path} doesn't say of any crate that it is proved")
    ends = [*filter(TREE.fullmatch, lines), *filter(TOOK.fullmatch, lines[-2:-1]), lines[-1]]
    return HEAD.format(version=version) + "".join(f"{it}\n" for it in (*found.values(), "", *ends))
