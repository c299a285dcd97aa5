"""Copies of crates in which they are checked, over the libraries that were built of those below them."""
import functools
import os
import shutil
import subprocess
import sys

from record import all_below
from wrong_bodies import text_of, write

# What a check leaves for later ones.
KEPT = ("out/incremental", "out/rlib")


def read_crates(root):
    """Returns the crates of crates.txt in their order, each with what it stands on."""
    rows = (it.split("#")[0].partition(":") for it in text_of(f"{root}/crates.txt").split("\n"))
    return {head.split()[0]: below.split() for head, _, below in rows if head.strip()}


def link(source, target):
    """Links a file of kept work, which rattle never writes in place but for the moment of its last use."""
    try:
        if not source.endswith(".oantt"):
            raise OSError
        os.link(source, target)
    except OSError:
        shutil.copy2(source, target)


@functools.lru_cache(maxsize=None)
def stamps_of(root):
    """Returns what rt writes beside a library that it takes as built of the texts as they stand, by crate. Of an rt of another form
    there are none, and it builds the libraries anew."""
    names = "import sys; sys.path.insert(0, sys.argv[1]); import rtlib; [print(it.name, it.stamp()) for it in rtlib.crates_below(sys.argv[2])]"
    words = [sys.executable, "-B", "-c", names, os.path.dirname(os.path.realpath(shutil.which("rt"))), root]
    told = subprocess.run(words, stdin=subprocess.DEVNULL, stdout=subprocess.PIPE, encoding="utf-8", check=False)
    return dict(it.split() for it in told.stdout.splitlines()) if not told.returncode else {}


def put_libraries(root, crates, name, room, libraries):
    """Puts the libraries below a crate that rt ci built into a copy."""
    for it in all_below(crates, crates[name]):
        shutil.copytree(f"{libraries}/{it}.rlib", f"{room}/crates/{it}/out/rlib/{it}.rlib", copy_function=os.link, dirs_exist_ok=True)
        if it in stamps_of(root):
            write(f"{room}/crates/{it}/out/rlib/stamp", stamps_of(root)[it])


def copy_repository(root, crates, name, room):
    """Copies the crates, and of this one and those below it what earlier checks kept."""
    for file in ("crates.txt", "HANDLES"):
        if os.path.isfile(f"{root}/{file}"):
            shutil.copy2(f"{root}/{file}", room)
    needed = all_below(crates, [name])
    for crate in crates:
        kept = KEPT if crate in needed else ()
        for part in ("src", "specs", "proofs", *kept):
            if os.path.isdir(f"{root}/crates/{crate}/{part}"):
                how = link if part in kept else shutil.copy2
                shutil.copytree(f"{root}/crates/{crate}/{part}", f"{room}/crates/{crate}/{part}", copy_function=how)


def lacking(crates, names, libraries):
    """Returns one of these crates, or of those below them, that rt ci has not proved yet, if there is one."""
    return next((it for it in all_below(crates, names) if not os.path.exists(f"{libraries}/{it}.proved")), None)
