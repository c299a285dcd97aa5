"""Runs a program with memory or threads refused to it (gate/out_of_memory.c, which `cc` compiles)."""
import collections
import os
import struct
import subprocess
import tempfile

from repository import ROOT

# as many calls as gate/out_of_memory.c counts apart
CALLS = 32

# How many allocations and starts of threads were counted, and of each call how often it began, how many of both it asked for, how many
# of them were refused, and how often it told so
Counts = collections.namedtuple("Counts", "memory threads calls")


def library_in(folder):
    """Compiles the library into a folder, and returns its path."""
    library = f"{folder}/refuse.so"
    subprocess.run(["cc", "-shared", "-fPIC", "-O1", "-o", library, f"{ROOT}/gate/out_of_memory.c", "-ldl"], check=True)
    return library


def ran(library, command, script=b"", **refused):
    """A run's status, standard output and standard error, and its counts."""
    with tempfile.TemporaryDirectory() as made:
        counts = f"{made}/counts"
        # (a pipe would be read in pieces of any size, and each time into other allocations)
        for path, octets in ((counts, bytes(8 * (2 + 4 * CALLS))), (f"{made}/script", script)):
            with open(path, "wb") as file:
                file.write(octets)
        with open(f"{made}/script", "rb") as file:
            child = subprocess.run(command, stdin=file, stdout=subprocess.PIPE, stderr=subprocess.PIPE, timeout=60,
                                   env={**os.environ, "LD_PRELOAD": library, "REFUSE_COUNTS": counts,
                                        **{f"REFUSE_{name.upper()}": str(number) for name, number in refused.items()}})
        with open(counts, "rb") as told:
            memory, threads, *each = struct.unpack(f"={2 + 4 * CALLS}Q", told.read())
    return (child.returncode, child.stdout, child.stderr), Counts(memory, threads, list(zip(*[iter(each)] * 4)))
