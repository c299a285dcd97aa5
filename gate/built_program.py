"""The built program, or the one that a check's first word names, and cases of it that are played beside each other."""
import concurrent.futures
import os
import resource
import subprocess
import sys

from repository import ROOT
from counts import end

PROGRAM = sys.argv[1] if len(sys.argv) > 1 else f"{ROOT}/crates/smq/out/smq"
# More rows and octets than a script may have, and the memory in which they are played: sessions that are withdrawn
ROUNDS, ROUND, LITTLE = 1_200, 999, 64 << 20


def ran(words, script):
    """Returns the status, standard output and standard error."""
    ended = subprocess.run([PROGRAM, *words], input=script, capture_output=True, timeout=120, check=False)
    return ended.returncode, ended.stdout, ended.stderr


def ended_in(shell, script=b""):
    """Returns the same within a shell's line, in which the program is "$0"."""
    ended = subprocess.run(["sh", "-c", shell, PROGRAM], input=script, capture_output=True, timeout=120, check=False)
    return ended.returncode, ended.stdout, ended.stderr


def settings_beside(path):
    """Returns the words for the settings of the example with a script, if it has some."""
    settings = f"{os.path.dirname(path)}/settings.toml"
    return ["--settings", settings] if os.path.exists(settings) else []


def same(what, shown, right):
    return None if shown == right else f"{what}: {shown} for {right}"[:1000]


def past_the_limits(words, right, before=b"", after=b""):
    """What is wrong with 1,200,000 rows in some 300 MB, in little memory: pieces of a session that is withdrawn and comes again, with
    records before and after them."""
    rows = (b"piece,1,1,client,0," + b"0" * 236 + b"\n") * ROUND + b"withdraw,1\n"
    with subprocess.Popen([PROGRAM, *words], stdin=subprocess.PIPE, stdout=subprocess.PIPE, stderr=subprocess.PIPE,
                          preexec_fn=lambda: resource.setrlimit(resource.RLIMIT_AS, (LITTLE, LITTLE))) as child:
        try:
            for octets in (before, *[rows] * ROUNDS, after):
                child.stdin.write(octets)
            child.stdin.close()
        except BrokenPipeError:
            pass
        shown = child.wait(timeout=60), child.stdout.read(), child.stderr.read()
    return same(f"{' '.join(words)}: {ROUNDS * (ROUND + 1)} rows, {ROUNDS * len(rows)} octets", shown, right)


def play(cases):
    """Plays cases, each of which returns what is wrong with it, and prints that and the last line; returns the status."""
    with concurrent.futures.ThreadPoolExecutor(os.cpu_count()) as pool:
        return end(list(pool.map(lambda case: case(), cases)))
