"""Builds a program over the libraries of this repository, in a repository of its own, and runs it."""
import os
import shutil
import subprocess
import sys

ROOT = os.path.dirname(os.path.dirname(os.path.abspath(__file__)))


def crates_below(libraries):
    """The repository's crates that a program over these stands on, each with its line of crates.txt."""
    lines = {}
    with open(os.path.join(ROOT, 'crates.txt')) as listed:
        for line in listed:
            head, colon, _ = line.partition('#')[0].partition(':')
            if colon:
                lines[head.split()[0]] = line
    found, wanted = {}, list(libraries)
    while wanted:
        name = wanted.pop()
        if name in lines and name not in found:
            found[name] = lines[name]
            wanted += lines[name].partition('#')[0].partition(':')[2].split()
    return found


def build(folder, name, libraries, words):
    """Proves and builds the program bench/NAME.rt.txt in a repository there, over the work that the crates keep, and gives its
    path. `rt run` also runs the program, with these words."""
    crates, crate = crates_below(libraries), 'bench_' + name
    for each in crates:
        shutil.copytree(os.path.join(ROOT, 'crates', each), os.path.join(folder, 'crates', each), symlinks=True)
    shutil.copy(os.path.join(ROOT, 'HANDLES'), folder)
    with open(os.path.join(folder, 'crates.txt'), 'w') as listed:
        listed.writelines(crates.values())
        listed.write('%s: %s\n' % (crate, ' '.join(libraries)))
    own = os.path.join(folder, 'crates', crate)
    os.makedirs(os.path.join(own, 'src'))
    shutil.copy(os.path.join(ROOT, 'bench', name + '.rt.txt'), os.path.join(own, 'src', 'main.rt'))
    print('proving and building; some minutes where the crates keep their proofs', file=sys.stderr)
    made = subprocess.run(['rt', 'run', '--jobs', '1', '--', *words], cwd=own, stdin=subprocess.DEVNULL, stdout=subprocess.PIPE,
                          stderr=subprocess.STDOUT, text=True, errors='replace')
    if made.returncode != 0:
        sys.exit(made.stdout)
    return os.path.join(own, 'out', crate)


def ran(program, words):
    """What a run prints, and its seconds of processor."""
    child = subprocess.Popen([program, *map(str, words)], stdout=subprocess.PIPE)
    printed = child.stdout.read()
    _, status, usage = os.wait4(child.pid, 0)
    if os.waitstatus_to_exitcode(status) != 0:
        sys.exit('%s: status %d, %s' % (words, status, printed))
    return printed, usage.ru_utime + usage.ru_stime


def least(runs, rows, measure):
    """The least measure of each row, of so many in turns."""
    best = {}
    for _ in range(runs):
        for row in rows:
            took = measure(row)
            best[row] = min(took, best.get(row, took))
    return best
