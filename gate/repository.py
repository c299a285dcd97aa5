"""The repository's folders. What imports this first finds the modules of tools/lib, too."""
import glob
import os
import sys

ROOT = os.path.dirname(os.path.dirname(os.path.abspath(__file__)))
TOOLS = f"{ROOT}/tools"
# (behind the check's own folder, so that nothing of the host's comes before)
sys.path.insert(1, TOOLS)


def example_paths(name):
    """Returns the paths of the files that are so named in examples/ and tests/cases/, by the names of their folders there."""
    found = [it for room in ("examples", "tests/cases") for it in glob.glob(f"{ROOT}/{room}/{name}")]
    return sorted(found, key=lambda it: it.split("/")[-2:])
