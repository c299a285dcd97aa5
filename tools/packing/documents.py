"""Documents of a package, whose commands are those that it has."""
import re

from packing.unfit import Unfit

DOCUMENTS = "/usr/share/doc/smq"
PROGRAM = re.compile(r"(?<![\w./])((?:\.\./)+|\./)(?:run|try)(?![\w/-])")
# What of a document is of the repository, and what stands there in a Debian package: in the archive nothing does
PARTS = {
    "README.md": ((r"You need `rt`, [^.]*\. ", ""), (r"^- `\./try` (?:.*\n  )*.*\n- `\./run` (?:.*\n  )*.*\n- `\./test` (?:.*\n  )*.*\n\n", ""),
                  (r"^## Where things are\n[^\0]*\Z", """## Where things are

Each command has a manual page, as smq(1). /etc/smq has settings, names, routes, prices and alerts to begin with. The unit `smq-live`
writes a page of the last minutes, once it is enabled (examples/live). docs/FORMATS.md has each format. No licence has been
chosen yet (copyright).
""")),
    "docs/GUIDE.md": ((r" Commands are given at the top [^.]*\.", ""), (r"^docs/BILLION\.md says .*\n\n", "")),
    "examples/month/Makefile": ((r"^SMQ \?= .*\nTOOLS \?= .*\n", "SMQ ?= /usr/bin/smq\n"),),
    "examples/month/make-days": ((r"^tools=.*\n", ""),),
    "examples/month/README.md": ((r"^(?=```sh\n\./make-days)", "In a folder of yours, with a copy of this one and of ../kannel-six-links:\n\n"),),
}


def for_archive(path, text):
    """Returns the text of a document for a folder that has the program beside README.md."""
    return PROGRAM.sub(r"\1smq", without_parts(path, text, lambda there: ""))


def for_debian(path, text, tools):
    """Returns the text of a document, or of a tool, for a host that has the program and the tools on its path. What is at the top, or in docs/,
    may be followed in any folder: examples and the schema have their paths there."""
    text = PROGRAM.sub("smq", without_parts(path, text, lambda there: there))
    text = re.sub(rf"(?<![\w/])(?:tools|\$\(TOOLS\)|\"\$tools)/({'|'.join(tools)})(?![\w-])\"?", r"smq-\1", text)
    return text if path.startswith("examples/") else re.sub(r"(?<![\w./])(?=examples/\w|docs/schema\.sql)", f"{DOCUMENTS}/", text)


def without_parts(path, text, put):
    """Returns the text of a document with what is put in the place of its parts that are of the repository."""
    for part, there in PARTS.get(path, ()):
        text, count = re.subn(part, put(there), text, flags=re.M)
        if count != 1:
            raise Unfit(f"{path}: {part!r} is there {count} times")
    return text
