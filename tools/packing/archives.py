"""Archives that are the same to the octet wherever they are made of the same files."""
import gzip
import io
import os
import tarfile


def packed(octets):
    """Returns what gzip makes of octets."""
    out = io.BytesIO()
    with gzip.GzipFile(filename="", fileobj=out, mode="wb", mtime=0) as file:
        file.write(octets)
    return out.getvalue()


def tarball(files, moment, links=(), folders=()):
    """Returns the octets of a tar, packed. files: by path octets, and whether they can be run; links: by path where they lead."""
    out, links = io.BytesIO(), dict(links)
    with tarfile.open(fileobj=out, mode="w", format=tarfile.USTAR_FORMAT) as tar:
        kinds = {**dict.fromkeys(folders, tarfile.DIRTYPE), **dict.fromkeys(files, tarfile.REGTYPE), **dict.fromkeys(links, tarfile.SYMTYPE)}
        for path in sorted(kinds):
            octets, is_run = files.get(path, (b"", True))
            entry = tarfile.TarInfo(path)
            entry.type, entry.linkname, entry.uname, entry.gname = kinds[path], links.get(path, ""), "root", "root"
            entry.size, entry.mtime, entry.mode = len(octets), moment, 0o777 if path in links else 0o755 if is_run else 0o644
            tar.addfile(entry, io.BytesIO(octets))
    return packed(out.getvalue())


def folders_of(paths):
    """Returns the folders above paths."""
    found = set()
    for path in paths:
        while path := os.path.dirname(path):
            found.add(path)
    return found


def debian(control, files, links, moment):
    """Returns the octets of a Debian package: an ar of the format's number, and tars of what dpkg reads, and of what it installs."""
    control, files, links = ({f"./{path}": it for path, it in some.items()} for some in (control, files, links))
    parts = tarball(control, moment, folders=["./"]), tarball(files, moment, links, [f"{it}/" for it in folders_of([*files, *links])])
    out = b"!<arch>\n"
    for name, octets in zip(("debian-binary", "control.tar.gz", "data.tar.gz"), (b"2.0\n", *parts)):
        out += f"{name:16}{moment:<12}{0:<6}{0:<6}{'100644':8}{len(octets):<10}`\n".encode() + octets + b"\n" * (len(octets) % 2)
    return out
