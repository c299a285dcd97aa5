"""An ELF program: what it needs, and what of it is loaded."""
import re
import struct

from packing.unfit import Unfit

MACHINES = {62: "x86_64", 183: "aarch64"}
# The flag of a section that is loaded, and the type of a table of names
LOADED, NAMES = 2, 3
SECTION, SEGMENT = struct.Struct("<IIQQQQIIQQ"), struct.Struct("<IIQQQQQQ")


def needs_of(program):
    """Returns the machine of an ELF program, and the version of the C library that it needs, if it does."""
    if program[:6] != b"\x7fELF\2\1":
        raise Unfit("the program is no ELF file of 64 bits")
    machine = int.from_bytes(program[18:20], "little")
    versions = {tuple(int(it) for it in found.split(b".")) for found in re.findall(rb"GLIBC_([0-9.]+)\0", program)}
    newest = ".".join(map(str, max(versions))) if versions else None
    return MACHINES.get(machine, f"machine{machine}"), newest


def stripped(program):
    """Returns the program without what isn't loaded, as symbols. (strip would do, but each version of it as it likes.)"""
    segments_at, sections_at, segments, sections, names_at = struct.unpack_from("<32xQQ8xH2xHH", program)
    loads = [SEGMENT.unpack_from(program, segments_at + SEGMENT.size * it) for it in range(segments)]
    heads = [SECTION.unpack_from(program, sections_at + SECTION.size * it) for it in range(sections)]
    count = sum(1 for it in heads if it[2] & LOADED)
    # (they name each other by number, so none may come before them)
    if not all(it[2] & LOADED for it in heads[1 : count + 1]):
        raise Unfit("sections that aren't loaded stand between those that are")
    end = max(offset + size for kind, _, offset, _, _, size, _, _ in loads)
    names, kept = b"\0", [heads[0]]
    for head in heads[1 : count + 1]:
        at = heads[names_at][4] + head[0]
        kept.append((len(names), *head[1:]))
        names += program[at : program.index(b"\0", at) + 1]
    names += b".shstrtab\0"
    kept.append((len(names) - 10, NAMES, 0, 0, end, len(names), 0, 0, 1, 0))
    octets = program[:end] + names
    octets += bytes(-len(octets) % 8)
    head = octets[:40] + struct.pack("<Q", len(octets)) + octets[48:60] + struct.pack("<HH", len(kept), count + 1)
    return head + octets[64:] + b"".join(SECTION.pack(*it) for it in kept)
