"""A Debian package: its files by path, and its control files."""
import datetime
import hashlib
import os
import re
import textwrap

from packing import archives, completions, documents, manual, words
from packing.elf import stripped
from packing.unfit import Unfit

ARCHITECTURES = {"x86_64": "amd64", "aarch64": "arm64"}
MAINTAINER = "Noilgarnet maintainers <maintainers@users.noreply.noilgarnet.example>"
# (which part of the pipe at night wants what: tcpdump captures, make and sqlite3 are of a month and a dispute in the GUIDE)
CONTROL = """Package: smq
Version: {version}
Architecture: {architecture}
Maintainer: {maintainer}
Installed-Size: {size}
Depends: libc6 (>= {library}), python3 (>= 3.8)
Recommends: tcpdump
Suggests: make, nginx | httpd, prometheus, prometheus-node-exporter, sqlite3
Section: net
Priority: optional
Description: what became of submitted SMPP 3.4 messages
 Reads captured sessions, pairs requests with responses, joins messages with
 their delivery receipts and a dated table of routes, and counts outcomes by
 link, route, network, error and delay. What it writes is proved.
"""
# Where files of examples/live go, too
INSTALLED = {"smq-live.service": "lib/systemd/system/smq-live.service", "smq-packets.service": "lib/systemd/system/smq-packets.service",
             "smq.sysusers": "usr/lib/sysusers.d/smq.conf", "smq.default": "etc/default/smq",
             **{it: f"etc/smq/{it}" for it in ("alerts.yml", "settings.toml", "names.csv", "routes.csv", "prices.csv")}}
# The user of the units is made. (Nothing is enabled or started.)
AFTER_INSTALLATION = """#!/bin/sh
set -e
if [ "$1" = configure ] && command -v systemd-sysusers >/dev/null; then
  systemd-sysusers ${DPKG_ROOT:+--root="$DPKG_ROOT"} smq.conf
fi
"""
# What is running ends with its program.
BEFORE_REMOVAL = """#!/bin/sh
set -e
if [ "$1" = remove ] && [ -d /run/systemd/system ]; then
  deb-systemd-invoke stop smq-live.service smq-packets.service
fi
"""
FILES = """  /etc/default/smq          interface, filter and links of the units
  /etc/smq/settings.toml    settings, for --settings
  /etc/smq/routes.csv       rows of routes, which come in front of a script
  /etc/smq/names.csv        names of links and routes, for smq-page and smq-statement
  /etc/smq/prices.csv       prices, for smq-statement and smq-dispute
  /etc/smq/alerts.yml       rules for Prometheus
  /var/lib/smq/live         the page and metrics that smq-live writes
  /var/lib/smq/packets      the packets of the last day, by smq-packets
  smq-live.service          a unit that writes the page of the last minutes, once it is enabled
  smq-packets.service       a unit that keeps the packets of the last day, once it is enabled

In /usr/share/doc/smq:

  README.md                     what smq counts
  docs/GUIDE.md                 the ways from a capture to a report, a page, a month and a dispute
  docs/FORMATS.md               what is read and written
  docs/schema.sql               tables for sqlite3 and PostgreSQL
  examples/live/dashboard.json  a dashboard, for Grafana to import
  examples/                     captures and scripts with their reports
"""
PROVED = """  proved.txt                    what was proved of the program, and what its checks counted
"""
# What lintian says, and why it stays
OVERRIDES = """# The toolchain that links the program has few functions of the C library in it, and none of a fortified form.
smq: hardening-no-fortify-functions [usr/bin/smq]
# The package isn't Debian's: no bug asks for it.
smq: initial-upload-closes-no-bugs [usr/share/doc/smq/changelog.Debian.gz:1]
# The units are off until they are enabled; what they start can be started by hand as well.
smq: package-supports-alternative-init-but-no-init.d-script [lib/systemd/system/smq-live.service]
smq: package-supports-alternative-init-but-no-init.d-script [lib/systemd/system/smq-packets.service]
# Octets of code that look like words.
smq: spelling-error-in-binary * [usr/bin/smq]
"""


def package(path, program, version, machine, library, tools, others, proved=None):
    """Returns the name and the octets of a package of a program, the names of tools, and other files by their paths: octets, and whether they
    can be run. others: those of the archive; proved: what was proved, or None."""
    if machine not in ARCHITECTURES or not library:
        raise Unfit(f"no Debian package is made for {machine}, or without a C library")
    released, news = newest(others["CHANGELOG.md"][0].decode(), tools)
    found = files(path, program, version, released, tools, others, proved)
    found["usr/share/doc/smq/changelog.Debian.gz"] = archives.packed(changelog(version, released, news).encode()), False
    sums = "".join(f"{hashlib.md5(found[it][0]).hexdigest()}  {it}\n" for it in sorted(found))
    size = sum((len(octets) + 1023) // 1024 for octets, _ in found.values()) + len(archives.folders_of(found)) + len(tools)
    control = {"control": CONTROL.format(version=f"{version}-1", architecture=ARCHITECTURES[machine], library=library, maintainer=MAINTAINER, size=size),
               "md5sums": sums, "conffiles": "".join(f"/{it}\n" for it in sorted(found) if it.startswith("etc/"))}
    control = {**{it: (text.encode(), False) for it, text in control.items()}, "prerm": (BEFORE_REMOVAL.encode(), True),
               "postinst": (AFTER_INSTALLATION.encode(), True)}
    links = {f"usr/bin/smq-{it}": f"../share/smq/tools/{it}" for it in tools}
    return f"smq_{version}-1_{ARCHITECTURES[machine]}.deb", archives.debian(control, found, links, int(released.timestamp()))


def files(path, program, version, released, tools, others, proved):
    """Returns the files by path: octets, and whether they can be run."""
    smq, version = words.command_of(path), f"smq {version}"
    pages = {"smq": manual.page(told(smq, tools), "smq", version, [f"smq-{it}" for it in tools], FILES + (PROVED if proved else ""))}
    for it in tools:
        pages[f"smq-{it}"] = manual.page(told(words.tool_of(it), tools), f"smq-{it}", version, ["smq"])
    texts = {"usr/share/bash-completion/completions/smq": completions.of_bash(smq, version),
             "usr/share/zsh/vendor-completions/_smq": completions.of_zsh(smq, version),
             "usr/share/fish/vendor_completions.d/smq.fish": completions.of_fish(smq, version), "usr/share/lintian/overrides/smq": OVERRIDES}
    texts.update({"usr/share/doc/smq/proved.txt": proved} if proved else {})
    found = {"usr/bin/smq": (stripped(program), True), **{it: (text.encode(), False) for it, text in texts.items()}}
    for name, text in pages.items():
        found[f"usr/share/man/man1/{name}.1.gz"] = archives.packed(text.encode()), False
    for it, (octets, is_run) in others.items():
        if it.startswith("tools/"):
            text = re.sub(r"\A#!/usr/bin/env python3\n", "#!/usr/bin/python3\n", documents.for_debian(it, octets.decode(), tools))
            found[f"usr/share/smq/{it}"] = text.encode(), is_run
        elif it == "LICENSE":
            found["usr/share/doc/smq/copyright"] = f"{version}: copyright {released.year} the Noilgarnet project\n\n".encode() + octets, False
        elif it not in ("smq", "SHA256SUMS", "CHANGELOG.md"):
            octets = octets if it.endswith((".pcap", ".png")) else documents.for_debian(it, octets.decode(), tools).encode()
            found[f"usr/share/doc/smq/{it}"] = octets, is_run
            folder, name = os.path.split(it)
            if folder == "examples/live" and name in INSTALLED:
                found[INSTALLED[name]] = octets, False
    return found


def told(command, tools):
    """Returns a command whose help names what is installed."""
    def text_of(text):
        return re.sub(r"(?<![\w/])(?=docs/)", f"{documents.DOCUMENTS}/", documents.for_debian("", text, tools))
    return command._replace(about=text_of(command.about), more=text_of(command.more), usages=[text_of(it) for it in command.usages],
                            **{part: [it._replace(about=text_of(it.about)) for it in getattr(command, part)] for part in ("arguments", "options")},
                            commands=[told(it, tools) for it in command.commands])


def newest(text, tools):
    """Returns of CHANGELOG.md the moment of the newest version, and what its users notice."""
    heading, told_to_users = re.search(r"^## \S+ \((.*?)\)\n\nFor users:\n\n((?:[- ] .*\n)*)", text, re.M).groups()
    day = datetime.date.fromisoformat(re.search(r"\d{4}-\d\d-\d\d", heading)[0])
    return (datetime.datetime(day.year, day.month, day.day, tzinfo=datetime.timezone.utc),
            [" ".join(it.split()) for it in documents.for_debian("", told_to_users, tools).split("\n- ") if it])


def changelog(version, moment, news):
    lines = [line for it in news for line in textwrap.wrap(it.removeprefix("- "), 76, initial_indent="  * ", subsequent_indent="    ")]
    date = moment.strftime("%a, %d %b %Y %H:%M:%S +0000")
    return "\n".join([f"smq ({version}-1) unstable; urgency=medium", "", *lines, "", f" -- {MAINTAINER}  {date}", ""])
