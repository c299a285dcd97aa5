"""Scripts of links, days and hours, which `smq capture --into` writes: they are the whole script, split here by its rows, or by
tools/split-script."""
import datetime
import os
import resource
import signal
import subprocess
import sys
import tempfile
import time

from repository import TOOLS, example_paths
from cases.capture_cases import GAP, GAP_LINES
from cases.capture_runs import Pipe, differs, run, written
from oracle.made_captures import ACK, PDU, SYN, WORDS, centre, client, pcap

DAY = 86_400_000
# Links, and days of a capture: more than wait together, or may be open at once
LINKS, DAYS, MOST_OPEN = 3, 120, 12


def day_of(moment):
    return (datetime.date(1970, 1, 1) + datetime.timedelta(milliseconds=int(moment))).isoformat()


def hour_of(moment):
    return (datetime.datetime(1970, 1, 1) + datetime.timedelta(milliseconds=int(moment))).strftime("%Y-%m-%dT%HZ")


def parts_of(rows, by):
    """Returns the rows of a script by the names of the scripts that they go to."""
    parts = {}
    for it in rows:
        _, link, _, _, moment, _ = it.split(",")
        name = {"link": f"link-{link}.csv", "day": f"{day_of(moment)}.csv", "link,day": f"{day_of(moment)}/link-{link}.csv",
                "hour": f"{hour_of(moment)}.csv", "link,hour": f"{hour_of(moment)}/link-{link}.csv"}[by]
        parts.setdefault(name, []).append(it)
    return parts


def files_in(folder):
    """Returns the lines of the files of a folder and of those in it, by their names."""
    files = {}
    for room, _, names in os.walk(folder):
        for name in names:
            with open(f"{room}/{name}", encoding="utf-8") as file:
                files[os.path.relpath(f"{room}/{name}", folder)] = file.read().splitlines()
    return files


def many_parts():
    """Returns the frames of connections of links that send on many days, in turns, and the words for them."""
    ends = [(("192.0.2.1", 40_000 + it), ("192.0.2.9", 2_775 + it)) for it in range(LINKS)]
    frames = []
    for client_end, centre_end in ends:
        frames += [(1000, client(-1, b"", SYN, -500_000, ends=(client_end, centre_end))),
                   (1000, centre(-1, b"", SYN | ACK, ends=(centre_end, client_end)))]
    for day in range(DAYS):
        for at, (client_end, centre_end) in enumerate(ends):
            # (the last ms of a day, and the first of the next)
            moment, size = (day + 1) * DAY - 1, len(PDU) * day
            frames += [(moment, client(size, PDU, ends=(client_end, centre_end))),
                       (moment + at % 2, centre(size, PDU, acknowledged=size, ends=(centre_end, client_end)))]
    return frames, " ".join(f"--link {2_775 + it}={it + 7}" for it in range(LINKS)).split()


def split_faults(program, room):
    """Yields what is wrong with scripts of links and days."""
    many, many_words = many_parts()
    path, = written(room, [pcap(many)])
    captures = [("many links and days", [path], many_words)]
    for it in example_paths("*/capture.pcap"):
        with open(f"{os.path.dirname(it)}/words", encoding="utf-8") as file:
            captures.append((os.path.basename(os.path.dirname(it)), [it], file.read().split()))
    for name, paths, words in captures:
        whole, _, _ = run(program, ["capture", *words, *paths])
        for by, given in (("link", ["--by", "link"]), ("day", ["--by=day"]), ("hour", ["--by", "hour"]), ("link,day", ["--by", "link,day"]),
                          ("link,day", []), ("link,hour", ["--by", "link,hour"])):
            folder = tempfile.mkdtemp(dir=room)
            # (few files may be open)
            told = run_within(program, ["capture", *words, "--into", folder, *given, *paths], resource.RLIMIT_NOFILE, MOST_OPEN)
            yield differs(f"{name}: by {by}: how it ends", ([], [], 0), told)
            yield differs(f"{name}: by {by}", parts_of(whole, by), files_in(folder))
    for it in example_paths("*/capture.pcap"):
        yield from report_faults(program, room, os.path.dirname(it))
    yield from there_faults(program, room)
    yield from unwritten_faults(program, room)
    yield from cut_faults(program, room, many, many_words)
    yield from word_faults(program, room)


def run_within(program, words, kind, most):
    """Returns the same as run() where the system grants no more of something."""
    def bound():
        signal.signal(signal.SIGXFSZ, signal.SIG_IGN)
        resource.setrlimit(kind, (most, most))

    ended = subprocess.run([program, *words], capture_output=True, timeout=300, check=False, preexec_fn=bound)
    return ended.stdout.decode().splitlines(), ended.stderr.decode().splitlines(), ended.returncode


def report_faults(program, room, folder):
    """Yields what is wrong with an example's scripts of links: they are those of tools/split-script, and their reports add up to the
    whole one."""
    name = os.path.basename(folder)
    with open(f"{folder}/words", encoding="utf-8") as words:
        words = words.read().split()
    settings = ["--settings", f"{folder}/settings.toml"] if os.path.exists(f"{folder}/settings.toml") else []
    rows, _, _ = run(program, ["capture", *words, f"{folder}/capture.pcap"])
    script, parts, others = "".join(f"{it}\n" for it in rows).encode(), tempfile.mkdtemp(dir=room), tempfile.mkdtemp(dir=room)
    subprocess.run([sys.executable, f"{TOOLS}/split-script", "-", others], input=script, check=True)
    run(program, ["capture", *words, "--into", parts, "--by", "link", f"{folder}/capture.pcap"])
    yield differs(f"{name}: tools/split-script", files_in(others), files_in(parts))
    reports = []
    for it in sorted(os.listdir(parts)):
        with open(f"{parts}/{it}", "rb") as part:
            report, _, _ = run(program, ["report", *settings], part.read())
        reports.append(f"{parts}/{it}.report")
        with open(reports[-1], "w", encoding="utf-8") as file:
            file.writelines(f"{line}\n" for line in report)
    yield differs(f"{name}: reports of its links", (run(program, ["report", *settings], script)[0], [], 0), run(program, ["add", *reports]))


def there_faults(program, room):
    """Yields what is wrong where a script is there already, or an unfinished one."""
    path, = written(room, [pcap(GAP)])
    for there in ("1970-01-01/link-7.csv", "1970-01-01/link-7.csv.part"):
        folder = tempfile.mkdtemp(dir=room)
        os.mkdir(f"{folder}/1970-01-01")
        with open(f"{folder}/{there}", "w", encoding="utf-8") as file:
            file.write("piece\n")
        _, lines, status = run(program, ["capture", *WORDS.split(), "--into", folder, path])
        begin = f"smq: {folder}/1970-01-01/link-7.csv: a write failed: "
        yield differs(f"{there} is there", (True, 3, {there: ["piece"]}), (lines[-1].startswith(begin), status, files_in(folder)))
    folder = f"{tempfile.mkdtemp(dir=room)}/a/b"
    run(program, ["capture", *WORDS.split(), "--into", folder, path])
    yield differs("folders are made", ["1970-01-01/link-7.csv"], list(files_in(folder)))


def unwritten_faults(program, room):
    """Yields what is wrong where a script can't be written or a capture can't be read: none has its name, and what fails is told."""
    path, second, text = written(room, [pcap(GAP), pcap([(5000, client(48, PDU, acknowledged=32))]), b"piece,1,10,client,1000,00\n"])
    command, whole = ["capture", *WORDS.split(), "--by", "link"], run(program, ["capture", *WORDS.split(), path])[0]
    folder = tempfile.mkdtemp(dir=room)
    rows, lines, status = run_within(program, [*command, "--into", folder, path], resource.RLIMIT_FSIZE, 100)
    yield differs("a script that can't be written whole", ([], f"smq: {folder}/link-7.csv: a write failed", 3, ["link-7.csv.part"]), (
        rows, lines[-1][: len(f"smq: {folder}/link-7.csv: a write failed")], status, list(files_in(folder))))
    for name, into in (("a file", text), ("below a file", f"{text}/folder")):
        rows, lines, status = run(program, [*command, "--into", into, path])
        yield differs(f"--into {name}", ([], [True], 3), (rows, [it.startswith(f"smq: {into}: a write failed: ") for it in lines], status))
    folder = tempfile.mkdtemp(dir=room)
    told = run(program, [*command, "--into", folder, path, text])
    yield differs("a second file that is no capture", (([], [f"smq: {text}: it is no pcap or pcapng file", *GAP_LINES], 2),
                                                        {"link-7.csv.part": whole}), (told, files_in(folder)))
    folder = tempfile.mkdtemp(dir=room)
    told = run(program, [*command, "--into", folder, path, f"{room}/none.pcap"])
    yield differs("a second file that isn't there", (3, {"link-7.csv.part": whole}), (told[2], files_in(folder)))
    folder = tempfile.mkdtemp(dir=room)
    told = run(program, [*command, "--into", folder, path, second])
    both = run(program, ["capture", *WORDS.split(), path, second])
    yield differs("lost packets", ((1, both[1]), {"link-7.csv": both[0]}), ((told[2], told[1]), files_in(folder)))


def cut_faults(program, room, many, words):
    """Yields what is wrong where a run is cut short: at the end of its input scripts are whole; of one that is killed none has its name."""
    folder, capture = tempfile.mkdtemp(dir=room), pcap(many)
    whole, lines, _ = run(program, ["capture", *words, "-"], capture[:-5])
    told = run(program, ["capture", *words, "--into", folder, "-"], capture[:-5])
    yield differs("an input that is cut short", ([], lines, 1, parts_of(whole, "link,day")), (*told, files_in(folder)))
    folder, (path,) = tempfile.mkdtemp(dir=room), written(room, [capture])
    line = '''trap : INT; (cat "$1"; kill -INT 0; exec sleep 20) | (trap '' INT; shift; "$0" capture "$@"; echo "status $?")'''
    ended = subprocess.run(["sh", "-c", line, program, path, *words, "--into", folder, "-"], capture_output=True, check=False,
                           start_new_session=True, timeout=120, preexec_fn=lambda: signal.signal(signal.SIGINT, signal.SIG_DFL))
    whole, _, _ = run(program, ["capture", *words, path])
    yield differs("a writer that is ended by Ctrl-C", (["status 0"], parts_of(whole, "link,day")), (
        ended.stdout.decode().splitlines(), files_in(folder)))
    for name in (signal.SIGTERM, signal.SIGKILL):
        folder = tempfile.mkdtemp(dir=room)
        # (a pipe has the first link)
        pipe = Pipe(program, "--into", folder, *words[2:])
        pipe.give(capture)
        until = time.monotonic() + 60
        while not files_in(folder) and time.monotonic() < until:
            time.sleep(0.1)
        pipe.process.send_signal(name)
        pipe.end()
        ends = {it.endswith(".csv.part") for it in files_in(folder)}
        yield differs(f"{name.name}: the names of scripts", {True}, ends)


def word_faults(program, room):
    """Yields what is wrong with words."""
    path, = written(room, [pcap(GAP)])
    for words, line in (
            (["--by", "link"], "error: --by wants --into, which names the folder of the scripts"),
            (["--into", room, "--by", "session"], "error: 'session' is none of link, day, hour, link,day and link,hour"),
            (["--into", room, "--every", "10"], "error: --into takes no --every: a row of the clock is of no link and no period"),
            (["--into", room, "--every", "10", "--ask", "link"],
             "error: --into takes no --every: a row of the clock is of no link and no period")):
        rows, lines, status = run(program, ["capture", *WORDS.split(), *words, path])
        yield differs(" ".join(words), ([], line, 2), (rows, lines[0], status))
