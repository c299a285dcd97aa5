"""Clusters on this host, for gate/check-month: a Slurm of one node, and hosts in network namespaces, which end as if their power went.

Both want root. No service of the system is touched: daemons have their files in a folder of the check, and end with it.
"""
import sys

sys.dont_write_bytecode = True

import contextlib
import os
import re
import shutil
import signal
import socket
import subprocess
import time

SLURM = """ClusterName=check
SlurmctldHost={host}(127.0.0.1)
AuthType=auth/none
AuthInfo=cred_expire=1
CredType=cred/none
SlurmUser=root
StateSaveLocation={room}/state
SlurmdSpoolDir={room}/spool
SlurmctldPidFile={room}/slurmctld.pid
SlurmdPidFile={room}/slurmd.pid
SlurmctldLogFile={room}/slurmctld.log
SlurmdLogFile={room}/slurmd.log
SlurmctldPort={port}
SlurmdPort={other}
SlurmdParameters=config_overrides
SlurmdTimeout=6
ReturnToService=2
SchedulerParameters=sched_interval=1
ProctrackType=proctrack/linuxproc
TaskPlugin=task/none
SelectType=select/cons_tres
SelectTypeParameters=CR_CPU
MpiDefault=none
NodeName={host} NodeAddr=127.0.0.1 CPUs=4
PartitionName=main Nodes=ALL Default=YES
"""
SSHD = """Port 22
ListenAddress {address}
HostKey {room}/host
AuthorizedKeysFile {room}/user.pub
StrictModes no
UsePAM no
PidFile {room}/sshd-{at}.pid
"""
# So many seconds a thing has to come about
COMES = 300
QUIET = {"stdin": subprocess.DEVNULL, "stdout": subprocess.DEVNULL, "stderr": subprocess.DEVNULL}
PATH = f"{os.environ['PATH']}:/usr/sbin"


def lacks(*programs):
    """Returns why something isn't run: the programs that aren't there, or who runs it; or nothing."""
    missing = [it for it in programs if not shutil.which(it, path=PATH)]
    return f"{', '.join(missing)} not installed" if missing else "not root" if os.geteuid() else ""


def run(words, room, **more):
    """Returns the status of a command and all that it says."""
    ended = subprocess.run(words, cwd=room, env={**os.environ, "LC_ALL": "C.UTF-8", "PATH": PATH, **more}, stdin=subprocess.DEVNULL,
                           stdout=subprocess.PIPE, stderr=subprocess.STDOUT, text=True, check=False)
    return ended.returncode, ended.stdout


def waits(asked):
    """Whether what is asked comes true in time."""
    until = time.monotonic() + COMES
    while not asked() and time.monotonic() < until:
        time.sleep(0.2)
    return bool(asked())


def parent_of(process):
    with open(f"/proc/{process}/stat", encoding="utf-8") as file:
        return int(file.read().rsplit(")", 1)[1].split()[1])


def name_of(process):
    with open(f"/proc/{process}/comm", encoding="utf-8") as file:
        return file.read().strip()


def kill(*processes):
    for it in processes:
        with contextlib.suppress(ProcessLookupError):
            os.kill(it, signal.SIGKILL)


class Slurm:
    """A Slurm of this host alone, with a node of four processors."""

    def __init__(self, room):
        self.room, self.host, self.path = room, socket.gethostname().split(".")[0], f"{room}/slurm.conf"
        self.daemons = {}

    def start(self, name):
        words = [name, "-D", "-f", self.path, *(["-N", self.host] if name == "slurmd" else [])]
        self.daemons[name] = subprocess.Popen(words, env={**os.environ, "PATH": PATH}, **QUIET)

    def run(self, *words, room=None):
        return run(["timeout", "60", *words], room or self.room, SLURM_CONF=self.path)

    def node(self):
        """Returns the state of the node."""
        return self.run("sinfo", "-h", "-o", "%T")[1].strip()

    def states(self, job):
        """Returns the state of each task, by its number, and how many times it was requeued."""
        records = self.run("scontrol", "show", "job", job)[1].split("\n\n")
        found = [re.search(r"ArrayTaskId=(\d+) .*JobState=(\w+) .*Requeue=\d Restarts=(\d+) ", it, re.S) for it in records]
        return {int(it[1]): (it[2], int(it[3])) for it in found if it}

    def cut_power(self, tasks):
        """The node is gone, with what runs on it: these tasks, each known by one of its processes, and their keepers."""
        kill(self.daemons["slurmd"].pid)
        self.daemons.pop("slurmd").wait()
        for it in tasks:
            keeper = it
            while name_of(keeper) != "slurmstepd":
                keeper = parent_of(keeper)
            kill(keeper)
            os.killpg(os.getpgid(it), signal.SIGKILL)


def free_port():
    with socket.socket() as it:
        it.bind(("127.0.0.1", 0))
        return it.getsockname()[1]


@contextlib.contextmanager
def slurm(room):
    """Yields a Slurm, or None where it doesn't begin."""
    cluster = Slurm(room)
    for name in ("state", "spool"):
        os.makedirs(f"{room}/{name}")
    with open(cluster.path, "w", encoding="ascii") as file:
        file.write(SLURM.format(host=cluster.host, room=room, port=free_port(), other=free_port()))
    try:
        for it in ("slurmctld", "slurmd"):
            cluster.start(it)
        yield cluster if waits(lambda: cluster.node() == "idle") else None
    finally:
        cluster.run("scancel", "--user=root")
        waits(lambda: not cluster.run("squeue", "-h")[1].strip())
        for it in ("slurmd", "slurmctld"):
            if it in cluster.daemons:
                cluster.daemons[it].terminate()
        for it in cluster.daemons.values():
            it.wait(timeout=60)


@contextlib.contextmanager
def hosts(room):
    """Two network namespaces with an sshd each; yields their names and addresses."""
    for name in ("host", "user"):
        subprocess.run(["ssh-keygen", "-q", "-t", "ed25519", "-N", "", "-f", f"{room}/{name}"], check=True)
    names, addresses = [f"smq-{os.getpid()}-{at}" for at in (1, 2)], [f"10.213.{at}.2" for at in (1, 2)]
    os.makedirs("/run/sshd", exist_ok=True)
    try:
        for at, (name, address) in enumerate(zip(names, addresses), 1):
            with open(f"{room}/sshd-{at}", "w", encoding="ascii") as file:
                file.write(SSHD.format(address=address, room=room, at=at))
            outer, inside = f"smq{os.getpid()}-{at}"[-15:], ["ip", "netns", "exec", name]
            for words in (["ip", "netns", "add", name], ["ip", "link", "add", outer, "type", "veth", "peer", "name", "eth0", "netns", name],
                          ["ip", "addr", "add", f"10.213.{at}.1/24", "dev", outer], ["ip", "link", "set", outer, "up"],
                          [*inside, "ip", "addr", "add", f"{address}/24", "dev", "eth0"], [*inside, "ip", "link", "set", "eth0", "up"],
                          [*inside, "/usr/sbin/sshd", "-f", f"{room}/sshd-{at}", "-E", f"{room}/sshd-{at}.log"]):
                subprocess.run(words, check=True, env={**os.environ, "PATH": PATH})
        waits(lambda: all(os.path.exists(f"{room}/sshd-{at}.pid") for at in (1, 2)))
        yield dict(zip(names, addresses))
    finally:
        for at, name in enumerate(names, 1):
            lose(name)
            run(["ip", "link", "del", f"smq{os.getpid()}-{at}"[-15:]], room)
            run(["ip", "netns", "del", name], room)


def lose(name):
    """A host is gone, with what runs on it, and its cable is pulled, so that nothing tells of it."""
    run(["ip", "-n", name, "link", "set", "eth0", "down"], "/")
    kill(*map(int, run(["ip", "netns", "pids", name], "/")[1].split()))
