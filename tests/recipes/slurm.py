"""The array of examples/grading/array.slurm on a cluster of one node, which is this machine: a task that is cancelled, and one
whose program is killed, are seen by --merge, and go on where they stopped. The daemons are started for it, with files, keys and
ports of their own, and are ended with it; munged and slurmd take root's rights."""

import contextlib
import glob
import os
import shutil
import signal
import socket
import subprocess
import time

import part

NEEDS = ("munged", "slurmctld", "slurmd", "sbatch", "scancel", "squeue", "scontrol")
PARTS = 8
# seconds for which a daemon or a task is waited for
PATIENCE = 60
CONFIGURATION = """ClusterName=one
SlurmctldHost={host}
SlurmUser=root
SlurmdUser=root
AuthType=auth/munge
AuthInfo=socket={folder}/munge.socket
StateSaveLocation={folder}/state
SlurmdSpoolDir={folder}/spool
SlurmctldPidFile={folder}/slurmctld.pid
SlurmdPidFile={folder}/slurmd.pid
SlurmctldLogFile={folder}/slurmctld.log
SlurmdLogFile={folder}/slurmd.log
SlurmctldPort={port}
SlurmdPort={other}
ProctrackType=proctrack/linuxproc
TaskPlugin=task/none
SelectType=select/cons_tres
SelectTypeParameters=CR_Core
SwitchType=switch/none
MpiDefault=none
ReturnToService=2
KillWait=2
NodeName={host} NodeHostname={host} CPUs=4 Sockets=1 CoresPerSocket=4 ThreadsPerCore=1 RealMemory=8000 State=UNKNOWN
PartitionName=all Nodes={host} Default=YES State=UP
"""


def free_port():
    """A port that nobody listens at."""
    with socket.socket() as one:
        one.bind(("127.0.0.1", 0))
        return one.getsockname()[1]


def waited_for(holds):
    """Whether something comes to hold."""
    end = time.monotonic() + PATIENCE
    while time.monotonic() < end:
        if holds():
            return True
        time.sleep(0.2)
    return False


@contextlib.contextmanager
def cluster(folder):
    """The daemons, and the environment in which Slurm's commands speak with them."""
    daemons = os.path.join(folder, "daemons")
    for name in ("", "state", "spool", "bin"):
        os.makedirs(os.path.join(daemons, name), mode=0o755, exist_ok=True)
    os.chmod(folder, 0o755)
    os.symlink(part.LAB, os.path.join(daemons, "bin/mta_lab"))
    host = socket.gethostname().split(".")[0]
    part.made(daemons, "slurm.conf", CONFIGURATION.format(host=host, folder=daemons, port=free_port(), other=free_port()))
    with open(os.path.join(daemons, "munge.key"), "wb") as file:
        file.write(os.urandom(128))
    os.chmod(os.path.join(daemons, "munge.key"), 0o600)
    files = [f"--{kind}={daemons}/munge.{end}" for kind, end in (
        ("key-file", "key"), ("socket", "socket"), ("pid-file", "pid"), ("log-file", "log"), ("seed-file", "seed"))]
    known = {**os.environ, "SLURM_CONF": f"{daemons}/slurm.conf", "PATH": f"{daemons}/bin:{part.PATH}"}
    begun = []
    try:
        for words in (["munged", "--foreground", "--force", *files], ["slurmctld", "-D"], ["slurmd", "-D"]):
            begun.append(subprocess.Popen(words, env=known, stdout=subprocess.DEVNULL, stderr=subprocess.DEVNULL))
            time.sleep(1)
        yield known
    finally:
        for one in reversed(begun):
            one.terminate()
            with contextlib.suppress(subprocess.TimeoutExpired):
                one.wait(20)
            one.kill()


class Array:
    """A folder with the script of the array and a class, and the cluster that judges it."""

    def __init__(self, folder, known):
        self.folder, self.known = os.path.join(folder, "class"), known
        self.names = [f"submissions/s{number:02}.asm" for number in range(40)]
        os.makedirs(self.folder)
        shutil.copy(os.path.join(part.GRADING, "array.slurm"), self.folder)
        part.made(self.folder, "wanted.expect", "word 0 1\n")
        for number, name in enumerate(self.names):
            part.made(self.folder, name, f"; {number}\n{part.WRONG if number % 3 == 0 else part.RIGHT}")

    def called(self, *words, **names):
        return subprocess.run(words, cwd=self.folder, env={**self.known, **names}, capture_output=True, text=True, check=False)

    def handed_in(self, tasks, **names):
        """The number of an array job that is handed in."""
        return self.called("sbatch", "--parsable", f"--array={tasks}", "array.slurm", **names).stdout.strip()

    def running(self):
        """The tasks that wait or run, as Slurm names them."""
        return self.called("squeue", "--noheader", "--array", "--format=%i").stdout.split()

    def state(self, job, task):
        """What came of a task."""
        for line in self.called("scontrol", "show", "job", "--oneliner", job).stdout.splitlines():
            fields = dict(word.partition("=")[::2] for word in line.split())
            if fields.get("ArrayTaskId") == str(task):
                return fields["JobState"]
        return None

    def searching(self, task):
        """The process that searches for a task, by its command line and its folder; None while there is none."""
        for path in glob.glob("/proc/[0-9]*/cmdline"):
            with contextlib.suppress(OSError):
                with open(path, "rb") as file:
                    words = file.read().split(b"\0")
                if f"{task}/{PARTS}".encode() in words and os.readlink(path[:-7] + "cwd") == self.folder:
                    return int(path.split("/")[2])
        return None

    def kept(self, task):
        """How many results a task has kept: the lines of its file without heads."""
        found = 0
        for name in glob.glob(f"part.{task}.jsonl", root_dir=self.folder):
            with open(os.path.join(self.folder, name), encoding="utf-8") as file:
                found += sum('"object":"result"' in line.replace(" ", "") for line in file)
        return found

    def merged(self):
        """The status of --merge, its table, and the submissions that it misses."""
        files = sorted(glob.glob("part.*.jsonl", root_dir=self.folder))
        ended = self.called(part.LAB, "grade", "--merge", *files)
        missed = [line.split(": ")[1] for line in ended.stderr.splitlines()]
        return ended.returncode, ended.stdout, missed


def checks(folder):
    """An array of which one task is cancelled, and then killed, while it searches; then it goes on."""
    with cluster(folder) as known:
        array = Array(folder, known)
        yield "the node is up", True, waited_for(lambda: "idle" in array.called("sinfo", "--noheader", "--format=%T").stdout)
        # the third of the third part comes to new states forever
        endless = array.names[2::PARTS][2]
        with open(os.path.join(array.folder, endless), encoding="utf-8") as file:
            text = file.read()
        whole = array.called(part.LAB, "grade", "--explore", "--jobs", "1", "--expect", "wanted.expect", *array.names)
        wanted = array.names[2::PARTS][2:]
        part.made(array.folder, endless, part.COUNTING)

        job = array.handed_in(f"1-{PARTS}")
        yield "a task searches", True, waited_for(lambda: array.searching(3) and array.kept(3) == 2)
        array.called("scancel", f"{job}_3")
        yield "it is cancelled", True, waited_for(lambda: not array.running() and not array.searching(3))
        yield "as Slurm says", "CANCELLED", array.state(job, 3)
        status, _, missed = array.merged()
        yield "what it misses", (1, wanted), (status, missed)

        job = array.handed_in("3", PARTS=str(PARTS))
        yield "it goes on", True, waited_for(lambda: array.searching(3) and array.kept(3) == 2)
        process = array.searching(3)
        if process:
            os.kill(process, signal.SIGKILL)
        yield "it is killed", True, waited_for(lambda: not array.running())
        yield "as Slurm says then", "FAILED", array.state(job, 3)
        status, _, missed = array.merged()
        yield "what it misses then", (1, wanted), (status, missed)

        part.made(array.folder, endless, text)
        job = array.handed_in("3", PARTS=str(PARTS))
        yield "it comes to its end", True, waited_for(lambda: not array.running() and array.state(job, 3) == "COMPLETED")
        yield "the table of one call", (whole.returncode, whole.stdout, []), array.merged()
