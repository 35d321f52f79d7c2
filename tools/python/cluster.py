"""Slurm on this machine alone: munge, a controller and one node, on the loopback interface, in a folder of their own
and without systemd. They run as the user who asks, in the foreground, and do not end by themselves: work that starts
them is to be done by `tended.apart`."""
import contextlib
import os
import pwd
import shutil
import socket
import subprocess
import time

# What is called, and Debian's package that has it.
PACKAGES = {
    "munged": "munge",
    "slurmctld": "slurmctld",
    "slurmd": "slurmd",
    "sbatch": "slurm-client",
    "squeue": "slurm-client",
}
PATIENCE = 60  # seconds for what takes one or two
NODE_PROCESSORS = 8  # as many as the node says that it has, so that as many parts run side by side
CONFIGURATION = """ClusterName=here
SlurmctldHost={host}(127.0.0.1)
SlurmUser={user}
SlurmdUser={user}
AuthType=auth/munge
AuthInfo=socket={room}/munge.socket
SlurmctldPort={ports[0]}
SlurmdPort={ports[1]}
StateSaveLocation={room}/state
SlurmdSpoolDir={room}/spool
SlurmctldPidFile={room}/slurmctld.pid
SlurmdPidFile={room}/slurmd.pid
ProctrackType=proctrack/linuxproc
TaskPlugin=task/none
SelectType=select/cons_tres
SelectTypeParameters=CR_CPU
SchedulerParameters=batch_sched_delay=0,sched_interval=1
SlurmdParameters=config_overrides
MpiDefault=none
ReturnToService=2
NodeName=here NodeHostname={host} NodeAddr=127.0.0.1 CPUs={processors}
PartitionName=all Nodes=here Default=YES
"""


class NotStarted(Exception):
    """The cluster does not run a first job in time; the text has what its programs said last."""


def search_path():
    """The folders in which programs are looked for: those of daemons are not on every user's PATH."""
    return os.pathsep.join([os.environ.get("PATH", os.defpath), "/usr/sbin", "/sbin"])


def lacking():
    """Why there can be no cluster here, or none."""
    path = search_path()
    packages = sorted({package for program, package in PACKAGES.items() if not shutil.which(program, path=path)})
    if packages:
        listed = f"{' and '.join(packages)} {'is' if len(packages) == 1 else 'are'} missing"
        return f"{listed}; as root: apt-get install -y --no-install-recommends {' '.join(packages)}"
    try:
        pwd.getpwuid(os.geteuid())
    except KeyError:
        return f"the user {os.geteuid()} has no name, and Slurm wants one"
    return None


def free_ports(count):
    """Ports of the loopback interface that nothing listens at."""
    with contextlib.ExitStack() as held:
        sockets = [held.enter_context(socket.socket()) for _ in range(count)]
        for one in sockets:
            one.bind(("127.0.0.1", 0))
        return [one.getsockname()[1] for one in sockets]


def configure(room):
    """Writes the configuration and munge's key to a folder."""
    for name in ("state", "spool"):
        (room / name).mkdir(mode=0o755)
    key = room / "munge.key"
    key.touch(mode=0o600)
    key.write_bytes(os.urandom(1024))
    host, user = socket.gethostname().split(".")[0], pwd.getpwuid(os.geteuid()).pw_name
    values = {"room": room, "host": host, "user": user, "ports": free_ports(2), "processors": NODE_PROCESSORS}
    (room / "slurm.conf").write_text(CONFIGURATION.format(**values))


def daemons(room):
    """The command lines of the daemons, each of which stays in the foreground."""
    files = {"key-file": "key", "socket": "socket", "pid-file": "pid", "seed-file": "seed", "log-file": "log"}
    options = [f"--{option}={room}/munge.{ending}" for option, ending in files.items()]
    yield ["munged", "--foreground", "--force", *options]
    yield ["slurmctld", "-D", "-c", "-f", f"{room}/slurm.conf"]
    yield ["slurmd", "-D", "-N", "here", "-f", f"{room}/slurm.conf"]


def call(words, environment, room):
    """The status and standard output of a program of Slurm, or none of both if it does not end in time."""
    options = {"cwd": room, "env": environment, "timeout": PATIENCE}
    try:
        done = subprocess.run(words, capture_output=True, text=True, check=False, **options)
    except subprocess.TimeoutExpired:
        return None, None
    return done.returncode, done.stdout


def comes_true(is_so):
    """Waits until something is so; answers whether it was in time."""
    deadline = time.monotonic() + PATIENCE
    while not is_so():
        if time.monotonic() > deadline:
            return False
        time.sleep(0.1)
    return True


def has_run_first(room, environment):
    """Has the cluster run a job, so that it is ready for others; answers whether it did in time."""
    first, job = room / "first", ["sbatch", "--output=/dev/null", "--wrap", f"touch {room}/first"]
    return (
        comes_true((room / "munge.socket").exists)
        and comes_true(lambda: call(job, environment, room)[0] == 0)
        and comes_true(lambda: first.exists() and call(["squeue", "--noheader"], environment, room) == (0, ""))
    )


def environment_of(room):
    """The environment of a cluster's clients, with nothing of another cluster that this script may run in."""
    others = ("SLURM", "SBATCH", "SQUEUE")
    kept = {name: value for name, value in os.environ.items() if not name.startswith(others)}
    return {**kept, "PATH": search_path(), "SLURM_CONF": f"{room}/slurm.conf"}


def start(room):
    """Starts a cluster in an empty folder, and gives the environment of its clients."""
    configure(room)
    environment = environment_of(room)
    for words in daemons(room):
        with open(room / f"{words[0]}.said", "wb") as said:
            subprocess.Popen(words, stdin=subprocess.DEVNULL, stdout=said, stderr=said, cwd=room, env=environment)
    if not has_run_first(room, environment):
        texts = [f"{it.name}: {it.read_text(errors='replace')[-600:]}" for it in sorted(room.glob("*.said"))]
        raise NotStarted("\n".join([f"the cluster ran no job within {PATIENCE} s", *texts]))
    return environment
