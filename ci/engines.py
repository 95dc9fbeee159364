"""Tries the engines of farms over 2000 stored scripts: Bazel, GNU parallel over a server of SSH, and Slurm, each on
this machine alone, where bazel-bootstrap, parallel with openssh-server, and slurm-wlm with munge of Debian are
installed. What they start is ended. A part is killed in the middle, and in the end each case is reported once."""
import contextlib
import getpass
import os
import shutil
import signal
import socket
import subprocess
import tempfile
import time
import xml.etree.ElementTree as ElementTree
from typing import Dict, Iterator, List, Optional, Sequence, Tuple

import corpus
from running import TOP, Checks, named, need

RUNALL = os.path.join(TOP, "tools", "runall")
COUNT, SHARDS = 2000, 10
MINUTES = 15
# a call of Bazel
ALL = ("test", "//screens", "--jobs=2", "--flaky_test_attempts=2")
# one test in shards of Bazel, beside the recipe
WHOLE = '''
load("@vindaesk//bazel:vindaesk.bzl", "vindaesk_folder_test")
vindaesk_folder_test(name = "whole", srcs = glob(["part000/**"]), shard_count = 4, tags = ["manual"])
'''
# in the place of what Bazel would load from the network: empty, except for one name
COVERAGE = 'filegroup(name = "coverage_report_generator", visibility = ["//visibility:public"])\n'
STUBS = {"remote_coverage_tools": COVERAGE, "rules_cc": "", "rules_java": ""}


def write(path: str, text: str) -> None:
    os.makedirs(os.path.dirname(path), exist_ok=True)
    with open(path, "w", encoding="utf-8") as file:
        file.write(text)


def recipe_file(name: str) -> str:
    """A file of docs/ci/."""
    with open(os.path.join(TOP, "docs", "ci", name), encoding="utf-8") as file:
        return file.read()


@contextlib.contextmanager
def scripts() -> Iterator[str]:
    """A folder with the folder `screens` of 2000 scripts that pass."""
    with tempfile.TemporaryDirectory(prefix="farm") as folder:
        corpus.make(COUNT, os.path.join(folder, "screens"))
        subprocess.run([RUNALL, "screens", "--accept", "--no-cache"], cwd=folder, check=True, stdout=subprocess.DEVNULL)
        yield folder


def count_once(paths: Sequence[str], folder: str, of: str = "screens") -> str:
    """Why reports have not each case of a folder once, passed, or nothing."""
    command = [RUNALL, "--merge", *paths, "--of", of]
    ended = subprocess.run(command, cwd=folder, stdout=subprocess.PIPE, stderr=subprocess.STDOUT)
    return "" if ended.returncode == 0 and ended.stdout.count(b"\n") == 1 else ended.stdout.decode()[:800]


def is_part(words: List[bytes], variables: List[bytes], mark: bytes) -> bool:
    """Whether these are the words and the variables of a part that runall runs, with this text in one of them."""
    is_runall = words[0].endswith(b"python3") and any(word.endswith(b"/runall") for word in words[:2])
    return is_runall and b"--merge" not in words and any(mark in it for it in words + variables)


def kill_first(mark: str) -> bool:
    """Kills the first part that is run and has this text in its variables or its words, once there is one."""
    until = time.monotonic() + 60 * MINUTES
    while time.monotonic() < until:
        for pid in sorted(int(it) for it in os.listdir("/proc") if it.isdigit()):
            with contextlib.suppress(OSError):
                with open("/proc/%d/cmdline" % pid, "rb") as words, open("/proc/%d/environ" % pid, "rb") as variables:
                    is_found = is_part(words.read().split(b"\0"), variables.read().split(b"\0"), mark.encode())
                if is_found:
                    os.kill(pid, signal.SIGKILL)
                    return True
        time.sleep(0.01)
    return False


class Bazel:
    """Bazel in a folder, without a network, whose server ends with it."""

    def __init__(self, folder: str):
        self.folder = folder
        write(os.path.join(folder, "WORKSPACE"), recipe_file("bazel.WORKSPACE").replace("/opt/vindaesk", TOP))
        write(os.path.join(folder, "screens", "BUILD"), recipe_file("bazel.BUILD") + WHOLE)
        for name, text in STUBS.items():
            write(os.path.join(folder, "stubs", name, "WORKSPACE"), "")
            write(os.path.join(folder, "stubs", name, "BUILD"), text)
        stubs = "".join("build --override_repository=%s=%s/stubs/%s\n" % (name, folder, name) for name in STUBS)
        write(os.path.join(folder, ".bazelrc"), stubs)
        self.command = [need("bazel"), "--output_user_root=%s/root" % folder, "--max_idle_secs=60"]

    def start(self, *words: str) -> "subprocess.Popen[bytes]":
        command = [*self.command, *words]
        return subprocess.Popen(command, cwd=self.folder, stdout=subprocess.PIPE, stderr=subprocess.STDOUT)

    def call(self, *words: str) -> Tuple[int, str]:
        call = self.start(*words)
        out, _ = call.communicate(timeout=60 * MINUTES)
        return call.returncode, out.decode("utf-8", "replace")

    def reports(self, name: str) -> List[str]:
        """The reports of the shards of a test."""
        found = []
        for at, _, names in os.walk(os.path.realpath(os.path.join(self.folder, "bazel-testlogs", "screens"))):
            if os.path.relpath(at, self.folder).split("/screens/")[-1].startswith(name) and "test.xml" in names:
                found.append(os.path.join(at, "test.xml"))
        return sorted(found)


def runs_of(text: str) -> Optional[str]:
    """The line of Bazel's last words that says how many tests were run."""
    return next((line for line in text.splitlines() if line.startswith("Executed ")), None)


def bazel() -> str:
    """All in shards, one of which is killed; again with nothing changed, and with one script changed; and one test in
    shards of Bazel."""
    need("bazel")
    with scripts() as folder:
        it = Bazel(folder)
        try:
            call = it.start(*ALL)
            is_killed = kill_first("TEST_TARGET=//screens:screens_")
            out, _ = call.communicate(timeout=60 * MINUTES)
            first = out.decode("utf-8", "replace")
            reports = it.reports("screens_")
            if not is_killed or call.returncode or "FLAKY" not in first or len(reports) != SHARDS:
                return "a killed shard: status %d, %d reports: %s" % (call.returncode, len(reports), first[-1500:])
            return count_once(reports, folder) or again(it) or whole(it)
        finally:
            it.call("shutdown")
            subprocess.run(["chmod", "-R", "u+w", folder])


def again(it: Bazel) -> str:
    """Nothing is run again without a change, and of one script only its shard."""
    # the shard that was killed may be run once more
    it.call(*ALL)
    first = it.call(*ALL)
    with open(os.path.join(it.folder, "screens", "part003", "s00600.script"), "a", encoding="utf-8") as file:
        file.write("# changed\n")
    second = it.call(*ALL)
    said = [runs_of(text) for _, text in (first, second)]
    wanted = ["Executed %d out of %d tests: %d tests pass." % (count, SHARDS, SHARDS) for count in (0, 1)]
    return "" if said == wanted else "again: %s" % said


def whole(it: Bazel) -> str:
    """The shards of Bazel itself, by its variables."""
    status, text = it.call("test", "//screens:whole", "--jobs=2")
    reports = it.reports("whole")
    return count_once(reports, it.folder, "screens/part000") if (status, len(reports)) == (0, 4) else text[-1500:]


# GNU parallel


SERVER = '''ListenAddress 127.0.0.1
Port %(port)d
HostKey %(folder)s/host
AuthorizedKeysFile %(folder)s/user.pub
StrictModes no
UsePAM no
PidFile none
MaxStartups 100
'''
CLIENT = '''Host machine
  HostName 127.0.0.1
  Port %(port)d
  IdentityFile %(folder)s/user
  User %(user)s
  StrictHostKeyChecking no
  UserKnownHostsFile /dev/null
  LogLevel ERROR
'''


def free_port() -> int:
    with socket.socket() as it:
        it.bind(("127.0.0.1", 0))
        port = it.getsockname()[1]
        assert isinstance(port, int)
        return port


@contextlib.contextmanager
def running(*command: str) -> Iterator["subprocess.Popen[bytes]"]:
    """A server that ends with this."""
    with subprocess.Popen(command, stdout=subprocess.DEVNULL, stderr=subprocess.DEVNULL) as it:
        try:
            yield it
        finally:
            it.terminate()
            try:
                it.wait(10)
            except subprocess.TimeoutExpired:
                it.kill()


@contextlib.contextmanager
def machine(folder: str) -> Iterator[str]:
    """A server of SSH for this machine alone. Yields a command by which it is reached under the name `machine`."""
    sshd = shutil.which("sshd") or need("/usr/sbin/sshd")
    for name in ("host", "user"):
        key = os.path.join(folder, name)
        subprocess.run([need("ssh-keygen"), "-q", "-t", "ed25519", "-N", "", "-f", key], check=True)
    port = free_port()
    os.makedirs("/run/sshd", exist_ok=True)
    names = {"port": port, "folder": folder, "user": getpass.getuser()}
    write(os.path.join(folder, "sshd_config"), SERVER % names)
    write(os.path.join(folder, "ssh_config"), CLIENT % names)
    with running(sshd, "-D", "-f", os.path.join(folder, "sshd_config")):
        command = "ssh -F %s/ssh_config" % folder
        for _ in range(100):
            if subprocess.run([*command.split(), "machine", "true"], stderr=subprocess.DEVNULL).returncode == 0:
                break
            time.sleep(0.1)
        yield command


def recipe(name: str, folder: str, variables: Dict[str, str], mark: str = "") -> Tuple[int, str]:
    """Runs a recipe of docs/ci/ over the scripts in ten parts, of which one is killed. Returns its status, and what it
    writes."""
    path = os.path.join(TOP, "docs", "ci", name)
    place = {"RUNALL": RUNALL, "XDG_CACHE_HOME": os.path.join(folder, "home"), **variables}
    call = subprocess.Popen(["sh", path, str(SHARDS), os.path.join(folder, "out"), os.path.join(folder, "screens")],
                            cwd=folder, env={**os.environ, **place}, stdout=subprocess.PIPE, stderr=subprocess.STDOUT)
    is_killed = not mark or kill_first(mark)
    out, _ = call.communicate(timeout=60 * MINUTES)
    return (call.returncode if is_killed else -1), out.decode()


def by_parallel(folder: str, variables: Dict[str, str]) -> str:
    """Runs the recipe of GNU parallel on some machines, and looks at the reports, also without one of a part."""
    status, text = recipe("parallel.sh", folder, variables, os.path.join(folder, "screens"))
    last = "%d passed, 0 failed" % COUNT
    if status or text.splitlines()[-1:] != [last]:
        return "status %d: %s" % (status, text[-1500:])
    paths = [os.path.join(folder, "out", "%d.xml" % part) for part in range(1, SHARDS + 1)]
    why = count_once(paths, folder, os.path.join(folder, "screens"))
    os.unlink(paths[3])
    lacking = count_once([it for it in paths if os.path.exists(it)], folder, os.path.join(folder, "screens"))
    return why or ("" if "there is no report of part 4 of 10" in lacking else "without a part: %s" % lacking)


def gnu_parallel() -> str:
    """On this machine, without SSH."""
    need("parallel")
    with scripts() as folder:
        return by_parallel(folder, {"MACHINES": "2/:"})


def gnu_parallel_by_ssh() -> str:
    need("parallel")
    with scripts() as folder, machine(folder) as ssh:
        return by_parallel(folder, {"MACHINES": "2/machine", "PARALLEL_SSH": ssh})


# Slurm

SLURM = '''ClusterName=farm
SlurmctldHost=%(host)s(127.0.0.1)
SlurmUser=root
SlurmctldPort=%(control)d
SlurmdPort=%(node)d
AuthType=auth/munge
AuthInfo=socket=%(folder)s/munge/socket
CredType=cred/munge
StateSaveLocation=%(folder)s/state
SlurmdSpoolDir=%(folder)s/spool
SlurmctldPidFile=%(folder)s/control.pid
SlurmdPidFile=%(folder)s/node.pid
SlurmctldLogFile=%(folder)s/control.log
SlurmdLogFile=%(folder)s/node.log
ProctrackType=proctrack/linuxproc
TaskPlugin=task/none
SelectType=select/cons_tres
SelectTypeParameters=CR_CPU
MailProg=/bin/true
ReturnToService=2
NodeName=node NodeHostname=%(host)s NodeAddr=127.0.0.1 CPUs=2 State=UNKNOWN
PartitionName=all Nodes=node Default=YES MaxTime=INFINITE State=UP
'''


def state_of_node(variables: Dict[str, str]) -> bytes:
    """What Slurm says of its node."""
    said = subprocess.run(["sinfo", "-h", "-o", "%T"], env={**os.environ, **variables}, stdout=subprocess.PIPE,
                          stderr=subprocess.DEVNULL)
    return said.stdout.strip()


@contextlib.contextmanager
def cluster(folder: str) -> Iterator[Dict[str, str]]:
    """Slurm with one node, this machine, and Munge. Yields the variables by which it is reached."""
    for name in ("munge", "state", "spool"):
        os.makedirs(os.path.join(folder, name), mode=0o755)
    os.chmod(folder, 0o755)
    munge = os.path.join(folder, "munge")
    with open(os.path.join(munge, "key"), "wb") as file:
        file.write(os.urandom(128))
    os.chmod(os.path.join(munge, "key"), 0o400)
    config = os.path.join(folder, "slurm.conf")
    host = socket.gethostname().split(".")[0]
    write(config, SLURM % {"host": host, "control": free_port(), "node": free_port(), "folder": folder})
    variables = {"SLURM_CONF": config}
    files = ("key-file", "socket", "pid-file", "log-file", "seed-file")
    own = ["--%s=%s/%s" % (name, munge, name.split("-")[0]) for name in files]
    with contextlib.ExitStack() as stack:
        stack.enter_context(running(need("munged"), "--foreground", "--force", *own))
        time.sleep(1)
        stack.enter_context(running(need("slurmctld"), "-D", "-f", config))
        stack.enter_context(running(need("slurmd"), "-D", "-f", config, "-N", "node"))
        for _ in range(300):
            if state_of_node(variables) == b"idle":
                break
            time.sleep(0.2)
        try:
            yield variables
        finally:
            subprocess.run(["scancel", "-u", "root"], env={**os.environ, **variables}, stderr=subprocess.DEVNULL)


def slurm() -> str:
    """An array, of which one part is killed: what is missing is said, and no case passes that was not run."""
    need("sbatch")
    with scripts() as folder, cluster(folder) as variables:
        status, text = recipe("slurm.sh", folder, variables)
        if status or text.splitlines()[-1:] != ["%d passed, 0 failed" % COUNT]:
            return "status %d: %s" % (status, text[-1500:])
        shutil.rmtree(os.path.join(folder, "out"))
        shutil.rmtree(os.path.join(folder, "home"))
        status, text = recipe("slurm.sh", folder, variables, os.path.join(folder, "screens"))
        with open(os.path.join(folder, "out", "merge.log"), encoding="utf-8") as file:
            log = file.read()
        tree = ElementTree.parse(os.path.join(folder, "out.xml")).getroot()
        lost = sum(it.find("error") is not None for it in tree.iter("testcase"))
        last = "%d passed, %d failed" % (COUNT - lost, lost)
        is_said = "there is no report of part" in log and text.splitlines()[-1:] == [last]
        why = "a killed part: status %d, %d lost, %s" % (status, lost, log[-800:])
        return "" if status == 1 and lost and is_said else why


def checks() -> Checks:
    yield from named("engines", (bazel, gnu_parallel, gnu_parallel_by_ssh, slurm))
