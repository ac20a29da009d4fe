"""A bench on wires: network namespaces of its own, veth pairs between them, a unit in one, and in the other what sends to it and captures.

The unit's end of a wire is NAME0, the bench's NAME1."""
import functools
import os
import shutil
import signal
import subprocess
import sys
import time

from program import TOP

INSIDE = "--inside"
# The ways into a network namespace of one's own, of which the first that the system allows is taken. In a user namespace nobody is root, since
# tcpdump would then become another user, which that hasn't.
WAYS = (["unshare", "-n"], ["unshare", "-Un", "--map-user=1000", "--map-group=1000", "--keep-caps"])
TOOLS = (("unshare", "util-linux"), ("nsenter", "util-linux"), ("ip", "iproute2"), ("tcpdump", "tcpdump"))
SECONDS = 20
# In tcpdump's buffer each frame takes as many bytes as its longest.
SNAP = 2048
PACKAGE = os.path.join(TOP, "python")


def lacking():
    """Why there can be no bench here, or nothing."""
    for tool, package in TOOLS:
        if not shutil.which(tool):
            return f"{tool} isn't installed (Debian's package {package})"
    if way() is None:
        return "the system allows neither a network namespace (unshare -n) nor one of a user's own (unshare -Un --map-user=1000 --keep-caps)"
    return ""


@functools.lru_cache(maxsize=None)
def way():
    """The command that makes the namespace of a bench, in which veth pairs can be made; None where the system allows none."""
    make_pair = ["ip", "link", "add", "one", "type", "veth", "peer", "name", "other"]
    for command in WAYS:
        if subprocess.run([*command, *make_pair], stdout=subprocess.DEVNULL, stderr=subprocess.DEVNULL, check=False).returncode == 0:
            return command
    return None


def enter(words):
    """Runs this program once more in a namespace of its own: what it wrote and said, and its status."""
    command = [*way(), sys.executable, "-B", os.path.abspath(sys.argv[0]), INSIDE, *words]
    return subprocess.run(command, stdout=subprocess.PIPE, stderr=subprocess.STDOUT, check=False)


def wait_for(is_there, what, seconds=SECONDS):
    """Waits until something is there. Ends the test where it doesn't come."""
    until = time.monotonic() + seconds
    while not is_there():
        if time.monotonic() > until:
            raise TimeoutError(f"{what} doesn't come within {seconds} seconds")
        time.sleep(0.01)


def read(path):
    with open(path, "rb") as file:
        return file.read()


class Process:
    """A program that runs beside the test, whose standard output and error go to files."""

    def __init__(self, folder, name, command, **more):
        self.out, self.err = (os.path.join(folder, f"{name}.{end}") for end in ("out", "err"))
        with open(self.out, "wb") as out, open(self.err, "wb") as err:
            self.process = subprocess.Popen(command, stdin=subprocess.DEVNULL, stdout=out, stderr=err, **more)

    def wait_for_words(self, words):
        wait_for(lambda: words in read(self.err) or self.process.poll() is not None, f"{words.decode()} of {self.process.args[:4]}")
        if words not in read(self.err):
            raise RuntimeError(f"{self.process.args}: {read(self.err).decode()}")

    def end(self, number=signal.SIGTERM):
        """Ends it, and gives what it wrote, what it said, and its status."""
        if self.process.poll() is None:
            self.process.send_signal(number)
        status = self.process.wait(SECONDS)
        return read(self.out).decode(), read(self.err).decode(), status

    def kill(self):
        self.process.kill()
        self.process.wait()


class Bench:
    """The wires, and all processes at them. It is made inside a namespace, and ends its processes at its end."""

    def __init__(self, folder, names):
        self.folder, self.processes, self.captures = folder, [], {}
        self.holder = subprocess.Popen(["unshare", "-n", "sleep", "100000"])
        ours = os.readlink("/proc/self/ns/net")
        wait_for(lambda: os.readlink(f"/proc/{self.holder.pid}/ns/net") != ours, "a second namespace")
        self.theirs = ["nsenter", f"--net=/proc/{self.holder.pid}/ns/net"]
        self.ip("".join(f"link add {name}1 type veth peer name {name}0\nlink set {name}0 netns {self.holder.pid}\n" for name in names))
        self.ip("".join(self.up(f"{name}1") for name in names))
        self.ip("".join(self.up(f"{name}0") for name in names), self.theirs)

    @staticmethod
    def up(name):
        """What makes an interface ready that nothing but the test sends by."""
        return f"link set {name} addrgenmode none\nlink set {name} arp off multicast off\nlink set {name} up\n"

    def ip(self, lines, within=()):
        subprocess.run([*within, "ip", "-batch", "-"], input=lines.encode(), check=True)

    def begin(self, name, command, **more):
        process = Process(self.folder, name, command, **more)
        self.processes.append(process)
        return process

    def unit(self, *words, program=("-m", "onuctl.live")):
        """A unit, once it is ready."""
        environment = {**os.environ, "PYTHONPATH": PACKAGE}
        unit = self.begin(f"unit{len(self.processes)}", [*self.theirs, sys.executable, "-B", *program, *words], env=environment)
        unit.wait_for_words(b"ready: ")
        return unit

    def path(self, name):
        return os.path.join(self.folder, name)

    def capture(self, *names):
        """Begins a capture of each wire by tcpdump, at the bench's end."""
        for name in names:
            words = ["-i", f"{name}1", "-w", self.path(f"{name}.pcap"), "-s", f"{SNAP}", "-B", "8192", "--immediate-mode", "-Z", "root"]
            self.captures[name] = self.begin(f"tcpdump_{name}", ["tcpdump", "-n", "--time-stamp-precision=nano", *words])
        for process in self.captures.values():
            process.wait_for_words(b"listening on ")

    def end_captures(self):
        """Ends them, once what is on its way has come, and gives how many frames tcpdump lost."""
        time.sleep(0.3)
        said = [process.end(signal.SIGINT)[1] for process in self.captures.values()]
        self.captures = {}
        return sum(int(line.split()[0]) for lines in said for line in lines.splitlines() if line.endswith("dropped by kernel"))

    def close(self):
        for process in self.processes:
            process.kill()
        self.holder.kill()
        self.holder.wait()

    def __enter__(self):
        return self

    def __exit__(self, *exception):
        self.close()
