"""A day over several machines: here each a network of its own with a server for ssh."""

import contextlib
import itertools
import os
import shutil
import subprocess
import tempfile
import time
from pathlib import Path

from support import TAPEBOX, TOOLS, Case, run

# The system's own commands may not be on the path.
PATH = os.environ["PATH"] + ":/usr/sbin:/sbin"
NEEDED = ("parallel", "rsync", "ssh", "ssh-keygen", "sshd", "ip")
# Names and addresses of this run alone: the addresses are of those that are for trials between networks.
NAME = f"tape{os.getpid() % 10_000_000}-"
NETWORK = f"198.18.{os.getpid() % 256}"
# A name is not free at once after its network is taken away.
NUMBERS = itertools.count()
# Makes the host's own folders, and serves.
SERVE = 'mount -t tmpfs tmpfs /run && mkdir /run/sshd && mount -t tmpfs tmpfs "$1" && exec "$2" -D -e -f "$3"'
PARTS = 4
LIMIT = 120


def command(*words, **options):
    """Runs a command of the system."""
    return subprocess.run(words, check=True, capture_output=True, env=os.environ | {"PATH": PATH}, timeout=LIMIT, **options)


def why_not():
    """Why there can be no hosts here, or nothing."""
    missing = [name for name in NEEDED if not shutil.which(name, path=PATH)]
    if missing:
        return f"no {', '.join(missing)}"
    try:
        command("ip", "netns", "add", NAME)
        command("ip", "netns", "exec", NAME, "mount", "-t", "tmpfs", "tmpfs", "/run")
    except subprocess.CalledProcessError as fault:
        return f"no networks of its own: {fault.stderr.decode().strip()}"
    finally:
        subprocess.run(["ip", "netns", "del", NAME], check=False, capture_output=True, env={"PATH": PATH})
    return ""


class Host:
    """A host: its address, and the server that ends with it."""

    def __init__(self):
        number = next(NUMBERS)
        self.name = f"{NAME}{number}"
        self.here, self.address = f"{NETWORK}.{4 * number + 1}", f"{NETWORK}.{4 * number + 2}"
        self.server = None
        command("ip", "netns", "add", self.name)

    def begin(self, folder):
        """Connects the host, and starts its server."""
        command("ip", "link", "add", self.name, "type", "veth", "peer", "name", "eth0", "netns", self.name)
        command("ip", "addr", "add", f"{self.here}/30", "dev", self.name)
        command("ip", "-n", self.name, "addr", "add", f"{self.address}/30", "dev", "eth0")
        command("ip", "link", "set", self.name, "up")
        for device in ("lo", "eth0"):
            command("ip", "-n", self.name, "link", "set", device, "up")
        words = ["ip", "netns", "exec", self.name, "sh", "-c", SERVE, "sh", folder / "room", shutil.which("sshd", path=PATH), folder / "server"]
        self.server = subprocess.Popen(words, env=os.environ | {"PATH": PATH}, stdout=subprocess.DEVNULL, stderr=subprocess.DEVNULL)

    def cut_off(self):
        """Pulls the host's plug."""
        command("ip", "link", "set", self.name, "down")

    def end(self):
        """Ends all that runs on the host, and takes it away."""
        for process in command("ip", "netns", "pids", self.name).stdout.split():
            subprocess.run(["kill", "-KILL", process], check=False, capture_output=True)
        if self.server:
            self.server.wait()
        command("ip", "netns", "del", self.name)


@contextlib.contextmanager
def hosts(count, folder):
    """So many hosts, which share all files but the folder `room`."""
    (folder / "room").mkdir()
    for name in ("key", "host"):
        command("ssh-keygen", "-q", "-t", "ed25519", "-N", "", "-f", folder / name)
    shutil.copy(folder / "key.pub", folder / "allowed")
    (folder / "server").write_text(
        f"HostKey {folder}/host\nAuthorizedKeysFile {folder}/allowed\nPermitRootLogin prohibit-password\nStrictModes no\nPidFile none\n"
        f"UsePAM no\nMaxStartups 100\nSetEnv PATH={PATH}\n"
    )
    started = []
    try:
        for _ in range(count):
            started.append(Host())
            started[-1].begin(folder)
        key = " ".join((folder / "host.pub").read_text().split()[:2])
        (folder / "known").write_text("".join(f"{host.address} {key}\n" for host in started))
        yield started
    finally:
        for host in started:
            host.end()


class Machines(Case):
    def setUp(self):
        reason = why_not()
        if reason:
            self.skipTest(reason)
        folder = tempfile.TemporaryDirectory()
        self.addCleanup(folder.cleanup)
        self.folder = Path(folder.name)
        self.hosts = self.enterContext(hosts(2, self.folder))
        self.ssh = f"ssh -F none -i {self.folder}/key -o UserKnownHostsFile={self.folder}/known -o BatchMode=yes -o ConnectTimeout=2"
        for host in self.hosts:
            self.wait_for_server(host)

    def wait_for_server(self, host):
        """Waits until the host lets itself be called."""
        until = time.monotonic() + LIMIT
        while subprocess.run([*self.ssh.split(), host.address, "true"], check=False, capture_output=True).returncode:
            self.assertLess(time.monotonic(), until)
            time.sleep(0.1)

    def program(self, text):
        """A program in the place of tapebox, which says where it runs."""
        path = self.folder / "program"
        path.write_text(f'#!/bin/sh\nreadlink /proc/self/ns/net >> "{self.folder}/where"\n{text}\n')
        path.chmod(0o755)
        return path

    def environment(self, program):
        """What split_day.py is given."""
        ssh = f"{self.ssh} -o ServerAliveInterval=1 -o ServerAliveCountMax=2"
        logins = ",".join(host.address for host in self.hosts)
        more = {"TAPEBOX": str(program), "PARALLEL": f"--sshlogin {logins}", "PARALLEL_SSH": ssh, "TMPDIR": str(self.folder / "room"), "PATH": PATH}
        return os.environ | more

    def table(self):
        """A day of some symbols."""
        path = self.folder / "day.csv"
        rows = [f"N,{number},S{number % 7},{10 + number}.00,100,@___\n" for number in range(1, 100)]
        path.write_text("participant,number,symbol,price,size,condition\n" + "".join(rows))
        return path

    def test_a_day_over_two_hosts(self):
        """SCALE, "Several machines": the parts run on both hosts, and the report is the one of this machine alone."""
        table = self.table()
        alone = run([table, PARTS], program=TOOLS / "split_day.py", env=os.environ | {"TAPEBOX": str(TAPEBOX)})
        ended = run([table, PARTS], program=TOOLS / "split_day.py", env=self.environment(self.program(f'exec "{TAPEBOX}" "$@"')), limit=LIMIT)
        self.assertEqual(ended, alone)
        self.assertEqual((alone.status, alone.said), (0, b""))
        self.assertEqual(len(set((self.folder / "where").read_text().split())), len(self.hosts))

    def test_a_host_that_is_gone(self):
        """SCALE, "Several machines": a host that is gone in the middle ends the run with a line that names it, and no report."""
        words = [TOOLS / "split_day.py", self.table(), str(PARTS)]
        running = subprocess.Popen(words, env=self.environment(self.program("sleep 600")), stdout=subprocess.PIPE, stderr=subprocess.PIPE)
        self.addCleanup(running.kill)
        until = time.monotonic() + LIMIT
        while not (self.folder / "where").exists() or len((self.folder / "where").read_text().split()) < PARTS:
            self.assertIsNone(running.poll())
            self.assertLess(time.monotonic(), until)
            time.sleep(0.1)
        self.hosts[1].cut_off()
        written, said = running.communicate(timeout=LIMIT)
        self.assertEqual((running.returncode, written), (1, b""))
        self.assertRegex(said.decode(), rf"\Asplit_day\.py: [^\n]*{self.hosts[1].address}[^\n]*\n\Z")
