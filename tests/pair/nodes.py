"""Machines that are namespaces of this one: each has its own network, its own mounts and its own name.

All lies in the namespaces of the run itself (`inside`), so it ends with the run, and this machine's network and mounts stay as they are.
"""
import ctypes
import os
import shutil
import subprocess
import sys
import threading
import time

NEW_NET = 0x40000000
LIBC = ctypes.CDLL(None, use_errno=True)
NETWORK = "10.61.0"
FLOATING, SOUTHERN = f"{NETWORK}.100", f"{NETWORK}.101"
ADDRESS_AGENT = "/usr/lib/ocf/resource.d/heartbeat/IPaddr2"
# What a run ends with where this machine lacks something that it needs.
LACKS = 77


def lacking(programs, devices=("/dev/fuse",)):
    """What this machine lacks, a line each."""
    lacks = [] if os.geteuid() == 0 else ["root: namespaces and mounts are made"]
    lacks += [f"the program {name} (Debian's {package})" for name, package in programs.items() if not shutil.which(name)]
    if shutil.which("unshare") and os.geteuid() == 0:
        for words, what in ((["--mount"], "mount namespaces"), (["--net"], "network namespaces"), (["--pid", "--fork"], "process namespaces")):
            if subprocess.call(["unshare", *words, "true"], stderr=subprocess.DEVNULL):
                lacks.append(f"{what} (unshare {words[0]})")
    for device in devices:
        try:
            os.close(os.open(device, os.O_RDWR))
        except OSError as error:
            lacks.append(f"{device}: {error.strerror}")
    return lacks


def inside(script, words, folder, seconds):
    """Runs the script again in namespaces of its own, for so many seconds at most. All that it started ends with it."""
    names = ["--mount", "--net", "--pid", "--ipc", "--fork", "--kill-child", "--mount-proc"]
    # A shell is the first process there, since it buries what daemons leave.
    shell = ["sh", "-c", '"$@"; exit $?', "sh"]
    command = ["timeout", "-k", "10", str(seconds), "unshare", *names, *shell, sys.executable, script, *words]
    return subprocess.call(command, env={**os.environ, "PAIR_ROOM": folder})


def make_switch():
    """The network that the nodes are on."""
    for words in ("link set lo up", "link add switch type bridge", "link set switch up"):
        subprocess.run(["ip", *words.split()], check=True)


class Node:
    """One machine. `files` are folders of its own that programs find under the usual names."""

    def __init__(self, room, number, files=(), name=None):
        self.number, self.name = number, name or f"node{number}"
        self.address, self.port = f"{NETWORK}.{number}", f"port{number}"
        self.room = os.path.join(room, self.name)
        os.makedirs(self.room)
        script = ["set -e", "mount --make-rprivate /", "mount -t tmpfs run /run", "mount -t tmpfs srv /srv", "mkdir -p /run/lock /run/resource-agents"]
        script.append(f"mount --bind {self.hosts(room)} /etc/hosts")
        for folder in files:
            os.makedirs(folder, exist_ok=True)
            own = os.path.join(self.room, folder.strip("/").replace("/", "-"))
            os.makedirs(own)
            script.append(f"mount --bind {own} {folder}")
        script += [f"hostname {self.name}", "echo made", "exec sleep infinity"]
        self.holder = subprocess.Popen(
            ["unshare", "--net", "--mount", "--uts", "sh", "-c", "\n".join(script)], stdout=subprocess.PIPE, text=True)
        if self.holder.stdout.readline() != "made\n":
            raise SystemExit(f"{self.name} was not made")
        self.connect()

    def hosts(self, room):
        path = os.path.join(room, "hosts")
        if not os.path.exists(path):
            with open(path, "w") as file:
                file.write("127.0.0.1 localhost\n" + "".join(f"{NETWORK}.{number} node{number}\n" for number in range(1, 10)))
        return path

    def connect(self):
        subprocess.run(["ip", "link", "add", self.port, "type", "veth", "peer", "name", f"eth{self.number}"], check=True)
        subprocess.run(["ip", "link", "set", f"eth{self.number}", "netns", str(self.holder.pid), "name", "eth0"], check=True)
        subprocess.run(["ip", "link", "set", self.port, "master", "switch", "up"], check=True)
        self.run("ip", "link", "set", "lo", "up")
        self.run("ip", "address", "add", f"{self.address}/24", "dev", "eth0")
        self.run("ip", "link", "set", "eth0", "up")

    def words(self, *words):
        return ["nsenter", "--target", str(self.holder.pid), "--net", "--mount", "--uts", "--", *words]

    def run(self, *words, seconds=60, check=True):
        """What the command prints."""
        ran = subprocess.run(self.words(*words), capture_output=True, text=True, timeout=seconds)
        if check and ran.returncode:
            raise RuntimeError(f"{self.name}: {' '.join(words)}: {ran.returncode} {ran.stdout}{ran.stderr}")
        return ran.stdout

    def start(self, *words, **how):
        return subprocess.Popen(self.words(*words), **how)

    def enter(self):
        """This thread's sockets are the node's from here on."""
        with open(f"/proc/{self.holder.pid}/ns/net") as file:
            if LIBC.setns(file.fileno(), NEW_NET):
                raise OSError(ctypes.get_errno(), f"{self.name} can't be entered")

    def thread(self, work, *words):
        """Starts a thread on the node."""
        def entered():
            self.enter()
            work(*words)
        thread = threading.Thread(target=entered, daemon=True)
        thread.start()
        return thread

    # ---- mishaps

    def cut(self):
        """The interface is down from here on; its address and those that float go with it."""
        self.run("ip", "link", "set", "eth0", "down")

    def mend(self):
        self.run("ip", "link", "set", "eth0", "up")

    def isolate(self, is_cut):
        """Isolated nodes do not reach each other, and reach the others."""
        subprocess.run(["bridge", "link", "set", "dev", self.port, "isolated", "on" if is_cut else "off"], check=True)

    # ---- the address that clients use

    def agent(self, action, name, check=True, **words):
        """Calls a resource agent as Pacemaker calls it."""
        settings = ["OCF_ROOT=/usr/lib/ocf", f"OCF_RESOURCE_INSTANCE={os.path.basename(name)}", f"__OCF_ACTION={action}"]
        settings += [f"OCF_RESKEY_{word}={value}" for word, value in words.items()]
        self.run("env", *settings, name, action, check=check)

    def take_address(self, address=FLOATING):
        self.agent("start", ADDRESS_AGENT, ip=address, cidr_netmask=24, nic="eth0")

    def drop_address(self, address=FLOATING):
        self.agent("stop", ADDRESS_AGENT, ip=address, cidr_netmask=24, nic="eth0")


def wait_until(true, seconds, pause=0.2):
    """Whether it became true in time."""
    until = time.monotonic() + seconds
    while time.monotonic() < until:
        if true():
            return True
        time.sleep(pause)
    return bool(true())
