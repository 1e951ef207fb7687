"""A volume of GlusterFS on three nodes: a replica on each, with the settings of docs/PAIR.md."""
import glob
import hashlib
import os
import re
import subprocess

import nodes

HERE = os.path.dirname(os.path.abspath(__file__))
PAGE = os.path.join(HERE, "..", "..", "docs", "PAIR.md")
FOLDERS = ("/var/lib/glusterd", "/var/log/glusterfs")
BRICK, MOUNT, NAME = "/srv/brick", "/srv/smsc", "smsc"
PROGRAMS = {
    "glusterd": "glusterfs-server", "gluster": "glusterfs-cli", "mount.glusterfs": "glusterfs-client", "ip": "iproute2", "bridge": "iproute2",
    "unshare": "util-linux", "nsenter": "util-linux",
}


def settings():
    """The lines `gluster volume set smsc NAME VALUE` of the page, as pairs."""
    with open(PAGE) as page:
        found = re.findall(r"^gluster volume set smsc (\S+) (\S+)$", page.read(), re.MULTILINE)
    if len(found) < 10:
        raise SystemExit("docs/PAIR.md has lost its settings")
    return found


def mount_options():
    """The options of the page's line in /etc/fstab."""
    with open(PAGE) as page:
        found = re.search(r"^localhost:/smsc /srv/smsc glusterfs (\S+) 0 0$", page.read(), re.MULTILINE)
    return found.group(1)


class Volume:
    def __init__(self, room):
        self.nodes = [nodes.Node(room, number, FOLDERS) for number in (1, 2, 3)]
        self.daemons = {}
        for node in self.nodes:
            # A file system of its own, as the page has it; here it lies in memory.
            node.run("mkdir", BRICK, MOUNT)
            node.run("mount", "-t", "tmpfs", "-o", "size=512m", "brick", BRICK)
            os.makedirs(os.path.join(node.room, "log"))
            self.start_daemon(node)

    def start_daemon(self, node):
        node.run("mkdir", "-p", "/run/gluster")
        self.daemons[node] = node.start("glusterd", "--no-daemon", "--log-level", "WARNING", stdout=subprocess.DEVNULL, stderr=subprocess.DEVNULL)

    def ask(self, *words, node=None, check=True, seconds=130):
        try:
            return (node or self.nodes[0]).run("gluster", "--mode=script", *words, check=check, seconds=seconds)
        except subprocess.TimeoutExpired:
            # A daemon that is only starting may leave a question without an answer.
            if check:
                raise
            return ""

    def make(self):
        def answers(node):
            return "Number of Peers" in self.ask("peer", "status", node=node, check=False, seconds=20)
        if not nodes.wait_until(lambda: all(answers(node) for node in self.nodes), 180):
            raise SystemExit("glusterd does not answer")
        for name in ("node2", "node3"):
            self.ask("peer", "probe", name)
        def is_whole():
            return all(self.ask("peer", "status", node=node, check=False).count("Peer in Cluster (Connected)") == 2 for node in self.nodes)
        if not nodes.wait_until(is_whole, 60):
            raise SystemExit("the three do not know each other: " + self.ask("peer", "status"))
        self.ask("volume", "create", NAME, "replica", "3", *(f"node{number}:{BRICK}/{NAME}" for number in (1, 2, 3)))
        # One command for all of them, which takes any number of pairs.
        self.ask("volume", "set", NAME, *(word for pair in settings() for word in pair))
        self.ask("volume", "start", NAME)
        for node in self.nodes:
            self.mount(node)

    def mount(self, node):
        node.run("mount", "-t", "glusterfs", "-o", mount_options(), f"localhost:/{NAME}", MOUNT)

    def mount_anew(self, node):
        """Leaves the mount to whatever still hangs in it, and makes a new one."""
        node.run("umount", "-l", MOUNT, check=False)
        self.mount(node)

    # ---- bricks

    def brick(self, node):
        """The process of the node's brick."""
        for path in glob.glob("/proc/[0-9]*/cmdline"):
            try:
                with open(path) as file:
                    words = file.read().split("\0")
            except OSError:
                continue
            if words[0].endswith("glusterfsd") and "--brick-name" in words and f"{node.name}:" not in words:
                if words[words.index("--volfile-id") + 1].startswith(f"{NAME}.{node.name}."):
                    return int(path.split("/")[2])
        return None

    def revive(self):
        self.ask("volume", "start", NAME, "force")

    def to_heal(self):
        """How many entries wait to be healed; None where a brick does not answer."""
        said = self.ask("volume", "heal", NAME, "info", check=False)
        counts = re.findall(r"^Number of entries: (\S+)$", said, re.MULTILINE)
        if len(counts) != 3 or "-" in counts:
            return None
        return sum(map(int, counts))

    def heals(self, seconds):
        self.ask("volume", "heal", NAME, check=False)
        return nodes.wait_until(lambda: self.to_heal() == 0, seconds, 1)

    def sums(self, name):
        """The checksum of each brick's own file."""
        return [self.sum(node, name) for node in self.nodes]

    def sum(self, node, name):
        path = f"/proc/{node.holder.pid}/root{BRICK}/{NAME}/{name}"
        with open(path, "rb") as file:
            return hashlib.sha256(file.read()).hexdigest()
