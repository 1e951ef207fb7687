"""`smscd` over a store of its own, as the scripts beside this file start it."""
import os
import socket
import subprocess
import threading
import time

HERE = os.path.dirname(os.path.abspath(__file__))
PROGRAM = os.environ.get("SMSCD", os.path.join(HERE, "..", "..", "crates", "smscd", "out", "smscd"))
NUMBER = "447700900000"


def free_port():
    with socket.socket() as probe:
        probe.bind(("127.0.0.1", 0))
        return probe.getsockname()[1]


class Centre:
    """A run of the program. `told` has the lines of its standard error."""

    def __init__(self, store, accounts, sessions=4294967295, status=None, words=()):
        self.store, self.told = store, []
        self.smpp_port, self.link_port = free_port(), free_port()
        # The list of processes shows no password.
        file = store + ".accounts"
        with open(os.open(file, os.O_WRONLY | os.O_CREAT | os.O_TRUNC, 0o600), "w") as lines:
            lines.writelines(":".join(account) + "\n" for account in accounts)
        asked = [PROGRAM, "--store", store, "--smpp", str(self.smpp_port), "--links", str(self.link_port)]
        asked += ["--centre", NUMBER, "--sessions", str(sessions), "--accounts", file]
        if status:
            asked += ["--status", str(status)]
        asked += list(words)
        self.process = subprocess.Popen(asked, stdout=subprocess.DEVNULL, stderr=subprocess.PIPE, text=True)
        self.listens = threading.Event()
        self.reader = threading.Thread(target=self.read, daemon=True)
        self.reader.start()
        if not self.listens.wait(60) or not self.is_listening():
            raise SystemExit("smscd does not listen: " + " ".join(self.told))

    def read(self):
        for line in self.process.stderr:
            self.told.append(line.rstrip("\n"))
            if "listening" in line:
                self.listens.set()
        self.listens.set()

    def is_listening(self):
        return any("listening" in line for line in self.told)

    def tells(self, words, seconds=10):
        """Whether a line has these words, now or in the next seconds."""
        until = time.monotonic() + seconds
        while time.monotonic() < until:
            if any(words in line for line in self.told):
                return True
            time.sleep(0.05)
        return False

    def kill(self):
        self.process.kill()
        self.process.wait()
        self.reader.join()

    def processor_seconds(self):
        with open(f"/proc/{self.process.pid}/stat") as file:
            words = file.read().rsplit(")", 1)[1].split()
        return (int(words[11]) + int(words[12])) / os.sysconf("SC_CLK_TCK")
