"""A centre on a node, banks and a handset round it, and a record of all that they were told."""
import os
import subprocess
import sys
import threading
import time

import nodes

HERE = os.path.dirname(os.path.abspath(__file__))
sys.path.insert(0, os.path.join(HERE, "..", "clients"))
import handset as handsets  # noqa: E402
import smpp  # noqa: E402

PROGRAM = os.path.abspath(os.environ.get("SMSCD", os.path.join(HERE, "..", "..", "crates", "smscd", "out", "smscd")))
SMPP, LINKS, NUMBER = 2775, 2776, "447700900000"
ACCOUNTS = [("bank", "Tr0ub4d0", "447700900001"), ("alerts", "pAss.w0r", "447700900002")]
READER = "447700900101"
FINAL = {2: "DELIVRD", 3: "EXPIRED", 4: "DELETED", 5: "UNDELIV", 8: "REJECTD"}
BUSY = "another program has it open"
# So many seconds a look at the store takes at most.
LOOK = 2 * int(os.environ.get("PATIENCE", "60"))


class Centre:
    """A run of the program on a node, over the store of that path."""

    def __init__(self, node, store, ports=(SMPP, LINKS)):
        self.node, self.store, self.told = node, store, []
        file = os.path.join(node.room, "accounts")
        with open(os.open(file, os.O_WRONLY | os.O_CREAT | os.O_TRUNC, 0o600), "w") as lines:
            lines.writelines(":".join(account) + "\n" for account in ACCOUNTS)
        self.words = ["--store", store, "--smpp", str(ports[0]), "--links", str(ports[1]), "--centre", NUMBER, "--sessions", "4294967295"]
        self.words += ["--accounts", file, "--control", os.path.join(node.room, f"control{ports[0]}")]
        self.process = node.start(PROGRAM, *self.words, stdout=subprocess.DEVNULL, stderr=subprocess.PIPE, text=True)
        self.settled = threading.Event()
        self.ended = None
        self.reader = threading.Thread(target=self.read, daemon=True)
        self.reader.start()

    def read(self):
        for line in self.process.stderr:
            self.told.append(line.rstrip("\n"))
            if "event=listening" in line:
                self.settled.set()
        self.process.wait()
        self.ended = time.monotonic()
        self.settled.set()

    def listens(self, seconds):
        self.settled.wait(seconds)
        return self.process.poll() is None and any("event=listening" in line for line in self.told)

    def why(self):
        """Its last line that is no event, and its status."""
        lines = [line for line in self.told if line.startswith("smscd: ")]
        return self.process.poll(), lines[-1] if lines else ""

    def kill(self):
        self.process.kill()
        self.reader.join(30)

    def stop(self):
        self.node.run(PROGRAM, "stop", "--control", self.words[-1], check=False)
        self.reader.join(60)


def take_over(node, store, seconds, refusals, ports=(SMPP, LINKS)):
    """Starts a centre there again and again, as a manager does, until it listens. Keeps why each start was refused."""
    until = time.monotonic() + seconds
    while time.monotonic() < until:
        centre = Centre(node, store, ports)
        if centre.listens(max(until - time.monotonic(), 1)):
            return centre
        if centre.process.poll() is None:
            centre.kill()
        refusals.append(centre.why())
        time.sleep(0.5)
    raise AssertionError(f"{node.name} does not serve within {seconds} s: {refusals[-3:]}")


class Record:
    """What was said to banks and a handset."""

    def __init__(self):
        self.lock = threading.Lock()
        # Of each message that was answered ESME_ROK: to whom, its text, when the answer was read, and which bank read it.
        self.confirmed = {}
        # The final states that were told of each message.
        self.told = {}
        # The texts that the handset accepted.
        self.accepted = set()
        self.count = 0
        self.refused = {}
        self.faults = []

    def next(self):
        with self.lock:
            self.count += 1
            return self.count

    def confirm(self, message, to, octets, bank):
        with self.lock:
            if message in self.confirmed:
                self.faults.append(f"{message} was given twice: {self.confirmed[message]}, {to} {octets}")
            self.confirmed[message] = (to, octets, time.monotonic(), bank)

    def refuse(self, status):
        with self.lock:
            self.refused[status] = self.refused.get(status, 0) + 1

    def tell(self, message, state):
        with self.lock:
            self.told.setdefault(message, set()).add(state)

    def last_of(self, bank):
        """When the bank read its last ESME_ROK."""
        with self.lock:
            return max((when for _, _, when, who in self.confirmed.values() if who == bank), default=0)

    def count_of(self, bank):
        with self.lock:
            return sum(who == bank for _, _, _, who in self.confirmed.values())


class Work:
    """Banks and a handset in threads on nodes, until they are stopped."""

    def __init__(self, record):
        self.record, self.over, self.threads = record, threading.Event(), []

    def bank(self, node, account, name, port=SMPP):
        self.threads.append(node.thread(self.bank_loop, account, name, port))

    def reader(self, node):
        self.threads.append(node.thread(self.reader_loop))

    def stop(self):
        self.over.set()
        for thread in self.threads:
            thread.join(40)

    def bank_loop(self, account, name, port):
        while not self.over.is_set():
            try:
                self.bank_session(account, name, port)
            except (OSError, smpp.Closed, TimeoutError):
                time.sleep(0.2)

    def bank_session(self, account, name, port):
        session = smpp.Session(port, 30)
        try:
            if session.bind(smpp.BIND_TRANSCEIVER, account[0], account[1]):
                raise smpp.Closed
            while not self.over.is_set():
                self.submit(session, account[2], name)
                self.take(session)
                time.sleep(0.02)
        finally:
            self.take(session)
            session.close()

    def submit(self, session, source, name):
        number = self.record.next()
        # One in three is for a number of its own, which nobody has: it tells its message from all others.
        to, octets = (f"4477091{number:05}" if number % 3 == 0 else READER), f"message {number}".encode()
        status, message = session.submit(to, octets, source, coding=4)
        if status:
            self.record.refuse(status)
        else:
            self.record.confirm(message, to, octets, name)

    def take(self, session):
        for _, text in session.delivered:
            self.record.tell(smpp.field(text, "id"), smpp.field(text, "stat"))
        session.delivered.clear()

    def reader_loop(self):
        while not self.over.is_set():
            try:
                link = handsets.Handset(LINKS, READER)
            except OSError:
                time.sleep(0.2)
                continue
            try:
                while not self.over.is_set() and link.serve(0.2):
                    self.keep(link)
            except OSError:
                pass
            self.keep(link)
            link.close()
            time.sleep(0.1)

    def keep(self, link):
        with self.record.lock:
            self.record.accepted.update(user_data(tpdu) for tpdu in link.accepted)
        link.accepted.clear()


def user_data(tpdu):
    """The user data of a DELIVER with 8-bit data (3GPP TS 23.040 9.2.2.1)."""
    at = 3 + (tpdu[1] + 1) // 2 + 2 + 7
    return bytes(tpdu[at + 1:at + 1 + tpdu[at]])


def shown(node, store):
    """What a look at the store prints of each message: its number to destination and state."""
    found = {}
    for line in node.run(PROGRAM, "show", "--store", store, seconds=LOOK).splitlines():
        words = line.split()
        if len(words) > 3 and words[0].isdigit() and len(words[0]) == 10:
            found[words[0]] = words[1:]
    return found


def judge(record, centre):
    """Asks the centre for each confirmed message, looks at its store, and says what is wrong: nothing where the centre has kept its word."""
    wrong = []
    def ask():
        for account in ACCOUNTS:
            session = smpp.Session(SMPP, 30)
            if session.bind(smpp.BIND_TRANSCEIVER, account[0], account[1]):
                wrong.append(f"{account[0]} is not bound")
                return
            for _ in range(40):
                session.step(0.05)
            for message in list(record.confirmed):
                status, state = session.query(message, account[2])
                if status == 0:
                    known.add(message)
                    if state in FINAL:
                        record.tell(message, FINAL[state])
            for _, text in session.delivered:
                record.tell(smpp.field(text, "id"), smpp.field(text, "stat"))
            session.unbind()
            session.close()
    known = set()
    centre.node.thread(ask).join(300)
    rows = shown(centre.node, centre.store)
    lost = [message for message in record.confirmed if message not in known or message not in rows]
    if lost:
        wrong.append(f"{len(lost)} confirmed and unknown: {lost[:5]}")
    others = [message for message, (to, _, _, _) in record.confirmed.items() if message in rows and to not in rows[message]]
    if others:
        wrong.append(f"{len(others)} are other messages: {others[:5]}")
    twice = {message: states for message, states in record.told.items() if len(states) > 1}
    if twice:
        wrong.append(f"{len(twice)} with two final states: {dict(list(twice.items())[:5])}")
    untrue = [
        message for message, states in record.told.items()
        if "DELIVRD" in states and message in record.confirmed and record.confirmed[message][1] not in record.accepted]
    if untrue:
        wrong.append(f"{len(untrue)} told as delivered and not accepted: {untrue[:5]}")
    return wrong + record.faults
