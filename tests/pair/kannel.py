"""Two pairs behind Kannel, by its configuration of docs/PAIR.md: what smsbox took, and what the handsets have."""
import os
import re
import subprocess
import sys
import threading
import time
import urllib.error
import urllib.parse
import urllib.request

HERE = os.path.dirname(os.path.abspath(__file__))
PAGE = os.path.join(HERE, "..", "..", "docs", "PAIR.md")
sys.path.insert(0, os.path.join(HERE, "..", "clients"))
import handset as handsets  # noqa: E402
import nodes  # noqa: E402

# Where bearerbox waits for smsbox, and where smsbox waits for texts.
BOX, SEND = 13001, 13013


def block(word):
    """The block of docs/PAIR.md that has this word."""
    with open(PAGE) as page:
        found, = [text for text in re.findall(r"^```\n(.*?)^```$", page.read(), re.DOTALL | re.MULTILINE) if word in text]
    return found


def characters(tpdu):
    """The text of a DELIVER in the default alphabet, for letters, digits and spaces, which have their ASCII numbers (3GPP TS 23.038 6.2.1)."""
    at = 3 + (tpdu[1] + 1) // 2 + 2 + 7
    bits = int.from_bytes(tpdu[at + 1:], "little")
    return "".join(chr(bits >> 7 * number & 0x7F) for number in range(tpdu[at]))


class Reader:
    """A handset that links again and again to a port of the node that it is at, and accepts everything."""

    def __init__(self, node, port, number):
        self.port, self.number, self.texts, self.over = port, number, [], threading.Event()
        self.at(node)

    def at(self, node):
        self.over.set()
        self.over = threading.Event()
        self.thread = node.thread(self.serve, self.over)

    def serve(self, over):
        while not over.is_set():
            try:
                link = handsets.Handset(self.port, self.number)
            except OSError:
                time.sleep(0.2)
                continue
            try:
                while not over.is_set() and link.serve(0.2):
                    self.keep(link)
            except OSError:
                pass
            # What it accepted before its link was lost it has.
            self.keep(link)
            link.close()
            time.sleep(0.2)

    def keep(self, link):
        self.texts += [characters(tpdu) for tpdu in link.accepted]
        link.accepted.clear()


class Kannel:
    """bearerbox and smsbox on a node."""

    def __init__(self, node, seconds):
        self.node, self.taken, self.others = node, {}, {}
        file = os.path.join(node.room, "kannel.conf")
        with open(file, "w") as out:
            out.write(block("smsc-id = north"))
        self.programs = []
        for program, port in (("bearerbox", BOX), ("smsbox", SEND)):
            # Both write into the folder that they are started in.
            words = ["sh", "-c", 'cd "$1" && exec "$2" "$3"', "sh", node.room, program, file]
            self.programs.append(node.start(*words, stdout=subprocess.DEVNULL, stderr=subprocess.DEVNULL))
            assert nodes.wait_until(lambda: self.is_taken(port), seconds), f"{program} does not listen"

    def is_taken(self, port):
        """Whether somebody listens on that port of the node."""
        return f":{port} " in self.node.run("ss", "-ltnH")

    def send(self, to, text):
        """Asks smsbox to send, and keeps what it took: 202 where it did."""
        asked = {"username": "tester", "password": "tester", "to": to, "text": text}
        try:
            url = f"http://127.0.0.1:{SEND}/cgi-bin/sendsms?" + urllib.parse.urlencode(asked)
            with urllib.request.urlopen(url, timeout=20) as answer:
                status = answer.status
        except urllib.error.HTTPError as error:
            status = error.code
        except OSError as error:
            status = str(error)
        if status == 202:
            self.taken.setdefault(to, []).append(text)
        else:
            self.others[status] = self.others.get(status, 0) + 1
        return status

    def send_all(self, numbers, most):
        """So many texts to each number, one a second."""
        for count in range(most):
            for to in numbers:
                self.send(to, f"text {count} to {to}")
            time.sleep(1)

    def end(self):
        for program in reversed(self.programs):
            program.terminate()
            try:
                program.wait(15)
            except subprocess.TimeoutExpired:
                program.kill()
                program.wait()
