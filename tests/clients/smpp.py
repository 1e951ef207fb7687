"""A small SMPP v3.4 client (SMPP Developers Forum, v3.4 issue 1.2, 4), for trying and measuring `smscd`.

One `Session` is one connection. It keeps as many requests open as its caller sends, answers each deliver_sm
and enquire_link by itself, and hands over what came by `step`. Nothing here is proved.
"""
import select
import socket
import struct
import time

BIND_RECEIVER, BIND_TRANSMITTER, BIND_TRANSCEIVER = 0x01, 0x02, 0x09
QUERY_SM, SUBMIT_SM, DELIVER_SM, UNBIND = 0x03, 0x04, 0x05, 0x06
CANCEL_SM, ENQUIRE_LINK, GENERIC_NACK = 0x08, 0x15, 0x80000000
RESPONSE = 0x80000000


def text(value, most):
    """A C-octet string of at most `most` octets with its end."""
    octets = value.encode("ascii")
    assert len(octets) < most, value
    return octets + b"\0"


def parameter(tag, value):
    return struct.pack(">HH", tag, len(value)) + value


class Closed(Exception):
    """The other side closed the connection."""


class Session:
    def __init__(self, port, seconds=10.0):
        self.socket = socket.create_connection(("127.0.0.1", port), timeout=seconds)
        self.socket.setsockopt(socket.IPPROTO_TCP, socket.TCP_NODELAY, 1)
        self.seconds = seconds
        self.came = b""
        self.number = 0
        # What was delivered and not looked at: pairs of source and text.
        self.delivered = []
        # The status that the next deliver_sm is answered with, and none after it.
        self.refuse = 0

    def close(self):
        self.socket.close()

    def send(self, command, body=b"", status=0, number=None):
        if number is None:
            self.number = self.number % 0x7FFFFFFF + 1
            number = self.number
        self.socket.sendall(struct.pack(">IIII", 16 + len(body), command, status, number) + body)
        return number

    def pdu(self):
        """The next PDU that is whole: command, status, number, body; None where there is none yet."""
        if len(self.came) < 16:
            return None
        length, command, status, number = struct.unpack(">IIII", self.came[:16])
        if len(self.came) < length:
            return None
        body, self.came = self.came[16:length], self.came[length:]
        return command, status, number, body

    def step(self, seconds):
        """The next response, as command, status, number, body, or None when the seconds are over."""
        until = time.monotonic() + seconds
        while True:
            pdu = self.pdu()
            if pdu is not None:
                if pdu[0] & RESPONSE:
                    return pdu
                self.asked(pdu)
                continue
            left = until - time.monotonic()
            if left < 0:
                return None
            ready, _, _ = select.select([self.socket], [], [], left)
            if ready:
                octets = self.socket.recv(65536)
                if not octets:
                    raise Closed
                self.came += octets

    def asked(self, pdu):
        command, _, number, body = pdu
        if command == DELIVER_SM:
            if not self.refuse:
                self.delivered.append(receipt_of(body))
            self.send(DELIVER_SM | RESPONSE, b"\0", self.refuse, number)
            self.refuse = 0
        elif command in (ENQUIRE_LINK, UNBIND):
            self.send(command | RESPONSE, b"", 0, number)

    def ask(self, command, body=b""):
        """Sends a request and waits for its own response: status and body."""
        number = self.send(command, body)
        until = time.monotonic() + self.seconds
        while True:
            answer = self.step(max(until - time.monotonic(), 0))
            if answer is None:
                raise TimeoutError(f"no answer to {command:08x}")
            if answer[2] == number:
                return answer[1], answer[3]

    def bind(self, command, name, password):
        body = text(name, 16) + text(password, 9) + b"\0" + bytes([0x34, 0, 0]) + b"\0"
        return self.ask(command, body)[0]

    def unbind(self):
        return self.ask(UNBIND)[0]

    def submit(self, to, octets, source, coding=0, more=b"", receipt=True, esm_class=0, priority=0, validity=""):
        """Asks for a submit_sm: status and message_id."""
        status, body = self.ask(SUBMIT_SM, submit_body(to, octets, source, coding, more, receipt, esm_class, priority, validity))
        return status, body.split(b"\0")[0].decode()

    def query(self, message, source):
        status, body = self.ask(QUERY_SM, text(message, 65) + bytes([1, 1]) + text(source, 21))
        if status:
            return status, None
        rest = body.split(b"\0", 2)[2]
        return status, rest[0]

    def cancel(self, message, source, to=""):
        body = text("", 6) + text(message, 65) + bytes([1, 1]) + text(source, 21) + bytes([1, 1]) + text(to, 21)
        return self.ask(CANCEL_SM, body)[0]


def submit_body(to, octets, source, coding=0, more=b"", receipt=True, esm_class=0, priority=0, validity=""):
    return (
        text("", 6) + bytes([1, 1]) + text(source, 21) + bytes([1, 1]) + text(to, 21)
        + bytes([esm_class, 0, priority]) + b"\0" + text(validity, 17) + bytes([1 if receipt else 0, 0, coding, 0, len(octets)]) + octets + more
    )


def receipt_of(body):
    """Source and text of a deliver_sm."""
    at = body.index(b"\0") + 1 + 2
    end = body.index(b"\0", at)
    source = body[at:end].decode()
    at = end + 1 + 2
    at = body.index(b"\0", at) + 1 + 3
    at = body.index(b"\0", at) + 1
    at = body.index(b"\0", at) + 1 + 4
    length = body[at]
    return source, body[at + 1:at + 1 + length].decode("latin-1")


def field(receipt, name):
    """The value of one field of a receipt's text, `id:..` or `stat:..`."""
    for word in receipt.split():
        if word.startswith(name + ":"):
            return word[len(name) + 1:]
    return None
