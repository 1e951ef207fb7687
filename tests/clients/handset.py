"""A handset in its plainest form, at the other end of a link (3GPP TS 24.011 7.2 and 8.1): it accepts every DELIVER but those that it is told
to refuse.

A frame on the connection is two octets of length and the CP frame; the first one has the handset's digits.
"""
import select
import socket
import struct
import time

CP_DATA, CP_ACK, CP_ERROR = 1, 4, 16
RP_DATA_DOWN, RP_ACK_UP, RP_ERROR_UP = 1, 2, 4


class Handset:
    def __init__(self, port, digits, seconds=10.0, causes=()):
        self.socket = socket.create_connection(("127.0.0.1", port), timeout=seconds)
        self.socket.setsockopt(socket.IPPROTO_TCP, socket.TCP_NODELAY, 1)
        self.came = b""
        # Transactions whose RP-DATA was answered and whose CP-ACK has not come, with the reference.
        self.answered = {}
        # The causes by which the next DELIVERs are refused (3GPP TS 24.011 8.2.5.4).
        self.causes = list(causes)
        # Transactions in which one was refused and whose CP-ACK has not come.
        self.refused = set()
        # The TPDUs that were accepted, in order.
        self.accepted = []
        self.send(digits.encode("ascii"))

    def close(self):
        self.socket.close()

    def send(self, frame):
        self.socket.sendall(struct.pack(">H", len(frame)) + frame)

    def serve(self, seconds):
        """Takes what arrives until nothing has arrived for so long; False where the link was closed."""
        until = time.monotonic() + seconds
        while True:
            while len(self.came) >= 2:
                length = struct.unpack(">H", self.came[:2])[0]
                if len(self.came) < 2 + length:
                    break
                frame, self.came = self.came[2:2 + length], self.came[2 + length:]
                self.take(frame)
            left = until - time.monotonic()
            if left <= 0:
                return True
            ready, _, _ = select.select([self.socket], [], [], left)
            if not ready:
                return True
            octets = self.socket.recv(65536)
            if not octets:
                return False
            self.came += octets

    def take(self, frame):
        head, kind = frame[0], frame[1]
        ours = head ^ 0x80
        if kind != CP_DATA:
            self.answered.pop(head & 0x7F, None)
            self.refused.discard(head & 0x7F)
            return
        unit = frame[3:3 + frame[2]]
        self.send(bytes([ours, CP_ACK]))
        if unit[0] & 7 != RP_DATA_DOWN:
            return
        transaction, reference = head & 0x7F, unit[1]
        # CP-DATA that arrives again is of a transaction that was answered: its answer is sent again, and nothing is accepted twice.
        if self.answered.get(transaction) != reference:
            if self.causes:
                self.refused.add(transaction)
                self.send(bytes([ours, CP_DATA, 4, RP_ERROR_UP, reference, 1, self.causes.pop(0)]))
                return
            address = unit[2]
            length = unit[3 + address + 1]
            self.accepted.append(unit[3 + address + 2:3 + address + 2 + length])
            self.answered[transaction] = reference
        self.send(bytes([ours, CP_DATA, 2, RP_ACK_UP, reference]))
