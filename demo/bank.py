#!/usr/bin/env python3
"""A bank's application, by the client of tests/clients: it binds, submits a code with a receipt wanted, waits for the receipt, and leaves.

    bank.py PORT NAME PASSWORD FROM TO TEXT
"""
import os
import sys
import time

sys.path.insert(0, os.path.join(os.path.dirname(os.path.abspath(__file__)), "..", "tests", "clients"))
import smpp  # noqa: E402


def main():
    port, name, password, source, to, words = sys.argv[1:]
    session = smpp.Session(int(port), 30)
    status = session.bind(smpp.BIND_TRANSCEIVER, name, password)
    if status:
        raise SystemExit(f"bind refused: command_status {status}")
    print(f"bound as {name}", flush=True)
    status, message = session.submit(to, words.encode("ascii"), source)
    if status:
        raise SystemExit(f"not accepted: command_status {status}")
    print(f"accepted as message {message}", flush=True)
    until = time.monotonic() + 30
    while not session.delivered:
        if time.monotonic() > until:
            raise SystemExit("the bank waited in vain")
        session.step(0.2)
    print(f"receipt: {session.delivered[0][1]}")
    session.unbind()


if __name__ == "__main__":
    main()
