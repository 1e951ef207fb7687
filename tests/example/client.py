#!/usr/bin/env python3
"""A client for the script of docs/TESTING-CLIENTS.md: it submits what its environment says, and prints the receipt.

HOST is this machine.
"""
import os
import sys
import time

sys.path.insert(0, os.path.join(os.path.dirname(os.path.abspath(__file__)), "..", "clients"))
import smpp  # noqa: E402


def main():
    of = os.environ
    session = smpp.Session(int(of["PORT"]), 30)
    status = session.bind(smpp.BIND_TRANSCEIVER, of["NAME"], of["PASSWORD"])
    if status:
        raise SystemExit(f"bind refused: {status}")
    status, message = session.submit(of["TO"], of["TEXT"].encode("ascii"), of["FROM"], validity=of["VALIDITY"])
    if status:
        raise SystemExit(f"not accepted: {status}")
    until = time.monotonic() + 60
    while not any(smpp.field(text, "id") == message for _, text in session.delivered):
        if time.monotonic() > until:
            raise SystemExit("no receipt")
        session.step(0.2)
    print(*(text for _, text in session.delivered), sep="\n")
    session.unbind()


if __name__ == "__main__":
    main()
