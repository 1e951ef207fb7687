#!/usr/bin/env python3
"""What the events of `measure FINISHED OPEN TURNS` tell, worked out from the rules of docs/BEHAVIOUR.md: a checksum for each kind.

    centre_measured.py [FINISHED OPEN TURNS]     1000 400 64 by itself, the line of ../stdin

The messages of one account wait for handsets that are away. An account that is alone holds at most 128 of a handset's 256 references.
So at most SHELF messages wait for a handset, and one more comes. None is refused.
"""
import sys
from datetime import datetime, timedelta

SHELF, IN_A_SECOND, MOST_HELD, REFERENCES = 125, 32, 128, 256
START = datetime(2024, 2, 29, 23, 59, 58)
CENTRE, SOURCE = bytes.fromhex('0791447700090000'), bytes.fromhex('0C91447700090010')
HELLO = bytes.fromhex('05E8329BFD06')


class Sum:
    """FNV-1a of 64 bits."""

    def __init__(self):
        self.value = 0xcbf29ce484222325

    def take(self, octets):
        for octet in octets:
            self.value = ((self.value ^ octet) * 0x100000001b3) & ((1 << 64) - 1)


def swapped(number):
    """Two digits as an octet of semi-octets (3GPP TS 23.040 9.1.2.3)."""
    return number % 10 << 4 | number // 10


def deliver(has_more, second):
    """A DELIVER of hello (9.2.2.1), made at that second of the run."""
    made = START + timedelta(seconds=second)
    stamp = bytes(map(swapped, (made.year % 100, made.month, made.day, made.hour, made.minute, made.second))) + b'\0'
    return bytes([0 if has_more else 4]) + SOURCE + b'\0\0' + stamp + HELLO


def offer(transaction, reference, tpdu):
    """CP-DATA with the RP-DATA of that reference (3GPP TS 24.011 7.2.1, 7.3.1.1)."""
    unit = bytes([1, reference]) + CENTRE + bytes([0, len(tpdu)]) + tpdu
    return bytes([transaction << 4 | 9, 1, len(unit)]) + unit


def acknowledged(transaction):
    return bytes([transaction << 4 | 9, 4])


class Handset:
    """A handset that is away: the references of what waits, in the order of submission, and the reference that was given last."""

    def __init__(self):
        self.waiting, self.last = [], REFERENCES - 1

    def submit(self):
        """The reference of a message more: the next that nothing holds."""
        assert len(self.waiting) < MOST_HELD
        self.last = next(other for step in range(REFERENCES)
                         if (other := (self.last + 1 + step) % REFERENCES) not in self.waiting)
        self.waiting.append(self.last)

    def cancel_last(self):
        self.waiting.pop()


class Run:
    """A centre that is filled, and then measured."""

    def __init__(self, finished, open_ones):
        self.handsets = [Handset() for _ in range(open_ones // SHELF + 1)]
        self.second = self.messages = 0
        for turn in range(finished):
            self.pass_if_late(turn)
            self.submit(turn)
            self.handset(turn).cancel_last()
        self.second += 1
        for turn in range(open_ones):
            self.submit(turn)
        self.second += 1

    def handset(self, turn):
        return self.handsets[turn % len(self.handsets)]

    def pass_if_late(self, turn):
        """A second passes once each handset was sent so many in one, so that it has references for all of them."""
        self.second += turn % (len(self.handsets) * IN_A_SECOND) == 0

    def submit(self, turn):
        self.handset(turn).submit()
        return self.number()

    def number(self):
        self.messages += 1
        return b'%010d' % self.messages

    def ask(self, turns):
        """Each message is submitted, asked for and given up."""
        submission, cancel = Sum(), Sum()
        for turn in range(turns):
            self.pass_if_late(turn)
            submission.take(self.submit(turn))
            self.handset(turn).cancel_last()
            cancel.take(b'cancelled')
        # A query names its message, as the submission does.
        return {'submission': submission, 'query': submission, 'cancel': cancel}

    def give(self, turns):
        """A handset that is up takes each message at once. Its transactions have the identifiers 0 to 6 in turn."""
        offers, acknowledgement = Sum(), Sum()
        for turn in range(turns):
            self.second += 1
            offers.take(self.number())
            offers.take(offer(turn % 7, turn % REFERENCES, deliver(False, self.second)))
            acknowledgement.take(acknowledged(turn % 7))
        return {'offer': offers, 'acknowledgement': acknowledgement}

    def give_first(self, turns):
        """A handset is up and takes the first that waits; the next is offered, and its link is down. The store has one DELIVER for all."""
        link_up, next_offer = Sum(), Sum()
        for turn in range(turns):
            waiting = self.handset(turn).waiting
            link_up.take(offer(0, waiting.pop(0), deliver(True, 0)))
            next_offer.take(acknowledged(0))
            next_offer.take(offer(1, waiting[0], deliver(len(waiting) > 1, 0)))
        return {'link_up': link_up, 'next_offer': next_offer}


def main():
    finished, open_ones, turns = map(int, sys.argv[1:] or (1000, 400, 64))
    run = Run(finished, open_ones)
    # A tick at which nothing is due tells nothing.
    sums = run.ask(turns) | run.give(turns) | run.give_first(min(turns, open_ones // 2)) | {'tick': Sum()}
    for kind, found in sums.items():
        print(f'  {kind} {found.value:016x}')


main()
