#!/usr/bin/env python3
"""Writes a script of the greatest length, 10,000 events, to standard output.

    scripts.py whole      messages handed over whole, one after another, over sixteen handsets; each is deleted there
    scripts.py pending    as many messages as one account may leave at sixteen handsets, then more, which are refused
    scripts.py joined     messages of four parts that a handset joins; each is deleted
    scripts.py written    texts that handsets write to one another, handed over whole both ways
    scripts.py ticks      a thousand messages that wait, and ticks of the centre
    scripts.py restarts   a hundred messages that wait, and restarts of the centre
    scripts.py rebuilt    two thousand messages that wait, and restarts of the centre
    scripts.py refilled   as many messages as one account may leave at sixteen handsets, and restarts of the centre
    scripts.py aging      as many messages as one account may leave at sixteen handsets, and ticks of the centre
    scripts.py woken      a handset whose 255 entries are taken, and restarts of it
"""
import sys

START = 1709251198
EVENTS = 10_000
HANDSETS = [f"4477009{n:05d}" for n in range(16)]


class Script:
    def __init__(self, slots=255):
        self.events = 0
        self.frames = 0
        self.lines = [f"start {START}", "centre 447700900000", "account app1 secret 447700900001"]
        self.lines += [f"handset {number} {slots}" for number in HANDSETS]

    def full(self, more=1):
        return self.events + more > EVENTS

    def put(self, line):
        self.lines.append(line)
        self.events += 1

    def submit(self, to, esm="00", text="68656C6C6F"):
        self.put(f"submit app1 {to} 0 {esm} 1 - {text}")

    def deliver(self, number):
        self.put(f"deliver {number}")


def whole(script):
    count = 0
    while not script.full(6):
        to = HANDSETS[count % 16]
        script.submit(to)
        for step in (1, 2, 3, 4):
            script.deliver(script.frames + step)
        script.frames += 4
        script.put(f"delete {to} {count // 16 + 1}")
        count += 1


def pending(script):
    while not script.full():
        script.submit(HANDSETS[script.events % 16])


def joined(script):
    # One handset, four parts a message: 5 events a part, and a deletion of the whole.
    count = 0
    while not script.full(21):
        to = HANDSETS[count % 16]
        first = count // 16 * 4 + 1
        for part in (1, 2, 3, 4):
            script.submit(to, "40", f"050003{count // 16 % 256:02X}04{part:02X}61")
            for step in (1, 2, 3, 4):
                script.deliver(script.frames + step)
            script.frames += 4
        script.put(f"delete {to} {first}")
        count += 1


def written(script):
    # Up: CP-DATA; CP-ACK and the answer; CP-ACK; then down the same way, which the centre offers behind its answer.
    count = 0
    while not script.full(11):
        sender, to = HANDSETS[count % 16], HANDSETS[(count + 1) % 16]
        f = script.frames
        script.put(f"write {sender} {to} 0 68656C6C6F")
        # f+1 up: data. The centre: f+2 CP-ACK, f+3 the answer to the sender, f+4 data to the other.
        for step in (1, 2, 3):
            script.deliver(f + step)
        # The sender acknowledges the answer: f+5.
        script.deliver(f + 5)
        script.deliver(f + 4)
        # The other: f+6 CP-ACK, f+7 its answer; the centre: f+8 CP-ACK.
        for step in (6, 7, 8):
            script.deliver(f + step)
        script.frames += 8
        turn = count // 16
        script.put(f"delete {sender} {turn * 2 + 1 if count % 16 == 0 else turn * 2 + 2}")
        script.put(f"delete {to} {turn * 2 + 2 if (count + 1) % 16 == 0 else turn * 2 + 1}")
        count += 1


def ticks(script):
    while script.events < 1000:
        script.submit(HANDSETS[script.events % 16])
    while not script.full():
        script.put(f"tick centre {START + script.events - 1000}")


def restarts(script, messages=100):
    while script.events < messages:
        script.submit(HANDSETS[script.events % 16])
    while not script.full():
        script.put("restart centre")


def rebuilt(script):
    restarts(script, 2000)


# References are 256 a handset, and one account holds half of them.
def refilled(script):
    restarts(script, 16 * 128)


def aging(script):
    while script.events < 16 * 128:
        script.submit(HANDSETS[script.events % 16])
    while not script.full():
        script.put(f"tick centre {START + script.events}")


def woken(script):
    for _ in range(255):
        script.submit(HANDSETS[0])
        for step in (1, 2, 3, 4):
            script.deliver(script.frames + step)
        script.frames += 4
    while not script.full():
        script.put(f"restart {HANDSETS[0]}")


def main():
    kinds = {
        f.__name__: f
        for f in (whole, pending, joined, written, ticks, restarts, rebuilt, refilled, aging, woken)
    }
    if len(sys.argv) != 2 or sys.argv[1] not in kinds:
        sys.exit(__doc__)
    script = Script()
    kinds[sys.argv[1]](script)
    print("\n".join(script.lines))


main()
