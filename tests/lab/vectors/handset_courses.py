#!/usr/bin/env python3
"""Writes the courses of the section `handset`: its lines in ../stdin from the first line `course` on, and what a handset has to do in ../stdout.

The rows before them were worked out by hand, and are compared here with what the plain handset does (tests/plain). Each row is a course, too.
With two files as its arguments behind a number it writes other courses, from that seed, and what has to come of them:
`python3 vectors/handset_courses.py 7 /tmp/lines /tmp/found; rt try -- handset < /tmp/lines | diff - /tmp/found`.
"""
import os
import random
import sys

sys.dont_write_bytecode = True
sys.path.insert(0, os.path.join(os.path.dirname(os.path.abspath(__file__)), '../../plain'))
from formats import LAST, START
from handset import Handset
from hostile import lists
from sections import before_courses, put, write

LONG = 'a' * 190
HELLO = bytes.fromhex('E8329BFD06')
DUPLICATE = bytes.fromhex('410A01C50042209232958500')
STAMP = bytes.fromhex('42209232958500')


# ---- what comes of lines

def is_frame(octets):
    """Whether the octets are CP-DATA, CP-ACK or CP-ERROR (3GPP TS 24.011 7.2)."""
    if len(octets) < 2 or octets[0] & 15 != 9 or octets[0] & 0x70 == 0x70:
        return False
    return {1: len(octets) > 3 and octets[2] == len(octets) - 3 <= 248, 4: len(octets) == 2, 16: len(octets) == 3}.get(octets[1], False)


class Play:
    """A handset, and what a run tells of it."""

    def __init__(self, head):
        self.is_told = head.startswith('row ')
        self.handset = Handset(int(head.split(' ')[1]))
        self.place = 0
        self.told = [head]

    def line(self, line):
        place = self.place
        self.place += 1
        if not line or line.startswith('#'):
            return
        if self.is_told:
            self.told.append(line)
        handset = self.handset
        swept = line.startswith('sweep ')
        kind, _, rest = line.removeprefix('sweep ').partition(' ')
        if swept:
            self.told.append('  refused: ' + ('restart' if kind == 'restart' else 'step'))
        if kind == 'hostile':
            self.hear(place, *rest.split(' '))
        refusal, sent = None, kind != 'hostile'
        if kind == 'frame':
            refusal = handset.meet(handset.frame, bytes.fromhex(rest), ('Memory', place) if place % 8 != 7 else None)
        elif kind == 'tick':
            refusal = handset.meet(handset.tick, START + int(rest))
        elif kind == 'write':
            to, report, text = rest.split(' ', 2)
            refusal = handset.meet(handset.write, to, report == '1', text)
        elif kind == 'delete':
            refusal = handset.meet(handset.delete, int(rest))
        elif kind == 'discard':
            refusal = handset.meet(handset.discard, int(rest))
        elif kind == 'restart':
            handset.restart()
        elif kind == 'show':
            self.told += handset.table()
            sent = False
        if refusal:
            self.told.append('  ' + refusal)
        elif sent:
            self.told += [self.frame_line(*outgoing) for outgoing in handset.sent]
        if not self.is_told:
            self.told.append(f'  rows {handset.checksum()}')

    def hear(self, place, count, seed, frame):
        """So many frames of the generator. One that is none of the control layer's changes nothing and is not answered."""
        handset = self.handset
        for octets in lists(int(count), int(seed), bytes.fromhex(frame)):
            before = handset.checksum()
            handset.meet(handset.frame, octets, ('Memory', place) if place % 8 != 7 else None)
            assert is_frame(octets) or handset.checksum() == before and not handset.sent, octets.hex()
            self.told += [self.frame_line(*outgoing) for outgoing in handset.sent]
            if not self.is_told:
                self.told.append(f'  rows {handset.checksum()}')

    def frame_line(self, frame, carried, is_copy):
        line = '  ' + frame.hex().upper()
        if carried and not self.is_told:
            kind, reference, (holder, number) = carried
            line += f' {kind} {reference} {holder}({number})' + (' again' if is_copy else '')
        return line


def told_of(lines):
    """What is to come of lines."""
    told, play = [], None
    for line in lines:
        if line.startswith(('row ', 'course ')):
            play = Play(line)
            told.append(play.told)
        elif line.startswith('rows '):
            one, other = line.split(' ')[1:]
            told.append([line, '  started' if 0 < int(one) < int(other) < 3 else '  H1'])
            play = None
        elif play:
            play.line(line)
    return [line for section in told for line in section]


# ---- random events

def head_of(identifier):
    return identifier * 16 + 9


class Course:
    """A centre and an owner who know what the handset did."""

    def __init__(self, seed, slots):
        self.dice = random.Random(seed)
        self.lines = [f'course {slots} {seed}']
        self.play = Play(self.lines[0])
        self.seconds, self.opened, self.begun, self.reference, self.message = 0, 0, 0, 0, 0
        self.frames = []

    def of(self, *weighted):
        return self.dice.choices([what for _, what in weighted], [weight for weight, _ in weighted])[0]

    # -- TPDUs

    def deliver(self, first, sender, scheme, length, user_data):
        return bytes([first, 0x0C, 0x91, 0x44, 0x77, 0, 9, 0, 0x10 + 16 * sender, 0, scheme]) + STAMP + bytes([length]) + user_data

    def status_report(self):
        reference = (self.message - self.dice.randrange(3)) % 256
        last = self.of((3, 0x32), (1, 0x42))
        return (bytes([6, reference, 0x0C, 0x91, 0x44, 0x77, 0, 9, 0x10, last]) + STAMP + bytes([0x42, 0x30, 0x10, 0, 0, 0, 0])
                + bytes([self.dice.randrange(3)]))

    def single(self):
        first = self.of((1, 0), (1, 4))
        return self.of((1, self.deliver(first, 0, 0, 5, HELLO)), (1, self.deliver(first, 1, 8, 2, b'\x04\x36')),
                       (1, self.deliver(first, 0, 4, 0, b'')), (1, self.status_report()))

    def part(self):
        septet, letter = self.of((1, 0xC2), (1, 0xC4)), self.dice.randrange(2)
        two, three = self.dice.randrange(1, 3), self.dice.randrange(1, 4)
        septets = lambda sender, *key: self.deliver(0x44, sender, 0, 8, bytes([5, 0, 3, *key, septet]))
        return self.of(
            (4, septets(0, 0x11, 2, two)), (4, septets(0, 0x22, 3, three)), (1, septets(1, 0x11, 2, two)),
            (1, self.deliver(0x44, 0, 4, 7, bytes([5, 0, 3, 0x22, 3, three, letter]))),
            (1, self.deliver(0x44, 0, 4, 8, bytes([6, 8, 4, 0, 0x11, 2, two, letter]))),
            (1, septets(0, 0x11, 3, three)), (1, septets(0, 0x33, 1, 1)), (1, septets(0, 0x33, 2, three)))

    def odd(self):
        """Octets that are no TPDU downwards, or a header without a key."""
        return self.of(
            (1, b''), (1, self.deliver(3, 0, 0, 0, b'')), (1, self.deliver(1, 0, 0, 0, b'')), (1, self.deliver(0, 0, 4, 1, b'')),
            (1, self.deliver(0, 0, 4, 0, b'\x07')), (1, self.deliver(0x40, 0, 4, 5, bytes([4, 0, 3, 0x11, 2]))),
            (1, self.deliver(0x40, 0, 4, 3, bytes([4, 0, 3]))), (1, self.deliver(0, 0, 0, 5, HELLO[:4] + b'\x86')),
            (1, self.deliver(0x40, 0, 0, 8, bytes([5, 0, 3, 0x22, 3, 1, 0xC3]))), (1, self.deliver(0, 0, 0x20, 3, b'\x01\x02\x03')),
            (1, self.deliver(0x40, 0, 4, 12, bytes([11, 0, 3, 0x11, 2, 1, 8, 4, 0, 0x11, 2, 2]))))

    # -- frames

    def opening(self, unit):
        self.opened = self.dice.randrange(7)
        return bytes([head_of(self.opened), 1, len(unit)]) + unit

    def data(self):
        tpdu = self.of((3, self.single), (6, self.part), (1, self.odd))()
        return self.opening(bytes([1, self.dice.randrange(4), 7, 0x91, 0x44, 0x77, 0, 9, 0, 0, 0, len(tpdu)]) + tpdu)

    def odd_opening(self):
        return self.opening(bytes(self.dice.choice((
            [6, 5], [7], [1], [1, 9], [3, 5], [3, 5, 7], [5, 5, 1, 21], [2, 1, 0x41, 2, 0, 0], [1, 8, 7, 0x91, 0x44, 0x77, 0, 9, 0, 0, 1, 0]))))

    def answer(self):
        reference = (self.reference + self.of((7, 0), (1, 1))) % 256
        choice = self.dice.randrange(13)
        unit = bytes([3, reference]) if choice < 5 else bytes([9, reference]) if choice == 5 else bytes(
            [5, reference, 1, {6: 41, 7: 38, 8: 42, 9: 47}.get(choice, 21)])
        if choice > 5 and self.dice.randrange(3) == 0:
            unit += DUPLICATE
        return bytes([head_of(self.begun) + 128, 1, len(unit)]) + unit

    def control(self):
        choice = self.dice.randrange(7)
        head = head_of(self.begun) + 128 if choice < 3 else head_of(self.opened)
        return bytes([head]) + (b'\x04' if choice < 5 else b'\x10\x51')

    def repeated(self):
        return self.dice.choice(self.frames[-6:]) if self.frames else b''

    def frame(self):
        frame = self.of((17, self.data), (1, self.odd_opening), (10, self.answer), (7, self.control), (5, self.repeated))()
        self.frames.append(frame)
        return 'frame ' + frame.hex().upper()

    # -- time and the owner

    def tick(self):
        self.seconds += self.of((1, 1), (2, 10), (1, 31), (1, 61), (1, 0))
        # now and then a clock that goes back
        return f'tick {self.of((1, 0), (7, self.seconds))}'

    def write(self):
        to = self.of((4, '447700900123'), (1, '447700900124'), (1, '4477-'))
        return f"write {to} {self.dice.randrange(2)} {self.of((4, 'hi'), (1, ''), (1, 'ж😀'), (2, LONG))}"

    def entry(self):
        """The number of an entry, most often one that stands."""
        handset, place = self.play.handset, self.dice.randrange(6)
        entries = self.of((2, handset.inbox), (2, handset.outbox), (1, []))
        return entries[place]['entry'] if place < len(entries) else self.dice.randrange(40)

    def restart(self):
        self.seconds = 0
        return 'restart'

    def act(self):
        line = self.of((15, self.frame), (2, self.tick), (2, self.write), (3, lambda: f'delete {self.entry()}'),
                       (2, lambda: f'discard {self.entry()}'), (1, self.restart))()
        self.lines.append(line)
        self.play.line(line)
        for frame, carried, _ in self.play.handset.sent:
            if carried and carried[0] == 'Data':
                self.begun, self.reference = frame[0] // 16, frame[4]
                if len(frame) > 16:
                    self.message = frame[16]


def random_courses(first, many, events):
    lines = []
    for place in range(2 * many):
        course = Course(first + place, 3 if place < many else 12)
        for _ in range(events):
            course.act()
        lines += course.lines
    return lines


# ---- long ones

def part_of_two(place):
    """The first of two parts under a concatenation reference of its own, and the acknowledgement of its answer."""
    head = head_of(place % 7)
    tpdu = bytes.fromhex('440C914477000910000000') + STAMP + bytes([8, 5, 0, 3, place, 2, 1, 0xC2])
    unit = bytes([1, place, 7, 0x91, 0x44, 0x77, 0, 9, 0, 0, 0, len(tpdu)]) + tpdu
    return ['frame ' + (bytes([head, 1, len(unit)]) + unit).hex().upper(), f'frame {head:02X}04']


def many_discarded():
    """At most 64 groups are discarded."""
    lines = ['course 2 64 groups are discarded']
    for place in range(65):
        lines += part_of_two(place) + [f'discard {place + 1}']
    refused = [line for line in told_of(lines) if line.startswith('  H')]
    assert refused == ['  H5'], refused
    return lines


def references_around():
    """References go around, past those that are held: an RP-SMMA that waits for its second sending holds the reference 0, and a text
    that waits for its second try the reference 1 and TP-MR 0. Then two texts have one TP-MR."""
    empty = '240C914477000910000000' + STAMP.hex().upper() + '00'
    lines = ['course 1 references go around', 'frame 09011F01000791447700090000' + '0013' + empty, 'frame 19011F01010791447700090000' + '0013' + empty,
             'delete 1', 'frame 890102' + '0309', 'write 447700900123 0 ', 'frame 990104' + '05010129']
    head, place = 2, 2
    for number in range(3, 257):
        # the references after 1, and around past 0 and 1
        lines += ['write 447700900123 0 ', f'frame {head_of(head) + 128:02X}010203{place:02X}']
        # the first of them stays
        lines += [f'delete {number}'] if number > 3 else []
        head, place = (head + 1) % 7, place + 1 if place < 255 else 2
    lines += ['write 447700900123 0 ', f'frame {head_of(head) + 128:02X}010203{place:02X}', 'write 447700900123 0 ']
    # a status report for TP-MR 1, which two texts to one number have: it is noted at the newest
    report = '06010C914477000910' + '32' + STAMP.hex().upper() * 2 + '00'
    lines.append(f'frame 290125010507914477000900000019{report}')
    told = told_of(lines)
    begun = [line.split(' ') for line in told if ' Data ' in line and ' Entry(' in line]
    assert not [line for line in told if line.startswith('  H')]
    # TP-MR and RP reference of the last two
    assert [(words[2][32:34], words[4]) for words in begun[-2:]] == [('FF', '2'), ('01', '3')], begun[-2:]
    return lines


# ---- octets that no centre would send, and the last moment

def hostile():
    """A thousand frames, between acts of the owner."""
    tpdu = bytes.fromhex('240C914477000910000000') + STAMP + bytes([5]) + HELLO
    unit = bytes([1, 9, 7, 0x91, 0x44, 0x77, 0, 9, 0, 0, 0, len(tpdu)]) + tpdu
    data = (bytes([0x19, 1, len(unit)]) + unit).hex().upper()
    part = part_of_two(3)[0].removeprefix('frame ')
    lines = ['course 12 hostile frames']
    for place in range(25):
        frame = (data, '8904', part, '8901020309', '89010405020129')[place % 5]
        lines += [f'write 447700900123 1 text{place}', f'hostile 40 {place + 1} {frame}', f'tick {place * 9}']
        lines += [f'delete {place + 1}']
    return lines + ['restart']


def last_moments():
    """Timers end with 2099: what would be due later is due in its last second."""
    end = LAST - START
    empty = '240C914477000910000000' + STAMP.hex().upper() + '00'
    return ['course 1 the last moments', f'tick {end - 35}', 'write 447700900123 0 hi', f'tick {end - 30}', f'frame 8901040500' + '0129', f'tick {end - 5}',
            'write 447700900124 0 hi', 'frame 9904', f'tick {end - 1}', f'tick {end}', f'tick {end}', 'frame 09011F01000791447700090000' + '0013' + empty,
            'frame 19011F01010791447700090000' + '0013' + empty, 'delete 1', f'tick {end}', 'frame B90104' + '05020129', f'tick {end}', 'restart', f'tick {end}']


# ---- the files

def main():
    if len(sys.argv) == 4:
        lines = random_courses(int(sys.argv[1]), 20, 100)
        write(sys.argv[2], lines)
        write(sys.argv[3], told_of(lines))
        return
    rows, told = before_courses('stdin', 'handset'), before_courses('stdout', 'handset')
    found = told_of(rows)
    for place, (line, other) in enumerate(zip(found + [None], told + [None])):
        if line != other:
            sys.exit(f'line {place + 1} of the section in stdout: {other!r}, but the plain handset has {line!r}')
    plain = [line.removeprefix('sweep ') for line in rows]
    again = ['course ' + line[4:] if line.startswith('row ') else line for line in plain if not line.startswith(('#', 'rows '))]
    lines = again + hostile() + last_moments() + many_discarded() + references_around() + random_courses(1, 4, 100)
    put('stdin', 'handset', rows + lines)
    put('stdout', 'handset', told + told_of(lines))


if __name__ == '__main__':
    main()
