#!/usr/bin/env python3
"""Writes the courses of the section `centre`: its lines in ../stdin from the first line `course` on, and what a centre has to do in ../stdout.

They are the rows once more; four of the rows stopped after each event, where the centre that starts again has the rows of before; and random
events. What a centre has to do is what the plain centre does (tests/plain), which also does the rows before them: so it is compared with what
was worked out by hand. With two files as its arguments behind a number it writes other courses, from that seed, and what has to come of them:
`python3 vectors/centre_courses.py 7 /tmp/lines /tmp/found; rt try -- centre < /tmp/lines | diff - /tmp/found`.
"""
import copy
import os
import random
import subprocess
import sys

sys.dont_write_bytecode = True
sys.path.insert(0, os.path.join(os.path.dirname(os.path.abspath(__file__)), '../../plain'))
from centre import ENDINGS, Centre, SubmitSm
from formats import LAST, START, Sum
from hostile import lists
from sections import before_courses, put, write

PLACES = {'A': '447700900123', 'B': '447700900456', 'C': '447700900789'}
NAMES = {digits: name for name, digits in PLACES.items()}
ACCOUNTS = [(b'app1', (1, 1, '447700900001')), (b'app2', (1, 1, '447700900002'))]
# The statuses that a centre answers (SMPP v3.4 5.1.3).
STATUSES = {'RINVMSGLEN': 0x01, 'RSYSERR': 0x08, 'RINVSRCADR': 0x0A, 'RINVDSTADR': 0x0B, 'RINVMSGID': 0x0C, 'RCANCELFAIL': 0x11,
            'RMSGQFUL': 0x14, 'RINVESMCLASS': 0x43, 'RSUBMITFAIL': 0x45, 'RINVSCHED': 0x61, 'RINVEXPIRY': 0x62, 'ROPTPARNOTALLWD': 0xC1,
            'RINVPARLEN': 0xC2}
# The rows that are stopped after each of their events. Their links are to B, their messages of the first account.
STOPPED = ('a lost answer is asked for again', 'a restarted centre offers again', 'a full handset is waited for', 'a late answer changes nothing')
# What is asked of a centre before it stops, and once it has started again. What `query` tells is of its answer and of all rows.
ASKED = ('query id=1', 'query id=2', 'rows', 'table', 'receipts')
# Lines of rows that are told again as courses.
AGAIN = ('row', 'submit', 'query', 'cancel', 'retry', 'delete', 'bound', 'unbound', 'receipt', 'frame', 'link_up', 'link_down', 'tick', 'forget', 'restart',
         'repeat', 'start')
PAST, FUTURE = '42209232958500', '42301010000000'


# ---- what comes of lines

def fields_of(words):
    return dict(word.split('=', 1) for word in words if '=' in word)


def is_frame(octets):
    """Whether the octets are CP-DATA, CP-ACK or CP-ERROR (3GPP TS 24.011 7.2)."""
    if len(octets) < 2 or octets[0] & 15 != 9 or octets[0] & 0x70 == 0x70:
        return False
    return {1: len(octets) > 3 and octets[2] == len(octets) - 3 <= 248, 4: len(octets) == 2, 16: len(octets) == 3}.get(octets[1], False)


class Play:
    """A centre, and what a run tells of it."""

    def __init__(self, head):
        self.told, self.is_told = [head], head.startswith('row ')
        self.begin([])

    def begin(self, awaited):
        self.centre = Centre('447700900000', ACCOUNTS)
        for handset in awaited:
            self.centre.meet(self.centre.link_up, handset)

    def line(self, line):
        if not line or line.startswith('#'):
            return
        if self.is_told:
            self.told.append(line)
        kind, _, rest = line.partition(' ')
        centre = self.centre
        if kind == 'repeat':
            count, again = rest.split(' ', 1)
            for _ in range(int(count)):
                self.act(again)
            centre.frames, centre.answer, centre.deliveries = [], None, []
            if not self.is_told:
                self.told.append(f'  {self.checksum()}')
        elif kind == 'sweep':
            self.sweep(rest)
        elif kind == 'hostile':
            self.hear(*rest.split(' '))
        elif kind == 'unread':
            self.told.append('  ' + self.unread(rest))
        elif kind == 'table':
            self.told += [f"  {message['id']} {ending(message)}" for message in centre.messages]
        elif kind == 'receipts':
            self.told += [f"  {report['id']} {ending(centre.message(report['id']))}" for report in centre.reports]
        elif kind == 'rows':
            self.tell_rows()
        elif kind == 'unsound':
            # a message without a priority
            self.told.append('  E1' if self.centre.messages else '  started')
        elif kind == 'start':
            self.begin([PLACES[rest]])
        else:
            self.act(line)
            self.tell()

    def rows(self):
        return self.centre.checksum(Sum())

    def sweep(self, line):
        """The event, and what is refused before for want of memory: its plan, and a commit that puts octets where the line asks for it."""
        asked = line.startswith('commit ')
        self.act(line.removeprefix('commit '))
        self.told.append('  refused: ' + ('restart' if line == 'restart' else 'plan and commit' if asked else 'plan'))
        self.tell()

    def hear(self, handset, count, seed, frame):
        """So many frames of the generator. One that is none of the control layer's changes nothing and is not answered."""
        for octets in lists(int(count), int(seed), bytes.fromhex(frame)):
            before = self.rows()
            self.centre.meet(self.centre.frame, PLACES[handset], octets, None)
            assert is_frame(octets) or self.rows() == before and not self.centre.frames, octets.hex()
            self.tell()

    def unread(self, line):
        """What is planned of a line with a store that can't be read: an offer that the event itself did not submit can't be made."""
        copied, parts = copy.deepcopy(self), len(self.centre.parts)
        copied.act(line)
        for _, frame, carried, is_copy in copied.centre.frames:
            if carried and carried[0] == 'Data' and not is_copy and not is_new(copied.centre, carried[2], parts):
                return 'NoBody'
        return 'planned'

    def act(self, line):
        words = line.split(' ')
        kind, fields, centre = words[0], fields_of(words), self.centre
        account, session = int(fields.get('account', 0)), int(fields.get('session', 0))
        source = int(fields.get('source_type', 1)), fields.get('source', '')
        if kind == 'submit':
            centre.meet(centre.submit, account, asked_in(fields))
        elif kind in ('query', 'cancel'):
            number = fields['number'] if 'number' in fields else f"{int(fields['id']):010d}"
            destination = (int(fields.get('to_type', 1)), fields.get('to', '')) if kind == 'cancel' else ()
            centre.meet(centre.query if kind == 'query' else centre.cancel, account, number, *source, *destination)
        elif kind in ('retry', 'delete'):
            centre.meet(centre.retry if kind == 'retry' else centre.delete, int(fields['id']))
        elif kind == 'bound':
            centre.meet(centre.bound, session, account, 'sends' not in fields)
        elif kind == 'unbound':
            centre.meet(centre.unbound, session)
        elif kind == 'receipt':
            centre.meet(centre.receipt_answered, session, int(fields['id']), 'refused' not in fields)
        elif kind == 'frame':
            centre.meet(centre.frame, PLACES[words[1]], bytes.fromhex(words[2]), tag_in(fields))
        elif kind == 'tick':
            centre.meet(centre.tick, START + int(words[1]))
        elif kind == 'forget':
            centre.frames, centre.answer, centre.deliveries = [], None, []
            centre.forget(START + int(fields['before']), int(fields['from']), int(fields['most']))
        elif kind == 'restart':
            centre.restart([PLACES[fields['up']]] if 'up' in fields else [])
            centre.frames, centre.answer, centre.deliveries = [], None, []
            if 'session' in fields:
                centre.sessions.append({'number': session, 'account': 0, 'receives': True, 'unanswered': []})
        else:
            centre.meet(centre.link_up if kind == 'link_up' else centre.link_down, PLACES[words[1]])

    def tell(self):
        centre = self.centre
        if not self.is_told:
            self.told.append(f'  {self.checksum()}')
            return
        if centre.answer:
            self.told.append('  ' + centre.answer)
        self.told += [f'  {NAMES[handset]} {frame.hex().upper()}' for handset, frame, _, _ in centre.frames]
        self.told += [f'  receipt of {id} in session {session}' for session, id in centre.deliveries]

    def tell_rows(self):
        centre = self.centre
        self.told.append(f'  {len(centre.messages)} messages, {len(centre.parts)} parts')
        if centre.messages:
            split = centre.messages[-1]['split']
            self.told.append('  the last is not split' if split is None else f'  the last is split under {split}')
        for report in centre.reports:
            name = {'receipt': 'receipt', 'status': 'status report', 'unsent': 'no reference'}[report['kind']]
            self.told.append(f"  {name} of {report['id']}, {'done' if report['is_done'] else 'open'}")

    def checksum(self):
        """Of what an event told, and of all rows."""
        centre, told = self.centre, Sum()
        add_answer(told, centre.answer)
        for handset, frame, carried, is_copy in centre.frames:
            told.numbers(*map(ord, handset))
            told.octets(frame)
            add_carried(told, carried)
            told.numbers(int(is_copy))
        for session, id in centre.deliveries:
            told.numbers(session, id)
        return centre.checksum(told)


def ending(message):
    return 'enroute' if message['state'] is None else ENDINGS[message['state']]


def is_new(centre, tag, parts):
    """Whether it is a part that came with the event, or the status report of a message that ended in it."""
    return tag[0] == 'Part' and any((part['id'], part['number']) == tag[1:] for part in centre.parts[parts:])


def asked_in(fields):
    octets = (fields['text'].encode() if 'text' in fields else b'') + bytes.fromhex(fields.get('hex', ''))
    return SubmitSm(
        source=fields.get('source', ''), source_type=int(fields.get('source_type', 1)), to=fields.get('to', ''),
        to_type=int(fields.get('to_type', 1)), esm_class=int(fields.get('esm_class', 0)), priority=int(fields.get('priority', 0)),
        report=int(fields.get('report', 0)), coding=int(fields.get('coding', 0)), schedule=fields.get('schedule', ''),
        validity=fields.get('validity', ''), segment=bytes.fromhex(fields['segment']) if 'segment' in fields else None,
        is_payload='payload' in fields, octets=octets * int(fields.get('times', 1)))


def tag_in(fields):
    if 'entry' in fields:
        return 'Entry', int(fields['entry'])
    return ('Memory', int(fields['memory'])) if 'memory' in fields else None


def add_answer(told, answer):
    if answer is None:
        told.numbers(0)
    elif answer.startswith('accepted as '):
        told.numbers(1, int(answer[12:]))
    elif answer == 'cancelled':
        told.numbers(3)
    elif answer.startswith('refused: ESME_'):
        told.numbers(4, STATUSES[answer[14:]])
    else:
        state, _, moment = answer.partition(' at ')
        told.numbers(2, 4 if state == 'enroute' else ENDINGS.index(state), START + int(moment) if moment else 0)


def add_carried(told, carried):
    if carried is None:
        told.numbers(0)
        return
    kind, reference, tag = carried
    told.numbers(('Data', 'Ack', 'Error').index(kind) + 1, reference, ('Part', 'Report', 'Entry', 'Memory').index(tag[0]) + 1, *tag[1:])


def measured(line):
    """What the events of a line `measure FINISHED OPEN TURNS` tell."""
    script = os.path.join(os.path.dirname(os.path.abspath(__file__)), 'centre_measured.py')
    words = [sys.executable, script, *line.split(' ')[1:]]
    return subprocess.run(words, capture_output=True, text=True, check=True).stdout.split('\n')[:-1]


def told_of(lines):
    """What is to come of lines."""
    told, play = [], None
    for line in lines:
        if line.startswith(('row ', 'course ')):
            play = Play(line)
            told.append(play.told)
        elif play and line.startswith('measure '):
            play.told += [line] + measured(line)
        elif play:
            play.line(line)
    return [line for section in told for line in section]


# ---- a stop after each event

def stopped(rows):
    """The rows of STOPPED up to each of their events, a stop behind it: the lines, and what is to come of them."""
    lines, told = [], []
    for name in STOPPED:
        first = rows.index('row ' + name) + 1
        events = []
        for line in rows[first:]:
            if line.startswith(('row ', '#')):
                break
            events.append(line)
            course = Play(f'course {name}, stopped after event {len(events)}')
            lines += course.told + events + [*ASKED, 'restart up=B', *ASKED]
            for event in events:
                course.line(event)
            before = answers_of(course)
            course.line('restart up=B')
            if before != answers_of(course):
                sys.exit(f'{course.told[0]}: the rows are others')
            told += course.told
    return lines, told


def answers_of(course):
    """What it tells of ASKED."""
    first = len(course.told)
    for line in ASKED:
        course.line(line)
    return course.told[first:]


# ---- random events

class Course:
    """A course of events: `mixed` has a bit of all; in a `good` one handsets take what they are sent; in a `crowded` one long messages
    come for the third handset, which is away, more than it has references for."""

    def __init__(self, seed, mood):
        self.dice, self.mood = random.Random(seed), mood
        self.lines = [f'course {seed} {mood}']
        self.play = Play(self.lines[0])
        self.seconds, self.opened = 0, {'A': 0, 'B': 0, 'C': 0}
        self.answered = {'A': '', 'B': '', 'C': ''}
        # Of each handset the transaction that the centre began last, the reference of its unit, and whether it waits for the answer.
        self.heard = {'A': [0, 0, False], 'B': [0, 0, False], 'C': [0, 0, False]}

    def one_in(self, sides):
        return self.dice.randrange(sides) == 0

    def of(self, *weighted):
        return self.dice.choices([what for _, what in weighted], [weight for weight, _ in weighted])[0]

    def handset(self):
        if self.mood == 'crowded' and not self.one_in(30):
            return self.of((1, 'A'), (1, 'B'))
        return self.of((1, 'A'), (1, 'B'), (1, 'C'))

    # ---- applications

    def source(self):
        return self.of(
            (28, ''), (4, ' source_type=0 source=447700900001'), (4, ' source=447700900001'), (4, ' source_type=5 source=Bank'),
            (4, ' source=447700900123'), (1, ' source_type=5 source=Bänk'), (1, ' source_type=7 source=12'),
            (1, ' source_type=5 source={12345}'), (1, ' source_type=2 source=12a'))

    def destination(self):
        return self.of(
            (21, 'to=447700900123'), (24, 'to=447700900456'), (15, 'to=447700900789'), (3, 'to_type=0 to=447700900456'),
            (3, 'to_type=2 to=447700900123'), (3, 'to=447700900999'), (1, 'to='), (1, 'to_type=3 to=447700900456'), (1, 'to=4477*'))

    def times(self):
        return self.of(
            (24, ''), (4, ' validity=000000000030000R'), (4, ' validity=000000000500000R'), (4, ' validity=000000020000000R'),
            (1, ' validity=240229235950000+'), (1, ' validity=240301010000000+'), (1, ' validity=990000000000000R'),
            (1, ' validity=1')) + self.of(
            (36, ''), (4, ' schedule=000000000030000R'), (4, ' schedule=000000000200000R'), (1, ' schedule=240229235950000+'),
            (1, ' schedule=240301010000004+'), (1, ' schedule=990000000000000R'), (1, ' schedule=240230000000000+'))

    def text(self):
        part = f'{self.dice.randrange(4):02X}02{self.dice.randrange(1, 3):02X}62'
        segment = f'00{self.dice.randrange(3):02X}02{self.dice.randrange(4):02X}'
        return self.of(
            (45, ' text=hello'), (5, ''), (15, ' hex=61 times=161'), (5, ' payload=1 hex=61 times=460'),
            (5, ' coding=4 hex=FE times=141'), (5, ' coding=8 hex=04 times=142'), (5, ' coding=3 hex=E9E9E9'), (5, ' coding=1 text=a{'),
            (5, ' coding=245 text=class'), (5, f' segment={segment} text=part'), (1, ' coding=8 hex=043604'), (1, ' coding=5 text=kanji'),
            (1, ' hex=80'), (1, ' esm_class=64 hex=090003'), (1, ' payload=1 segment=00000201 text=both'),
            (5, f' esm_class=64 hex=050003{part}'), (10, f' esm_class=64 hex=06080400{part}'))

    def submit(self):
        if self.mood == 'crowded' and not self.one_in(4):
            count = self.of((1, 1600), (1, 3041), (2, 3040))
            return f'submit account={self.dice.randrange(2)} to=447700900789 report={self.dice.randrange(4)} payload=1 hex=61 times={count}'
        text = self.text()
        esm_class = '' if 'esm_class' in text else self.of((13, ''), (1, ' esm_class=128'), (1, ' esm_class=4'), (1, ' esm_class=3'))
        priority = self.of((3, ''), (1, f' priority={self.dice.randrange(6)}'))
        return (f'submit account={self.dice.randrange(2)}{self.source()} {self.destination()} report={self.dice.randrange(4)}'
                f'{priority}{esm_class}{self.times()}{text}')

    def question(self, kind):
        source = self.of((5, ''), (1, ' source_type=0 source=447700900001'), (1, ' source_type=5 source=Bank'), (1, ' source_type=9 source=x'))
        newest = [message['id'] for message in self.play.centre.messages[::-1]]
        back = self.dice.randrange(16)
        id = newest[back] if back < len(newest) else 77
        which = self.of((9, f' id={id}'), (1, self.of((1, ' number=1'), (1, ' number='))))
        destination = self.of(
            (5, ''), (1, ' to=447700900123'), (1, ' to=447700900456'), (1, ' to_type=2 to=447700900789'), (1, ' to_type=5 to=Bank'))
        return f"{kind} account={self.dice.randrange(2)}{source}{destination if kind == 'cancel' else ''}{which}"

    def order(self):
        newest = [message['id'] for message in self.play.centre.messages[::-1]]
        back = self.dice.randrange(16)
        return f"{self.of((2, 'retry'), (1, 'delete'))} id={newest[back] if back < len(newest) else 77}"

    def bound(self):
        session = self.dice.randrange(4)
        return f'bound session={session} account={session % 2}' + (' sends=1' if self.one_in(4) else '')

    def receipt(self):
        place, sessions = self.dice.randrange(3), self.play.centre.sessions
        session = sessions[place] if place < len(sessions) else {'number': 3, 'unanswered': []}
        id = session['unanswered'][0] if session['unanswered'] else 1
        return f"receipt session={session['number']} id={id}" + (' refused=1' if self.one_in(3) else '')

    # ---- handsets

    def tag(self):
        return self.of((1, ''), (1, f' entry={self.dice.randrange(9)}'), (1, f' memory={self.dice.randrange(9)}'))

    # What answers a unit: an RP-ACK, an RP-ERROR of some cause, or another unit.
    def answering(self):
        if self.mood == 'good' and not self.one_in(8):
            return '02FF41020000'
        return self.of(
            (16, '02FF41020000'), (1, '02FF'), (1, '06FF'), (1, '09FF'), (2, '04FF0116'), (1, '04FF011B'), (1, '04FF0126'), (1, '04FF0129'),
            (1, '04FF012A'), (1, '04FF012F'), (1, '04FF0115'), (1, '04FF016F'), (1, '04FF01C8'), (1, '04FF011641030 0D300'.replace(' ', '')))

    def heard_by(self, handset, frame, off, above):
        """A frame of the handset in the transaction that the centre began last, or another, under the reference of its unit, or another."""
        identifier, reference, _ = self.heard[handset]
        self.heard[handset][2] = False
        octets = bytearray(frame)
        octets[0] = (identifier + off) % 7 * 16 + 137
        if len(octets) > 4:
            octets[4] = (reference + above) % 256
        return f'frame {handset} {octets.hex().upper()}{self.tag()}'

    def answer(self):
        handset = self.handset()
        asked = [name for name in 'ABC' if self.heard[name][2]]
        if not self.one_in(3) and asked:
            handset = asked[0]
        if self.one_in(12) and self.answered[handset]:
            return self.answered[handset]
        unit = bytes.fromhex(self.answering())
        off, above = self.of((30, (0, 0)), (1, (6, 0)), (1, (0, 1)), (1, (0, 255)))
        line = self.heard_by(handset, bytes([0, 1, len(unit)]) + unit, off, above)
        self.answered[handset] = line
        return line

    def control(self):
        handset = self.handset()
        octets = self.of((6, '04'), (1, '1051'))
        if self.one_in(2):
            return self.heard_by(handset, bytes.fromhex('00' + octets), 0, 0)
        return f'frame {handset} {self.opened[handset]}9{octets}{self.tag()}'

    def opening(self, handset, unit):
        self.opened[handset] = self.dice.randrange(7)
        return f'frame {handset} {self.opened[handset]}901{len(unit) // 2:02X}{unit}{self.tag()}'

    def front(self, first):
        last = self.of((4, '1032'), (3, '4065'), (3, '7098'), (1, '9099'))
        return f'{first:02X}{self.dice.randrange(6):02X}0C9144770009{last}'

    def tpdu(self):
        first = 1 + self.of((1, 0), (1, 0x20)) + self.of((2, 0), (1, 4))
        hello, part = '05E8329BFD06', f'{self.dice.randrange(4):02X}'
        number = f'{self.dice.randrange(1, 3):02X}'
        return self.of(
            (28, self.front(first) + '0000' + hello), (4, self.front(first + 0x10) + f'0000{self.dice.randrange(2):02X}' + hello),
            (4, self.front(first + 0x18) + '0000' + PAST + hello), (4, self.front(first + 0x18) + '0000' + FUTURE + hello),
            (4, self.front(first + 0x80) + '0000' + hello), (3, self.front(first + 0x40) + f'0004070500 03{part}02{number}62'.replace(' ', '')),
            (3, self.front(first + 0x40) + f'00040504080400{part}'), (6, self.front(first + 0x40) + f'000408 06080400{part}02{number}62'.replace(' ', '')),
            (1, ''), (1, '020000'), (1, '0000'), (1, self.front(9) + '0000' + '00' * 7 + hello), (1, self.front(1) + '000005E8'),
            (1, '010004B12143000000'), (1, self.front(1) + '000005E8329BFD86'), (1, '01000491A143000000'))

    def data(self):
        tpdu = self.tpdu()
        return self.opening(self.handset(), f'00{self.dice.randrange(4):02X}000791447700090000{len(tpdu) // 2:02X}{tpdu}')

    def odd(self):
        unit = self.of((1, '0705'), (1, '07'), (1, '00'), (1, '0009'), (1, '0205'), (1, '020507'), (1, '04050115'), (1, '00080007914477000900000100'))
        return self.opening(self.handset(), unit)

    def noise(self):
        octets = ''.join(f'{self.dice.randrange(256):02X}' for _ in range(self.dice.randrange(1, 40)))
        return f'frame {self.handset()} {octets}{self.tag()}'

    def frame(self):
        return self.of((38, self.answer), (8, self.control), (9, self.data), (2, lambda: self.opening(self.handset(), f'06{self.dice.randrange(4):02X}')),
                       (2, self.odd), (1, self.noise))()

    # ---- time

    def tick(self):
        self.seconds += self.of((36, 0), (24, 1), (36, 10), (24, 31), (24, 61), (24, 301), (12, 3601), (1, 172800), (11, 1))
        # now and then a clock that goes back
        return f'tick {0 if self.one_in(12) else self.seconds}'

    def forget(self):
        messages = self.play.centre.messages
        first = self.of((3, 1), (1, messages[0]['id'] if messages else 1), (1, self.dice.randrange(1, 40)))
        return f'forget before={self.of((3, self.seconds), (1, self.seconds + 1), (2, self.seconds // 2))} from={first} most={self.of((3, 200), (1, 5), (1, 0))}'

    def restart(self):
        return self.of((1, 'restart'), (1, 'restart session=2'), (1, 'restart up=A'), (1, 'restart up=B'), (1, 'restart up=C'))

    def event(self):
        line = self.of(
            (14, self.submit), (2, lambda: self.question('query')), (1, lambda: self.question('cancel')), (1, self.order), (2, self.bound),
            (1, lambda: f'unbound session={self.dice.randrange(5)}'), (4, self.receipt), (24, self.frame),
            (4, lambda: f'link_up {self.handset()}'), (1, lambda: f'link_down {self.handset()}'), (6, self.tick), (1, self.restart), (1, self.forget))()
        self.lines.append(line)
        self.play.line(line)
        for handset, frame, carried, _ in self.play.centre.frames:
            if carried and carried[0] == 'Data':
                self.heard[NAMES[handset]] = [frame[0] // 16, frame[4], True]


def courses(first):
    """The lines, and what is to come of them."""
    lines, told, seed = [], [], first
    for mood, count, events in (('mixed', 4, 200), ('good', 3, 150), ('crowded', 2, 120)):
        for _ in range(count):
            course = Course(seed, mood)
            for _ in range(events):
                course.event()
            lines += course.lines
            told += course.play.told
            seed += 1
    return lines, told


# ---- octets that no handset would send, and the last moment

HOSTILE = ('8904', '890106020041020000', '0901020600', '89010404000129', '9904',
           '09011E00000007914477000900001221070C91447700094065000005E8329BFD06')


def hostile():
    """A thousand frames, between other events."""
    lines, seed = ['course hostile frames', 'bound session=0'], 1
    for place in range(25):
        lines += [f'link_up {"ABC"[place % 3]}', f'submit to=44770090012{3 if place % 3 == 0 else 4} report=1 text=hello',
                  f'submit to={PLACES["ABC"[place % 3]]} report=1 text=hello']
        lines += [f'hostile {"ABC"[place % 3]} 40 {seed} {HOSTILE[place % len(HOSTILE)]}', f'tick {place * 7}']
        seed += 1
    return lines + ['restart', 'table']


def last_moments():
    """Timers and times end with 2099: what would be due later is due in its last second."""
    end = LAST - START
    return ['course the last moments', 'link_up B', 'bound session=0', f'tick {end - 35}', 'submit to=447700900456 report=1 text=hello', 'frame B 8904',
            'submit to=447700900456 report=1 text=hello', f'tick {end - 30}', 'frame B 89010404000129', f'tick {end - 20}', f'tick {end - 5}',
            'submit to=447700900789 report=1 text=hello', 'link_up C', f'tick {end - 1}', f'tick {end}', 'frame B 9904', 'table', 'receipts', 'rows',
            f'tick {end}', 'restart', f'tick {end}', 'table']


# ---- the files

def main():
    if len(sys.argv) == 4:
        lines, told = courses(int(sys.argv[1]))
        write(sys.argv[2], lines)
        write(sys.argv[3], told)
        return
    rows, told = before_courses('stdin', 'centre'), before_courses('stdout', 'centre')
    found = told_of(rows)
    for place, (line, other) in enumerate(zip(found + [None], told + [None])):
        if line != other:
            sys.exit(f'line {place + 1} of the section in stdout: {other!r}, but the plain centre has {line!r}')
    plain = [line.removeprefix('sweep ').removeprefix('commit ') for line in rows]
    again = ['course ' + line[4:] if line.startswith('row ') else line for line in plain if line.split(' ')[0] in AGAIN]
    stops, to_stop = stopped(rows)
    odd = hostile() + last_moments()
    lines, to_come = courses(1)
    put('stdin', 'centre', rows + again + stops + odd + lines)
    put('stdout', 'centre', told + told_of(again) + to_stop + told_of(odd) + to_come)


if __name__ == '__main__':
    main()
