"""A handset once more, as plainly as can be: lists that are searched from end to end, one rule of docs/BEHAVIOUR.md after the other."""
from formats import (
    ALPHABET, START, Links, Octets, Sum, Unreadable, code_of, fault_of, halves_of, long_header, need, octets_of, plus, read_address, read_cause,
    read_parameters, read_party, read_report, read_submit_report, read_time, read_user_data, split, user_data, written_address)

CENTRE = bytes([0x91, 0x44, 0x77, 0x00, 0x09, 0x00, 0x00])
QUEUED, SENDING, SENT, FAILED, UNSURE = range(5)


# ---- TPDUs downwards (3GPP TS 23.040 9.2.2)

def read_tpdu(tpdu):
    """('deliver', sender, part) or ('report', TP-MR, digits, status)."""
    octets = Octets(tpdu)
    first = octets.one()
    if first & 3 == 0:
        sender = read_address(octets)
        octets.one()
        scheme = octets.one()
        read_time(octets)
        part = read_user_data(octets, scheme, bool(first & 0x40))
        octets.end()
        return 'deliver', sender, part
    need(first & 3 == 2)
    reference, recipient = octets.one(), read_address(octets)
    read_time(octets)
    read_time(octets)
    status = octets.one()
    if not octets.is_end():
        read_parameters(octets, octets.one(), bool(first & 0x40))
    return 'report', reference, recipient[2], status


# ---- RP downwards (3GPP TS 24.011 7.3)

def read_unit(unit):
    """('data', reference, TPDU), ('ack', reference) or ('error', reference, cause, TPDU)."""
    octets = Octets(unit)
    kind = octets.one()
    reference = octets.one()
    if kind == 1:
        read_party(octets)
        need(octets.one() == 0)
        found = 'data', reference, octets.take(octets.one())
    elif kind == 3:
        found = 'ack', reference
        read_report(octets)
    else:
        need(kind == 5)
        found = 'error', reference, read_cause(octets), read_report(octets)
    octets.end()
    return found


# ---- texts

def units_of(text):
    """The data coding scheme, the coding, and the units of a text: in the default alphabet where each character has a code there."""
    codes = [code_of(character) for character in text]
    if None in codes:
        return 8, 16, halves_of(text.encode('utf-16-be'))
    return 0, 7, [septet for code in codes for septet in code]


# ---- the handset

class Refused(Exception):
    """The owner's act is refused, with that code."""


class Handset:
    """A handset with so many slots."""

    def __init__(self, slots):
        self.slots = slots
        # Entries: number, slots, and 'single' with a TPDU, 'part' with a group, a number and a TPDU, or 'joined' with a source and a content.
        self.inbox, self.outbox, self.last, self.marks = [], [], {}, []
        self.next_entry, self.next_message, self.next_reference, self.next_long, self.next_notice = 1, 0, 0, 0, 0
        self.is_full = False
        self.restart()

    def restart(self):
        self.now, self.links, self.under_way, self.carried_back = START, Links(), None, None
        self.wanted, self.notices, self.is_restarted = 0, [], True
        self.sent = []

    # -- what goes out

    def send(self, frame, again):
        carried = None
        if frame[1] == 1:
            carried = self.carried_back if frame[0] & 128 else self.under_way
        self.sent.append((frame, carried, again and carried is not None))

    def send_own(self, frames):
        for frame in frames:
            self.send(frame, True)

    # -- events

    def meet(self, act, *words):
        """Lets an event happen: the code of its refusal, if it is refused."""
        self.sent = []
        try:
            act(*words)
        except Refused as refusal:
            return refusal.args[0]
        if self.is_restarted:
            self.is_restarted = False
            for text in self.outbox:
                if text['state'] == SENDING:
                    self.lose(text)
        self.send_next()
        return None

    def frame(self, frame, tag):
        frames, up = self.links.take(frame)
        self.go_on(frames, up, tag)

    def tick(self, now):
        self.now = max(self.now, now)
        frames, up = self.links.fire(self.now)
        self.go_on(frames, up, None)

    def go_on(self, frames, up, tag):
        self.send_own(frames)
        if up == 'failed':
            self.ended('lost', None)
        elif up and up[0] == 'answered':
            self.answered(up[1])
        elif up:
            # a frame whose holder is not known counts as entry 0, which is none
            self.receive(up[1], tag or ('Entry', 0))

    # -- receiving

    def reply(self, unit, kind, tag):
        self.carried_back = (kind, unit[1], tag)
        self.send(self.links.reply(self.now, unit), False)

    def acknowledge(self, reference, tag):
        self.reply(bytes([2, reference, 0x41, 2, 0, 0]), 'Ack', tag)

    def refuse(self, reference, cause, failure, tag):
        self.reply(bytes([4, reference, 1, cause, 0x41, 3, 0, failure, 0]), 'Error', tag)

    def receive(self, unit, tag):
        reference = unit[1] if len(unit) > 1 else 0
        try:
            found = read_unit(unit)
        except Unreadable:
            self.reply(bytes([4, reference, 1, 96 if unit[0] in (1, 3, 5) else 97]), 'Error', tag)
            return
        if found[0] == 'data':
            self.message(reference, found[2], tag)

    def message(self, reference, tpdu, tag):
        if reference in self.last and is_one_message(self.last[reference], tpdu):
            self.acknowledge(reference, tag)
            return
        try:
            found = read_tpdu(tpdu)
        except Unreadable:
            self.refuse(reference, 96, 0xFF, tag)
            return
        if found[0] == 'report':
            self.note(*found[1:])
        elif not self.store(tpdu, found[1], found[2]):
            self.is_full = True
            self.refuse(reference, 22, 0xD3, tag)
            return
        self.last[reference] = tpdu
        self.acknowledge(reference, tag)

    def note(self, message_reference, digits, status):
        for text in reversed(self.outbox):
            if text['message_reference'] == message_reference and text['to'] == digits:
                text['status'] = status
                return

    def store(self, tpdu, sender, part):
        """Takes the message, if there is room."""
        if part.key is None:
            return self.store_single(tpdu)
        width, value, total, number = part.key
        group = sender, width, value, total
        for mark in self.marks:
            if mark['group'] == group:
                if number in mark['seen']:
                    return self.store_single(tpdu)
                mark['seen'].append(number)
                if len(mark['seen']) == total:
                    self.marks.remove(mark)
                return True
        if number in self.numbers_of(group):
            return self.store_single(tpdu)
        if not self.take_entry({'slots': 1, 'kind': 'part', 'group': group, 'number': number, 'tpdu': tpdu}):
            return False
        if len(self.numbers_of(group)) == total:
            self.join(group)
        return True

    def store_single(self, tpdu):
        return self.take_entry({'slots': 1, 'kind': 'single', 'tpdu': tpdu})

    def take_entry(self, entry):
        if sum(other['slots'] for other in self.inbox) >= self.slots:
            return False
        entry['entry'] = self.next_entry
        self.next_entry += 1
        self.inbox.append(entry)
        return True

    def parts_of(self, group):
        return [entry for entry in self.inbox if entry['kind'] == 'part' and entry['group'] == group]

    def numbers_of(self, group):
        return [entry['number'] for entry in self.parts_of(group)]

    def join(self, group):
        parts = self.parts_of(group)
        read = [read_tpdu(entry['tpdu'])[2] for entry in sorted(parts, key=lambda entry: entry['number'])]
        if any(part.scheme != read[0].scheme for part in read):
            for entry in parts:
                tpdu = entry['tpdu']
                number = entry['entry']
                entry.clear()
                entry.update(entry=number, slots=1, kind='single', tpdu=tpdu)
            return
        for entry in parts[1:]:
            self.inbox.remove(entry)
        first = parts[0]['entry']
        parts[0].clear()
        parts[0].update(entry=first, slots=group[3], kind='joined', source=group[0], coding=read[0].coding, scheme=read[0].scheme,
                        units=b''.join(part.units for part in read))

    # -- the owner

    def free(self):
        if self.is_full:
            self.is_full = False
            self.wanted += 1

    def delete(self, number):
        for entry in self.inbox:
            if entry['entry'] == number:
                if entry['kind'] == 'part':
                    raise Refused('H3')
                self.inbox.remove(entry)
                self.free()
                return
        for text in self.outbox:
            if text['entry'] == number:
                if text['state'] in (QUEUED, SENDING):
                    raise Refused('H3')
                self.outbox.remove(text)
                return
        raise Refused('H2')

    def discard(self, number):
        group = next((entry['group'] for entry in self.inbox if entry['entry'] == number and entry['kind'] == 'part'), None)
        if group is None or self.parts_of(group)[0]['entry'] != number:
            raise Refused('H2')
        if len(self.marks) == 64:
            raise Refused('H5')
        self.marks.append({'number': number, 'group': group, 'seen': self.numbers_of(group)})
        self.marks.sort(key=lambda mark: mark['number'])
        for entry in self.parts_of(group):
            self.inbox.remove(entry)
        self.free()

    def write(self, to, report, text):
        scheme, coding, units = units_of(text)
        parts = split(units, coding)
        if len(parts) > 20:
            raise Refused('C1')
        if fault_of(1, 1, to):
            raise Refused(fault_of(1, 1, to))
        if len(self.outbox) + len(parts) > 20:
            raise Refused('H4')
        is_long = len(parts) > 1
        for place, part in enumerate(parts):
            header = long_header(self.next_long, len(parts), place + 1) if is_long else b''
            length, octets = user_data(part, coding, header)
            self.queue(to, report, scheme, is_long, bytes([length]) + octets, shown(octets_of(part), coding))
        if is_long:
            self.next_long = (self.next_long + 1) % 65536

    def queue(self, to, report, scheme, is_long, data, text):
        unfinished = [text for text in self.outbox if text['state'] in (QUEUED, SENDING)]
        message_reference = self.next_message
        while message_reference in [text['message_reference'] for text in unfinished]:
            message_reference = (message_reference + 1) % 256
        self.next_message = (message_reference + 1) % 256
        reference = self.free_reference()
        first = 1 + (0x20 if report else 0) + (0x40 if is_long else 0)
        tpdu = bytes([first, message_reference]) + written_address(1, 1, to) + bytes([0, scheme]) + data
        self.outbox.append({'entry': self.next_entry, 'message_reference': message_reference, 'reference': reference, 'to': to, 'tpdu': tpdu,
                            'is_long': is_long, 'state': QUEUED, 'tries': 0, 'rejects': False, 'due': None, 'status': None, 'text': text})
        self.next_entry += 1

    def free_reference(self):
        held = [text['reference'] for text in self.outbox if text['state'] in (QUEUED, SENDING)]
        held += [notice['reference'] for notice in self.notices]
        reference = self.next_reference
        while reference in held:
            reference = (reference + 1) % 256
        self.next_reference = (reference + 1) % 256
        return reference

    # -- sending

    def send_next(self):
        if self.links.begun:
            return
        notice = self.next_of_notices()
        if notice:
            self.begin(bytes([6, notice['reference']]), notice['reference'], ('Memory', notice['number']))
            return
        for text in self.outbox:
            if text['state'] == QUEUED and (text['due'] is None or text['due'] <= self.now):
                text.update(state=SENDING, tries=text['tries'] + 1, due=None)
                tpdu = bytes([text['tpdu'][0] | (4 if text['rejects'] else 0)]) + text['tpdu'][1:]
                unit = bytes([0, text['reference'], 0, len(CENTRE)]) + CENTRE + bytes([len(tpdu)]) + tpdu
                self.begin(unit, text['reference'], ('Entry', text['entry']))
                return

    def begin(self, unit, reference, tag):
        self.under_way = 'Data', reference, tag
        self.send(self.links.begin(self.now, unit), False)

    def next_of_notices(self):
        for notice in self.notices:
            if notice['again'] is not None and notice['again'] <= self.now:
                notice.update(times=2, again=None)
                return notice
        if self.wanted == 0:
            return None
        self.wanted -= 1
        notice = {'number': self.next_notice, 'reference': self.free_reference(), 'times': 1, 'again': None}
        self.next_notice += 1
        self.notices.append(notice)
        return notice

    def answered(self, unit):
        try:
            found = read_unit(unit)
        except Unreadable:
            found = None
        if not found or found[0] == 'data' or found[1] != self.under_way[1]:
            self.ended('lost', None)
        elif found[0] == 'ack':
            self.ended('acknowledged', None)
        else:
            self.ended('refused', found[2:])

    def ended(self, how, error):
        """What is under way was acknowledged, refused with a cause and a TPDU, or lost."""
        kind, number = self.under_way[2]
        self.under_way = None
        if kind == 'Memory':
            for notice in list(self.notices):
                if notice['number'] == number:
                    notice['again'] = plus(self.now, 30)
                    if how == 'acknowledged' or notice['times'] == 2:
                        self.notices.remove(notice)
            return
        for text in self.outbox:
            if text['entry'] == number:
                self.settle(text, how, error)

    def settle(self, text, how, error):
        if how == 'acknowledged':
            text['state'] = SENT
        elif how == 'lost':
            self.lose(text)
        elif error[0] in (38, 41, 42, 47):
            text['state'] = FAILED if text['tries'] >= 3 else QUEUED
            text['due'] = None if text['tries'] >= 3 else plus(self.now, 60)
        else:
            text['state'] = UNSURE if is_duplicate(error[1]) else FAILED

    def lose(self, text):
        if text['is_long'] or text['tries'] >= 3:
            text['state'] = UNSURE
        else:
            text.update(state=QUEUED, rejects=True)

    # -- what its owner sees

    def table(self):
        """The inbox and the outbox as the program shows them."""
        lines = [line_of('ENTRY', 'FROM', 'STATE', 'TEXT')]
        for entry in self.inbox:
            if entry['kind'] == 'joined':
                lines.append(line_of(entry['entry'], entry['source'][2], 'JOINED', shown(entry['units'], entry['coding'])))
                continue
            _, sender, part = read_tpdu(entry['tpdu'])
            state = 'RECEIVED' if entry['kind'] == 'single' else f"PART {entry['number']}/{entry['group'][3]}"
            lines.append(line_of(entry['entry'], sender[2], state, shown(part.units, part.coding)))
        lines.append(line_of('ENTRY', 'TO', 'STATE', 'TEXT'))
        for text in self.outbox:
            lines.append(line_of(text['entry'], text['to'], ('QUEUED', 'SENDING', 'SENT', 'FAILED', 'UNSURE')[text['state']], text['text']))
        return lines

    # -- its rows, as they are summed up

    def checksum(self):
        """Of all rows, list after list, and of the inbox and the outbox again."""
        rows = Sum()
        self.add_entries(rows)
        for reference in sorted(self.last):
            rows.numbers(reference)
            rows.octets(self.last[reference])
        self.add_texts(rows)
        for mark in self.marks:
            rows.numbers(mark['number'])
            add_group(rows, mark['group'])
            rows.octets(bytes(mark['seen']))
        rows.numbers(self.next_entry, self.next_message, self.next_reference, self.next_long, self.next_notice, int(self.is_full))
        self.add_entries(rows)
        self.add_texts(rows)
        return rows.value

    def add_entries(self, rows):
        for entry in self.inbox:
            rows.numbers(entry['entry'], entry['slots'])
            if entry['kind'] == 'single':
                rows.octets(entry['tpdu'])
            elif entry['kind'] == 'part':
                add_group(rows, entry['group'])
                rows.numbers(entry['number'])
                rows.octets(entry['tpdu'])
            else:
                rows.address(*entry['source'])
                rows.numbers(entry['coding'], entry['scheme'])
                rows.octets(entry['units'])

    def add_texts(self, rows):
        for text in self.outbox:
            rows.numbers(text['entry'], text['message_reference'], text['reference'])
            rows.address(1, 1, text['to'])
            rows.octets(text['tpdu'])
            rows.numbers(int(text['is_long']), text['state'], text['tries'], int(text['rejects']))
            rows.numbers(text['due'] or 0, 256 if text['status'] is None else text['status'])


def add_group(rows, group):
    source, width, value, total = group
    rows.address(*source)
    rows.numbers(width, value, total)


def line_of(entry, party, state, text):
    return f'{entry:<11}{party:<22}{state:<13}{text}'


def shown(units, coding):
    """A text without ESC, or one in UCS2."""
    return units.decode('utf-16-be') if coding == 16 else ''.join(ALPHABET[unit] for unit in units) if coding == 7 else '?'


def is_one_message(one, other):
    """Whether TPDUs are one but for the bit that tells whether more messages wait."""
    if not one or not other:
        return one == other
    return one[0] | 4 == other[0] | 4 and one[1:] == other[1:]


def is_duplicate(tpdu):
    if tpdu is None:
        return False
    try:
        return read_submit_report(tpdu, True) == 0xC5
    except Unreadable:
        return False
