"""A centre once more, as plainly as can be: lists that are searched from end to end, one rule of docs/BEHAVIOUR.md after the other."""
import calendar

from formats import (
    DIGITS, FIRST, LAST, START, Links, Octets, Part, Sum, Unreadable, code_of, coding_of, fault_of, halves_of, key_in, long_header, need, plus,
    read_address, read_cause, read_party, read_report, read_time, read_user_data, split, swapped, user_data, written_address, written_time)

DAY, WEEK = 86400, 604800
ENDINGS = ('delivered', 'expired', 'deleted', 'undeliverable')


class Refused(Exception):
    """An application's request is refused, with the name of a status (SMPP v3.4 5.1.3)."""


class HandsetRefused(Exception):
    """A handset's SUBMIT is refused, with an RP cause and a TP-FCS."""


def refuse_if(condition, status):
    if condition:
        raise Refused('ESME_' + status)


# ---- submit_sm (SMPP v3.4 4.4.1)

class Submission:
    """What an application or a handset submitted: whole units that may be split, or one part with a header of its own."""

    def __init__(self, **fields):
        self.split_units, self.coding, self.part, self.key = None, None, None, None
        self.account, self.message_reference = None, None
        self.__dict__.update(fields)


def smpp_time(text, now):
    """The moment that a time says (7.1.1), or None."""
    if len(text) != 16 or not text[:15].isdigit() or text[15] not in '+-R':
        return None
    year, month, day, hour, minute, second = (int(text[place:place + 2]) for place in range(0, 12, 2))
    quarters = int(text[13:15])
    if text[15] == 'R':
        return plus(now, ((365 * year + 30 * month + day) * 24 + hour) * 3600 + 60 * minute + second)
    days = [31, 29 if year % 4 == 0 else 28, 31, 30, 31, 30, 31, 31, 30, 31, 30, 31]
    if not (1 <= month <= 12 and 1 <= day <= days[month - 1] and hour < 24 and minute < 60 and second < 60 and quarters <= 48):
        return None
    local = calendar.timegm((2000 + year, month, day, hour, minute, second))
    moment = local - 900 * quarters if text[15] == '+' else local + 900 * quarters
    return moment if FIRST <= moment <= LAST else None


def as_address(ton, digits):
    """An address of numbering plan 1, if it is one; an octet above 7F is none."""
    if not digits.isascii() or fault_of(ton, 1, digits):
        return None
    return ton, 1, digits


def as_handset(address):
    """The digits of a handset: 0 to 9, of an unknown, international or national number."""
    if address is None or address[0] > 2 or not address[2].isdigit():
        return None
    return address[2]


def latin(octets):
    """Characters of Latin 1: septets where each has a code, else UCS2."""
    codes = [code_of(chr(octet)) for octet in octets]
    if None in codes:
        return 8, 16, [bytes([0, octet]) for octet in octets]
    return 0, 7, [septet for code in codes for septet in code]


def content_of(data_coding, octets):
    """Data coding scheme, coding and units of a text under its data_coding (5.2.19)."""
    is_class = data_coding >= 0xF0
    if data_coding in (2, 4) or is_class and data_coding & 4:
        return data_coding if is_class else 4, 8, list(octets)
    if data_coding == 8:
        refuse_if(len(octets) % 2, 'RINVMSGLEN')
        return 8, 16, halves_of(octets)
    refuse_if(data_coding not in (0, 1, 3) and not is_class, 'RSUBMITFAIL')
    refuse_if(data_coding != 3 and any(octet > 0x7F for octet in octets), 'RSUBMITFAIL')
    if data_coding in (1, 3):
        return latin(octets)
    return data_coding if is_class else 0, 7, list(octets)


def fits(coding, header, units):
    if coding == 7:
        return (8 * len(header) + 6) // 7 + len(units) <= 160
    return len(header) + len(units) * (2 if coding == 16 else 1) <= 140


class SubmitSm:
    """A submit_sm, by its fields."""

    def __init__(self, **fields):
        self.source, self.source_type, self.to, self.to_type = '', 1, '', 1
        self.esm_class = self.priority = self.report = self.coding = 0
        self.schedule = self.validity = ''
        self.segment, self.is_payload, self.octets = None, False, b''
        self.__dict__.update(fields)

    def submission(self, account, now):
        """The submission, or the first refusal. An account is its name and its address."""
        refuse_if(self.esm_class & 0x3C, 'RINVESMCLASS')
        source = account[1] if self.source == '' else as_address(self.source_type, self.source)
        refuse_if(source is None, 'RINVSRCADR')
        handset = as_handset(as_address(self.to_type, self.to))
        refuse_if(handset is None, 'RINVDSTADR')
        has_header = bool(self.esm_class & 0x40)
        refuse_if(self.segment and has_header, 'ROPTPARNOTALLWD')
        header, octets = b'', self.octets
        if has_header:
            refuse_if(not octets or octets[0] + 1 > len(octets), 'RSUBMITFAIL')
            header, octets = octets[:octets[0] + 1], octets[octets[0] + 1:]
            refuse_if(not is_header(header[1:]), 'RSUBMITFAIL')
        elif self.segment and 1 <= self.segment[3] <= self.segment[2]:
            header = bytes([6, 8, 4]) + self.segment
        scheme, coding, units = content_of(self.coding, octets)
        if header:
            refuse_if(not fits(coding, header, units), 'RINVMSGLEN')
        else:
            refuse_if(len(split(units, coding)) > 20, 'RINVMSGLEN')
        limit = self.limit(now)
        due = now if self.schedule == '' else smpp_time(self.schedule, now)
        refuse_if(due is None or self.schedule and due >= limit, 'RINVSCHED')
        submission = Submission(
            account=account[0], source=source, handset=handset, scheme=scheme, pid=0, reply_path=bool(self.esm_class & 0x80),
            wish=(None, 'always', 'failure', 'always')[self.report & 3], limit=limit, due=due, priority=min(self.priority, 3))
        if header:
            submission.part = True, *user_data(units, coding, header)
            submission.key = key_in(header[1:])
        else:
            submission.split_units, submission.coding = units, coding
        return submission

    def limit(self, now):
        if self.validity == '':
            return plus(now, 2 * DAY)
        limit = smpp_time(self.validity, now)
        refuse_if(limit is None or limit <= now, 'RINVEXPIRY')
        return min(limit, plus(now, 63 * WEEK))


def is_header(elements):
    """Whether elements fill it."""
    octets = Octets(elements)
    try:
        while not octets.is_end():
            octets.one()
            octets.take(octets.one())
    except Unreadable:
        return False
    return True


# ---- SUBMIT (3GPP TS 23.040 9.2.2.2)

def relative(period):
    if period < 144:
        return (period + 1) * 300
    if period < 168:
        return DAY // 2 + (period - 143) * 1800
    return (period - 166) * DAY if period < 197 else (period - 192) * WEEK


def read_limit(octets, form, now):
    if form == 0:
        return plus(now, 2 * DAY)
    if form == 2:
        return plus(now, relative(octets.one()))
    return min(read_time(octets), plus(now, 63 * WEEK))


def handset_submission(sender, tpdu, now, accounts):
    """The submission of a handset's TPDU, or the first refusal. Its user data passes octet for octet. No account is sent a text."""
    try:
        octets = Octets(tpdu)
        first = octets.one()
        if first & 3 != 1:
            raise HandsetRefused(97, 0xFF)
        form = first >> 3 & 3
        if form == 1:
            raise HandsetRefused(21, 0xC6)
        message_reference, destination = octets.one(), read_address(octets)
        pid, scheme = octets.one(), octets.one()
        limit = read_limit(octets, form, now)
        length, behind = tpdu[octets.at] if octets.at < len(tpdu) else None, octets.at + 1
        part = read_user_data(octets, scheme, bool(first & 0x40))
        octets.end()
    except Unreadable:
        raise HandsetRefused(96, 0xFF)
    handset = as_handset(destination)
    if handset is None:
        raise HandsetRefused(21, 0xC3)
    if any(address[2] == handset for _, address in accounts):
        raise HandsetRefused(21, 0xC4)
    if limit <= now:
        raise HandsetRefused(21, 0xFF)
    return Submission(
        message_reference=message_reference, source=(1, 1, sender), handset=handset, scheme=scheme, pid=pid, reply_path=bool(first & 0x80),
        wish='always' if first & 0x20 else None, limit=limit, due=now, priority=0, rejects=bool(first & 4),
        part=(bool(first & 0x40), length, tpdu[behind:]), key=part.key)


# ---- RP upwards (3GPP TS 24.011 7.3)

def read_unit(unit):
    """('data', reference, TPDU), ('ack', reference), ('error', reference, cause) or ('memory', reference)."""
    octets = Octets(unit)
    kind, reference = octets.one(), octets.one()
    if kind == 0:
        need(octets.one() == 0)
        read_party(octets)
        found = 'data', reference, octets.take(octets.one())
    elif kind == 2:
        found = 'ack', reference
        read_report(octets)
    elif kind == 4:
        found = 'error', reference, read_cause(octets)
        read_report(octets)
    else:
        need(kind == 6)
        found = 'memory', reference
    octets.end()
    return found


# ---- the centre

class Line:
    """The way to a handset."""

    def __init__(self):
        self.is_up, self.is_awaited, self.is_full = False, False, False
        self.renew()

    def renew(self):
        self.links, self.under_way, self.carried_back = Links(), None, None


class Centre:
    """A centre of that number, with accounts by name and address."""

    def __init__(self, number, accounts):
        self.number, self.accounts = number, accounts
        self.messages, self.parts, self.handsets, self.references, self.reports = [], [], [], {}, []
        # What stays barred of messages that are gone: source, handset, reference, and whether a header had it.
        self.bars = []
        self.now = START
        self.lines, self.sessions = {}, []
        self.frames, self.answer, self.deliveries = [], None, []

    def restart(self, awaited):
        """It stops and starts again: links to these handsets come up at the next tick."""
        moments = [message['submitted'] for message in self.messages] + list(self.references.values())
        self.now = max([START] + moments + [report['made'] for report in self.reports])
        self.lines, self.sessions = {}, []
        for handset in awaited:
            self.line(handset).is_awaited = True

    def line(self, handset):
        return self.lines.setdefault(handset, Line())

    def message(self, id):
        return next((message for message in self.messages if message['id'] == id), None)

    # -- events

    def meet(self, act, *words):
        """Lets an event happen."""
        self.frames, self.answer, self.deliveries = [], None, []
        try:
            act(*words)
        except Refused as refusal:
            self.answer = 'refused: ' + refusal.args[0]
        self.send_receipts()
        for handset in [row['number'] for row in self.handsets]:
            self.offer(handset)

    def submit(self, account, asked):
        submission = asked.submission(self.accounts[account], self.now)
        refuse_if(self.is_taken(submission), 'RSUBMITFAIL')
        id = self.accept(submission)
        refuse_if(id is None, 'RMSGQFUL')
        self.answer = f'accepted as {id}'

    def query(self, account, id, source_type, source):
        message = self.owned(account, id, source_type, source)
        refuse_if(message is None, 'RINVMSGID')
        self.tell_state(message)

    def tell_state(self, message):
        self.answer = 'enroute' if message['state'] is None else f"{ENDINGS[message['state']]} at {message['done'] - START}"

    def cancel(self, account, id, source_type, source, to_type=1, to=''):
        refuse_if(id == '', 'RCANCELFAIL')
        message = self.owned(account, id, source_type, source)
        refuse_if(message is None, 'RINVMSGID')
        refuse_if(to and as_handset(as_address(to_type, to)) != message['handset'], 'RINVMSGID')
        refuse_if(message['state'] is not None, 'RCANCELFAIL')
        self.answer = 'cancelled'
        self.end(message, 2)

    def retry(self, id):
        """An operator orders that what waits of a message is due now, whoever sent it."""
        message = self.message(id)
        refuse_if(message is None, 'RINVMSGID')
        self.tell_state(message)
        for part in self.parts:
            if part['id'] == id and self.waits_part(part, message['handset']):
                part['due'] = self.now

    def delete(self, id):
        """An operator orders that a message is not delivered any more, whoever sent it."""
        message = self.message(id)
        refuse_if(message is None, 'RINVMSGID')
        refuse_if(message['state'] is not None, 'RCANCELFAIL')
        self.answer = 'cancelled'
        self.end(message, 2)

    def owned(self, account, id, source_type, source):
        """The message of ten digits, if it is of that account and that source."""
        name, address = self.accounts[account]
        if source:
            address = as_address(source_type, source)
        if len(id) != 10 or not id.isdigit() or address is None:
            return None
        message = self.message(int(id))
        return message if message and message['account'] == name and message['source'] == address else None

    def tick(self, now):
        self.now = max(self.now, now)
        for message in self.messages:
            if message['state'] is None and message['limit'] <= self.now:
                self.end(message, 1)
        for report in self.reports:
            if report['kind'] == 'status' and plus(report['made'], 2 * DAY) <= self.now:
                report['is_done'] = True
        mentioned = [row['number'] for row in self.handsets]
        for handset in mentioned + [handset for handset in self.lines if handset not in mentioned]:
            if handset in self.lines:
                frames, up = self.lines[handset].links.fire(self.now)
                self.go_on(handset, frames, up, None)
        for handset, line in self.lines.items():
            if line.is_awaited:
                self.raise_line(handset)

    # -- what is accepted

    def is_taken(self, submission):
        """Whether it has a header with a 16-bit reference that the centre gave to a message that isn't delivered, or wasn't when it went."""
        return bool(submission.key) and submission.key[0] == 16 and self.holds_split(submission, submission.key[1])

    def between(self, submission):
        return [message for message in self.messages if message['source'] == submission.source and message['handset'] == submission.handset]

    def holds_split(self, submission, reference):
        return (reference in self.barred(submission, False)
                or any(message['split'] == reference and message['state'] != 0 for message in self.between(submission)))

    def barred(self, submission, is_own):
        ends = submission.source, submission.handset
        return {reference for source, handset, reference, own in self.bars if (source, handset) == ends and own == is_own}

    def next_split(self, submission):
        """The next 16-bit reference that no part came with and no message holds that isn't delivered, nor did one that is gone."""
        own = [message['id'] for message in self.between(submission) if message['split'] is None]
        carried = {part['key'][1] for part in self.parts if part['id'] in own and part['key'] and part['key'][0] == 16} | self.barred(submission, True)
        given = [message['split'] for message in self.between(submission) if message['split'] is not None]
        last = given[-1] if given else 65535
        for step in range(65536):
            reference = (last + 1 + step) % 65536
            if reference not in carried and not self.holds_split(submission, reference):
                return reference
        return None

    def free_references(self, handset, count):
        """So many RP references, each the next that nothing which waits there holds and that was last given in an earlier second."""
        row = next((row for row in self.handsets if row['number'] == handset), None)
        held = {part['reference'] for part in self.parts if self.waits_part(part, handset)}
        held |= {report['reference'] for report in self.reports if self.waits_status(report, handset)}
        found, last = [], row['last'] if row else 255
        for step in range(256):
            reference = (last + 1 + step) % 256
            is_late = row and self.references.get((row['place'], reference), 0) >= self.now
            if reference not in held and not is_late:
                found.append(reference)
        return found[:count] if len(found) >= count else None

    def takes_too_much(self, submission, count):
        """Whether its account, with so many parts more, would hold more than half of the references that are free beside others."""
        if submission.account is None:
            return False
        holders = [self.message(part['id'])['account'] for part in self.parts if self.waits_part(part, submission.handset)]
        holders += [None for report in self.reports if self.waits_status(report, submission.handset)]
        own = holders.count(submission.account)
        return 2 * (own + count) > 256 - (len(holders) - own)

    def give(self, handset, reference):
        row = next((row for row in self.handsets if row['number'] == handset), None)
        if row is None:
            row = {'place': len(self.handsets) + 1, 'number': handset}
            self.handsets.append(row)
        row['last'] = reference
        self.references[row['place'], reference] = self.now

    def accept(self, submission):
        """The number of the message; nothing happens where there are not enough references."""
        reference, bodies = None, [(submission.part, submission.key)]
        if submission.part is None:
            parts = split(submission.split_units, submission.coding)
            reference = self.next_split(submission) if len(parts) > 1 else None
            if len(parts) > 1 and reference is None:
                return None
            bodies = []
            for place, units in enumerate(parts):
                key = (16, reference, len(parts), place + 1) if len(parts) > 1 else None
                header = long_header(*key[1:]) if key else b''
                bodies.append(((bool(key), *user_data(units, submission.coding, header)), key))
        references = self.free_references(submission.handset, len(bodies))
        if references is None or self.takes_too_much(submission, len(bodies)):
            return None
        id = max([message['id'] for message in self.messages], default=0) + 1
        self.messages.append({
            'id': id, 'account': submission.account, 'message_reference': submission.message_reference, 'source': submission.source,
            'handset': submission.handset, 'scheme': submission.scheme, 'pid': submission.pid, 'wish': submission.wish,
            'submitted': self.now, 'limit': submission.limit, 'split': reference, 'state': None, 'done': None,
            'priority': submission.priority})
        for place, (body, key) in enumerate(bodies):
            self.give(submission.handset, references[place])
            self.parts.append({
                'id': id, 'number': place + 1, 'reference': references[place], 'tpdu': self.deliver(submission, body), 'key': key,
                'is_done': False, 'attempts': 0, 'due': submission.due})
        return id

    def deliver(self, submission, body):
        has_header, length, octets = body
        first = 4 + (0x20 if submission.wish else 0) + (0x40 if has_header else 0) + (0x80 if submission.reply_path else 0)
        return (bytes([first]) + written_address(*submission.source) + bytes([submission.pid, submission.scheme]) + written_time(self.now)
                + bytes([length]) + octets)

    # -- ends and reports

    def end(self, message, state):
        message.update(state=state, done=self.now)
        if message['wish'] is None or message['wish'] == 'failure' and state == 0:
            return
        report = {'place': self.reports[-1]['place'] + 1 if self.reports else 1, 'id': message['id'], 'made': self.now, 'is_done': False, 'attempts': 0, 'due': self.now,
                  'kind': 'receipt', 'reference': None, 'tpdu': None}
        if message['account'] is None:
            references = self.free_references(message['source'][2], 1)
            if references is None:
                report.update(kind='unsent', is_done=True)
            else:
                self.give(message['source'][2], references[0])
                report.update(kind='status', reference=references[0], tpdu=self.status_report(message))
        self.reports.append(report)

    def status_report(self, message):
        status = (0x00, 0x46, 0x48, 0x40)[message['state']]
        return (bytes([6, message['message_reference']]) + written_address(1, 1, message['handset']) + written_time(message['submitted'])
                + written_time(message['done']) + bytes([status]))

    # -- forgetting

    def forget(self, before, first, most):
        """Looks at so many messages from that number on. Those go that ended before that moment and were reported, and that nothing needs."""
        looked = [message for message in self.messages if message['id'] >= first][:most]
        going = [message for message in looked if self.is_forgettable(message, before)]
        for message in going:
            self.bar(message)
        gone = {message['id'] for message in going}
        self.messages, self.parts, self.reports = (
            [row for row in rows if row['id'] not in gone] for rows in (self.messages, self.parts, self.reports))

    def is_forgettable(self, message, before):
        id, last = message['id'], self.messages[-1]
        if message['state'] is None or message['done'] >= before:
            return False
        reports = [report for report in self.reports if report['id'] == id]
        if any(not report['is_done'] or report is self.reports[-1] for report in reports):
            return False
        # The next number and the moment of a restart stay.
        if message is last or message['submitted'] > last['submitted']:
            return False
        if any(id in session['unanswered'] for session in self.sessions):
            return False
        if any(line.under_way and line.under_way[1][1] == id for line in self.lines.values()):
            return False
        # So does the reference behind which the search for the next one begins.
        given = [other['split'] for other in self.messages
                 if (other['source'], other['handset']) == (message['source'], message['handset']) and other['split'] is not None]
        return message['split'] is None or message['split'] != given[-1]

    def bar(self, message):
        """Keeps what the message lays claim to: its reference, unless all of it was delivered, or those that its parts came with."""
        ends = message['source'], message['handset']
        if message['split'] is not None:
            if message['state'] != 0:
                self.bars.append((*ends, message['split'], False))
            return
        for part in self.parts:
            if part['id'] == message['id'] and part['key'] and part['key'][0] == 16 and (*ends, part['key'][1], True) not in self.bars:
                self.bars.append((*ends, part['key'][1], True))

    # -- receipts

    def account_of(self, report):
        name = self.message(report['id'])['account']
        return next(place for place, account in enumerate(self.accounts) if account[0] == name)

    def is_sent(self, report):
        return any(report['id'] in session['unanswered'] for session in self.sessions)

    def open_receipts(self):
        return [report for report in self.reports if report['kind'] == 'receipt' and not report['is_done']]

    def send_receipts(self):
        for report in self.open_receipts():
            if report['due'] > self.now or self.is_sent(report):
                continue
            account = self.account_of(report)
            receiving = [session for session in self.sessions if session['account'] == account and session['receives']]
            if receiving:
                session = min(receiving, key=lambda session: (len(session['unanswered']), session['number']))
                if len(session['unanswered']) < 10:
                    session['unanswered'].append(report['id'])
                    self.deliveries.append((session['number'], report['id']))

    def bound(self, number, account, receives):
        self.unbound(number)
        self.sessions.append({'number': number, 'account': account, 'receives': receives, 'unanswered': []})
        if receives:
            for report in self.open_receipts():
                if self.account_of(report) == account and not self.is_sent(report):
                    report['due'] = min(report['due'], self.now)

    def unbound(self, number):
        for session in [session for session in self.sessions if session['number'] == number]:
            for report in self.open_receipts():
                if report['id'] in session['unanswered']:
                    self.put_off(report)
            self.sessions.remove(session)

    def put_off(self, report):
        report.update(attempts=report['attempts'] + 1, due=plus(self.now, 60))

    def receipt_answered(self, number, id, is_accepted):
        for session in self.sessions:
            if session['number'] == number and id in session['unanswered']:
                session['unanswered'].remove(id)
                for report in self.open_receipts():
                    if report['id'] == id:
                        if is_accepted:
                            report['is_done'] = True
                        else:
                            self.put_off(report)

    # -- what waits for handsets

    def waits_part(self, part, handset):
        message = self.message(part['id'])
        return not part['is_done'] and message['state'] is None and message['handset'] == handset

    def waits_status(self, report, handset):
        return report['kind'] == 'status' and not report['is_done'] and self.message(report['id'])['source'][2] == handset

    def make_due(self, handset):
        for waiting in self.waiting(handset):
            waiting['due'] = self.now

    def waiting(self, handset):
        return ([part for part in self.parts if self.waits_part(part, handset)]
                + [report for report in self.reports if self.waits_status(report, handset)])

    def urgency(self, waiting):
        """What goes first: by priority, moment, message and part; a status report has priority 0 and goes before a part of its number."""
        priority = self.message(waiting['id'])['priority'] if 'number' in waiting else 0
        return -priority, waiting['due'], waiting['id'], waiting.get('number', 0)

    def offer(self, handset):
        line = self.lines.get(handset)
        if line is None or not line.is_up or line.is_full or line.links.begun:
            return
        due = sorted((waiting for waiting in self.waiting(handset) if waiting['due'] <= self.now), key=self.urgency)
        if not due:
            return
        first = due[0]
        tpdu = first['tpdu']
        if len(due) > 1:
            tpdu = bytes([tpdu[0] & ~4]) + tpdu[1:]
        centre = swapped(self.number)
        unit = (bytes([1, first['reference'], len(centre) + 1, 0x91]) + centre + bytes([0, len(tpdu)]) + tpdu)
        tag = ('Part', first['id'], first['number']) if 'number' in first else ('Report', first['id'])
        line.under_way = first, tag
        self.send(handset, line.links.begin(self.now, unit), False)

    # -- lines

    def send(self, handset, frame, again):
        line, carried = self.lines[handset], None
        if frame[1] == 1:
            carried = line.carried_back if frame[0] & 128 else ('Data', line.under_way[0]['reference'], line.under_way[1])
        self.frames.append((handset, frame, carried, again and carried is not None))

    def link_up(self, handset):
        self.line(handset)
        self.raise_line(handset)

    def raise_line(self, handset):
        line = self.lines[handset]
        line.is_up, line.is_awaited, line.is_full = True, False, False
        self.make_due(handset)

    def link_down(self, handset):
        if handset in self.lines:
            line = self.lines[handset]
            self.ended(handset, 'lost', None)
            line.is_up, line.is_awaited = False, False
            line.renew()

    def frame(self, handset, frame, tag):
        frames, up = self.line(handset).links.take(frame)
        self.go_on(handset, frames, up, tag)

    def go_on(self, handset, frames, up, tag):
        for frame in frames:
            self.send(handset, frame, True)
        if up == 'failed':
            self.ended(handset, 'lost', None)
        elif up and up[0] == 'answered':
            self.answered(handset, up[1])
        elif up:
            # a frame whose holder is not known counts as entry 0, which is none
            self.receive(handset, up[1], tag or ('Entry', 0))

    def answered(self, handset, unit):
        reference = self.lines[handset].under_way[0]['reference']
        try:
            found = read_unit(unit)
        except Unreadable:
            found = None
        if found and found[0] == 'ack' and found[1] == reference:
            self.ended(handset, 'acknowledged', None)
        elif found and found[0] == 'error' and found[1] == reference:
            self.ended(handset, 'refused', found[2])
        else:
            self.ended(handset, 'lost', None)

    def ended(self, handset, how, cause):
        """What is under way has ended, if something is. What its message or report came to since is not changed."""
        line = self.lines[handset]
        if line.under_way is None:
            return
        waiting, _ = line.under_way
        line.under_way = None
        is_part = 'number' in waiting
        message = self.message(waiting['id'])
        if message['state'] is not None if is_part else waiting['is_done']:
            return
        if how == 'acknowledged':
            waiting['is_done'] = True
            if is_part and all(part['is_done'] for part in self.parts if part['id'] == waiting['id']):
                self.end(message, 0)
        elif how == 'refused' and cause == 22:
            line.is_full = True
        elif how == 'lost' or cause in (27, 38, 41, 42, 47):
            waiting['attempts'] += 1
            waiting['due'] = plus(self.now, (60, 300, 900, 3600)[min(waiting['attempts'], 4) - 1])
        elif is_part:
            self.end(message, 3)
        else:
            waiting['is_done'] = True

    def receive(self, handset, unit, tag):
        reference = unit[1] if len(unit) > 1 else 0
        try:
            found = read_unit(unit)
        except Unreadable:
            self.reply(handset, bytes([5, reference, 1, 96 if unit[0] in (0, 2, 4, 6) else 97]), tag)
            return
        if found[0] == 'memory':
            self.lines[handset].is_full = False
            self.make_due(handset)
            self.reply(handset, bytes([3, reference]), tag)
        elif found[0] == 'data':
            self.submitted(handset, reference, found[2], tag)

    def submitted(self, handset, reference, tpdu, tag):
        try:
            submission = handset_submission(handset, tpdu, self.now, self.accounts)
            if submission.rejects and self.is_duplicate(handset, submission):
                raise HandsetRefused(21, 0xC5)
            if self.is_taken(submission):
                raise HandsetRefused(21, 0xFF)
            if self.accept(submission) is None:
                raise HandsetRefused(42, 0xC0)
        except HandsetRefused as refusal:
            cause, failure = refusal.args
            self.reply(handset, bytes([5, reference, 1, cause, 0x41, 10, 1, failure, 0]) + written_time(self.now), tag)
            return
        self.reply(handset, bytes([3, reference, 0x41, 9, 1, 0]) + written_time(self.now), tag)

    def is_duplicate(self, handset, submission):
        """Whether a message of that handset, TP-MR and destination is pending."""
        return any(message['state'] is None and message['account'] is None and message['source'][2] == handset
                   and message['message_reference'] == submission.message_reference and message['handset'] == submission.handset
                   for message in self.messages)

    def reply(self, handset, unit, tag):
        line = self.lines[handset]
        line.carried_back = 'Ack' if unit[0] == 3 else 'Error', unit[1], tag
        self.send(handset, line.links.reply(self.now, unit), False)

    # -- its rows

    def checksum(self, rows):
        """Of what was added before, and then of all rows, list after list."""
        for message in self.messages:
            add_message(rows, message)
        for part in self.parts:
            rows.numbers(part['id'], part['number'], part['reference'])
            rows.octets(part['tpdu'])
            rows.numbers(*(part['key'] or ()))
            add_progress(rows, part)
        for place, reference in sorted(self.references):
            rows.numbers(place, reference, self.references[place, reference])
        for row in self.handsets:
            rows.numbers(row['place'], *map(ord, row['number']), row['last'])
        for report in self.reports:
            add_report(rows, report)
        for message in self.messages:
            rows.numbers(message['id'], message['priority'])
        for place, (source, handset, reference, is_own) in enumerate(self.bars, 1):
            rows.numbers(place)
            rows.address(*source)
            rows.numbers(*map(ord, handset), reference, int(is_own))
        return rows.value


def add_message(rows, message):
    rows.numbers(message['id'])
    if message['account'] is None:
        rows.numbers(message['message_reference'])
    else:
        rows.octets(message['account'])
    rows.address(*message['source'])
    rows.numbers(*map(ord, message['handset']), message['scheme'], message['pid'])
    rows.numbers((None, 'always', 'failure').index(message['wish']), message['submitted'], message['limit'])
    rows.numbers(65536 if message['split'] is None else message['split'])
    rows.numbers(4 if message['state'] is None else message['state'], message['done'] or 0)


def add_progress(rows, waiting):
    rows.numbers(int(waiting['is_done']), waiting['attempts'], waiting['due'])


def add_report(rows, report):
    rows.numbers(report['place'], report['id'], ('receipt', 'status', 'unsent').index(report['kind']))
    if report['kind'] == 'status':
        rows.numbers(report['reference'])
        rows.octets(report['tpdu'])
    rows.numbers(report['made'])
    add_progress(rows, report)
