"""Formats once more, as plainly as can be, for the plain handset and the plain centre: septets, headers, addresses, moments, links.

They share nothing with the code that they are compared with (3GPP TS 23.038, 23.040 and 24.011). What can't be read is told from what
can, but not why.
"""
import calendar
import time

ALPHABET = ('@£$¥èéùìòÇ\nØø\rÅåΔ_ΦΓΛΩΠΨΣΘΞ\x1bÆæßÉ !"#¤%&\'()*+,-./0123456789:;<=>?'
            '¡ABCDEFGHIJKLMNOPQRSTUVWXYZÄÖÑÜ§¿abcdefghijklmnopqrstuvwxyzäöñüà')
BEHIND_ESC = {'\f': 0x0A, '^': 0x14, '{': 0x28, '}': 0x29, '\\': 0x2F, '[': 0x3C, '~': 0x3D, ']': 0x3E, '|': 0x40, '€': 0x65}
ESC = 0x1B
DIGITS = '0123456789*#abc'
# 2024-02-29 23:59:58, and the first and the last moment.
START = 1709251198
FIRST, LAST = 946684800, 4102444799


class Unreadable(Exception):
    """The octets are not what they should be."""


def need(condition):
    if not condition:
        raise Unreadable


class Octets:
    """Octets that are read from front to end."""

    def __init__(self, octets):
        self.octets, self.at = octets, 0

    def take(self, count):
        need(self.at + count <= len(self.octets))
        self.at += count
        return self.octets[self.at - count:self.at]

    def one(self):
        return self.take(1)[0]

    def is_end(self):
        return self.at == len(self.octets)

    def end(self):
        need(self.is_end())


# ---- septets (3GPP TS 23.038 6.1.2.1)

def pack(septets, fill):
    number = 0
    for place, septet in enumerate(septets):
        number += septet << (fill + 7 * place)
    return number.to_bytes((fill + 7 * len(septets) + 7) // 8, 'little')


def unpack(octets, fill, count):
    number = int.from_bytes(octets, 'little')
    need(len(octets) == (fill + 7 * count + 7) // 8 and number % (1 << fill) == 0 and number >> (fill + 7 * count) == 0)
    return bytes(number >> (fill + 7 * place) & 0x7F for place in range(count))


def coding_of(scheme):
    """The coding that a data coding scheme names: 7, 8, 16, or 0 for compressed text (3GPP TS 23.038 4)."""
    group = scheme >> 4
    if group < 8:
        return 0 if scheme & 0x20 else {0: 7, 1: 8, 2: 16, 3: 7}[scheme >> 2 & 3]
    if group == 14:
        return 16
    return 8 if group == 15 and scheme & 4 else 7


# ---- headers (3GPP TS 23.040 9.2.3.24)

def key_in(header):
    """The width, value, total and number that the last valid element of a readable header says."""
    key, octets = None, Octets(header)
    try:
        while not octets.is_end():
            kind, value = octets.one(), octets.take(octets.one())
            if (kind, len(value)) == (0, 3):
                found = (8, value[0], value[1], value[2])
            elif (kind, len(value)) == (8, 4):
                found = (16, value[0] * 256 + value[1], value[2], value[3])
            else:
                continue
            if 1 <= found[3] <= found[2]:
                key = found
    except Unreadable:
        return None
    return key


class Part:
    """User data: what it carries, and the key of its header."""

    def __init__(self, scheme, has_header, length, octets):
        self.scheme, self.coding, self.key = scheme, coding_of(scheme), None
        header = b''
        if has_header:
            need(len(octets) > 0 and octets[0] + 1 <= len(octets))
            header = octets[:octets[0] + 1]
            self.key = key_in(header[1:])
        if self.coding != 7:
            self.units = octets[len(header):]
            return
        used = (8 * len(header) + 6) // 7
        fill = 7 * used - 8 * len(header)
        behind = octets[len(header):]
        if used > length:
            need(all(octet == 0 for octet in behind))
            self.units = b''
        else:
            self.units = unpack(behind, fill, length - used)


# ---- fields of TPDUs (3GPP TS 23.040 9.1.2 and 9.2.3)

def read_address(octets):
    """Type of number, numbering plan and digits."""
    length, kind = octets.one(), octets.one()
    ton, plan = kind >> 4 & 7, kind & 15
    need(1 <= length <= 20 and kind & 0x80 and ton != 7)
    value = octets.take((length + 1) // 2)
    if ton == 5:
        count = 4 * length // 7
        need(count > 0)
        return ton, plan, ''.join(ALPHABET[septet] for septet in unpack(value, 0, count))
    halves = [half for octet in value for half in (octet & 15, octet >> 4)]
    if length % 2:
        need(halves.pop() == 15)
    need(all(half < 15 for half in halves))
    return ton, plan, ''.join(DIGITS[half] for half in halves)


def read_time(octets):
    """The moment of a time stamp."""
    value = octets.take(7)
    pairs = [(octet & 15, octet >> 4) for octet in value[:6]]
    need(all(tens < 10 and ones < 10 for tens, ones in pairs))
    year, month, day, hour, minute, second = (10 * tens + ones for tens, ones in pairs)
    days = [31, 29 if year % 4 == 0 else 28, 31, 30, 31, 30, 31, 31, 30, 31, 30, 31]
    need(1 <= month <= 12 and 1 <= day <= days[month - 1] and hour < 24 and minute < 60 and second < 60)
    quarters = 10 * (value[6] & 7) + (value[6] >> 4)
    need(value[6] >> 4 < 10 and quarters < 80)
    local = calendar.timegm((2000 + year, month, day, hour, minute, second))
    moment = local + 900 * quarters if value[6] & 8 else local - 900 * quarters
    need(FIRST <= moment <= LAST)
    return moment


def written_time(moment):
    fields = time.gmtime(moment)
    pairs = (fields.tm_year % 100, fields.tm_mon, fields.tm_mday, fields.tm_hour, fields.tm_min, fields.tm_sec, 0)
    return bytes(pair // 10 + 16 * (pair % 10) for pair in pairs)


def read_user_data(octets, scheme, has_header):
    length = octets.one()
    if coding_of(scheme) == 7:
        need(length <= 160)
        value = octets.take((7 * length + 7) // 8)
    else:
        need(length <= 140)
        value = octets.take(length)
    return Part(scheme, has_header, length, value)


def read_parameters(octets, announced, has_header):
    """What TP-PI announces; behind a bit that is not known all passes."""
    if announced & 1:
        octets.one()
    scheme = octets.one() if announced & 2 else 0
    if announced & 4:
        read_user_data(octets, scheme, has_header)
    if announced < 8:
        octets.end()


# ---- reports in RP-ACK and RP-ERROR (3GPP TS 23.040 9.2.2.1a and 9.2.2.2a): one in RP-ERROR has TP-FCS. Their TP-UDHI is not looked at.

def read_deliver_report(tpdu, is_error):
    """TP-FCS of a DELIVER-REPORT, or None."""
    octets = Octets(tpdu)
    need(octets.one() & 3 == 0)
    cause = octets.one() if is_error else None
    read_parameters(octets, octets.one(), False)
    return cause


def read_submit_report(tpdu, is_error):
    """TP-FCS of a SUBMIT-REPORT, or None. Its time stamp is between TP-PI and what TP-PI announces."""
    octets = Octets(tpdu)
    need(octets.one() & 3 == 1)
    cause = octets.one() if is_error else None
    announced = octets.one()
    read_time(octets)
    read_parameters(octets, announced, False)
    return cause


# ---- fields of RP units (3GPP TS 24.011 7.3)

def read_party(octets):
    """An address that is named; its digits are not looked at."""
    length = octets.one()
    need(2 <= length <= 11)
    octets.take(length)


def read_report(octets):
    """The TPDU that may stand behind RP-ACK and RP-ERROR."""
    if octets.is_end():
        return None
    need(octets.one() == 0x41)
    return octets.take(octets.one())


def read_cause(octets):
    length = octets.one()
    need(length in (1, 2))
    cause = octets.take(length)[0]
    need(cause < 128)
    return cause


# ---- moments

def plus(moment, seconds):
    """So many seconds later, or the last moment of 2099 where that is past it."""
    return min(moment + seconds, LAST)


# ---- links (3GPP TS 24.011 5)

class Links:
    """One transaction that the handset began, and one that the centre began."""

    def __init__(self):
        self.next_identifier = 0
        self.begun = None
        self.opened = None
        # The last answer that was taken, and the opening of the last transaction that CP-ACK closed.
        self.answer, self.opening = None, None

    def begin(self, now, unit):
        head = self.next_identifier * 16 + 9
        frame = bytes([head, 1, len(unit)]) + unit
        self.begun = {'head': head, 'frame': frame, 'is_acknowledged': False, 'repeats': 0, 'again': plus(now, 10), 'end': plus(now, 40)}
        self.next_identifier = (self.next_identifier + 1) % 7
        return frame

    def reply(self, now, unit):
        frame = bytes([self.opened['head'] + 128, 1, len(unit)]) + unit
        self.opened.update(answer=frame, repeats=0, again=plus(now, 10))
        return frame

    def take(self, frame):
        """The frames that go out at once, and what comes up: None, 'failed', ('opened', unit) or ('answered', unit)."""
        if len(frame) < 2 or frame[0] & 15 != 9 or frame[0] & 0x70 == 0x70:
            return [], None
        head, kind, rest = frame[0], frame[1], frame[2:]
        if kind == 1 and len(rest) > 1 and 1 <= rest[0] <= 248 and rest[0] == len(rest) - 1:
            return self.answered(frame, rest[1:]) if head & 128 else self.opens(frame, rest[1:])
        if kind == 4 and not rest:
            self.acknowledged(head)
        if kind == 0x10 and len(rest) == 1:
            return [], self.refused(head)
        return [], None

    def answered(self, frame, unit):
        head = frame[0] - 128
        if self.begun and self.begun['head'] == head:
            self.begun, self.answer = None, frame
            return [bytes([head, 4])], ('answered', unit)
        if frame == self.answer:
            return [bytes([head, 4])], None
        return [bytes([head, 0x10, 81])], None

    def opens(self, frame, unit):
        ack = bytes([frame[0] + 128, 4])
        if self.opened and self.opened['frame'] == frame:
            return [ack] + ([self.opened['answer']] if self.opened['answer'] else []), None
        if frame == self.opening:
            return [ack], None
        self.opened = {'head': frame[0], 'frame': frame, 'answer': None}
        return [ack], ('opened', unit)

    def acknowledged(self, head):
        if head & 128:
            if self.begun and self.begun['head'] == head - 128:
                self.begun['is_acknowledged'] = True
        elif self.opened and self.opened['head'] == head and self.opened['answer']:
            self.opened, self.opening = None, self.opened['frame']

    def refused(self, head):
        if head & 128 and self.begun and self.begun['head'] == head - 128:
            self.begun = None
            return 'failed'
        if not head & 128 and self.opened and self.opened['head'] == head:
            self.opened = None
        return None

    def fire(self, now):
        frames, up = [], None
        begun = self.begun
        if begun and now >= begun['end']:
            self.begun, up = None, 'failed'
        elif begun and not begun['is_acknowledged'] and now >= begun['again']:
            if begun['repeats'] == 2:
                self.begun, up = None, 'failed'
            else:
                begun.update(repeats=begun['repeats'] + 1, again=plus(now, 10))
                frames.append(begun['frame'])
        opened = self.opened
        if opened and opened['answer'] and now >= opened['again']:
            if opened['repeats'] == 2:
                self.opened = None
            else:
                opened.update(repeats=opened['repeats'] + 1, again=plus(now, 10))
                frames.append(opened['answer'])
        return frames, up


# ---- texts

def code_of(character):
    """The septets of a character of the default alphabet, or None."""
    if character in BEHIND_ESC:
        return [ESC, BEHIND_ESC[character]]
    if character in ALPHABET and character != chr(ESC):
        return [ALPHABET.index(character)]
    return None


def halves_of(octets):
    """Units of UCS2."""
    return [octets[at:at + 2] for at in range(0, len(octets), 2)]


# How many units one part has room for, alone and behind the header of a 16-bit reference, by the bits of a unit.
ROOM = {7: (160, 152), 8: (140, 133), 16: (70, 66)}


def is_whole(units, coding, end):
    """Whether nothing is cut in two where the units end there."""
    if end == len(units):
        return True
    if coding == 7:
        # an ESC that opens a pair stands behind an even number of others
        opened = 0
        while opened < end and units[end - 1 - opened] == ESC:
            opened += 1
        return opened % 2 == 0
    if coding == 16:
        return not (0xD8 <= units[end - 1][0] <= 0xDB and 0xDC <= units[end][0] <= 0xDF)
    return True


def split(units, coding):
    """The units of each part."""
    alone, room = ROOM[coding]
    if len(units) <= alone:
        return [units]
    parts, rest = [], units
    while rest:
        end = min(room, len(rest))
        while not is_whole(rest, coding, end):
            end -= 1
        parts.append(rest[:end])
        rest = rest[end:]
    return parts


def octets_of(units):
    """Units as octets: a septet each, an octet, or two of UCS2."""
    return b''.join(unit if isinstance(unit, bytes) else bytes([unit]) for unit in units)


def user_data(units, coding, header):
    """UDL, and UD with the header in front."""
    if coding != 7:
        octets = header + octets_of(units)
        return len(octets), octets
    used = (8 * len(header) + 6) // 7
    return used + len(units), header + pack(units, 7 * used - 8 * len(header))


def long_header(reference, total, number):
    return bytes([6, 8, 4, reference >> 8, reference & 255, total, number])


# ---- addresses

def fault_of(ton, plan, digits):
    """The code of what is wrong with an address."""
    if ton > 6 or plan > 15:
        return 'A5'
    if digits == '':
        return 'A1'
    septets = 0
    for place, character in enumerate(digits):
        if ton == 5:
            code = code_of(character)
            if code is None:
                return 'A4'
            septets += len(code)
            if septets > 11:
                return 'A2'
        elif place == 20:
            return 'A2'
        elif character not in DIGITS:
            return 'A3'
    return None


def swapped(digits):
    halves = [DIGITS.index(digit) for digit in digits] + [15] * (len(digits) % 2)
    return bytes(low + 16 * high for low, high in zip(halves[::2], halves[1::2]))


def written_address(ton, plan, digits):
    kind = 0x80 + 16 * ton + plan
    if ton == 5:
        septets = [septet for character in digits for septet in code_of(character)]
        return bytes([(7 * len(septets) + 3) // 4, kind]) + pack(septets, 0)
    return bytes([len(digits), kind]) + swapped(digits)


# ---- checksums

class Sum:
    """Octets, and numbers in eight octets each, and their checksum: FNV-1a in 64 bits."""

    def __init__(self):
        self.value = 0xCBF29CE484222325

    def octets(self, octets):
        for octet in octets:
            self.value = (self.value ^ octet) * 0x100000001B3 % 2 ** 64

    def numbers(self, *numbers):
        for number in numbers:
            self.octets(number.to_bytes(8, 'big'))

    def address(self, ton, plan, digits):
        self.numbers(ton, plan, *map(ord, digits))
