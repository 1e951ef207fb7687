#!/usr/bin/env python3
"""Writes the section `formats`: calls of readers, writers, links, sessions and endpoints while memory is refused, and over hostile octets, and
checksums of codecs.

What a call gives is worked out by hand from the standards, or by the plain readers and links of tests/plain. Each list of hostile octets is one
of tests/plain/hostile.py. Checksums are those of bench/measures/codecs.sums, which `bench/run` compares with what the C side gives; their inputs are
those of the C side, too.
"""
import os
import sys

sys.dont_write_bytecode = True
sys.path.insert(0, os.path.join(os.path.dirname(os.path.abspath(__file__)), '../../plain'))
import centre
import handset
from formats import (
    Links, Octets, Sum, Unreadable, code_of, octets_of, pack, read_address, read_deliver_report, read_submit_report, read_time, read_user_data, split,
    unpack)
from hostile import lists
from sections import FOLDER, put


# ---- while memory is refused

HELLO, PACKED = '68656C6C6F', 'E8329BFD06'
# SUBMIT of `hello` to 447700900456, and its DELIVER from 447700900123 (3GPP TS 23.040 9.2.2).
SUBMIT = '01070C91447700094065000005' + PACKED
DELIVER = '040C9144770009103200004220923295850005' + PACKED
REPORT = '06010C914477000910324220923295850042209232958500' + '00'
# A STATUS-REPORT with `hi!!` behind a header (9.2.3.24.1), in octets.
LONG_REPORT = '46' + REPORT[2:] + '06040A' + '050003070301' + '68692121'
CENTRE = '07914477000900' + '00'
DATA_UP = f'000300{CENTRE}12{SUBMIT}'
DATA_DOWN = f'0100{CENTRE}0018{DELIVER}'
FRAME = f'090124{DATA_DOWN}'
LONG = "'" + 'abcdefg ' * 25

BIND = '00000021' + '00000009' + '00000000' + '00000001' + '6170703100' + '73656372657400' + '00' + '34' + '0000' + '00'
# bind_transceiver_resp with sc_interface_version 34 hexadecimal (SMPP v3.4 4.1.6, 5.3.2.25).
BOUND = '0000001A' + '80000009' + '00000000' + '00000001' + '736D736300' + '0210000134'
SUBMIT_SM = '00000032000000040000000000000002' + '00000000' + '0101343437373030393030343536' + '00000000000001000000' + '05' + HELLO
SUBMIT_FAILED = '00000010' + '80000004' + '00000008' + '00000002'
DELIVER_SM = '0000002A' + '00000005' + '00000000' + '00000001' + '00' + '010100' * 2 + '04' + '00' * 9 + '04240005' + HELLO


def parts(text):
    return [octets_of(units).hex().upper() for units in split(list(text.encode()), 7)]


def spelled(line):
    return ' '.join(part for part in [line] if part)


# A call, and what it gives.
SWEPT = [
    # Texts (3GPP TS 23.038 6.1.2.1, 6.2.1): ESC is spelled before `[`, whose code behind it is 3C.
    ("septets 'hello", HELLO), ("septets 'a[", '611B3C'), ('text ' + HELLO, HELLO), ('text 1B3C', '5B'), ('pack ' + HELLO, PACKED),
    ('unpack ' + PACKED, HELLO), ("ucs2 'h\u00e9", '006800E9'), ('ucs2_text 006800E9', '68C3A9'),
    # Long texts (3GPP TS 23.040 9.2.3.24): 200 septets are 152 and 48.
    ('split ' + LONG, ' '.join(parts(LONG[1:]))), ('join ' + LONG, ''.join(parts(LONG[1:]))), ('joiner ' + LONG, ''.join(parts(LONG[1:]))),
    ('header 050003070301', '050003070301'), ("address '447700900000", CENTRE[2:]),
    # Frames, units and TPDUs are written as they were read.
    ('cp ' + FRAME, FRAME), ('cp 8904', '8904'), ('cp 091051', '091051'), ('rp_up ' + DATA_UP, DATA_UP), ('rp_up 02054102' + '0000', '020541020000'),
    ('rp_up 04010116', '04010116'), ('rp_up 0605', '0605'), ('rp_down ' + DATA_DOWN, DATA_DOWN), ('rp_down 0305', '0305'),
    ('rp_down 05030115', '05030115'), ('submit ' + SUBMIT, SUBMIT), ('deliver_report 0000', '0000'), ('deliver_refusal 00D300', '00D300'),
    ('deliver ' + DELIVER, DELIVER), ('deliver ' + REPORT, REPORT), ('submit_report 010042209232958500', '010042209232958500'),
    ('submit_refusal 01C60042209232958500', '01C60042209232958500'), ('enquire_link 00', '00000010000000150000000000000007 enquire_link'),
    # Links (3GPP TS 24.011 5): one's own transaction, its repeat after 10 s, its answer; one of the other side, answered and closed.
    ('begin 0605', '0901020605'), ('fire 00', '0901020605'), ('copy 00', 'copied'), ('take 8901020305', '0904 up 0305'),
    ('take 8901020306', '091051'), ('take 0901020605', '8904 up 0605'), ('reply 0305', '8901020305'), ('take 0901020605', '8904 8901020305'),
    ('link_begin ' + DATA_DOWN.replace('0100', '0105', 1), FRAME.replace('0100', '0105', 1)), ('link_take 890106020541020000', '0904 acknowledged'),
    ('link_take 0901020605', '8904 up 0605'), ('link_reply 0305', '8901020305'),
    # A session (SMPP v3.4 4): bound as app1, a submit_sm and its refusal, a deliver_sm of `hello`.
    ('feed ' + BIND, BOUND + ' bound'), ('feed ' + SUBMIT_SM, 'up ' + SUBMIT_SM), ('answer 00', SUBMIT_FAILED), ('deliver_sm 00', DELIVER_SM),
    ('feed 00000011800000050000000000000001' + '00', 'accepted'),
]

# Sessions and links at seats: a call, the calls before it, and then the octets to send and the jobs to put. A deliver_sm of a receipt (SMPP v3.4
# 4.6.1, appendix B) is from the handset to the application. A frame on a link has its length in two octets before it.
ACCEPTED = '0000001B' + '80000004' + '00000000' + '00000002' + '3030303030303030303100'
THROTTLED = '00000010' + '80000004' + '00000058' + '00000002'
TEXT = b'id:0000000001 sub:001 dlvrd:001 submit date:2402292359 done date:2402292359 stat:DELIVRD err:000 text:'
RECEIPT = ('000000B3' + '00000005' + '00000000' + '00000001' + '00' + '0101' + b'447700900456'.hex() + '00' + '0101' + b'447700900001'.hex() + '00'
           + '040000' + '0000' + '00000000' + '66' + TEXT.hex() + '001E000B' + b'0000000001'.hex() + '00' + '0427000102').upper()
NUMBER = '000C' + b'447700900456'.hex()
UP = f'take={NUMBER} put put accepted'
AT_SEATS = [
    (f'session_at_seat take={BIND}', BOUND + ' bound'),
    (f'session_at_seat take={SUBMIT_SM} take={BIND} put', f'{BOUND} submit {SUBMIT_SM}'),
    (f'session_at_seat accepted take={BIND + SUBMIT_SM} put put', BOUND + ACCEPTED),
    (f'session_at_seat hand_back take={BIND + SUBMIT_SM} put', BOUND + THROTTLED),
    (f'session_at_seat receipt take={BIND} put', BOUND + RECEIPT),
    ('session_at_seat receipt', 'answered'),
    ('session_at_seat give_up', '00000010' + '80000000' + '0000000D' + '00000000'),
    (f'session_at_seat ask_link take={BIND} put', BOUND + '00000010' + '00000015' + '00000000' + '7FFFFFFF'),
    (f'session_at_seat ask_to_leave take={BIND} put', BOUND + '00000010' + '00000006' + '00000000' + '7FFFFFFE'),
    (f'link_at_seat take={NUMBER}', 'link_up query'),
    (f'link_at_seat accepted take={NUMBER}00028904 put put', 'frame 8904'),
    (f'link_at_seat take=00028904 {UP}', 'frame 8904'),
    (f'link_at_seat frame=0904 {UP}', '00020904'),
    ('link_at_seat give_up', '0003091016'),
    ('link_at_seat take=FFFF', '000309106F'),
]


# ---- over hostile octets

def whole(read):
    """Whether the reader takes all octets."""
    def takes(octets):
        taken = Octets(octets)
        try:
            read(taken)
            taken.end()
        except Unreadable:
            return False
        return True
    return takes


def readable(read):
    def takes(octets):
        try:
            read(octets)
        except Unreadable:
            return False
        return True
    return takes


def submit(octets):
    """A SUBMIT; one with a relative, absolute or no validity period. Whether the centre takes it is looked at later."""
    first = octets.one()
    if first & 3 != 1 or first >> 3 & 3 == 1:
        raise Unreadable
    octets.one()
    read_address(octets)
    octets.one()
    scheme = octets.one()
    if first >> 3 & 3 == 2:
        octets.one()
    if first >> 3 & 3 == 3:
        read_time(octets)
    read_user_data(octets, scheme, bool(first & 0x40))


def septets(octets):
    return all(octet < 0x80 for octet in octets)


def is_text(octets):
    """Septets whose text is known: each is a septet."""
    return septets(octets)


def is_ucs2(octets):
    try:
        bytes(octets).decode('utf-16-be')
    except UnicodeDecodeError:
        return False
    return True


def unpacks(octets):
    count = len(octets) % 141 * 8 // 7 % 256
    try:
        unpack(octets, 0, count)
    except Unreadable:
        return False
    return len(octets) == (7 * count + 7) // 8


def header(octets):
    return len(octets) > 0 and octets[0] + 1 <= len(octets) and centre.is_header(octets[1:octets[0] + 1])


def control(octets):
    if len(octets) < 2 or octets[0] & 15 != 9 or octets[0] & 0x70 == 0x70:
        return False
    return {1: len(octets) > 3 and octets[2] == len(octets) - 3 <= 248, 4: len(octets) == 2, 16: len(octets) == 3}.get(octets[1], False)


# The commands whose PDU may be a header alone (SMPP v3.4 4): unbind, enquire_link, generic_nack and each response.
BODILESS = [0x06, 0x15] + [0x80000000 + number for number in (0, 1, 2, 3, 4, 5, 6, 8, 9, 0x15)]


def pdu(octets):
    return len(octets) == 16 and octets[:4] == b'\0\0\0\x10' and int.from_bytes(octets[4:8], 'big') in BODILESS


def stays_open(is_bound):
    """Whether a session is open after the list: a length outside 16 to 65,536 closes it, and so does an unbind of one that is bound."""
    def takes(octets):
        rest = octets
        while len(rest) >= 16:
            length = int.from_bytes(rest[:4], 'big')
            if not 16 <= length <= 65536:
                return False
            if length > len(rest):
                return True
            if is_bound and rest[4:8] == b'\0\0\0\6':
                return False
            rest = rest[length:]
        return True
    return takes


ENQUIRE = '00000010000000150000000000000001'
BINDS = {'transmitter': '02', 'receiver': '01', 'transceiver': '09'}
HOSTILE = [
    ('text 1000 1 ' + HELLO, is_text), ('unpack 1000 2 ' + PACKED, unpacks), ('ucs2_text 1000 3 006800E9D83DDE00', is_ucs2),
    ('header 1000 4 0B0003070301080400070301', header), ('cp 1000 5 ' + FRAME, control), ('rp_up 1000 6 ' + DATA_UP, readable(centre.read_unit)),
    ('rp_up 1000 7 04010116410300D300', readable(centre.read_unit)), ('rp_down 1000 8 ' + DATA_DOWN, readable(handset.read_unit)),
    ('rp_down 1000 9 050301154104' + '01C60000', readable(handset.read_unit)), ('submit 1000 10 ' + SUBMIT, whole(submit)),
    ('deliver 1000 11 ' + DELIVER, readable(handset.read_tpdu)), ('deliver 1000 12 ' + REPORT, readable(handset.read_tpdu)),
    ('pdu 1000 13 ' + ENQUIRE, pdu), ('session 1000 14 ' + ENQUIRE, stays_open(False)),
] + [(f'session 1000 {15 + place} {ENQUIRE} ' + BIND.replace('00000009', '000000' + BINDS[state], 1), stays_open(True))
     for place, state in enumerate(BINDS)] + [
    # Reports in RP-ACK and RP-ERROR, whose TP-PI announces a text in septets, one in UCS2, or TP-PID alone.
    ('deliver_report 1000 21 ' + '0007000005' + PACKED, readable(lambda tpdu: read_deliver_report(tpdu, False))),
    ('deliver_refusal 1000 22 ' + '00D3060804' + '00680069', readable(lambda tpdu: read_deliver_report(tpdu, True))),
    ('submit_report 1000 23 ' + '010742209232958500000005' + PACKED, readable(lambda tpdu: read_submit_report(tpdu, False))),
    ('submit_refusal 1000 24 ' + '01C6014220923295850000', readable(lambda tpdu: read_submit_report(tpdu, True))),
    ('deliver 1000 25 ' + LONG_REPORT, readable(handset.read_tpdu)),
]


def shown(frames, up):
    words = [''] + [frame.hex().upper() for frame in frames]
    if up == 'failed':
        words.append('failed')
    elif up:
        words += ['up', up[1].hex().upper()]
    return ' '.join(words).encode()


def taken_by_links():
    """Links as the lines before left them, and with a transaction of their own that waits for its answer."""
    links = Links()
    for line, _ in SWEPT:
        name, _, word = line.partition(' ')
        if name == 'begin':
            links.begin(0, bytes.fromhex(word))
        elif name == 'fire':
            links.fire(10)
        elif name == 'take':
            links.take(bytes.fromhex(word))
        elif name == 'reply':
            links.reply(0, bytes.fromhex(word))
    links.begin(0, bytes.fromhex('0606'))
    frame, found = '9901020306', Sum()
    for octets in lists(1000, 20, bytes.fromhex(frame)):
        found.octets(shown(*links.take(octets)))
    return 'take 1000 20 ' + frame, f'  1000 taken {found.value:016x}'


# ---- checksums of codecs

PLAIN = 'abcdefghijklmnopqrstuvwxyzABCDEFGHIJKLMNOPQRSTUVWXYZ0123456789 .'
ESCAPED = 'abcdefghijklmnopqrstuvwxyzABCDEFGHIJKLMNOPQRSTUVWXYZ0123[]{}|~ .'
MIXED = 'абвгдежзийклмнопрстуфхцчшщъыьэюяАБВГДЕЖЗИЙКЛМНОП ,.!?12345éä中文字€'


def written(octets):
    return bytes(octets).hex().upper()


def text_of(characters):
    """160 characters of 64, by a generator that the C side has, too."""
    text, seed = '', 1
    for _ in range(160):
        seed = (seed * 1103515245 + 12345) % 2 ** 32
        text += characters[(seed >> 16) % 64]
    return text


def spelled_of(characters):
    return [code for character in text_of(characters) for code in code_of(character)]


def message_of(command, validity):
    """A PDU with a message from BANK (SMPP v3.4 4.4.1, 4.6.1)."""
    body = (b'\0' + b'\5\0BANK\0' + b'\1\1' + b'447700900123\0' + b'\0\0\0' + b'\0' + validity + b'\0' + b'\1\0\0\0' + b'\xA0'
            + text_of(PLAIN).encode())
    return written((16 + len(body)).to_bytes(4, 'big') + command.to_bytes(4, 'big') + bytes(4) + b'\0\0\0\7' + body)


def sums():
    """The work of each kind that the C side has: the name in codecs.sums, and the line."""
    user_data = written(pack(spelled_of(PLAIN), 0))
    submit_sm, deliver_sm = message_of(4, b'000000010000000R'), message_of(5, b'')
    return [
        ('pack', 'pack ' + written(spelled_of(PLAIN))), ('unpack', 'unpack ' + user_data), ('text_to_septets', "septets '" + text_of(ESCAPED)),
        ('septets_to_text', 'text ' + written(spelled_of(ESCAPED))), ('text_to_packed', "text_packed '" + text_of(ESCAPED)),
        ('packed_to_text', 'packed_text ' + written(pack(spelled_of(ESCAPED), 0))), ('text_to_ucs2', "ucs2 '" + text_of(ESCAPED)),
        ('ucs2_to_text', 'ucs2_text ' + written(text_of(ESCAPED).encode('utf-16-be'))), ('mixed_to_ucs2', "ucs2 '" + text_of(MIXED)),
        ('ucs2_to_mixed', 'ucs2_text ' + written(text_of(MIXED).encode('utf-16-be'))), ('time_stamp_written', 'stamps_written 00'),
        ('time_stamp_read', 'stamps_read 00'), ('address_written', "address '447700900123"),
        ('address_read', 'address_read 012A0C91447700091032000000'),
        ('submit_read', 'submit_read 112A0C91447700091032' + '0000A7A0' + user_data),
        ('deliver_written', 'deliver 040C91447700091032' + '0000' + '42209232958500' + 'A0' + user_data), ('submit_sm_read', 'message_read ' + submit_sm),
        ('submit_sm_written', "submit_sm '" + text_of(PLAIN)), ('deliver_sm_read', 'message_read ' + deliver_sm),
        ('deliver_sm_written', "deliver_sm '" + text_of(PLAIN)), ('stream_whole', 'stream_whole ' + submit_sm),
        ('stream_of_thousands', 'stream_of_thousands ' + submit_sm), ('stream_of_octets', 'stream_of_octets ' + submit_sm),
    ]


def told_sums():
    with open(os.path.join(FOLDER, '../../bench/measures/codecs.sums'), encoding='utf-8') as file:
        return dict(line.split() for line in file)


def main():
    lines, told = ['# Each growth is refused once before the call has the memory that it needs.'], []
    for line, gives in SWEPT + AT_SEATS:
        lines.append(line)
        told += [line, '  refused, then ' + gives]
    lines.append('# Lists of octets: two of three random, the third a true input with octets changed, cut or added.')
    for line, takes in HOSTILE:
        words = line.split(' ')
        found, count = Sum(), 0
        for octets in lists(int(words[1]), int(words[2]), bytes.fromhex(words[3])):
            if takes(octets):
                count += 1
                found.octets(octets)
        lines.append('hostile ' + line)
        told += ['hostile ' + line, f'  {count} taken {found.value:016x}']
    line, gives = taken_by_links()
    lines += ['begin 0606', 'hostile ' + line]
    told += ['begin 0606', '  refused, then 1901020606', 'hostile ' + line, gives]
    lines.append('# Checksums of codecs.')
    found = told_sums()
    for kind, line in sums():
        lines.append('sum ' + line)
        told += ['sum ' + line, '  ' + found[kind]]
    put('stdin', 'formats', lines)
    put('stdout', 'formats', told)


if __name__ == '__main__':
    main()
