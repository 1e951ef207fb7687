# Makes ../../lab/data/b.store, the store of a handset, with Python's sqlite3 and TPDUs that are worked out here: `make_handset_store.py FILE`.
# The table that `handset show` must print of it (in lab's stdout, in the section of keeps) was written by hand.
import sqlite3, sys

TABLES = [
    "CREATE TABLE meta (version INTEGER NOT NULL, kind TEXT NOT NULL, UNIQUE (version)) STRICT",
    "CREATE TABLE entry (number INTEGER NOT NULL, slots INTEGER NOT NULL, kind TEXT NOT NULL, source_ton INTEGER, source_npi INTEGER, source TEXT, reference_bits INTEGER, reference INTEGER, total INTEGER, part INTEGER, coding TEXT, data_coding_scheme INTEGER, octets BLOB NOT NULL, UNIQUE (number)) STRICT",
    "CREATE TABLE last_accepted (reference INTEGER NOT NULL, tpdu BLOB NOT NULL, UNIQUE (reference)) STRICT",
    "CREATE TABLE outbox (number INTEGER NOT NULL, message_reference INTEGER NOT NULL, reference INTEGER NOT NULL, destination_ton INTEGER NOT NULL, destination_npi INTEGER NOT NULL, destination TEXT NOT NULL, tpdu BLOB NOT NULL, is_long INTEGER NOT NULL, state TEXT NOT NULL, tries INTEGER NOT NULL, rejects_duplicates INTEGER NOT NULL, due INTEGER, status INTEGER, UNIQUE (number)) STRICT",
    "CREATE TABLE discarded_group (number INTEGER NOT NULL, source_ton INTEGER NOT NULL, source_npi INTEGER NOT NULL, source TEXT NOT NULL, reference_bits INTEGER NOT NULL, reference INTEGER NOT NULL, total INTEGER NOT NULL, seen BLOB NOT NULL, UNIQUE (number)) STRICT",
    "CREATE TABLE counters (place INTEGER NOT NULL, next_entry INTEGER NOT NULL, next_message_reference INTEGER NOT NULL, next_reference INTEGER NOT NULL, next_concat_reference INTEGER NOT NULL, next_notice INTEGER NOT NULL, is_memory_full INTEGER NOT NULL, UNIQUE (place)) STRICT",
]


def packed(text):
    value = sum(ord(c) << 7 * i for i, c in enumerate(text))
    return value.to_bytes((7 * len(text) + 7) // 8, "little")


def number(digits):
    pairs = digits + "F" * (len(digits) % 2)
    return bytes([len(digits), 0x91]) + bytes(int(pairs[i + 1] + pairs[i], 16) for i in range(0, len(pairs), 2))


def name(text):
    return bytes([-(-7 * len(text) // 4), 0xD0]) + packed(text)


SCTS = bytes.fromhex("42209232958500")  # 29 February 2024, 23:59:58


def deliver(source, scheme, length, octets, first=0x24):
    return bytes([first]) + source + bytes([0, scheme]) + SCTS + bytes([length]) + octets


def submit(reference, to, text):
    return bytes([0x01, reference]) + number(to) + bytes([0, 0, len(text)]) + packed(text)


ucs2 = "ж😀".encode("utf-16-be")
none = [None] * 9
entries = [
    (1, 1, "single", *none, deliver(number("447700900001"), 0, 5, packed("hello"))),
    (2, 1, "single", *none, deliver(name("Bank"), 8, len(ucs2), ucs2)),
    (3, 1, "single", *none, deliver(number("447700900001"), 4, 3, bytes([0, 1, 2]))),
    # part 1 of 2 under the reference 2A of 8 bits: a header of six octets, a fill bit, and one septet
    (4, 1, "part", 1, 1, "447700900456", 8, 0x2A, 2, 1, None, None,
     deliver(number("447700900456"), 0, 8, bytes.fromhex("0500032A0201C2"), 0x44)),
    (5, 2, "joined", 1, 1, "447700900123", None, None, None, None, "septets", 0, b"hello\nworld"),
]
outbox = [
    (6, 0, 0, 1, 1, "447700900123", submit(0, "447700900123", "hello"), 0, "sent", 1, 0, None, None),
    (7, 1, 1, 1, 1, "447700900123", submit(1, "447700900123", "hello"), 0, "queued", 0, 0, None, None),
]

store = sqlite3.connect(sys.argv[1])
store.execute("PRAGMA page_size = 1024")
for table in TABLES:
    store.execute(table)
store.execute("INSERT INTO meta VALUES (1, 'handset')")
store.executemany("INSERT INTO entry VALUES (?,?,?,?,?,?,?,?,?,?,?,?,?)", entries)
store.executemany("INSERT INTO outbox VALUES (?,?,?,?,?,?,?,?,?,?,?,?,?)", outbox)
store.execute("INSERT INTO counters VALUES (1, 8, 2, 2, 0, 0, 0)")
store.commit()
store.close()
