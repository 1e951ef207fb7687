# Makes ../../lab/data/centre.store and its log, the store of a centre, with Python's sqlite3 and TPDUs that are worked out here:
# `make_centre_store.py FOLDER`. Its last message stands in the log alone. The table that `smscd show` must print of it (in lab's stdout, in the section of keeps) was
# written by hand.
import os, shutil, sqlite3, sys, tempfile

TABLES = [
    "CREATE TABLE meta (version INTEGER NOT NULL, kind TEXT NOT NULL, UNIQUE (version)) STRICT",
    "CREATE TABLE message (id INTEGER NOT NULL, account BLOB, message_reference INTEGER, source_ton INTEGER NOT NULL, source_npi INTEGER NOT NULL, source TEXT NOT NULL, handset TEXT NOT NULL, data_coding_scheme INTEGER NOT NULL, protocol_identifier INTEGER NOT NULL, wish TEXT NOT NULL, submitted INTEGER NOT NULL, expires INTEGER NOT NULL, split_reference INTEGER, state TEXT NOT NULL, done INTEGER, UNIQUE (id)) STRICT",
    "CREATE TABLE part (message INTEGER NOT NULL, number INTEGER NOT NULL, reference INTEGER NOT NULL, tpdu BLOB NOT NULL, concat_bits INTEGER, concat_reference INTEGER, concat_total INTEGER, concat_number INTEGER, is_done INTEGER NOT NULL, attempts INTEGER NOT NULL, due INTEGER NOT NULL, UNIQUE (message, number)) STRICT",
    "CREATE TABLE given_reference (place INTEGER NOT NULL, reference INTEGER NOT NULL, last_given INTEGER NOT NULL, UNIQUE (place, reference)) STRICT",
    "CREATE TABLE handset (place INTEGER NOT NULL, number TEXT NOT NULL, last_reference INTEGER NOT NULL, UNIQUE (place)) STRICT",
    "CREATE TABLE report (place INTEGER NOT NULL, message INTEGER NOT NULL, kind TEXT NOT NULL, reference INTEGER, tpdu BLOB, made INTEGER NOT NULL, is_done INTEGER NOT NULL, attempts INTEGER NOT NULL, due INTEGER NOT NULL, UNIQUE (place)) STRICT",
    "CREATE TABLE priority (message INTEGER NOT NULL, priority INTEGER NOT NULL, UNIQUE (message)) STRICT",
    "CREATE INDEX report_message ON report (message)",
    "CREATE TABLE bar (place INTEGER NOT NULL, source_ton INTEGER NOT NULL, source_npi INTEGER NOT NULL, source TEXT NOT NULL, handset TEXT NOT NULL, reference INTEGER NOT NULL, is_own INTEGER NOT NULL, UNIQUE (place)) STRICT",
]

T0 = 1709251198  # 29 February 2024, 23:59:58


def deliver(source, head=0x00, user_data=bytes.fromhex("05E8329BFD06")):
    """A DELIVER of the default alphabet with TP-MMS 1; without a head it says hello."""
    return bytes([0x04 | head]) + source + bytes([0, 0]) + bytes.fromhex("42209232958500") + user_data


def packed(text):
    value = sum(ord(c) << 7 * i for i, c in enumerate(text))
    return value.to_bytes((7 * len(text) + 7) // 8, "little")


def number(digits):
    pairs = digits + "F" * (len(digits) % 2)
    return bytes([len(digits), 0x91]) + bytes(int(pairs[i + 1] + pairs[i], 16) for i in range(0, len(pairs), 2))


def name(text):
    return bytes([-(-7 * len(text) // 4), 0xD0]) + packed(text)


BANK = name("Bank")
APPLICATION = number("447700900001")
HANDSET = number("447700900123")

#            id, account, TP-MR, source, to, DCS, PID, wish, submitted, expires, split, state, done
messages = [
    (1, b"bank", None, 1, 1, "447700900001", "447700900456", 0, 0, "always", T0, T0 + 172800, None, "delivered", T0 + 2),
    (2, None, 7, 1, 1, "447700900123", "447700900456", 0, 0, "nothing", T0, T0 + 172800, None, "pending", None),
    (3, b"bank", None, 5, 0, "Bank", "447700900777", 0, 0, "nothing", T0, T0 + 30, None, "expired", T0 + 30),
]
#         message, number, reference, tpdu, header.., is_done, attempts, due
parts = [
    (1, 1, 0, deliver(APPLICATION), None, None, None, None, 1, 0, T0),
    (2, 1, 1, deliver(HANDSET), None, None, None, None, 0, 2, T0 + 302),
    (3, 1, 0, deliver(BANK), None, None, None, None, 0, 1, T0 + 60),
]
# Places go from 1.
given = [(1, 0, T0), (1, 1, T0), (2, 0, T0)]
handsets = [(1, "447700900456", 1), (2, "447700900777", 0)]
reports = [(1, 1, "receipt", None, None, T0 + 2, 1, 0, T0 + 2)]
priorities = [(1, 0), (2, 0), (3, 0)]

last = (4, b"bank", None, 1, 1, "447700900001", "447700900456", 0, 0, "on_failure", T0 + 60, T0 + 172860, 0, "pending", None)
# Parts 1 and 2 of 2 under the reference 0 of 16 bits: a header of seven octets is the room of eight septets, and one septet follows.
last_parts = [
    (4, part, 1 + part, deliver(APPLICATION, 0x40, bytes([9, 6, 8, 4, 0, 0, 2, part, ord("a")])), 16, 0, 2, part, 0, 0, T0 + 60)
    for part in (1, 2)
]


def put(store, table, rows):
    for row in rows:
        store.execute(f"INSERT INTO {table} VALUES ({', '.join('?' * len(row))})", row)


def main(folder):
    with tempfile.TemporaryDirectory() as room:
        path = os.path.join(room, "centre.store")
        store = sqlite3.connect(path, isolation_level=None)
        store.execute("PRAGMA page_size = 1024")
        store.execute("PRAGMA journal_mode = WAL")
        store.execute("PRAGMA wal_autocheckpoint = 0")
        store.execute("BEGIN")
        for table in TABLES:
            store.execute(table)
        put(store, "meta", [(3, "centre")])
        put(store, "message", messages)
        put(store, "part", parts)
        put(store, "given_reference", given)
        put(store, "handset", handsets)
        put(store, "report", reports)
        put(store, "priority", priorities)
        store.execute("COMMIT")
        store.execute("PRAGMA wal_checkpoint(TRUNCATE)")
        store.execute("BEGIN")
        put(store, "message", [last])
        put(store, "part", last_parts)
        put(store, "given_reference", [(1, 2, T0 + 60), (1, 3, T0 + 60)])
        store.execute("UPDATE handset SET last_reference = 3 WHERE place = 1")
        put(store, "priority", [(4, 0)])
        store.execute("COMMIT")
        # While it is open: sqlite3 would put the log into the file as it closes.
        for name in ("centre.store", "centre.store-wal"):
            shutil.copy(os.path.join(room, name), os.path.join(folder, name))
        store.close()


main(sys.argv[1])
