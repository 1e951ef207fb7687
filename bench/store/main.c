/* The store of a centre by C SQLite: the same tables, the same transactions, the same words as `lab_measures store`.
 *
 *   peer [FINISHED OPEN TURNS [FILE]]
 *
 * A store that has tables already is taken as filled so; with no turns nothing is measured. Statements are prepared once. A file has a
 * write-ahead log and a sync at each commit, as the port has. */
#include <sqlite3.h>
#include <stdint.h>
#include <stdio.h>
#include <stdlib.h>
#include <string.h>
#include <time.h>

enum { NOW = 1709251198, DAYS = 172800, SHELF = 200, LEFT = 56, TOGETHER = 1000 };

enum statement {
	BEGIN, COMMIT,
	/* how a row is put: each UPDATE is followed by the INSERT for where it changes none */
	UPDATE_MESSAGE, INSERT_MESSAGE, UPDATE_PART, INSERT_PART,
	UPDATE_REFERENCE, INSERT_REFERENCE, UPDATE_HANDSET, INSERT_HANDSET,
	UPDATE_PRIORITY, INSERT_PRIORITY, UPDATE_REPORT, INSERT_REPORT,
	AMEND_PART, FIND_PART,
	STATEMENTS
};

static const char *const texts[STATEMENTS] = {
	"BEGIN", "COMMIT",
	"UPDATE message SET id = ?1, account = ?2, message_reference = NULL, source_ton = 1, source_npi = 1, source = '447700900123', handset = ?3, data_coding_scheme = 0, protocol_identifier = 0, wish = 'always', submitted = ?4, expires = ?5, split_reference = NULL, state = ?6, done = ?7 WHERE id = ?1",
	"INSERT INTO message (id, account, message_reference, source_ton, source_npi, source, handset, data_coding_scheme, protocol_identifier, wish, submitted, expires, split_reference, state, done) VALUES (?1, ?2, NULL, 1, 1, '447700900123', ?3, 0, 0, 'always', ?4, ?5, NULL, ?6, ?7)",
	"UPDATE part SET message = ?1, number = 1, reference = ?2, tpdu = ?3, concat_bits = NULL, concat_reference = NULL, concat_total = NULL, concat_number = NULL, is_done = ?4, attempts = 0, due = ?5 WHERE message = ?1 AND number = 1",
	"INSERT INTO part (message, number, reference, tpdu, concat_bits, concat_reference, concat_total, concat_number, is_done, attempts, due) VALUES (?1, 1, ?2, ?3, NULL, NULL, NULL, NULL, ?4, 0, ?5)",
	"UPDATE given_reference SET place = ?1, reference = ?2, last_given = ?3 WHERE place = ?1 AND reference = ?2",
	"INSERT INTO given_reference (place, reference, last_given) VALUES (?1, ?2, ?3)",
	"UPDATE handset SET place = ?1, number = ?2, last_reference = ?3 WHERE place = ?1",
	"INSERT INTO handset (place, number, last_reference) VALUES (?1, ?2, ?3)",
	"UPDATE priority SET message = ?1, priority = 1 WHERE message = ?1",
	"INSERT INTO priority (message, priority) VALUES (?1, 1)",
	"UPDATE report SET place = ?1, message = ?1, kind = 'receipt', reference = NULL, tpdu = NULL, made = ?2, is_done = 0, attempts = 0, due = ?2 WHERE place = ?1",
	"INSERT INTO report (place, message, kind, reference, tpdu, made, is_done, attempts, due) VALUES (?1, ?1, 'receipt', NULL, NULL, ?2, 0, 0, ?2)",
	"UPDATE part SET is_done = 1, attempts = 0, due = ?2 WHERE message = ?1 AND number = 1",
	"SELECT message, number, reference, tpdu, concat_bits, concat_reference, concat_total, concat_number, is_done, attempts, due FROM part WHERE message = ?1 AND number = 1",
};

static const char tables[] =
	"CREATE TABLE meta (version INTEGER NOT NULL, kind TEXT NOT NULL, UNIQUE (version)) STRICT;"
	"CREATE TABLE message (id INTEGER NOT NULL, account BLOB, message_reference INTEGER, source_ton INTEGER NOT NULL, source_npi INTEGER NOT NULL, source TEXT NOT NULL, handset TEXT NOT NULL, data_coding_scheme INTEGER NOT NULL, protocol_identifier INTEGER NOT NULL, wish TEXT NOT NULL, submitted INTEGER NOT NULL, expires INTEGER NOT NULL, split_reference INTEGER, state TEXT NOT NULL, done INTEGER, UNIQUE (id)) STRICT;"
	"CREATE TABLE part (message INTEGER NOT NULL, number INTEGER NOT NULL, reference INTEGER NOT NULL, tpdu BLOB NOT NULL, concat_bits INTEGER, concat_reference INTEGER, concat_total INTEGER, concat_number INTEGER, is_done INTEGER NOT NULL, attempts INTEGER NOT NULL, due INTEGER NOT NULL, UNIQUE (message, number)) STRICT;"
	"CREATE TABLE given_reference (place INTEGER NOT NULL, reference INTEGER NOT NULL, last_given INTEGER NOT NULL, UNIQUE (place, reference)) STRICT;"
	"CREATE TABLE handset (place INTEGER NOT NULL, number TEXT NOT NULL, last_reference INTEGER NOT NULL, UNIQUE (place)) STRICT;"
	"CREATE TABLE report (place INTEGER NOT NULL, message INTEGER NOT NULL, kind TEXT NOT NULL, reference INTEGER, tpdu BLOB, made INTEGER NOT NULL, is_done INTEGER NOT NULL, attempts INTEGER NOT NULL, due INTEGER NOT NULL, UNIQUE (place)) STRICT;"
	"CREATE TABLE priority (message INTEGER NOT NULL, priority INTEGER NOT NULL, UNIQUE (message)) STRICT;"
	"CREATE INDEX report_message ON report (message);"
	"CREATE TABLE bar (place INTEGER NOT NULL, source_ton INTEGER NOT NULL, source_npi INTEGER NOT NULL, source TEXT NOT NULL, handset TEXT NOT NULL, reference INTEGER NOT NULL, is_own INTEGER NOT NULL, UNIQUE (place)) STRICT;"
	"INSERT INTO meta (version, kind) VALUES (3, 'centre');";

static sqlite3 *db;
static sqlite3_stmt *prepared[STATEMENTS];
static unsigned char tpdu[159];
static uint64_t handsets;

static void check(int code, int wanted)
{
	if (code != wanted) {
		fprintf(stderr, "peer: %s\n", db ? sqlite3_errmsg(db) : "no database");
		exit(1);
	}
}

static void batch(const char *text)
{
	check(sqlite3_exec(db, text, NULL, NULL, NULL), SQLITE_OK);
}

static sqlite3_stmt *at(enum statement which)
{
	return prepared[which];
}

static void run(enum statement which)
{
	check(sqlite3_step(at(which)), SQLITE_DONE);
	check(sqlite3_reset(at(which)), SQLITE_OK);
}

static void number(enum statement which, int place, int64_t value)
{
	check(sqlite3_bind_int64(at(which), place, value), SQLITE_OK);
}

static void text(enum statement which, int place, const char *value)
{
	check(sqlite3_bind_text(at(which), place, value, -1, SQLITE_STATIC), SQLITE_OK);
}

struct turn {
	int64_t id;
	int64_t place;
	int64_t reference;
};

static int64_t place_of(uint64_t turn)
{
	return (int64_t)(turn % handsets) + 1;
}

/* Puts a row as the keep does: an UPDATE of the row of its key, and an INSERT where that changes none. */
static void put(enum statement update, void (*bind)(enum statement, struct turn, int), struct turn turn, int is_over)
{
	bind(update, turn, is_over);
	run(update);
	if (sqlite3_changes(db) == 0) {
		bind(update + 1, turn, is_over);
		run(update + 1);
	}
}

static const char *handset_of(struct turn turn)
{
	static char handset[32];
	snprintf(handset, sizeof handset, "44%010ld", (long)turn.place);
	return handset;
}

static void bind_message(enum statement which, struct turn turn, int is_over)
{
	number(which, 1, turn.id);
	check(sqlite3_bind_blob(at(which), 2, "bank", 4, SQLITE_STATIC), SQLITE_OK);
	text(which, 3, handset_of(turn));
	number(which, 4, NOW);
	number(which, 5, NOW + DAYS);
	text(which, 6, is_over ? "delivered" : "pending");
	if (is_over)
		number(which, 7, NOW);
	else
		check(sqlite3_bind_null(at(which), 7), SQLITE_OK);
}

static void bind_part(enum statement which, struct turn turn, int is_over)
{
	number(which, 1, turn.id);
	number(which, 2, turn.reference);
	check(sqlite3_bind_blob(at(which), 3, tpdu, sizeof tpdu, SQLITE_STATIC), SQLITE_OK);
	number(which, 4, is_over);
	number(which, 5, NOW);
}

static void bind_reference(enum statement which, struct turn turn, int is_over)
{
	(void)is_over;
	number(which, 1, turn.place);
	number(which, 2, turn.reference);
	number(which, 3, NOW);
}

static void bind_handset(enum statement which, struct turn turn, int is_over)
{
	(void)is_over;
	number(which, 1, turn.place);
	text(which, 2, handset_of(turn));
	number(which, 3, turn.reference);
}

static void bind_priority(enum statement which, struct turn turn, int is_over)
{
	(void)is_over;
	number(which, 1, turn.id);
}

static void bind_report(enum statement which, struct turn turn, int is_over)
{
	(void)is_over;
	number(which, 1, turn.id);
	number(which, 2, NOW);
}

static void put_finished(struct turn turn)
{
	put(UPDATE_MESSAGE, bind_message, turn, 1);
	put(UPDATE_PART, bind_part, turn, 1);
	put(UPDATE_PRIORITY, bind_priority, turn, 1);
}

static void put_open(struct turn turn)
{
	put(UPDATE_MESSAGE, bind_message, turn, 0);
	put(UPDATE_PART, bind_part, turn, 0);
	put(UPDATE_REFERENCE, bind_reference, turn, 0);
	put(UPDATE_HANDSET, bind_handset, turn, 0);
	put(UPDATE_PRIORITY, bind_priority, turn, 0);
}

static void acknowledge(struct turn turn)
{
	put(UPDATE_MESSAGE, bind_message, turn, 1);
	number(AMEND_PART, 1, turn.id);
	number(AMEND_PART, 2, NOW);
	run(AMEND_PART);
	put(UPDATE_REPORT, bind_report, turn, 1);
}

static int offer(struct turn turn)
{
	unsigned char copy[sizeof tpdu];
	number(FIND_PART, 1, turn.id);
	check(sqlite3_step(at(FIND_PART)), SQLITE_ROW);
	if (sqlite3_column_bytes(at(FIND_PART), 3) != sizeof copy)
		exit(1);
	memcpy(copy, sqlite3_column_blob(at(FIND_PART), 3), sizeof copy);
	check(sqlite3_reset(at(FIND_PART)), SQLITE_OK);
	return memcmp(copy, tpdu, sizeof copy) == 0;
}

static uint64_t nanoseconds(void)
{
	struct timespec now;
	clock_gettime(CLOCK_MONOTONIC, &now);
	return (uint64_t)now.tv_sec * 1000000000u + (uint64_t)now.tv_nsec;
}

struct meter {
	const char *name;
	uint64_t turns, nanos, least;
};

static void add(struct meter *meter, uint64_t start)
{
	uint64_t took = nanoseconds() - start;
	meter->turns++;
	meter->nanos += took;
	if (took < meter->least)
		meter->least = took;
}

static void tell(const struct meter *meter)
{
	fprintf(stderr, "%s %lu %lu %lu\n", meter->name, (unsigned long)meter->turns, (unsigned long)meter->nanos, (unsigned long)meter->least);
}

static struct turn turn_of(uint64_t before, uint64_t turn)
{
	return (struct turn){ (int64_t)(before + turn) + 1, place_of(turn), SHELF + (int64_t)(turn / handsets % LEFT) };
}

static void fill(uint64_t finished, uint64_t open)
{
	for (uint64_t i = 0; i < finished; i++) {
		if (i % TOGETHER == 0)
			run(BEGIN);
		put_finished((struct turn){ (int64_t)i + 1, place_of(i), (int64_t)(i % 256) });
		if (i % TOGETHER == TOGETHER - 1 || i == finished - 1)
			run(COMMIT);
	}
	for (uint64_t i = 0; i < open; i++) {
		if (i % TOGETHER == 0)
			run(BEGIN);
		put_open((struct turn){ (int64_t)(finished + i) + 1, place_of(i), (int64_t)(i / handsets % 256) });
		if (i % TOGETHER == TOGETHER - 1 || i == open - 1)
			run(COMMIT);
	}
}

static void measure(uint64_t before, uint64_t turns)
{
	struct meter submission = { "submission", 0, 0, UINT64_MAX };
	struct meter offers = { "offer", 0, 0, UINT64_MAX };
	struct meter acknowledgement = { "acknowledgement", 0, 0, UINT64_MAX };
	int same = 1;
	for (uint64_t i = 0; i < turns; i++) {
		uint64_t start = nanoseconds();
		run(BEGIN);
		put_open(turn_of(before, i));
		run(COMMIT);
		add(&submission, start);
	}
	for (uint64_t i = 0; i < turns; i++) {
		uint64_t start = nanoseconds();
		same &= offer(turn_of(before, i));
		add(&offers, start);
	}
	for (uint64_t i = 0; i < turns; i++) {
		uint64_t start = nanoseconds();
		run(BEGIN);
		acknowledge(turn_of(before, i));
		run(COMMIT);
		add(&acknowledgement, start);
	}
	if (!same)
		exit(1);
	tell(&submission);
	tell(&offers);
	tell(&acknowledgement);
}

/* A list as it is read: a letter a column, n a number, o one that may be NULL, t a text, b octets. */
struct list {
	const char *query;
	const char *columns;
};

static const struct list lists[] = {
	{ "SELECT id, account, message_reference, source_ton, source_npi, source, handset, data_coding_scheme, protocol_identifier, wish, submitted, expires, split_reference, state, done FROM message", "nbonnttnntnnoto" },
	{ "SELECT message, number, reference, tpdu, concat_bits, concat_reference, concat_total, concat_number, is_done, attempts, due FROM part", "nnnboooonnn" },
	{ "SELECT place, reference, last_given FROM given_reference", "nnn" },
	{ "SELECT place, number, last_reference FROM handset", "ntn" },
	{ "SELECT place, message, kind, reference, tpdu, made, is_done, attempts, due FROM report", "nntobnnnn" },
	{ "SELECT message, priority FROM priority", "nn" },
	{ "SELECT place, source_ton, source_npi, source, handset, reference, is_own FROM bar", "nnnttnn" },
};

/* What was read: octets behind octets. */
struct read {
	unsigned char *octets;
	size_t length, room;
};

static void keep(struct read *read, const void *octets, size_t length)
{
	if (read->room - read->length < length) {
		read->room = 2 * read->room + length;
		read->octets = realloc(read->octets, read->room);
		if (!read->octets)
			exit(1);
	}
	if (length)
		memcpy(read->octets + read->length, octets, length);
	read->length += length;
}

static void keep_column(struct read *read, sqlite3_stmt *statement, int column, char kind)
{
	int64_t value;
	const void *octets;
	switch (kind) {
	case 'o':
		if (sqlite3_column_type(statement, column) == SQLITE_NULL)
			return;
		/* fall through */
	case 'n':
		value = sqlite3_column_int64(statement, column);
		keep(read, &value, sizeof value);
		return;
	case 't':
		octets = sqlite3_column_text(statement, column);
		break;
	default:
		octets = sqlite3_column_blob(statement, column);
	}
	keep(read, octets, (size_t)sqlite3_column_bytes(statement, column));
}

static void read_list(struct read *read, const struct list *list)
{
	sqlite3_stmt *statement;
	int code;
	check(sqlite3_prepare_v2(db, list->query, -1, &statement, NULL), SQLITE_OK);
	while ((code = sqlite3_step(statement)) == SQLITE_ROW)
		for (int column = 0; list->columns[column]; column++)
			keep_column(read, statement, column, list->columns[column]);
	check(code, SQLITE_DONE);
	check(sqlite3_finalize(statement), SQLITE_OK);
}

/* All rows of the seven tables into memory, each column by its type, in the order in which they lie in the file. */
static void load(void)
{
	struct meter meter = { "load", 0, 0, UINT64_MAX };
	struct read read = { NULL, 0, 0 };
	uint64_t start = nanoseconds();
	for (size_t i = 0; i < sizeof lists / sizeof *lists; i++)
		read_list(&read, &lists[i]);
	add(&meter, start);
	tell(&meter);
	printf("octets %lu\n", (unsigned long)read.length);
	free(read.octets);
}

/* Whether the store is new: it has no tables. */
static int is_new(void)
{
	sqlite3_stmt *statement;
	check(sqlite3_prepare_v2(db, "SELECT count(*) FROM sqlite_schema", -1, &statement, NULL), SQLITE_OK);
	check(sqlite3_step(statement), SQLITE_ROW);
	int count = sqlite3_column_int(statement, 0);
	check(sqlite3_finalize(statement), SQLITE_OK);
	return count == 0;
}

static void prepare(void)
{
	for (int i = 0; i < STATEMENTS; i++)
		check(sqlite3_prepare_v2(db, texts[i], -1, &prepared[i], NULL), SQLITE_OK);
}

static void close_store(void)
{
	for (int i = 0; i < STATEMENTS; i++)
		check(sqlite3_finalize(prepared[i]), SQLITE_OK);
	check(sqlite3_close(db), SQLITE_OK);
}

int main(int argc, char **argv)
{
	uint64_t finished = argc > 1 ? strtoull(argv[1], NULL, 10) : 1000;
	uint64_t open = argc > 2 ? strtoull(argv[2], NULL, 10) : 400;
	uint64_t turns = argc > 3 ? strtoull(argv[3], NULL, 10) : 64;
	static const unsigned char front[] = { 0x04, 0x0C, 0x91, 0x44, 0x77, 0x00, 0x09, 0x10, 0x32, 0x00, 0x00, 0x42, 0x20, 0x92, 0x32, 0x95, 0x85, 0x00, 0xA0 };
	static const unsigned char part[] = { 0xC8, 0x32, 0x9B, 0xFD, 0x06, 0xDD, 0xDF, 0x72, 0x36, 0x19, 0x74, 0x19, 0x9A, 0x4E };
	memcpy(tpdu, front, sizeof front);
	for (int i = 0; i < 10; i++)
		memcpy(tpdu + sizeof front + i * sizeof part, part, sizeof part);
	handsets = open / SHELF + 1;
	/* no locks: one thread has the store, as with the port */
	int flags = SQLITE_OPEN_READWRITE | SQLITE_OPEN_CREATE | SQLITE_OPEN_NOMUTEX;
	check(sqlite3_open_v2(argc > 4 ? argv[4] : ":memory:", &db, flags, NULL), SQLITE_OK);
	batch("PRAGMA journal_mode = WAL; PRAGMA synchronous = FULL;");
	int is_empty = is_new();
	if (is_empty)
		batch(tables);
	prepare();
	if (is_empty)
		fill(finished, open);
	if (turns > 0) {
		measure(finished + open, turns);
		load();
	}
	close_store();
	return 0;
}
