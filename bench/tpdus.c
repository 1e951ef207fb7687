/* Time stamps, addresses and TPDUs beside libosmocore. It has no whole TPDU, so its fields are put together by hand, as
 * a centre over libosmocore does it. */
#include "peer.h"

#include <osmocom/gsm/gsm0411_utils.h>
#include <osmocom/gsm/protocol/gsm_04_11.h>
#include <osmocom/gsm/gsm48_ie.h>
#include <osmocom/gsm/gsm_utils.h>
#include <stdbool.h>
#include <stdlib.h>
#include <string.h>
#include <time.h>

/* libosmocore: gsm340_gen_scts, which asks localtime; the time zone is UTC. */
static uint64_t time_stamp_written(struct sum *sum, uint64_t turns)
{
	uint8_t stamp[7];
	uint64_t start, nanos;

	setenv("TZ", "UTC", 1);
	tzset();
	start = now();
	for (uint64_t turn = 0; turn < turns; turn++) {
		gsm340_gen_scts(stamp, (time_t)(1709251198u + turn % 1024 * 90061));
		sum_touch(sum, stamp, sizeof(stamp), turn);
	}
	nanos = now() - start;
	for (uint64_t turn = 0; turn < 64; turn++) {
		gsm340_gen_scts(stamp, (time_t)(1709251198u + turn % 1024 * 90061));
		sum_take(sum, stamp, sizeof(stamp));
	}
	return nanos;
}

/* The stamp of a turn: a day and a minute of that month. */
static void make_stamp(uint8_t *stamp, uint64_t turn)
{
	uint8_t day = (uint8_t)(1 + turn % 4), minute = (uint8_t)(turn / 4 % 10);

	memcpy(stamp, "\x42\x20\x10\x32\x00\x85\x00", 7);
	stamp[2] = (uint8_t)(16 * day);
	stamp[4] = (uint8_t)(16 * minute);
}

/* libosmocore: gsm340_scts, which asks mktime. */
static uint64_t time_stamp_read(struct sum *sum, uint64_t turns)
{
	uint8_t stamp[7];
	uint64_t start, nanos;

	setenv("TZ", "UTC", 1);
	tzset();
	start = now();
	for (uint64_t turn = 0; turn < turns; turn++) {
		make_stamp(stamp, turn);
		sum_count(sum, (uint64_t)gsm340_scts(stamp));
	}
	nanos = now() - start;
	for (uint64_t turn = 0; turn < 64; turn++) {
		make_stamp(stamp, turn);
		sum_take_number(sum, (uint64_t)gsm340_scts(stamp));
	}
	return nanos;
}

/* libosmocore: gsm340_gen_oa, into the caller's buffer; the octets behind the length are the element. */
static uint64_t address_written(struct sum *sum, uint64_t turns)
{
	uint8_t address[12];
	uint64_t start, nanos;
	int length = 0;

	start = now();
	for (uint64_t turn = 0; turn < turns; turn++) {
		length = gsm340_gen_oa(address, sizeof(address), 1, 1, "447700900123");
		sum_touch(sum, address + 1, (size_t)length - 1, turn);
	}
	nanos = now() - start;
	length = gsm340_gen_oa(address, sizeof(address), 1, 1, "447700900123");
	sum_take(sum, address + 1, (size_t)length - 1);
	return nanos;
}

/* A SUBMIT as it is read. The user data stays where it is. */
struct submit {
	bool reject_duplicates, status_report_request, user_data_header_indicator, reply_path;
	uint8_t message_reference;
	uint8_t type_of_number, numbering_plan;
	char destination[21];
	uint8_t protocol_identifier, data_coding_scheme;
	uint8_t validity_period_format, validity_period[7];
	uint8_t length;
	const uint8_t *user_data;
	size_t octets;
};

/* Reads the address, by gsm48_decode_bcd_number2; answers the octets of the field, or 0. */
static size_t read_address(struct submit *submit, const uint8_t *octets, size_t length)
{
	uint8_t value[12];
	size_t field;

	if (length < 2 || octets[0] == 0 || octets[0] > 20)
		return 0;
	field = 2 + (octets[0] + 1u) / 2;
	if (length < field || octets[1] < 0x80)
		return 0;
	submit->type_of_number = (octets[1] >> 4) & 7;
	submit->numbering_plan = octets[1] & 15;
	/* the length in octets, as the decoder wants it, the type of address counted */
	value[0] = (uint8_t)(field - 1);
	memcpy(value + 1, octets + 1, field - 1);
	if (gsm48_decode_bcd_number2(submit->destination, sizeof(submit->destination), value, field, 1) != 0)
		return 0;
	return field;
}

/* Reads a SUBMIT; answers whether it is one. */
static bool read_submit(struct submit *submit, const uint8_t *octets, size_t length)
{
	size_t place = 2, field;
	uint8_t first;

	if (length < 2 || (octets[0] & 3) != 1)
		return false;
	first = octets[0];
	submit->reject_duplicates = first & 0x04;
	submit->status_report_request = first & 0x20;
	submit->user_data_header_indicator = first & 0x40;
	submit->reply_path = first & 0x80;
	submit->message_reference = octets[1];
	field = read_address(submit, octets + place, length - place);
	place += field;
	if (field == 0 || length - place < 2)
		return false;
	submit->protocol_identifier = octets[place++];
	submit->data_coding_scheme = octets[place++];
	submit->validity_period_format = (first >> 3) & 3;
	field = submit->validity_period_format == 0 ? 0 : submit->validity_period_format == 2 ? 1 : 7;
	if (length - place < field + 1)
		return false;
	memcpy(submit->validity_period, octets + place, field);
	place += field;
	submit->length = octets[place++];
	submit->octets = gsm338_get_sms_alphabet(submit->data_coding_scheme) == DCS_7BIT_DEFAULT
				 ? (submit->length * 7u + 7) / 8
				 : submit->length;
	submit->user_data = octets + place;
	return submit->octets <= 140 && length - place == submit->octets;
}

static uint64_t address_read(struct sum *sum, uint64_t turns)
{
	static const uint8_t octets[] = {
		0x01, 0x2A, 0x0C, 0x91, 0x44, 0x77, 0x00, 0x09, 0x10, 0x32, 0x00, 0x00, 0x00,
	};
	struct submit submit;
	uint64_t start, nanos;

	start = now();
	for (uint64_t turn = 0; turn < turns; turn++) {
		if (!read_submit(&submit, octets, sizeof(octets)))
			fail("no SUBMIT");
		sum_count(sum, (uint8_t)submit.destination[turn % 4]);
	}
	nanos = now() - start;
	for (const char *digit = submit.destination; *digit != '\0'; digit++)
		sum_take_number(sum, (uint8_t)*digit);
	return nanos;
}

static uint64_t submit_read(struct sum *sum, uint64_t turns)
{
	static const uint8_t front[] = {
		0x11, 0x2A, 0x0C, 0x91, 0x44, 0x77, 0x00, 0x09, 0x10, 0x32, 0x00, 0x00, 0xA7, 0xA0,
	};
	uint8_t octets[256], septets[512];
	struct submit submit;
	size_t length, count;
	uint64_t start, nanos;

	memcpy(octets, front, sizeof(front));
	length = sizeof(front) + packed_text(octets + sizeof(front), PLAIN, septets, &count);
	start = now();
	for (uint64_t turn = 0; turn < turns; turn++) {
		if (!read_submit(&submit, octets, length))
			fail("no SUBMIT");
		sum_count(sum, (uint8_t)submit.destination[turn % 4]);
		sum_count(sum, submit.data_coding_scheme);
		sum_touch(sum, submit.user_data, submit.octets, turn);
	}
	nanos = now() - start;
	sum_take(sum, (uint8_t[]){ submit.message_reference, submit.type_of_number, submit.numbering_plan,
				   submit.protocol_identifier, submit.data_coding_scheme, submit.length }, 6);
	for (const char *digit = submit.destination; *digit != '\0'; digit++)
		sum_take_number(sum, (uint8_t)*digit);
	sum_take(sum, submit.user_data, submit.octets);
	return nanos;
}

/* A DELIVER as a centre has it. */
struct deliver {
	bool no_more_messages, loop_prevention, status_report, user_data_header_indicator, reply_path;
	uint8_t type_of_number, numbering_plan;
	const char *originator;
	uint8_t protocol_identifier, data_coding_scheme;
	time_t time;
	uint8_t length;
	const uint8_t *user_data;
	size_t octets;
};

/* The octets of a DELIVER, in a buffer of malloc; answers how many. */
static size_t write_deliver(uint8_t **result, const struct deliver *deliver)
{
	uint8_t *octets = malloc(23 + deliver->octets);
	size_t length = 0;

	if (octets == NULL)
		fail("out of memory");
	octets[length++] = (uint8_t)(deliver->no_more_messages << 2 | deliver->loop_prevention << 3
				     | deliver->status_report << 5 | deliver->user_data_header_indicator << 6
				     | deliver->reply_path << 7);
	length += (size_t)gsm340_gen_oa(octets + length, 12, deliver->type_of_number,
					deliver->numbering_plan, deliver->originator);
	octets[length++] = deliver->protocol_identifier;
	octets[length++] = deliver->data_coding_scheme;
	gsm340_gen_scts(octets + length, deliver->time);
	length += 7;
	octets[length++] = deliver->length;
	memcpy(octets + length, deliver->user_data, deliver->octets);
	*result = octets;
	return length + deliver->octets;
}

static uint64_t deliver_written(struct sum *sum, uint64_t turns)
{
	uint8_t user_data[256], septets[512], *octets;
	struct deliver deliver = {
		.no_more_messages = true,
		.type_of_number = 1,
		.numbering_plan = 1,
		.originator = "447700900123",
		.time = 1709251198,
		.length = 160,
		.user_data = user_data,
	};
	size_t length, count;
	uint64_t start, nanos;

	setenv("TZ", "UTC", 1);
	tzset();
	deliver.octets = packed_text(user_data, PLAIN, septets, &count);
	start = now();
	for (uint64_t turn = 0; turn < turns; turn++) {
		length = write_deliver(&octets, &deliver);
		sum_touch(sum, octets, length, turn);
		free(octets);
	}
	nanos = now() - start;
	length = write_deliver(&octets, &deliver);
	sum_take(sum, octets, length);
	free(octets);
	return nanos;
}

const struct kind TPDU_KINDS[] = {
	{ "time_stamp_written", time_stamp_written },
	{ "time_stamp_read", time_stamp_read },
	{ "address_written", address_written },
	{ "address_read", address_read },
	{ "submit_read", submit_read },
	{ "deliver_written", deliver_written },
	{ NULL, NULL },
};
