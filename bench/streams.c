/* A session's input beside libsmpp34, which has no streams: by hand a buffer that PDUs are cut from by their
 * command_length; each submit_sm is unpacked, and its octets are handed on in memory of their own. */
#include "peer.h"

#include <netinet/in.h>
#include <smpp34.h>
#include <smpp34_structs.h>
#include <smpp34_params.h>
#include <stdlib.h>
#include <string.h>

struct session {
	uint8_t *buffer;
	size_t length, room;
};

static uint32_t command_length(const uint8_t *octets)
{
	return (uint32_t)octets[0] << 24 | (uint32_t)octets[1] << 16 | (uint32_t)octets[2] << 8 | octets[3];
}

/* Takes a PDU; answers its octets, which the caller frees. */
static uint8_t *request(uint8_t *octets, size_t length)
{
	submit_sm_t message;
	uint8_t *copy = malloc(length);

	memset(&message, 0, sizeof(message));
	if (copy == NULL || smpp34_unpack2(&message, octets, (int)length) != 0)
		fail("no submit_sm");
	destroy_tlv(message.tlv);
	memcpy(copy, octets, length);
	return copy;
}

/* Takes octets that came, and every whole PDU among those that wait. */
static void feed(struct session *session, const uint8_t *octets, size_t count, struct sum *sum, int whole)
{
	size_t taken = 0;

	if (session->length + count > session->room) {
		session->room = 2 * (session->length + count);
		session->buffer = realloc(session->buffer, session->room);
		if (session->buffer == NULL)
			fail("no memory");
	}
	memcpy(session->buffer + session->length, octets, count);
	session->length += count;
	while (session->length - taken >= 16) {
		uint8_t *first = session->buffer + taken;
		size_t length = command_length(first);
		uint8_t *copy;

		if (length < 16 || length > 65536)
			fail("a bad command_length");
		if (session->length - taken < length)
			break;
		copy = request(first, length);
		if (whole)
			sum_take(sum, copy, length);
		else
			sum_touch(sum, copy, length, 3);
		free(copy);
		taken += length;
	}
	memmove(session->buffer, session->buffer + taken, session->length - taken);
	session->length -= taken;
}

static uint64_t stream(struct sum *sum, uint64_t pdus, size_t piece)
{
	struct session session = { NULL, 0, 0 };
	uint8_t octets[512];
	size_t length = make_submit_sm(octets, sizeof(octets)), count = length * pdus;
	uint8_t *stream = malloc(count);
	uint64_t start, nanos;

	if (stream == NULL)
		fail("no memory");
	for (uint64_t pdu = 0; pdu < pdus; pdu++)
		memcpy(stream + pdu * length, octets, length);
	start = now();
	for (size_t at = 0; at < count; at += piece < count - at ? piece : count - at)
		feed(&session, stream + at, piece < count - at ? piece : count - at, sum, 0);
	nanos = now() - start;
	feed(&session, octets, length, sum, 1);
	free(stream);
	free(session.buffer);
	return nanos;
}

static uint64_t whole(struct sum *sum, uint64_t pdus)
{
	return stream(sum, pdus, SIZE_MAX);
}

static uint64_t thousands(struct sum *sum, uint64_t pdus)
{
	return stream(sum, pdus, 1000);
}

static uint64_t octet_by_octet(struct sum *sum, uint64_t pdus)
{
	return stream(sum, pdus, 1);
}

const struct kind STREAM_KINDS[] = {
	{ "stream_whole", whole },
	{ "stream_of_thousands", thousands },
	{ "stream_of_octets", octet_by_octet },
	{ NULL, NULL },
};
