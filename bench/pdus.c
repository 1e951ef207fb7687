/* PDUs of SMPP beside libsmpp34. submit_sm_t and deliver_sm_t have the same fields, so one macro serves both. */
#include "peer.h"

#include <netinet/in.h>
#include <smpp34.h>
#include <smpp34_structs.h>
#include <smpp34_params.h>
#include <string.h>

#define VALIDITY "000000010000000R"

/* Fills a message, and gives its octets. A submit_sm has a validity period of 16 octets, a deliver_sm none
 * (SMPP v3.4 4.6.1). */
#define FILLING(name, type, id, validity)                                            \
	static int name(type *message, uint8_t *octets, size_t room)                 \
	{                                                                            \
		char text[1024];                                                     \
		size_t count = make_text(text, PLAIN, 160);                          \
		int length = 0;                                                      \
                                                                                     \
		memset(message, 0, sizeof(*message));                                \
		message->command_id = id;                                            \
		message->sequence_number = 7;                                        \
		message->source_addr_ton = 5;                                        \
		message->source_addr_npi = 0;                                        \
		strcpy((char *)message->source_addr, "BANK");                        \
		message->dest_addr_ton = 1;                                          \
		message->dest_addr_npi = 1;                                          \
		strcpy((char *)message->destination_addr, "447700900123");           \
		strcpy((char *)message->validity_period, validity);                  \
		message->registered_delivery = 1;                                    \
		message->sm_length = (uint8_t)count;                                 \
		memcpy(message->short_message, text, count);                         \
		if (smpp34_pack2(octets, (int)room, &length, message) != 0)          \
			fail(smpp34_strerror);                                       \
		return length;                                                       \
	}

#define TAKE_TEXT(sum, field) sum_take((sum), (field), strlen((char *)(field)))

/* Reads into the caller's struct, by smpp34_unpack2, which copies each field; clears it first, as its callers must,
 * since the list of optional parameters is put behind what stands there. */
#define READING(name, type, filled, validity)                                        \
	static uint64_t name(struct sum *sum, uint64_t turns)                        \
	{                                                                            \
		type message;                                                        \
		uint8_t octets[512];                                                 \
		int length = filled(&message, octets, sizeof(octets));               \
		uint64_t start = now(), nanos;                                       \
                                                                                     \
		for (uint64_t turn = 0; turn < turns; turn++) {                      \
			memset(&message, 0, sizeof(message));                        \
			if (smpp34_unpack2(&message, octets, length) != 0)           \
				fail(smpp34_strerror);                               \
			sum_count(sum, message.source_addr[turn % 4]);               \
			sum_count(sum, message.destination_addr[turn % 4]);          \
			sum_touch(sum, message.validity_period, sizeof(validity) - 1, turn); \
			sum_touch(sum, message.short_message, message.sm_length, turn); \
			sum_count(sum, message.registered_delivery);                 \
			destroy_tlv(message.tlv);                                    \
		}                                                                    \
		nanos = now() - start;                                               \
		if (smpp34_unpack2(&message, octets, length) != 0)                   \
			fail(smpp34_strerror);                                       \
		TAKE_TEXT(sum, message.service_type);                                \
		sum_take(sum, &message.source_addr_ton, 1);                          \
		sum_take(sum, &message.source_addr_npi, 1);                          \
		TAKE_TEXT(sum, message.source_addr);                                 \
		sum_take(sum, &message.dest_addr_ton, 1);                            \
		sum_take(sum, &message.dest_addr_npi, 1);                            \
		TAKE_TEXT(sum, message.destination_addr);                            \
		TAKE_TEXT(sum, message.validity_period);                             \
		sum_take(sum, &message.registered_delivery, 1);                      \
		sum_take(sum, &message.data_coding, 1);                              \
		sum_take(sum, message.short_message, message.sm_length);             \
		return nanos;                                                        \
	}

/* Writes into the caller's buffer, by smpp34_pack2. */
#define WRITING(name, type, filled)                                                  \
	static uint64_t name(struct sum *sum, uint64_t turns)                        \
	{                                                                            \
		type message;                                                        \
		uint8_t octets[512];                                                 \
		int length = filled(&message, octets, sizeof(octets));               \
		uint64_t start = now(), nanos;                                       \
                                                                                     \
		for (uint64_t turn = 0; turn < turns; turn++) {                      \
			if (smpp34_pack2(octets, sizeof(octets), &length, &message) != 0) \
				fail(smpp34_strerror);                               \
			sum_touch(sum, octets, (size_t)length, turn);                \
		}                                                                    \
		nanos = now() - start;                                               \
		if (smpp34_pack2(octets, sizeof(octets), &length, &message) != 0)    \
			fail(smpp34_strerror);                                       \
		sum_take(sum, octets, (size_t)length);                               \
		return nanos;                                                        \
	}

FILLING(filled_submit_sm, submit_sm_t, SUBMIT_SM, VALIDITY)
FILLING(filled_deliver_sm, deliver_sm_t, DELIVER_SM, "")
READING(submit_sm_read, submit_sm_t, filled_submit_sm, VALIDITY)
WRITING(submit_sm_written, submit_sm_t, filled_submit_sm)
READING(deliver_sm_read, deliver_sm_t, filled_deliver_sm, "")
WRITING(deliver_sm_written, deliver_sm_t, filled_deliver_sm)

size_t make_submit_sm(uint8_t *octets, size_t room)
{
	submit_sm_t message;

	return (size_t)filled_submit_sm(&message, octets, room);
}

const struct kind PDU_KINDS[] = {
	{ "submit_sm_read", submit_sm_read },
	{ "submit_sm_written", submit_sm_written },
	{ "deliver_sm_read", deliver_sm_read },
	{ "deliver_sm_written", deliver_sm_written },
	{ NULL, NULL },
};
