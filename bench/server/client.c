/* A load client of SMPP v3.4: binds as a transmitter and submits, with so many requests under way.
 *
 *   client PORT NUMBER SECONDS WINDOW SHARE
 *
 * One message in SHARE goes to the four handsets that are up, and none where SHARE is 0. The others go to 2,000 that are away: at most
 * 256 messages wait for a handset, and a further one is refused. Prints how many were refused, the status of the last refused one (0
 * where none was), and then the time to each answer that accepted one, in nanoseconds, a line each. */
#include "net.h"

#include <stdio.h>
#include <stdlib.h>
#include <string.h>

enum { BIND_TRANSMITTER = 2, SUBMIT_SM = 4, ENQUIRE_LINK = 0x15 };
#define RESPONSE UINT32_C(0x80000000)

enum { HEADER = 16, MOST = 1000, AWAY = 2000, UP = 4 };

/* A request that has no answer yet. */
struct request {
	uint32_t number;
	double sent;
};

static struct peer server;
static struct request under_way[MOST];
static unsigned count_under_way, window, share;
/* Of the last request. */
static uint32_t number;
static uint64_t *times;
static size_t count_times, room_times, refused;
static uint32_t refused_with;

/* A PDU that is written. */
struct pdu {
	size_t count;
	uint8_t octets[256];
};

static void put_octet(struct pdu *pdu, unsigned octet)
{
	if (pdu->count == sizeof pdu->octets)
		fail("a PDU is too long");
	pdu->octets[pdu->count++] = (uint8_t)octet;
}

/* A C-octet string, with its end. */
static void put_text(struct pdu *pdu, const char *text)
{
	for (; *text; text++)
		put_octet(pdu, (unsigned char)*text);
	put_octet(pdu, 0);
}

static void send_pdu(struct pdu *pdu, uint32_t command, uint32_t which)
{
	put_number(pdu->octets, 4, (uint32_t)pdu->count);
	put_number(pdu->octets + 4, 4, command);
	put_number(pdu->octets + 8, 4, 0);
	put_number(pdu->octets + 12, 4, which);
	peer_send(&server, pdu->octets, pdu->count);
}

static void send_bind(void)
{
	struct pdu pdu = { .count = HEADER };

	put_text(&pdu, "load");
	put_text(&pdu, "secret");
	put_text(&pdu, "");
	put_octet(&pdu, 0x34);
	put_octet(&pdu, 0);
	put_octet(&pdu, 0);
	put_text(&pdu, "");
	send_pdu(&pdu, BIND_TRANSMITTER, ++number);
}

/* An address: a type of number, a numbering plan, and its digits. */
static void put_address(struct pdu *pdu, const char *digits)
{
	put_octet(pdu, 1);
	put_octet(pdu, 1);
	put_text(pdu, digits);
}

static void put_destination(struct pdu *pdu, unsigned client, unsigned turn)
{
	char digits[21];

	if (share != 0 && turn % share == 0)
		snprintf(digits, sizeof digits, "4477009001%02u", turn / share % UP);
	else
		snprintf(digits, sizeof digits, "44770080%04u", (turn + 500 * client) % AWAY);
	put_address(pdu, digits);
}

/* Twelve octets of 8-bit data, and no receipt. */
static void send_submission(unsigned client, unsigned turn)
{
	struct pdu pdu = { .count = HEADER };
	char text[24];
	int length = snprintf(text, sizeof text, "code %06u", turn);

	put_text(&pdu, "");
	put_address(&pdu, "447700900001");
	put_destination(&pdu, client, turn);
	put_octet(&pdu, 0); /* esm_class */
	put_octet(&pdu, 0); /* protocol_id */
	put_octet(&pdu, 0); /* priority_flag */
	put_text(&pdu, ""); /* schedule_delivery_time */
	put_text(&pdu, ""); /* validity_period */
	put_octet(&pdu, 0); /* registered_delivery */
	put_octet(&pdu, 0); /* replace_if_present_flag */
	put_octet(&pdu, 4); /* data_coding */
	put_octet(&pdu, 0); /* sm_default_msg_id */
	put_octet(&pdu, (unsigned)length);
	for (int at = 0; at < length; at++)
		put_octet(&pdu, (unsigned char)text[at]);
	under_way[count_under_way++] = (struct request){ .number = ++number, .sent = now() };
	send_pdu(&pdu, SUBMIT_SM, number);
}

static void keep_time(double seconds)
{
	if (count_times == room_times) {
		room_times = room_times ? room_times * 2 : 65536;
		times = realloc(times, room_times * sizeof *times);
		if (!times)
			fail("no memory");
	}
	times[count_times++] = (uint64_t)(seconds * 1e9);
}

static void answered(uint32_t which, uint32_t status)
{
	for (unsigned at = 0; at < count_under_way; at++) {
		if (under_way[at].number != which)
			continue;
		if (status == 0) {
			keep_time(now() - under_way[at].sent);
		} else {
			refused++;
			refused_with = status;
		}
		under_way[at] = under_way[--count_under_way];
		return;
	}
	fail("an answer to what was not asked");
}

static void take_pdu(const uint8_t *octets)
{
	uint32_t command = number_at(octets + 4, 4), status = number_at(octets + 8, 4), which = number_at(octets + 12, 4);

	if (command == (SUBMIT_SM | RESPONSE)) {
		answered(which, status);
	} else if (command == (BIND_TRANSMITTER | RESPONSE)) {
		if (status != 0)
			fail("the bind was refused");
	} else if (command == ENQUIRE_LINK) {
		struct pdu pdu = { .count = HEADER };

		send_pdu(&pdu, ENQUIRE_LINK | RESPONSE, which);
	} else {
		fail("a PDU that was not asked for");
	}
}

/* Takes the PDUs that came whole, and answers how many. */
static unsigned take_pdus(void)
{
	size_t taken = 0;
	unsigned pdus = 0;

	while (server.count - taken >= HEADER) {
		size_t length = number_at(server.octets + taken, 4);

		if (length < HEADER || length > sizeof server.octets)
			fail("no PDU");
		if (server.count - taken < length)
			break;
		take_pdu(server.octets + taken);
		taken += length;
		pdus++;
	}
	peer_drop(&server, taken);
	return pdus;
}

/* Waits for PDUs and takes them. */
static void wait_pdus(void)
{
	do {
		if (peer_receive(&server) <= 0)
			fail("no answer came");
	} while (take_pdus() == 0);
}

static void submit(unsigned client, double seconds)
{
	double until = now() + seconds;
	unsigned turn = 0;

	for (;;) {
		while (count_under_way < window && now() < until)
			send_submission(client, turn++);
		if (count_under_way == 0)
			return;
		wait_pdus();
	}
}

int main(int count, char **words)
{
	if (count != 6)
		fail("usage: client PORT NUMBER SECONDS WINDOW SHARE");
	window = (unsigned)atoi(words[4]);
	share = (unsigned)atoi(words[5]);
	if (window > MOST)
		fail("too many requests under way");
	peer_open(&server, (unsigned)atoi(words[1]), 5);
	send_bind();
	wait_pdus();
	submit((unsigned)atoi(words[2]), atof(words[3]));
	printf("%zu\n%u\n", refused, refused_with);
	for (size_t at = 0; at < count_times; at++)
		printf("%llu\n", (unsigned long long)times[at]);
	return 0;
}
