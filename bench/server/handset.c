/* A handset in its plainest form, at the other end of a link (3GPP TS 24.011 7.2 and 8.1): it accepts every DELIVER.
 *
 *   handset PORT DIGITS SECONDS
 *
 * A frame on the connection is two octets of length and the CP frame; the first one has the handset's digits. Prints how many
 * DELIVERs were accepted. */
#include "net.h"

#include <stdio.h>
#include <stdlib.h>
#include <string.h>

enum { CP_DATA = 1, CP_ACK = 4, RP_DATA_DOWN = 1, RP_ACK_UP = 2 };

static struct peer centre;
static unsigned long accepted;
/* By transaction: the reference of its RP-DATA that was answered and whose CP-ACK has not come, or -1. */
static int answered[128];

static void send_frame(const uint8_t *frame, size_t count)
{
	uint8_t octets[258];

	put_number(octets, 2, (uint32_t)count);
	memcpy(octets + 2, frame, count);
	peer_send(&centre, octets, count + 2);
}

/* CP-DATA: it is acknowledged, and its RP-DATA answered by an RP-ACK. What comes again is answered again, and not counted twice. */
static void take_data(const uint8_t *frame, size_t count)
{
	uint8_t head = frame[0] ^ 0x80;
	uint8_t ack[] = { head, CP_ACK };

	send_frame(ack, sizeof ack);
	if (count < 5)
		fail("a frame is too short");
	if ((frame[3] & 7) == RP_DATA_DOWN) {
		uint8_t answer[] = { head, CP_DATA, 2, RP_ACK_UP, frame[4] };
		int *last = &answered[frame[0] & 0x7F];

		accepted += *last != frame[4];
		*last = frame[4];
		send_frame(answer, sizeof answer);
	}
}

static void take_frame(const uint8_t *frame, size_t count)
{
	if (count < 2)
		fail("a frame is too short");
	if (frame[1] == CP_DATA)
		take_data(frame, count);
	else
		answered[frame[0] & 0x7F] = -1;
}

/* Takes the frames that came whole. */
static void take_frames(void)
{
	size_t taken = 0;

	while (centre.count - taken >= 2) {
		size_t length = number_at(centre.octets + taken, 2);

		if (centre.count - taken < 2 + length)
			break;
		take_frame(centre.octets + taken + 2, length);
		taken += 2 + length;
	}
	peer_drop(&centre, taken);
}

int main(int count, char **words)
{
	double until;

	if (count != 4)
		fail("usage: handset PORT DIGITS SECONDS");
	until = now() + atof(words[3]);
	for (size_t at = 0; at < sizeof answered / sizeof *answered; at++)
		answered[at] = -1;
	peer_open(&centre, (unsigned)atoi(words[1]), 0.2);
	send_frame((const uint8_t *)words[2], strlen(words[2]));
	while (now() < until && peer_receive(&centre) >= 0)
		take_frames();
	printf("%lu\n", accepted);
	return 0;
}
