/* What the load client and the handset share: a connection to the server, what came on it, and the clock. */
#ifndef NET_H
#define NET_H

#include <stddef.h>
#include <stdint.h>

/* A connection, and the octets that came on it and were not taken yet. */
struct peer {
	int socket;
	size_t count;
	uint8_t octets[65536];
};

/* Ends the program with a message. */
void fail(const char *message);

/* Seconds of the monotonic clock. */
double now(void);

/* Connects to a port of this machine. It is waited for octets so many seconds at most. */
void peer_open(struct peer *peer, unsigned port, double seconds);

/* Sends all of these octets. */
void peer_send(struct peer *peer, const uint8_t *octets, size_t count);

/* Waits for octets, and takes those that came behind the others: 1 where some came, 0 where none did, -1 where the other side has
 * closed. */
int peer_receive(struct peer *peer);

/* Drops the first so many octets. */
void peer_drop(struct peer *peer, size_t count);

/* A number of so many octets, the high one first. */
uint32_t number_at(const uint8_t *octets, size_t count);
void put_number(uint8_t *octets, size_t count, uint32_t number);

#endif
