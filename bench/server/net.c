#include "net.h"

#include <errno.h>
#include <netinet/in.h>
#include <netinet/tcp.h>
#include <stdio.h>
#include <stdlib.h>
#include <string.h>
#include <sys/socket.h>
#include <time.h>
#include <unistd.h>

void fail(const char *message)
{
	fprintf(stderr, "bench/server: %s\n", message);
	exit(1);
}

double now(void)
{
	struct timespec time;

	clock_gettime(CLOCK_MONOTONIC, &time);
	return (double)time.tv_sec + (double)time.tv_nsec / 1e9;
}

void peer_open(struct peer *peer, unsigned port, double seconds)
{
	struct sockaddr_in address = { .sin_family = AF_INET, .sin_port = htons((uint16_t)port) };
	struct timeval wait = { .tv_sec = (time_t)seconds, .tv_usec = (suseconds_t)((seconds - (double)(time_t)seconds) * 1e6) };
	int yes = 1;

	address.sin_addr.s_addr = htonl(INADDR_LOOPBACK);
	peer->count = 0;
	peer->socket = socket(AF_INET, SOCK_STREAM, 0);
	if (peer->socket < 0 || connect(peer->socket, (struct sockaddr *)&address, sizeof address) != 0)
		fail("the server does not listen");
	if (setsockopt(peer->socket, IPPROTO_TCP, TCP_NODELAY, &yes, sizeof yes) != 0 ||
	    setsockopt(peer->socket, SOL_SOCKET, SO_RCVTIMEO, &wait, sizeof wait) != 0)
		fail("the connection can't be set");
}

void peer_send(struct peer *peer, const uint8_t *octets, size_t count)
{
	while (count > 0) {
		ssize_t sent = send(peer->socket, octets, count, MSG_NOSIGNAL);

		if (sent < 0 && errno == EINTR)
			continue;
		if (sent <= 0)
			fail("the server takes no octets");
		octets += sent;
		count -= (size_t)sent;
	}
}

int peer_receive(struct peer *peer)
{
	ssize_t came;

	if (peer->count == sizeof peer->octets)
		fail("too many octets came");
	came = recv(peer->socket, peer->octets + peer->count, sizeof peer->octets - peer->count, 0);
	if (came < 0 && (errno == EINTR || errno == EAGAIN))
		return 0;
	if (came <= 0)
		return -1;
	peer->count += (size_t)came;
	return 1;
}

void peer_drop(struct peer *peer, size_t count)
{
	peer->count -= count;
	memmove(peer->octets, peer->octets + count, peer->count);
}

uint32_t number_at(const uint8_t *octets, size_t count)
{
	uint32_t number = 0;

	while (count-- > 0)
		number = number << 8 | *octets++;
	return number;
}

void put_number(uint8_t *octets, size_t count, uint32_t number)
{
	while (count-- > 0) {
		octets[count] = (uint8_t)number;
		number >>= 8;
	}
}
