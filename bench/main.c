/* The C side of the measurement: the same kinds of work as `lab_measures codecs`, in the same order.
 *
 * usage: peer [TURNS [KIND]]. Checksums go to standard output, times to standard error. */
#include "peer.h"

#include <stdio.h>
#include <stdlib.h>
#include <string.h>
#include <time.h>

const char PLAIN[] = "abcdefghijklmnopqrstuvwxyzABCDEFGHIJKLMNOPQRSTUVWXYZ0123456789 .";
const char ESCAPED[] = "abcdefghijklmnopqrstuvwxyzABCDEFGHIJKLMNOPQRSTUVWXYZ0123[]{}|~ .";
const char MIXED[] = "абвгдежзийклмнопрстуфхцчшщъыьэюяАБВГДЕЖЗИЙКЛМНОП ,.!?12345éä中文字€";

void sum_take(struct sum *sum, const uint8_t *octets, size_t count)
{
	for (size_t i = 0; i < count; i++)
		sum->hash = (sum->hash ^ octets[i]) * 0x100000001B3u;
}

void sum_take_number(struct sum *sum, uint64_t number)
{
	uint8_t octets[8];

	for (int i = 0; i < 8; i++)
		octets[i] = (uint8_t)(number >> (56 - 8 * i));
	sum_take(sum, octets, sizeof(octets));
}

/* The octets of the UTF-8 character that begins there. */
static size_t character_length(const char *character)
{
	unsigned char first = (unsigned char)*character;

	return first < 0x80 ? 1 : first < 0xE0 ? 2 : first < 0xF0 ? 3 : 4;
}

size_t make_text(char *text, const char *characters, unsigned count)
{
	uint32_t seed = 1;
	size_t length = 0;

	for (unsigned i = 0; i < count; i++) {
		const char *character = characters;

		seed = seed * 1103515245u + 12345u;
		for (unsigned place = (seed >> 16) % 64; place > 0; place--)
			character += character_length(character);
		memcpy(text + length, character, character_length(character));
		length += character_length(character);
	}
	text[length] = '\0';
	return length;
}

uint64_t now(void)
{
	struct timespec time;

	clock_gettime(CLOCK_MONOTONIC, &time);
	return (uint64_t)time.tv_sec * 1000000000u + (uint64_t)time.tv_nsec;
}

void fail(const char *message)
{
	fprintf(stderr, "peer: %s\n", message);
	exit(3);
}

static void measure(const struct kind *kind, uint64_t turns, const char *only)
{
	for (; kind->name != NULL; kind++) {
		struct sum sum = { 0, 0xCBF29CE484222325u };
		uint64_t nanos;

		if (only != NULL && strcmp(only, kind->name) != 0)
			continue;
		nanos = kind->run(&sum, turns);
		printf("%s %016llx\n", kind->name, (unsigned long long)(sum.hash ^ sum.touched));
		fprintf(stderr, "%s %llu %llu\n", kind->name, (unsigned long long)turns,
			(unsigned long long)nanos);
	}
}

int main(int argc, char **argv)
{
	uint64_t turns = argc > 1 ? strtoull(argv[1], NULL, 10) : 64;
	const char *only = argc > 2 ? argv[2] : NULL;

	measure(TEXT_KINDS, turns, only);
	measure(TPDU_KINDS, turns, only);
	measure(PDU_KINDS, turns, only);
	measure(STREAM_KINDS, turns, only);
	return 0;
}
