/* What the C side's files share: kinds of work, checksums, and the inputs. */
#ifndef PEER_H
#define PEER_H

#include <stddef.h>
#include <stdint.h>

/* A checksum: one octet of each turn's product, and every octet of the last one's by FNV-1a. */
struct sum {
	uint64_t touched;
	uint64_t hash;
};

void sum_take(struct sum *sum, const uint8_t *octets, size_t count);
void sum_take_number(struct sum *sum, uint64_t number);

/* Counts one of the first four octets of what a turn produced, inside the measured time. */
static inline void sum_touch(struct sum *sum, const uint8_t *octets, size_t count, uint64_t turn)
{
	if (turn % 4 < count)
		sum->touched += octets[turn % 4];
}

static inline void sum_count(struct sum *sum, uint64_t number)
{
	sum->touched += number;
}

/* Characters of 64 that a text is made of, NUL terminated UTF-8; the same as in bench/measures/src/codecs/inputs.rattle. */
extern const char PLAIN[];
extern const char ESCAPED[];
extern const char MIXED[];

/* So many characters, each of 64 by the generator; answers the octets of UTF-8. */
size_t make_text(char *text, const char *characters, unsigned count);

/* Nanoseconds of the monotonic clock. */
uint64_t now(void);

/* A kind of work: does it so many times, and answers the nanoseconds that it took. */
struct kind {
	const char *name;
	uint64_t (*run)(struct sum *sum, uint64_t turns);
};

/* Ends the program with a message. */
void fail(const char *message);

extern const struct kind TEXT_KINDS[];
extern const struct kind TPDU_KINDS[];
extern const struct kind PDU_KINDS[];
extern const struct kind STREAM_KINDS[];

/* The octets of the submit_sm that is read, written and streamed; answers how many. */
size_t make_submit_sm(uint8_t *octets, size_t room);

/* A text of 160 characters as septets, packed behind fill bits; answers the octets. */
size_t packed_text(uint8_t *octets, const char *characters, uint8_t *septets, size_t *count);

#endif
