/* Septets, texts and UCS2 beside libosmocore, iconv and loops by hand. */
#include "peer.h"

#include <iconv.h>
#include <osmocom/gsm/gsm_utils.h>
#include <stdlib.h>
#include <string.h>

size_t packed_text(uint8_t *octets, const char *characters, uint8_t *septets, size_t *count)
{
	char text[1024];

	make_text(text, characters, 160);
	*count = (size_t)gsm_septet_encode(septets, text);
	return (size_t)gsm_septet_pack(octets, septets, *count, 0);
}

/* libosmocore: gsm_septet_pack, into the caller's buffer; it takes one of its own by malloc. */
static uint64_t pack(struct sum *sum, uint64_t turns)
{
	uint8_t septets[512], octets[512];
	size_t count;
	uint64_t start, nanos;
	int length = 0;

	packed_text(octets, PLAIN, septets, &count);
	memset(octets, 0, sizeof(octets));
	start = now();
	for (uint64_t turn = 0; turn < turns; turn++) {
		length = gsm_septet_pack(octets, septets, count, 0);
		sum_touch(sum, octets, (size_t)length, turn);
	}
	nanos = now() - start;
	length = gsm_septet_pack(octets, septets, count, 0);
	sum_take(sum, octets, (size_t)length);
	return nanos;
}

/* By hand, as libosmocore has no call that gives septets: the loop of gsm_7bit_decode_n without its look-up, over
 * octets whose number was tested before. */
static void unpack_septets(uint8_t *septets, const uint8_t *octets, size_t length, unsigned count)
{
	for (unsigned i = 0; i < count; i++) {
		unsigned right = i * 7 / 8, shift = i * 7 % 8;
		unsigned both = octets[right];

		if (right + 1 < length)
			both |= (unsigned)octets[right + 1] << 8;
		septets[i] = (both >> shift) & 0x7f;
	}
}

static uint64_t unpack(struct sum *sum, uint64_t turns)
{
	uint8_t septets[512], octets[512];
	size_t count, length = packed_text(octets, PLAIN, septets, &count);
	uint64_t start, nanos;

	start = now();
	for (uint64_t turn = 0; turn < turns; turn++) {
		uint8_t *result = malloc(count);

		if (result == NULL)
			fail("out of memory");
		unpack_septets(result, octets, length, (unsigned)count);
		sum_touch(sum, result, count, turn);
		free(result);
	}
	nanos = now() - start;
	unpack_septets(septets, octets, length, (unsigned)count);
	sum_take(sum, septets, count);
	return nanos;
}

/* libosmocore: gsm_septet_encode, of a text of one octet a character. */
static uint64_t text_to_septets(struct sum *sum, uint64_t turns)
{
	char text[1024];
	uint8_t septets[1024];
	uint64_t start, nanos;
	int count = 0;

	make_text(text, ESCAPED, 160);
	start = now();
	for (uint64_t turn = 0; turn < turns; turn++) {
		count = gsm_septet_encode(septets, text);
		sum_touch(sum, septets, (size_t)count, turn);
	}
	nanos = now() - start;
	count = gsm_septet_encode(septets, text);
	sum_take(sum, septets, (size_t)count);
	return nanos;
}

/* The characters of the default alphabet in ISO 8859-1, of which the others stand as spaces, and those behind ESC. */
static const char MAIN[128] = {
	'@', 0xA3 - 256, '$', 0xA5 - 256, 0xE8 - 256, 0xE9 - 256, 0xF9 - 256, 0xEC - 256,
	0xF2 - 256, 0xC7 - 256, '\n', 0xD8 - 256, 0xF8 - 256, '\r', 0xC5 - 256, 0xE5 - 256,
	' ', '_', ' ', ' ', ' ', ' ', ' ', ' ', ' ', ' ', ' ', ' ',
	0xC6 - 256, 0xE6 - 256, 0xDF - 256, 0xC9 - 256,
	' ', '!', '"', '#', 0xA4 - 256, '%', '&', '\'', '(', ')', '*', '+', ',', '-', '.', '/',
	'0', '1', '2', '3', '4', '5', '6', '7', '8', '9', ':', ';', '<', '=', '>', '?',
	0xA1 - 256, 'A', 'B', 'C', 'D', 'E', 'F', 'G', 'H', 'I', 'J', 'K', 'L', 'M', 'N', 'O',
	'P', 'Q', 'R', 'S', 'T', 'U', 'V', 'W', 'X', 'Y', 'Z',
	0xC4 - 256, 0xD6 - 256, 0xD1 - 256, 0xDC - 256, 0xA7 - 256,
	0xBF - 256, 'a', 'b', 'c', 'd', 'e', 'f', 'g', 'h', 'i', 'j', 'k', 'l', 'm', 'n', 'o',
	'p', 'q', 'r', 's', 't', 'u', 'v', 'w', 'x', 'y', 'z',
	0xE4 - 256, 0xF6 - 256, 0xF1 - 256, 0xFC - 256, 0xE0 - 256,
};

static char after_escape(uint8_t septet)
{
	switch (septet) {
	case 0x0A: return '\f';
	case 0x14: return '^';
	case 0x28: return '{';
	case 0x29: return '}';
	case 0x2F: return '\\';
	case 0x3C: return '[';
	case 0x3D: return '~';
	case 0x3E: return ']';
	case 0x40: return '|';
	case 0x1B: return ' ';
	default: return MAIN[septet];
	}
}

/* By hand, as libosmocore reads packed septets alone: a table, into a buffer of malloc. */
static size_t read_septets(char *text, const uint8_t *septets, size_t count)
{
	size_t length = 0;

	for (size_t i = 0; i < count; i++) {
		uint8_t septet = septets[i];

		if (septet != 0x1B)
			text[length++] = MAIN[septet & 0x7f];
		else if (i + 1 < count)
			text[length++] = after_escape(septets[++i] & 0x7f);
		else
			text[length++] = ' ';
	}
	text[length] = '\0';
	return length;
}

static uint64_t septets_to_text(struct sum *sum, uint64_t turns)
{
	char result[1024];
	uint8_t septets[1024], octets[1024];
	size_t count, length;
	uint64_t start, nanos;

	packed_text(octets, ESCAPED, septets, &count);
	start = now();
	for (uint64_t turn = 0; turn < turns; turn++) {
		char *text = malloc(count + 1);

		if (text == NULL)
			fail("out of memory");
		length = read_septets(text, septets, count);
		sum_touch(sum, (uint8_t *)text, length, turn);
		free(text);
	}
	nanos = now() - start;
	length = read_septets(result, septets, count);
	sum_take(sum, (uint8_t *)result, length);
	return nanos;
}

/* libosmocore: gsm_7bit_encode_n, into the caller's buffer; it takes two of its own. */
static uint64_t text_to_packed(struct sum *sum, uint64_t turns)
{
	char text[1024];
	uint8_t octets[1024];
	uint64_t start, nanos;
	int length = 0;

	make_text(text, ESCAPED, 160);
	start = now();
	for (uint64_t turn = 0; turn < turns; turn++) {
		gsm_7bit_encode_n(octets, sizeof(octets), text, &length);
		sum_touch(sum, octets, (size_t)length, turn);
	}
	nanos = now() - start;
	gsm_7bit_encode_n(octets, sizeof(octets), text, &length);
	sum_take(sum, octets, (size_t)length);
	return nanos;
}

/* libosmocore: gsm_7bit_decode_n, into the caller's buffer. */
static uint64_t packed_to_text(struct sum *sum, uint64_t turns)
{
	char text[1024];
	uint8_t septets[1024], octets[1024];
	size_t count;
	uint64_t start, nanos;
	int length = 0;

	packed_text(octets, ESCAPED, septets, &count);
	start = now();
	for (uint64_t turn = 0; turn < turns; turn++) {
		length = gsm_7bit_decode_n(text, sizeof(text), octets, (uint8_t)count);
		sum_touch(sum, (uint8_t *)text, (size_t)length, turn);
	}
	nanos = now() - start;
	length = gsm_7bit_decode_n(text, sizeof(text), octets, (uint8_t)count);
	sum_take(sum, (uint8_t *)text, (size_t)length);
	return nanos;
}

/* The C library's iconv, opened once, into the caller's buffer. */
static size_t convert(iconv_t way, char *result, size_t room, char *octets, size_t length)
{
	size_t left = room;

	if (iconv(way, &octets, &length, &result, &left) == (size_t)-1)
		fail("iconv refused");
	return room - left;
}

static uint64_t converted(struct sum *sum, uint64_t turns, const char *to, const char *from,
			  char *octets, size_t length)
{
	char result[1024];
	iconv_t way = iconv_open(to, from);
	uint64_t start, nanos;
	size_t count = 0;

	if (way == (iconv_t)-1)
		fail("iconv knows no such way");
	start = now();
	for (uint64_t turn = 0; turn < turns; turn++) {
		count = convert(way, result, sizeof(result), octets, length);
		sum_touch(sum, (uint8_t *)result, count, turn);
	}
	nanos = now() - start;
	count = convert(way, result, sizeof(result), octets, length);
	sum_take(sum, (uint8_t *)result, count);
	iconv_close(way);
	return nanos;
}

static uint64_t writing_ucs2(struct sum *sum, uint64_t turns, const char *characters)
{
	char text[1024];
	size_t length = make_text(text, characters, 160);

	return converted(sum, turns, "UTF-16BE", "UTF-8", text, length);
}

static uint64_t reading_ucs2(struct sum *sum, uint64_t turns, const char *characters)
{
	char text[1024], octets[1024];
	size_t length = make_text(text, characters, 160);
	iconv_t way = iconv_open("UTF-16BE", "UTF-8");
	size_t count;

	if (way == (iconv_t)-1)
		fail("iconv knows no such way");
	count = convert(way, octets, sizeof(octets), text, length);
	iconv_close(way);
	return converted(sum, turns, "UTF-8", "UTF-16BE", octets, count);
}

static uint64_t text_to_ucs2(struct sum *sum, uint64_t turns)
{
	return writing_ucs2(sum, turns, ESCAPED);
}

static uint64_t ucs2_to_text(struct sum *sum, uint64_t turns)
{
	return reading_ucs2(sum, turns, ESCAPED);
}

static uint64_t mixed_to_ucs2(struct sum *sum, uint64_t turns)
{
	return writing_ucs2(sum, turns, MIXED);
}

static uint64_t ucs2_to_mixed(struct sum *sum, uint64_t turns)
{
	return reading_ucs2(sum, turns, MIXED);
}

const struct kind TEXT_KINDS[] = {
	{ "pack", pack },
	{ "unpack", unpack },
	{ "text_to_septets", text_to_septets },
	{ "septets_to_text", septets_to_text },
	{ "text_to_packed", text_to_packed },
	{ "packed_to_text", packed_to_text },
	{ "text_to_ucs2", text_to_ucs2 },
	{ "ucs2_to_text", ucs2_to_text },
	{ "mixed_to_ucs2", mixed_to_ucs2 },
	{ "ucs2_to_mixed", ucs2_to_mixed },
	{ NULL, NULL },
};
