/* Loaded before the C library (LD_PRELOAD): the call of malloc, calloc or realloc whose number FAIL_AT has finds no memory. Then
 * an F is written to the file descriptor FAIL_TELL. */
#include <errno.h>
#include <stddef.h>
#include <stdlib.h>
#include <unistd.h>

extern void *__libc_malloc(size_t size);
extern void *__libc_calloc(size_t count, size_t size);
extern void *__libc_realloc(void *old, size_t size);

static long wanted = -1, count;

static int fails(void)
{
	if (wanted < 0) {
		const char *word = getenv("FAIL_AT");
		wanted = word ? atol(word) : 0;
	}
	if (wanted == 0 || __atomic_add_fetch(&count, 1, __ATOMIC_SEQ_CST) != wanted)
		return 0;
	const char *tell = getenv("FAIL_TELL");
	if (tell && write(atoi(tell), "F", 1) != 1)
		_exit(99);
	errno = ENOMEM;
	return 1;
}

void *malloc(size_t size)
{
	return fails() ? NULL : __libc_malloc(size);
}

void *calloc(size_t number, size_t size)
{
	return fails() ? NULL : __libc_calloc(number, size);
}

void *realloc(void *old, size_t size)
{
	return fails() ? NULL : __libc_realloc(old, size);
}
