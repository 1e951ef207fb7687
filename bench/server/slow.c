/* Loaded before the C library (LD_PRELOAD): a sync of a file takes SYNC_MICROS millionths of a second longer (fdatasync and fsync), as on
 * a device that is slower than this machine's. */
#define _GNU_SOURCE
#include <stdlib.h>
#include <sys/syscall.h>
#include <time.h>
#include <unistd.h>

static void wait_so_long(void)
{
	const char *micros = getenv("SYNC_MICROS");
	long nanos = micros ? atol(micros) * 1000 : 0;
	struct timespec span = { .tv_sec = nanos / 1000000000, .tv_nsec = nanos % 1000000000 };

	nanosleep(&span, NULL);
}

int fdatasync(int file)
{
	wait_so_long();
	return syscall(SYS_fdatasync, file);
}

int fsync(int file)
{
	wait_so_long();
	return syscall(SYS_fsync, file);
}
