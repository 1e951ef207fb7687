/* Loaded before the C library (LD_PRELOAD), so that a program meets a fault of its machine while a file is there:
 *   FAULT_AHEAD       the clock of the day is ten days ahead (clock_gettime of CLOCK_REALTIME);
 *   FAULT_FULL        the disk is full (pwrite gives ENOSPC);
 *   FAULT_PART        the disk fills up: it takes as many writes more as the file says, and then none (pwrite gives ENOSPC);
 *   FAULT_REFUSED     what is written inside a file is refused, and new files are taken (pwrite gives EPERM);
 *   FAULT_READ_ONLY   the file system can't be written (open for writing and pwrite give EROFS);
 *   FAULT_LOST        a store's disk is lost (statx of a path that ends in .store or -wal gives EIO);
 *   FAULT_UNLOGGED    standard error takes nothing (write to it gives ENOSPC);
 *   FAULT_UNWRITTEN   who reads a store's log comes before who writes it: of each line "N FROM TO" in the file the Nth opening of a path that
 *                     ends in -wal reads zeros from octet FROM up to octet TO (read);
 *   FAULT_SLOW        a store's log opens slowly (open of a path that ends in -wal takes five seconds);
 *   FAULT_SLOW_DISK   the disk takes a tenth of a second for a commit (fdatasync and fsync);
 *   FAULT_STUCK_DISK  it takes five seconds.
 * Each is the path of such a file. */
#define _GNU_SOURCE
#include <errno.h>
#include <fcntl.h>
#include <stdarg.h>
#include <stdio.h>
#include <stdlib.h>
#include <string.h>
#include <sys/stat.h>
#include <sys/syscall.h>
#include <time.h>
#include <unistd.h>

#define TEN_DAYS 864000
#define TENTH 100000000
#define LOG_END "-wal"
#define FILE_END ".store"

static int is_so(const char *name)
{
	const char *path = getenv(name);
	int kept = errno;
	int found = path && access(path, F_OK) == 0;
	errno = kept;
	return found;
}

int clock_gettime(clockid_t clock, struct timespec *moment)
{
	if (syscall(SYS_clock_gettime, clock, moment) != 0)
		return -1;
	if (clock == CLOCK_REALTIME && is_so("FAULT_AHEAD"))
		moment->tv_sec += TEN_DAYS;
	return 0;
}

/* The text of the file of that name, which is there. */
static void text_in(const char *name, char *text, size_t room)
{
	int file = syscall(SYS_openat, AT_FDCWD, getenv(name), O_RDONLY);

	memset(text, 0, room);
	if (file >= 0) {
		if (syscall(SYS_read, file, text, room - 1) < 0)
			text[0] = 0;
		syscall(SYS_close, file);
	}
}

static long number_in(const char *name)
{
	char digits[16];

	text_in(name, digits, sizeof digits);
	return atol(digits);
}

/* Whether the disk has taken the writes that it takes more. A run has one thread that writes. */
static int is_filled(void)
{
	static long taken;

	if (!is_so("FAULT_PART")) {
		taken = 0;
		return 0;
	}
	return taken++ >= number_in("FAULT_PART");
}

ssize_t pwrite(int file, const void *octets, size_t count, off_t at)
{
	if (is_so("FAULT_FULL") || is_filled()) {
		errno = ENOSPC;
		return -1;
	}
	if (is_so("FAULT_REFUSED")) {
		errno = EPERM;
		return -1;
	}
	if (is_so("FAULT_READ_ONLY")) {
		errno = EROFS;
		return -1;
	}
	return syscall(SYS_pwrite64, file, octets, count, at);
}

ssize_t write(int file, const void *octets, size_t count)
{
	if (file == STDERR_FILENO && is_so("FAULT_UNLOGGED")) {
		errno = ENOSPC;
		return -1;
	}
	return syscall(SYS_write, file, octets, count);
}

ssize_t pwrite64(int file, const void *octets, size_t count, off_t at)
{
	return pwrite(file, octets, count, at);
}

/* The log that was opened last to be read, and how many were opened so before it. */
static int log_file = -1;
static long logs_opened;

/* What these octets of the log were before somebody wrote there. */
static void unwrite(char *octets, long at, long count)
{
	char lines[256], *line = lines;
	long opening, from, to, place;
	int length;

	text_in("FAULT_UNWRITTEN", lines, sizeof lines);
	for (; sscanf(line, "%ld %ld %ld%n", &opening, &from, &to, &length) == 3; line += length)
		for (place = at; opening == logs_opened && place < at + count; place++)
			if (from <= place && place < to)
				octets[place - at] = 0;
}

ssize_t read(int file, void *octets, size_t count)
{
	ssize_t taken = syscall(SYS_read, file, octets, count);

	if (taken > 0 && file == log_file && is_so("FAULT_UNWRITTEN"))
		unwrite(octets, syscall(SYS_lseek, file, 0, SEEK_CUR) - taken, taken);
	return taken;
}

static void turn_disk(void)
{
	struct timespec tenth = { .tv_sec = 0, .tv_nsec = TENTH };

	if (is_so("FAULT_SLOW_DISK"))
		nanosleep(&tenth, NULL);
	if (is_so("FAULT_STUCK_DISK"))
		sleep(5);
}

int fdatasync(int file)
{
	turn_disk();
	return syscall(SYS_fdatasync, file);
}

int fsync(int file)
{
	turn_disk();
	return syscall(SYS_fsync, file);
}

static int ends_in(const char *path, const char *end)
{
	size_t length = strlen(path), least = strlen(end);
	return length >= least && strcmp(path + length - least, end) == 0;
}

int statx(int folder, const char *path, int flags, unsigned wanted, struct statx *found)
{
	if ((ends_in(path, LOG_END) || ends_in(path, FILE_END)) && is_so("FAULT_LOST")) {
		errno = EIO;
		return -1;
	}
	return syscall(SYS_statx, folder, path, flags, wanted, found);
}

static int opens(int folder, const char *path, int flags, mode_t mode)
{
	int file;

	if (ends_in(path, LOG_END) && is_so("FAULT_SLOW"))
		sleep(5);
	if ((flags & O_ACCMODE) != O_RDONLY && is_so("FAULT_READ_ONLY")) {
		errno = EROFS;
		return -1;
	}
	file = syscall(SYS_openat, folder, path, flags, mode);
	if (ends_in(path, LOG_END) && (flags & O_ACCMODE) == O_RDONLY) {
		log_file = file;
		logs_opened++;
	} else if (file == log_file) {
		log_file = -1;
	}
	return file;
}

#define MODE_OF(flags)				\
	mode_t mode = 0;			\
	if (flags & (O_CREAT | O_TMPFILE)) {	\
		va_list more;			\
		va_start(more, flags);		\
		mode = va_arg(more, mode_t);	\
		va_end(more);			\
	}

int open(const char *path, int flags, ...)
{
	MODE_OF(flags)
	return opens(AT_FDCWD, path, flags, mode);
}

int open64(const char *path, int flags, ...)
{
	MODE_OF(flags)
	return opens(AT_FDCWD, path, flags, mode);
}

int openat(int folder, const char *path, int flags, ...)
{
	MODE_OF(flags)
	return opens(folder, path, flags, mode);
}

int openat64(int folder, const char *path, int flags, ...)
{
	MODE_OF(flags)
	return opens(folder, path, flags, mode);
}
