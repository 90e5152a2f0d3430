/*
 * What a system may do to a program, put before it (LD_PRELOAD): every second read and write is interrupted before it moves a byte,
 * and the others move 777 bytes at most. With FAULTS=stuck a write to standard output takes nothing, and names no error.
 */
#define _GNU_SOURCE
#include <errno.h>
#include <stdlib.h>
#include <sys/syscall.h>
#include <unistd.h>

static size_t some(size_t n)
{
	return n < 777 ? n : 777;
}

static int interrupted(void)
{
	static unsigned calls;
	if (calls++ % 2) {
		return 0;
	}
	errno = EINTR;
	return 1;
}

ssize_t read(int fd, void *to, size_t n)
{
	return interrupted() ? -1 : syscall(SYS_read, fd, to, some(n));
}

ssize_t write(int fd, const void *from, size_t n)
{
	if (fd == STDERR_FILENO) {
		return syscall(SYS_write, fd, from, n);
	}
	if (getenv("FAULTS") != NULL) {
		return 0;
	}
	return interrupted() ? -1 : syscall(SYS_write, fd, from, some(n));
}
