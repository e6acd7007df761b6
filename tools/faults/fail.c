/* Makes one call of a program fail, by LD_PRELOAD: of the calls of FAIL_KIND (memory, read or write) that with the number FAIL_AT,
 * counted from 1. FAIL_NOTE is a file that is made where it was reached. */
#include <errno.h>
#include <fcntl.h>
#include <stdlib.h>
#include <string.h>
#include <sys/syscall.h>
#include <unistd.h>

void *__libc_malloc(size_t);
void *__libc_calloc(size_t, size_t);
void *__libc_realloc(void *, size_t);
void *__libc_memalign(size_t, size_t);

static long seen;
static int busy;

static int fails(const char *kind)
{
	const char *wanted, *at, *note;
	int yes = 0;
	if (busy)
		return 0;
	busy = 1;
	wanted = getenv("FAIL_KIND");
	at = getenv("FAIL_AT");
	note = getenv("FAIL_NOTE");
	if (wanted && at && note && strcmp(wanted, kind) == 0 && ++seen == atol(at)) {
		close(open(note, O_CREAT | O_WRONLY, 0600));
		yes = 1;
	}
	busy = 0;
	return yes;
}

void *malloc(size_t n)
{
	return fails("memory") ? NULL : __libc_malloc(n);
}

void *calloc(size_t n, size_t size)
{
	return fails("memory") ? NULL : __libc_calloc(n, size);
}

void *realloc(void *old, size_t n)
{
	return fails("memory") ? NULL : __libc_realloc(old, n);
}

void *aligned_alloc(size_t align, size_t n)
{
	return fails("memory") ? NULL : __libc_memalign(align, n);
}

int posix_memalign(void **out, size_t align, size_t n)
{
	if (fails("memory"))
		return ENOMEM;
	*out = __libc_memalign(align, n);
	return *out ? 0 : ENOMEM;
}

ssize_t read(int file, void *bytes, size_t n)
{
	if (fails("read")) {
		errno = EIO;
		return -1;
	}
	return syscall(SYS_read, file, bytes, n);
}

ssize_t write(int file, const void *bytes, size_t n)
{
	if (fails("write")) {
		errno = EIO;
		return -1;
	}
	return syscall(SYS_write, file, bytes, n);
}

ssize_t __write(int file, const void *bytes, size_t n)
{
	return write(file, bytes, n);
}
