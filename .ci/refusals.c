// Stands before the C library of a program (LD_PRELOAD) and lets calls of one kind fail: the first of them to fail, the last, and how.
//
// REFUSE is 'KIND FIRST LAST HOW', where HOW is the number of an error, 0 for a read or write of one byte, and -1 for a file that has
// grown by a blank before it is read. REFUSE_TALLY names a file of sizeof(struct tally) bytes for what was met.
#define _GNU_SOURCE
#include <dlfcn.h>
#include <errno.h>
#include <fcntl.h>
#include <pthread.h>
#include <stdarg.h>
#include <stdatomic.h>
#include <stdio.h>
#include <stdlib.h>
#include <string.h>
#include <sys/mman.h>
#include <sys/syscall.h>
#include <unistd.h>

enum kind { MEMORY, THREAD, OPEN, READ, WRITE, CLOSE, SEED, CHANGE, KINDS };
static const char *const NAMES[KINDS] = {"memory", "thread", "open", "read", "write", "close", "seed", "change"};

enum how { SHORT = 0, GROWN = -1 };

// What a run met: the calls of the kind, how many failed, and the path of the first that did.
struct tally {
	atomic_long calls, failed;
	char path[240];
};

extern void *__libc_malloc(size_t);
extern void *__libc_calloc(size_t, size_t);
extern void *__libc_realloc(void *, size_t);
extern void *__libc_memalign(size_t, size_t);

static struct tally unread, *tally = &unread;
static enum kind kind = KINDS;
static long first, last;
static int how;
static int (*start_thread)(pthread_t *, const pthread_attr_t *, void *(*)(void *), void *);
static char opened[64][sizeof tally->path] = {"stdin", "stdout", "stderr"};

__attribute__((constructor)) static void begin(void)
{
	const char *rule = getenv("REFUSE"), *file = getenv("REFUSE_TALLY");
	char name[16];
	start_thread = (int (*)(pthread_t *, const pthread_attr_t *, void *(*)(void *), void *))dlsym(RTLD_NEXT, "pthread_create");
	if (!rule || !file || sscanf(rule, "%15s %ld %ld %d", name, &first, &last, &how) != 4)
		return;
	long fd = syscall(SYS_openat, AT_FDCWD, file, O_RDWR);
	long at = syscall(SYS_mmap, NULL, sizeof *tally, PROT_READ | PROT_WRITE, MAP_SHARED, fd, 0L);
	if (fd < 0 || at == -1)
		abort();
	syscall(SYS_close, fd);
	tally = (struct tally *)at;
	for (kind = 0; kind < KINDS && strcmp(NAMES[kind], name); kind++)
		;
}

// Whether this call is one of those that fail.
static int fails(enum kind met, const char *path)
{
	if (met != kind)
		return 0;
	long number = ++tally->calls;
	if (number < first || number > last)
		return 0;
	if (!tally->failed++)
		snprintf(tally->path, sizeof tally->path, "%s", path);
	if (how > 0)
		errno = how;
	return 1;
}

static const char *path_of(int fd)
{
	return fd >= 0 && fd < 64 ? opened[fd] : "";
}

void *malloc(size_t size)
{
	return fails(MEMORY, "") ? NULL : __libc_malloc(size);
}

void *calloc(size_t count, size_t size)
{
	return fails(MEMORY, "") ? NULL : __libc_calloc(count, size);
}

void *realloc(void *block, size_t size)
{
	return fails(MEMORY, "") ? NULL : __libc_realloc(block, size);
}

void *aligned_alloc(size_t align, size_t size)
{
	return fails(MEMORY, "") ? NULL : __libc_memalign(align, size);
}

int posix_memalign(void **block, size_t align, size_t size)
{
	*block = fails(MEMORY, "") ? NULL : __libc_memalign(align, size);
	return *block ? 0 : ENOMEM;
}

void *mmap(void *at, size_t size, int access, int flags, int fd, off_t offset)
{
	return fails(MEMORY, "") ? MAP_FAILED : (void *)syscall(SYS_mmap, at, size, access, flags, fd, offset);
}

int pthread_create(pthread_t *thread, const pthread_attr_t *wanted, void *(*start)(void *), void *with)
{
	return fails(THREAD, "") ? how : start_thread(thread, wanted, start, with);
}

int open(const char *path, int flags, ...)
{
	va_list rest;
	va_start(rest, flags);
	int mode = flags & O_CREAT ? va_arg(rest, int) : 0;
	va_end(rest);
	if (fails(OPEN, path))
		return -1;
	int fd = (int)syscall(SYS_openat, AT_FDCWD, path, flags, mode);
	if (fd >= 0 && fd < 64)
		snprintf(opened[fd], sizeof opened[fd], "%s", path);
	return fd;
}

int close(int fd)
{
	int failed = fails(CLOSE, path_of(fd));
	int status = (int)syscall(SYS_close, fd);
	return failed ? -1 : status;
}

// The bytes that a call may move, or -1 where it fails.
static ssize_t room(enum kind met, int fd, size_t size)
{
	if (!fails(met, path_of(fd)))
		return (ssize_t)size;
	if (how == GROWN) {
		long more = syscall(SYS_openat, AT_FDCWD, path_of(fd), O_WRONLY | O_APPEND);
		if (more < 0 || syscall(SYS_write, more, " ", 1) != 1)
			abort();
		syscall(SYS_close, more);
		return (ssize_t)size;
	}
	return how == SHORT ? size > 0 : -1;
}

ssize_t read(int fd, void *to, size_t size)
{
	ssize_t most = room(READ, fd, size);
	return most < 0 ? -1 : syscall(SYS_read, fd, to, most);
}

ssize_t pread(int fd, void *to, size_t size, off_t at)
{
	ssize_t most = room(READ, fd, size);
	return most < 0 ? -1 : syscall(SYS_pread64, fd, to, most, at);
}

ssize_t write(int fd, const void *from, size_t size)
{
	ssize_t most = room(WRITE, fd, size);
	return most < 0 ? -1 : syscall(SYS_write, fd, from, most);
}

ssize_t pwrite(int fd, const void *from, size_t size, off_t at)
{
	ssize_t most = room(WRITE, fd, size);
	return most < 0 ? -1 : syscall(SYS_pwrite64, fd, from, most, at);
}

int getentropy(void *to, size_t size)
{
	return fails(SEED, "random") ? -1 : syscall(SYS_getrandom, to, size, 0) == (long)size ? 0 : -1;
}

int fsync(int fd)
{
	return fails(CHANGE, path_of(fd)) ? -1 : (int)syscall(SYS_fsync, fd);
}

int rename(const char *from, const char *to)
{
	return fails(CHANGE, to) ? -1 : renameat(AT_FDCWD, from, AT_FDCWD, to);
}

int unlink(const char *path)
{
	return fails(CHANGE, path) ? -1 : unlinkat(AT_FDCWD, path, 0);
}
