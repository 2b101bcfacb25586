/*
 * Stands before the C library's calls that give memory and that start a thread, and refuses some of a program's: of memory, or of threads where REFUSE_THREADS is
 * set, the requests from number REFUSE_FROM to number REFUSE_TO, counted from 1. All others go on to the C library. At the first it writes a byte to the
 * descriptor REFUSE_TELL. checks/refusals preloads it.
 */
#define _GNU_SOURCE
#include <dlfcn.h>
#include <errno.h>
#include <pthread.h>
#include <stdatomic.h>
#include <stdbool.h>
#include <stddef.h>
#include <stdlib.h>
#include <unistd.h>

enum kind { MEMORY, THREAD };

static enum kind refused = MEMORY;
static unsigned long from = 0;
static unsigned long to = 0;
static int tell = -1;
static atomic_ulong requests[2];

static unsigned long number_of(const char *name)
{
	const char *text = getenv(name);

	return text ? strtoul(text, NULL, 10) : 0;
}

/* Until this has run, nothing is refused. */
__attribute__((constructor)) static void begin(void)
{
	refused = getenv("REFUSE_THREADS") ? THREAD : MEMORY;
	tell = (int)number_of("REFUSE_TELL");
	to = number_of("REFUSE_TO");
	from = number_of("REFUSE_FROM");
}

static bool refuses(enum kind kind)
{
	unsigned long number;

	if (kind != refused || from == 0)
		return false;
	number = atomic_fetch_add(&requests[kind], 1) + 1;
	if (number < from || number > to)
		return false;
	if (number == from && write(tell, "x", 1) != 1)
		_exit(99);
	return true;
}

/* The C library's own call of this name, looked up at its first use. */
#define NEXT(call) \
	static __typeof__(call) *_Atomic next; \
	if (!next) \
		next = (__typeof__(call) *)dlsym(RTLD_NEXT, #call)

void *malloc(size_t size)
{
	NEXT(malloc);
	if (refuses(MEMORY)) {
		errno = ENOMEM;
		return NULL;
	}
	return next(size);
}

void *calloc(size_t count, size_t size)
{
	NEXT(calloc);
	if (refuses(MEMORY)) {
		errno = ENOMEM;
		return NULL;
	}
	return next(count, size);
}

void *realloc(void *old, size_t size)
{
	NEXT(realloc);
	if (refuses(MEMORY)) {
		errno = ENOMEM;
		return NULL;
	}
	return next(old, size);
}

void *aligned_alloc(size_t align, size_t size)
{
	NEXT(aligned_alloc);
	if (refuses(MEMORY)) {
		errno = ENOMEM;
		return NULL;
	}
	return next(align, size);
}

int posix_memalign(void **out, size_t align, size_t size)
{
	NEXT(posix_memalign);
	if (refuses(MEMORY))
		return ENOMEM;
	return next(out, align, size);
}

int pthread_create(pthread_t *thread, const pthread_attr_t *attributes, void *(*run)(void *), void *argument)
{
	NEXT(pthread_create);
	if (refuses(THREAD))
		return EAGAIN;
	return next(thread, attributes, run, argument);
}
