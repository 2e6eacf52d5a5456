/* Counts the memory that a program takes, and says on standard error when the program ends: how often it took some, how many
 * bytes it had when its first thread began, how many at the peak, and how many it had not given back.
 *
 *     cc -O2 -shared -fPIC tools/count_memory.c -o /tmp/count_memory.so
 *     LD_PRELOAD=/tmp/count_memory.so PROGRAM WORDS
 *
 * It stands before malloc, calloc, realloc and free, by which alone the programs here take memory (`nm -D PROGRAM`), and
 * counts the bytes that are asked for. What the C library maps by itself, as the stacks of threads, is not counted. */
#define _GNU_SOURCE
#include <dlfcn.h>
#include <errno.h>
#include <pthread.h>
#include <stdatomic.h>
#include <stddef.h>
#include <stdint.h>
#include <stdio.h>
#include <sys/syscall.h>
#include <unistd.h>

extern void *__libc_malloc(size_t);
extern void *__libc_calloc(size_t, size_t);
extern void *__libc_realloc(void *, size_t);
extern void __libc_free(void *);

/* Stands before each block: how many bytes were asked for. */
typedef union { size_t size; max_align_t align; } head;

static atomic_size_t taken, live, peak, at_thread;

static void count(size_t more, size_t less)
{
	size_t now = atomic_fetch_add(&live, more - less) + more - less;
	size_t most = atomic_load(&peak);
	while (most < now && !atomic_compare_exchange_weak(&peak, &most, now))
		;
}

/* The block behind this head, in the place of one of `was` bytes. */
static void *take(head *made, size_t size, size_t was)
{
	if (made == NULL)
		return NULL;
	made->size = size;
	atomic_fetch_add(&taken, 1);
	count(size, was);
	return made + 1;
}

static int is_much(size_t size)
{
	if (size <= PTRDIFF_MAX - sizeof(head))
		return 0;
	errno = ENOMEM;
	return 1;
}

void *malloc(size_t size)
{
	return is_much(size) ? NULL : take(__libc_malloc(size + sizeof(head)), size, 0);
}

void *calloc(size_t number, size_t each)
{
	size_t size;
	if (__builtin_mul_overflow(number, each, &size))
		size = SIZE_MAX;
	return is_much(size) ? NULL : take(__libc_calloc(1, size + sizeof(head)), size, 0);
}

void *realloc(void *block, size_t size)
{
	if (block == NULL)
		return malloc(size);
	head *had = (head *)block - 1;
	size_t was = had->size;
	return is_much(size) ? NULL : take(__libc_realloc(had, size + sizeof(head)), size, was);
}

void free(void *block)
{
	if (block == NULL)
		return;
	head *had = (head *)block - 1;
	count(0, had->size);
	__libc_free(had);
}

int pthread_create(pthread_t *thread, const pthread_attr_t *about, void *(*work)(void *), void *with)
{
	int (*begin)(pthread_t *, const pthread_attr_t *, void *(*)(void *), void *) = dlsym(RTLD_NEXT, "pthread_create");
	size_t none = 0;
	atomic_compare_exchange_strong(&at_thread, &none, atomic_load(&live));
	return begin(thread, about, work, with);
}

__attribute__((destructor)) static void tell(void)
{
	dprintf(2, "taken %zu times, with the first thread %zu bytes, peak %zu bytes, left %zu bytes\n", taken, at_thread, peak, live);
}

/* A program may end without its destructors. */
void _exit(int status)
{
	tell();
	for (;;)
		syscall(SYS_exit_group, status);
}
