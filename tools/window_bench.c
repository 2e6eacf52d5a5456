/* Times additions to words of shared memory, as `part_bench window` does, in plain C11.
 *
 *     cc -O2 -pthread tools/window_bench.c -o /tmp/window_bench && /tmp/window_bench
 *
 * Each line has the time of one addition as its thread sees it, the best and the median of many short runs, where 1, 2 and
 * 4 threads add to one word, to words beside each other, and to words that share no cache line. */
#include <pthread.h>
#include <stdatomic.h>
#include <stdint.h>
#include <stdio.h>
#include <stdlib.h>
#include <time.h>

enum { WORDS = 64, RUNS = 40, ADDS = 200000, MOST = 4 };

static _Alignas(128) atomic_uint_least64_t words[WORDS];

struct turn { size_t word; };

static void *add(void *argument)
{
	struct turn *turn = argument;
	for (int i = 0; i < ADDS; i++)
		atomic_fetch_add(&words[turn->word], 1);
	return NULL;
}

static double now(void)
{
	struct timespec t;
	clock_gettime(CLOCK_MONOTONIC, &t);
	return t.tv_sec * 1e9 + t.tv_nsec;
}

static int before(const void *a, const void *b)
{
	double x = *(const double *)a, y = *(const double *)b;
	return (x > y) - (x < y);
}

/* The nanoseconds of one addition in a run. The first turn is this thread's own. */
static double run(int threads, int stride)
{
	pthread_t others[MOST];
	struct turn turns[MOST];
	double start = now();
	for (int i = 0; i < threads; i++)
		turns[i].word = (size_t)i * stride;
	for (int i = 1; i < threads; i++)
		if (pthread_create(&others[i], NULL, add, &turns[i]))
			exit(1);
	add(&turns[0]);
	for (int i = 1; i < threads; i++)
		pthread_join(others[i], NULL);
	return (now() - start) / ADDS;
}

int main(void)
{
	static const struct { const char *name; int stride; } layouts[] = { { "one word", 0 }, { "words side by side", 1 }, { "words apart", 16 } };
	for (int l = 0; l < 3; l++)
		for (int threads = 1; threads <= MOST; threads *= 2) {
			double times[RUNS];
			for (int i = 0; i < RUNS; i++)
				times[i] = run(threads, layouts[l].stride);
			qsort(times, RUNS, sizeof *times, before);
			printf("%-18s  %d threads  c best %.1f ns  median %.1f ns\n", layouts[l].name, threads, times[0], times[RUNS / 2]);
		}
	return 0;
}
