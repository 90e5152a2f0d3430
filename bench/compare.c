#define _POSIX_C_SOURCE 200809L

#include "compare.h"

#include <stdio.h>
#include <stdlib.h>
#include <string.h>
#include <time.h>

enum { ROUNDS = 1000 };

static double nanoseconds(void)
{
	struct timespec now;
	clock_gettime(CLOCK_MONOTONIC, &now);
	return (double)now.tv_sec * 1e9 + (double)now.tv_nsec;
}

static uint64_t measure_side(struct row *row, enum side side)
{
	double start = nanoseconds();
	uint64_t answers = row->many(side);
	double each = (nanoseconds() - start) / row->calls;
	if (row->best[side] == 0 || each < row->best[side]) {
		row->best[side] = each;
	}
	return answers;
}

/*
 * Of many rounds the fastest counts, since whatever disturbs a round makes it slower. Who goes first changes with
 * each round.
 */
static void measure(const struct bench *bench, struct row *row)
{
	bench->prepare(row->size);
	for (int round = 0; round < ROUNDS; round++) {
		enum side first = round % 2 ? OURS : PLAIN;
		uint64_t answers = measure_side(row, first);
		if (answers != measure_side(row, first == PLAIN ? OURS : PLAIN)) {
			fprintf(stderr, "bench: %s: the two sides answer differently\n", row->name);
			exit(2);
		}
	}
	if (!bench->same()) {
		fprintf(stderr, "bench: %s: the two sides give different results\n", row->name);
		exit(2);
	}
}

static double ratio(const struct row *row)
{
	return row->best[OURS] / row->best[PLAIN];
}

/* The table; gives how many rows miss the goal. */
static int show(const struct bench *bench)
{
	int missed = 0;
	printf("%-24s %10s %10s %8s  at most %.2f\n", bench->head, "plain, ns", "ours, ns", "ratio", bench->goal);
	for (size_t i = 0; i < bench->count; i++) {
		const struct row *row = &bench->rows[i];
		int misses = ratio(row) > bench->goal;
		missed += misses;
		printf("%-24s %10.2f %10.2f %8.2f  %s\n", row->name, row->best[PLAIN], row->best[OURS], ratio(row),
		       misses ? "no" : "yes");
	}
	return missed;
}

int compare(const struct bench *bench, int argc, char **argv)
{
	int strict = argc > 1 && strcmp(argv[1], "--strict") == 0;
	for (size_t i = 0; i < bench->count; i++) {
		measure(bench, &bench->rows[i]);
	}
	int missed = show(bench);
	if (missed == 0) {
		printf("goal %.2f: every ratio is at most that\n", bench->goal);
	} else {
		printf("goal %.2f: missed by %d of %d ratios\n", bench->goal, missed, (int)bench->count);
	}
	return strict && missed ? EXIT_FAILURE : EXIT_SUCCESS;
}

/* What nobody reads, and no compiler may leave out. */
static volatile uint64_t sink;

void show_crossing(const char *whose, uint64_t (*many)(void), unsigned calls)
{
	double best = 0;
	for (int round = 0; round < ROUNDS; round++) {
		double start = nanoseconds();
		sink = many();
		double each = (nanoseconds() - start) / calls;
		best = best == 0 || each < best ? each : best;
	}
	printf("crossing, ns: %.2f of a %s call in plain C that only takes the state and gives it back\n", best, whose);
}
