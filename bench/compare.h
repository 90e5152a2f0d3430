/*
 * What a benchmark of two sides needs: both by turns in one process, the fastest of many rounds, and a table with
 * the ratios and a goal.
 */
#ifndef SONERWAL_BENCH_COMPARE_H
#define SONERWAL_BENCH_COMPARE_H

#include <stddef.h>
#include <stdint.h>

enum side { PLAIN, OURS, SIDES };

struct row {
	const char *name;
	uint64_t (*many)(enum side side); /* calls of one side, and the sum of what they answer */
	unsigned calls;                   /* how many that are */
	size_t size;                      /* the data's bytes */
	double best[SIDES];               /* nanoseconds for one call */
};

struct bench {
	const char *head; /* of the names */
	struct row *rows;
	size_t count;
	double goal;
	void (*prepare)(size_t size); /* before each row */
	int (*same)(void);            /* after each row, whether both sides left the same */
};

/* Measures every row and shows the table; gives the program's status, with --strict 1 if a ratio is above the goal. */
int compare(const struct bench *bench, int argc, char **argv);

/* Measures a plain call that hands a state over and back, which is part of both sides' times, and shows it. */
void show_crossing(const char *whose, uint64_t (*many)(void), unsigned calls);

#endif
