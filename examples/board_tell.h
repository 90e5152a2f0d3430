/* How examples/board.c tells its day: a line for each event, with its time in microseconds. */
#ifndef SONERWAL_EXAMPLES_BOARD_TELL_H
#define SONERWAL_EXAMPLES_BOARD_TELL_H

#include <inttypes.h>
#include <stdbool.h>
#include <stdio.h>
#include <stdlib.h>

static uint64_t now;
static bool quiet; /* of the port and the links */

static void line(const char *who, const char *what)
{
	printf("%5" PRIu64 "  %-7s %-26s ", now, who, what);
}

static void must(bool holds, const char *what)
{
	if (!holds) {
		printf("%s\n", what);
		exit(EXIT_FAILURE);
	}
}

#endif
