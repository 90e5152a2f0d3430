/* The wire of examples/board.c: of so many one is hit, by a seed, so that each run tells the same. */
#ifndef SONERWAL_EXAMPLES_BOARD_WIRE_H
#define SONERWAL_EXAMPLES_BOARD_WIRE_H

#include <stdbool.h>
#include <stdint.h>

enum { HOST_HASH = 0x123456, BOARD_HASH = 0x654321 };

static uint32_t seed;

static bool one_in(unsigned n)
{
	seed = seed * 1664525u + 1013904223u;
	return (seed >> 16) % n == 0;
}

#endif
