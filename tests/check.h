/* What the host tests share: numbers that look random but repeat, and the count of what passed. */
#ifndef SONERWAL_TESTS_CHECK_H
#define SONERWAL_TESTS_CHECK_H

#include <stdbool.h>
#include <stddef.h>
#include <stdint.h>

/* The seed is the first argument if there is one, and is printed; one seed gives the same numbers on every machine. */
void noise_begin(int argc, char **argv, uint64_t seed);
uint64_t noise(void);
uint64_t noise_below(uint64_t bound);
void noise_fill(void *at, size_t count);

/* Fills the stack below the caller with a pattern, so that a byte that a call leaves unwritten shows. */
void stain_stack(uint8_t pattern);

/* One check of the program; a failed one says what was wrong on a line of its own. */
bool check(bool holds, const char *format, ...)
#ifdef __GNUC__
	__attribute__((format(printf, 2, 3)))
#endif
	;

/* Prints the last line, "NAME: N passed, M failed", and gives the program's exit status. */
int check_end(const char *name);

#endif
