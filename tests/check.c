#include "check.h"

#include <inttypes.h>
#include <stdarg.h>
#include <stdio.h>
#include <stdlib.h>
#include <string.h>

static uint64_t noise_state;
static unsigned long passed, failed;

void noise_begin(int argc, char **argv, uint64_t seed)
{
	noise_state = argc > 1 ? strtoull(argv[1], NULL, 0) : seed;
	printf("seed 0x%" PRIX64 "\n", noise_state);
}

/* splitmix64: one addition and a mix, good enough to spread cases and the same everywhere. */
uint64_t noise(void)
{
	uint64_t z = noise_state += UINT64_C(0x9E3779B97F4A7C15);
	z = (z ^ (z >> 30)) * UINT64_C(0xBF58476D1CE4E5B9);
	z = (z ^ (z >> 27)) * UINT64_C(0x94D049BB133111EB);
	return z ^ (z >> 31);
}

uint64_t noise_below(uint64_t bound)
{
	return noise() % bound;
}

void noise_fill(void *at, size_t count)
{
	uint8_t *byte = at;
	while (count > 0) {
		uint64_t word = noise();
		size_t part = count < sizeof word ? count : sizeof word;
		memcpy(byte, &word, part);
		byte += part;
		count -= part;
	}
}

/* Volatile, so that the stores stay though nobody reads them; of another file, so that no caller has it inside. */
void stain_stack(uint8_t pattern)
{
	volatile uint8_t stack[2048];
	for (size_t i = 0; i < sizeof stack; i++) {
		stack[i] = pattern;
	}
}

bool check(bool holds, const char *format, ...)
{
	if (holds) {
		passed++;
		return true;
	}
	failed++;
	va_list words;
	va_start(words, format);
	printf("FAILED: ");
	vprintf(format, words);
	printf("\n");
	va_end(words);
	return false;
}

int check_end(const char *name)
{
	printf("%s: %lu passed, %lu failed\n", name, passed, failed);
	return failed == 0 && passed > 0 && fflush(stdout) == 0 ? EXIT_SUCCESS : EXIT_FAILURE;
}
