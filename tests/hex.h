/* Bytes written as hexadecimal digits, with blanks between the fields. */
#ifndef SONERWAL_TESTS_HEX_H
#define SONERWAL_TESTS_HEX_H

#include <stddef.h>
#include <stdint.h>

static inline uint8_t digit(char c)
{
	return (uint8_t)(c <= '9' ? c - '0' : c - 'A' + 10);
}

static inline size_t bytes_of(const char *hex, uint8_t *bytes)
{
	size_t digits = 0;
	for (; *hex; hex++) {
		if (*hex != ' ') {
			uint8_t high = digits % 2 ? bytes[digits / 2] : 0;
			bytes[digits / 2] = (uint8_t)(high * 16 + digit(*hex));
			digits++;
		}
	}
	return digits / 2;
}

#endif
