/*
 * Drives the fuzz target where libFuzzer can't be had: inputs that are noise, frames that begin well with a few bytes off, calls that
 * a transfer, a link, a port, a write or a reply takes, and saved lines with a few bytes off.
 *
 * usage: driver RUNS
 */
#include <stddef.h>
#include <stdint.h>
#include <stdio.h>
#include <stdlib.h>
#include <string.h>

enum { LONGEST = 1100 };

int LLVMFuzzerTestOneInput(const uint8_t *bytes, size_t len);

static uint64_t seed = 88172645463325252u;

static uint64_t below(uint64_t n)
{
	seed ^= seed << 13;
	seed ^= seed >> 7;
	seed ^= seed << 17;
	return seed % n;
}

static void spoil(uint8_t *bytes)
{
	for (uint64_t off = below(3); off > 0; off--) {
		bytes[1 + below(28)] ^= (uint8_t)(1u << below(8));
	}
}

static size_t length(void)
{
	return below(3) ? 29 + 4 * below(260) : below(LONGEST);
}

static size_t make_open(uint8_t *bytes)
{
	static const uint8_t open[] = {0, 0x91, 0x08};
	memcpy(bytes, open, sizeof open);
	spoil(bytes);
	return below(8) ? 29 : length();
}

static size_t make_data(uint8_t *bytes)
{
	static const uint8_t data[] = {2, 1, 0, 0, 0, 0, 0, 0, 0, 0, 0, 0, 0, 0, 0, 0, 0, 0, 0, 0xFF, 0xFF};
	memset(bytes, 0, LONGEST);
	memcpy(bytes, data, sizeof data);
	spoil(bytes);
	return length();
}

/* START for some hundred bytes in frames of 4 with few resends, and calls; START and next-frame are 7 and 8, and rare. */
static size_t make_transfer(uint8_t *bytes)
{
	static const uint8_t transfer[] = {4, 0, 7, 0, 0, 0, 0, 0, 0, 1, 0, 0, 4, 0, 3};
	size_t len = sizeof transfer + below(200);
	memcpy(bytes, transfer, sizeof transfer);
	for (size_t i = sizeof transfer; i < len; i++) {
		bytes[i] = (uint8_t)(below(4) ? below(2) : below(8) ? below(5) : below(256));
	}
	return len;
}

/* A link in XL0, and events that mostly have a name; a frame beside one has OPEN's fields. */
static size_t make_link(uint8_t *bytes)
{
	static const uint8_t kinds[] = {1, 2, 3, 4, 5, 6, 16, 17, 18, 19, 20, 21, 22, 23, 32, 33, 34, 35, 48, 49, 50, 51, 63, 0};
	size_t at = 0;
	bytes[at++] = 5;
	bytes[at++] = 0;
	while (at < 900) {
		uint8_t kind = kinds[below(sizeof kinds)];
		bytes[at++] = kind;
		bytes[at++] = (uint8_t)(kind == 3 || kind == 4 || kind == 19 || kind == 21 || kind == 34 || kind == 35 ? below(4) : 0);
		if (kind == 1 || kind == 16 || kind == 23) {
			memset(bytes + at, (int)below(3), 26);
			bytes[at + 26] = (uint8_t)below(2);
			bytes[at + 27] = (uint8_t)below(3);
			bytes[at + 28] = (uint8_t)below(16);
			bytes[at + 29] = (uint8_t)(8 + below(3));
			at += 32;
		}
	}
	return at;
}

/* A port before setup, and calls on it, of which each takes seven bytes; setups and spoilt bytes are rare. */
static size_t make_port(uint8_t *bytes)
{
	static const uint8_t port[] = {6, 0, 0, 0, 1, 3, 0, 0, 0};
	size_t len = sizeof port + 7 * below(140);
	memcpy(bytes, port, sizeof port);
	for (size_t i = sizeof port; i < len; i += 7) {
		bytes[i] = (uint8_t)(below(60) ? 0 : below(256));
		bytes[i + 1] = (uint8_t)(below(40) ? 1 + below(9) : 0);
		bytes[i + 2] = (uint8_t)(below(4) ? below(32) : below(256));
		bytes[i + 3] = (uint8_t)below(5);
	}
	return len;
}

/* START for 64 bytes in ranges of 16 with many retries, and calls; bytes above 5 are START and those with arguments. */
static size_t make_write(uint8_t *bytes)
{
	static const uint8_t write[] = {8, 0, 6, 0, 0, 0, 0, 0, 0, 0, 64, 0, 0, 0, 16, 20};
	static const uint8_t xfer[] = {7, 0, 0, 0, 0, 0, 0, 0, 0}, got[] = {8, 0, 0, 0, 8}, take[] = {10, 0, 0, 0, 0, 0, 8, 0, 0, 0};
	size_t at = sizeof write;
	memcpy(bytes, write, sizeof write);
	while (at < 900) {
		const uint8_t *call = below(3) ? xfer : below(2) ? got : take;
		size_t len = call == xfer ? sizeof xfer : call == got ? sizeof got : sizeof take;
		memcpy(bytes + at, call, len);
		at += len;
		bytes[at++] = (uint8_t)(below(8) ? below(4) ? 0 : 1 : below(11));
	}
	return at;
}

/* START with few resends, and calls; RESPONSEs mostly without data. */
static size_t make_reply(uint8_t *bytes)
{
	static const uint8_t reply[] = {9, 0, 6, 0, 3};
	size_t len = sizeof reply + below(200);
	memcpy(bytes, reply, sizeof reply);
	for (size_t i = sizeof reply; i < len; i++) {
		bytes[i] = (uint8_t)(below(4) ? below(8) : 0);
	}
	return len;
}

static size_t make_saved(uint8_t *bytes)
{
	static const char letters[] = "0123456789\t\nrunewdailo";
	static const char saved[] = "1\t100\t50\t8\t3\t140\t116\t3\t1\t2\trun";
	bytes[0] = 10;
	memcpy(bytes + 1, saved, sizeof saved - 1);
	for (uint64_t off = below(4); off > 0; off--) {
		bytes[1 + below(sizeof saved - 1)] = (uint8_t)letters[below(sizeof letters - 1)];
	}
	return sizeof saved - (below(8) ? 0 : below(sizeof saved));
}

static size_t make(uint8_t *bytes)
{
	for (size_t i = 0; i < LONGEST; i++) {
		bytes[i] = (uint8_t)below(256);
	}
	size_t len = length();
	switch (below(12)) {
	case 0: len = make_open(bytes); break;
	case 1: len = make_data(bytes); break;
	case 2: len = make_transfer(bytes); break;
	case 3: len = make_link(bytes); break;
	case 4: len = make_port(bytes); break;
	case 5: len = make_write(bytes); break;
	case 6: len = make_reply(bytes); break;
	case 7: len = make_saved(bytes); break;
	default: break;
	}
	return len < LONGEST ? len : LONGEST;
}

int main(int argc, char **argv)
{
	uint8_t bytes[LONGEST];
	unsigned long runs = argc == 2 ? strtoul(argv[1], NULL, 10) : 0;
	if (runs == 0) {
		fprintf(stderr, "usage: driver RUNS\n");
		return 2;
	}
	for (unsigned long i = 0; i < runs; i++) {
		LLVMFuzzerTestOneInput(bytes, make(bytes));
	}
	printf("Done %lu runs\n", runs);
	return EXIT_SUCCESS;
}
