/*
 * One input is one of the frame calls of libsonerwal.a (a write's in write_frames.c), or calls on a transfer or a link (machines.c), on a port
 * (port.c), on a write or a reply (writes.c), or one of the two of a saved transfer (saves.c): its first byte says which, the rest are its fields
 * and bytes. The plain coder makes the same call on a copy, and the answer and every lent byte and number must be the same; what was written must
 * be read back.
 */
#include "../plain.h"
#include "input.h"
#include "sonerwal.h"

#include <stdio.h>
#include <stdlib.h>
#include <string.h>

/* ---- The input */

void require(int good, const char *what)
{
	if (!good) {
		fprintf(stderr, "fuzz: %s\n", what);
		abort();
	}
}

uint64_t number(struct input *in, unsigned bytes)
{
	uint64_t n = 0;
	while (bytes--) {
		n = n << 8 | (in->at < in->end ? *in->at++ : 0);
	}
	return n;
}

void fill(struct input *in, void *to, size_t len)
{
	for (size_t i = 0; i < len; i++) {
		((uint8_t *)to)[i] = (uint8_t)number(in, 1);
	}
}

size_t rest(struct input *in, uint8_t *to)
{
	size_t len = (size_t)(in->end - in->at);
	len = len < ROOM ? len : ROOM;
	memcpy(to, in->at, len);
	return len;
}

/* ---- The calls */

static uint8_t read_open(const uint8_t *frame, size_t len, uint64_t f[OPEN_FIELDS])
{
	struct sonerwal_open open;
	memset(&open, NOISE, sizeof open);
	struct sonerwal_open before = open;
	uint8_t answer = sonerwal_open_get(&open, frame, len);
	require(answer == SONERWAL_OK || memcmp(&open, &before, sizeof open) == 0, "a refused OPEN left numbers");
	uint64_t fields[OPEN_FIELDS] = {open.initiator, open.protocol, open.features, open.rate, open.tag,
	                                open.destination, open.source, open.pbc, open.awt};
	memcpy(f, fields, sizeof fields);
	return answer;
}

static uint8_t write_open(const uint64_t f[OPEN_FIELDS], uint8_t *frame, size_t len)
{
	return sonerwal_open_write((uint8_t)f[OPEN_INITIATOR], (uint8_t)f[OPEN_PROTOCOL], (uint8_t)f[OPEN_FEATURES],
	                      (uint8_t)f[OPEN_RATE], (uint16_t)f[OPEN_TAG], f[OPEN_DESTINATION], f[OPEN_SOURCE],
	                      (uint8_t)f[OPEN_PBC], (uint16_t)f[OPEN_AWT], frame, len);
}

static uint8_t read_data(const uint8_t *frame, size_t len, uint64_t f[DATA_FIELDS])
{
	struct sonerwal_data data;
	memset(&data, NOISE, sizeof data);
	struct sonerwal_data before = data;
	uint8_t answer = sonerwal_data_get(&data, frame, len);
	require(answer == SONERWAL_OK || memcmp(&data, &before, sizeof data) == 0, "a refused DATA left numbers");
	uint64_t fields[DATA_FIELDS] = {data.hashed_destination, data.hashed_source, data.changing,
	                                data.tag, data.offset, data.length};
	memcpy(f, fields, sizeof fields);
	return answer;
}

static uint8_t write_data(const uint64_t f[DATA_FIELDS], const uint8_t *body, uint8_t *frame, size_t len)
{
	return sonerwal_data_write((uint32_t)f[DATA_HASHED_DESTINATION], (uint32_t)f[DATA_HASHED_SOURCE],
	                      (uint8_t)f[DATA_CHANGING], (uint16_t)f[DATA_TAG], (uint32_t)f[DATA_OFFSET], body,
	                      f[DATA_LENGTH], frame, len);
}

/* ---- Both sides */

static uint8_t ours[ROOM + 64], plain[ROOM + 64];

static void try_open_read(struct input *in)
{
	uint64_t got[OPEN_FIELDS], want[OPEN_FIELDS];
	size_t len = rest(in, ours);
	memcpy(plain, ours, sizeof ours);
	uint8_t answer = read_open(ours, len, got);
	plain_faults faults = plain_open_read(plain, len, want);
	require(answer == plain_answer(faults), "OPEN read: another answer");
	require(memcmp(ours, plain, sizeof ours) == 0, "OPEN read: the frame changed");
	if (answer == SONERWAL_OK) {
		require(memcmp(got, want, sizeof got) == 0, "OPEN read: another field");
		require(write_open(got, ours, len) == SONERWAL_OK, "OPEN read: it can't be written");
		plain[20] = plain[24] = plain[25] = plain[26] = plain[27] = 0;
		require(memcmp(ours, plain, sizeof ours) == 0, "OPEN read: writing gives other bytes");
	}
}

static void try_open_write(struct input *in)
{
	uint64_t got[OPEN_FIELDS], f[OPEN_FIELDS];
	static const unsigned widths[OPEN_FIELDS] = {1, 1, 1, 1, 2, 8, 8, 1, 2};
	size_t len = number(in, 1) % 4 ? SONERWAL_OPEN_SIZE : number(in, 1);
	for (int i = 0; i < OPEN_FIELDS; i++) {
		f[i] = number(in, widths[i]);
	}
	memset(ours, NOISE, sizeof ours);
	memcpy(plain, ours, sizeof ours);
	uint8_t answer = write_open(f, ours, len);
	require(answer == plain_answer(plain_open_write(f, plain, len)), "OPEN write: another answer");
	require(memcmp(ours, plain, sizeof ours) == 0, "OPEN write: another byte");
	if (answer == SONERWAL_OK) {
		require(read_open(ours, len, got) == SONERWAL_OK && memcmp(got, f, sizeof f) == 0, "OPEN write: it reads otherwise");
	}
}

static void try_data_read(struct input *in)
{
	uint64_t got[DATA_FIELDS], want[DATA_FIELDS];
	uint8_t again[ROOM + 64];
	size_t len = rest(in, ours);
	memcpy(plain, ours, sizeof ours);
	uint8_t answer = read_data(ours, len, got);
	plain_faults faults = plain_data_read(plain, len, want);
	require(answer == plain_answer(faults), "DATA read: another answer");
	require(memcmp(ours, plain, sizeof ours) == 0, "DATA read: the frame changed");
	if (answer == SONERWAL_OK) {
		require(memcmp(got, want, sizeof got) == 0, "DATA read: another field");
		require(write_data(got, ours + SONERWAL_DATA_HEADER_SIZE, again, len) == SONERWAL_OK, "DATA read: it can't be written");
		require(memcmp(again, plain, len) == 0, "DATA read: writing gives other bytes");
	}
}

static void try_data_write(struct input *in)
{
	uint64_t got[DATA_FIELDS], f[DATA_FIELDS];
	uint8_t body[ROOM + 64];
	f[DATA_HASHED_DESTINATION] = number(in, 4);
	f[DATA_HASHED_SOURCE] = number(in, 4);
	f[DATA_CHANGING] = number(in, 1);
	f[DATA_TAG] = number(in, 2);
	f[DATA_OFFSET] = number(in, 4);
	size_t len = number(in, 2) % ROOM;
	f[DATA_LENGTH] = rest(in, body);
	memset(ours, NOISE, sizeof ours);
	memcpy(plain, ours, sizeof ours);
	uint8_t answer = write_data(f, body, ours, len);
	require(answer == plain_answer(plain_data_write(f, body, plain, len)), "DATA write: another answer");
	require(memcmp(ours, plain, sizeof ours) == 0, "DATA write: another byte");
	if (answer == SONERWAL_OK) {
		require(read_data(ours, sonerwal_data_size(f[DATA_LENGTH]), got) == SONERWAL_OK && memcmp(got, f, sizeof f) == 0,
		        "DATA write: it reads otherwise");
	}
}

int LLVMFuzzerTestOneInput(const uint8_t *bytes, size_t len);

int LLVMFuzzerTestOneInput(const uint8_t *bytes, size_t len)
{
	static void (*const calls[])(struct input *) = {try_open_read, try_open_write, try_data_read, try_data_write, try_transfer, try_link,
	                                               try_port, try_write_frame, try_writes, try_replies, try_restore, try_save};
	struct input in = {bytes, bytes + len};
	calls[number(&in, 1) % (sizeof calls / sizeof *calls)](&in);
	return 0;
}
