/* The calls of a write's frames: the plain coder makes the same call on a copy, and what was written is read back and what was read is written back. */
#include "../plain_write.h"
#include "input.h"
#include "sonerwal.h"

#include <stdio.h>
#include <string.h>

enum { FIELDS = XFER_FIELDS }; /* the most that a frame has */

/* ---- The calls, over numbers in the order of the calls */

static uint8_t read_xfer(const uint8_t *frame, size_t len, uint64_t *f)
{
	struct sonerwal_xfer_rdy x = {0};
	uint8_t answer = sonerwal_xfer_rdy_get(&x, frame, len);
	const uint64_t fields[XFER_FIELDS] = {x.hashed_destination, x.hashed_source, x.retransmit, x.retry, x.tag, x.transfer, x.offset, x.length};
	memcpy(f, fields, sizeof fields);
	return answer;
}

static uint8_t write_xfer(const uint64_t *f, const uint8_t *body, uint8_t *frame, size_t len)
{
	(void)body;
	return sonerwal_xfer_rdy_write((uint32_t)f[0], (uint32_t)f[1], (uint8_t)f[2], (uint8_t)f[3], (uint16_t)f[4], (uint16_t)f[5],
	                               (uint32_t)f[6], (uint32_t)f[7], frame, len);
}

static uint8_t read_out(const uint8_t *frame, size_t len, uint64_t *f)
{
	struct sonerwal_data_out d = {0};
	uint8_t answer = sonerwal_data_out_get(&d, frame, len);
	const uint64_t fields[OUT_FIELDS] = {d.hashed_destination, d.hashed_source, d.changing, d.tag, d.transfer, d.offset, d.length};
	memcpy(f, fields, sizeof fields);
	return answer;
}

static uint8_t write_out(const uint64_t *f, const uint8_t *body, uint8_t *frame, size_t len)
{
	return sonerwal_data_out_write((uint32_t)f[0], (uint32_t)f[1], (uint8_t)f[2], (uint16_t)f[3], (uint16_t)f[4], (uint32_t)f[5], body,
	                               (size_t)f[6], frame, len);
}

static uint8_t read_response(const uint8_t *frame, size_t len, uint64_t *f)
{
	struct sonerwal_response r = {0};
	uint8_t answer = sonerwal_response_get(&r, frame, len);
	const uint64_t fields[RESPONSE_FIELDS] = {r.hashed_destination, r.hashed_source, r.retransmit, r.tag, r.present, r.status, r.length};
	memcpy(f, fields, sizeof fields);
	return answer;
}

static uint8_t write_response(const uint64_t *f, const uint8_t *body, uint8_t *frame, size_t len)
{
	return sonerwal_response_write((uint32_t)f[0], (uint32_t)f[1], (uint8_t)f[2], (uint16_t)f[3], (uint8_t)f[4], (uint8_t)f[5], body,
	                               (size_t)f[6], frame, len);
}

/* ---- Both sides */

struct kind {
	const char *name;
	size_t data_at, numbers; /* bytes before the data, and numbers before the data's length */
	unsigned widths[FIELDS];
	int has_data;
	uint8_t (*read)(const uint8_t *frame, size_t len, uint64_t *f);
	uint8_t (*write)(const uint64_t *f, const uint8_t *body, uint8_t *frame, size_t len);
	plain_faults (*plain_read)(const uint8_t *frame, size_t len, uint64_t *f);
	plain_faults (*plain_write)(const uint64_t *f, const uint8_t *body, uint8_t *frame, size_t len);
};

static const struct kind xfer = {"XFER_RDY", 36, 8, {4, 4, 1, 1, 2, 2, 4, 4}, 0, read_xfer, write_xfer, plain_xfer_read, plain_xfer_write};
static const struct kind out = {"data out", 24, 6, {4, 4, 1, 2, 2, 4}, 1, read_out, write_out, plain_out_read, plain_out_write};
static const struct kind response = {"RESPONSE",    48,            6, {4, 4, 1, 2, 1, 1}, 1, read_response, write_response, plain_response_read,
                                     plain_response_write};

static void require_of(int good, const struct kind *kind, const char *what)
{
	char words[80];
	snprintf(words, sizeof words, "%s %s", kind->name, what);
	require(good, words);
}

static uint8_t ours[ROOM + 64], plain[ROOM + 64], again[ROOM + 64];

static void try_read(const struct kind *kind, struct input *in)
{
	uint64_t got[FIELDS] = {0}, want[FIELDS] = {0};
	size_t len = (size_t)(in->end - in->at);
	len = len < ROOM ? len : ROOM;
	memcpy(ours, in->at, len);
	memcpy(plain, ours, sizeof ours);
	uint8_t answer = kind->read(ours, len, got);
	require_of(answer == plain_answer(kind->plain_read(plain, len, want)), kind, "read: another answer");
	require_of(memcmp(ours, plain, sizeof ours) == 0, kind, "read: the frame changed");
	require_of(memcmp(got, want, sizeof got) == 0, kind, "read: another field, or a refusal left one");
	if (answer == SONERWAL_OK) {
		require_of(kind->write(got, ours + kind->data_at, again, len) == SONERWAL_OK, kind, "read: it can't be written");
		require_of(memcmp(again, plain, len) == 0, kind, "read: writing gives other bytes");
	}
}

static void try_write(const struct kind *kind, struct input *in)
{
	uint64_t got[FIELDS] = {0}, f[FIELDS] = {0};
	uint8_t body[ROOM + 64];
	for (size_t i = 0; i < kind->numbers; i++) {
		f[i] = number(in, kind->widths[i]);
	}
	size_t len = (size_t)number(in, 2) % ROOM, left = (size_t)(in->end - in->at);
	size_t body_len = left < ROOM ? left : ROOM;
	memcpy(body, in->at, body_len);
	if (kind->has_data) {
		f[kind->numbers] = body_len;
	}
	memset(ours, NOISE, sizeof ours);
	memcpy(plain, ours, sizeof ours);
	uint8_t answer = kind->write(f, body, ours, len);
	require_of(answer == plain_answer(kind->plain_write(f, body, plain, len)), kind, "write: another answer");
	require_of(memcmp(ours, plain, sizeof ours) == 0, kind, "write: another byte");
	if (answer == SONERWAL_OK) {
		size_t size = kind->data_at + (kind->has_data ? (body_len + 3) / 4 * 4 : 0);
		require_of(kind->read(ours, size, got) == SONERWAL_OK && memcmp(got, f, sizeof f) == 0, kind, "write: it reads otherwise");
	}
}

void try_write_frame(struct input *in)
{
	static const struct kind *const kinds[] = {&xfer, &out, &response};
	uint64_t which = number(in, 1) % 6;
	(which % 2 ? try_write : try_read)(kinds[which / 2], in);
}
