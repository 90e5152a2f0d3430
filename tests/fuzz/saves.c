/*
 * A line of any bytes is restored, and a transfer of any bytes is saved in any form into any room. The plain C of bench/ makes the same
 * call: answer, length, state and every lent byte must be the same. What is taken saves back to the same bytes, and what is saved is
 * taken as the same transfer.
 */
#include "../../bench/plain_saved.h"
#include "input.h"

#include <string.h>

static struct sonerwal_transfer_step restore(const uint8_t *line, size_t len)
{
	static const struct sonerwal_transfer before_start;
	struct sonerwal_transfer_step got = sonerwal_transfer_restore(line, len), want = plain_transfer_restore(line, len);
	require(got.answer == want.answer, "restore: another answer");
	require(memcmp(&got.state, &want.state, sizeof got.state) == 0, "restore: another state");
	require(got.answer == SONERWAL_OK || memcmp(&got.state, &before_start, sizeof got.state) == 0, "restore: a refusal gave a state");
	return got;
}

void try_saved(const struct sonerwal_transfer *s, uint8_t form, size_t room)
{
	uint8_t ours[ROOM], plain[ROOM];
	memset(ours, NOISE, sizeof ours);
	memset(plain, NOISE, sizeof plain);
	struct sonerwal_saved got = sonerwal_transfer_save(*s, form, ours, room), want = plain_transfer_save(*s, form, plain, room);
	require(got.answer == want.answer, "save: another answer");
	require(got.length == want.length, "save: another length");
	require(memcmp(ours, plain, sizeof ours) == 0, "save: another byte");
	if (got.answer == SONERWAL_OK) {
		struct sonerwal_transfer_step step = restore(ours, got.length);
		require(step.answer == SONERWAL_OK && memcmp(&step.state, s, sizeof *s) == 0, "save: it restores otherwise");
	}
}

void try_restore(struct input *in)
{
	uint8_t line[ROOM], before[ROOM], again[SONERWAL_SAVED_ROOM];
	size_t len = rest(in, line);
	memcpy(before, line, len);
	struct sonerwal_transfer_step step = restore(line, len);
	require(memcmp(line, before, len) == 0, "restore: the line changed");
	if (step.answer == SONERWAL_OK) {
		struct sonerwal_saved saved = sonerwal_transfer_save(step.state, SONERWAL_SAVED_FORM, again, sizeof again);
		require(saved.answer == SONERWAL_OK && saved.length == len && memcmp(again, line, len) == 0, "restore: it saves otherwise");
	}
}

void try_save(struct input *in)
{
	struct sonerwal_transfer s;
	uint8_t off = (uint8_t)number(in, 1);
	uint8_t form = off % 4 == 1 ? (uint8_t)number(in, 1) : SONERWAL_SAVED_FORM;
	size_t room = off % 4 == 2 ? number(in, 2) % ROOM : SONERWAL_SAVED_ROOM;
	fill(in, &s, sizeof s);
	try_saved(&s, form, room);
}
