/*
 * The two calls of a saved transfer against plain C of the same signatures, in nanoseconds for one call.
 *
 * Usage: saves [--strict]        --strict: exit 1 if a ratio is above its goal
 *
 * Both sides run in one process, by turns, over the same drains, whose lines are the longest that there are, through pointers to functions
 * of other files, so that neither is inlined. Both must have given the same answers, lines and transfers, or a row says nothing.
 */
#include "compare.h"
#include "plain_saved.h"

#include <string.h>

enum {
	DRAINS = 8, /* different transfers, gone through in turn */
	TURNS = 64
};

struct saver {
	__typeof__(sonerwal_transfer_save) *save;
	__typeof__(sonerwal_transfer_restore) *restore;
};

static const struct saver savers[SIDES] = {
	[PLAIN] = {plain_transfer_save, plain_transfer_restore},
	[OURS] = {sonerwal_transfer_save, sonerwal_transfer_restore},
};

static struct sonerwal_transfer drains[DRAINS], restored[SIDES][DRAINS];
static uint8_t lines[SIDES][DRAINS][SONERWAL_SAVED_ROOM], read[DRAINS][SONERWAL_SAVED_ROOM];

/* Ten digits in every offset and count, a million frames delivered. */
static struct sonerwal_transfer drain(uint32_t i)
{
	uint32_t offset = 1234567890 + 7 * i, size = 1024 - 4 * (i % 4), balance = offset + 1000003 * size;
	return (struct sonerwal_transfer){
		.offset = offset, .count = 3000000000 + i, .size = size, .resends = 255, .read = balance + 64 * size, .balance = balance,
		.unanswered = 20 + 5 * i, .used = 123 + i, .sent = 1, .phase = SONERWAL_PHASE_DRAIN,
	};
}

static void prepare(size_t size)
{
	(void)size;
	memset(restored, 0, sizeof restored);
	memset(lines, 0, sizeof lines);
	for (uint32_t i = 0; i < DRAINS; i++) {
		drains[i] = drain(i);
		plain_transfer_save(drains[i], SONERWAL_SAVED_FORM, read[i], SONERWAL_SAVED_ROOM);
	}
}

static int same(void)
{
	return memcmp(lines[PLAIN], lines[OURS], sizeof lines[PLAIN]) == 0 &&
	       memcmp(restored[PLAIN], restored[OURS], sizeof restored[PLAIN]) == 0;
}

/* ---- Rows: a number that each answer and length went into */

static uint64_t many_saves(enum side side)
{
	const struct saver *by = &savers[side];
	uint64_t sum = 0;
	for (int i = 0; i < DRAINS * TURNS; i++) {
		int at = i % DRAINS;
		struct sonerwal_saved saved = by->save(drains[at], SONERWAL_SAVED_FORM, lines[side][at], SONERWAL_SAVED_ROOM);
		sum = sum * 3 + saved.answer + saved.length;
	}
	return sum;
}

static uint64_t many_restores(enum side side)
{
	const struct saver *by = &savers[side];
	uint64_t sum = 0;
	for (int i = 0; i < DRAINS * TURNS; i++) {
		int at = i % DRAINS;
		struct sonerwal_transfer_step step = by->restore(read[at], SONERWAL_SAVED_ROOM);
		restored[side][at] = step.state;
		sum = sum * 3 + step.answer;
	}
	return sum;
}

static struct row rows[] = {
	{"save", many_saves, DRAINS * TURNS, 0, {0}},
	{"restore", many_restores, DRAINS * TURNS, 0, {0}},
};

int main(int argc, char **argv)
{
	struct bench saves = {"saved transfer's call", rows, sizeof rows / sizeof *rows, 1.50, prepare, same};
	return compare(&saves, argc, argv);
}
