#include "plain_saved.h"

#include "plain_steps.h"

#include <string.h>

/* Document 02, request a). */

enum { COLUMNS = 10, PHASES = 6, DIGITS = 10 };

static const char words[PHASES][6] = {"new", "run", "drain", "done", "fail", "end"};

/* ---- Writing, where there is room for every line */

static uint8_t *put_number(uint8_t *at, uint32_t n)
{
	uint8_t digits[DIGITS];
	size_t count = 0;
	do {
		digits[count++] = (uint8_t)('0' + n % 10);
		n /= 10;
	} while (n > 0);
	while (count > 0) {
		*at++ = digits[--count];
	}
	return at;
}

static uint8_t *put_line(uint8_t *at, const struct sonerwal_transfer *s)
{
	const uint32_t columns[COLUMNS] = {SONERWAL_SAVED_FORM, s->offset,     s->count, s->size, s->resends, s->read,
	                                   s->balance,          s->unanswered, s->sent,  s->used};
	for (int i = 0; i < COLUMNS; i++) {
		at = put_number(at, columns[i]);
		*at++ = '\t';
	}
	size_t length = strlen(words[s->phase]);
	memcpy(at, words[s->phase], length);
	return at + length;
}

struct sonerwal_saved plain_transfer_save(struct sonerwal_transfer s, uint8_t form, uint8_t *line, size_t room)
{
	if (form != SONERWAL_SAVED_FORM) {
		return (struct sonerwal_saved){0, SONERWAL_REFUSED_UNLISTED};
	}
	if (room < SONERWAL_SAVED_ROOM) {
		return (struct sonerwal_saved){0, SONERWAL_REFUSED_LENGTH};
	}
	if (!plain_transfer_taken(&s)) {
		return (struct sonerwal_saved){0, SONERWAL_REFUSED_RULES};
	}
	return (struct sonerwal_saved){(size_t)(put_line(line, &s) - line), SONERWAL_OK};
}

/* ---- Reading: a place that moves on to the end of the line */

struct place {
	const uint8_t *at, *end;
};

static bool digit_next(const struct place *p)
{
	return p->at < p->end && *p->at >= '0' && *p->at <= '9';
}

/* Digits without a leading zero, and the tab behind them. */
static bool read_column(struct place *p, uint32_t *column)
{
	const uint8_t *first = p->at;
	uint64_t n = 0;
	while (digit_next(p) && n <= UINT32_MAX) {
		n = n * 10 + (*p->at++ - '0');
	}
	size_t digits = (size_t)(p->at - first);
	*column = (uint32_t)n;
	return digits > 0 && n <= UINT32_MAX && (*first != '0' || digits == 1) && p->at < p->end && *p->at++ == '\t';
}

static bool read_phase(const struct place *p, uint8_t *phase)
{
	size_t length = (size_t)(p->end - p->at);
	for (*phase = 0; *phase < PHASES; ++*phase) {
		if (length == strlen(words[*phase]) && memcmp(p->at, words[*phase], length) == 0) {
			return true;
		}
	}
	return false;
}

static bool read_line(struct place p, struct sonerwal_transfer *s)
{
	uint32_t columns[COLUMNS];
	for (int i = 0; i < COLUMNS; i++) {
		if (!read_column(&p, &columns[i])) {
			return false;
		}
	}
	*s = (struct sonerwal_transfer){columns[1], columns[2], columns[3], columns[4], columns[5], columns[6], columns[7],
	                                columns[9], 0, (uint8_t)columns[8], 0};
	return columns[0] == SONERWAL_SAVED_FORM && columns[8] <= 1 && read_phase(&p, &s->phase);
}

struct sonerwal_transfer_step plain_transfer_restore(const uint8_t *line, size_t length)
{
	struct sonerwal_transfer s;
	if (read_line((struct place){line, line + length}, &s) && plain_transfer_taken(&s)) {
		return (struct sonerwal_transfer_step){s, SONERWAL_OK};
	}
	return (struct sonerwal_transfer_step){{0}, SONERWAL_REFUSED_UNLISTED};
}
