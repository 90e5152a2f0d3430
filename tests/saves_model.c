#include "saves_model.h"

#include "steps_reach.h"

#include <inttypes.h>
#include <stdio.h>
#include <stdlib.h>
#include <string.h>

enum { COLUMNS = 10, PHASES = 6 };

/* 02 a.2: the words; the last stands for a phase that has none */
static const char *const words[PHASES + 1] = {"new", "run", "drain", "done", "fail", "end", "?"};

#define NUMBER "%" PRIu32 "\t"

/* 02 a.2: the order */
struct line line_of(const struct sonerwal_transfer *s)
{
	struct line line;
	char text[MOST_LINE];
	int length = snprintf(text, sizeof text, "1\t" NUMBER NUMBER NUMBER NUMBER NUMBER NUMBER NUMBER "%d\t" NUMBER "%s", s->offset, s->count,
	                      s->size, s->resends, s->read, s->balance, s->unanswered, s->sent, s->used,
	                      words[s->phase < PHASES ? s->phase : PHASES]);
	memcpy(line.bytes, text, (size_t)length);
	line.length = (size_t)length;
	return line;
}

/* Whatever blanks, signs and zeros stand before a number, and however large it is. */
static void read_loosely(char *at, struct sonerwal_transfer *s)
{
	uint32_t n[COLUMNS];
	for (int i = 0; i < COLUMNS; i++) {
		n[i] = (uint32_t)strtoull(at, &at, 10);
	}
	at += *at == '\t';
	*s = (struct sonerwal_transfer){.offset = n[1], .count = n[2], .size = n[3], .resends = n[4], .read = n[5], .balance = n[6],
	                                .unanswered = n[7], .sent = (uint8_t)n[8], .used = n[9]};
	while (s->phase < PHASES && strcmp(at, words[s->phase]) != 0) {
		s->phase++;
	}
}

/* 02 a.3 */
bool line_taken(const uint8_t *line, size_t length, struct sonerwal_transfer *s)
{
	char text[MOST_LINE + 1];
	struct model t;
	if (length > MOST_LINE) {
		return false;
	}
	memcpy(text, line, length);
	text[length] = '\0';
	read_loosely(text, s);
	struct line again = line_of(s);
	return again.length == length && memcmp(again.bytes, line, length) == 0 && reached(s, &t);
}
