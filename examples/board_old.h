/*
 * The rule of the firmware before, for examples/board.c: unanswered frames are counted in four bits, so that sixteen on the wire look
 * like none. It is here to be shown, and not to be used.
 */
#ifndef SONERWAL_EXAMPLES_BOARD_OLD_H
#define SONERWAL_EXAMPLES_BOARD_OLD_H

#include <stdbool.h>

#include "sonerwal.h"

enum { IMAGE = 1088, SIZE = 64 };

enum { NAK, ACK };

struct old_count {
	uint32_t read, balance;
	uint8_t unanswered;
	bool drain, done;
};

static uint32_t old_length(const struct old_count *o)
{
	uint32_t left = IMAGE - o->read;
	return o->drain || o->done ? 0 : left < SIZE ? left : SIZE;
}

/* With none unanswered all that went has arrived: that is the rule, and sixteen were none. */
static uint8_t old_settled(struct old_count *o)
{
	if (o->unanswered == 0) {
		o->balance = o->read;
		o->done = o->balance == IMAGE;
	}
	return o->done ? SONERWAL_DONE : SONERWAL_OK;
}

static uint8_t old_resend(struct old_count *o)
{
	o->read = o->balance;
	o->unanswered = 0;
	o->drain = false;
	return SONERWAL_RETRY;
}

static uint8_t old_answered(struct old_count *o, uint8_t answer)
{
	o->unanswered = (o->unanswered + 15) % 16;
	o->drain = o->drain || answer == NAK;
	if (!o->drain) {
		return old_settled(o);
	}
	return o->unanswered == 0 ? old_resend(o) : SONERWAL_DRAIN;
}

static uint8_t old_sent(struct old_count *o, uint32_t length)
{
	o->read += length;
	o->unanswered = (o->unanswered + 1) % 16;
	old_settled(o);
	return SONERWAL_SENT;
}

static uint8_t old_timed_out(struct old_count *o)
{
	old_settled(o);
	return old_resend(o);
}

#endif
