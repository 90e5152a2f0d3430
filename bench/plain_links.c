#include "plain_links.h"

#include <stdbool.h>

/* Document 01, 'XL', as a table of rows that one function walks, with the state changed in place. */

enum { STATES = 11, KINDS = 64 };

/* What is done besides going on to another state. */
enum op { KEEP, HOLD, HEAR, SEE, NOTE_BREAK, NOTE_CLOSE, NOTE_BLOCKED, TIMER, FORWARD, CROSS, SENT_IN_5, CLOSE_IN_7 };

enum { STAY = 15 };

struct row {
	uint8_t listed, op, to, action;
};

/* The names without what they all begin with, so that a row is a line. */
#define ON(kind) [SONERWAL_KIND_##kind]
#define DO(kind) SONERWAL_KIND_##kind

static const struct row table[STATES][KINDS] = {
	[0] = {ON(OPEN) = {1, HOLD, 1, 0}, ON(SEND_OPEN) = {1, HOLD, 5, DO(OPEN)}},
	[1] = {ON(ARB_WON) = {1, KEEP, 2, DO(SEND_OPEN)}, ON(ARB_LOST) = {1, KEEP, 0, 0},
	       ON(ARB_REJECT) = {1, KEEP, 4, DO(OPEN_REJECT)}, ON(ARBITRATING) = {1, NOTE_BLOCKED, STAY, DO(AIP)},
	       ON(PATH_TIMER) = {1, TIMER, STAY, 0}, ON(BREAK) = {1, KEEP, 9, 0}},
	[2] = {ON(BREAK) = {1, NOTE_BREAK, STAY, 0}, ON(FORWARDED) = {1, FORWARD, 3, 0}},
	[3] = {ON(ARB_STATUS) = {1, SEE, STAY, DO(AIP)}, ON(ROUTER_OPEN_ACCEPT) = {1, KEEP, 7, DO(OPEN_ACCEPT)},
	       ON(ROUTER_OPEN_REJECT) = {1, KEEP, 0, DO(OPEN_REJECT)}, ON(BACKOFF_RETRY) = {1, KEEP, 1, 0},
	       ON(BACKOFF_REVERSE_PATH) = {1, HOLD, 5, DO(OPEN)}, ON(BREAK) = {1, KEEP, 9, DO(SEND_BREAK)},
	       ON(SEND_BREAK) = {1, KEEP, 10, 0}},
	[4] = {ON(SENT) = {1, KEEP, 0, 0}},
	[5] = {ON(OPEN) = {1, HEAR, STAY, 0}, ON(BREAK) = {1, NOTE_BREAK, STAY, 0}, ON(SENT) = {1, SENT_IN_5, 6, 0}},
	[6] = {ON(OPEN_ACCEPT) = {1, KEEP, 7, DO(ROUTER_OPEN_ACCEPT)}, ON(OPEN_REJECT) = {1, KEEP, 0, DO(ROUTER_OPEN_REJECT)},
	       ON(AIP) = {1, SEE, STAY, DO(ARB_STATUS)}, ON(OPEN) = {1, CROSS, STAY, 0},
	       ON(BREAK) = {1, KEEP, 9, DO(SEND_BREAK)}, ON(SEND_BREAK) = {1, KEEP, 10, 0}},
	[7] = {ON(CLOSE) = {1, NOTE_CLOSE, STAY, DO(SEND_CLOSE)}, ON(SEND_CLOSE) = {1, CLOSE_IN_7, 8, DO(CLOSE)},
	       ON(BREAK) = {1, KEEP, 9, DO(SEND_BREAK)}, ON(SEND_BREAK) = {1, KEEP, 10, 0}},
	[8] = {ON(CLOSE) = {1, KEEP, 0, DO(SEND_CLOSE)}, ON(BREAK) = {1, KEEP, 9, DO(SEND_BREAK)}, ON(SEND_BREAK) = {1, KEEP, 10, 0}},
	[9] = {ON(SENT) = {1, KEEP, 0, 0}},
	[10] = {ON(BREAK) = {1, KEEP, 0, 0}, ON(BREAK_TIMEOUT) = {1, KEEP, 0, 0}},
};

/* How many details an event of each kind has; 0 where there is no such event. */
static const uint8_t details[KINDS] = {
	ON(OPEN) = 1, ON(OPEN_ACCEPT) = 1, ON(OPEN_REJECT) = 8, ON(AIP) = 4, ON(CLOSE) = 1, ON(BREAK) = 1, ON(SEND_OPEN) = 1,
	ON(SEND_CLOSE) = 1, ON(SEND_BREAK) = 1, ON(ARB_STATUS) = 4, ON(ROUTER_OPEN_ACCEPT) = 1, ON(ROUTER_OPEN_REJECT) = 8,
	ON(BACKOFF_RETRY) = 1, ON(BACKOFF_REVERSE_PATH) = 1, ON(ARB_WON) = 1, ON(ARB_LOST) = 1, ON(ARB_REJECT) = 4,
	ON(ARBITRATING) = 3, ON(PATH_TIMER) = 1, ON(SENT) = 1, ON(FORWARDED) = 1, ON(BREAK_TIMEOUT) = 1, ON(DISABLE) = 1,
};

static const uint8_t reject_for[4] = {SONERWAL_REJECT_NO_DESTINATION, SONERWAL_REJECT_BAD_DESTINATION,
                                      SONERWAL_REJECT_CONNECTION_RATE, SONERWAL_REJECT_PATHWAY_BLOCKED};

static const struct sonerwal_open no_frame;

/* ---- The tests */

static bool listed(const struct sonerwal_open *open)
{
	return open->initiator < 2 && open->protocol < 3 && open->features < 16 && open->rate >= 8 && open->rate < 11;
}

static bool unused(const struct sonerwal_open *open)
{
	return (open->destination | open->source | open->zero4 | open->tag | open->awt | open->zero2 | open->initiator |
	        open->protocol | open->features | open->rate | open->pbc | open->zero1) == 0;
}

/* A frame of a lent link, with the byte that says whether it is there. */
static bool frame_fits(uint8_t has, const struct sonerwal_open *open)
{
	if (has > 1 || (open->zero4 | open->zero2 | open->zero1) != 0) {
		return false;
	}
	return has ? listed(open) : unused(open);
}

static bool keeps_rules(const struct sonerwal_link *s)
{
	return s->phase < STATES && s->aip <= 4 && (s->broke | s->close | s->blocked) <= 1 && (s->zero4 | s->zero1) == 0 &&
	       frame_fits(s->has_held, &s->held) && frame_fits(s->has_heard, &s->heard) &&
	       (s->phase < 1 || s->phase > 6 || s->has_held);
}

static bool brings_frame(uint8_t kind)
{
	return kind == SONERWAL_KIND_OPEN || kind == SONERWAL_KIND_SEND_OPEN || kind == SONERWAL_KIND_BACKOFF_REVERSE_PATH;
}

static bool named(struct sonerwal_event e, const struct sonerwal_open *frame)
{
	return e.kind < KINDS && e.detail < details[e.kind] && (!brings_frame(e.kind) || listed(frame));
}

/* ---- The step */

struct doing {
	struct sonerwal_link_step *step;
	int count;
};

static void add(struct doing *doing, uint8_t kind, uint8_t detail)
{
	if (kind != SONERWAL_KIND_NONE) {
		doing->step->action[doing->count++] = (struct sonerwal_action){kind, detail};
	}
}

static void enter(struct sonerwal_link *s, uint8_t state, struct doing *doing)
{
	s->phase = state;
	switch (state) {
	case 0:
		*s = (struct sonerwal_link){.unexpected = s->unexpected};
		break;
	case 1:
		s->broke = s->blocked = s->aip = 0;
		add(doing, SONERWAL_KIND_REQUEST_PATH, 0);
		add(doing, SONERWAL_KIND_AIP, SONERWAL_WAIT_NORMAL);
		break;
	case 2:
		s->broke = s->aip = 0;
		break;
	case 5:
		s->has_heard = s->broke = s->aip = 0;
		s->heard = no_frame;
		break;
	case 9:
	case 10:
		add(doing, SONERWAL_KIND_BREAK, 0);
		break;
	default:
		break;
	}
}

static bool higher(const struct sonerwal_open *f, const struct sonerwal_open *g)
{
	return f->awt > g->awt || (f->awt == g->awt && f->source > g->source);
}

static void cross(struct sonerwal_link *s, const struct sonerwal_open *open, struct doing *doing)
{
	if (s->aip == 0 && !higher(open, &s->held)) {
		return;
	}
	bool back = open->destination == s->held.source && open->rate == s->held.rate;
	s->held = *open;
	add(doing, back ? SONERWAL_KIND_BACKOFF_REVERSE_PATH : SONERWAL_KIND_BACKOFF_RETRY, 0);
	enter(s, back ? 2 : 1, doing);
}

static void sent_in_5(struct sonerwal_link *s, struct doing *doing)
{
	struct sonerwal_open heard = s->heard;
	bool broke = s->broke, has_heard = s->has_heard;
	s->broke = s->has_heard = 0;
	s->heard = no_frame;
	s->phase = 6;
	add(doing, SONERWAL_KIND_ARB_STATUS, SONERWAL_WAIT_DEVICE);
	if (broke) {
		add(doing, SONERWAL_KIND_SEND_BREAK, 0);
		enter(s, 9, doing);
	} else if (has_heard) {
		cross(s, &heard, doing);
	}
}

static void take(struct sonerwal_link *s, struct sonerwal_event e, const struct sonerwal_open *frame, struct doing *doing)
{
	const struct row *row = &table[s->phase][e.kind];
	if (!row->listed || (row->op == NOTE_CLOSE && s->close)) {
		s->unexpected += s->unexpected < UINT32_MAX;
		return;
	}
	uint8_t to = row->to, action = row->action, detail = e.detail;
	switch (row->op) {
	case HOLD:
		s->held = *frame;
		s->has_held = 1;
		break;
	case HEAR:
		s->heard = *frame;
		s->has_heard = 1;
		break;
	case SEE:
		s->aip = (uint8_t)(e.detail + 1);
		break;
	case NOTE_BREAK:
		s->broke = 1;
		break;
	case NOTE_CLOSE:
		s->close = 1;
		break;
	case NOTE_BLOCKED:
		s->blocked = e.detail == SONERWAL_ARBITRATING_BLOCKED_ON_PARTIAL;
		detail = e.detail == SONERWAL_ARBITRATING_WAITING_ON_CONNECTION ? SONERWAL_WAIT_CONNECTION : SONERWAL_WAIT_PARTIAL;
		break;
	case TIMER:
		add(doing, s->blocked ? SONERWAL_KIND_REQUEST_PATH : SONERWAL_KIND_NONE, 1);
		return;
	case FORWARD:
		if (s->broke) {
			action = SONERWAL_KIND_SEND_BREAK;
			to = 9;
		}
		break;
	case CROSS:
		cross(s, frame, doing);
		return;
	case SENT_IN_5:
		sent_in_5(s, doing);
		return;
	case CLOSE_IN_7:
		to = s->close ? 0 : 8;
		break;
	default:
		detail = e.kind == SONERWAL_KIND_ARB_REJECT ? reject_for[e.detail] : e.detail;
		break;
	}
	add(doing, action, detail);
	if (to != STAY) {
		enter(s, to, doing);
	}
}

/* ---- What the bench calls */

struct sonerwal_link_step plain_link_event(struct sonerwal_link s, struct sonerwal_event e, struct sonerwal_open frame)
{
	struct sonerwal_link_step step = {.state = s};
	struct doing doing = {&step, 0};
	if (!named(e, &frame)) {
		step.answer = SONERWAL_REFUSED_UNLISTED;
	} else if (!keeps_rules(&s)) {
		step.answer = SONERWAL_REFUSED_RULES;
	} else if (e.kind == SONERWAL_KIND_DISABLE) {
		enter(&step.state, 0, &doing);
	} else {
		frame.zero4 = frame.zero2 = frame.zero1 = 0;
		take(&step.state, e, &frame, &doing);
	}
	return step;
}

uint8_t plain_link_status(struct sonerwal_link s)
{
	if (!keeps_rules(&s)) {
		return SONERWAL_REFUSED_RULES;
	}
	switch (s.phase) {
	case 0: return SONERWAL_READY;
	case 7:
	case 8: return SONERWAL_CONNECTED;
	case 3:
	case 6: return s.aip == 1 + SONERWAL_WAIT_PARTIAL ? SONERWAL_BLOCKED_PARTIAL : SONERWAL_PARTIAL;
	default: return SONERWAL_PARTIAL;
	}
}

struct sonerwal_link_step plain_link_crossing(struct sonerwal_link s, struct sonerwal_event e, struct sonerwal_open frame)
{
	(void)e;
	(void)frame;
	return (struct sonerwal_link_step){.state = s};
}
