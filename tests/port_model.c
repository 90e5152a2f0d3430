/* A model from its beginning to its end, and its calls; what choose does is in a file of its own. */
#include "port_model_parts.h"

#include <stdlib.h>
#include <string.h>

void model_note(struct model *m, enum note n)
{
	m->notes |= 1ul << n;
}

void model_empty(struct model *m)
{
	while (m->items) {
		model_drop(m, m->items);
	}
	while (m->timers) {
		model_stop_timer(&m->timers);
	}
	memset(m, 0, sizeof *m);
}

struct model *model_new(void)
{
	struct model *m = calloc(1, sizeof *m);
	if (!m) {
		abort();
	}
	return m;
}

void model_free(struct model *m)
{
	model_empty(m);
	free(m);
}

/* 01 PORT.2 01 PORT.1 01 PORT.11 */
static struct said setup(struct model *m, const struct order *o)
{
	model_empty(m);
	m->count = o->count;
	m->loss = o->loss;
	return model_nameless(TAKEN);
}

/* 01 PORT.11 */
static struct said submit(struct model *m, const struct order *o)
{
	struct item item = {.slot = (uint8_t)model_free_slot(m), .head = o->head, .submitted = o->now};
	if (model_is_ssp(&item.head) && *model_timer_of(m, item.head.destination)) {
		model_note(m, TIMER_JOINED);
	}
	memset(&m->rest[item.slot], 0, sizeof m->rest[item.slot]);
	return model_about(m, SUBMITTED, model_insert(m, &item), NULL);
}

/* 01 PORT.23 */
static struct said cancel(struct model *m, const struct order *o)
{
	struct item *item = model_find(m, o->key);
	struct line *line = item->line;
	if (!line) {
		return model_last_word(m, CANCEL_ACKNOWLEDGED, item, NULL);
	}
	item->cancelled = true;
	line->closing = line->joined;
	return model_about(m, line->opening ? STOP_ARB : CLOSE, item, line);
}

/* 01 PORT.17 01 PORT.23 */
static struct said opened(struct model *m, const struct order *o)
{
	struct line *line = &m->lines[o->phy];
	struct item *item = line->item;
	model_move_timer(m, item, false, true, o->now);
	line->opening = false;
	line->joined = true;
	line->protocol = item->head.protocol;
	line->destination = item->head.destination;
	line->closing = item->cancelled;
	line->out = !item->cancelled;
	return model_about(m, item->cancelled ? CLOSE : SEND, item, line);
}

struct effect {
	bool retried, starts, stops;
};

/* 01 PORT.18 01 PORT.24 */
static const struct effect reasons[REASONS] = {
	[NO_DESTINATION] = {true, true, false},
	[BAD_DESTINATION] = {false, false, false},
	[WRONG_DESTINATION] = {false, false, false},
	[LINK_RATE] = {true, true, false},
	[PROTOCOL] = {false, false, true},
	[PATHWAY_BLOCKED] = {true, false, false},
	[STP_BUSY] = {false, false, true},
	[RETRY] = {true, false, true},
	[OPEN_TIME_OUT] = {true, false, false},
	[BREAK_RECEIVED] = {false, false, false},
};

/* 01 PORT.19 01 EXAMPLE.4 */
static void wait_anew(struct model *m, struct item *item, enum reason why, uint64_t now)
{
	item->retry = (struct when){true, now};
	if (why != PATHWAY_BLOCKED) {
		item->first = (struct when){false, 0};
		item->awt = 0;
		item->pbc = 0;
	} else if (item->pbc < 255) {
		item->pbc++;
	} else {
		model_note(m, BLOCKED_AT_TOP);
	}
}

/* 01 PORT.18 01 PORT.23 01 PORT.25 */
static struct said open_failed(struct model *m, const struct order *o)
{
	struct line *line = &m->lines[o->phy];
	struct item *item = line->item;
	model_free_line(line, true);
	model_move_timer(m, item, reasons[o->why].starts, reasons[o->why].stops, o->now);
	if (!reasons[o->why].retried) {
		struct said said = model_last_word(m, ENDED, item, line);
		said.detail = said.word == ENDED ? o->why : 0;
		return said;
	}
	if (item->cancelled || model_is_lost(m, item, o->now)) {
		return model_last_word(m, NEXUS_LOSS, item, line);
	}
	wait_anew(m, item, (enum reason)o->why, o->now);
	return model_about(m, RETRIED, item, line);
}

/* 01 PORT.20 01 PORT.23 */
static struct said frame_status(struct model *m, const struct order *o)
{
	struct line *line = &m->lines[o->phy];
	struct said said = model_last_word(m, STATUS, line->item, line);
	said.detail = said.word == STATUS ? o->status : 0;
	line->out = false;
	return said;
}

/* 01 PORT.21 01 PORT.23 */
static struct said closed(struct model *m, const struct order *o)
{
	struct line *line = &m->lines[o->phy];
	struct item *item = line->item;
	model_free_line(line, true);
	return item ? model_last_word(m, CONNECTION_LOST, item, line) : model_about(m, TAKEN, NULL, line);
}

/* 01 PORT.1 */
static struct said enable(struct model *m, const struct order *o)
{
	struct line *line = &m->lines[o->phy];
	model_free_line(line, true);
	return model_about(m, TAKEN, NULL, line);
}

/* 01 PORT.22 01 PORT.23 */
static struct said disable(struct model *m, const struct order *o)
{
	struct line *line = &m->lines[o->phy];
	struct item *item = line->item;
	model_free_line(line, false);
	if (item && item->cancelled) {
		return model_last_word(m, CANCEL_ACKNOWLEDGED, item, line);
	}
	return model_about(m, item ? WAITING : TAKEN, item, line);
}

static struct said (*const calls[CALLS])(struct model *m, const struct order *o) = {
	[SETUP] = setup,
	[SUBMIT] = submit,
	[CANCEL] = cancel,
	[CHOOSE] = model_choose,
	[OPENED] = opened,
	[OPEN_FAILED] = open_failed,
	[FRAME_STATUS] = frame_status,
	[CLOSED] = closed,
	[ENABLE] = enable,
	[DISABLE] = disable,
};

/* 01 REFUSAL.12 01 PORT.3 */
struct said model_call(struct model *m, const struct order *o)
{
	unsigned found = model_causes(m, o);
	if (found) {
		return model_refuse(found);
	}
	m->notes = 0;
	struct said said = calls[o->call](m, o);
	said.notes = m->notes;
	m->last = o->call == SETUP ? 0 : o->now;
	return said;
}
