/* Choose: the first request that is considered and has a phy, and what becomes of both. */
#include "port_model_parts.h"

/* 01 OPEN.7 */
static uint16_t wait_value(struct model *m, uint64_t elapsed)
{
	if (elapsed < 32768) {
		if (elapsed > 0) {
			model_note(m, WAIT_SHORT);
		}
		return (uint16_t)elapsed;
	}
	uint64_t thousands = (elapsed - 32768) / 1000;
	if (thousands >= 65535 - 32768) {
		model_note(m, WAIT_TOP);
		return 65535;
	}
	model_note(m, WAIT_LONG);
	return (uint16_t)(32768 + thousands);
}

enum step { TO_SEND, TO_OPEN, TO_CLOSE, STEPS };

/* 01 PORT.13 */
static bool is_free_for(struct model *m, enum step step, const struct line *line, const struct item *item)
{
	bool there = line->destination == item->head.destination && line->protocol == item->head.protocol;
	bool idle = line->joined && !line->closing && !line->out;
	switch (step) {
	case TO_SEND:
		return idle && there;
	case TO_OPEN:
		return line->enabled && !line->opening && !line->joined;
	default:
		if (idle && !there && item->closed) {
			model_note(m, CLOSED_BEFORE);
		}
		return idle && !there && !item->closed;
	}
}

/* 01 PORT.14 */
static struct line *lowest(struct model *m, enum step step, const struct item *item)
{
	struct line *found = NULL;
	for (unsigned k = m->count; k > 0; k--) {
		if (is_free_for(m, step, &m->lines[k - 1], item)) {
			if (found) {
				model_note(m, SEVERAL_PHYS);
			}
			found = &m->lines[k - 1];
		}
	}
	return found;
}

/* 01 PORT.12 */
static bool is_considered(struct model *m, const struct item *item, uint64_t now)
{
	if (item->line) {
		return false;
	}
	if (item->retry.came && now - item->retry.at < 15) {
		model_note(m, TOO_SOON);
		if (now - item->retry.at == 14) {
			model_note(m, AFTER_14);
		}
		return false;
	}
	return true;
}

static struct said send_on(struct model *m, struct item *item, struct line *line)
{
	item->line = line;
	line->item = item;
	line->out = true;
	return model_about(m, SEND, item, line);
}

/* 01 PORT.16 */
static struct said open_on(struct model *m, struct item *item, struct line *line, uint64_t now)
{
	model_free_line(line, true);
	item->line = line;
	line->item = item;
	line->opening = true;
	if (!item->first.came) {
		item->first = (struct when){true, now};
	}
	item->awt = wait_value(m, now - item->first.at);
	struct said said = model_about(m, OPEN, item, line);
	said.frame.awt = item->awt;
	said.frame.pbc = item->pbc;
	return said;
}

static struct said close_on(struct model *m, struct item *item, struct line *line)
{
	item->closed = true;
	line->closing = true;
	return model_about(m, CLOSE, item, line);
}

static struct said take_step(struct model *m, enum step step, struct item *item, struct line *line, uint64_t now)
{
	switch (step) {
	case TO_SEND:
		return send_on(m, item, line);
	case TO_OPEN:
		return open_on(m, item, line, now);
	default:
		return close_on(m, item, line);
	}
}

static void note_taken(struct model *m, const struct item *item, uint64_t now)
{
	if (item->next && item->next->submitted == item->submitted && !item->next->line) {
		model_note(m, TIE);
	}
	if (item->retry.came && now - item->retry.at == 15) {
		model_note(m, AFTER_15);
	}
}

/* 01 PORT.12 01 PORT.13 01 PORT.15 */
struct said model_choose(struct model *m, const struct order *o)
{
	for (struct item *item = m->items; item; item = item->next) {
		if (!is_considered(m, item, o->now)) {
			continue;
		}
		for (enum step step = TO_SEND; step < STEPS; step++) {
			struct line *line = lowest(m, step, item);
			if (line) {
				note_taken(m, item, o->now);
				return take_step(m, step, item, line, o->now);
			}
		}
		model_note(m, PASSED_ON);
	}
	return model_nameless(NOTHING);
}
