/* Refusals: every cause that holds of a call, and the number of the first. */
#include "port_model_parts.h"

static bool names_phy(enum call call)
{
	return call >= OPENED;
}

/* 01 REFUSAL.2 */
static bool order_listed(const struct order *o)
{
	switch (o->call) {
	case SUBMIT:
		return model_head_listed(&o->head);
	case CANCEL:
		return o->key.protocol <= 2;
	case OPEN_FAILED:
		return o->why < REASONS;
	default:
		return true;
	}
}

/* 01 REFUSAL.6 01 REFUSAL.14 */
static bool fits(const struct model *m, const struct order *o)
{
	const struct line *line = names_phy(o->call) ? &m->lines[o->phy] : NULL;
	const struct item *item;
	switch (o->call) {
	case OPENED:
	case OPEN_FAILED:
		return line->opening;
	case FRAME_STATUS:
		return line->out;
	case CLOSED:
		return line->joined;
	case ENABLE:
		return !line->enabled;
	case DISABLE:
		return line->enabled;
	case CANCEL:
		item = model_find(m, o->key);
		return item && !item->cancelled;
	default:
		return true;
	}
}

static struct key key_of(const struct sonerwal_head *head)
{
	return (struct key){head->destination, head->protocol, head->tag};
}

static unsigned cause(unsigned number, bool holds)
{
	return (unsigned)holds << number;
}

/* 01 REFUSAL.1 01 REFUSAL.3 01 REFUSAL.4 01 REFUSAL.5 01 REFUSAL.9 01 REFUSAL.10 01 PORT.3 */
unsigned model_causes(const struct model *m, const struct order *o)
{
	bool lent = o->call != SETUP;
	unsigned found = cause(1, o->length != SLOTS) | cause(2, !order_listed(o));
	found |= cause(3, lent ? m->broken != 0 : !model_in_range(o->count, o->loss));
	found |= cause(4, names_phy(o->call) && o->phy >= m->count);
	if (found == 0) { /* the others ask a state that keeps the rules, and one of its phys */
		found |= cause(6, !fits(m, o));
		found |= cause(9, o->call == SUBMIT && model_find(m, key_of(&o->head)));
		found |= cause(10, o->call == SUBMIT && model_free_slot(m) == NO_SLOT);
	}
	return found | cause(5, lent && o->now < m->last);
}

/* 01 REFUSAL.11 */
static uint8_t first_of(unsigned causes)
{
	uint8_t number = 1;
	while (!(causes >> number & 1)) {
		number++;
	}
	return number;
}

struct said model_refuse(unsigned causes)
{
	struct said said = model_nameless(REFUSED);
	said.detail = first_of(causes);
	said.causes = causes;
	return said;
}
