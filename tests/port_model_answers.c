/* Answers, what they name, and what a last word takes away: the request, its phy and its part of a timer. */
#include "port_model_parts.h"

uint8_t model_number_of(const struct model *m, const struct line *line)
{
	return (uint8_t)(line - m->lines);
}

struct said model_nameless(enum word word)
{
	return (struct said){.word = word, .slot = NO_SLOT, .phy = NO_PHY};
}

struct said model_about(const struct model *m, enum word word, const struct item *item, const struct line *line)
{
	struct said said = model_nameless(word);
	if (item) {
		said.slot = item->slot;
		said.frame = open_of(item->head);
	}
	if (line) {
		said.phy = model_number_of(m, line);
	}
	return said;
}

void model_free_line(struct line *line, bool enabled)
{
	if (line->item) {
		line->item->line = NULL;
	}
	*line = (struct line){.enabled = enabled};
}

static unsigned ssp_requests_to(const struct model *m, uint64_t destination)
{
	unsigned n = 0;
	for (const struct item *item = m->items; item; item = item->next) {
		n += model_is_ssp(&item->head) && item->head.destination == destination;
	}
	return n;
}

/* 01 PORT.11 01 PORT.26 */
static void leave(struct model *m, struct item *item)
{
	struct sonerwal_head head = item->head;
	if (item->line) {
		item->line->item = NULL;
	}
	model_drop(m, item);
	struct timer **timer = model_timer_of(m, head.destination);
	if (!model_is_ssp(&head) || !*timer) {
		return;
	}
	if (ssp_requests_to(m, head.destination) == 0) {
		model_note(m, TIMER_LEFT_ALONE);
		model_stop_timer(timer);
	} else {
		model_note(m, TIMER_LEFT);
	}
}

struct said model_last_word(struct model *m, enum word word, struct item *item, const struct line *line)
{
	struct said said = model_about(m, item->cancelled ? CANCEL_ACKNOWLEDGED : word, item, line);
	leave(m, item);
	return said;
}
