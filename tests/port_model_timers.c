/* Loss timers, one for a destination: how they start and stop, and when a request is lost by one. */
#include "port_model_parts.h"

#include <stdlib.h>

bool model_is_ssp(const struct sonerwal_head *head)
{
	return head->protocol == 1;
}

struct timer **model_timer_of(struct model *m, uint64_t destination)
{
	struct timer **at = &m->timers;
	while (*at && (*at)->destination != destination) {
		at = &(*at)->next;
	}
	return at;
}

void model_start_timer(struct model *m, uint64_t destination, uint64_t since)
{
	struct timer *timer = malloc(sizeof *timer);
	if (!timer) {
		abort();
	}
	*timer = (struct timer){m->timers, destination, since};
	m->timers = timer;
}

void model_stop_timer(struct timer **at)
{
	struct timer *timer = *at;
	*at = timer->next;
	free(timer);
}

/* 01 PORT.24 01 TRAP.3 */
void model_move_timer(struct model *m, const struct item *item, bool starts, bool stops, uint64_t now)
{
	struct timer **timer = model_timer_of(m, item->head.destination);
	if (!model_is_ssp(&item->head)) {
		if (*timer) {
			model_note(m, TIMER_OF_OTHERS);
		}
	} else if (stops && *timer) {
		model_note(m, TIMER_STOPPED);
		model_stop_timer(timer);
	} else if (starts && *timer) {
		model_note(m, TIMER_RAN);
	} else if (starts) {
		model_note(m, TIMER_STARTED);
		model_start_timer(m, item->head.destination, now);
	}
}

/* 01 PORT.25 01 PORT.1 */
bool model_is_lost(struct model *m, const struct item *item, uint64_t now)
{
	const struct timer *timer = *model_timer_of(m, item->head.destination);
	if (!model_is_ssp(&item->head) || !timer) {
		return false;
	}
	uint64_t ran = now - timer->since, limit = m->loss * UINT64_C(1000);
	if (m->loss == NEVER) {
		if (ran >= limit) {
			model_note(m, TIMER_NEVER);
		}
		return false;
	}
	if (ran < limit) {
		model_note(m, TIMER_NOT_YET);
	}
	if (ran == limit) {
		model_note(m, TIMER_EXACT);
	}
	return ran >= limit;
}
