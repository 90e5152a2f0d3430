/* The chain of requests, by submission time and then by slot, which is the order in which choose considers them. */
#include "port_model_parts.h"

#include <stdlib.h>

static bool before(const struct item *a, const struct item *b)
{
	return a->submitted < b->submitted || (a->submitted == b->submitted && a->slot < b->slot);
}

struct item *model_insert(struct model *m, const struct item *new)
{
	struct item **at = &m->items;
	struct item *item = malloc(sizeof *item);
	if (!item) {
		abort();
	}
	*item = *new;
	while (*at && before(*at, item)) {
		at = &(*at)->next;
	}
	item->next = *at;
	*at = item;
	return item;
}

void model_drop(struct model *m, struct item *item)
{
	struct item **at = &m->items;
	while (*at != item) {
		at = &(*at)->next;
	}
	*at = item->next;
	free(item);
}

struct item *model_find(const struct model *m, struct key key)
{
	struct item *item = m->items;
	while (item && !(item->head.destination == key.destination && item->head.protocol == key.protocol && item->head.tag == key.tag)) {
		item = item->next;
	}
	return item;
}

static struct item *at_slot(const struct model *m, unsigned slot)
{
	struct item *item = m->items;
	while (item && item->slot != slot) {
		item = item->next;
	}
	return item;
}

unsigned model_free_slot(const struct model *m)
{
	unsigned slot = 0;
	while (slot < SLOTS && at_slot(m, slot)) {
		slot++;
	}
	return slot;
}
