/* From a port and its 32 records to the model, and back. */
#include "port_model_parts.h"

#include <string.h>

static struct when when(struct sonerwal_stamp stamp)
{
	return (struct when){stamp.set == 1, stamp.set == 1 ? stamp.at : 0};
}

static struct sonerwal_stamp stamp(struct when when)
{
	return (struct sonerwal_stamp){when.came, when.at};
}

static void take_request(struct model *m, const struct sonerwal_request *r, uint8_t slot)
{
	struct item item = {
		.slot = slot,
		.head = r->head,
		.submitted = r->submitted,
		.cancelled = r->cancelled,
		.closed = r->closed,
		.pbc = r->pbc,
		.awt = r->awt,
		.retry = when(r->retry),
		.first = when(r->first),
		.line = r->stage == 2 ? &m->lines[r->phy] : NULL,
	};
	struct item *new = model_insert(m, &item);
	if (new->line) {
		new->line->item = new;
	}
	if (r->loss.set && !*model_timer_of(m, r->head.destination)) {
		model_start_timer(m, r->head.destination, r->loss.at);
	}
}

static void take_phy(struct line *line, const struct sonerwal_phy *phy)
{
	line->enabled = phy->stage != 0;
	line->opening = phy->stage == 2;
	line->joined = phy->stage >= 3;
	line->closing = phy->stage >= 5;
	line->out = phy->stage == 4 || phy->stage == 6;
	line->protocol = phy->protocol;
	line->destination = phy->destination;
}

unsigned model_take(struct model *m, const struct sonerwal_port *port, const struct sonerwal_request *list)
{
	model_empty(m);
	m->broken = model_breaks(port, list);
	m->port = *port;
	memcpy(m->rest, list, sizeof m->rest);
	m->count = port->count;
	m->loss = port->loss;
	m->last = port->last;
	for (unsigned k = 0; k < PHYS && !m->broken; k++) {
		take_phy(&m->lines[k], &port->phys[k]);
	}
	for (uint8_t i = 0; i < SLOTS && !m->broken; i++) {
		if (list[i].stage != 0) {
			take_request(m, &list[i], i);
			memset(&m->rest[i], 0, sizeof m->rest[i]);
		}
	}
	return m->broken;
}

static struct sonerwal_request show_request(const struct model *m, const struct item *item)
{
	struct timer *timer = model_is_ssp(&item->head) ? *model_timer_of((struct model *)m, item->head.destination) : NULL;
	struct sonerwal_request r = {
		.stage = item->line ? 2 : 1,
		.phy = item->line ? model_number_of(m, item->line) : 0,
		.cancelled = item->cancelled,
		.closed = item->closed,
		.pbc = item->pbc,
		.awt = item->awt,
		.head = item->head,
		.submitted = item->submitted,
		.retry = stamp(item->retry),
		.first = stamp(item->first),
	};
	if (timer) {
		r.loss = (struct sonerwal_stamp){1, timer->since};
	}
	return r;
}

static struct sonerwal_phy show_phy(const struct line *line)
{
	struct sonerwal_phy phy = {
		.stage = 1,
		.slot = line->item ? line->item->slot : NO_SLOT,
		.protocol = line->protocol,
		.destination = line->destination,
	};
	if (!line->enabled) {
		phy.stage = 0;
	} else if (line->opening) {
		phy.stage = 2;
	} else if (line->joined) {
		phy.stage = (uint8_t)((line->closing ? 5 : 3) + line->out);
	}
	return phy;
}

void model_show(const struct model *m, struct sonerwal_port *port, struct sonerwal_request *list)
{
	*port = m->port;
	memcpy(list, m->rest, sizeof m->rest);
	if (m->broken || m->count == 0) {
		return;
	}
	port->count = m->count;
	port->loss = m->loss;
	port->last = m->last;
	for (unsigned k = 0; k < PHYS; k++) {
		port->phys[k] = show_phy(&m->lines[k]);
	}
	for (const struct item *item = m->items; item; item = item->next) {
		list[item->slot] = show_request(m, item);
	}
}
