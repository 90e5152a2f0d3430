#include "plain_ports.h"

#include <stdbool.h>
#include <string.h>

/* Document 01, 'Port', as a board's firmware would have it: a test leaves at the first rule that is broken. */

enum { LENGTH = SONERWAL_SLOTS, PHYS = SONERWAL_PHYS, SSP = SONERWAL_PROTOCOL_SSP };
enum { FREE, WAITS, IN_PROGRESS };
enum { DISABLED, UNCONNECTED, OPENING, IDLE, FRAME_OUT, CLOSING, CLOSING_FRAME_OUT };

static bool listed(const struct sonerwal_head *h)
{
	return h->initiator <= 1 && h->protocol < 3 && h->features < 16 && h->rate >= 8 && h->rate < 11;
}

static bool same_key(const struct sonerwal_head *a, const struct sonerwal_head *b)
{
	return a->destination == b->destination && a->protocol == b->protocol && a->tag == b->tag;
}

static bool same_nexus(const struct sonerwal_head *a, const struct sonerwal_head *b)
{
	return a->destination == b->destination && a->protocol == SSP && b->protocol == SSP;
}

static bool phy_kept(const struct sonerwal_port *port, int k)
{
	const struct sonerwal_phy *p = &port->phys[k];
	bool names = p->slot < LENGTH;
	bool must = p->stage == OPENING || p->stage == FRAME_OUT || p->stage == CLOSING_FRAME_OUT;
	if (p->stage > CLOSING_FRAME_OUT || p->protocol > 2 || p->slot > LENGTH || p->zero4 != 0 || p->zero1 != 0) {
		return false;
	}
	if ((must && !names) || (names && !must && p->stage != CLOSING)) {
		return false;
	}
	return k < port->count || p->stage == DISABLED;
}

static bool port_invariant(const struct sonerwal_port *port)
{
	if (port->count < 1 || port->count > PHYS || port->loss < 1 || port->zero4 != 0 || port->zero1 != 0) {
		return false;
	}
	for (int k = 0; k < PHYS; k++) {
		if (!phy_kept(port, k)) {
			return false;
		}
	}
	return true;
}

/* Each phy that names a request is the one that it is in progress on, and no other is. */
static bool paired(const struct sonerwal_request *list, const struct sonerwal_port *port)
{
	for (int k = 0; k < PHYS; k++) {
		size_t slot = port->phys[k].slot;
		if (slot < LENGTH && (list[slot].stage != IN_PROGRESS || list[slot].phy != k)) {
			return false;
		}
	}
	return true;
}

static bool present_kept(const struct sonerwal_request *r, const struct sonerwal_port *port, size_t i)
{
	if (r->stage > IN_PROGRESS || r->cancelled > 1 || r->closed > 1 || r->retry.set > 1 || r->first.set > 1 || r->loss.set > 1) {
		return false;
	}
	if (r->submitted > port->last || r->retry.at > port->last || r->first.at > port->last || r->loss.at > port->last) {
		return false;
	}
	if (!listed(&r->head) || (r->cancelled && r->stage != IN_PROGRESS) || (r->loss.set && r->head.protocol != SSP)) {
		return false;
	}
	return r->stage != IN_PROGRESS || (r->phy < PHYS && port->phys[r->phy].slot == i);
}

static bool same_timer(const struct sonerwal_stamp *a, const struct sonerwal_stamp *b)
{
	return a->set == b->set && (!a->set || a->at == b->at);
}

/* Whether the request has another key than each behind it, and the timer of those of its destination. */
static bool apart(const struct sonerwal_request *list, size_t i)
{
	const struct sonerwal_request *r = &list[i];
	for (size_t j = i + 1; j < LENGTH; j++) {
		const struct sonerwal_request *o = &list[j];
		if (o->head.destination != r->head.destination || o->stage == FREE) {
			continue;
		}
		if (same_key(&o->head, &r->head) || (same_nexus(&o->head, &r->head) && !same_timer(&o->loss, &r->loss))) {
			return false;
		}
	}
	return true;
}

static bool kept(const struct sonerwal_request *list, const struct sonerwal_port *port)
{
	if (!port_invariant(port) || !paired(list, port)) {
		return false;
	}
	for (size_t i = 0; i < LENGTH; i++) {
		if (list[i].stage != FREE && (!present_kept(&list[i], port, i) || !apart(list, i))) {
			return false;
		}
	}
	return true;
}

/* ---- Answers */

static struct sonerwal_port_step unnamed(struct sonerwal_port port, uint8_t answer)
{
	struct sonerwal_port_step r;
	memset(&r.frame, 0, sizeof r.frame);
	r.port = port;
	r.answer = answer;
	r.detail = 0;
	r.slot = SONERWAL_NO_SLOT;
	r.phy = SONERWAL_NO_PHY;
	return r;
}

static struct sonerwal_port_step named(struct sonerwal_port port, uint8_t answer, size_t slot, uint8_t phy, const struct sonerwal_head *h)
{
	struct sonerwal_port_step r = unnamed(port, answer);
	r.slot = (uint8_t)slot;
	r.phy = phy;
	r.frame.destination = h->destination;
	r.frame.source = h->source;
	r.frame.tag = h->tag;
	r.frame.initiator = h->initiator;
	r.frame.protocol = h->protocol;
	r.frame.features = (uint8_t)h->features;
	r.frame.rate = (uint8_t)h->rate;
	return r;
}

/* ---- Calls */

struct sonerwal_port_step plain_port_submit(struct sonerwal_request *list, size_t length, struct sonerwal_port port, struct sonerwal_open o,
                                            uint64_t now)
{
	const struct sonerwal_head head = {o.initiator, o.protocol, o.features, o.rate, o.tag, o.destination, o.source};
	if (length != LENGTH) {
		return unnamed(port, SONERWAL_REFUSED_LENGTH);
	}
	if (!listed(&head)) {
		return unnamed(port, SONERWAL_REFUSED_UNLISTED);
	}
	if (!kept(list, &port)) {
		return unnamed(port, SONERWAL_REFUSED_RULES);
	}
	if (now < port.last) {
		return unnamed(port, SONERWAL_REFUSED_PAST);
	}
	size_t slot = LENGTH;
	const struct sonerwal_stamp *loss = NULL;
	for (size_t i = 0; i < LENGTH; i++) {
		const struct sonerwal_request *r = &list[i];
		if (r->stage == FREE) {
			slot = slot < LENGTH ? slot : i;
		} else if (same_key(&r->head, &head)) {
			return unnamed(port, SONERWAL_REFUSED_PRESENT);
		} else if (same_nexus(&r->head, &head)) {
			loss = &r->loss;
		}
	}
	if (slot == LENGTH) {
		return unnamed(port, SONERWAL_REFUSED_FULL);
	}
	struct sonerwal_request *r = &list[slot];
	struct sonerwal_stamp timer = loss ? *loss : (struct sonerwal_stamp){0, 0};
	memset(r, 0, sizeof *r);
	r->stage = WAITS;
	r->head = head;
	r->submitted = now;
	r->loss = timer;
	port.last = now;
	return named(port, SONERWAL_SUBMITTED, slot, SONERWAL_NO_PHY, &head);
}

static bool ready(const struct sonerwal_request *r, uint64_t now)
{
	return r->stage == WAITS && (!r->retry.set || (now >= r->retry.at && now - r->retry.at >= 15));
}

/* What can be done for a request, by the phy of the lowest number: 0 nothing. */
static int way(const struct sonerwal_port *port, const struct sonerwal_request *r, uint8_t *phy)
{
	int opens = PHYS, closes = PHYS;
	for (int k = 0; k < PHYS; k++) {
		const struct sonerwal_phy *p = &port->phys[k];
		if (p->stage == UNCONNECTED) {
			opens = opens < PHYS ? opens : k;
		} else if (p->stage == IDLE && p->destination == r->head.destination && p->protocol == r->head.protocol) {
			*phy = (uint8_t)k;
			return SONERWAL_SEND;
		} else if (p->stage == IDLE) {
			closes = closes < PHYS ? closes : k;
		}
	}
	if (opens < PHYS) {
		*phy = (uint8_t)opens;
		return SONERWAL_OPEN;
	}
	if (!r->closed && closes < PHYS) {
		*phy = (uint8_t)closes;
		return SONERWAL_CLOSE;
	}
	return 0;
}

static uint16_t wait_value(uint64_t elapsed)
{
	if (elapsed < 32768) {
		return (uint16_t)elapsed;
	}
	uint64_t milliseconds = (elapsed - 32768) / 1000;
	return milliseconds > 32767 ? 65535 : (uint16_t)(32768 + milliseconds);
}

static struct sonerwal_port_step do_open(struct sonerwal_request *r, size_t slot, struct sonerwal_port port, uint8_t phy, uint64_t now)
{
	port.phys[phy] = (struct sonerwal_phy){.stage = OPENING, .slot = (uint8_t)slot};
	r->stage = IN_PROGRESS;
	r->phy = phy;
	if (!r->first.set) {
		r->first = (struct sonerwal_stamp){1, now};
	}
	r->awt = wait_value(now - r->first.at);
	struct sonerwal_port_step step = named(port, SONERWAL_OPEN, slot, phy, &r->head);
	step.frame.pbc = r->pbc;
	step.frame.awt = r->awt;
	return step;
}

struct sonerwal_port_step plain_port_choose(struct sonerwal_request *list, size_t length, struct sonerwal_port port, uint64_t now)
{
	if (length != LENGTH) {
		return unnamed(port, SONERWAL_REFUSED_LENGTH);
	}
	if (!kept(list, &port)) {
		return unnamed(port, SONERWAL_REFUSED_RULES);
	}
	if (now < port.last) {
		return unnamed(port, SONERWAL_REFUSED_PAST);
	}
	int step = 0;
	size_t slot = 0;
	uint8_t phy = 0;
	for (size_t i = 0; i < LENGTH; i++) {
		uint8_t by;
		int found;
		if (ready(&list[i], now) && (!step || list[i].submitted < list[slot].submitted) && (found = way(&port, &list[i], &by))) {
			step = found;
			slot = i;
			phy = by;
		}
	}
	port.last = now;
	if (!step) {
		return unnamed(port, SONERWAL_NOTHING);
	}
	struct sonerwal_request *r = &list[slot];
	struct sonerwal_phy *p = &port.phys[phy];
	if (step == SONERWAL_OPEN) {
		return do_open(r, slot, port, phy, now);
	}
	if (step == SONERWAL_SEND) {
		p->stage = FRAME_OUT;
		p->slot = (uint8_t)slot;
		r->stage = IN_PROGRESS;
		r->phy = phy;
	} else {
		p->stage = CLOSING;
		p->slot = LENGTH;
		r->closed = 1;
	}
	return named(port, (uint8_t)step, slot, phy, &r->head);
}

struct sonerwal_port_step plain_port_enable(struct sonerwal_request *list, size_t length, struct sonerwal_port port, uint8_t phy, uint64_t now)
{
	if (length != LENGTH) {
		return unnamed(port, SONERWAL_REFUSED_LENGTH);
	}
	if (!kept(list, &port)) {
		return unnamed(port, SONERWAL_REFUSED_RULES);
	}
	if (phy >= port.count) {
		return unnamed(port, SONERWAL_REFUSED_PHY);
	}
	if (now < port.last) {
		return unnamed(port, SONERWAL_REFUSED_PAST);
	}
	if (port.phys[phy].stage != DISABLED) {
		return unnamed(port, SONERWAL_REFUSED_UNFIT);
	}
	port.last = now;
	port.phys[phy] = (struct sonerwal_phy){.stage = UNCONNECTED, .slot = LENGTH};
	return unnamed(port, SONERWAL_OK);
}

struct sonerwal_port_step plain_port_crossing(struct sonerwal_request *list, size_t length, struct sonerwal_port port, uint8_t phy, uint64_t now)
{
	(void)list;
	(void)length;
	(void)phy;
	(void)now;
	return unnamed(port, SONERWAL_OK);
}
