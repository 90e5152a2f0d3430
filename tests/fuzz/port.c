/*
 * A port and a list of any bytes, or of a setup, and calls with any arguments, as long as the input has bytes. The model of tests/
 * says what each call answers; a refusal names nothing and leaves every byte of the port and of the list, and of no call is a zero
 * member anything but 0.
 */
#include "../port_call.h"
#include "input.h"

#include <string.h>

static struct sonerwal_request list[SLOTS], before[SLOTS];

static int left(const struct input *in)
{
	return in->at < in->end;
}

/* A listed head, mostly: else hardly a request would come. */
static struct sonerwal_head any_head(struct input *in)
{
	uint8_t off = (uint8_t)number(in, 1);
	struct sonerwal_head head = {
		.initiator = off & 1, .protocol = (off >> 1) % 3, .rate = 8 + (off >> 3) % 3, .tag = off >> 5, .destination = number(in, 1) % 4,
	};
	if (off == 255) {
		head.initiator = (uint8_t)number(in, 1);
		head.protocol = (uint8_t)number(in, 1);
		head.features = (uint8_t)number(in, 1);
		head.rate = (uint8_t)number(in, 1);
	}
	return head;
}

/* Small times and phys, so that calls meet each other. */
static struct order any_call(struct input *in, const struct sonerwal_port *port)
{
	struct order o = {.call = (enum call)(number(in, 1) % CALLS), .length = SLOTS};
	uint8_t odd = (uint8_t)number(in, 1);
	o.now = port->last + odd % 64;
	o.phy = (uint8_t)(number(in, 1) % 9);
	o.why = o.status = (uint8_t)(number(in, 1) % 12);
	o.head = any_head(in);
	o.key = (struct key){o.head.destination, o.head.protocol, o.head.tag};
	o.count = (uint8_t)(1 + o.phy);
	o.loss = (uint16_t)(1 + odd);
	if (odd == 255) {
		o.length = number(in, 1) % (SLOTS + 1);
		o.now = number(in, 8);
		o.count = (uint8_t)number(in, 1);
		o.loss = (uint16_t)number(in, 2);
	}
	return o;
}

static int is_zeroed(const struct sonerwal_port *port)
{
	uint32_t any = port->zero4 | port->zero1;
	for (unsigned k = 0; k < PHYS; k++) {
		any |= port->phys[k].zero4 | port->phys[k].zero1;
	}
	return any == 0;
}

static void judge(const struct sonerwal_port *port, const struct order *o, const struct sonerwal_port_step *r, const struct said *want)
{
	static const struct sonerwal_port none;
	static const struct sonerwal_open nothing;
	require(r->answer == answer_of((enum word)want->word, want->detail), "port: another answer");
	require(r->detail == detail_of((enum word)want->word, want->detail), "port: another detail");
	require(r->slot == want->slot && r->phy == want->phy, "port: another slot or phy");
	require(memcmp(&r->frame, &want->frame, sizeof r->frame) == 0, "port: another frame");
	if (want->word == REFUSED) {
		require(memcmp(&r->port, o->call == SETUP ? &none : port, sizeof r->port) == 0, "port: a refusal changed it");
		require(memcmp(list, before, sizeof list) == 0, "port: a refusal changed a record");
		require(r->slot == NO_SLOT && r->phy == NO_PHY && memcmp(&r->frame, &nothing, sizeof nothing) == 0, "port: a refusal names something");
	} else {
		require(is_zeroed(&r->port), "port: a zero member isn't 0");
	}
}

/* Any byte anywhere in what is lent. */
static void spoil(struct input *in, struct sonerwal_port *port)
{
	size_t at = number(in, 2) % (sizeof *port + sizeof list);
	uint8_t byte = (uint8_t)number(in, 1);
	if (at < sizeof *port) {
		((uint8_t *)port)[at] = byte;
	} else {
		((uint8_t *)list)[at - sizeof *port] = byte;
	}
}

void try_port(struct input *in)
{
	struct sonerwal_port port;
	struct model *model = model_new();
	memset(&port, 0, sizeof port);
	memset(list, 0, sizeof list);
	if (number(in, 1) % 2) {
		fill(in, &port, sizeof port);
		fill(in, list, number(in, 1) % (SLOTS + 1) * sizeof *list);
	}
	model_take(model, &port, list);
	do {
		if (number(in, 1) % 16 == 15) {
			spoil(in, &port);
			model_take(model, &port, list);
		}
		struct order o = any_call(in, &port);
		memcpy(before, list, sizeof list);
		struct sonerwal_port_step r = port_call(list, &port, &o, open_of(o.head));
		struct said want = model_call(model, &o);
		judge(&port, &o, &r, &want);
		if (want.word != REFUSED) {
			port = r.port;
		}
	} while (left(in));
	model_free(model);
}
