/*
 * Calls of the port, of sonerwal.h, against plain C of the same signatures, in nanoseconds for one call: choose and submit with 32
 * requests present, or 31 where one is submitted; and the test of the rules by itself, which every call makes.
 *
 * Usage: ports [--strict]        --strict: exit 1 if a ratio is above the goal
 *
 * Both sides run in one process, by turns, through pointers to functions of other files, so that neither is inlined, each on its
 * own list of the same requests. A record that a call changed is put back before the next. The answers go into a sum,
 * and the lists are compared byte by byte. What it costs to hand a port over and back is measured apart.
 */
#include "compare.h"
#include "plain_ports.h"

#include <string.h>

enum { CALLS = 200, LENGTH = SONERWAL_SLOTS, PHYS = SONERWAL_PHYS, DESTINATIONS = 8 };
enum { NOTHING_QUALIFIES, LAST_QUALIFIES, ONE_FREE, FULL_LIST };

struct caller {
	__typeof__(sonerwal_port_submit) *submit;
	__typeof__(sonerwal_port_choose) *choose;
	__typeof__(sonerwal_port_enable) *enable;
};

static const struct caller callers[SIDES] = {
	[PLAIN] = {plain_port_submit, plain_port_choose, plain_port_enable},
	[OURS] = {sonerwal_port_submit, sonerwal_port_choose, sonerwal_port_enable},
};

static struct sonerwal_request lists[SIDES][LENGTH];
static struct sonerwal_request saved;
static struct sonerwal_port port;
static struct sonerwal_open head;

static struct sonerwal_request request(int i)
{
	struct sonerwal_request r;
	memset(&r, 0, sizeof r);
	r.stage = SONERWAL_REQUEST_WAITING;
	r.head = (struct sonerwal_head){1, 1, 0, 9, (uint16_t)i, 0x5000c50000000000u + (uint64_t)(i % DESTINATIONS), 0x5000c500000000ffu};
	r.submitted = 1000 - (uint64_t)i;
	return r;
}

/* Phys that are closing, or unconnected; requests that came later at lower places, so that choose takes the last. */
static void prepare(size_t kind)
{
	memset(&port, 0, sizeof port);
	port.count = PHYS;
	port.loss = 2000;
	port.last = 1000;
	for (int k = 0; k < PHYS; k++) {
		port.phys[k].stage = kind == LAST_QUALIFIES ? SONERWAL_PHY_UNCONNECTED : SONERWAL_PHY_CLOSING;
		port.phys[k].slot = SONERWAL_NO_SLOT;
	}
	for (int i = 0; i < LENGTH; i++) {
		lists[PLAIN][i] = request(i);
	}
	memset(&head, 0, sizeof head);
	head.destination = lists[PLAIN][LENGTH - 1].head.destination;
	head.source = lists[PLAIN][LENGTH - 1].head.source;
	head.initiator = 1;
	head.protocol = SONERWAL_PROTOCOL_SSP;
	head.rate = SONERWAL_RATE_3_GBPS;
	head.tag = 1000;
	if (kind == ONE_FREE) {
		memset(&lists[PLAIN][LENGTH - 1], 0, sizeof saved);
	}
	saved = lists[PLAIN][LENGTH - 1];
	memcpy(lists[OURS], lists[PLAIN], sizeof lists[OURS]);
}

static int same(void)
{
	return memcmp(lists[PLAIN], lists[OURS], sizeof lists[PLAIN]) == 0;
}

static uint64_t digest(const struct sonerwal_port_step *r)
{
	return r->answer + 256 * (uint64_t)r->slot + 65536 * (uint64_t)r->phy + r->detail + r->frame.destination + r->frame.awt + r->port.last;
}

/* Each call meets the same list: only its last record changes, and is put back. */
static uint64_t choose(enum side side)
{
	uint64_t sum = 0;
	for (int i = 0; i < CALLS; i++) {
		lists[side][LENGTH - 1] = saved;
		struct sonerwal_port_step r = callers[side].choose(lists[side], LENGTH, port, 1001);
		sum = sum * 31 + digest(&r);
	}
	return sum;
}

static uint64_t submit(enum side side)
{
	uint64_t sum = 0;
	for (int i = 0; i < CALLS; i++) {
		lists[side][LENGTH - 1] = saved;
		struct sonerwal_port_step r = callers[side].submit(lists[side], LENGTH, port, head, 1001);
		sum = sum * 31 + digest(&r);
	}
	return sum;
}

/* A call about a phy that the port doesn't have: it tests the rules, and is refused with 4. */
static uint64_t rules(enum side side)
{
	uint64_t sum = 0;
	for (int i = 0; i < CALLS; i++) {
		struct sonerwal_port_step r = callers[side].enable(lists[side], LENGTH, port, PHYS, 1001);
		sum = sum * 31 + digest(&r);
	}
	return sum;
}

static uint64_t crossings(void)
{
	__typeof__(plain_port_crossing) *volatile crossing = plain_port_crossing;
	uint64_t sum = 0;
	for (int i = 0; i < CALLS; i++) {
		struct sonerwal_port_step r = crossing(lists[PLAIN], LENGTH, port, 0, 1001);
		sum = sum * 31 + digest(&r);
	}
	return sum;
}

static struct row rows[] = {
	{"choose, nothing", choose, CALLS, NOTHING_QUALIFIES, {0}},
	{"choose, the last", choose, CALLS, LAST_QUALIFIES, {0}},
	{"submit", submit, CALLS, ONE_FREE, {0}},
	{"submit, full", submit, CALLS, FULL_LIST, {0}},
	{"the rules alone", rules, CALLS, NOTHING_QUALIFIES, {0}},
};

int main(int argc, char **argv)
{
	struct bench bench = {"port's call", rows, sizeof rows / sizeof *rows, 2.00, prepare, same};
	int status = compare(&bench, argc, argv);
	show_crossing("port's", crossings, CALLS);
	return status;
}
