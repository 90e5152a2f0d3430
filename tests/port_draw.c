#include "port_draw.h"

#include "check.h"
#include "port_met.h"

#include <string.h>

/* ---- Moods */

enum { MIXED, FEW_KEYS, LOSSY, CROWDED, BLOCKED, MOODS };

static const struct mood moods[MOODS] = {
	[MIXED] = {{0, 18, 4, 34, 14, 10, 12, 4, 5, 3}, {2, 1, 1, 2, 1, 4, 1, 2, 2, 1}, 8, 3, 3, 1000},
	[FEW_KEYS] = {{0, 22, 10, 30, 10, 10, 9, 5, 6, 5}, {2, 1, 1, 2, 1, 4, 1, 2, 2, 1}, 4, 2, 1, 500},
	[LOSSY] = {{0, 16, 2, 36, 2, 30, 4, 2, 6, 3}, {8, 0, 0, 8, 1, 8, 1, 2, 8, 0}, 8, 2, 4, 1000},
	[CROWDED] = {{0, 32, 3, 26, 10, 8, 8, 4, 6, 3}, {2, 1, 1, 2, 1, 4, 1, 2, 2, 1}, 8, 3, 12, 1000},
	[BLOCKED] = {{0, 3, 0, 54, 0, 43, 0, 0, 1, 0}, {0, 0, 0, 0, 0, 1, 0, 0, 0, 0}, 2, 1, 1, 6000}, /* up to PBC 255 */
};

static const unsigned mood_weights[MOODS] = {10, 10, 10, 10, 1};

static unsigned pick(const unsigned *weights, unsigned count)
{
	unsigned long sum = 0;
	for (unsigned i = 0; i < count; i++) {
		sum += weights[i];
	}
	uint64_t at = noise_below(sum);
	unsigned i = 0;
	while (at >= weights[i]) {
		at -= weights[i++];
	}
	return i;
}

const struct mood *any_mood(void)
{
	return &moods[pick(mood_weights, MOODS)];
}

/* ---- Setups */

struct order any_setup(const struct mood *mood)
{
	static const uint16_t losses[] = {1, 1, 2, 5, 50, NEVER, NEVER, 65534};
	struct order o = {.call = SETUP, .length = SLOTS, .count = (uint8_t)(1 + noise_below(mood->most_phys))};
	o.loss = noise_below(8) ? losses[noise_below(COUNT(losses))] : (uint16_t)(1 + noise_below(65535));
	return o;
}

struct order spoilt_setup(const struct order *good)
{
	struct order bad = *good;
	bad.length = noise_below(4) ? SLOTS : SLOTS + 1 - 2 * noise_below(2);
	bad.count = (uint8_t)(noise_below(3) ? noise_below(3) ? good->count : 9 + noise_below(247) : 0);
	bad.loss = noise_below(3) ? good->loss : 0;
	return bad;
}

/* ---- Times */

static uint64_t later(uint64_t last, uint64_t by)
{
	return UINT64_MAX - last < by ? UINT64_MAX : last + by;
}

/* When some loss timer is at the loss time, or a microsecond before or after. */
static uint64_t loss_time(const struct sonerwal_port *port, const struct sonerwal_request *list)
{
	unsigned from = (unsigned)noise_below(SLOTS);
	for (unsigned i = 0; i < SLOTS; i++) {
		const struct sonerwal_request *r = &list[(from + i) % SLOTS];
		uint64_t at = later(r->loss.at, port->loss * UINT64_C(1000));
		if (r->stage != 0 && r->loss.set && at > port->last) {
			return at - 1 + noise_below(3);
		}
	}
	return later(port->last, port->loss * UINT64_C(1000));
}

/* When a request that waits has a wait at an edge of the wait value, or a microsecond before or after. */
static uint64_t wait_time(const struct sonerwal_port *port, const struct sonerwal_request *list)
{
	static const uint64_t edges[] = {32768, 33768, 65768, 32799768};
	unsigned from = (unsigned)noise_below(SLOTS);
	for (unsigned i = 0; i < SLOTS; i++) {
		const struct sonerwal_request *r = &list[(from + i) % SLOTS];
		uint64_t at = later(r->first.at, edges[noise_below(COUNT(edges))]);
		if (r->stage == 1 && r->first.set && at > port->last) {
			return at - 1 + noise_below(3);
		}
	}
	return later(port->last, 15);
}

uint64_t any_time(const struct sonerwal_port *port, const struct sonerwal_request *list)
{
	static const unsigned weights[] = {26, 26, 8, 16, 8, 4, 3, 1, 1, 2, 1};
	switch (pick(weights, COUNT(weights))) {
	case 0:
		return port->last;
	case 1:
		return later(port->last, 1);
	case 2:
		return later(port->last, 14);
	case 3:
		return later(port->last, 15);
	case 4:
		return later(port->last, 1000);
	case 5:
		return loss_time(port, list);
	case 6:
		return wait_time(port, list);
	case 7:
		return later(port->last, 20000 + noise_below(30000));
	case 8:
		return later(port->last, noise_below(70000000));
	case 9:
		return port->last - (port->last > 0);
	default:
		return port->last - (port->last ? noise_below(port->last) : 0);
	}
}

/* ---- Keys and heads */

/* Addresses that differ in their first byte, in their last one, or in both. */
static uint64_t destination_of(uint64_t n)
{
	return UINT64_C(0x5003048000000001) + n % 2 * (UINT64_C(1) << 56) + n / 2;
}

static struct key any_key(const struct mood *mood)
{
	return (struct key){
		.destination = destination_of(noise_below(mood->destinations)),
		.protocol = (uint8_t)(noise_below(3) ? 1 : noise_below(3)),
		.tag = (uint16_t)(0xFFFF - noise_below(mood->tags) * 0x0101),
	};
}

static struct key present_key(const struct mood *mood, const struct sonerwal_request *list)
{
	unsigned from = (unsigned)noise_below(SLOTS);
	for (unsigned i = 0; i < SLOTS; i++) {
		const struct sonerwal_request *r = &list[(from + i) % SLOTS];
		if (r->stage != 0) {
			return (struct key){r->head.destination, r->head.protocol, r->head.tag};
		}
	}
	return any_key(mood);
}

static struct sonerwal_head any_head(const struct mood *mood, const struct sonerwal_request *list)
{
	struct key key = any_key(mood);
	for (int tries = 0; tries < 4 && record_of(list, key) != NULL; tries++) {
		key = any_key(mood);
	}
	struct sonerwal_head head = {
		.initiator = (uint8_t)noise_below(2),
		.protocol = key.protocol,
		.features = (uint16_t)noise_below(16),
		.rate = (uint16_t)(8 + noise_below(3)),
		.tag = key.tag,
		.destination = key.destination,
		.source = noise(),
	};
	switch (noise_below(200)) {
	case 0: head.initiator = (uint8_t)(2 + noise_below(254)); break;
	case 1: head.protocol = (uint8_t)(3 + noise_below(253)); break;
	case 2: head.features = (uint16_t)(16 + noise_below(240)); break;
	case 3: head.rate = (uint16_t)noise_below(8); break;
	case 4: head.rate = (uint16_t)(11 + noise_below(245)); break;
	default: break;
	}
	return head;
}

/* ---- Calls */

static bool suits(enum call call, unsigned stage)
{
	static const char *const stages[CALLS] = {
		[OPENED] = "2", [OPEN_FAILED] = "2", [FRAME_STATUS] = "46", [CLOSED] = "3456", [ENABLE] = "0", [DISABLE] = "123456",
	};
	return strchr(stages[call], (int)('0' + stage)) != NULL;
}

/* A phy that suits the call if there is one; now and then any. */
static uint8_t any_phy(const struct sonerwal_port *port, enum call call)
{
	unsigned from = (unsigned)noise_below(PHYS);
	if (noise_below(16) == 0) {
		return (uint8_t)noise_below(noise_below(4) ? PHYS + 2 : 256);
	}
	for (unsigned i = 0; i < PHYS; i++) {
		unsigned k = (from + i) % PHYS;
		if (k < port->count && port->phys[k].stage < STAGES && suits(call, port->phys[k].stage)) {
			return (uint8_t)k;
		}
	}
	return (uint8_t)noise_below(PHYS);
}

static bool has_phy_for(const struct sonerwal_port *port, enum call call)
{
	for (unsigned k = 0; k < port->count && k < PHYS; k++) {
		if (port->phys[k].stage < STAGES && suits(call, port->phys[k].stage)) {
			return true;
		}
	}
	return false;
}

static size_t any_length(void)
{
	static const size_t lengths[] = {0, 31, 33};
	return noise_below(300) ? SLOTS : lengths[noise_below(COUNT(lengths))];
}

struct order any_order(const struct mood *mood, const struct sonerwal_port *port, const struct sonerwal_request *list)
{
	struct order o = {.call = (enum call)pick(mood->weights, CALLS), .length = any_length()};
	for (int tries = 0; tries < 8 && o.call >= OPENED && !has_phy_for(port, o.call); tries++) {
		o.call = (enum call)pick(mood->weights, CALLS);
	}
	o.now = any_time(port, list);
	if (o.call >= OPENED) {
		o.phy = any_phy(port, o.call);
	}
	o.why = (uint8_t)(noise_below(100) ? pick(mood->reasons, REASONS) : noise_below(256));
	o.status = (uint8_t)noise();
	o.head = any_head(mood, list);
	o.key = noise_below(8) ? present_key(mood, list) : any_key(mood);
	if (noise_below(100) == 0) {
		o.key.protocol = (uint8_t)(noise_below(2) ? 3 : noise_below(256));
	}
	return o;
}
