#include "port_fields.h"

#include "check.h"

#include <stdio.h>
#include <string.h>

struct field {
	const char *name;
	size_t at, width;
};

#define FIELD(type, member) {#member, offsetof(struct type, member), sizeof(((struct type *)0)->member)}

static const struct field port_fields[] = {FIELD(sonerwal_port, count), FIELD(sonerwal_port, loss), FIELD(sonerwal_port, last), FIELD(sonerwal_port, zero4), FIELD(sonerwal_port, zero1)};

static const struct field phy_fields[] = {FIELD(sonerwal_phy, stage), FIELD(sonerwal_phy, slot), FIELD(sonerwal_phy, protocol), FIELD(sonerwal_phy, destination), FIELD(sonerwal_phy, zero4), FIELD(sonerwal_phy, zero1)};

static const struct field request_fields[] = {
	FIELD(sonerwal_request, stage),
	FIELD(sonerwal_request, phy),
	FIELD(sonerwal_request, cancelled),
	FIELD(sonerwal_request, closed),
	FIELD(sonerwal_request, pbc),
	FIELD(sonerwal_request, awt),
	FIELD(sonerwal_request, head.initiator),
	FIELD(sonerwal_request, head.protocol),
	FIELD(sonerwal_request, head.features),
	FIELD(sonerwal_request, head.rate),
	FIELD(sonerwal_request, head.tag),
	FIELD(sonerwal_request, head.destination),
	FIELD(sonerwal_request, head.source),
	FIELD(sonerwal_request, submitted),
	FIELD(sonerwal_request, retry.set),
	FIELD(sonerwal_request, retry.at),
	FIELD(sonerwal_request, first.set),
	FIELD(sonerwal_request, first.at),
	FIELD(sonerwal_request, loss.set),
	FIELD(sonerwal_request, loss.at),
};

static const struct field frame_fields[] = {
	FIELD(sonerwal_open, initiator),
	FIELD(sonerwal_open, protocol),
	FIELD(sonerwal_open, features),
	FIELD(sonerwal_open, rate),
	FIELD(sonerwal_open, tag),
	FIELD(sonerwal_open, destination),
	FIELD(sonerwal_open, source),
	FIELD(sonerwal_open, pbc),
	FIELD(sonerwal_open, awt),
	FIELD(sonerwal_open, zero4),
	FIELD(sonerwal_open, zero2),
	FIELD(sonerwal_open, zero1),
};

static uint64_t get(const void *from, const struct field *field)
{
	const unsigned char *at = (const unsigned char *)from + field->at;
	uint16_t two;
	uint32_t four;
	uint64_t eight;
	switch (field->width) {
	case 1:
		return *at;
	case 2:
		memcpy(&two, at, sizeof two);
		return two;
	case 4:
		memcpy(&four, at, sizeof four);
		return four;
	default:
		memcpy(&eight, at, sizeof eight);
		return eight;
	}
}

static void put(void *to, const struct field *field, uint64_t value)
{
	unsigned char *at = (unsigned char *)to + field->at;
	uint8_t one = (uint8_t)value;
	uint16_t two = (uint16_t)value;
	uint32_t four = (uint32_t)value;
	const void *from = field->width == 1 ? (void *)&one : field->width == 2 ? (void *)&two : field->width == 4 ? (void *)&four : (void *)&value;
	memcpy(at, from, field->width);
}

static bool means_nothing(const void *thing, const struct field *fields, const struct field *field)
{
	if (fields == phy_fields) {
		const struct sonerwal_phy *phy = thing;
		return phy->stage < 3 && (field->at == offsetof(struct sonerwal_phy, protocol) || field->at == offsetof(struct sonerwal_phy, destination));
	}
	if (fields == request_fields) {
		const struct sonerwal_request *r = thing;
		return r->stage != 0 && ((field->at == offsetof(struct sonerwal_request, phy) && r->stage != 2) ||
		                         (field->at == offsetof(struct sonerwal_request, retry.at) && !r->retry.set) ||
		                         (field->at == offsetof(struct sonerwal_request, first.at) && !r->first.set) ||
		                         (field->at == offsetof(struct sonerwal_request, loss.at) && !r->loss.set));
	}
	return false;
}

/* ---- Compare */

static void differ(struct difference *d, const char *name, uint64_t expected, uint64_t found)
{
	if (expected != found && d->name[0] == '\0') {
		snprintf(d->name, sizeof d->name, "%s", name);
		d->expected = expected;
		d->found = found;
	}
}

static void compare(struct difference *d, const char *what, const void *expected, const void *found, const struct field *fields, size_t count,
                    bool odd)
{
	char name[48];
	for (size_t i = 0; i < count; i++) {
		uint64_t a = get(expected, &fields[i]), b = get(found, &fields[i]);
		if (a != b && !(odd && means_nothing(expected, fields, &fields[i]))) {
			snprintf(name, sizeof name, "%s %s", what, fields[i].name);
			differ(d, name, a, b);
		}
	}
}

void compare_answer(struct difference *d, const struct said *expected, const struct sonerwal_port_step *found)
{
	differ(d, "answer", answer_of((enum word)expected->word, expected->detail), found->answer);
	differ(d, "detail", detail_of((enum word)expected->word, expected->detail), found->detail);
	differ(d, "slot", expected->slot, found->slot);
	differ(d, "phy", expected->phy, found->phy);
	compare(d, "frame", &expected->frame, &found->frame, frame_fields, COUNT(frame_fields), false);
}

void compare_port(struct difference *d, const struct sonerwal_port *expected, const struct sonerwal_port *found, bool odd)
{
	char what[16];
	compare(d, "port", expected, found, port_fields, COUNT(port_fields), odd);
	for (unsigned k = 0; k < PHYS; k++) {
		snprintf(what, sizeof what, "phy %u", k);
		compare(d, what, &expected->phys[k], &found->phys[k], phy_fields, COUNT(phy_fields), odd);
	}
}

void compare_list(struct difference *d, const struct sonerwal_request *expected, const struct sonerwal_request *found, size_t length, bool odd)
{
	char what[32];
	for (size_t i = 0; i < length; i++) {
		if (memcmp(&expected[i], &found[i], sizeof *expected) != 0) {
			snprintf(what, sizeof what, "record %zu", i);
			compare(d, what, &expected[i], &found[i], request_fields, COUNT(request_fields), odd);
		}
	}
}

/* ---- Change */

static uint64_t another(uint64_t old, const void *brother, const struct field *field)
{
	switch (noise_below(7)) {
	case 0:
		return old + 1;
	case 1:
		return old - 1;
	case 2:
		return noise_below(8);
	case 3:
		return noise_below(40);
	case 4:
		return noise();
	default:
		return get(brother, field);
	}
}

static void change_field(void *thing, const void *brother, const struct field *fields, size_t count)
{
	const struct field *field = &fields[noise_below(count)];
	put(thing, field, another(get(thing, field), brother, field));
}

static void change_port(struct sonerwal_port *port)
{
	change_field(port, port, port_fields, COUNT(port_fields));
}

static void change_phy(struct sonerwal_phy *phy, const struct sonerwal_phy *brother)
{
	change_field(phy, brother, phy_fields, COUNT(phy_fields));
}

static void change_request(struct sonerwal_request *request, const struct sonerwal_request *brother)
{
	change_field(request, brother, request_fields, COUNT(request_fields));
}

/* A record that is present, mostly. */
static struct sonerwal_request *some_record(struct sonerwal_request *list)
{
	unsigned from = (unsigned)noise_below(SLOTS);
	for (unsigned i = 0; i < SLOTS && noise_below(50); i++) {
		if (list[(from + i) % SLOTS].stage != 0) {
			return &list[(from + i) % SLOTS];
		}
	}
	return &list[from];
}

/* A phy that names a request goes on to another stage in which it may. */
static void change_stage(struct sonerwal_port *port)
{
	static const uint8_t stages[] = {2, 4, 5, 6};
	unsigned from = (unsigned)noise_below(PHYS);
	for (unsigned i = 0; i < PHYS; i++) {
		struct sonerwal_phy *phy = &port->phys[(from + i) % PHYS];
		if (phy->slot < SLOTS) {
			phy->stage = stages[noise_below(COUNT(stages))];
			return;
		}
	}
}

void change_state(struct sonerwal_port *port, struct sonerwal_request *list)
{
	switch (noise_below(9)) {
	case 0:
		change_port(port);
		break;
	case 1:
	case 2:
		change_phy(&port->phys[noise_below(PHYS)], &port->phys[noise_below(PHYS)]);
		break;
	case 3:
		change_stage(port);
		break;
	default:
		change_request(some_record(list), some_record(list));
		break;
	}
}
