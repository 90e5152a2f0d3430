/* The rules of a lent state, over its records: which of them it breaks. */
#include "port_model_parts.h"

/* 01 PORT.4 01 OPEN.2 01 OPEN.3 */
bool model_head_listed(const struct sonerwal_head *head)
{
	return head->initiator <= 1 && head->protocol <= 2 && head->features <= 15 && head->rate >= 8 && head->rate <= 10;
}

/* 01 PORT.1 */
bool model_in_range(unsigned count, unsigned loss)
{
	return count >= 1 && count <= PHYS && loss >= 1;
}

/* 01 PORT.6 01 PORT.7 */
static unsigned phy_breaks(const struct sonerwal_port *port, const struct sonerwal_request *list, unsigned k)
{
	const struct sonerwal_phy *phy = &port->phys[k];
	bool names = phy->slot < NO_SLOT;
	bool opening = phy->stage == 2, out = phy->stage == 4 || phy->stage == 6, closing = phy->stage == 5;
	unsigned broken = 0;
	if (phy->stage > 6 || phy->slot > NO_SLOT || (k >= port->count && phy->stage != 0)) {
		broken |= 1u << RULE_NUMBERS;
	}
	if (phy->protocol > 2) {
		broken |= 1u << RULE_FIELDS;
	}
	if (phy->zero4 != 0 || phy->zero1 != 0) {
		broken |= 1u << RULE_ZEROS;
	}
	if (opening || out ? !names : names && !closing) {
		broken |= 1u << RULE_WHO;
	}
	if (names && !(list[phy->slot].stage == 2 && list[phy->slot].phy == k)) {
		broken |= 1u << RULE_NAMES;
	}
	return broken;
}

/* 01 PORT.9 */
static bool past(const struct sonerwal_request *r, uint64_t last)
{
	return r->submitted > last || r->retry.at > last || r->first.at > last || r->loss.at > last;
}

/* 01 PORT.8 01 PORT.10 */
static unsigned record_breaks(const struct sonerwal_port *port, const struct sonerwal_request *list, unsigned i)
{
	const struct sonerwal_request *r = &list[i];
	unsigned broken = 0;
	if (r->stage == 0) {
		return 0;
	}
	if (r->stage > 2 || r->cancelled > 1 || r->closed > 1 || r->retry.set > 1 || r->first.set > 1 || r->loss.set > 1) {
		broken |= 1u << RULE_NUMBERS;
	}
	if (!model_head_listed(&r->head)) {
		broken |= 1u << RULE_FIELDS;
	}
	if (r->stage == 2 && (r->phy >= PHYS || port->phys[r->phy].slot != i)) {
		broken |= 1u << RULE_NAMES;
	}
	if (r->stage == 1 && r->cancelled) {
		broken |= 1u << RULE_CANCELLED;
	}
	if (past(r, port->last)) {
		broken |= 1u << RULE_STAMPS;
	}
	if (r->loss.set && !model_is_ssp(&r->head)) {
		broken |= 1u << RULE_TIMERS;
	}
	return broken;
}

/* 01 PORT.5 01 PORT.10 */
static unsigned pair_breaks(const struct sonerwal_request *a, const struct sonerwal_request *b)
{
	unsigned broken = 0;
	if (a->stage == 0 || b->stage == 0 || a->head.destination != b->head.destination || a->head.protocol != b->head.protocol) {
		return 0;
	}
	if (a->head.tag == b->head.tag) {
		broken |= 1u << RULE_KEYS;
	}
	if (model_is_ssp(&a->head) && (a->loss.set != b->loss.set || (a->loss.set && a->loss.at != b->loss.at))) {
		broken |= 1u << RULE_TIMERS;
	}
	return broken;
}

unsigned model_breaks(const struct sonerwal_port *port, const struct sonerwal_request *list)
{
	unsigned broken = model_in_range(port->count, port->loss) ? 0 : 1u << RULE_SETUP;
	if (port->zero4 != 0 || port->zero1 != 0) {
		broken |= 1u << RULE_ZEROS;
	}
	for (unsigned k = 0; k < PHYS; k++) {
		broken |= phy_breaks(port, list, k);
	}
	for (unsigned i = 0; i < SLOTS; i++) {
		broken |= record_breaks(port, list, i);
		for (unsigned j = 0; j < i; j++) {
			broken |= pair_breaks(&list[j], &list[i]);
		}
	}
	return broken;
}
