/*
 * The port's ten calls, as compiled, against a model that is written from document 01 alone (port_model.h): more than a million random
 * calls over many setups. After each one the answer, the port and the 32 records are compared field by field. A ledger that sees
 * only calls and answers holds them to two sentences of its own: a submitted request gets one last word, and a phy has one
 * request at a time.
 */
#include "check.h"
#include "port_call.h"
#include "port_draw.h"
#include "port_fields.h"
#include "port_ledger.h"
#include "port_met.h"
#include "port_model.h"

#include <inttypes.h>
#include <stdio.h>
#include <string.h>

enum { LEAST_CALLS = 1000000, SHOWN = 10 };

/* All calls; those on lent states with a field changed; of these, on states that keep the rules; and those that differed. */
static unsigned long calls, lent, kept, wrong;

/* ---- One call of both */

struct world {
	struct sonerwal_port port;
	struct sonerwal_request list[SLOTS + 1]; /* one more, to lend 33 */
	struct model *model;
	bool odd; /* it came from a lent state that no call leaves */
};

/* Of the head that is submitted, what isn't looked at holds anything. */
static struct sonerwal_open any_submission(struct sonerwal_head head)
{
	struct sonerwal_open open = open_of(head);
	noise_fill(&open.zero4, sizeof open.zero4);
	noise_fill(&open.zero2, sizeof open.zero2);
	noise_fill(&open.zero1, sizeof open.zero1);
	noise_fill(&open.awt, sizeof open.awt);
	noise_fill(&open.pbc, sizeof open.pbc);
	return open;
}

static void tell(const struct order *o, const struct world *before, const struct difference *d)
{
	const struct sonerwal_port *port = &before->port;
	struct key key = o->call == CANCEL ? o->key : (struct key){o->head.destination, o->head.protocol, o->head.tag};
	if (wrong++ >= SHOWN) {
		return;
	}
	printf("FAILED: call %lu, %s, %zu records, time %" PRIu64 ", phy %u, reason %u, key %" PRIX64 "/%u/%u", calls, call_names[o->call], o->length,
	       o->now, o->phy, o->why, key.destination, key.protocol, key.tag);
	printf(", on %u phys, loss time %u, last time %" PRIu64 "%s", port->count, port->loss, port->last, before->odd ? ", a lent state" : "");
	printf(": %s: the model has %" PRIu64 ", the port %" PRIu64 "\n", d->name, d->expected, d->found);
}

/* The state that the model says comes of `before`; a refusal leaves everything, and setup has no port to give back. */
static void show_after(const struct world *before, enum call call, enum word word, struct world *after)
{
	*after = *before;
	if (word != REFUSED) {
		model_show(before->model, &after->port, after->list);
	} else if (call == SETUP) {
		memset(&after->port, 0, sizeof after->port);
	}
}

/* Gives the call to both and compares everything; false if they differ. */
static bool play(struct world *w, const struct order *o, struct sonerwal_port_step *reply)
{
	static struct world before, after;
	struct difference d = {.name = ""};
	before = *w;
	*reply = port_call(w->list, &w->port, o, any_submission(o->head));
	struct said said = model_call(w->model, o);
	bool odd = w->odd && said.word != REFUSED;
	show_after(&before, o->call, (enum word)said.word, &after);
	compare_answer(&d, &said, reply);
	compare_port(&d, &after.port, &reply->port, odd);
	compare_list(&d, after.list, w->list, COUNT(w->list), odd);
	calls++;
	met_call(&before.port, before.list, before.odd, o, &said);
	if (d.name[0] != '\0') {
		tell(o, &before, &d);
	}
	if (!(o->call == SETUP && said.word == REFUSED)) {
		w->port = reply->port;
	}
	return d.name[0] == '\0';
}

/* ---- Runs */

struct run {
	const struct mood *mood;
	struct world world;
};

/*
 * Calls on a copy of the run's state with a field changed.
 * 01 PORT.4 01 PORT.5 01 PORT.6 01 PORT.7 01 PORT.8 01 PORT.9 01 PORT.10 01 REFUSAL.3
 */
static void lend_changed(const struct run *run, struct model *model)
{
	static struct world w;
	w = run->world;
	w.model = model;
	w.odd = true;
	change_state(&w.port, w.list);
	unsigned broken = model_take(model, &w.port, w.list);
	met_rules(broken);
	uint64_t steps = broken ? 1 : 1 + noise_below(5);
	for (uint64_t i = 0; i < steps; i++) {
		struct sonerwal_port_step reply;
		struct order o = any_order(run->mood, &w.port, w.list);
		lent++;
		kept += broken == 0;
		if (!play(&w, &o, &reply)) {
			return;
		}
	}
}

static bool step(struct run *run, const struct order *o)
{
	struct sonerwal_port_step reply;
	if (!play(&run->world, o, &reply)) {
		return false;
	}
	if (!ledger_hear(o->call, &reply)) {
		wrong++;
		printf("FAILED: call %lu: %s after %s does not fit what was said of its request before\n", calls, sonerwal_answer_name(reply.answer),
		       call_names[o->call]);
		return false;
	}
	return true;
}

/* Some refused setups and one that is taken, over a list that may hold anything. */
static bool begin(struct run *run)
{
	struct world *w = &run->world;
	struct order o = any_setup(run->mood);
	if (noise_below(4) == 0) {
		noise_fill(w->list, sizeof w->list);
		model_take(w->model, &w->port, w->list);
	}
	if (noise_below(4) == 0) {
		struct order bad = spoilt_setup(&o);
		if (!step(run, &bad)) {
			return false;
		}
	}
	ledger_begin();
	return step(run, &o);
}

static bool enable_some(struct run *run)
{
	for (uint8_t k = 0; k < run->world.port.count; k++) {
		struct order o = {.call = ENABLE, .length = SLOTS, .phy = k, .now = any_time(&run->world.port, run->world.list)};
		if (noise_below(6) && !step(run, &o)) {
			return false;
		}
	}
	return true;
}

/* Near the last microsecond that there is. */
static bool age(struct run *run)
{
	struct order o = {.call = CHOOSE, .length = SLOTS, .now = UINT64_MAX - noise_below(100000)};
	return step(run, &o);
}

/* Cancels every request and disables every phy: then each has had its last word. */
static bool drain(struct run *run)
{
	struct world *w = &run->world;
	struct order o = {.length = SLOTS, .now = w->port.last};
	for (unsigned i = 0; i < SLOTS; i++) {
		const struct sonerwal_request *r = &w->list[i];
		o.call = CANCEL;
		o.key = (struct key){r->head.destination, r->head.protocol, r->head.tag};
		if (r->stage != 0 && !r->cancelled && !step(run, &o)) {
			return false;
		}
	}
	for (o.phy = 0; o.phy < w->port.count; o.phy++) {
		o.call = DISABLE;
		if (w->port.phys[o.phy].stage != 0 && !step(run, &o)) {
			return false;
		}
	}
	if (ledger_live() > 0) {
		wrong++;
		printf("FAILED: call %lu: %u requests had no last word\n", calls, ledger_live());
	}
	return ledger_live() == 0;
}

static bool go_on(struct run *run, struct model *scratch)
{
	uint64_t steps = 20 + noise_below(run->mood->steps);
	for (uint64_t i = 0; i < steps; i++) {
		struct order o = any_order(run->mood, &run->world.port, run->world.list);
		if (!step(run, &o)) {
			return false;
		}
		if (noise_below(8) == 0) {
			lend_changed(run, scratch);
		}
	}
	return true;
}

static void any_runs(void)
{
	static struct run run;
	struct model *scratch = model_new();
	unsigned long runs = 0;
	run.world.model = model_new();
	while (calls - lent < LEAST_CALLS && wrong < SHOWN) {
		run.mood = any_mood();
		runs++;
		if (!begin(&run) || !enable_some(&run) || (noise_below(40) == 0 && !age(&run)) || !go_on(&run, scratch)) {
			continue;
		}
		if (noise_below(4)) {
			drain(&run);
		}
	}
	model_free(run.world.model);
	model_free(scratch);
	printf("%lu calls over %lu setups, and %lu on lent states with a field changed, %lu of them by the rules\n", calls - lent, runs,
	       lent, kept);
	check(wrong == 0, "%lu calls differ", wrong);
	check(calls - lent >= LEAST_CALLS, "the run ended early");
	check(ledger_ended() > 0, "the ledger heard no last word");
	printf("ledger: %lu submitted, %lu last words\n", ledger_submitted(), ledger_ended());
}

int main(int argc, char **argv)
{
	noise_begin(argc, argv, UINT64_C(0x50C1A103));
	any_runs();
	met_show();
	return check_end("ports");
}
