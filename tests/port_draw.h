/*
 * Random calls of the port. Each is drawn for the state that it is to meet, so that most of them suit it and the others miss it in
 * every way; how often which comes is a run's mood.
 */
#ifndef SONERWAL_TESTS_PORT_DRAW_H
#define SONERWAL_TESTS_PORT_DRAW_H

#include "port_model.h"

/* How a run goes on. */
struct mood {
	unsigned weights[CALLS];
	unsigned reasons[REASONS];
	unsigned most_phys, destinations, tags;
	unsigned steps;
};

const struct mood *any_mood(void);

/* A setup that is taken, and one like it that may be refused. */
struct order any_setup(const struct mood *mood);
struct order spoilt_setup(const struct order *good);

/* A time from which to call: mostly the last one or a little later, now and then at an edge of a wait or of a loss time, or before. */
uint64_t any_time(const struct sonerwal_port *port, const struct sonerwal_request *list);

/* Any of the calls but setup. */
struct order any_order(const struct mood *mood, const struct sonerwal_port *port, const struct sonerwal_request *list);

#endif
