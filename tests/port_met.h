/* What the calls met: every answer, reason and refusal, cancel and disable in each place. What none met is a failure. */
#ifndef SONERWAL_TESTS_PORT_MET_H
#define SONERWAL_TESTS_PORT_MET_H

#include "port_model.h"

extern const char *const call_names[CALLS], *const word_names[WORDS];

/* The record of a key; NULL if it is absent. */
const struct sonerwal_request *record_of(const struct sonerwal_request *list, struct key key);

/* A call on a state; an odd one came from a lent state that no call leaves. */
void met_call(const struct sonerwal_port *port, const struct sonerwal_request *list, bool odd, const struct order *order, const struct said *said);

/* A lent state that breaks these rules. */
void met_rules(unsigned broken);

/* Prints the counts and checks them. */
void met_show(void);

#endif
