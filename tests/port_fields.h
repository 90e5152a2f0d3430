/* The port's states and answers field by field: to compare two, and to change one. No byte lies between members. */
#ifndef SONERWAL_TESTS_PORT_FIELDS_H
#define SONERWAL_TESTS_PORT_FIELDS_H

#include "port_model.h"

/* Where two differ first; the name is empty if they don't. */
struct difference {
	char name[48];
	uint64_t expected, found;
};

void compare_answer(struct difference *d, const struct said *expected, const struct sonerwal_port_step *found);

/*
 * A lent state that keeps the rules can hold numbers that mean nothing: where a phy was connected that isn't, the phy of a request that
 * waits, a time that has not come. Document 01 does not say what becomes of them; they don't count if the state is odd.
 */
void compare_port(struct difference *d, const struct sonerwal_port *expected, const struct sonerwal_port *found, bool odd);
void compare_list(struct difference *d, const struct sonerwal_request *expected, const struct sonerwal_request *found, size_t length, bool odd);

/* Gives one field another value, often that of the same field of another phy or record. */
void change_state(struct sonerwal_port *port, struct sonerwal_request *list);

#endif
