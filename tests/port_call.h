/* One of the port's ten calls, as sonerwal.h has it, by an order. */
#ifndef SONERWAL_TESTS_PORT_CALL_H
#define SONERWAL_TESTS_PORT_CALL_H

#include "port_model.h"

/* The head is what a submit gives. */
struct sonerwal_port_step port_call(struct sonerwal_request *list, const struct sonerwal_port *port, const struct order *o,
                                    struct sonerwal_open head);

#endif
