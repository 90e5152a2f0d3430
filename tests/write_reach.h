/* Whether a write is one that some START and calls after it leave, shown by such calls on the model. */
#ifndef SONERWAL_TESTS_WRITE_REACH_H
#define SONERWAL_TESTS_WRITE_REACH_H

#include "write_model.h"

/*
 * Gives whether the calls led there, and the model that they led. The calls are the nearest to what the numbers say, and tests/writes_lent.c
 * holds them against every write that a small request can come to.
 */
bool upload_reached(const struct sonerwal_write *s, struct upload *u);

/* Whether as many bytes and XFER_RDYs as the numbers say can be followed; of another nothing is said. */
bool can_reach(const struct sonerwal_write *s);

#endif
