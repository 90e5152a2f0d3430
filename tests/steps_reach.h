/* Whether a transfer is one that some START and calls after it leave, shown by such calls on the model. */
#ifndef SONERWAL_TESTS_STEPS_REACH_H
#define SONERWAL_TESTS_STEPS_REACH_H

#include "steps_model.h"

/*
 * Gives whether the calls led there, and the model that they led. The calls are the nearest to what the numbers say, and tests/steps_lent.c
 * holds them against every transfer that a small request can come to. As many as the transfer has frames and resends are made.
 */
bool reached(const struct sonerwal_transfer *s, struct model *t);

#endif
