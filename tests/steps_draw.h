/* What the cases of a transfer draw: requests, calls, and what a next-frame call is given. */
#ifndef SONERWAL_TESTS_STEPS_DRAW_H
#define SONERWAL_TESTS_STEPS_DRAW_H

#include "steps_model.h"

/* Requests of few frames and of many, at both ends of the range, with few resends and with many. */
struct request draw_request(void);

/* The same, one in four with a number off. */
struct request draw_any_request(void);

/* Data that mostly has this length, with hashed addresses and room that mostly are right. */
void draw_sending(struct sending *g, uint32_t length);

/* A call of one of the mixes: 0 has all alike. */
enum { MIXES = 3 };
enum call draw_call(int mix);

/* A transfer that some calls left, often where much is unanswered, or that before START. */
void draw_transfer(struct model *t);

#endif
