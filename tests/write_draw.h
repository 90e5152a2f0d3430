/* What the cases of a write draw: requests, calls, and what a call is given. */
#ifndef SONERWAL_TESTS_WRITE_DRAW_H
#define SONERWAL_TESTS_WRITE_DRAW_H

#include "write_model.h"

/* Requests of few ranges and of many, of one byte and of more than can be followed, at both ends of the range, with few retries and
 * with many. */
struct request draw_write_request(void);

/* A call of one of the mixes: 0 has all alike, the others are a host that answers, one that loses, and firmware without bytes. */
enum { WRITE_MIXES = 4 };
enum call draw_write_call(int mix);

/* What a call on this write is given: mostly what is taken, else with one thing off. */
void draw_given(struct given *g, const struct upload *u, enum call call);

/* The frame in which a host that was asked by this head sends its data. */
void put_data_out(struct given *g, uint16_t transfer, uint32_t offset, const uint8_t *body, uint32_t length);

/* Whether a history can go on: there is room for another XFER_RDY, and for the longest frame. */
bool can_follow(const struct upload *u);

/* A write that some calls left, or that before START. */
void draw_upload(struct upload *u);

#endif
