/* A link as C lends it, made of the signs of tests/xl_model.h, and a step of sonerwal.h written as a cell of the same. */
#ifndef SONERWAL_TESTS_XL_FACE_H
#define SONERWAL_TESTS_XL_FACE_H

#include "sonerwal.h"
#include "xl_model.h"

/* The frames of a case: held and remembered before the step, and the event's. Their tags tell them apart. */
struct frames {
	struct sonerwal_open held, heard, event;
};

/* The event that a word of document 01 names, as OPEN_REJECT(3), and the word of an event; NULL if it is none. */
struct sonerwal_event event_named(const char *word);
const char *event_word(struct sonerwal_event e);

/* The link with this memory; a frame that a sign says is not there is all zeros. */
struct sonerwal_link link_of(int state, const char *memory, const struct frames *frames, uint32_t unexpected);

/* The signs of a link's memory; ? for a frame that is none of the case's. */
void memory_of(const struct sonerwal_link *s, const struct frames *frames, char *memory);

/*
 * What came of a link as a cell. A refusal is its number alone only if the link came back to the last byte and the four actions are 0 0;
 * a frame that an action speaks of is the one of sonerwal_link_frame(). Else the cell says what is off.
 */
void step_cell(const struct sonerwal_link *s, const struct sonerwal_link_step *step, const struct frames *frames, char *out);

/* The same of an event. */
void face_cell(const struct sonerwal_link *s, struct sonerwal_event e, const struct frames *frames, char *out);

#endif
