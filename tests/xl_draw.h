/* What the cases of a lent link draw: events that have a name, frames that often cross, and links that keep their rules. */
#ifndef SONERWAL_TESTS_XL_DRAW_H
#define SONERWAL_TESTS_XL_DRAW_H

#include "xl_face.h"

#include <stddef.h>

enum { NAMED = 48 };

extern struct sonerwal_event named_events[NAMED];

/* Finds the events that have a name, and gives how many there are. */
size_t name_events(void);

/* One of them. */
struct sonerwal_event draw_event(void);

/* Three frames of OPEN's fields, with anything in the zero members of the event's. */
void draw_frames(struct frames *frames);

/* A link that keeps its rules and has the frames, if it has any. */
struct sonerwal_link draw_link(int state, const struct frames *frames);

#endif
