/* XL's table, typed by hand from document 01, and what it says of a cell that the program xl_table prints. */
#ifndef SONERWAL_TESTS_XL_MODEL_H
#define SONERWAL_TESTS_XL_MODEL_H

#include <stdbool.h>

enum { STATES = 11, SIGNS = 6, CELL = 80 };

/* The signs of a memory, by place: frame held, OPEN remembered, latest AIP, BREAK, CLOSE, Blocked On Partial. */
enum sign { HELD, HEARD, AIP, BROKE, CLOSED, BLOCKED };

/* What an OPEN, the event's in XL6 or the one remembered in XL5, is to the frame transmitted: of higher priority; with its source as
 * destination, and its rate. */
struct crossing {
	bool higher, back;
};

bool link_keeps_rules(int state, const char *memory);

/* The cell of an event, which goes to out, and the sign of the link status. Needs room for CELL bytes. */
void link_cell(int state, const char *memory, const char *event, struct crossing crossing, char *out);
char link_status(int state, const char *memory);

#endif
