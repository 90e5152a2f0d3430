/*
 * A port written from document 01 alone, to hold the proved one against. Requests are a chain in the order in which choose considers
 * them, phys point to the request that they name, and a loss timer belongs to a destination and not to a record. Only
 * model_take and model_show know the 32 records.
 */
#ifndef SONERWAL_TESTS_PORT_MODEL_H
#define SONERWAL_TESTS_PORT_MODEL_H

#include "ports.h"

#include <stdbool.h>

enum call { SETUP, SUBMIT, CANCEL, CHOOSE, OPENED, OPEN_FAILED, FRAME_STATUS, CLOSED, ENABLE, DISABLE, CALLS };

/* One call of the ten; only its own members count. */
struct order {
	enum call call;
	size_t length; /* of the list */
	uint64_t now;
	uint8_t phy, why, status;
	struct sonerwal_head head;
	struct key key;
	uint8_t count;
	uint16_t loss;
};

/* Rules of a lent state, each a bit. */
enum rule { RULE_SETUP, RULE_FIELDS, RULE_KEYS, RULE_NAMES, RULE_WHO, RULE_CANCELLED, RULE_STAMPS, RULE_TIMERS, RULE_NUMBERS, RULE_ZEROS, RULES };

/* What happened on the way to an answer, each a bit. */
enum note {
	TOO_SOON,         /* choose passed a request that was retried 14 microseconds ago or less */
	AFTER_14,         /* ... exactly 14 */
	AFTER_15,         /* choose took one exactly 15 microseconds after its retry */
	TIE,              /* choose took one of two that were submitted at the same time */
	PASSED_ON,        /* choose passed a request that had no phy */
	CLOSED_BEFORE,    /* ... though one is connected elsewhere and idle, as one was closed for it before */
	SEVERAL_PHYS,     /* more than one was free for the step */
	WAIT_SHORT,       /* Open carries a wait below 32,768 */
	WAIT_LONG,        /* ... from there on */
	WAIT_TOP,         /* ... 65,535 */
	BLOCKED_AT_TOP,   /* Pathway Blocked at PBC 255 */
	TIMER_STARTED,
	TIMER_RAN,        /* a reason that starts a timer met a running one */
	TIMER_STOPPED,
	TIMER_JOINED,     /* a request came to a destination with a running timer */
	TIMER_LEFT,       /* one of several SSP requests left a running timer */
	TIMER_LEFT_ALONE, /* the last one left */
	TIMER_NOT_YET,    /* a retried reason, less than the loss time */
	TIMER_EXACT,      /* a retried reason exactly at the loss time */
	TIMER_NEVER,      /* a retried reason past 65,535 ms, and the loss time is never */
	TIMER_OF_OTHERS,  /* a confirmation of an SMP or STP request to a destination with a running timer */
	NOTES
};

struct said {
	uint8_t word, detail, slot, phy;
	struct sonerwal_open frame;
	unsigned long notes;
	unsigned causes; /* of a refusal, each a bit */
};

struct model;

struct model *model_new(void);
void model_free(struct model *m);

/* Takes a lent state for its own; gives the rules that it breaks. */
unsigned model_take(struct model *m, const struct sonerwal_port *port, const struct sonerwal_request *list);

/* The port and the list as they stand. */
void model_show(const struct model *m, struct sonerwal_port *port, struct sonerwal_request *list);

struct said model_call(struct model *m, const struct order *order);

#endif
