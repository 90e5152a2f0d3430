/*
 * What the files of the model share: its parts, and what one file does for the others. Tests know port_model.h alone. As every test is
 * linked with these files, what they share has names that start with model_.
 */
#ifndef SONERWAL_TESTS_PORT_MODEL_PARTS_H
#define SONERWAL_TESTS_PORT_MODEL_PARTS_H

#include "port_model.h"

/* A time that may not have come. */
struct when {
	bool came;
	uint64_t at;
};

struct line;

/* A request that is present. */
struct item {
	struct item *next; /* by submission time, then slot */
	uint8_t slot;
	struct sonerwal_head head;
	uint64_t submitted;
	bool cancelled;
	bool closed; /* choose closed a phy for it */
	uint8_t pbc;
	uint16_t awt;
	struct when retry, first;
	struct line *line; /* the phy that it is on; NULL if it waits */
};

/* A phy. Disabled, unconnected, opening, or joined to a peer; closing and a frame out are for joined ones. */
struct line {
	bool enabled, opening, joined, closing, out;
	struct item *item;
	uint8_t protocol;
	uint64_t destination;
};

struct timer {
	struct timer *next;
	uint64_t destination, since;
};

struct model {
	uint8_t count;
	uint16_t loss;
	uint64_t last;
	struct line lines[PHYS];
	struct item *items;
	struct timer *timers;
	struct sonerwal_request rest[SLOTS]; /* what stands in records that are free */
	unsigned broken;            /* rules; if any, only `port` and `rest` count */
	struct sonerwal_port port;
	unsigned long notes;
};

/* ---- port_model.c */

void model_note(struct model *m, enum note n);

/* Everything goes, the setup too. */
void model_empty(struct model *m);

/* ---- port_model_chain.c */

/* Puts a copy where it belongs. */
struct item *model_insert(struct model *m, const struct item *new);
void model_drop(struct model *m, struct item *item);

/* NULL if no request has this key. */
struct item *model_find(const struct model *m, struct key key);

/* The lowest one, NO_SLOT if all are taken. */
unsigned model_free_slot(const struct model *m);

/* ---- port_model_timers.c */

bool model_is_ssp(const struct sonerwal_head *head);

/* Where the destination's timer hangs; NULL hangs there if it doesn't run. */
struct timer **model_timer_of(struct model *m, uint64_t destination);
void model_start_timer(struct model *m, uint64_t destination, uint64_t since);
void model_stop_timer(struct timer **at);

/* What a confirmation of the request does to its destination's timer. */
void model_move_timer(struct model *m, const struct item *item, bool starts, bool stops, uint64_t now);

/* Whether a retry comes too late by its destination's timer. */
bool model_is_lost(struct model *m, const struct item *item, uint64_t now);

/* ---- port_model_rules.c */

bool model_head_listed(const struct sonerwal_head *head);

/* Whether a setup can have these numbers. */
bool model_in_range(unsigned count, unsigned loss);

/* The rules that a lent state breaks, each a bit. */
unsigned model_breaks(const struct sonerwal_port *port, const struct sonerwal_request *list);

/* ---- port_model_refusals.c */

/* The causes for which the call is refused, each a bit. */
unsigned model_causes(const struct model *m, const struct order *o);

/* The answer if there are any. */
struct said model_refuse(unsigned causes);

/* ---- port_model_answers.c */

uint8_t model_number_of(const struct model *m, const struct line *line);

/* An answer that names no request and no phy, and one that names those that are given. */
struct said model_nameless(enum word word);
struct said model_about(const struct model *m, enum word word, const struct item *item, const struct line *line);

/* The phy names nobody and is connected to nobody; its request waits. */
void model_free_line(struct line *line, bool enabled);

/* The request leaves with this word, or with Cancel Acknowledged if it was cancelled. */
struct said model_last_word(struct model *m, enum word word, struct item *item, const struct line *line);

/* ---- port_model_choose.c */

struct said model_choose(struct model *m, const struct order *o);

#endif
