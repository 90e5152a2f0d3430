/*
 * The port through its C face, as the tests and examples speak of it: document 01, 'Port'. The model has its own numbers for document
 * 01's words; answer_of() says which answer of the face is meant.
 */
#ifndef SONERWAL_TESTS_PORTS_H
#define SONERWAL_TESTS_PORTS_H

#include "sonerwal.h"

/* The list; the stages of a phy; what names no slot and no phy; the loss time that never comes. */
enum { SLOTS = 32, PHYS = 8, STAGES = 7, NO_SLOT = 32, NO_PHY = 8, NEVER = 65535 };

#define COUNT(array) (sizeof(array) / sizeof *(array))

/* What a call answers. */
enum word {
	TAKEN,
	SUBMITTED,
	NOTHING,
	SEND,
	OPEN,
	CLOSE,
	STOP_ARB,
	RETRIED,
	WAITING,
	CANCEL_ACKNOWLEDGED, /* from here to STATUS, the last word on a request */
	ENDED,
	NEXUS_LOSS,
	CONNECTION_LOST,
	STATUS,
	REFUSED,
	WORDS
};

/* Why an open failed. */
enum reason {
	NO_DESTINATION,
	BAD_DESTINATION,
	WRONG_DESTINATION,
	LINK_RATE,
	PROTOCOL,
	PATHWAY_BLOCKED,
	STP_BUSY,
	RETRY,
	OPEN_TIME_OUT,
	BREAK_RECEIVED,
	REASONS
};

struct key {
	uint64_t destination;
	uint8_t protocol;
	uint16_t tag;
};

/* The face's answer for a word, of which a refusal's detail is its number; and the detail that goes with it. */
static inline uint8_t answer_of(enum word word, uint8_t detail)
{
	return (uint8_t)(word == REFUSED ? detail : word == TAKEN ? 0 : 31 + (int)word);
}

static inline uint8_t detail_of(enum word word, uint8_t detail)
{
	return word == REFUSED ? 0 : detail;
}

/* A head as the frame that is submitted with it, and that names its request in an answer. */
static inline struct sonerwal_open open_of(struct sonerwal_head head)
{
	struct sonerwal_open open;
	open.destination = head.destination;
	open.source = head.source;
	open.zero4 = 0;
	open.tag = head.tag;
	open.awt = 0;
	open.zero2 = 0;
	open.initiator = head.initiator;
	open.protocol = head.protocol;
	open.features = (uint8_t)head.features;
	open.rate = (uint8_t)head.rate;
	open.pbc = 0;
	open.zero1 = 0;
	return open;
}

#endif
