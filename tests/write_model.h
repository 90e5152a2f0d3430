/*
 * A write by what was sent and what came, from request c) of document 02 alone: the XFER_RDYs since START, each with what became of it,
 * and how often each requested byte was taken. It has no phase, no offset of a next byte and no set of tags: each is looked up in these.
 */
#ifndef SONERWAL_TESTS_WRITE_MODEL_H
#define SONERWAL_TESTS_WRITE_MODEL_H

#include "plain_write.h"
#include "sonerwal.h"

enum {
	XFER_RDY_BYTES = 36,
	TAGS = 64,
	MOST_BYTES = 4096, /* of a request, that can be followed; what comes behind them is not offered */
	MOST_XFERS = MOST_BYTES / 4 + TAGS,
	MOST_STORE = MOST_BYTES + 64,
	MOST_FRAME = 1048 + 16
};

enum call { START, XFER, ACK, NAK, TIMEOUT, LOST, GOT, NEXUS, CANCEL, ASK, TAKE, CALLS };

struct request {
	uint32_t b, n, x, r;
};

/* What became of an XFER_RDY: nothing yet, its ACK was reported, it failed, or every byte that it asked for was taken. */
enum fate { DUE, GOOD, FAILED, FULL };

struct xfer {
	uint32_t offset, length;
	uint16_t tag;
	enum fate fate;
};

/* All zeros before START. */
struct upload {
	struct request asked;
	bool running;
	uint8_t finished; /* the answer that finished it, 0 before */
	size_t count;
	struct xfer sent[MOST_XFERS];
	uint8_t taken[MOST_BYTES]; /* how often */
};

/* Whom a frame of the target goes to, from whom it comes, and of which command. */
struct address {
	uint32_t destination, source;
	uint16_t tag;
};

/* What a call is given; each has its own of them. */
struct given {
	struct request request; /* START */
	uint64_t others;        /* XFER, ASK */
	struct address head;    /* ASK, TAKE */
	uint16_t transfer;      /* GOT */
	uint32_t offset, length;
	size_t lent_len; /* ASK: of the frame; TAKE: of the store */
	size_t frame_len;
	uint8_t frame[MOST_FRAME]; /* TAKE */
};

/* What a call was refused for. */
enum why {
	FRAME_LENGTH,
	OUTPUT_SHORT,
	FRAME_OFF,
	ADDRESS_ABOVE,
	LENGTH_OFF,
	REQUEST_OFF,
	UNFINISHED,
	NOT_ASKING,
	NONE_DUE,
	NOT_RUNNING,
	BEFORE_ITS_ACK,
	OTHER_HEAD,
	OTHER_TRANSFER,
	BEFORE_NEXT,
	PAST_RANGE,
	NOT_FOURS,
	BEHIND_NEXT,
	STORE_SHORT,
	NO_FREE_TAG,
	WHYS
};

/* Each cause's words and number, and that of the last refusal. */
extern const struct upload_cause {
	const char *words;
	uint8_t number;
} upload_causes[WHYS];
extern enum why upload_why;

/* A call and its answer, an enum sonerwal_answer; lent is ASK's frame and TAKE's store. */
uint8_t upload_call(struct upload *u, enum call call, const struct given *g, uint8_t *lent);

/* The latest XFER_RDY; NULL if there is none since START. */
const struct xfer *upload_latest(const struct upload *u);

/* Offset of the first byte that was not taken; the end if all were. */
uint64_t upload_next(const struct upload *u);

/* Whether a transfer tag is in use by this write. */
bool upload_has(const struct upload *u, uint16_t tag);

/* The model as C keeps a write. */
struct sonerwal_write upload_shown(const struct upload *u);

#endif
