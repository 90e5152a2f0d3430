/*
 * The firmware swap of examples/board.c: a line of text is all that the new firmware finds of a transfer. What else a board needs, tags and
 * port among it, it keeps by itself.
 */
#ifndef SONERWAL_EXAMPLES_BOARD_SWAP_H
#define SONERWAL_EXAMPLES_BOARD_SWAP_H

#include <string.h>

#include "board_tell.h"
#include "sonerwal.h"

enum { SWAP_MICROSECONDS = 500 };

/* What outlives a swap; the length stands in front, where the new firmware finds it even if its lines are longer. */
struct kept {
	uint32_t length;
	uint8_t line[SONERWAL_SAVED_ROOM];
};

/* The last that the old firmware does. */
static void save(struct kept *kept, const char *name, struct sonerwal_transfer *transfer)
{
	struct sonerwal_saved saved = sonerwal_transfer_save(*transfer, SONERWAL_SAVED_FORM, kept->line, sizeof kept->line);

	must(saved.answer == SONERWAL_OK, "no line");
	kept->length = (uint32_t)saved.length;
	memset(transfer, 0, sizeof *transfer);
	line(name, "saved");
	printf("%.*s\n", (int)kept->length, (const char *)kept->line);
}

/* The first that the new one does. */
static void restore(const struct kept *kept, const char *name, struct sonerwal_transfer *transfer)
{
	uint8_t answer = sonerwal_transfer_keep(transfer, sonerwal_transfer_restore(kept->line, kept->length));

	must(answer == SONERWAL_OK, "no transfer");
	line(name, "restored");
	printf("%s; unanswered %" PRIu32 "\n", sonerwal_answer_name(answer), transfer->unanswered);
}

#endif
