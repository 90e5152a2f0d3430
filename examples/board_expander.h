/*
 * The expander of examples/board.c: two links (XL), one to the board and one to the host. What one says to the router the other hears,
 * number for number.
 */
#ifndef SONERWAL_EXAMPLES_BOARD_EXPANDER_H
#define SONERWAL_EXAMPLES_BOARD_EXPANDER_H

#include "board_tell.h"
#include "sonerwal.h"

static struct sonerwal_link links[2]; /* to the board and to the host */

static const char *kind_name(struct sonerwal_action a)
{
	static const char *const low[] = {"", "OPEN", "OPEN_ACCEPT", "OPEN_REJECT", "AIP", "CLOSE", "BREAK"};
	static const char *const router[] = {
		"SendOpen", "SendClose", "SendBreak", "ArbStatus", "OpenAccept", "OpenReject", "BackoffRetry", "BackoffReversePath",
	};
	switch (a.kind) {
	case SONERWAL_KIND_ARB_WON: return "ArbWon";
	case SONERWAL_KIND_REQUEST_PATH: return "RequestPath";
	case SONERWAL_KIND_SENT: return "Sent";
	case SONERWAL_KIND_FORWARDED: return "Forwarded";
	default: return a.kind < 16 ? low[a.kind] : router[a.kind - 16];
	}
}

static void hear(unsigned link, uint8_t kind, uint8_t detail, const struct sonerwal_open *frame);

static void print_step(unsigned link, const char *what, const struct sonerwal_link_step *step)
{
	if (quiet) {
		return;
	}
	line(link == 0 ? "link 0" : "link 1", what);
	for (unsigned i = 0; i < 4 && step->action[i].kind != SONERWAL_KIND_NONE; i++) {
		printf("%s%s", i > 0 ? ", " : "", kind_name(step->action[i]));
	}
	printf("%sXL%d, %s\n", step->action[0].kind != SONERWAL_KIND_NONE ? "; " : "", links[link].phase,
	       sonerwal_answer_name(sonerwal_link_status(links[link])));
}

/* Says what a step did, and hands on what goes to the other link. */
static void act(unsigned link, const char *what, const struct sonerwal_link_step *step)
{
	must(step->answer == SONERWAL_OK, "the link refused");
	links[link] = step->state;
	print_step(link, what, step);
	for (unsigned i = 0; i < 4; i++) {
		struct sonerwal_action a = step->action[i];
		if (a.kind >= SONERWAL_KIND_SEND_OPEN && a.kind <= SONERWAL_KIND_BACKOFF_REVERSE_PATH) {
			hear(1 - link, a.kind, a.detail, sonerwal_link_frame(step));
		}
	}
}

static void hear(unsigned link, uint8_t kind, uint8_t detail, const struct sonerwal_open *frame)
{
	struct sonerwal_event event = {kind, detail};
	struct sonerwal_action heard = {kind, detail};
	struct sonerwal_link_step step = sonerwal_link_event(links[link], event, *frame);
	act(link, kind_name(heard), &step);
}

/* An OPEN through both links to the host, which accepts it. */
static void through(const uint8_t *bytes, const struct sonerwal_open *frame)
{
	struct sonerwal_link_step step = sonerwal_link_receive(links[0], bytes, SONERWAL_OPEN_SIZE);
	act(0, "OPEN", &step);
	hear(0, SONERWAL_KIND_ARB_WON, 0, frame);
	hear(0, SONERWAL_KIND_FORWARDED, 0, frame);
	hear(1, SONERWAL_KIND_SENT, 0, frame);
	hear(1, SONERWAL_KIND_OPEN_ACCEPT, 0, frame);
	must(sonerwal_link_status(links[0]) == SONERWAL_CONNECTED, "no connection");
}

/* The host closes, and so does the board: CLOSE goes both ways. */
static void hang_up_links(void)
{
	const struct sonerwal_open none = {0};
	hear(1, SONERWAL_KIND_CLOSE, 0, &none);
	hear(0, SONERWAL_KIND_CLOSE, 0, &none);
}

#endif
