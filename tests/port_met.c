#include "port_met.h"

#include "check.h"

#include <stdio.h>

enum { REFUSALS = 11 };


const char *const call_names[CALLS] = {
	[SETUP] = "setup",
	[SUBMIT] = "submit",
	[CANCEL] = "cancel",
	[CHOOSE] = "choose",
	[OPENED] = "opened",
	[OPEN_FAILED] = "open_failed",
	[FRAME_STATUS] = "frame_status",
	[CLOSED] = "closed",
	[ENABLE] = "enable",
	[DISABLE] = "disable",
};

const char *const word_names[WORDS] = {
	[TAKEN] = "Taken",
	[SUBMITTED] = "Submitted",
	[NOTHING] = "Nothing",
	[SEND] = "Send",
	[OPEN] = "Open",
	[CLOSE] = "Close",
	[STOP_ARB] = "Stop Arb",
	[RETRIED] = "Retried",
	[WAITING] = "Waiting",
	[CANCEL_ACKNOWLEDGED] = "Cancel Acknowledged",
	[ENDED] = "Ended",
	[NEXUS_LOSS] = "I_T Nexus Loss",
	[CONNECTION_LOST] = "Connection Lost",
	[STATUS] = "Status",
	[REFUSED] = "Refused",
};

static const char *const reason_names[REASONS] = {
	[NO_DESTINATION] = "No Destination",
	[BAD_DESTINATION] = "Bad Destination",
	[WRONG_DESTINATION] = "Wrong Destination",
	[LINK_RATE] = "Link Rate Not Supported",
	[PROTOCOL] = "Protocol Not Supported",
	[PATHWAY_BLOCKED] = "Pathway Blocked",
	[STP_BUSY] = "STP Resources Busy",
	[RETRY] = "Retry",
	[OPEN_TIME_OUT] = "Open Time Out",
	[BREAK_RECEIVED] = "Break Received",
};

static const char *const stage_names[STAGES] = {
	"disabled", "unconnected", "opening", "connected", "connected, frame out", "closing", "closing, frame out",
};

static const char *const rule_names[RULES] = {
	[RULE_SETUP] = "setup numbers in range",
	[RULE_FIELDS] = "fields as in OPEN",
	[RULE_KEYS] = "no two share destination, protocol and tag",
	[RULE_NAMES] = "a request in progress and its phy name each other",
	[RULE_WHO] = "opening or frame out names one, closing may, no other",
	[RULE_CANCELLED] = "only such requests are cancelled",
	[RULE_STAMPS] = "no time stamp past the last time",
	[RULE_TIMERS] = "one loss timer at most, with an SSP request",
	[RULE_NUMBERS] = "stages, flags and slots in range",
	[RULE_ZEROS] = "zero members are 0",
};

static const char *const note_names[NOTES] = {
	[TOO_SOON] = "choose passed one that was just retried",
	[AFTER_14] = "... 14 microseconds ago",
	[AFTER_15] = "choose took one retried 15 microseconds ago",
	[TIE] = "choose took the lower slot of one time",
	[PASSED_ON] = "choose passed one that had no phy",
	[CLOSED_BEFORE] = "... and had its close",
	[SEVERAL_PHYS] = "choose had several phys",
	[WAIT_SHORT] = "Open, AWT 1 to 32,767",
	[WAIT_LONG] = "Open, AWT from 32,768 on",
	[WAIT_TOP] = "Open, AWT 65,535",
	[BLOCKED_AT_TOP] = "Pathway Blocked at PBC 255",
	[TIMER_STARTED] = "loss timer started",
	[TIMER_RAN] = "... ran already",
	[TIMER_STOPPED] = "... stopped",
	[TIMER_JOINED] = "... met by a submit",
	[TIMER_LEFT] = "... left, others stay",
	[TIMER_LEFT_ALONE] = "... left by the last one",
	[TIMER_NOT_YET] = "... not yet at loss time",
	[TIMER_EXACT] = "... exactly at loss time",
	[TIMER_NEVER] = "... past 65,535 ms, which is never",
	[TIMER_OF_OTHERS] = "... not moved by SMP or STP",
};

static struct {
	unsigned long words[CALLS][WORDS], refused[CALLS][REFUSALS];
	unsigned long both[REFUSALS][REFUSALS]; /* two causes held, and the first is answered */
	unsigned long reasons[REASONS][WORDS];
	unsigned long cancels[STAGES][WORDS], disables[STAGES][WORDS]; /* by the phy's stage; cancel of a waiting request: by 0 */
	unsigned long odd_cancels[STAGES], odd_disables[STAGES];       /* of a request not yet cancelled on a closing phy */
	unsigned long rules[RULES];                                    /* the one rule that a lent state broke */
	unsigned long notes[NOTES];                                    /* on states that calls left */
	unsigned long counts[PHYS + 1], never, lengths[SLOTS + 2];
} met;

/* ---- Counts */

const struct sonerwal_request *record_of(const struct sonerwal_request *list, struct key key)
{
	for (unsigned i = 0; i < SLOTS; i++) {
		const struct sonerwal_head *h = &list[i].head;
		if (list[i].stage != 0 && h->destination == key.destination && h->protocol == key.protocol && h->tag == key.tag) {
			return &list[i];
		}
	}
	return NULL;
}

static void met_place(const struct sonerwal_port *port, const struct sonerwal_request *list, bool odd, const struct order *o, const struct said *said)
{
	const struct sonerwal_request *r = o->call == CANCEL ? record_of(list, o->key) : NULL;
	if (said->word == REFUSED && said->detail != 6) {
		return;
	}
	if (o->call == CANCEL && r) {
		unsigned stage = r->stage == 2 ? port->phys[r->phy].stage : 0;
		if (odd) {
			met.odd_cancels[stage] += said->word != REFUSED;
		} else {
			met.cancels[stage][said->word]++;
		}
	}
	if (o->call == DISABLE) {
		unsigned stage = port->phys[o->phy].stage;
		if (odd) {
			met.odd_disables[stage] += said->word == WAITING;
		} else {
			met.disables[stage][said->word]++;
		}
	}
}

void met_call(const struct sonerwal_port *port, const struct sonerwal_request *list, bool odd, const struct order *o, const struct said *said)
{
	met.words[o->call][said->word]++;
	if (said->word == REFUSED) {
		met.refused[o->call][said->detail]++;
		for (unsigned n = said->detail + 1; n < REFUSALS; n++) {
			met.both[said->detail][n] += said->causes >> n & 1;
		}
		if (said->detail == 1) {
			met.lengths[o->length]++;
		}
	} else if (o->call == OPEN_FAILED) {
		met.reasons[o->why][said->word]++;
	} else if (o->call == SETUP) {
		met.counts[o->count]++;
		met.never += o->loss == NEVER;
	}
	for (unsigned n = 0; n < NOTES && !odd; n++) {
		met.notes[n] += said->notes >> n & 1;
	}
	met_place(port, list, odd, o, said);
}

void met_rules(unsigned broken)
{
	for (unsigned rule = 0; rule < RULES; rule++) {
		met.rules[rule] += broken == 1u << rule;
	}
}

/* ---- What must be met, and what can't be */

#define BIT(n) (1u << (n))

static const struct {
	unsigned words, refusals;
} possible[CALLS] = {
	[SETUP] = {BIT(TAKEN), BIT(1) | BIT(3)},
	[SUBMIT] = {BIT(SUBMITTED), BIT(1) | BIT(2) | BIT(3) | BIT(5) | BIT(9) | BIT(10)},
	[CANCEL] = {BIT(CLOSE) | BIT(STOP_ARB) | BIT(CANCEL_ACKNOWLEDGED), BIT(1) | BIT(2) | BIT(3) | BIT(5) | BIT(6)},
	[CHOOSE] = {BIT(NOTHING) | BIT(SEND) | BIT(OPEN) | BIT(CLOSE), BIT(1) | BIT(3) | BIT(5)},
	[OPENED] = {BIT(SEND) | BIT(CLOSE), BIT(1) | BIT(3) | BIT(4) | BIT(5) | BIT(6)},
	[OPEN_FAILED] = {BIT(RETRIED) | BIT(CANCEL_ACKNOWLEDGED) | BIT(ENDED) | BIT(NEXUS_LOSS), BIT(1) | BIT(2) | BIT(3) | BIT(4) | BIT(5) | BIT(6)},
	[FRAME_STATUS] = {BIT(STATUS) | BIT(CANCEL_ACKNOWLEDGED), BIT(1) | BIT(3) | BIT(4) | BIT(5) | BIT(6)},
	[CLOSED] = {BIT(TAKEN) | BIT(CONNECTION_LOST) | BIT(CANCEL_ACKNOWLEDGED), BIT(1) | BIT(3) | BIT(4) | BIT(5) | BIT(6)},
	[ENABLE] = {BIT(TAKEN), BIT(1) | BIT(3) | BIT(4) | BIT(5) | BIT(6)},
	[DISABLE] = {BIT(TAKEN) | BIT(WAITING) | BIT(CANCEL_ACKNOWLEDGED), BIT(1) | BIT(3) | BIT(4) | BIT(5) | BIT(6)},
};

/* By the place of the request, or of the phy. */
static const unsigned cancel_words[STAGES] = {
	[0] = BIT(CANCEL_ACKNOWLEDGED),     /* it waits */
	[2] = BIT(STOP_ARB) | BIT(REFUSED), /* refused if it was cancelled before */
	[4] = BIT(CLOSE),
	[5] = BIT(REFUSED),
	[6] = BIT(REFUSED),
};

static const unsigned disable_words[STAGES] = {
	[0] = BIT(REFUSED),
	[1] = BIT(TAKEN),
	[2] = BIT(WAITING) | BIT(CANCEL_ACKNOWLEDGED),
	[3] = BIT(TAKEN),
	[4] = BIT(WAITING),
	[5] = BIT(TAKEN) | BIT(CANCEL_ACKNOWLEDGED),
	[6] = BIT(CANCEL_ACKNOWLEDGED),
};

static const unsigned reason_words[REASONS] = {
	[NO_DESTINATION] = BIT(RETRIED) | BIT(CANCEL_ACKNOWLEDGED) | BIT(NEXUS_LOSS),
	[BAD_DESTINATION] = BIT(ENDED) | BIT(CANCEL_ACKNOWLEDGED),
	[WRONG_DESTINATION] = BIT(ENDED) | BIT(CANCEL_ACKNOWLEDGED),
	[LINK_RATE] = BIT(RETRIED) | BIT(CANCEL_ACKNOWLEDGED) | BIT(NEXUS_LOSS),
	[PROTOCOL] = BIT(ENDED) | BIT(CANCEL_ACKNOWLEDGED),
	[PATHWAY_BLOCKED] = BIT(RETRIED) | BIT(CANCEL_ACKNOWLEDGED) | BIT(NEXUS_LOSS),
	[STP_BUSY] = BIT(ENDED) | BIT(CANCEL_ACKNOWLEDGED),
	[RETRY] = BIT(RETRIED) | BIT(CANCEL_ACKNOWLEDGED), /* it stops the timer first */
	[OPEN_TIME_OUT] = BIT(RETRIED) | BIT(CANCEL_ACKNOWLEDGED) | BIT(NEXUS_LOSS),
	[BREAK_RECEIVED] = BIT(ENDED) | BIT(CANCEL_ACKNOWLEDGED),
};

/* One line of words: each that is possible was met, and no other. */
static void show_words(const char *what, const char *of, unsigned words, const unsigned long *found)
{
	printf("%-14s%-24s", what, of);
	if (words == 0) {
		printf("  no request is there");
	}
	for (unsigned word = 0; word < WORDS; word++) {
		if (words >> word & 1) {
			printf("  %s: %lu", word_names[word], found[word]);
		}
	}
	printf("\n");
	for (unsigned word = 0; word < WORDS; word++) {
		bool expected = words >> word & 1;
		check(expected == (found[word] > 0), "%s %s: %s, %lu times", what, of, word_names[word], found[word]);
	}
}

static void show_refusals(enum call call)
{
	printf("%-14s%-24s", call_names[call], "refused");
	for (unsigned n = 1; n < REFUSALS; n++) {
		bool expected = possible[call].refusals >> n & 1;
		if (expected) {
			printf("  %u: %lu", n, met.refused[call][n]);
		}
		check(expected == (met.refused[call][n] > 0), "%s: refusal %u, %lu times", call_names[call], n, met.refused[call][n]);
	}
	printf("\n");
}

/* 01 REFUSAL.11 */
static void show_both(void)
{
	static const uint8_t pairs[][2] = {
		{1, 2}, {1, 3}, {1, 4}, {1, 5}, {2, 3}, {2, 4}, {2, 5}, {3, 4}, {3, 5}, {4, 5}, {5, 6}, {5, 9}, {5, 10}, {9, 10},
	};
	printf("two causes");
	for (size_t i = 0; i < COUNT(pairs); i++) {
		unsigned long found = met.both[pairs[i][0]][pairs[i][1]];
		printf("  %u before %u: %lu", pairs[i][0], pairs[i][1], found);
		check(found > 0, "no call with causes of %u and %u", pairs[i][0], pairs[i][1]);
	}
	printf("\n");
}

static void show_line(const char *name, unsigned long found)
{
	printf("%-56s %9lu\n", name, found);
	check(found > 0, "no case met: %s", name);
}

void met_show(void)
{
	for (enum call call = SETUP; call < CALLS; call++) {
		show_words(call_names[call], "", possible[call].words | BIT(REFUSED), met.words[call]);
		show_refusals(call);
	}
	show_both();
	for (enum reason why = NO_DESTINATION; why < REASONS; why++) {
		show_words("open_failed", reason_names[why], reason_words[why], met.reasons[why]);
	}
	for (unsigned stage = 0; stage < STAGES; stage++) {
		show_words("cancel", stage == 0 ? "waiting" : stage_names[stage], cancel_words[stage], met.cancels[stage]);
	}
	for (unsigned stage = 0; stage < STAGES; stage++) {
		show_words("disable", stage_names[stage], disable_words[stage], met.disables[stage]);
	}
	show_line("cancel, closing, of a lent request not yet cancelled", met.odd_cancels[5]);
	show_line("cancel, closing with a frame out, of such a one", met.odd_cancels[6]);
	show_line("disable, closing, of such a one", met.odd_disables[5]);
	show_line("disable, closing with a frame out, of such a one", met.odd_disables[6]);
	for (unsigned n = 0; n < NOTES; n++) {
		show_line(note_names[n], met.notes[n]);
	}
	for (unsigned rule = 0; rule < RULES; rule++) {
		show_line(rule_names[rule], met.rules[rule]);
	}
	for (unsigned count = 1; count <= PHYS; count++) {
		check(met.counts[count] > 0, "no setup with %u phys", count);
	}
	show_line("setup, loss time 65,535", met.never);
	show_line("a list of no record", met.lengths[0]);
	show_line("a list of 31", met.lengths[SLOTS - 1]);
	show_line("a list of 33", met.lengths[SLOTS + 1]);
}
