/*
 * XL's table, typed by hand from document 01 (xl_model.c), against every cell that the program xl_table prints and that sonerwal.h's calls
 * give: each state, each memory that can be lent with it, each event. The gate shows that crates/xl_table/stdout is what the program
 * prints.
 */
#include "check.h"
#include "xl_face.h"
#include "xl_model.h"

#include <stdio.h>
#include <stdlib.h>
#include <string.h>

enum { MEMORIES = 160, EVENTS = 48, LINE = 8192, COUNT = 7 };

/* The events in the order of the cells. */
static const char *const events[EVENTS] = {
	"OPEN", "OPEN_ACCEPT",
	"OPEN_REJECT(0)", "OPEN_REJECT(1)", "OPEN_REJECT(2)", "OPEN_REJECT(3)", "OPEN_REJECT(4)", "OPEN_REJECT(5)",
	"OPEN_REJECT(6)", "OPEN_REJECT(7)",
	"AIP(0)", "AIP(1)", "AIP(2)", "AIP(3)", "CLOSE",
	"SendOpen", "SendClose", "ArbStatus(0)", "ArbStatus(1)", "ArbStatus(2)", "ArbStatus(3)", "OpenAccept",
	"OpenReject(0)", "OpenReject(1)", "OpenReject(2)", "OpenReject(3)", "OpenReject(4)", "OpenReject(5)",
	"OpenReject(6)", "OpenReject(7)", "BackoffRetry", "BackoffReversePath",
	"ArbWon", "ArbLost", "ArbReject(0)", "ArbReject(1)", "ArbReject(2)", "ArbReject(3)",
	"Arbitrating(0)", "Arbitrating(1)", "Arbitrating(2)",
	"PathTimer", "Sent", "Forwarded", "BREAK", "SendBreak", "BreakTimeout", "Disable",
};

/* Lent states that no run leaves and the rules allow: each is taken, and stepped to the letter. */
struct odd {
	int state;
	const char *memory;
	const char *what;
	int met;
};

static struct odd odds[] = {
	{0, "h--000", "XL0 with a frame held", 0},
	{0, "---111", "XL0 that remembers BREAK, CLOSE and Blocked On Partial", 0},
	{1, "ho-000", "XL1 with an OPEN remembered", 0},
	{1, "h-1000", "XL1 with an AIP", 0},
	{2, "h-0000", "XL2 with an AIP", 0},
	{3, "h--010", "XL3 with CLOSE remembered", 0},
	{4, "ho-100", "XL4 with an OPEN and BREAK remembered", 0},
	{5, "h-2000", "XL5 with an AIP", 0},
	{6, "ho-100", "XL6 with an OPEN and BREAK remembered", 0},
	{7, "---000", "XL7 with no frame held", 0},
	{8, "-o3111", "XL8 with no frame held and all else remembered", 0},
	{9, "---010", "XL9 with no frame held", 0},
	{10, "-o-001", "XL10 with an OPEN and Blocked On Partial remembered", 0},
};

/* The frames of xl_table's cells: the OPENs are of higher priority than the frame transmitted, and for another path. */
#define LISTED .initiator = 1, .protocol = SONERWAL_PROTOCOL_SSP, .rate = 9
static const struct frames table_frames = {
	.held = {LISTED, .tag = 1, .awt = 100, .destination = 2000, .source = 1000},
	.event = {LISTED, .tag = 2, .awt = 200, .destination = 4000, .source = 3000},
	.heard = {LISTED, .tag = 3, .awt = 300, .destination = 4000, .source = 3001},
};
static const struct crossing elsewhere = {.higher = true, .back = false};

static unsigned long cells, calls;

static void same(const char *where, const char *expected, const char *found)
{
	cells++;
	check(found && strcmp(expected, found) == 0, "%s: document 01 has %s, the program %s", where, expected, found ? found : "nothing");
}

/* The same of an event given to sonerwal_link_event(). */
static void same_event(const char *where, const char *expected, const struct sonerwal_link *s, const char *event, const struct frames *frames)
{
	char found[CELL];
	calls++;
	face_cell(s, event_named(event), frames, found);
	check(strcmp(expected, found) == 0, "%s: document 01 has %s, sonerwal_link_event() %s", where, expected, found);
}

/* And of bytes given to sonerwal_link_receive(). */
static void same_received(const char *where, const char *expected, const struct sonerwal_link *s, const uint8_t *frame, size_t frame_len)
{
	char found[CELL];
	struct sonerwal_link_step step = sonerwal_link_receive(*s, frame, frame_len);
	calls++;
	step_cell(s, &step, &table_frames, found);
	check(strcmp(expected, found) == 0, "%s: document 01 has %s, sonerwal_link_receive() %s", where, expected, found);
}

/* 01 XL.39 */
static void same_status(const char *where, char expected, const struct sonerwal_link *s)
{
	uint8_t status = sonerwal_link_status(*s);
	char found = status == 48 ? 'R' : status == 49 ? 'P' : status == 50 ? 'B' : status == 51 ? 'C' : status == 3 ? '3' : '?';
	calls++;
	check(found == expected, "%s: document 01 has %c, sonerwal_link_status() %d", where, expected, status);
}

/* Cuts the next field off; NULL if there is none. */
static char *field(char **at)
{
	char *start = *at;
	if (!start) {
		return NULL;
	}
	char *tab = strchr(start, '\t');
	*at = tab ? tab + 1 : NULL;
	if (tab) {
		*tab = '\0';
	}
	return start;
}

static void compare_state(int state, const char *memory, char **at)
{
	char where[2 * CELL], expected[CELL];
	char status[2] = {link_status(state, memory), '\0'};
	struct sonerwal_link s = link_of(state, memory, &table_frames, COUNT);
	snprintf(where, sizeof where, "XL%d, memory %s, link status", state, memory);
	same(where, status, field(at));
	same_status(where, status[0], &s);
	for (int i = 0; i < EVENTS; i++) {
		snprintf(where, sizeof where, "XL%d, memory %s, %s", state, memory, events[i]);
		link_cell(state, memory, events[i], elsewhere, expected);
		same(where, expected, field(at));
		same_event(where, expected, &s, events[i], &table_frames);
	}
	for (size_t i = 0; i < sizeof odds / sizeof *odds; i++) {
		odds[i].met += odds[i].state == state && strcmp(odds[i].memory, memory) == 0 && link_keeps_rules(state, memory);
	}
}

/* The OPEN of a crossing, by its number below. */
static struct sonerwal_open crossing_open(uint16_t tag, int priority, int back, int rate)
{
	static const struct {
		uint16_t awt;
		uint64_t source;
	} by[] = {{99, 1001}, {100, 999}, {100, 1000}, {100, 1001}, {101, 999}};
	struct sonerwal_open open = {LISTED, .tag = tag, .awt = by[priority].awt, .source = by[priority].source};
	open.destination = back ? 1000 : 4000;
	open.rate = (uint8_t)rate;
	return open;
}

/*
 * 01 XL.31 01 XL.32 01 OPEN.9 01 EXAMPLE.3 01 TRAP.2
 * The frame transmitted has AWT 100, source 1000 and rate 9. By its number an OPEN has: 0 AWT 99 and a larger source, 1 the same AWT
 * and a smaller source, 2 both the same, 3 the same AWT and a larger source, 4 AWT 101 and a smaller source.
 */
static void compare_crossing(char **at)
{
	int priority = atoi(field(at)), back = atoi(field(at)), rate = atoi(field(at)), aip = atoi(field(at));
	char seen = aip == 0 ? '-' : (char)('0' + aip - 1);
	char where[CELL], in6[CELL], in5[CELL];
	if (aip == 0 && priority < 3) {
		strcpy(in6, "=");
		snprintf(in5, CELL, "6/h-%c000/ArbStatus(3)", seen);
	} else if (back == 1 && rate == 9) {
		strcpy(in6, "2/e--000/BackoffReversePath");
		strcpy(in5, "2/o--000/ArbStatus(3),BackoffReversePath");
	} else {
		strcpy(in6, "1/e--000/BackoffRetry,RequestPath,AIP(0)");
		strcpy(in5, "1/o--000/ArbStatus(3),BackoffRetry,RequestPath,AIP(0)");
	}
	snprintf(where, sizeof where, "crossing OPEN %d, back %d, rate %d, AIP %c", priority, back, rate, seen);
	same(where, in6, field(at));
	same(where, in5, field(at));
	struct frames frames = {table_frames.held, crossing_open(3, priority, back, rate), crossing_open(2, priority, back, rate)};
	char memory6[] = {'h', '-', seen, '0', '0', '0', '\0'}, memory5[] = {'h', 'o', seen, '0', '0', '0', '\0'};
	struct sonerwal_link s6 = link_of(6, memory6, &frames, COUNT), s5 = link_of(5, memory5, &frames, COUNT);
	same_event(where, in6, &s6, "OPEN", &frames);
	same_event(where, in5, &s5, "Sent", &frames);
}

/* A frame of rate 11 beside each event that takes one and beside one that takes none; bytes that the reader refuses; links that hold and
 * remember such a frame. */
static void refuse(const char *where, const char *disabled, int state, int there)
{
	static const uint8_t zeros[SONERWAL_OPEN_SIZE];
	struct sonerwal_link s = link_of(state, there ? "h--000" : "---000", &table_frames, COUNT);
	struct frames unlisted = table_frames;
	unlisted.event.rate = 11;
	same_event(where, "2", &s, "OPEN", &unlisted);
	same_event(where, "2", &s, "SendOpen", &unlisted);
	same_event(where, "2", &s, "BackoffReversePath", &unlisted);
	same_event(where, disabled, &s, "Disable", &unlisted);
	same_received(where, "1", &s, zeros, sizeof zeros - 1);
	same_received(where, "2", &s, zeros, sizeof zeros);
	s = link_of(state, "ho-000", &table_frames, COUNT);
	s.heard.rate = 11;
	same_event(where, "3", &s, "Disable", &table_frames);
	s = link_of(state, "h--000", &table_frames, COUNT);
	s.held.rate = 11;
	same_event(where, "3", &s, "Disable", &table_frames);
}

/* 01 XL.4 01 XL.6 01 REFUSAL.11: the lowest number first, in every state; and a frame held or remembered with a field off OPEN's */
static void compare_refused(char **at)
{
	int state = atoi(field(at)), there = atoi(field(at));
	const char *disabled = state >= 1 && state <= 6 && !there ? "3" : state == 0 && !there ? "=" : "0/---000/";
	char where[CELL];
	snprintf(where, sizeof where, "refusals in XL%d, %s", state, there ? "a frame held" : "no frame held");
	same(where, "2", field(at));
	same(where, "2", field(at));
	same(where, "2", field(at));
	same(where, disabled, field(at));
	same(where, "1", field(at));
	same(where, "2", field(at));
	same(where, "3", field(at));
	same(where, "3", field(at));
	refuse(where, disabled, state, there);
}

/* 01 XL.2 */
static void compare_count(char **at)
{
	unsigned long long before = strtoull(field(at), NULL, 10);
	char where[CELL], expected[CELL];
	snprintf(where, sizeof where, "the count after %llu", before);
	snprintf(expected, sizeof expected, "%llu", before < 4294967295ull ? before + 1 : before);
	same(where, expected, field(at));
	struct sonerwal_link s = link_of(0, "---000", &table_frames, (uint32_t)before);
	uint8_t answer = sonerwal_link_keep(&s, sonerwal_link_event(s, event_named("CLOSE"), table_frames.event));
	calls++;
	check(answer == SONERWAL_OK && s.unexpected == strtoull(expected, NULL, 10), "%s: sonerwal_link_event()", where);
}

int main(void)
{
	static char line[LINE];
	unsigned long states = 0, crossings = 0, refusals = 0, counts = 0;
	FILE *in = fopen("crates/xl_table/stdout", "r");
	if (!check(in != NULL, "crates/xl_table/stdout cannot be read")) {
		return check_end("xl");
	}
	while (fgets(line, sizeof line, in)) {
		line[strcspn(line, "\n")] = '\0';
		char *at = line;
		char *first = field(&at);
		if (strcmp(first, "crossing") == 0) {
			crossings++;
			compare_crossing(&at);
		} else if (strcmp(first, "refused") == 0) {
			refusals++;
			compare_refused(&at);
		} else if (strcmp(first, "count") == 0) {
			counts++;
			compare_count(&at);
		} else {
			states++;
			const char *memory = field(&at);
			compare_state(atoi(first), memory, &at);
		}
		check(at == NULL, "a line that begins with %s has more cells than expected", first);
	}
	fclose(in);
	check(states == STATES * MEMORIES, "%lu lines of states", states);
	check(crossings == 5 * 2 * 3 * 5, "%lu crossings", crossings);
	check(refusals == STATES * 2, "%lu lines of refusals", refusals);
	check(counts == 3, "%lu lines of counts", counts);
	for (size_t i = 0; i < sizeof odds / sizeof *odds; i++) {
		check(odds[i].met == 1, "%s was not met", odds[i].what);
	}
	printf("xl: %lu cells and %lu calls compared\n", cells, calls);
	return check_end("xl");
}
