/*
 * The link's calls of sonerwal.h against plain C of the same signatures, a table that one function walks, in nanoseconds for one call.
 *
 * Usage: links [--strict]        --strict: exit 1 if a ratio is above the goal
 *
 * Both sides run in one process, by turns, over the same runs of events, through pointers to functions of other files, so that neither
 * is inlined; the link is handed from one call to the next. Every state and action goes into a sum, and both must have given the same
 * one, or a row says nothing. What it costs to hand a link over and back is measured apart.
 */
#include "compare.h"
#include "plain_links.h"

enum { RUNS = 16, EVENTS = 256, KINDS = 23, WAITS = 10, LINKS = 8 };

struct linker {
	__typeof__(sonerwal_link_event) *event;
	__typeof__(sonerwal_link_receive) *receive;
	__typeof__(sonerwal_link_status) *status;
};

static const struct linker linkers[SIDES] = {
	[PLAIN] = {plain_link_event, plain_link_receive, plain_link_status},
	[OURS] = {sonerwal_link_event, sonerwal_link_receive, sonerwal_link_status},
};

/* ---- What the links are given */

/* An event of each kind. */
static const struct sonerwal_event kinds[KINDS] = {
	{SONERWAL_KIND_OPEN, 0},
	{SONERWAL_KIND_OPEN_ACCEPT, 0},
	{SONERWAL_KIND_OPEN_REJECT, SONERWAL_REJECT_RETRY},
	{SONERWAL_KIND_AIP, SONERWAL_WAIT_PARTIAL},
	{SONERWAL_KIND_CLOSE, 0},
	{SONERWAL_KIND_SEND_OPEN, 0},
	{SONERWAL_KIND_SEND_CLOSE, 0},
	{SONERWAL_KIND_ARB_STATUS, SONERWAL_WAIT_PARTIAL},
	{SONERWAL_KIND_ROUTER_OPEN_ACCEPT, 0},
	{SONERWAL_KIND_ROUTER_OPEN_REJECT, SONERWAL_REJECT_RETRY},
	{SONERWAL_KIND_BACKOFF_RETRY, 0},
	{SONERWAL_KIND_BACKOFF_REVERSE_PATH, 0},
	{SONERWAL_KIND_ARB_WON, 0},
	{SONERWAL_KIND_ARB_LOST, 0},
	{SONERWAL_KIND_ARB_REJECT, SONERWAL_DENIAL_BAD_LINK_RATE},
	{SONERWAL_KIND_ARBITRATING, SONERWAL_ARBITRATING_BLOCKED_ON_PARTIAL},
	{SONERWAL_KIND_PATH_TIMER, 0},
	{SONERWAL_KIND_SENT, 0},
	{SONERWAL_KIND_FORWARDED, 0},
	{SONERWAL_KIND_BREAK, 0},
	{SONERWAL_KIND_SEND_BREAK, 0},
	{SONERWAL_KIND_BREAK_TIMEOUT, 0},
	{SONERWAL_KIND_DISABLE, 0},
};

struct given {
	uint8_t kind, wait; /* of kinds and of opens */
};

static struct given runs[RUNS][EVENTS];
static struct sonerwal_open opens[WAITS];                 /* by their wait, so that priorities differ */
static uint8_t frames[WAITS][SONERWAL_OPEN_SIZE];         /* the same as bytes */
static struct sonerwal_link links[LINKS];                 /* met on the way */
static const struct sonerwal_link off = {.phase = 3, .has_held = 2}; /* off the rules */

static uint32_t noise(void)
{
	static uint32_t state = 2463534242u;
	state ^= state << 13;
	state ^= state >> 17;
	state ^= state << 5;
	return state;
}

static void give(int run, int at, uint8_t kind)
{
	runs[run][at] = (struct given){kind, (uint8_t)(noise() % WAITS)};
}

/* Any event at any time: most are unexpected. */
static void prepare_any(void)
{
	for (int i = 0; i < RUNS; i++) {
		for (int j = 0; j < EVENTS; j++) {
			give(i, j, (uint8_t)(noise() % KINDS));
		}
	}
}

/* Connections that are asked for, won, used and closed, on either side of the link. */
static void prepare_connections(void)
{
	static const uint8_t asked[] = {0, 15, 16, 12, 18, 7, 8, 4, 6};
	static const uint8_t sent[] = {5, 0, 17, 3, 1, 6, 4};
	for (int i = 0; i < RUNS; i++) {
		int j = 0;
		while (j < EVENTS) {
			const uint8_t *script = noise() % 2 ? asked : sent;
			int length = script == asked ? sizeof asked : sizeof sent;
			for (int k = 0; k < length && j < EVENTS; k++) {
				give(i, j++, script[k]);
			}
		}
	}
}

static void prepare_frames(void)
{
	for (int i = 0; i < WAITS; i++) {
		opens[i] = (struct sonerwal_open){.initiator = 1, .protocol = SONERWAL_PROTOCOL_SSP, .rate = SONERWAL_RATE_3_GBPS,
		                                  .destination = 1033 + (uint64_t)(i % 2), .source = 1033, .awt = (uint16_t)i};
		sonerwal_open_put(&opens[i], frames[i], sizeof frames[i]);
	}
}

static void prepare_links(void)
{
	struct sonerwal_link s = {0};
	for (int i = 0; i < LINKS; i++) {
		for (int j = 0; j < 5; j++) {
			const struct given *g = &runs[i][j];
			s = plain_link_event(s, kinds[g->kind], opens[g->wait]).state;
		}
		links[i] = s;
	}
}

static void prepare(size_t size)
{
	prepare_frames();
	if (size == 0) {
		prepare_any();
	} else {
		prepare_connections();
	}
	prepare_links();
}

static int same(void)
{
	return 1; /* the sums are compared */
}

/* ---- Rows */

static inline uint64_t mix(uint64_t sum, const struct sonerwal_link_step *step)
{
	uint64_t weight = step->state.phase * 4u + step->answer;
	for (int i = 0; i < 4; i++) {
		weight = weight * 64 + step->action[i].kind;
	}
	return sum * 31 + weight;
}

static uint64_t many_events(enum side side)
{
	uint64_t sum = 0;
	for (int i = 0; i < RUNS; i++) {
		struct sonerwal_link s = {0};
		for (int j = 0; j < EVENTS; j++) {
			const struct given *g = &runs[i][j];
			struct sonerwal_link_step step = linkers[side].event(s, kinds[g->kind], opens[g->wait]);
			sum = mix(sum, &step);
			s = step.state;
		}
	}
	return sum;
}

/* Events that name nothing, and a link that is off its rules. */
static uint64_t many_refused(enum side side)
{
	uint64_t sum = 0;
	for (int i = 0; i < RUNS * EVENTS; i++) {
		const struct sonerwal_link *s = i % 2 ? &off : &links[i % LINKS];
		struct sonerwal_link_step step = linkers[side].event(*s, (struct sonerwal_event){SONERWAL_KIND_CLOSE, i % 2 ? 0 : 1}, opens[0]);
		sum = mix(sum, &step);
	}
	return sum;
}

static uint64_t many_received(enum side side)
{
	uint64_t sum = 0;
	for (int i = 0; i < RUNS * EVENTS; i++) {
		struct sonerwal_link_step step = linkers[side].receive(links[i % LINKS], frames[i % WAITS], SONERWAL_OPEN_SIZE);
		sum = mix(sum, &step);
	}
	return sum;
}

static uint64_t many_statuses(enum side side)
{
	uint64_t sum = 0;
	for (int i = 0; i < RUNS * EVENTS; i++) {
		sum = sum * 31 + linkers[side].status(links[i % LINKS]);
	}
	return sum;
}

static struct row rows[] = {
	{"any event", many_events, RUNS * EVENTS, 0, {0}},
	{"connections", many_events, RUNS * EVENTS, 1, {0}},
	{"refused", many_refused, RUNS * EVENTS, 1, {0}},
	{"OPEN as bytes", many_received, RUNS * EVENTS, 1, {0}},
	{"status", many_statuses, RUNS * EVENTS, 1, {0}},
};

static uint64_t crossings(void)
{
	__typeof__(plain_link_crossing) *volatile cross = plain_link_crossing;
	__typeof__(plain_link_crossing) *call = cross;
	struct sonerwal_link s = {0};
	for (int i = 0; i < EVENTS; i++) {
		s = call(s, kinds[0], opens[0]).state;
	}
	return s.phase;
}

int main(int argc, char **argv)
{
	struct bench bench = {"link's call", rows, sizeof rows / sizeof *rows, 1.50, prepare, same};
	int status = compare(&bench, argc, argv);
	show_crossing("link's", crossings, EVENTS);
	return status;
}
