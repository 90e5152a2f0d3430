/*
 * Document 01's own numbers of the port, call by call: what Open carries after a wait and after how many blocked opens, and when a
 * retried request is chosen again.
 */
#include "check.h"
#include "ports.h"

#include <inttypes.h>

static struct sonerwal_request list[SLOTS];

/* A port with one phy, enabled, and an SSP request that its first open has failed for at time 0, with Pathway Blocked. */
static struct sonerwal_port blocked_once(void)
{
	struct sonerwal_open head = {.protocol = 1, .rate = 8, .tag = 1, .destination = 2, .source = 3};
	struct sonerwal_port port = sonerwal_port_setup(list, SLOTS, 1, 1).port;
	port = sonerwal_port_enable(list, SLOTS, port, 0, 0).port;
	port = sonerwal_port_submit(list, SLOTS, port, head, 0).port;
	port = sonerwal_port_choose(list, SLOTS, port, 0).port;
	return sonerwal_port_open_failed(list, SLOTS, port, 0, PATHWAY_BLOCKED, 0).port;
}

/* 01 EXAMPLE.1 01 OPEN.7 01 PORT.16 */
static void waits(void)
{
	static const struct {
		uint64_t elapsed;
		uint16_t awt;
	} cases[] = {
		{15, 15},          {32767, 32767},    {32768, 32768},    {33767, 32768},      {33768, 32769},
		{32799767, 65534}, {32799768, 65535}, {UINT64_MAX, 65535},
	};
	for (size_t i = 0; i < COUNT(cases); i++) {
		struct sonerwal_port_step reply = sonerwal_port_choose(list, SLOTS, blocked_once(), cases[i].elapsed);
		check(reply.answer == SONERWAL_OPEN && reply.frame.awt == cases[i].awt && reply.frame.pbc == 1,
		      "%" PRIu64 " microseconds: answer %u, AWT %u, PBC %u", cases[i].elapsed, reply.answer, reply.frame.awt, reply.frame.pbc);
	}
}

/* 01 EXAMPLE.4 01 PORT.19 */
static void blocked_counts(void)
{
	struct sonerwal_port port = blocked_once();
	for (unsigned i = 1; i <= 300; i++) {
		struct sonerwal_port_step reply = sonerwal_port_choose(list, SLOTS, port, 15 * i);
		check(reply.answer == SONERWAL_OPEN && reply.frame.pbc == (i < 255 ? i : 255), "blocked %u times: PBC %u", i, reply.frame.pbc);
		port = sonerwal_port_open_failed(list, SLOTS, reply.port, 0, PATHWAY_BLOCKED, 15 * i).port;
	}
}

/* 01 PORT.12 */
static void fifteen(void)
{
	check(sonerwal_port_choose(list, SLOTS, blocked_once(), 14).answer == SONERWAL_NOTHING, "chosen 14 microseconds after its retry");
	check(sonerwal_port_choose(list, SLOTS, blocked_once(), 15).answer == SONERWAL_OPEN, "not chosen 15 microseconds after its retry");
}

int main(void)
{
	waits();
	blocked_counts();
	fifteen();
	return check_end("port_numbers");
}
