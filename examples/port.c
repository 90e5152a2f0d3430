/*
 * A target port's day, call by call: what a board asks of the port and reports to it, and what the port answers, in document 01's
 * words. Time is in microseconds.
 */
#include <inttypes.h>
#include <stdarg.h>
#include <stdbool.h>
#include <stdio.h>
#include <stdlib.h>

#include "sonerwal.h"

enum { SLOTS = SONERWAL_SLOTS, SMP = SONERWAL_PROTOCOL_SMP, SSP = SONERWAL_PROTOCOL_SSP, STP = SONERWAL_PROTOCOL_STP };

/* Not in document 01. */
enum { PORT_LAYER_REQUEST = SONERWAL_REASON_BREAK_RECEIVED + 1 };

static const char *const words[] = {
	[SONERWAL_OK] = "Taken",
	[SONERWAL_SUBMITTED] = "Submitted",
	[SONERWAL_NOTHING] = "Nothing",
	[SONERWAL_SEND] = "Send",
	[SONERWAL_OPEN] = "Open",
	[SONERWAL_CLOSE] = "Close",
	[SONERWAL_STOP_ARB] = "Stop Arb",
	[SONERWAL_RETRIED] = "Retried",
	[SONERWAL_WAITING] = "Waiting",
	[SONERWAL_CANCEL_ACKNOWLEDGED] = "Cancel Acknowledged",
	[SONERWAL_ENDED] = "Ended",
	[SONERWAL_NEXUS_LOSS] = "I_T Nexus Loss",
	[SONERWAL_CONNECTION_LOST] = "Connection Lost",
	[SONERWAL_STATUS] = "Status",
};

static const char *const reasons[] = {
	"No Destination", "Bad Destination", "Wrong Destination", "Link Rate Not Supported", "Protocol Not Supported", "Pathway Blocked",
	"STP Resources Busy", "Retry", "Open Time Out", "Break Received", "Port Layer Request",
};

static const char *const refusals[] = {
	[1] = "a buffer has the wrong length",
	[2] = "a field, event or line isn't one listed here",
	[3] = "a setup number is out of range, or a lent state breaks its rules",
	[4] = "the phy isn't one of the port's",
	[5] = "the given time is before the port's last time",
	[6] = "the call doesn't fit the state",
	[9] = "a request with this destination, protocol and tag is present",
	[10] = "32 requests are present",
};

static const char *const protocols[] = {"SMP", "SSP", "STP", "protocol 3"};

/* Hosts by letter; the port's own address is the source of every request. */
static const uint64_t hosts = UINT64_C(0x5003048000000000), self = UINT64_C(0x5000C50012345678);

static struct sonerwal_request list[SLOTS];
static struct sonerwal_port port;
static bool quiet; /* while a call is repeated */

/* ---- How it is told */

static void chapter(const char *title)
{
	static bool later;
	printf("%s%s\n\n", later ? "\n" : "", title);
	later = true;
}

/* A line in between. */
static void remark(const char *text)
{
	printf("             (%s)\n", text);
}

static void print_request(const struct sonerwal_open *head)
{
	printf("%s %c %u", protocols[head->protocol], (char)(head->destination - hosts), head->tag);
}

static bool is_refused(const struct sonerwal_port_step *reply)
{
	return reply->answer >= SONERWAL_REFUSED_LENGTH && reply->answer <= SONERWAL_REFUSED_FULL;
}

static void print_answer(const struct sonerwal_port_step *reply)
{
	const char *between = ": ";
	if (is_refused(reply)) {
		printf("Refused %u: %s", reply->answer, refusals[reply->answer]);
	} else {
		printf("%s", words[reply->answer]);
	}
	if (reply->answer == SONERWAL_ENDED) {
		printf(", %s", reasons[reply->detail]);
	} else if (reply->answer == SONERWAL_STATUS) {
		printf(" %02Xh", reply->detail);
	}
	if (reply->slot != SONERWAL_NO_SLOT) {
		printf("%s", between);
		print_request(&reply->frame);
		printf(", slot %u", reply->slot);
		between = ", ";
	}
	if (reply->phy != SONERWAL_NO_PHY) {
		printf("%sphy %u", between, reply->phy);
	}
	if (reply->answer == SONERWAL_OPEN) {
		printf(", AWT %u, PBC %u", reply->frame.awt, reply->frame.pbc);
	}
	printf("\n");
}

/* Time, call and answer. */
static void tell(uint64_t now, const struct sonerwal_port_step *reply, const char *format, ...)
{
	char call[80];
	va_list values;
	va_start(values, format);
	vsnprintf(call, sizeof call, format, values);
	va_end(values);
	if (!quiet) {
		printf("%11" PRIu64 "  %-46s", now, call);
		print_answer(reply);
	}
}

/* ---- The ten calls */

static void setup(uint8_t count, uint16_t loss)
{
	struct sonerwal_port_step reply = sonerwal_port_setup(list, SLOTS, count, loss);
	if (!is_refused(&reply)) {
		port = reply.port;
	}
	tell(0, &reply, "setup: %u phy%s, loss time %u ms", count, count == 1 ? "" : "s", loss);
}

static struct sonerwal_open head_of(uint8_t protocol, char host, uint16_t tag)
{
	return (struct sonerwal_open){.protocol = protocol, .rate = 10, .tag = tag, .destination = hosts + (unsigned char)host, .source = self};
}

static void submit(uint64_t now, uint8_t protocol, char host, uint16_t tag)
{
	struct sonerwal_port_step reply = sonerwal_port_submit(list, SLOTS, port, head_of(protocol, host, tag), now);
	port = reply.port;
	tell(now, &reply, "submit %s to %c, tag %u", protocols[protocol], host, tag);
}

static void cancel(uint64_t now, uint8_t protocol, char host, uint16_t tag)
{
	struct sonerwal_open h = head_of(protocol, host, tag);
	struct sonerwal_port_step reply = sonerwal_port_cancel(list, SLOTS, port, h.destination, h.protocol, h.tag, now);
	port = reply.port;
	tell(now, &reply, "cancel %s to %c, tag %u", protocols[protocol], host, tag);
}

static void choose(uint64_t now)
{
	struct sonerwal_port_step reply = sonerwal_port_choose(list, SLOTS, port, now);
	port = reply.port;
	tell(now, &reply, "choose");
}

static void opened(uint64_t now, uint8_t phy)
{
	struct sonerwal_port_step reply = sonerwal_port_opened(list, SLOTS, port, phy, now);
	port = reply.port;
	tell(now, &reply, "opened, phy %u", phy);
}

static void open_failed(uint64_t now, uint8_t phy, uint8_t why)
{
	struct sonerwal_port_step reply = sonerwal_port_open_failed(list, SLOTS, port, phy, why, now);
	port = reply.port;
	tell(now, &reply, "open failed, phy %u: %s", phy, reasons[why]);
}

static void frame_status(uint64_t now, uint8_t phy, uint8_t status)
{
	struct sonerwal_port_step reply = sonerwal_port_frame_status(list, SLOTS, port, phy, status, now);
	port = reply.port;
	tell(now, &reply, "frame status %02Xh, phy %u", status, phy);
}

static void closed(uint64_t now, uint8_t phy)
{
	struct sonerwal_port_step reply = sonerwal_port_closed(list, SLOTS, port, phy, now);
	port = reply.port;
	tell(now, &reply, "closed, phy %u", phy);
}

static void enable(uint64_t now, uint8_t phy)
{
	struct sonerwal_port_step reply = sonerwal_port_enable(list, SLOTS, port, phy, now);
	port = reply.port;
	tell(now, &reply, "enable phy %u", phy);
}

static void disable(uint64_t now, uint8_t phy)
{
	struct sonerwal_port_step reply = sonerwal_port_disable(list, SLOTS, port, phy, now);
	port = reply.port;
	tell(now, &reply, "disable phy %u", phy);
}

/* ---- The story */

static void one_frame(void)
{
	chapter("1. A frame goes out, and a second one on the same connection");
	setup(2, 2);
	submit(5, SSP, 'A', 1);
	choose(6);
	remark("both phys are disabled");
	enable(7, 0);
	choose(10);
	choose(11);
	opened(30, 0);
	frame_status(50, 0, 0x00);
	submit(60, SSP, 'A', 2);
	choose(60);
	remark("phy 0 is connected to A for SSP and idle: no open");
	frame_status(75, 0, 0x40);
	closed(80, 0);
	remark("nobody's request was on it");
}

static void whose_turn(void)
{
	chapter("2. Whose turn it is, and on which phy");
	setup(2, 2);
	enable(1, 1);
	enable(1, 0);
	submit(10, SSP, 'A', 1);
	submit(11, SSP, 'B', 1);
	submit(11, STP, 'A', 1);
	choose(12);
	choose(12);
	choose(12);
	remark("by time of submission, then by slot; the lowest phy; none is left for the third");
	opened(20, 0);
	opened(21, 1);
	frame_status(30, 1, 0x00);
	choose(31);
	remark("phy 1 is connected elsewhere and idle; the request waits on");
	choose(32);
	frame_status(33, 0, 0x00);
	choose(34);
	remark("phy 0 is idle too, to A, but for SSP; a phy is closed once for a request");
	submit(35, SSP, 'A', 2);
	choose(36);
	remark("the later request has a phy, the earlier none");
	closed(40, 1);
	choose(41);
	opened(50, 1);
	frame_status(60, 1, 0x00);
	frame_status(61, 0, 0x00);
}

static void reasons_told(void)
{
	chapter("3. Opens that fail: five reasons are retried after 15 microseconds, five end the request");
	setup(1, SONERWAL_LOSS_NEVER);
	enable(0, 0);
	submit(100, SSP, 'A', 1);
	choose(100);
	open_failed(120, 0, SONERWAL_REASON_PATHWAY_BLOCKED);
	choose(134);
	choose(135);
	remark("15 microseconds after the retry; the wait runs from the open at 100");
	open_failed(150, 0, SONERWAL_REASON_PATHWAY_BLOCKED);
	choose(32868);
	open_failed(32900, 0, SONERWAL_REASON_PATHWAY_BLOCKED);
	choose(33868);
	remark("from 32,768 on the wait counts in milliseconds");
	open_failed(33900, 0, SONERWAL_REASON_RETRY);
	choose(33915);
	remark("Retry resets wait and count");
	open_failed(33920, 0, SONERWAL_REASON_PATHWAY_BLOCKED);
	choose(33935);
	open_failed(33940, 0, SONERWAL_REASON_OPEN_TIME_OUT);
	choose(33955);
	open_failed(33960, 0, SONERWAL_REASON_NO_DESTINATION);
	choose(33975);
	open_failed(33980, 0, SONERWAL_REASON_LINK_RATE_NOT_SUPPORTED);
	choose(33995);
	open_failed(34000, 0, SONERWAL_REASON_BAD_DESTINATION);
	submit(34010, SSP, 'A', 1);
	choose(34010);
	open_failed(34020, 0, SONERWAL_REASON_WRONG_DESTINATION);
	submit(34030, SSP, 'A', 1);
	choose(34030);
	open_failed(34040, 0, SONERWAL_REASON_PROTOCOL_NOT_SUPPORTED);
	submit(34050, STP, 'A', 1);
	choose(34050);
	open_failed(34060, 0, SONERWAL_REASON_STP_RESOURCES_BUSY);
	submit(34070, SMP, 'A', 1);
	choose(34070);
	open_failed(34080, 0, SONERWAL_REASON_BREAK_RECEIVED);
	choose(34090);
}

static void blocked(void)
{
	chapter("4. Pathway Blocked, up to PBC 255");
	setup(1, 1);
	enable(0, 0);
	submit(0, SSP, 'A', 1);
	choose(0);
	open_failed(0, 0, SONERWAL_REASON_PATHWAY_BLOCKED);
	quiet = true;
	for (uint64_t i = 1; i < 254; i++) {
		choose(15 * i);
		open_failed(15 * i, 0, SONERWAL_REASON_PATHWAY_BLOCKED);
	}
	quiet = false;
	remark("and so on, 253 times more");
	choose(3810);
	open_failed(3810, 0, SONERWAL_REASON_PATHWAY_BLOCKED);
	choose(3825);
	open_failed(3825, 0, SONERWAL_REASON_PATHWAY_BLOCKED);
	choose(3840);
	remark("no loss timer runs: Pathway Blocked starts none");
	disable(3850, 0);
	enable(3860, 0);
	choose(3870);
	remark("disabling keeps wait and count");
	open_failed(3880, 0, SONERWAL_REASON_BREAK_RECEIVED);
}

static void lost_connection(void)
{
	chapter("5. A connection goes away");
	setup(1, 1);
	enable(0, 0);
	submit(1, SSP, 'A', 1);
	choose(1);
	opened(5, 0);
	closed(9, 0);
	remark("with a frame out; nothing follows for that request");
	choose(10);
}

static void cancelled(void)
{
	chapter("6. Cancel, wherever the request is");
	setup(1, 1);
	submit(1, SSP, 'A', 1);
	cancel(2, SSP, 'A', 1);
	remark("it was waiting");
	enable(3, 0);

	submit(10, SSP, 'A', 1);
	choose(10);
	cancel(11, SSP, 'A', 1);
	remark("it was opening");
	cancel(12, SSP, 'A', 1);
	open_failed(13, 0, SONERWAL_REASON_OPEN_TIME_OUT);
	remark("a retried reason is the end of a cancelled request");

	submit(20, SSP, 'A', 1);
	choose(20);
	cancel(21, SSP, 'A', 1);
	opened(22, 0);
	remark("the open was faster: the frame doesn't go");
	cancel(23, SSP, 'A', 1);
	remark("on a closing phy, cancelled before");
	closed(24, 0);

	submit(30, SSP, 'A', 1);
	choose(30);
	opened(31, 0);
	cancel(32, SSP, 'A', 1);
	remark("its frame was out");
	frame_status(33, 0, 0x00);
	submit(34, SSP, 'A', 2);
	choose(34);
	remark("the phy stays closing");
	closed(35, 0);

	choose(40);
	opened(41, 0);
	cancel(42, SSP, 'A', 2);
	closed(43, 0);
	remark("closed before the frame's status came");

	submit(50, SSP, 'A', 1);
	choose(50);
	opened(51, 0);
	frame_status(52, 0, 0x00);
	cancel(53, SSP, 'A', 1);
	remark("the phy is connected and idle: its request has ended");
	submit(54, SSP, 'A', 1);
	choose(54);
	cancel(55, SSP, 'A', 1);
	remark("sent on the connection that was there");
	disable(56, 0);
}

static void disabled(void)
{
	chapter("7. Disable, wherever the phy is");
	setup(1, 1);
	enable(1, 0);
	disable(2, 0);
	remark("it was unconnected");
	enable(3, 0);

	submit(10, SSP, 'A', 1);
	choose(10);
	open_failed(20, 0, SONERWAL_REASON_PATHWAY_BLOCKED);
	choose(40);
	disable(50, 0);
	remark("it was opening");
	choose(51);
	enable(52, 0);
	choose(52);
	remark("disabling is no retry: no 15 microseconds, and the wait has run on");
	opened(60, 0);
	disable(61, 0);
	remark("a frame was out: it is sent anew");
	enable(62, 0);
	choose(63);
	opened(64, 0);
	frame_status(65, 0, 0x00);
	disable(66, 0);
	remark("it was connected and idle");

	enable(70, 0);
	submit(70, SSP, 'A', 1);
	choose(70);
	cancel(71, SSP, 'A', 1);
	disable(72, 0);
	remark("it was opening, for a cancelled request");

	enable(80, 0);
	submit(80, SSP, 'A', 1);
	choose(80);
	opened(81, 0);
	cancel(82, SSP, 'A', 1);
	disable(83, 0);
	remark("it was closing, a frame out");

	enable(90, 0);
	submit(90, SSP, 'A', 1);
	choose(90);
	cancel(91, SSP, 'A', 1);
	opened(92, 0);
	disable(93, 0);
	remark("it was closing and idle, for a cancelled request");

	enable(100, 0);
	submit(100, SSP, 'A', 1);
	choose(100);
	opened(101, 0);
	submit(102, SSP, 'B', 1);
	frame_status(103, 0, 0x00);
	choose(104);
	disable(105, 0);
	remark("it was closing, for nobody");
}

static void nexus_loss(void)
{
	chapter("8. I_T Nexus Loss, with a loss time of 2 ms");
	setup(1, 2);
	enable(0, 0);
	submit(100, SSP, 'A', 1);
	submit(100, SSP, 'A', 2);
	choose(100);
	open_failed(1000, 0, SONERWAL_REASON_NO_DESTINATION);
	remark("A's loss timer starts");
	choose(1000);
	open_failed(2999, 0, SONERWAL_REASON_LINK_RATE_NOT_SUPPORTED);
	remark("it runs, 1,999 microseconds by now, and isn't started anew");
	choose(2999);
	open_failed(3000, 0, SONERWAL_REASON_OPEN_TIME_OUT);
	remark("2,000 microseconds, and any retried reason will do; the timer runs on for the other request");
	submit(3010, SSP, 'A', 3);
	choose(3014);
	open_failed(3020, 0, SONERWAL_REASON_PATHWAY_BLOCKED);
	choose(3020);
	open_failed(3030, 0, SONERWAL_REASON_LINK_RATE_NOT_SUPPORTED);
	remark("a new request fails once: the timer is A's, not its own");
	submit(3040, SSP, 'A', 4);
	choose(3040);
	open_failed(3050, 0, SONERWAL_REASON_OPEN_TIME_OUT);
	remark("A's last SSP request had left, and the timer with it");
	cancel(3060, SSP, 'A', 4);
}

static void timer_stops(void)
{
	chapter("9. What stops a loss timer, and what doesn't");
	setup(1, 2);
	enable(0, 0);
	submit(0, SSP, 'A', 1);
	submit(0, SSP, 'A', 2);
	choose(0);
	open_failed(10, 0, SONERWAL_REASON_NO_DESTINATION);
	choose(3000);
	open_failed(3000, 0, SONERWAL_REASON_RETRY);
	remark("Retry stops it first, and is a retry");
	choose(3000);
	open_failed(6000, 0, SONERWAL_REASON_OPEN_TIME_OUT);
	choose(6000);
	open_failed(6010, 0, SONERWAL_REASON_NO_DESTINATION);
	choose(6015);
	open_failed(9000, 0, SONERWAL_REASON_PROTOCOL_NOT_SUPPORTED);
	remark("stopped, for the request that stays");
	choose(9000);
	open_failed(9000, 0, SONERWAL_REASON_OPEN_TIME_OUT);
	submit(9000, SSP, 'A', 2);
	choose(9000);
	open_failed(9010, 0, SONERWAL_REASON_LINK_RATE_NOT_SUPPORTED);
	choose(9015);
	opened(12000, 0);
	remark("stopped, late as it is");
	frame_status(12001, 0, 0x00);
	closed(12002, 0);
	choose(12010);
	open_failed(12010, 0, SONERWAL_REASON_OPEN_TIME_OUT);
	choose(12025);
	open_failed(12025, 0, SONERWAL_REASON_NO_DESTINATION);
	submit(12030, SSP, 'A', 1);
	choose(12030);
	open_failed(15000, 0, SONERWAL_REASON_STP_RESOURCES_BUSY);
	remark("stopped");
	choose(15000);
	open_failed(15000, 0, SONERWAL_REASON_OPEN_TIME_OUT);
	choose(15015);
	open_failed(15015, 0, SONERWAL_REASON_NO_DESTINATION);
	submit(15020, SSP, 'A', 1);
	submit(15020, SSP, 'A', 3);
	choose(15020);
	open_failed(18000, 0, SONERWAL_REASON_BAD_DESTINATION);
	choose(18000);
	cancel(18001, SSP, 'A', 2);
	open_failed(18002, 0, SONERWAL_REASON_NO_DESTINATION);
	remark("Cancel Acknowledged comes before I_T Nexus Loss");
	choose(18002);
	open_failed(18003, 0, SONERWAL_REASON_OPEN_TIME_OUT);
	remark("neither of the two before stopped it");
}

static void timers_of_ssp(void)
{
	chapter("10. Loss timers are for SSP");
	setup(1, 1);
	enable(0, 0);
	submit(0, SMP, 'A', 1);
	choose(0);
	open_failed(0, 0, SONERWAL_REASON_NO_DESTINATION);
	choose(5000);
	open_failed(5000, 0, SONERWAL_REASON_NO_DESTINATION);
	submit(5000, SSP, 'A', 1);
	choose(5000);
	open_failed(5000, 0, SONERWAL_REASON_NO_DESTINATION);
	choose(6000);
	open_failed(6000, 0, SONERWAL_REASON_RETRY);
	remark("the SMP request: A's timer neither stops for it nor ends it");
	choose(6000);
	open_failed(6000, 0, SONERWAL_REASON_NO_DESTINATION);
}

static void never_lost(void)
{
	chapter("11. A loss time of 65,535 ms is never");
	setup(1, SONERWAL_LOSS_NEVER);
	enable(0, 0);
	submit(0, SSP, 'A', 1);
	choose(0);
	open_failed(0, 0, SONERWAL_REASON_NO_DESTINATION);
	choose(65535000);
	open_failed(65535000, 0, SONERWAL_REASON_NO_DESTINATION);
	choose(UINT64_C(86400000000));
	open_failed(UINT64_C(86400000000), 0, SONERWAL_REASON_LINK_RATE_NOT_SUPPORTED);
	remark("a day later it is still retried");
}

static void lent(void)
{
	chapter("12. A lent state that no call leaves, and that the rules allow");
	setup(1, 1);
	enable(0, 0);
	submit(0, SSP, 'A', 1);
	choose(0);
	opened(1, 0);
	port.phys[0].stage = 5;
	remark("the caller says: phy 0 is closing and idle, and names a request that isn't cancelled");
	frame_status(2, 0, 0x00);
	cancel(2, SSP, 'A', 1);
	port.phys[0].stage = 6;
	list[0].cancelled = 0;
	remark("the caller says: phy 0 is closing, the frame is out, and the request isn't cancelled");
	disable(3, 0);
}

static void refused(void)
{
	chapter("13. Every refusal");
	setup(2, 1);
	enable(10, 0);
	struct sonerwal_port_step reply = sonerwal_port_choose(list, 31, port, 10);
	tell(10, &reply, "choose, with a list of 31 records");
	submit(10, 3, 'A', 1);
	open_failed(10, 0, PORT_LAYER_REQUEST);
	setup(9, 1);
	port.phys[1].stage = 2;
	remark("the caller says: phy 1 is opening, and names nobody");
	choose(10);
	port.phys[1].stage = 0;
	opened(10, 2);
	choose(9);
	opened(10, 0);
	open_failed(10, 0, SONERWAL_REASON_RETRY);
	frame_status(10, 0, 0x00);
	closed(10, 0);
	enable(10, 0);
	disable(10, 1);
	cancel(10, SSP, 'A', 1);
	submit(10, SSP, 'A', 1);
	submit(10, SSP, 'A', 1);
	submit(10, STP, 'A', 1);
	quiet = true;
	for (uint16_t tag = 2; tag < 32; tag++) {
		submit(10, SSP, 'A', tag);
	}
	quiet = false;
	remark("and 30 more");
	submit(10, SSP, 'B', 1);
	submit(10, SSP, 'A', 1);
	submit(9, SSP, 'A', 1);
	remark("of several causes the lowest number");
}

int main(void)
{
	one_frame();
	whose_turn();
	reasons_told();
	blocked();
	lost_connection();
	cancelled();
	disabled();
	nexus_loss();
	timer_stops();
	timers_of_ssp();
	never_lost();
	lent();
	refused();
	return EXIT_SUCCESS;
}
