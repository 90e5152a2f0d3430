#include "xl_model.h"

#include <stdio.h>
#include <string.h>

/* What a row asks of the memory and of what crosses. */
enum when { ALWAYS, WITH_BREAK, WITH_OPEN, WITH_OPEN_STANDING, WITH_OPEN_BACK, STANDING, BACK, WITH_CLOSE, WITHOUT_CLOSE, WITH_BLOCKED };

/* What a row puts into the memory; k is the event's kind. */
enum keep { KEEP, HOLD_EVENT, HOLD_REMEMBERED, REMEMBER_OPEN, REMEMBER_AIP, REMEMBER_BREAK, REMEMBER_CLOSE, REMEMBER_BLOCKED, REMEMBER_UNBLOCKED, FORGET };

enum { STAY = -1 };

struct row {
	int state;
	const char *event; /* of any kind if it ends in "(" */
	enum when when;
	int to;
	enum keep keep;
	const char *actions; /* k for the event's kind */
};

/*
 * 01 XL.1 01 XL.2 01 XL.3 01 XL.5 01 XL.7 01 XL.8 01 XL.9 01 XL.11 01 XL.12 01 XL.13 01 XL.14 01 XL.15 01 XL.16 01 XL.17 01 XL.18
 * 01 XL.19 01 XL.20 01 XL.21 01 XL.22 01 XL.23 01 XL.24 01 XL.25 01 XL.26 01 XL.27 01 XL.28 01 XL.29 01 XL.30 01 XL.31 01 XL.32
 * 01 XL.33 01 XL.34 01 XL.35 01 XL.36 01 XL.37 01 XL.38
 * Of rows for one state and event the first that fits counts; an event that no row of its state names is unexpected.
 */
static const struct row rows[] = {
	{0, "OPEN", ALWAYS, 1, HOLD_EVENT, "RequestPath,AIP(0)"},
	{0, "SendOpen", ALWAYS, 5, HOLD_EVENT, "OPEN"},

	{1, "ArbWon", ALWAYS, 2, KEEP, "SendOpen"},
	{1, "ArbLost", ALWAYS, 0, KEEP, ""},
	{1, "ArbReject(0)", ALWAYS, 4, KEEP, "OPEN_REJECT(0)"},
	{1, "ArbReject(1)", ALWAYS, 4, KEEP, "OPEN_REJECT(1)"},
	{1, "ArbReject(2)", ALWAYS, 4, KEEP, "OPEN_REJECT(3)"}, /* Bad Link Rate */
	{1, "ArbReject(3)", ALWAYS, 4, KEEP, "OPEN_REJECT(5)"}, /* Pathway Blocked */
	{1, "Arbitrating(0)", ALWAYS, STAY, REMEMBER_UNBLOCKED, "AIP(1)"},
	{1, "Arbitrating(1)", ALWAYS, STAY, REMEMBER_BLOCKED, "AIP(1)"},
	{1, "Arbitrating(2)", ALWAYS, STAY, REMEMBER_UNBLOCKED, "AIP(2)"},
	{1, "PathTimer", WITH_BLOCKED, STAY, KEEP, "RequestPath(timeout)"},
	{1, "PathTimer", ALWAYS, STAY, KEEP, ""},
	{1, "BREAK", ALWAYS, 9, KEEP, "BREAK"},

	{2, "BREAK", ALWAYS, STAY, REMEMBER_BREAK, ""},
	{2, "Forwarded", WITH_BREAK, 9, KEEP, "SendBreak,BREAK"},
	{2, "Forwarded", ALWAYS, 3, KEEP, ""},

	{3, "ArbStatus(", ALWAYS, STAY, REMEMBER_AIP, "AIP(k)"},
	{3, "OpenAccept", ALWAYS, 7, KEEP, "OPEN_ACCEPT"},
	{3, "OpenReject(", ALWAYS, 0, KEEP, "OPEN_REJECT(k)"},
	{3, "BackoffRetry", ALWAYS, 1, KEEP, "RequestPath,AIP(0)"},
	{3, "BackoffReversePath", ALWAYS, 5, HOLD_EVENT, "OPEN"},
	{3, "BREAK", ALWAYS, 9, KEEP, "SendBreak,BREAK"},
	{3, "SendBreak", ALWAYS, 10, KEEP, "BREAK"},

	{4, "Sent", ALWAYS, 0, KEEP, ""},

	{5, "OPEN", ALWAYS, STAY, REMEMBER_OPEN, ""},
	{5, "BREAK", ALWAYS, STAY, REMEMBER_BREAK, ""},
	{5, "Sent", WITH_BREAK, 9, FORGET, "ArbStatus(3),SendBreak,BREAK"},
	{5, "Sent", WITH_OPEN_STANDING, 6, FORGET, "ArbStatus(3)"},
	{5, "Sent", WITH_OPEN_BACK, 2, HOLD_REMEMBERED, "ArbStatus(3),BackoffReversePath"},
	{5, "Sent", WITH_OPEN, 1, HOLD_REMEMBERED, "ArbStatus(3),BackoffRetry,RequestPath,AIP(0)"},
	{5, "Sent", ALWAYS, 6, FORGET, "ArbStatus(3)"},

	{6, "OPEN_ACCEPT", ALWAYS, 7, KEEP, "OpenAccept"},
	{6, "OPEN_REJECT(", ALWAYS, 0, KEEP, "OpenReject(k)"},
	{6, "AIP(", ALWAYS, STAY, REMEMBER_AIP, "ArbStatus(k)"},
	{6, "OPEN", STANDING, STAY, KEEP, ""},
	{6, "OPEN", BACK, 2, HOLD_EVENT, "BackoffReversePath"},
	{6, "OPEN", ALWAYS, 1, HOLD_EVENT, "BackoffRetry,RequestPath,AIP(0)"},
	{6, "BREAK", ALWAYS, 9, KEEP, "SendBreak,BREAK"},
	{6, "SendBreak", ALWAYS, 10, KEEP, "BREAK"},

	{7, "CLOSE", WITHOUT_CLOSE, STAY, REMEMBER_CLOSE, "SendClose"},
	{7, "SendClose", WITH_CLOSE, 0, KEEP, "CLOSE"},
	{7, "SendClose", ALWAYS, 8, KEEP, "CLOSE"},
	{7, "BREAK", ALWAYS, 9, KEEP, "SendBreak,BREAK"},
	{7, "SendBreak", ALWAYS, 10, KEEP, "BREAK"},

	{8, "CLOSE", ALWAYS, 0, KEEP, "SendClose"},
	{8, "BREAK", ALWAYS, 9, KEEP, "SendBreak,BREAK"},
	{8, "SendBreak", ALWAYS, 10, KEEP, "BREAK"},

	{9, "Sent", ALWAYS, 0, KEEP, ""},

	{10, "BREAK", ALWAYS, 0, KEEP, ""},
	{10, "BreakTimeout", ALWAYS, 0, KEEP, ""},
};

/* 01 XL.10 */
static const char *const cleared_by[STATES] = {
	[0] = "------", /* every sign */
	[1] = "kk-0k0", /* BREAK, AIP, and the Arbitrating of the last stay */
	[2] = "kk-0kk",
	[5] = "k--0kk",
};

/* Whether the frame transmitted stands against an OPEN. */
static bool stands(const char *memory, struct crossing crossing)
{
	return memory[AIP] == '-' && !crossing.higher;
}

static bool fits(const struct row *row, int state, const char *event, const char *memory, struct crossing crossing)
{
	size_t length = strlen(row->event);
	bool same = row->event[length - 1] == '(' ? strncmp(row->event, event, length) == 0 : strcmp(row->event, event) == 0;
	if (row->state != state || !same) {
		return false;
	}
	switch (row->when) {
	case WITH_BREAK:
		return memory[BROKE] == '1';
	case WITH_OPEN:
		return memory[HEARD] != '-';
	case WITH_OPEN_STANDING:
		return memory[HEARD] != '-' && stands(memory, crossing);
	case WITH_OPEN_BACK:
		return memory[HEARD] != '-' && crossing.back;
	case STANDING:
		return stands(memory, crossing);
	case BACK:
		return crossing.back;
	case WITH_CLOSE:
		return memory[CLOSED] == '1';
	case WITHOUT_CLOSE:
		return memory[CLOSED] == '0';
	case WITH_BLOCKED:
		return memory[BLOCKED] == '1';
	default:
		return true;
	}
}

static void remember(const struct row *row, char kind, char *memory)
{
	char heard = memory[HEARD];
	switch (row->keep) {
	case HOLD_EVENT:
		memory[HELD] = 'e';
		break;
	case HOLD_REMEMBERED:
	case FORGET:
		memory[HEARD] = '-';
		memory[BROKE] = '0';
		if (row->keep == HOLD_REMEMBERED) {
			memory[HELD] = heard;
		}
		break;
	case REMEMBER_OPEN:
		memory[HEARD] = 'e';
		break;
	case REMEMBER_AIP:
		memory[AIP] = kind;
		break;
	case REMEMBER_BREAK:
		memory[BROKE] = '1';
		break;
	case REMEMBER_CLOSE:
		memory[CLOSED] = '1';
		break;
	case REMEMBER_BLOCKED:
		memory[BLOCKED] = '1';
		break;
	case REMEMBER_UNBLOCKED:
		memory[BLOCKED] = '0';
		break;
	default:
		break;
	}
}

static void enter(int state, char *memory)
{
	static const char none[] = "---000";
	const char *cleared = cleared_by[state];
	for (int i = 0; cleared && i < SIGNS; i++) {
		if (cleared[i] != 'k') {
			memory[i] = none[i];
		}
	}
}

static void cell(int state, const char *before, int to, const char *memory, const char *actions, char kind, char *out)
{
	if (to == state && strcmp(before, memory) == 0 && actions[0] == '\0') {
		strcpy(out, "=");
		return;
	}
	int n = snprintf(out, CELL, "%d/%s/%s", to, memory, actions);
	for (int i = 0; i + 1 < n; i++) {
		if (out[i] == 'k' && out[i - 1] == '(') {
			out[i] = kind;
		}
	}
}

/* 01 XL.4 */
bool link_keeps_rules(int state, const char *memory)
{
	return state < 1 || state > 6 || memory[HELD] != '-';
}

void link_cell(int state, const char *memory, const char *event, struct crossing crossing, char *out)
{
	char after[SIGNS + 1];
	const char *open = strchr(event, '(');
	char kind = open ? open[1] : '?';
	strcpy(after, memory);
	if (!link_keeps_rules(state, memory)) {
		strcpy(out, "3");
		return;
	}
	if (strcmp(event, "Disable") == 0) {
		cell(state, memory, 0, "---000", "", kind, out);
		return;
	}
	for (size_t i = 0; i < sizeof rows / sizeof *rows; i++) {
		if (fits(&rows[i], state, event, memory, crossing)) {
			remember(&rows[i], kind, after);
			if (rows[i].to != STAY) {
				enter(rows[i].to, after);
			}
			cell(state, memory, rows[i].to == STAY ? state : rows[i].to, after, rows[i].actions, kind, out);
			return;
		}
	}
	strcpy(out, "+");
}

/* 01 XL.39 */
char link_status(int state, const char *memory)
{
	if (!link_keeps_rules(state, memory)) {
		return '3';
	}
	if (state == 0) {
		return 'R';
	}
	if (state == 7 || state == 8) {
		return 'C';
	}
	return (state == 3 || state == 6) && memory[AIP] == '1' ? 'B' : 'P';
}
