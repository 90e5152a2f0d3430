/*
 * Transfers that are saved and restored, through sonerwal.h: the lines that were agreed on, swaps between any two calls against a model
 * with a queue (steps_model.h) that knows of none, every front of a line, and every line that is one byte off.
 *
 * Usage: saves [SEED]
 */
#include "check.h"
#include "saves_face.h"
#include "steps_draw.h"
#include "steps_face.h"

#include <stdio.h>
#include <string.h>

enum { TRACES = 30000, MOST_STEPS = 120, LINES = 400 };

/* ---- The lines that were agreed on, letter by letter */

/* A call, and the line behind it where it is said. */
struct told {
	enum call call;
	const char *line;
};

static const struct told listing[] = {
	{START, "1\t0\t8\t4\t1\t0\t0\t0\t0\t0\trun"},   {FRAME, "1\t0\t8\t4\t1\t4\t0\t1\t1\t0\trun"},
	{FRAME, "1\t0\t8\t4\t1\t8\t0\t2\t1\t0\trun"},   {NAK, "1\t0\t8\t4\t1\t8\t0\t1\t1\t0\tdrain"},
	{ACK, "1\t0\t8\t4\t1\t0\t0\t0\t0\t1\trun"},     {FRAME, "1\t0\t8\t4\t1\t4\t0\t1\t1\t1\trun"},
	{ACK, "1\t0\t8\t4\t1\t4\t4\t0\t1\t1\trun"},     {FRAME, "1\t0\t8\t4\t1\t8\t4\t1\t1\t1\trun"},
	{ACK, "1\t0\t8\t4\t1\t8\t8\t0\t1\t1\tdone"},
};

#define LOSSY                                                                                                                         \
	{START, NULL}, {FRAME, NULL}, {FRAME, NULL}, {ACK, NULL}, {ACK, NULL}, {FRAME, NULL}, {TIMEOUT, NULL}, {FRAME, NULL}, {LOST, NULL}, \
		{FRAME, NULL}, {FRAME, NULL}

static const struct told running[] = {LOSSY, {FRAME, "1\t100\t50\t8\t3\t140\t116\t3\t1\t2\trun"}};
static const struct told failing[] = {LOSSY, {NAK, "1\t100\t50\t8\t2\t132\t116\t0\t1\t2\tfail"}};
static const struct told ending[] = {LOSSY, {FRAME, NULL}, {CANCEL, "1\t100\t50\t8\t3\t140\t116\t0\t1\t2\tend"}};

static bool is_line(const struct sonerwal_transfer *s, const char *text)
{
	uint8_t line[SONERWAL_SAVED_ROOM];
	struct sonerwal_saved saved = sonerwal_transfer_save(*s, SONERWAL_SAVED_FORM, line, sizeof line);
	return saved.answer == SONERWAL_OK && saved.length == strlen(text) && memcmp(line, text, saved.length) == 0 &&
	       restore_gives((const uint8_t *)text, strlen(text), true, s);
}

static void tell(const struct request *q, const struct told *told, size_t count)
{
	struct sonerwal_transfer s = {0};
	for (size_t i = 0; i < count; i++) {
		s = face_call(s, told[i].call, q, NULL, NULL).state;
		if (told[i].line) {
			check(is_line(&s, told[i].line), "the line behind %s is not %s", step_names[told[i].call], told[i].line);
		}
	}
}

#define TELL(told, ...)                                                 \
	do {                                                            \
		static const struct request q = {__VA_ARGS__};          \
		tell(&q, told, sizeof(told) / sizeof *(told));          \
	} while (0)

/* 02 a.2 */
static void agreed_lines(void)
{
	static const struct sonerwal_transfer before_start;
	check(is_line(&before_start, "1\t0\t0\t0\t0\t0\t0\t0\t0\t0\tnew"), "the line before START is another");
	TELL(listing, 0, 8, 4, 1);
	TELL(running, 100, 50, 8, 3);
	TELL(failing, 100, 50, 8, 2);
	TELL(ending, 100, 50, 8, 3);
}

/* ---- Swaps between any two calls */

/* The state goes through a line, and nothing else of it stays. */
static bool swap(struct sides *both)
{
	struct sonerwal_transfer shown = queue_shown(&both->t);
	struct line line = line_of(&shown);
	if (!save_agrees(&both->s, true, SONERWAL_SAVED_FORM, SONERWAL_SAVED_ROOM) || !restore_gives(line.bytes, line.length, true, &shown)) {
		return false;
	}
	both->s = sonerwal_transfer_restore(line.bytes, line.length).state;
	return true;
}

/* 02 a.3 02 a.4
 * One transfer is swapped behind every call, and one never, each beside a model whose queue of frames no swap touches. */
static bool trace_agrees(uint32_t count)
{
	static struct sending g;
	struct sides kept = {.s = {0}}, swapped = {.s = {0}};
	struct request q = draw_request();
	int mix = (int)noise_below(MIXES);
	bool good = swap(&swapped);
	for (uint32_t i = 0; good && i < count; i++) {
		enum call call = i == 0 ? START : draw_call(mix);
		draw_sending(&g, queue_length(&kept.t));
		good = sides_agree(&kept, call, &q, &g) && sides_agree(&swapped, call, &q, &g) && swap(&swapped);
	}
	return good && member_off(&kept.s, &swapped.s) == NULL;
}

static void traces(void)
{
	unsigned long off = 0;
	for (int i = 0; i < TRACES; i++) {
		off += !trace_agrees((uint32_t)noise_below(noise_below(2) ? 12 : MOST_STEPS));
	}
	check(off == 0, "swaps between calls: %lu of %d traces", off, TRACES);
}

/* ---- Lines that are off */

static unsigned long fronts_off, bytes_off, others;

static void cut(const struct line *line)
{
	for (size_t length = 0; length < line->length; length++) {
		fronts_off += !restore_gives(line->bytes, length, false, NULL);
	}
}

static void change(const struct line *line)
{
	static const uint8_t bytes[] = {'\t', '\n', '0', '1', '9', 'r', 'e'};
	for (size_t at = 0; at < line->length; at++) {
		for (size_t i = 0; i < sizeof bytes; i++) {
			struct line other = *line;
			struct sonerwal_transfer s;
			other.bytes[at] = bytes[i];
			bool taken = line_taken(other.bytes, other.length, &s);
			bytes_off += !restore_gives(other.bytes, other.length, taken, &s);
			others += taken && bytes[i] != line->bytes[at];
		}
	}
}

/* 02 a.5: no front of a line is taken, and one byte off it is only as another transfer's line */
static void lines_off(void)
{
	struct model t;
	for (int i = 0; i < LINES; i++) {
		draw_transfer(&t);
		struct sonerwal_transfer s = queue_shown(&t);
		struct line line = line_of(&s);
		cut(&line);
		change(&line);
	}
	check(fronts_off == 0, "fronts of a line: %lu", fronts_off);
	check(bytes_off == 0, "lines with one byte off: %lu", bytes_off);
	check(others > 0, "no line with one byte off was another's");
}

/* ---- What save is refused for, in its order */

static struct sonerwal_transfer longest(void)
{
	static const struct request q = {1000000000, 2000000000, 1024, 255};
	struct sonerwal_transfer s = face_call((struct sonerwal_transfer){0}, START, &q, NULL, NULL).state;
	for (int i = 0; i < 200; i++) {
		s = face_call(s, i % 2 ? LOST : FRAME, NULL, NULL, NULL).state;
	}
	for (int i = 0; i < 11; i++) {
		s = face_call(s, FRAME, NULL, NULL, NULL).state;
	}
	return face_call(s, NAK, NULL, NULL, NULL).state;
}

static void refusals(void)
{
	static const size_t rooms[] = {0, 68, 69, 70};
	struct sonerwal_transfer states[5];
	unsigned long off = 0;
	for (int i = 0; i < 5; i++) {
		states[i] = longest();
	}
	states[1].phase = 6;
	states[2].sent = 2;
	states[3].zero2 = 1;
	states[4].balance++;
	for (int form = 0; form < 256; form++) {
		for (int i = 0; i < 5; i++) {
			for (size_t room = 0; room < sizeof rooms / sizeof *rooms; room++) {
				off += !save_agrees(&states[i], i == 0, (uint8_t)form, rooms[room]);
			}
		}
	}
	check(off == 0, "forms, rooms and states: %lu", off);
	check(line_of(&states[0]).length == SONERWAL_SAVED_ROOM, "the longest line has %zu bytes", line_of(&states[0]).length);
}

/* ---- What was met; a line that no case showed is a failure */

static void show_line(const char *call, const char *said, unsigned long times)
{
	printf("%-8s %-18s %9lu\n", call, said, times);
	check(times > 0, "no case showed: %s %s", call, said);
}

static void show(void)
{
	static const char *const phases[] = {"new", "run", "drain", "done", "fail", "end"};
	for (uint8_t answer = 0; answer < SAVE_ANSWERS; answer++) {
		show_line("save", sonerwal_answer_name(answer), saves_met[answer]);
	}
	show_line("restore", sonerwal_answer_name(SONERWAL_REFUSED_UNLISTED), restores_met[SONERWAL_REFUSED_UNLISTED]);
	for (int phase = 0; phase < 6; phase++) {
		show_line("restore", phases[phase], phases_met[phase]);
	}
	printf("%lu lines with one byte off are another transfer's\n", others);
}

int main(int argc, char **argv)
{
	noise_begin(argc, argv, UINT64_C(0x50C1A110));
	agreed_lines();
	traces();
	lines_off();
	refusals();
	show();
	return check_end("saves");
}
