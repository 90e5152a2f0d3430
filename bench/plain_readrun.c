/*
 * readrun as a C engineer would write it: the same input, the same output, blocks read and written by the same system
 * calls. The transfer's state is the program's own, so no step tests it.
 */
#define _POSIX_C_SOURCE 200809L

#include <stdbool.h>
#include <stdint.h>
#include <string.h>
#include <unistd.h>

enum { BLOCK = 65536, LONGEST = 255, ROW = 71, BOUND = 64 };

enum phase { NEW, RUN, DRAIN, DONE, FAIL, END };

static struct {
	uint32_t offset, count, size, resends;
	uint32_t read, balance, unanswered, used;
	enum phase phase;
} state;

static uint64_t line;

/* ---- Output */

static char out[BLOCK];
static size_t filled;

static void flush(void)
{
	for (size_t done = 0; done < filled;) {
		ssize_t put = write(STDOUT_FILENO, out + done, filled - done);
		if (put <= 0) {
			_exit(0);
		}
		done += (size_t)put;
	}
	filled = 0;
}

static void put_text(const char *text, size_t len)
{
	memcpy(out + filled, text, len);
	filled += len;
}

static void put_number(uint64_t n)
{
	char digits[20];
	size_t at = sizeof digits;
	do {
		digits[--at] = (char)('0' + n % 10);
		n /= 10;
	} while (n > 0);
	put_text(digits + at, sizeof digits - at);
}

static void put_column(uint32_t n)
{
	out[filled++] = '\t';
	put_number(n);
}

static void put_row(const char *word, unsigned refusal)
{
	if (BLOCK - filled < ROW) {
		flush();
	}
	put_number(line);
	out[filled++] = '\t';
	if (refusal) {
		put_number(refusal);
	} else {
		put_text(word, strlen(word));
	}
	put_column(state.read);
	put_column(state.balance);
	put_column(state.unanswered);
	put_column(state.used);
	out[filled++] = '\n';
}

static void say(const char *word)
{
	put_row(word, 0);
}

static void refuse(unsigned refusal)
{
	put_row("", refusal);
}

/* ---- Steps */

static bool unfinished(void)
{
	return state.phase == RUN || state.phase == DRAIN;
}

static uint64_t end(void)
{
	return (uint64_t)state.offset + state.count;
}

static void start(uint32_t b, uint32_t n, uint32_t m, uint32_t r)
{
	if (n < 1 || (uint64_t)b + n > UINT32_MAX || m % 4 != 0 || m < 4 || m > 1024 || r > 255) {
		refuse(3);
	} else if (unfinished()) {
		refuse(6);
	} else {
		state.offset = state.read = state.balance = b;
		state.count = n;
		state.size = m;
		state.resends = r;
		state.unanswered = state.used = 0;
		state.phase = RUN;
		say("ok");
	}
}

static void frame(void)
{
	uint64_t left = end() - state.read;
	if (!unfinished()) {
		refuse(6);
	} else if (state.phase == DRAIN) {
		refuse(7);
	} else if (left == 0) {
		refuse(8);
	} else if (state.unanswered >= BOUND) {
		refuse(10);
	} else {
		state.read += left < state.size ? (uint32_t)left : state.size;
		state.unanswered++;
		say("sent");
	}
}

static void finish(enum phase phase, const char *word)
{
	state.unanswered = 0;
	state.phase = phase;
	say(word);
}

static void resend(void)
{
	state.read = state.balance;
	state.unanswered = 0;
	state.used++;
	state.phase = RUN;
	say("retry");
}

static void drain(void)
{
	if (state.unanswered == 0) {
		resend();
	} else {
		state.phase = DRAIN;
		say("drain");
	}
}

static bool due(void)
{
	if (unfinished() && state.unanswered > 0) {
		return true;
	}
	refuse(6);
	return false;
}

static void ack(void)
{
	if (!due()) {
		return;
	}
	state.unanswered--;
	if (state.phase == DRAIN) {
		drain();
	} else if (state.unanswered > 0) {
		say("ok");
	} else {
		state.balance = state.read;
		if (state.read == end()) {
			finish(DONE, "done");
		} else {
			say("ok");
		}
	}
}

static void nak(void)
{
	if (!due()) {
		return;
	}
	state.unanswered--;
	if (state.used == state.resends) {
		finish(FAIL, "fail");
	} else {
		drain();
	}
}

static void drop(void)
{
	if (!due()) {
		return;
	}
	if (state.used == state.resends) {
		finish(FAIL, "fail");
	} else {
		resend();
	}
}

static void stop(void)
{
	if (unfinished()) {
		finish(END, "end");
	} else {
		refuse(6);
	}
}

/* ---- Input */

static bool is(const char *s, size_t len, const char *word, size_t word_len)
{
	return len == word_len && memcmp(s, word, len) == 0;
}

/* The number at *s, which ends in a tab or at the end; *s moves behind it. */
static bool number(const char **s, const char *stop_at, uint32_t *n)
{
	const char *p = *s;
	uint64_t value = 0;
	if (p == stop_at || *p < '0' || *p > '9' || (*p == '0' && p + 1 < stop_at && p[1] != '\t')) {
		return false;
	}
	for (; p < stop_at && *p >= '0' && *p <= '9'; p++) {
		value = value * 10 + (uint64_t)(*p - '0');
		if (value > UINT32_MAX) {
			return false;
		}
	}
	*n = (uint32_t)value;
	*s = p;
	return true;
}

static bool tab(const char **s, const char *stop_at)
{
	return *s < stop_at && *(*s)++ == '\t';
}

static bool numbers(const char *s, const char *stop_at, uint32_t n[4])
{
	for (int i = 0; i < 4; i++) {
		if (!tab(&s, stop_at) || !number(&s, stop_at, &n[i])) {
			return false;
		}
	}
	return s == stop_at;
}

#define IS(word) is(s, len, word, sizeof word - 1)

static void take_line(const char *s, size_t len)
{
	uint32_t n[4];
	if (line < UINT64_MAX) {
		line++;
	}
	if (len > LONGEST) {
		refuse(2);
	} else if (IS("FRAME")) {
		frame();
	} else if (IS("ACK")) {
		ack();
	} else if (IS("NAK")) {
		nak();
	} else if (IS("TIMEOUT") || IS("LOST")) {
		drop();
	} else if (IS("NEXUS") || IS("CANCEL")) {
		stop();
	} else if (len > 5 && memcmp(s, "START", 5) == 0 && numbers(s + 5, s + len, n)) {
		start(n[0], n[1], n[2], n[3]);
	} else {
		refuse(2);
	}
}

/* The line that has begun; of one that is too long only as much as tells that. */
static char begun[LONGEST + 1];
static size_t begun_len;

static void hold(const char *s, size_t len)
{
	size_t room = sizeof begun - begun_len;
	size_t n = len < room ? len : room;
	memcpy(begun + begun_len, s, n);
	begun_len += n;
}

static void feed(const char *s, size_t len)
{
	const char *stop_at = s + len;
	while (s < stop_at) {
		const char *lf = memchr(s, '\n', (size_t)(stop_at - s));
		if (!lf) {
			hold(s, (size_t)(stop_at - s));
			return;
		}
		if (begun_len > 0) {
			hold(s, (size_t)(lf - s));
			take_line(begun, begun_len);
			begun_len = 0;
		} else {
			take_line(s, (size_t)(lf - s));
		}
		s = lf + 1;
	}
}

int main(void)
{
	static char block[BLOCK];
	ssize_t got;
	while ((got = read(STDIN_FILENO, block, sizeof block)) > 0) {
		feed(block, (size_t)got);
	}
	if (begun_len > 0) {
		take_line(begun, begun_len);
	}
	flush();
	return 0;
}
