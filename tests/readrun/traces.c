/*
 * Random traces for readrun, and a reference for what it prints. The reference keeps a queue of the frames on the wire and
 * reads a number by writing it again; it shares nothing with the program. Demand 3 is checked apart from it, on the
 * lines that went in and came out alone.
 *
 * usage: traces make SEED COUNT            COUNT traces
 *        traces edges                      a line for each place at which a block of 65,536 bytes can end in it
 *        traces check INPUT OUTPUT         whether OUTPUT is what readrun prints for INPUT
 */
#include <inttypes.h>
#include <stdbool.h>
#include <stdio.h>
#include <stdlib.h>
#include <string.h>

enum { BOUND = 64, LONGEST = 255, BLOCK = 65536, REQUEST = 4096 };

static void fail(const char *what)
{
	fprintf(stderr, "traces: %s\n", what);
	exit(2);
}

/* ---- The reference */

struct frame {
	uint64_t at, len;
};

static struct {
	bool begun, over, nak;
	uint64_t offset, count, size, resends;
	uint64_t next, balance, used; /* where the next frame begins */
	struct frame wire[BOUND];     /* sent and unanswered, the oldest first */
	unsigned unanswered;
} model;

static bool underway(void)
{
	return model.begun && !model.over;
}

static const char *start(const uint64_t n[4])
{
	if (n[1] < 1 || n[0] + n[1] > UINT32_MAX || n[2] < 4 || n[2] > 1024 || n[2] % 4 || n[3] > 255) {
		return "3";
	}
	if (underway()) {
		return "6";
	}
	memset(&model, 0, sizeof model);
	model.begun = true;
	model.offset = model.next = model.balance = n[0];
	model.count = n[1];
	model.size = n[2];
	model.resends = n[3];
	return "ok";
}

static const char *frame(void)
{
	uint64_t left = model.offset + model.count - model.next;
	if (!underway()) {
		return "6";
	}
	if (model.nak) {
		return "7";
	}
	if (left == 0) {
		return "8";
	}
	if (model.unanswered == BOUND) {
		return "10";
	}
	model.wire[model.unanswered++] = (struct frame){model.next, left < model.size ? left : model.size};
	model.next += model.wire[model.unanswered - 1].len;
	return "sent";
}

static const char *finish(const char *word)
{
	model.over = true;
	model.unanswered = 0;
	return word;
}

static const char *resend(void)
{
	if (model.used == model.resends) {
		return finish("fail");
	}
	model.used++;
	model.next = model.balance;
	model.nak = false;
	model.unanswered = 0;
	return "retry";
}

static struct frame oldest(void)
{
	struct frame first = model.wire[0];
	memmove(model.wire, model.wire + 1, --model.unanswered * sizeof *model.wire);
	return first;
}

static const char *answer(bool good)
{
	if (!underway() || model.unanswered == 0) {
		return "6";
	}
	struct frame last = oldest();
	if (!good && model.used == model.resends) {
		return finish("fail");
	}
	model.nak = model.nak || !good;
	if (model.nak) {
		return model.unanswered > 0 ? "drain" : resend();
	}
	if (model.unanswered > 0) {
		return "ok";
	}
	model.balance = last.at + last.len;
	return model.balance == model.offset + model.count ? finish("done") : "ok";
}

static const char *drop(void)
{
	return !underway() || model.unanswered == 0 ? "6" : resend();
}

static const char *stop(void)
{
	return underway() ? finish("end") : "6";
}

/* ---- A line */

/* Whether these bytes are a number as it is written. */
static bool number(const char *s, size_t len, uint64_t *n)
{
	char text[16], again[32];
	if (len == 0 || len >= sizeof text || memchr(s, 0, len)) {
		return false;
	}
	memcpy(text, s, len);
	text[len] = 0;
	*n = strtoull(text, NULL, 10);
	snprintf(again, sizeof again, "%" PRIu64, *n);
	return *n <= UINT32_MAX && strcmp(text, again) == 0;
}

/* The numbers of "START<tab>B<tab>N<tab>M<tab>R". */
static bool numbers(const char *s, size_t len, uint64_t n[4])
{
	for (int i = 0; i < 4; i++) {
		const char *tab = i < 3 ? memchr(s, '\t', len) : s + len;
		if (!tab || !number(s, (size_t)(tab - s), &n[i])) {
			return false;
		}
		len -= i < 3 ? (size_t)(tab - s) + 1 : len;
		s = tab + 1;
	}
	return true;
}

static bool is(const char *s, size_t len, const char *word)
{
	return len == strlen(word) && memcmp(s, word, len) == 0;
}

static const char *take(const char *s, size_t len)
{
	uint64_t n[4];
	if (len > LONGEST) {
		return "2";
	}
	if (len > 6 && memcmp(s, "START\t", 6) == 0) {
		return numbers(s + 6, len - 6, n) ? start(n) : "2";
	}
	return is(s, len, "FRAME")    ? frame()
	       : is(s, len, "ACK")    ? answer(true)
	       : is(s, len, "NAK")    ? answer(false)
	       : is(s, len, "TIMEOUT") ? drop()
	       : is(s, len, "LOST")   ? drop()
	       : is(s, len, "NEXUS")  ? stop()
	       : is(s, len, "CANCEL") ? stop()
	                              : "2";
}

/* ---- Making traces */

static uint64_t seed;

static uint64_t below(uint64_t n)
{
	seed ^= seed << 13;
	seed ^= seed >> 7;
	seed ^= seed << 17;
	return seed % n;
}

/* Puts a line out and lets the reference take it, so that what follows can fit its state. */
static void put(const char *s, size_t len)
{
	take(s, len);
	fwrite(s, 1, len, stdout);
	putchar('\n');
}

static void put_word(const char *word)
{
	put(word, strlen(word));
}

static void put_start(void)
{
	static const uint64_t near_end[] = {UINT32_MAX - 100, UINT32_MAX - 1, UINT32_MAX};
	char line[80];
	uint64_t b = below(4) ? below(10000) : near_end[below(3)];
	uint64_t n = below(8) ? 1 + below(REQUEST) : below(3);
	uint64_t m = below(8) ? 4 * (1 + below(below(2) ? 256 : 8)) : below(1100);
	uint64_t r = below(8) ? below(4) : 254 + below(3);
	snprintf(line, sizeof line, "START\t%" PRIu64 "\t%" PRIu64 "\t%" PRIu64 "\t%" PRIu64, b, n, m, r);
	put_word(line);
}

static void put_bad(void)
{
	static const char *const bad[] = {
		"", "frame", "Ack", "FRAME\t", "\tFRAME", "ACK ", " ACK", "FRAME\t1", "ACK\r", "START", "START\t", "NACK",
		"START\t0\t8\t4", "START\t0\t8\t4\t1\t", "START\t0\t8\t4\t1\t0", "START\t0\t\t8\t4\t1", "START\t00\t8\t4\t1",
		"START\t+0\t8\t4\t1", "START\t-1\t8\t4\t1", "START\t0\t8\t4\t01", "START\t0\t4294967296\t4\t1",
		"START\t99999999999\t8\t4\t1", "START 0 8 4 1", "START\t0\t8\t4\tx", "TIMEOUT\tLOST", "CANCEL\f"};
	char line[400];
	size_t kinds = sizeof bad / sizeof *bad;
	size_t kind = below(kinds + 3);
	if (kind < kinds) {
		put_word(bad[kind]);
	} else if (kind == kinds) {
		put("FRAME\0", 6);
	} else {
		size_t len = LONGEST - 1 + below(4) + (below(4) ? 0 : 100);
		memset(line, kind % 2 ? 'A' : '0', sizeof line);
		put(line, len);
	}
}

static void put_any(void)
{
	static const char *const words[] = {"FRAME", "ACK", "NAK", "TIMEOUT", "LOST", "NEXUS", "CANCEL"};
	static const unsigned weights[] = {40, 36, 4, 2, 2, 1, 1};
	unsigned at = 0, pick = (unsigned)below(86);
	while (pick >= weights[at]) {
		pick -= weights[at++];
	}
	put_word(words[at]);
}

static void put_trace(void)
{
	unsigned lines = 1 + (unsigned)below(below(4) ? 40 : 400);
	unsigned rush = below(6) == 0 ? 80 : 0;
	put_start();
	while (rush--) {
		put_word("FRAME");
	}
	while (lines--) {
		if (below(16) == 0) {
			put_bad();
		} else if (below(60) == 0 || (model.over && below(3))) {
			put_start();
		} else {
			put_any();
		}
	}
	put_word("CANCEL");
}

static void make(uint64_t from, unsigned long count)
{
	seed = from * 2654435761u + 1;
	while (count--) {
		put_trace();
	}
}

/* A block ends behind each byte of this line, and before it. */
static void edges(void)
{
	static const char line[] = "START\t1234567890\t4000\t1024\t200";
	size_t put_so_far = 0;
	for (size_t cut = 0; cut < sizeof line; cut++) {
		size_t fill = BLOCK - put_so_far % BLOCK - cut;
		while (fill > 0) {
			size_t len = fill < 100 ? fill - 1 : 60;
			for (size_t i = 0; i < len; i++) {
				putchar('A' + (int)(i % 26));
			}
			putchar('\n');
			fill -= len + 1;
			put_so_far += len + 1;
		}
		printf("%s\nCANCEL\n", line);
		put_so_far += sizeof line + 7;
	}
}

/* ---- Checking */

static unsigned long passed, failed;

static void check(bool good, const char *what, unsigned long line)
{
	if (good) {
		passed++;
	} else if (failed++ < 10) {
		printf("FAILED: line %lu: %s\n", line, what);
	}
}

/* Demand 3, from what went in and what came out. */
static struct {
	uint64_t offset, end;
	struct frame wire[BOUND];
	unsigned waiting;
	bool acked[REQUEST];
	bool fresh;               /* no frame was sent yet in the attempt */
	bool clean;               /* every answer of the attempt was an ACK */
	struct frame last;        /* the latest frame of the attempt */
	uint64_t read, balance;   /* of the line before */
} seen;

static void see_frame(uint64_t read, unsigned long line)
{
	struct frame sent = {seen.read, read - seen.read};
	check(!seen.fresh || sent.at == seen.balance, "an attempt begins at another place than the balance point", line);
	check(seen.waiting < BOUND, "more than 64 frames are unanswered", line);
	check(sent.len > 0 && sent.at >= seen.offset && read <= seen.end, "a frame lies outside the request", line);
	seen.wire[seen.waiting++ % BOUND] = sent;
	seen.last = sent;
	seen.fresh = false;
}

static void see_answer(bool good)
{
	struct frame first = seen.wire[0];
	memmove(seen.wire, seen.wire + 1, --seen.waiting * sizeof *seen.wire);
	seen.clean = seen.clean && good;
	for (uint64_t x = first.at; good && x < first.at + first.len; x++) {
		seen.acked[x - seen.offset] = true;
	}
}

static bool covered(uint64_t to)
{
	for (uint64_t x = seen.offset; x < to; x++) {
		if (!seen.acked[x - seen.offset]) {
			return false;
		}
	}
	return true;
}

struct row {
	unsigned long line;
	char word[8];
	uint64_t read, balance, unanswered, used;
};

static void see(const char *s, size_t len, const struct row *row)
{
	uint64_t n[4];
	bool refused = row->word[0] >= '0' && row->word[0] <= '9';
	if (!refused && len > 6 && numbers(s + 6, len - 6, n)) {
		memset(&seen, 0, sizeof seen);
		seen.offset = n[0];
		seen.end = n[0] + n[1];
		seen.fresh = seen.clean = true;
	} else if (!refused && is(s, len, "FRAME")) {
		see_frame(row->read, row->line);
	} else if (!refused && (is(s, len, "ACK") || is(s, len, "NAK"))) {
		see_answer(s[0] == 'A');
	}
	if (strcmp(row->word, "retry") == 0) {
		seen.waiting = 0;
		seen.fresh = seen.clean = true;
	}
	check(seen.offset <= row->balance && row->balance <= seen.end, "the balance point lies outside the request", row->line);
	check(covered(row->balance), "a byte before the balance point was in no ACKed frame", row->line);
	check(strcmp(row->word, "done") != 0 || covered(seen.end), "delivered, with a byte that was not ACKed", row->line);
	if (!seen.fresh && seen.clean && seen.waiting == 0) {
		check(row->balance == seen.last.at + seen.last.len, "all frames were ACKed, and the balance point is elsewhere",
		      row->line);
	}
	if (strcmp(row->word, "fail") != 0 && strcmp(row->word, "end") != 0 && !refused) {
		check(row->unanswered == seen.waiting, "the count is not that of the frames without an answer", row->line);
	}
	seen.read = row->read;
	seen.balance = row->balance;
}

/* How often each word and refusal came. */
static struct {
	const char *word;
	unsigned long times;
} counts[] = {{"ok", 0}, {"sent", 0}, {"drain", 0}, {"retry", 0}, {"done", 0}, {"fail", 0}, {"end", 0},
              {"2", 0},  {"3", 0},    {"6", 0},     {"7", 0},     {"8", 0},    {"10", 0}};

static void count(const char *word)
{
	for (size_t i = 0; i < sizeof counts / sizeof *counts; i++) {
		counts[i].times += strcmp(counts[i].word, word) == 0;
	}
}

struct text {
	char *bytes;
	size_t len;
};

static struct text load(const char *path)
{
	FILE *file = fopen(path, "rb");
	struct text text = {NULL, 0};
	size_t got, room = 0;
	if (!file) {
		fail(path);
	}
	do {
		room = 2 * room + 65536;
		text.bytes = realloc(text.bytes, room);
		if (!text.bytes) {
			fail("no memory");
		}
		got = fread(text.bytes + text.len, 1, room - text.len, file);
		text.len += got;
	} while (got > 0);
	fclose(file);
	return text;
}

/* The next line of a text from *at on; false at its end. */
static bool next_line(struct text text, size_t *at, const char **s, size_t *len)
{
	if (*at >= text.len) {
		return false;
	}
	const char *lf = memchr(text.bytes + *at, '\n', text.len - *at);
	*s = text.bytes + *at;
	*len = lf ? (size_t)(lf - *s) : text.len - *at;
	*at += *len + 1;
	return true;
}

/* The columns of a line that came out. */
static bool columns(const char *s, size_t len, struct row *row)
{
	char text[128];
	if (len >= sizeof text) {
		return false;
	}
	memcpy(text, s, len);
	text[len] = 0;
	return sscanf(text, "%lu\t%7[a-z0-9]\t%" SCNu64 "\t%" SCNu64 "\t%" SCNu64 "\t%" SCNu64, &row->line, row->word,
	              &row->read, &row->balance, &row->unanswered, &row->used) == 6;
}

/* Whether the reference prints this. */
static bool expected(const char *s, size_t len, unsigned long line, const char *got, size_t got_len)
{
	char want[128];
	const char *word = take(s, len);
	int n = snprintf(want, sizeof want, "%lu\t%s\t%" PRIu64 "\t%" PRIu64 "\t%u\t%" PRIu64, line, word, model.next,
	                 model.balance, model.unanswered, model.used);
	return got_len == (size_t)n && memcmp(got, want, got_len) == 0;
}

static void compare(struct text in, struct text out)
{
	size_t at = 0, behind = 0, len, got_len;
	const char *s, *got;
	struct row row;
	unsigned long line = 0;
	while (next_line(in, &at, &s, &len)) {
		line++;
		if (!next_line(out, &behind, &got, &got_len) || !columns(got, got_len, &row)) {
			check(false, "no line of six columns came out", line);
			return;
		}
		check(expected(s, len, line, got, got_len), "the reference prints another line", line);
		see(s, len, &row);
		count(row.word);
	}
	check(!next_line(out, &behind, &got, &got_len), "more lines came out than went in", line);
	check(out.len == 0 || out.bytes[out.len - 1] == '\n', "the output does not end in LF", line);
}

static int show(void)
{
	printf("words and refusals:");
	for (size_t i = 0; i < sizeof counts / sizeof *counts; i++) {
		printf(" %s %lu", counts[i].word, counts[i].times);
	}
	printf("\n%lu passed, %lu failed\n", passed, failed);
	return failed ? EXIT_FAILURE : EXIT_SUCCESS;
}

int main(int argc, char **argv)
{
	if (argc == 4 && strcmp(argv[1], "make") == 0) {
		make(strtoull(argv[2], NULL, 10), strtoul(argv[3], NULL, 10));
	} else if (argc == 2 && strcmp(argv[1], "edges") == 0) {
		edges();
	} else if (argc == 4 && strcmp(argv[1], "check") == 0) {
		compare(load(argv[2]), load(argv[3]));
		return show();
	} else {
		fail("usage: traces make SEED COUNT | traces edges | traces check INPUT OUTPUT");
	}
	return EXIT_SUCCESS;
}
