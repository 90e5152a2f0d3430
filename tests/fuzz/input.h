/* An input taken byte by byte, with zeros past its end, and what is required of a call. */
#ifndef SONERWAL_TESTS_FUZZ_INPUT_H
#define SONERWAL_TESTS_FUZZ_INPUT_H

#include <stddef.h>
#include <stdint.h>

enum { ROOM = 1200, NOISE = 0xA5 };

struct input {
	const uint8_t *at, *end;
};

uint64_t number(struct input *in, unsigned bytes);

/* As many bytes as a struct has, in the order of the input. */
void fill(struct input *in, void *to, size_t len);

/* The rest of the input, or as much as there is room for; gives how much. */
size_t rest(struct input *in, uint8_t *to);

/* Ends the run if something isn't as it should be. */
void require(int good, const char *what);

/* The calls of a write's frames, in write_frames.c. */
void try_write_frame(struct input *in);

/* The machines' calls, in machines.c, port.c and writes.c. */
void try_transfer(struct input *in);
void try_link(struct input *in);
void try_port(struct input *in);
void try_writes(struct input *in);
void try_replies(struct input *in);

/* Saved transfers, in saves.c: a line, a transfer, and a transfer that some calls led to. */
struct sonerwal_transfer;
void try_restore(struct input *in);
void try_save(struct input *in);
void try_saved(const struct sonerwal_transfer *s, uint8_t form, size_t room);

#endif
