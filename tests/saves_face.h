/* The two calls of a saved transfer, and the second writer and reader beside them. */
#ifndef SONERWAL_TESTS_SAVES_FACE_H
#define SONERWAL_TESTS_SAVES_FACE_H

#include "saves_model.h"

/* The longest line that is tried. */
enum { LONGEST_LINE = 70000 };

/*
 * Whether save answers as it should of a transfer that calls leave, or that none leave, and writes the line and no other byte. What
 * doesn't agree is described, the first few times.
 */
bool save_agrees(const struct sonerwal_transfer *s, bool is_left, uint8_t form, size_t room);

/* Whether restore takes the line exactly if it should, gives this transfer, or all zeros, and only reads the line's own bytes. */
bool restore_gives(const uint8_t *line, size_t length, bool taken, const struct sonerwal_transfer *s);

/* The same, with the second reader to say it. */
bool restore_agrees(const uint8_t *line, size_t length);

/* How often the two above met each answer, and restore each phase. */
enum { SAVE_ANSWERS = 4 };
extern unsigned long saves_met[SAVE_ANSWERS], restores_met[SAVE_ANSWERS], phases_met[6];

#endif
