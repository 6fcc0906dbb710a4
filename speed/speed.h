/* What the two files of the speed program share. */
#ifndef SPEED_H
#define SPEED_H

#include "plain.h"

typedef void job(void);

/* Tells and counts a difference. */
void same(bool is_same, const char *what, const char *size);

bool same_sample(orb_sample a, orb_sample b);

/* The microseconds of a call of each, the best of the rounds. */
void timed(job *proved, job *plain, double *a, double *b);

/* A row of the report. */
void line(const char *what, const char *size, double a, double b, const char *goal);

/* The rows of pages by this table and of this frame, which fits it. */
void measured_pages(const uint8_t *table, size_t table_len, uint16_t *words, size_t words_len, const char *size);

#endif
