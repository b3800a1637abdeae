/* steps.h: steps that several parts of the test program take. */
#ifndef WILLOWBLINK_STEPS_H
#define WILLOWBLINK_STEPS_H

#include "compare.h"

/* Lends a memory of the right size and makes it fresh. */
void start_fresh(void);

/* Lends a text, a sheet's text, or an output with other bytes in it. */
void lend_text(const char *text);
void lend_text_of(const wb_sheet *sheet);
void lend_out(size_t size);

/* Lends two slices of so many words, also with other words in them. */
void lend_slices(size_t powers, size_t weights);

/* The byte that such outputs and slices are filled with, and a check that it still stands from a place on. */
#define OTHER_BYTE 0xC3
void insist_untouched(enum buffer buffer, size_t from);

/*
 * A call that is told of 2^32 elements more than are lent, less one or not, or of a higher power of two, of one buffer or of two: so it must answer. A
 * call that asks the length first and touches only what it must cannot tell that they are not there; one that goes by the lower half of the length,
 * which is what is lent or one less, answers something else.
 */
void expect_beyond(struct call call, enum buffer one, enum buffer other, uint32_t refusal, uint32_t first);

/* Reads the text that is lent as a sheet: into a wb_sheet, as a new hull and into a draft, which must all say the same of it. */
wb_answer read_sheet(void);

/* Reads it as engine rows, into slices of so many words. */
wb_answer read_engines(size_t powers, size_t weights);

/* The text that is lent was to be refused so, with a place so many bytes after the start of a field; tags count as fields too. */
void expect_at_field(wb_answer answer, uint32_t refusal, size_t field, uint32_t bytes);

/* Lends engine rows as the plate calls take them. */
void lend_rows(const uint32_t *powers, const uint32_t *weights, size_t rows);

/* From a fresh start enters a sheet as hull 0, and opens it at desk 3. */
void enter_alone(const wb_sheet *sheet);

/* Plate A, C or U of a sheet alone in a register, as a hull and as a draft: both must answer so. Plate C is worked with the rows that are lent. */
void expect_plate(char plate, const wb_sheet *sheet, uint32_t refusal, uint32_t first, uint32_t second);

/* The same, of a plate that is accepted, for the load or the power alone. */
void expect_load(char plate, const wb_sheet *sheet, uint32_t load);
void expect_power(const wb_sheet *sheet, uint32_t watts);

#endif
