/* material.h: what the calls are tried on: sheets and their texts, engine rows, hostile numbers, and ways to damage a text. */
#ifndef WILLOWBLINK_MATERIAL_H
#define WILLOWBLINK_MATERIAL_H

#include "willowblink.h"

#define SHEET_NUMBERS 93
#define FIRST_FITTING 45 /* from here on a weight and a count in turn */

/* The place of some of a sheet's numbers. */
enum { HULL_NUMBER = 0, LENGTH_NUMBER = 1, REFERENCE_NUMBER = 2, FIRST_READING = 7, AFT_NUMBER = 35, BARE_NUMBER = 38,
       MACHINERY_NUMBER = 40, TESTED_NUMBER = 44 };

/* The limits of a sheet's number, by its place, as a text may have them. Those of a count hang on the weight too: see heaviest. */
uint32_t lowest(int number);
uint32_t highest(int number);

/* The most that one of so many pieces may weigh. */
uint32_t heaviest(uint32_t count);

uint32_t *numbers_of(wb_sheet *sheet);

/* What the boat weighs by a sheet, in grams: the bare boat and all pieces on every line. */
uint64_t grams_of(const wb_sheet *sheet);

/* The base hull of the samples: 4500 by 1200, positions 5, not tested, declared 20000. */
wb_sheet base_hull(void);

/* Every number at its highest, and every line 500000 g of one piece: no text is longer. */
wb_sheet highest_sheet(void);

/* A fitting within the limits, often of the most that a line may weigh. */
wb_fitting random_fitting(void);

/* A sheet within the limits: anything, at the limits, or one that a plate can be made of. */
wb_sheet random_sheet(void);

/* Texts of at most so many bytes are made and damaged here. */
#define TEXT_ROOM 16000

/* The text of a sheet, whose numbers may be anything; its size is the answer. A line is left out only where both its numbers are 0. */
size_t text_of(const wb_sheet *sheet, uint8_t *text);

/* The same without the count on the lines whose bit is set, the lowest bit for line 1, if it is 1 there: such a line says the same without it. */
size_t short_text_of(const wb_sheet *sheet, uint32_t lines, uint8_t *text);

/* Engine rows, rising, and their text. */
void random_rows(uint32_t *powers, uint32_t *weights, size_t rows);
size_t text_of_rows(const uint32_t *powers, const uint32_t *weights, size_t rows, uint8_t *text);

/* Sheet and engine texts as the calls should be tried on: mostly right, else damaged in one to three ways. */
size_t random_sheet_text(uint8_t *text);
size_t random_engine_text(uint8_t *text);

/* Changes that a systematic test makes too. Each answers the new size. */
size_t replace_field(uint8_t *text, size_t size, size_t field, const char *by);
size_t count_fields(const uint8_t *text, size_t size);
size_t insert_bytes(uint8_t *text, size_t size, size_t at, const char *bytes);
size_t delete_bytes(uint8_t *text, size_t size, size_t at, size_t count);

/* Where a field starts, tags counted too; its end is the next tab or line feed. */
size_t field_start(const uint8_t *text, size_t size, size_t field);

/* How many bytes of a text come before a line and a byte in it, both from 1; NOWHERE if the text has no such byte and does not end there. */
#define NOWHERE ((size_t)-1)
size_t offset_of(const uint8_t *text, size_t size, uint32_t line, uint32_t byte);

/* Numbers at and beside every limit, the highest ones, and ones with a single bit too many. */
uint32_t hostile_number(void);

#endif
