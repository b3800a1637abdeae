/*
 * compare.h: makes one call of the library and the same call of the reference, each on buffers of its own that end or start at an unreadable page,
 * and holds every figure and every lent byte of the one to the other.
 */
#ifndef WILLOWBLINK_COMPARE_H
#define WILLOWBLINK_COMPARE_H

#include "willowblink.h"

enum kind { FRESH, NEW_HULL, OPEN, SET_FITTING, REPLACE, TRIAL_A, TRIAL_C, TRIAL_U, SAVE, DROP, PLATE_A, PLATE_C,
            PLATE_U, WEIGH, WRITE_HULL, READ_SHEET, WRITE_SHEET, READ_ENGINES, KINDS };

/* The buffers that a call can be lent. */
enum buffer { MEMORY, TEXT, OUT, POWERS, WEIGHTS, SHEET, BUFFERS };

#define ROOM_WORDS 5120

struct contents {
    size_t size;   /* in bytes; a buffer of words has a multiple of four */
    size_t beyond; /* elements that a call is told of on top of these; none of them is there to be touched */
    uint32_t words[ROOM_WORDS];
};

/* What the next call is lent. After an accepted call it holds what that call made of it. */
extern struct contents lent[BUFFERS];

struct call {
    enum kind kind;
    uint32_t desk, hull, line, weight, count;
};

/*
 * Makes a call on what is lent. Ends the program with a report at the first difference, where a memory that is not
 * refused keeps a weight that is not that of its sheet, and where a word was changed that the call is not said to
 * write.
 */
wb_answer attempt(struct call call);

/* Holds the answer of the last call to what the rules say of it in so many figures. */
void expect(wb_answer answer, uint32_t refusal, uint32_t first, uint32_t second);

/* Ends the program with a report unless something holds. */
void insist(int holds, const char *what);

/* What is being tried, for the report; and the seed that the random numbers come from. */
void begin_part(const char *name);
void begin_compare(uint64_t seed);

unsigned long calls_made(void);

/* The table of answers seen for every call, and the most stack that it took. Ends the program if an answer that the header names was never seen. */
void print_answers_seen(void);

/*
 * Of every call that reads a text, how many of its lines were at fault, with 2 and with 3, and how often it was too long. Ends the program if a line
 * that can be at fault never was.
 */
void print_lines_at_fault(void);

uint8_t *lent_bytes(enum buffer buffer);
uint8_t *lend(enum buffer buffer, size_t size);

#endif
